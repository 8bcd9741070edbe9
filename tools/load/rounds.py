"""Rounds that take turns between peers, and the middle of what they find."""
import os
import pathlib
import resource
import shutil
import statistics
import subprocess

# what ends the measures of one peer and of no other: what it says of itself, and what a server that fails leads to
FAILURES = (SystemExit, OSError, ValueError, LookupError, subprocess.SubprocessError)


class CannotMeasure(SystemExit):
    """Why something can't be measured, in a sentence; a tool that doesn't catch it ends with that sentence."""


def middle(found):
    """The middle of what was measured: of numbers, or of tuples of numbers field by field."""
    if not isinstance(found[0], tuple):
        return statistics.median(found)
    fields = map(statistics.median, zip(*found))
    return type(found[0])(*fields) if hasattr(found[0], "_fields") else tuple(fields)


def all_rounds(peers, rounds):
    """What each peer measures, round by round, in turns; of one that can't measure once, why."""
    found = {name: [] for name in peers}
    for _ in range(rounds):
        for name, measure in peers.items():
            if isinstance(found[name], str):
                continue
            try:
                found[name].append(measure())
            except FAILURES as why:
                found[name] = str(why) or type(why).__name__
    return found


def middles(found):
    """The middle of the rounds of each peer; of one that can't measure, why."""
    return {name: one if isinstance(one, str) else middle(one) for name, one in found.items()}


def seconds_of(words, given, written, limit):
    """The seconds of a processor that a program takes to its end, from a file and into another; at most so many."""
    with pathlib.Path(given).open("rb") as source, pathlib.Path(written).open("wb") as sink:
        child = subprocess.Popen(words, stdin=source, stdout=sink, stderr=subprocess.DEVNULL,
                                 preexec_fn=lambda: resource.setrlimit(resource.RLIMIT_CPU, (limit, limit)))
        _, status, used = os.wait4(child.pid, 0)
    child.returncode = os.waitstatus_to_exitcode(status)
    if child.returncode < 0:
        raise CannotMeasure(f"it took more than {limit} s of a processor")
    if child.returncode:
        raise CannotMeasure(f"{pathlib.Path(words[0]).name} ended with status {child.returncode}")
    return used.ru_utime + used.ru_stime


def peak_kib(words, given):
    """The most KiB that a program has resident until its end, by GNU time: of a process that is forked from here the
    system counts what this one has, too."""
    measured = shutil.which("time")
    if not measured:
        raise CannotMeasure("GNU time isn't installed")
    with pathlib.Path(given).open("rb") as source:
        run = subprocess.run([measured, "-f", "%M", *words], stdin=source, stdout=subprocess.DEVNULL, stderr=subprocess.PIPE, text=True)
    if run.returncode:
        raise CannotMeasure(f"{pathlib.Path(words[0]).name} ended with status {run.returncode}")
    return int(run.stderr.split()[-1])
