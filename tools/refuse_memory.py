#!/usr/bin/env python3
"""Plays each example again and again, each time with one request for memory refused, the first one first, and compares
what comes of it: the same output as ever, or with status 3 a front of it. Where connections are open the server may also
go on, as it does for want of memory: a reply of 0x0505, an LPD byte 01, a connection that is closed. A recorded day then
differs from its record: status 1, and the output before the difference. In the exchanges of
Print-Jobs alone 0x0505 has to be among the answers, and never with a job: the ids of the jobs that are taken follow one
another, and there is no plan more than these. Ends with status 1 where anything else came.

    tools/refuse_memory.py [--each N] [NAME..]      (all examples where none is named)

With --each N at most N requests of an example are refused, at even distances. PRINTD names the program; without it, it is
the one that ./printd built. It wants a C compiler.
"""
import argparse
import collections
import os
import pathlib
import re
import subprocess
import sys
import tempfile

sys.path.insert(0, str(pathlib.Path(__file__).resolve().parent / "clients"))
from running import PROGRAM, TOP  # noqa: E402

EXAMPLES = TOP / "crates/play_examples/data"
SECONDS = 60
# examples whose requests are Print-Jobs alone, each of which makes a job or none
PRINTS = ("http_exchange", "exchange_at_once", "chunked_at_once")
BUSY = b"\x01\x01\x05\x05"
TAKEN = b"\x01\x01\x00\x00"
JOB_ID = b"\x21\x00\x06job-id\x00\x04"


def command(example):
    """The words that play an example: a day, which has settings beside it, is simulated or drawn."""
    settings = example.with_suffix(".toml")
    if example.suffix == ".csv":
        return [PROGRAM, "simulate", "--settings", settings, "--jobs", example]
    if settings.exists():
        return [PROGRAM, "draw", "--trace", example]
    return [PROGRAM, "check"] if example.suffix == ".plan" else [PROGRAM, "replay"]


def play(library, example, refused):
    """The status and the output where the request of this number is refused, and how many requests there were."""
    told, tells = os.pipe()
    environment = {**os.environ, "LD_PRELOAD": library, "REFUSE": str(refused), "COUNT_TO": str(tells)}
    with example.open("rb") as events:
        run = subprocess.run(
            command(example), stdin=events, stdout=subprocess.PIPE, stderr=subprocess.DEVNULL,
            env=environment, pass_fds=[tells], timeout=SECONDS, check=False)
    os.close(tells)
    with os.fdopen(told) as count:
        words = count.read().split()
    return run.returncode, run.stdout, int(words[-1]) if words else 0


def outcome(run, wanted, example):
    """What came of a refused request."""
    status, output, _ = run
    day = example.read_bytes()
    connects = b"\nopen " in day
    if (status, output) == wanted[:2]:
        return "as ever"
    if connects and status == wanted[0]:
        return "went on"
    if b"\nrecorded " in day and status == 1 and wanted[1].startswith(output):
        return "differed"
    return "stopped" if status == 3 and (connects or wanted[1].startswith(output)) else "wrong"


def bodies(output):
    """The bodies of the replies of IPP that the peers got."""
    got = collections.defaultdict(bytes)
    for line in output.decode().splitlines():
        words = line.split()
        if words[:1] == ["out"]:
            got[words[1]] += bytes.fromhex(words[2])
    for stream in got.values():
        while b"\r\n\r\n" in stream:
            head, _, stream = stream.partition(b"\r\n\r\n")
            length = re.search(rb"Content-Length: (\d+)", head)
            size = int(length.group(1)) if length else 0
            yield stream[:size]
            stream = stream[size:]


def has_job_of_none(output):
    """Whether a job exists whose request was answered 0x0505: an id was passed over, or a job too many was planned."""
    taken = [body for body in bodies(output) if body.startswith(TAKEN)]
    ids = sorted(int.from_bytes(body.partition(JOB_ID)[2][:4], "big") for body in taken)
    plans = sum(line.startswith(b"plan ") for line in output.splitlines())
    return ids != list(range(1, len(ids) + 1)) or plans > len(ids)


def refuse_each(library, example, most):
    """How many requests there were, how many runs ended in which way, and after which requests something else came."""
    wanted = play(library, example, 0)
    ways, wrong, busy = collections.Counter(), [], 0
    for refused in range(1, wanted[2] + 1, max(1, -(-wanted[2] // most))):
        run = play(library, example, refused)
        way = outcome(run, wanted, example)
        if example.stem in PRINTS:
            # one request is refused, so that a run with this answer has no connection that was closed without its own
            is_busy = any(body.startswith(BUSY) for body in bodies(run[1]))
            busy += is_busy
            way = "wrong" if is_busy and has_job_of_none(run[1]) else way
        ways[way] += 1
        if way == "wrong":
            wrong.append(refused)
    if example.stem in PRINTS and not busy and most >= wanted[2]:
        wrong.append("no 0x0505")
    return wanted[2], ways, wrong


def main():
    words = argparse.ArgumentParser()
    words.add_argument("--each", type=int, default=1 << 40)
    words.add_argument("names", nargs="*")
    chosen = words.parse_args()
    examples = sorted(path for path in EXAMPLES.iterdir() if path.suffix in (".trace", ".plan", ".csv"))
    bad = False
    with tempfile.TemporaryDirectory() as folder:
        library = f"{folder}/refuse.so"
        subprocess.run(["cc", "-shared", "-fPIC", "-O2", "-o", library, TOP / "tools/memory/refuse.c", "-ldl"], check=True)
        for example in examples:
            if chosen.names and example.stem not in chosen.names:
                continue
            count, ways, wrong = refuse_each(library, example, chosen.each)
            print(f"{example.name}: {count} requests;", ", ".join(f"{runs} {way}" for way, runs in ways.items()), *wrong[:9], flush=True)
            bad = bad or bool(wrong)
    sys.exit(1 if bad else 0)


if __name__ == "__main__":
    main()
