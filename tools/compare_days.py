#!/usr/bin/env python3
"""Plays made-up days at several loads, planned and by each policy, and prints the tables of docs/COMPARE.md.

    tools/compare_days.py [--seeds N] [--processes N] [--write] [PRINTD]

The days are those of tools/make_day.py, each at three loads and with the seeds 1 to 20. The first tables have times to
paper as `printd simulate` prints them: of each figure the middle of the days. The last one has what a change makes of the
planned day: a higher priority for the longest tenth of the jobs, and one device more. --write puts them into
docs/COMPARE.md, and all figures, with the least and the greatest, into docs/compare/policies.csv and changes.csv.

PRINTD is the program; without it, it is the proved one or the one that ./printd builds. --processes says how many days
are played at a time, where it isn't one for each processor. All of it takes a proved program half a minute of a
processor, and the one that ./printd builds about forty minutes.
"""
import argparse
import collections
import concurrent.futures
import csv
import os
import pathlib
import re
import subprocess
import sys
import tempfile
import typing

TOP = pathlib.Path(__file__).resolve().parent.parent
PAGE, FOLDER = TOP / "docs/COMPARE.md", TOP / "docs/compare"
POLICIES = ["planned", "round-robin", "first-free", "shortest-queue", "ends-first", "shortest-first"]
# those whose worst times the page has
OF_WORST = ["planned", "round-robin", "ends-first", "shortest-first"]
POLICY_COLUMNS = [
    "day", "load", "jobs", "jobs_least", "jobs_greatest", "busy_percent", "rule", "mean", "mean_least", "mean_greatest",
    "percent_of_planned", "percent_least", "percent_greatest", "median", "95_of_100", "worst", "worst_least", "worst_greatest",
    "days_of_a_lesser_mean", "days_of_a_lesser_worst",
]
CHANGE_COLUMNS = [
    "day", "load", "change", "mean", "mean_least", "mean_greatest", "95_of_100", "95_least", "95_greatest", "worst", "worst_least", "worst_greatest",
]
LENGTHS = {"ms": 1, "s": 1000, "m": 60_000, "h": 3_600_000, "d": 86_400_000}


class Day(typing.NamedTuple):
    """A day of tools/make_day.py, its settings in examples/, its loads, and the device that it may have more."""

    name: str
    settings: str
    loads: tuple
    more: str


DAYS = [
    Day("office", "three_devices", (0.5, 1, 4), "hall_2=hall"),
    Day("school", "school", (0.5, 1, 2), "corridor_3=corridor_1"),
    Day("print_room", "print_room", (0.5, 1, 1.5), "binder_2=binder"),
]


class Time(typing.NamedTuple):
    """A time in ms, and as it is printed."""

    millis: float
    shown: str

    def __str__(self):
        return self.shown


class Times(typing.NamedTuple):
    """A row of the times to paper."""

    jobs: int
    mean: Time
    percent: int
    median: Time
    late: Time
    worst: Time


class Played(typing.NamedTuple):
    """A day as it was played: the row of each policy, and the part of the devices' time in which they print."""

    rows: dict
    busy: int


def time_of(shown):
    """A time of a table: 290ms, 18.7s, 1m16 or 4h09."""
    number, unit, rest = re.fullmatch(r"([\d.]+)(ms|s|m|h|d)(\d*)", shown).groups()
    below = {"m": "s", "h": "m", "d": "h"}.get(unit, "ms")
    return Time(float(number) * LENGTHS[unit] + int(rest or 0) * LENGTHS[below], shown)


def times_of(line):
    """The name of a row of the times to paper, and its figures."""
    name, jobs, mean, percent, _, median, late, worst = line.split()
    return name, Times(int(jobs), time_of(mean), int(percent), time_of(median), time_of(late), time_of(worst))


def busy_part(lines):
    """The part of the devices' time in which they print on the planned day, in per cent."""
    pairs = [[time_of(word.rstrip(",")).millis for word in line.split()[1:3]] for line in lines]
    return round(100 * sum(printed for printed, _ in pairs) / sum(map(sum, pairs)))


def read(table):
    """The figures of what `printd simulate` prints."""
    times, uses = table.split("\n\n")[:2]
    return Played(dict(times_of(line) for line in times.splitlines()[1:]), busy_part(uses.splitlines()[1:]))


def play(program, day, seed, load, made=(), played=()):
    """Plays a day with more words for tools/make_day.py and for `printd simulate`."""
    words = [TOP / "tools/make_day.py", day.name, str(seed), "--load", str(load), *made]
    jobs = subprocess.run(words, check=True, capture_output=True, text=True).stdout
    with tempfile.NamedTemporaryFile("w", suffix=".csv") as file:
        file.write(jobs)
        file.flush()
        words = [program, "simulate", "--settings", TOP / f"examples/{day.settings}.toml", "--jobs", file.name, *played]
        return read(subprocess.run(words, check=True, capture_output=True, text=True).stdout)


def play_all(processes, program, days, seeds):
    """The days of some loads and their changes, each with all seeds: by day, load and change."""
    pool = concurrent.futures.ThreadPoolExecutor(processes)
    tasks = collections.defaultdict(list)
    for day, load, (change, made, played) in days:
        tasks[day, load, change] += [pool.submit(play, program, day, seed, load, made, played) for seed in seeds]
    found = {}
    for key, runs in tasks.items():
        found[key] = [run.result() for run in runs]
        print(f"compare_days: {key[0].name}, load {key[1]}, {key[2]}", file=sys.stderr, flush=True)
    return found


def changes_of(day):
    """The changes of a planned day, each with its words for both programs; one policy is played beside it."""
    alone = ("--policy", "first-free")
    return [("priority 60 for the longest tenth", ("--urgent", "10"), alone), (f"one device more, {day.more}", (), (*alone, "--with", day.more))]


def middle(found):
    """The middle one, of two the lesser."""
    return sorted(found)[(len(found) - 1) // 2]


def three(found):
    """The middle of some numbers or times, the least and the greatest."""
    return [str(one) for one in (middle(found), min(found), max(found))]


def policy_row(day, load, policy, runs):
    """The figures of a policy at a load, by the names of their columns."""
    ours, planned = [run.rows[policy] for run in runs], [run.rows["planned"] for run in runs]
    lesser = [sum(row.percent < 100 for row in ours), sum(row.worst.millis < other.worst.millis for row, other in zip(ours, planned))]
    cells = [
        day.name, str(load), *three([row.jobs for row in planned]), str(middle([run.busy for run in runs])), policy,
        *three([row.mean for row in ours]), *three([row.percent for row in ours]),
        str(middle([row.median for row in ours])), str(middle([row.late for row in ours])), *three([row.worst for row in ours]),
        *(["", ""] if policy == "planned" else map(str, lesser)),
    ]
    return dict(zip(POLICY_COLUMNS, cells))


def of_planned(before, after, field):
    """What a change makes of a figure of each planned day, in per cent."""
    pairs = [(getattr(run.rows["planned"], field).millis, getattr(other.rows["planned"], field).millis) for run, other in zip(before, after)]
    return three([round(100 * new / old) for old, new in pairs])


def change_rows(day, load, found):
    """The figures of the changes of a day at a load, by the names of their columns."""
    before = found[day, load, "as it is"]
    for change, _, _ in changes_of(day):
        after = found[day, load, change]
        cells = [day.name, str(load), change, *(cell for field in ("mean", "late", "worst") for cell in of_planned(before, after, field))]
        yield dict(zip(CHANGE_COLUMNS, cells))


def table(head, rows, words):
    lines = [head, ["---"] * words + ["---:"] * (len(head) - words), *rows]
    return "".join(f"| {' | '.join(row)} |\n" for row in lines)


def by_place(rows):
    """Rows of figures by their day and load."""
    places = collections.defaultdict(list)
    for row in rows:
        places[f"{row['day']}, {row['load']}"].append(row)
    return places.items()


def policy_tables(rows):
    """The means of the policies in per cent of the planned ones, and their worst times."""
    means = [[place, same[0]["jobs"], same[0]["busy_percent"], same[0]["mean"], *(row["percent_of_planned"] for row in same[1:])] for place, same in by_place(rows)]
    worst = [[place, *(row["worst"] for policy, row in zip(POLICIES, same) if policy in OF_WORST)] for place, same in by_place(rows)]
    return (f"The mean: planned, and by each rule in per cent of that.\n\n{table(['Day, load', 'jobs', 'busy %', *POLICIES], means, 1)}\n"
            f"The worst time:\n\n{table(['Day, load', *OF_WORST], worst, 1)}")


def change_table(rows):
    """What changes make of the planned days, in per cent."""
    figures = ["mean", "95_of_100", "worst"]
    cells = [[place, *(row[name] for row in same for name in figures)] for place, same in by_place(rows)]
    return table(["Day, load", *(f"{change}: {name.replace('_', ' ')}" for change in ("priority", "device") for name in figures)], cells, 1)


def write(name, text):
    """Puts a text into the page, between its marks."""
    page = PAGE.read_text()
    before, mark, rest = page.partition(f"<!-- compare_days: {name} -->\n")
    _, end, after = rest.partition("<!-- end -->")
    if not (mark and end):
        sys.exit(f"compare_days: {PAGE} has no place for the {name}")
    PAGE.write_text(f"{before}{mark}\n{text}\n{end}{after}")


def write_file(name, rows):
    """Writes all figures as comma-separated values."""
    with (FOLDER / f"{name}.csv").open("w", newline="") as file:
        writer = csv.DictWriter(file, rows[0].keys(), lineterminator="\n")
        writer.writeheader()
        writer.writerows(rows)


def program_of(given):
    """The program: the given one, the proved one, or the one that ./printd builds."""
    words = [TOP / "printd", "which"]
    which = subprocess.run(words, stdout=subprocess.PIPE, stderr=subprocess.DEVNULL, text=True)
    if not given and which.returncode:
        which = subprocess.run([*words, "--unproved"], stdout=subprocess.PIPE, text=True, check=True)
    return pathlib.Path(given or which.stdout.strip()).resolve()


def words_of():
    """What the command line asks for."""
    parser = argparse.ArgumentParser(description=__doc__, formatter_class=argparse.RawDescriptionHelpFormatter)
    parser.add_argument("--seeds", type=int, default=20)
    parser.add_argument("--processes", type=int, default=os.cpu_count())
    parser.add_argument("--write", action="store_true")
    parser.add_argument("program", nargs="?", metavar="PRINTD")
    return parser.parse_args()


def main():
    words = words_of()
    days = [(day, load, ("as it is", (), ())) for day in DAYS for load in day.loads]
    days += [(day, load, change) for day in DAYS for load in day.loads[1:] for change in changes_of(day)]
    found = play_all(words.processes, program_of(words.program), days, range(1, words.seeds + 1))
    policies = [policy_row(day, load, policy, found[day, load, "as it is"]) for day in DAYS for load in day.loads for policy in POLICIES]
    changes = [row for day in DAYS for load in day.loads[1:] for row in change_rows(day, load, found)]
    tables = {"policies": (policy_tables(policies), policies), "changes": (change_table(changes), changes)}
    print("\n".join(text for text, _ in tables.values()), end="")
    if words.write:
        for name, (text, rows) in tables.items():
            write(name, text)
            write_file(name, rows)


if __name__ == "__main__":
    main()
