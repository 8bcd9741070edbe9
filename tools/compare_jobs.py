#!/usr/bin/env python3
"""Counts the jobs of made-up days that planning has done sooner or later than a policy.

    tools/compare_jobs.py DAY SETTINGS [SEEDS] [--policy POLICY] [--load FACTOR]

DAY and FACTOR are those of tools/make_day.py. Without other words, the policy is round-robin, the load 1, and there
are 10 seeds. For each seed: the part of the jobs that are done sooner and later by the planned day; the mean time to
paper of the longest tenth of the jobs, as a part of that by the policy; and the job of the longest tenth, and of all,
whose time to paper grows the most, with its impressions, its number, and both times in seconds. When a job is done is
read from the pictures of `printd simulate --draw`.
"""
import argparse
import csv
import pathlib
import re
import subprocess
import tempfile

TOP = pathlib.Path(__file__).resolve().parent.parent
BAR = re.compile(r"<title>job (\d+), priority \d+: \d+ to (\d+) ms</title>")


def ends_of(settings, jobs, policy):
    """When each job is done, planned and by a policy, by its number."""
    words = [TOP / "printd", "simulate", "--settings", settings, "--jobs", jobs, "--draw", policy]
    picture = subprocess.run(words, check=True, capture_output=True, text=True).stdout
    parts = picture.split(f">{policy}</text>")
    return [{int(job): int(end) for job, end in BAR.findall(part)} for part in parts]


def size_of(row):
    """The impressions of a job, all its copies counted."""
    return int(row["impressions"]) * int(row["copies"] or 1)


def growth_of(rows, ends):
    """For each job by how much its time to paper grows, its impressions, its number, and both times in ms."""
    planned, other = ends
    for number, row in enumerate(rows, 1):
        ours, theirs = planned[number] - int(row["moment"]), other[number] - int(row["moment"])
        yield ours / theirs, size_of(row), number, ours, theirs


def told(job):
    growth, size, number, ours, theirs = job
    return f"{growth:.1f} (job {number}, {size} impressions, {ours / 1000:.0f} s for {theirs / 1000:.0f})"


def compare(words, seed):
    made = [TOP / "tools/make_day.py", words.day, str(seed), "--load", str(words.load)]
    text = subprocess.run(made, check=True, capture_output=True, text=True).stdout
    rows = list(csv.DictReader(text.splitlines()))
    with tempfile.NamedTemporaryFile("w", suffix=".csv") as file:
        file.write(text)
        file.flush()
        jobs = list(growth_of(rows, ends_of(words.settings, file.name, words.policy)))
    least = sorted(size_of(row) for row in rows)[len(rows) * 9 // 10]
    longest = [job for job in jobs if job[1] >= least]
    part = sum(job[3] for job in longest) / sum(job[4] for job in longest)
    sooner = round(100 * sum(job[0] < 1 for job in jobs) / len(jobs))
    later = round(100 * sum(job[0] > 1 for job in jobs) / len(jobs))
    print(f"seed {seed}: {sooner} % sooner, {later} % later; longest tenth {part:.2f}, {told(max(longest))}; any {told(max(jobs))}", flush=True)


def words_of():
    """What the command line asks for."""
    parser = argparse.ArgumentParser(description=__doc__, formatter_class=argparse.RawDescriptionHelpFormatter)
    parser.add_argument("day")
    parser.add_argument("settings")
    parser.add_argument("seeds", nargs="?", type=int, default=10)
    parser.add_argument("--policy", default="round-robin")
    parser.add_argument("--load", type=float, default=1)
    return parser.parse_args()


def main():
    words = words_of()
    for seed in range(1, words.seeds + 1):
        compare(words, seed)


main()
