#!/usr/bin/env python3
"""Makes the list of jobs of a day, as `printd simulate --jobs` reads it.

    tools/make_day.py office|school|print_room [SEED] [--load FACTOR] [--urgent PERCENT]     (seed 1, load 1, 0 %)

A load above 1 lays several days over one another: that of the seed, of the seed and 1,000, of the seed and 2,000, ..
The last of them is thinned: of load 2.5 the third day has half of its jobs, by chance; of load 0.5 the only one has.
With --urgent the longest jobs, so many in a hundred, have at least priority 60.

The days, and the rates by which their jobs come; each moment is in ms from the opening:

- office: ten hours. 30 jobs an hour at any moment, and around each full hour 25 more within four minutes. Half of
  the jobs have three pages at most, one in ten has 20 to 120; two in five are two-sided.
- school: six lessons of 45 minutes with breaks of ten. In the five minutes before each lesson two classes of 26
  pupils print one to four pages each, and a teacher a sheet for each pupil of two classes, in copies. During
  lessons 20 jobs an hour of teachers.
- print_room: ten hours, 11 orders an hour. An order has 20 to 300 pages, in 1 to 40 copies; three in ten are to be
  stapled, one in ten bound; one in eight is urgent (priority 80), one in ten may wait (priority 20).
"""
import argparse
import csv
import math
import random
import sys

MINUTE = 60_000
HOUR = 60 * MINUTE
COLUMNS = ["moment", "impressions", "copies", "sides", "finishings", "priority", "printer"]


def steady(chance, hours, rate):
    """Moments within so many hours at which jobs come at any time, so many an hour."""
    moment = 0.0
    while True:
        moment += chance.expovariate(rate / HOUR)
        if moment >= hours * HOUR:
            return
        yield int(moment)


def pages(chance, middle, spread, most):
    """A number of pages, half of which are up to the middle."""
    return max(1, min(most, round(chance.lognormvariate(0, spread) * middle)))


def office(chance):
    moments = list(steady(chance, 10, 30))
    for hour in range(1, 10):
        moments += [int(hour * HOUR + chance.uniform(-2, 2) * MINUTE) for _ in range(25)]
    for moment in moments:
        long = chance.random() < 0.1
        count = chance.randint(20, 120) if long else pages(chance, 3, 0.7, 20)
        sides = "two-sided-long-edge" if chance.random() < 0.4 else ""
        yield {"moment": moment, "impressions": count, "sides": sides}


def school(chance):
    for lesson in range(6):
        begin = 10 * MINUTE + lesson * 55 * MINUTE
        for _ in range(52):
            moment = begin - int(chance.uniform(0, 5) * MINUTE)
            yield {"moment": moment, "impressions": chance.randint(1, 4), "printer": "pupils"}
        for _ in range(2):
            moment = begin - int(chance.uniform(0, 5) * MINUTE)
            yield {"moment": moment, "impressions": chance.choice([1, 2, 2, 4]), "copies": 26, "printer": "teachers",
                   "sides": "two-sided-long-edge"}
    for moment in steady(chance, 6, 20):
        yield {"moment": moment, "impressions": pages(chance, 4, 0.8, 40), "printer": "teachers"}


def print_room(chance):
    for moment in steady(chance, 10, 11):
        wish = chance.random()
        finishings = "staple" if wish < 0.3 else "bind" if wish < 0.4 else ""
        hurry = chance.random()
        priority = 80 if hurry < 1 / 8 else 20 if hurry > 0.9 else 50
        yield {"moment": moment, "impressions": chance.randint(20, 300), "copies": pages(chance, 3, 1.0, 40),
               "finishings": finishings, "priority": priority}


DAYS = {"office": office, "school": school, "print_room": print_room}


def day_of(name, seed, part):
    """The jobs of a day; of a part of a day each job with that probability."""
    chance = random.Random(seed)
    jobs = list(DAYS[name](chance))
    return jobs if part == 1 else [job for job in jobs if chance.random() < part]


def days_of(name, seed, load):
    """The jobs of so many days laid over one another, the last one thinned."""
    for place in range(math.ceil(load)):
        yield from day_of(name, seed + 1000 * place, min(1, load - place))


def size_of(job):
    """The impressions of a job, all its copies counted."""
    return job["impressions"] * job.get("copies", 1)


def hurry(jobs, percent):
    """Gives the longest jobs, so many in a hundred, at least priority 60."""
    longest = sorted(jobs, key=size_of, reverse=True)[: len(jobs) * percent // 100]
    for job in longest:
        job["priority"] = max(60, job.get("priority", 50))


def words_of():
    """What the command line asks for."""
    parser = argparse.ArgumentParser(description=__doc__, formatter_class=argparse.RawDescriptionHelpFormatter)
    parser.add_argument("day", choices=DAYS)
    parser.add_argument("seed", nargs="?", type=int, default=1)
    parser.add_argument("--load", type=float, default=1)
    parser.add_argument("--urgent", type=int, default=0, metavar="PERCENT")
    return parser.parse_args()


def main():
    words = words_of()
    jobs = sorted(days_of(words.day, words.seed, words.load), key=lambda job: job["moment"])
    hurry(jobs, words.urgent)
    writer = csv.DictWriter(sys.stdout, COLUMNS, restval="", lineterminator="\n")
    writer.writeheader()
    writer.writerows(jobs)


if __name__ == "__main__":
    main()
