"""Plans the classes of plan_bench by scipy, and writes for each its total and the seconds of a processor.

    scipy_plans.py JOBS DEVICES SEED COUNT

The classes are those of `plan_bench paths` with the same words (crates/plan_bench/src/made_class.rt): a job k places
from the end of a device costs the device's wait and k times its own time there. Each device has FACTOR times as many
places as it would have jobs if all had equally many. While some device's last place is used, the places are doubled.
If no last place is used, further places would change nothing, since they cost more. The seconds are those of each call
of linear_sum_assignment for a class, without making the tables of costs.
"""
import sys
import time

import numpy
from scipy.optimize import linear_sum_assignment

MASK = (1 << 64) - 1
# with 2, 3 or 5 more classes need a second try, or the tables are larger, and most of them take longer
FACTOR = 4
# above every cost of a pair that is able, and small enough for sums of them to be exact
NOT_ABLE = 1e12


class Random:
    """The numbers of plan_bench: xorshift with the shifts 13, 7 and 17."""

    def __init__(self, seed):
        self.state = max(1, seed)

    def below(self, bound):
        self.state ^= self.state << 13 & MASK
        self.state ^= self.state >> 7
        self.state ^= self.state << 17 & MASK
        return self.state % bound


def times_of(random, speeds, own):
    """The times of a job on each device; none where the device isn't able."""
    impressions = random.below(200) + 1
    able = [random.below(8) != 0 or place == own for place in range(len(speeds))]
    return [setup + impressions * rate if can else None for can, (setup, rate) in zip(able, speeds)]


def made_class(random, jobs, devices):
    """The waits of the devices, and the times of each job."""
    speeds, waits = [], []
    for _ in range(devices):
        setup = random.below(60_000)
        speeds.append((setup, random.below(5_000) + 500))
        waits.append(random.below(600_000))
    return waits, [times_of(random, speeds, job % devices) for job in range(jobs)]


def cost_table(waits, rows, count):
    """A row for each job, and a column for each of so many places of each device."""
    times = numpy.array([[numpy.nan if time is None else time for time in row] for row in rows])
    places = numpy.arange(1, count + 1)
    costs = numpy.array(waits)[None, :, None] + times[:, :, None] * places[None, None, :]
    return numpy.nan_to_num(costs, nan=NOT_ABLE).reshape(len(rows), -1)


def assigned(costs):
    """The columns that the jobs get, their total, and the seconds of a processor."""
    # the thread's time: that of a process whose time is limited is counted in ticks
    start = time.thread_time()
    seats = linear_sum_assignment(costs)
    return seats[1], int(costs[seats].sum()), time.thread_time() - start


def planned(waits, rows):
    """The least total of a class, and the seconds of a processor."""
    jobs, devices = len(rows), len(waits)
    count, passed = min(jobs, FACTOR * -(-jobs // devices)), 0.0
    while True:
        columns, total, seconds = assigned(cost_table(waits, rows, count))
        passed += seconds
        if count == jobs or not (columns % count == count - 1).any():
            return total, passed
        count = min(jobs, 2 * count)


def main():
    jobs, devices, seed, count = map(int, sys.argv[1:5])
    random = Random(seed)
    for _ in range(count):
        print(*planned(*made_class(random, jobs, devices)))


if __name__ == "__main__":
    main()
