"""How much is measured: all of it; less of a program whose checks take most of the time; or just enough to try the tool."""
import typing


class Sizes(typing.NamedTuple):
    """How many rounds take turns, and how much each measures."""

    rounds: int
    # of a load under wrk
    load_seconds: int
    # requests whose instructions are counted
    counted: int
    # Print-Jobs one after the other
    in_turn: int
    # of each state in which the server waits
    idle_seconds: float
    # jobs that are printed, and after how many of them memory is first looked at
    soaked: int
    soaked_early: int
    # jobs that wait while requests are timed, and requests of each kind
    busy: int
    asked: int
    # jobs that wait while a peer floods the server
    behind: int
    # jobs that wait for so many devices, events that leave the queue as it is, and events that change it
    waiting: int
    devices: int
    many_events: int
    few_events: int
    # days of each example
    example_days: int
    # requests and jobs without sockets
    questions: int
    short_jobs: int
    # jobs, devices and how many classes are planned
    classes: tuple
    # seconds of a processor that one run may take
    limit: int


FULL = Sizes(5, 3, 400, 120, 5.0, 100_000, 2000, 120, 1000, 450, 480, 32, 300, 32, 20, 20_000, 10_000, ((32, 8, 100), (128, 16, 20), (512, 32, 2)), 120)
UNPROVED = FULL._replace(rounds=3, counted=0, soaked=300, soaked_early=100, asked=20, behind=20, waiting=60, devices=8, many_events=30, few_events=8, example_days=1,
                         questions=2000, short_jobs=200, classes=((32, 8, 10), (64, 8, 4)), limit=60)
QUICK = Sizes(2, 1, 20, 8, 1.0, 60, 20, 32, 10, 20, 24, 4, 10, 4, 1, 200, 20, ((16, 4, 40), (32, 8, 20)), 20)
