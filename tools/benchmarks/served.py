"""The tables of a server over this machine's own network, beside those of CUPS."""
import statistics

import idle
import soak
from floods import READY, REFUSED, while_ready, while_refused
from instructions import instructions
from measures import KINDS, LOADS, compare, one_by_one, percentile, while_jobs_wait
from peers import Answerer, Cupsd, LoneOurs, Ours, Synced
from rounds import all_rounds, middle, middles
from tables import Ratio, Table, figure, reason, say, spread, table

JOBS = LOADS[2]
PAUSE = 0.02


def ratios_to(ours, base, better):
    """How many times better a peer is than another, round by round."""
    if isinstance(ours, str) or isinstance(base, str):
        return []
    return [better(one, other) for one, other in zip(ours, base)]


def by_rate(one, other):
    return one.rate / other.rate


def by_time(one, other):
    return other.used / one.used


def shown(name):
    """The name of a server in a table."""
    return name if name == Answerer.name else f"`{name}`"


def load_row(load, name, found):
    """The row of a server under a load."""
    if isinstance(found[name], str):
        return reason(9, [load[0], shown(name)], found[name])
    one = middle(found[name])
    taken = round(one.taken * 100)
    server = shown(name) if taken == 100 else f"{shown(name)}, {taken} % taken"
    times = [ratios_to(found[name], found[Cupsd.name], better) for better in (by_rate, by_time)]
    return [load[0], server, figure(one.rate), figure(one.used), figure(one.p50 / 1000), figure(one.p99 / 1000), f"{one.resident / 1024:.1f}",
            *(spread(it) if it and name != Cupsd.name else "" for it in times)]


def load_ratios(load, found):
    """What the chart shows of a load."""
    kinds = (("requests a second (cupsd is 1)", by_rate), ("requests for a second of processor time (cupsd is 1)", by_time))
    rounds = [(group, ratios_to(found[Ours.name], found[Cupsd.name], better)) for group, better in kinds]
    return [Ratio(group, load[0], statistics.median(times)) for group, times in rounds if times]


def beside_cups(sizes):
    """The loads on each server; and how many jobs a second ours takes, or why that isn't known."""
    head = ["Load", "Server", "requests a second", "µs of a processor for one", "middle, ms", "99 of 100, ms", "resident at the end, MiB",
            "better than `cupsd`, requests a second", "better than `cupsd`, processor time"]
    rows, ratios, jobs = [], [], ""
    for load in LOADS:
        say(load[0])
        found = compare(load, sizes.rounds, sizes.load_seconds)
        rows += [load_row(load, name, found) for name in found]
        ratios += load_ratios(load, found)
        jobs = middles(found)[Ours.name] if load == JOBS else jobs
    return Table("Beside CUPS", table(head, rows, words=2), ratios), jobs


def in_turn(sizes):
    """Print-Jobs one after the other."""
    say("Print-Jobs one after the other")
    kinds = [LoneOurs, Cupsd, Answerer]

    def of_kind(kind):
        return lambda: one_by_one(kind, sizes.in_turn, PAUSE)

    found = middles(all_rounds({kind.name: of_kind(kind) for kind in kinds}, sizes.rounds))
    head = ["Server", "µs, at once after the one before", "µs, after a pause of 20 ms"]
    rows = [reason(3, [name], one) if isinstance(one, str) else [name, figure(one.at_once), figure(one.paused)] for name, one in found.items()]
    return Table(f"{sizes.in_turn} Print-Jobs of 5 octets, one after the other", table(head, rows))


def of_requests(sizes):
    """The instructions of requests, each over one connection."""
    say("instructions of requests")
    rows, ratios = [], []
    for load in (LOADS[0], JOBS):
        # to wait for the disk takes no instructions
        kinds = {kind.name: lambda kind=kind: instructions(kind, load, sizes.counted) for kind in KINDS if issubclass(kind, (Ours, Cupsd)) and kind is not Synced}
        found = middles(all_rounds(kinds, 1))
        rows += [reason(3, [load[0], shown(name)], one) if isinstance(one, str) else [load[0], shown(name), figure(one)] for name, one in found.items()]
        if not any(isinstance(one, str) for one in found.values()):
            ratios.append(Ratio("instructions of a request (cupsd is 1)", load[0], found[Cupsd.name] / found[Ours.name]))
    return Table("Instructions of a request", table(["Load", "Server", "instructions"], rows, words=2), ratios)


def busy(sizes):
    """Requests while jobs wait."""
    say("requests while jobs wait")

    def measured():
        return tuple(percentile(times, part) for times in while_jobs_wait(sizes.busy, sizes.asked) for part in (0.5, 0.99))

    found = middles(all_rounds({Ours.name: measured}, sizes.rounds))[Ours.name]
    head = ["Request", "middle, ms", "99 of 100, ms"]
    names = ["Print-Job of 5 octets", "Get-Printer-Attributes, after a device's report"]
    if isinstance(found, str):
        rows = [reason(3, names[:1], found)]
    else:
        rows = [[name, figure(found[2 * place]), figure(found[2 * place + 1])] for place, name in enumerate(names)]
    return Table(f"While {sizes.busy} jobs wait for 16 devices", table(head, rows))


def flooded(sizes):
    """What others wait while one peer sends too much."""
    say("a client beside a flood")
    floods = {
        f"a device that prints says `READY` {READY:,} times": while_ready,
        f"a client sends {REFUSED:,} Print-Jobs at once that are refused": while_refused,
    }
    found = middles(all_rounds({name: lambda flood=flood: flood(sizes.behind) for name, flood in floods.items()}, sizes.rounds))
    rows = [reason(2, [name], one) if isinstance(one, str) else [name, figure(one)] for name, one in found.items()]
    head = ["While", "the longest that another client waits for a status report, ms"]
    return Table(f"A flood, while {sizes.behind} jobs wait for 32 devices", table(head, rows))


def waiting(sizes):
    """States in which the server has to wait."""
    peers = {}
    for state in idle.STATES:
        peers[state.__doc__.rstrip(".")] = lambda state=state: idle.share_in(state, sizes.idle_seconds) * 100
    say("states in which the server has to wait")
    found = middles(all_rounds(peers, sizes.rounds))
    rows = [reason(2, [name], share) if isinstance(share, str) else [name, f"{share:.3f} %"] for name, share in found.items()]
    return Table("While the server has to wait", table(["State", "of a processor"], rows))


def memory(sizes):
    """What many jobs leave; and how many KiB are resident then, or why that isn't known."""
    say(f"{sizes.soaked:,} jobs")
    rounds = 1 if sizes.soaked > 10_000 else sizes.rounds
    found = middles(all_rounds({Ours.name: lambda: soak.soak(sizes.soaked, sizes.soaked_early)}, rounds))[Ours.name]
    title = f"{sizes.soaked:,} jobs, each taken and ended by a device"
    if isinstance(found, str):
        return Table(title, table(["What", "Measured"], [reason(2, ["all of it"], found)])), found
    rows = [
        [f"resident after {sizes.soaked_early:,} jobs", f"{found.early_kib:,.0f} KiB"],
        ["resident at the end", f"{found.late_kib:,.0f} KiB"],
        ["open descriptors, at the start and at the end", f"{found.descriptors:.0f}, {found.descriptors_late:.0f}"],
        ["seconds", figure(found.passed)],
        ["seconds of a processor", figure(found.used)],
    ]
    return Table(title, table(["What", "Measured"], rows)), found.late_kib
