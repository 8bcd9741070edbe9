"""The tables of what `printd replay` plays without sockets and clock: a full queue, and busy connections."""
import statistics

import traces
from rounds import CannotMeasure, all_rounds
from tables import Table, figure, reason, say, table

EVENTS = [traces.TICK, traces.READY, traces.PAGES, traces.DONE, traces.CANCELED, traces.COMES]


def event_ms(found, name, one):
    """How many ms an event of a kind takes: the middle of the rounds, each of which has a trace without it too."""
    for seconds in (found[name], found[one.base]):
        if isinstance(seconds, str):
            return seconds
    return statistics.median((with_it - without) * 1000 / one.count for with_it, without in zip(found[name], found[one.base]))


def queue_times(program, queue, sizes):
    """How many ms each kind of event takes with a queue, or why that isn't known."""
    say(f"events while jobs wait that are {queue.name}")
    try:
        kinds = traces.events(program, queue, sizes.many_events, sizes.few_events, sizes.limit)
    except CannotMeasure as why:
        return {name: str(why) for name in EVENTS}
    peers = {name: lambda one=one: traces.play(program, one.lines, sizes.limit).seconds for name, one in kinds.items()}
    found = all_rounds(peers, sizes.rounds)
    return {name: event_ms(found, name, kinds[name]) for name in EVENTS}


def full_queue(program, sizes, name="printd"):
    """What events take with a full queue; and the least and the most ms of any, or why these aren't known."""
    queues = traces.queues(sizes.waiting, sizes.devices)
    times = {queue.name: queue_times(program, queue, sizes) for queue in queues}
    rows = [[name, *(cell(times[queue.name][name]) for queue in queues)] for name in EVENTS]
    title = f"An event, with its plan, while {sizes.waiting} jobs wait for {sizes.devices} devices that print"
    if name != "printd":
        title += f" (`{name}`)"
    known = [ms for found in times.values() for ms in found.values() if not isinstance(ms, str)]
    text = table(["Event, ms of a processor", *(f"jobs {queue.name}" for queue in queues)], rows)
    return Table(title, text), (max(0, min(known)), max(known)) if known else "no event could be measured"


def cell(ms):
    """A figure of the table, or why there is none."""
    if isinstance(ms, str):
        return f"not measured: {ms}"
    return figure(ms) if ms > 0 else "too little to be told"


def rate(program, lines, base, count, sizes):
    """How many of the requests of a trace a second of a processor takes, less what the other trace takes."""
    peers = {
        "with": lambda: traces.with_replies(traces.play(program, lines, sizes.limit), count),
        "without": lambda: traces.play(program, base, sizes.limit),
    }
    found = all_rounds(peers, sizes.rounds)
    for runs in found.values():
        if isinstance(runs, str):
            return runs
    return statistics.median(count / max(1e-6, one.seconds - other.seconds) for one, other in zip(found["with"], found["without"]))


def peak(program, sizes):
    """The most KiB that are resident while all jobs of a queue are there."""
    queue = traces.queues(sizes.waiting, sizes.devices)[0]
    found = all_rounds({"peak": lambda: traces.peak_of(program, traces.full(queue))}, sizes.rounds)["peak"]
    return found if isinstance(found, str) else statistics.median(found)


def without_sockets(program, sizes):
    """Busy connections and a full queue, without sockets."""
    say("requests without sockets")
    asked, jobs = sizes.questions, sizes.short_jobs
    found = [
        (f"questions for `printer-state` over a kept connection, {asked:,} in pieces of 100: for a second of a processor",
         rate(program, traces.questions(asked, True), traces.questions(asked, False), asked, sizes), "{:,.0f}"),
        (f"Print-Jobs of 5 octets over a kept connection, {jobs:,}, each taken by an idle device and ended: for a second of a processor",
         rate(program, traces.short_jobs(jobs), traces.short_jobs(0), jobs, sizes), "{:,.0f}"),
        (f"the most that is resident while {sizes.waiting + sizes.devices} jobs of 5 octets are there", peak(program, sizes), "{:,.0f} KiB"),
    ]
    rows = [reason(2, [name], value) if isinstance(value, str) else [name, form.format(value)] for name, value, form in found]
    return Table("Without sockets", table(["What", "Measured"], rows))
