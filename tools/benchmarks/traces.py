"""Traces of a full queue and of busy connections, and the processor time that `printd replay` takes for them."""
import pathlib
import re
import tempfile
import typing

from messages import CANCEL_JOB, GET_PRINTER_ATTRIBUTES, INTEGER, PAUSE_PRINTER, PRINT_JOB, RESUME_PRINTER, attribute, head, request, requested
from peers import settings_of
from rounds import CannotMeasure, peak_kib, seconds_of

PATH, PORT = "/printers/lab", 631
PRINTER = f"ipp://localhost:{PORT}{PATH}"
REPLIED = b"HTTP/1.1 200".hex()
START = re.compile(r"^start (\d+) (\S+)$", re.M)
# each job has more impressions, so that no device ends two jobs before each other device has ended one
FEWEST = 100
# that of a job that names none
PRIORITY = 50


TICK, READY, PAGES, DONE = "time alone goes on (`tick`)", "`READY` of a device that runs", "`PAGES` as estimated", "`DONE` as estimated"
CANCELED, COMES, MISSING = "a job is canceled", "a job comes", "before a job comes"


class Queue(typing.NamedTuple):
    """Jobs that wait, by their impressions, for devices, by their names, ms an impression and ms before a job. The
    jobs have so many priorities, in turns."""

    name: str
    jobs: list
    devices: list
    priorities: int = 1


class Events(typing.NamedTuple):
    """A trace with so many events, and the name of the one without them."""

    lines: list
    count: int
    base: str | None


class Run(typing.NamedTuple):
    """What came of a trace: the processor time, and the text that was written."""

    seconds: float
    said: str


def queues(waiting, devices):
    """The queues that are measured: so many jobs wait for so many devices, each of which has one more."""
    names = [f"d{number}" for number in range(devices)]
    alike = [(name, 10, 0) for name in names]
    unlike = [(name, 8 + place, 100 * (place % 8)) for place, name in enumerate(names)]
    one_length = [FEWEST + 50] * (waiting + devices)
    lengths = [FEWEST + 1 + place * 77 % 200 for place in range(waiting + devices)]
    return [
        Queue("alike", one_length, alike),
        Queue("of 200 lengths", lengths, alike),
        Queue("of 200 lengths, devices unlike", lengths, unlike),
        Queue("of 200 lengths and two priorities, devices unlike", lengths, unlike, 2),
    ]


def ipp(operation, user, more=b"", document=b""):
    """The line of a request for the printer."""
    return f"ipp {request(operation, PRINTER, user, more, document).hex()}"


def comes(queue, place):
    """The line of a job of a queue that comes."""
    asked = attribute(INTEGER, "job-impressions", queue.jobs[place])
    template = b"\x02" + attribute(INTEGER, "job-priority", PRIORITY + place % queue.priorities)
    return ipp(PRINT_JOB, "ann", asked + template, b"hello")


def canceled(job):
    """The line of a job that is canceled."""
    return ipp(CANCEL_JOB, "ann", attribute(INTEGER, "job-id", job))


def each_ms(lines, first):
    """Lines, a ms after each other, the first at this moment."""
    return [line for moment, event in enumerate(lines, first) for line in (f"at {moment}", event)]


def full(queue, left_out=0):
    """The lines until all jobs of a queue, but so many of the last, wait for devices that print: at first one comes for
    each device, a ms after the one before, then all others at once."""
    devices = len(queue.devices)
    jobs = [comes(queue, place) for place in range(len(queue.jobs) - left_out)]
    lines = [*settings_of(queue.devices).splitlines(), ".", "at 0", *(f"dev {name} READY" for name, _, _ in queue.devices)]
    return [*lines, *each_ms(jobs[:devices], 0), ipp(PAUSE_PRINTER, "root"), *jobs[devices:], ipp(RESUME_PRINTER, "root")]


def play(program, lines, limit):
    """Plays a trace."""
    with tempfile.TemporaryDirectory(prefix="bench.") as folder:
        trace, written = pathlib.Path(folder, "trace"), pathlib.Path(folder, "written")
        trace.write_text("\n".join(lines) + "\n")
        return Run(seconds_of([program, "replay"], trace, written, limit), written.read_text())


def peak_of(program, lines):
    """The most KiB that are resident while a trace is played."""
    with tempfile.TemporaryDirectory(prefix="bench.") as folder:
        trace = pathlib.Path(folder, "trace")
        trace.write_text("\n".join(lines) + "\n")
        return peak_kib([program, "replay"], trace)


def begun(queue, said):
    """The first job of each device, in the order in which they began: (ms, device, job). A job that comes may wait
    for a busy device that is quick: then the others begin when all have come."""
    replies, found = 0, {}
    for word, *rest in map(str.split, said.splitlines()):
        replies += word == "reply"
        if word == "start" and rest[1] not in found:
            found[rest[1]] = (min(replies, len(queue.devices)) - 1, rest[1], int(rest[0]))
    if len(found) < len(queue.devices):
        raise CannotMeasure("not each device prints")
    return list(found.values())


def ends(queue, said):
    """When each device ends each job that it began, as it is estimated: (ms, device, job), the first to end first."""
    speeds = {name: (rate, setup) for name, rate, setup in queue.devices}
    free, found = {device: moment for moment, device, _ in begun(queue, said)}, []
    for job, device in START.findall(said):
        rate, setup = speeds[device]
        free[device] += setup + rate * queue.jobs[int(job) - 1]
        found.append((free[device], device, int(job)))
    return sorted(found)


def shortest(queue):
    """The least time that any job of a queue takes."""
    return min(queue.jobs) * min(rate for _, rate, _ in queue.devices)


def done(end):
    """The lines by which a job ends as it was estimated."""
    moment, device, job = end
    return [f"at {moment}", f"dev {device} DONE {job}"]


def all_done(program, queue, count, limit):
    """So many ends of jobs, as they are estimated: which jobs begin meanwhile is read from what is played."""
    lines = []
    while len(lines) < 2 * count:
        known = ends(queue, play(program, full(queue) + lines, limit).said)
        horizon = known[len(lines) // 2][0] + shortest(queue)
        lines = [line for end in known if end[0] < horizon for line in done(end)]
    return lines[:2 * count]


def all_pages(queue, said, count):
    """So many reports of pages that are printed just when it was estimated, one at a moment: of several at the same
    moment all but the first would find the plan made."""
    speeds = {name: (rate, setup) for name, rate, setup in queue.devices}
    reports = {}
    for begin, device, job in begun(queue, said):
        rate, setup = speeds[device]
        reports.update({begin + setup + rate * pages: f"dev {device} PAGES {job} {pages}" for pages in range(1, FEWEST)})
    moments = sorted(moment for moment in reports if moment > len(queue.devices))
    return [line for moment in moments[:count] for line in (f"at {moment}", reports[moment])]


def all_canceled(queue, said, count):
    """So many jobs that wait are canceled, from all over the queue."""
    printing = {job for _, _, job in begun(queue, said)}
    waiting = [job for job in range(1, len(queue.jobs) + 1) if job not in printing]
    return [canceled(job) for job in waiting[::max(1, len(waiting) // count)][:count]]


def events(program, queue, many, few, limit):
    """The traces of a queue: before any event, and with so many events of each kind; by name the lines, how many
    events there are, and the name of the trace without them. The jobs that come are missing from the one before them."""
    before, missing = full(queue), full(queue, few)
    said = play(program, before, limit).said
    names = [name for name, _, _ in queue.devices]
    kinds = {
        TICK: each_ms(["tick"] * many, len(names)),
        READY: each_ms([f"dev {names[it % len(names)]} READY" for it in range(many)], len(names)),
        PAGES: all_pages(queue, said, many),
        DONE: all_done(program, queue, few, limit),
        CANCELED: each_ms(all_canceled(queue, said, few), len(names)),
    }
    traces = {name: Events(before + lines, len(lines) // 2, None) for name, lines in kinds.items()}
    last = range(len(queue.jobs) - few, len(queue.jobs))
    traces[COMES] = Events(missing + each_ms([comes(queue, place) for place in last], len(names)), few, MISSING)
    return {None: Events(before, 0, None), MISSING: Events(missing, 0, None), **traces}


def http(operation, document=b""):
    """A request as bytes of a connection."""
    more = requested(["printer-state"]) if operation == GET_PRINTER_ATTRIBUTES else b""
    body = request(operation, PRINTER, "ann", more, document)
    return head(PATH, PORT, len(body)) + body


def questions(count, asked):
    """So many questions for `printer-state` on a connection, a hundred to a line; or the same lines with nothing asked,
    since the connection has been closed for a fault."""
    lines = [*settings_of([("d0", 10, 0)]).splitlines(), ".", "at 0", "open 1 ipp"]
    if not asked:
        lines.append(f"in 1 {b'nothing of HTTP'.hex()}0d0a0d0a")
    return lines + [f"in 1 {(http(GET_PRINTER_ATTRIBUTES) * 100).hex()}"] * (count // 100)


def with_replies(run, count):
    """A run in which so many requests of connections were answered."""
    if run.said.count(REPLIED) != count:
        raise CannotMeasure(f"{run.said.count(REPLIED)} of {count} requests were answered")
    return run


def short_jobs(count):
    """So many Print-Jobs of five octets on a connection, each taken by an idle device and ended."""
    lines = [*settings_of([("d0", 10, 0)]).splitlines(), ".", "at 0", "dev d0 READY", "open 1 ipp"]
    job = f"in 1 {http(PRINT_JOB, b'hello').hex()}"
    return lines + [line for number in range(1, count + 1) for line in (job, f"dev d0 DONE {number}")]
