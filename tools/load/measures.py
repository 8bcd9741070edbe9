"""What is measured of servers under load: of `printd serve`, of those of CUPS beside it, and of a program that only answers."""
import pathlib
import shutil
import socket
import subprocess
import tempfile
import time
import typing

from messages import GET_PRINTER_ATTRIBUTES, PRINT_JOB, head, message
from peers import Answerer, Cupsd, Ippeveprinter, Ours, SlowOurs, Spooled, Synced, processor_seconds, resident_kib
from rounds import CannotMeasure, all_rounds

HERE = pathlib.Path(__file__).resolve().parent
KINDS = [Ours, Spooled, Synced, Cupsd, Ippeveprinter, Answerer]
# name, operation, connections, octets of the document
LOADS = [
    ("Get-Printer-Attributes, 1 connection", GET_PRINTER_ATTRIBUTES, 1, 0),
    ("Get-Printer-Attributes, 16 connections", GET_PRINTER_ATTRIBUTES, 16, 0),
    ("Print-Job of 5 octets, 1 connection", PRINT_JOB, 1, 5),
    ("Print-Job of 1 MiB, 1 connection", PRINT_JOB, 1, 1 << 20),
    ("Print-Job of 1 MiB, 4 connections", PRINT_JOB, 4, 1 << 20),
]
WAITING, ENDED = 120, 1000


class Client:
    """A client with a kept-alive connection."""

    def __init__(self, server):
        self.server = server
        self.connection = socket.create_connection(("127.0.0.1", server.port))
        self.connection.setsockopt(socket.IPPROTO_TCP, socket.TCP_NODELAY, 1)
        self.stream = self.connection.makefile("rb")

    def ask(self, body):
        """The body of the reply."""
        self.connection.sendall(head(self.server.path, self.server.port, len(body)) + body)
        return self.reply()

    def reply(self):
        """The body of the next reply."""
        if b" 200" not in self.stream.readline():
            raise CannotMeasure(f"{self.server.name} answers another HTTP status than 200")
        length, chunked = 0, False
        while (line := self.stream.readline().lower()) != b"\r\n":
            if line.startswith(b"content-length:"):
                length = int(line.split(b":")[1])
            chunked |= line.startswith(b"transfer-encoding: chunked")
        return self.chunks() if chunked else self.stream.read(length)

    def chunks(self):
        """The body of a reply that comes in chunks."""
        body = b""
        while size := int(self.stream.readline(), 16):
            body += self.stream.read(size)
            self.stream.readline()
        self.stream.readline()
        return body

    def good(self, body):
        """The body of the reply, which has to be successful."""
        reply = self.ask(body)
        status = int.from_bytes(reply[2:4], "big")
        if status > 1:
            raise CannotMeasure(f"{self.server.name} answers {status:#06x}")
        return reply


def job_number(reply):
    """The job-id of a reply."""
    place = reply.index(b"\x00\x06job-id") + 8
    return int.from_bytes(reply[place + 2:place + 6], "big")


def probe(server, body):
    """The number of a job that is printed just now; a server that is busy is asked again."""
    for _ in range(400):
        reply = Client(server).ask(body)
        if int.from_bytes(reply[2:4], "big") <= 1:
            return job_number(reply)
        time.sleep(0.01)
    raise CannotMeasure(f"{server.name} takes no job")


class Measured(typing.NamedTuple):
    """One load on one server: how many requests a second, the server's processor us for each, the middle and
    the 99th percent of their us, the part of them that was taken, how many failed, the octets of a reply, and the
    KiB that the server had resident at the end."""

    rate: float
    used: float
    p50: float
    p99: float
    taken: float
    failed: float
    reply: float
    resident: float


def wrk(server, connections, folder, seconds):
    """Has wrk send the body of a folder for so many seconds; the counts that it says."""
    words = ["wrk", f"-t{min(connections, 2)}", f"-c{connections}", f"-d{seconds}s", "--timeout", "10s", "-s", str(HERE / "post.lua"),
             f"http://127.0.0.1:{server.port}", "--", str(folder / "body"), server.path]
    said = subprocess.run(words, capture_output=True, text=True, timeout=seconds + 60, check=True).stdout.splitlines()[-1]
    count = {word.split("=")[0]: int(word.split("=")[1]) for word in said.split()}
    if not count["requests"]:
        raise CannotMeasure(f"{server.name} answers nothing: {said}")
    return count


def measure(server, load, folder, seconds):
    """Puts a load on a server."""
    _, operation, connections, octets = load
    body = message(operation, server, octets)
    (folder / "body").write_bytes(body)
    is_job = operation == PRINT_JOB
    first = probe(server, message(operation, server, 5)) if is_job else Client(server).good(body)
    before = processor_seconds(server.process)
    count = wrk(server, connections, folder, seconds)
    used = processor_seconds(server.process) - before
    resident = resident_kib(server.process)
    taken = probe(server, message(operation, server, 5)) - first - 1 if is_job else count["requests"]
    taken = max(1, min(taken, count["requests"]))
    return Measured(taken * 1e6 / count["duration"], used * 1e6 / taken, count["p50"], count["p99"],
                    taken / count["requests"], count["failed"], 0 if is_job else len(first), resident)


def with_server(kind, act):
    """What an act makes of a server that has just started and its folder."""
    if not shutil.which(kind.wanted):
        raise CannotMeasure(f"{kind.wanted} isn't installed")
    folder = pathlib.Path(tempfile.mkdtemp(prefix=f"load.{kind.name}."))
    try:
        with kind(folder) as server:
            return act(server, folder)
    finally:
        shutil.rmtree(folder, ignore_errors=True)


def compare(load, rounds, seconds):
    """What each server does under a load, by its name, round by round; of one that can't be measured, why."""
    if not shutil.which("wrk"):
        return {kind.name: "wrk isn't installed" for kind in KINDS}

    def of_kind(kind):
        return lambda: with_server(kind, lambda server, folder: measure(server, load, folder, seconds))

    return all_rounds({kind.name: of_kind(kind) for kind in KINDS}, rounds)


def percentile(times, part):
    """How long the part of the requests took at most, in ms."""
    return sorted(times)[int(len(times) * part)] * 1000


def timed(client, body):
    """How long a request takes until its reply has come, which has to be successful."""
    start = time.perf_counter()
    client.good(body)
    return time.perf_counter() - start


def while_jobs_wait(waiting=WAITING, ended=ENDED):
    """How long requests take while jobs wait, Print-Jobs and questions: a job ends for each that comes."""

    def act(server, _folder):
        client, jobs, questions = Client(server), [], []
        job, question = message(PRINT_JOB, server, 5), message(GET_PRINTER_ATTRIBUTES, server, 0)
        for _ in range(waiting + 16):
            client.good(job)
        for _ in range(ended):
            jobs.append(timed(client, job))
            server.devices.end_one()
            questions.append(timed(client, question))
        return jobs, questions

    return with_server(SlowOurs, act)


class Latency(typing.NamedTuple):
    """How many us a Print-Job takes that comes at once after the one before, and after a pause; the middle ones."""

    at_once: float
    paused: float


def one_by_one(kind, count, pause):
    """How long Print-Jobs take, each taken, one after the other on a kept connection."""

    def times_of(seconds):
        def act(server, _folder):
            client, times = Client(server), []
            for _ in range(count):
                time.sleep(seconds)
                times.append(timed(client, message(PRINT_JOB, server, 5)))
            return percentile(times, 0.5) * 1000

        return with_server(kind, act)

    return Latency(times_of(0), times_of(pause))
