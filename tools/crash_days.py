#!/usr/bin/env python3
"""Kills the server with SIGKILL at random instants under load, restarts it on its spool, and accounts for each job.

    tools/crash_days.py [--kills N] [--seed S] [--sync] [--program PATH] [--log] [--longest OCTETS] [--drain N]
    tools/crash_days.py --rows | --full            with the same options

The load: IPP clients (Print-Job, Create-Job with Send-Document, Hold-Job, Release-Job, Cancel-Job, Get-Jobs), LPD
clients with jobs of one file or two, and four devices of different speeds that print, stall, fail jobs and drop their
connections. Each document begins with a token of its own. A job is told once a client has read the reply that has its
id, or LPD's acknowledgement of its last octet. After each restart, before any client or device connects again:

 1. each told job is known, with its id and attributes; a finished one may be forgotten behind 256 others;
 2. a told job that no device had begun waits, is held or is canceled, as its client left it;
 3. no document comes out of a device twice, and what comes out is what was sent;
 4. no id is given to two jobs, and ids only grow;
 5. `cat *.trace | printd replay --verify` says same (every 50 kills, and at the end);
 6. at the end each told job comes out exactly once, unless it was canceled, or a device failed it or had it in hand
    when a connection ended.

Every 100 kills (--drain) all jobs are printed before the next kill, so that the server starts with nothing
unfinished. A job may be aborted though no device saw its line, since its bytes were still due: at most one for each
idle device. Documents have up to 100,000 octets (--longest); an unproved program wants fewer, and --drain 10, because
it plays its files slowly.

Without --kills there are 1,000; with 0 the server is loaded for five seconds, also one that has no spool. --rows
tries damaged and missing files, two servers on a directory, and modes. --full fills the disk; it has to be
allowed to mount one. --log keeps the server's log. Status 1 where anything was wrong: then the directory is kept, with
a copy of the spool from before and after the first restart that went wrong. --program is the program that ./printd
runs, if it isn't given.
"""
import argparse
import collections
import os
import pathlib
import random
import re
import shutil
import signal
import socket
import struct
import subprocess
import sys
import tempfile
import threading
import time
import traceback
import typing

HERE = pathlib.Path(__file__).resolve().parent
sys.path[:0] = [str(HERE / "load")]
from messages import CANCEL_JOB, GET_PRINTER_ATTRIBUTES, INTEGER, KEYWORD, NAME, PRINT_JOB, attribute, head, request  # noqa: E402

CREATE_JOB, SEND_DOCUMENT, GET_JOB_ATTRIBUTES, GET_JOBS, HOLD_JOB, RELEASE_JOB = 0x0005, 0x0006, 0x0009, 0x000A, 0x000C, 0x000D
BOOLEAN, ENUM = 0x22, 0x23
PENDING, HELD, PROCESSING, CANCELED, ABORTED, COMPLETED = 3, 4, 5, 7, 8, 9
NOT_FOUND, NOT_POSSIBLE = 0x0406, 0x0404
# what a change of a job makes of it
CHANGES = {HOLD_JOB: ("held", True), RELEASE_JOB: ("held", False), CANCEL_JOB: ("canceled", True)}
# how long a job takes on each device, in ms, and the devices of each printer
DEVICES = {"hall": 2, "window": 6, "corner": 12, "yard": 25}
PRINTERS = {"lab": ["hall", "window", "corner"], "shop": ["corner", "yard"]}
MEDIA = ["iso_a4_210x297mm", "na_letter_8.5x11in"]
SIDES = {"one-sided": "1", "two-sided-long-edge": "L", "two-sided-short-edge": "S"}
PLAIN = {"copies": 1, "sides": "one-sided", "media": MEDIA[0], "job-priority": 50}
SETTINGS = """version = 1
uri_base = "ipp://localhost:631"
operators = ["root"]
""" + "".join(f"""
[[device]]
name = "{name}"
rate_one = {speed}
rate_two = {speed}
setup = {speed}
media = {MEDIA}
formats = ["application/octet-stream", "text/plain"]
""" for name, speed in DEVICES.items()) + "".join(f"""
[[printer]]
name = "{name}"
devices = {devices}
media_default = "{MEDIA[0]}"
format_default = "application/octet-stream"
""" for name, devices in PRINTERS.items())
DIGITS = "0123456789abcdefghijklmnopqrstuvwxyz"
TOKEN = 5
LENGTHS = [5, 5, 6, 40, 300, 1_000, 1_019, 1_024, 1_100, 5_000, 20_000, 100_000]
# how many jobs wait for devices at most, how many finished ones the server keeps, and how many wrongs end the run
WAITING, KEPT, WRONGS = 60, 256, 20
PATIENCE = 30


class Document(typing.NamedTuple):
    """A document, whose octets follow from its token and its length."""

    token: str
    length: int

    def octets(self):
        return self.token.encode() + random.Random(self.token).randbytes(self.length - TOKEN)


class Job:
    """A job, as its client knows it. A set has each value that is possible while an answer is missing."""

    def __init__(self, token, door, owner, printer, ticket):
        self.token, self.door, self.owner, self.printer, self.ticket = token, door, owner, printer, ticket
        self.name = f"job-{token}"
        self.id, self.told, self.mark = None, False, None
        self.documents = []
        self.counts, self.ready, self.held, self.canceled = {0}, {False}, {False}, {False}
        # its last state, whether it was aborted unseen by a device, and what mustn't change from start to start
        self.final, self.unseen, self.seen = None, False, {}

    def __repr__(self):
        parts = [f"{name} {getattr(self, name)}" for name in ("id", "told", "counts", "ready", "held", "canceled", "final", "mark")]
        return f"{self.name} ({self.door}, {self.owner}, {self.printer}, {', '.join(parts)})"

    def contents(self, count):
        """The octets of its first documents."""
        return b"".join(document.octets() for document in self.documents[:count])


class Print:
    """What a device was sent of a job: the words of its line, how it ended, and whether the server has stored that."""

    def __init__(self, device, words):
        self.device, self.words = device, words
        self.end, self.sure, self.whole = None, False, False

    def __repr__(self):
        return f"{self.device}, ended {self.end}, {'surely' if self.sure else 'not surely'}, {'whole' if self.whole else 'in part'}"


class Books:
    """What clients were told and devices were sent, and what is wrong with that."""

    def __init__(self):
        self.lock = threading.RLock()
        self.made = self.floor = self.waiting = self.kills = 0
        self.jobs, self.documents, self.ids, self.prints, self.out, self.live = {}, {}, {}, {}, {}, {}
        self.wrongs = []
        self.counts = collections.Counter()

    def wrong(self, text):
        with self.lock:
            self.wrongs.append(f"kill {self.kills}: {text}")
            print(f"wrong: {self.wrongs[-1]}", flush=True)

    def token(self):
        """A token that no other document or job has."""
        with self.lock:
            self.made += 1
            return "".join(DIGITS[self.made // 36 ** place % 36] for place in reversed(range(TOKEN)))

    def new_job(self, door, owner, printer, ticket):
        job = Job(self.token(), door, owner, printer, ticket)
        with self.lock:
            self.jobs[job.token] = self.live[job.token] = job
            self.waiting += 1
        return job

    def waiting_of(self, owner):
        """The jobs of an owner that no device has begun and nobody canceled."""
        with self.lock:
            return [job for job in self.live.values() if job.owner == owner and job.id and job.id not in self.prints and job.canceled == {False}]

    def new_document(self, job, length):
        """Another document of a job."""
        document = Document(self.token(), length)
        with self.lock:
            self.documents[document.token] = (document, job)
            job.documents.append(document)
        return document

    def give(self, number, job):
        """Notes the id of a job."""
        with self.lock:
            other = self.ids.setdefault(number, job)
            if other is not job or job.id not in (None, number):
                self.wrong(f"id {number} is that of {job} and of {other}")
            if job.id is None and number <= self.floor:
                self.wrong(f"id {number} of {job} is new, and ids up to {self.floor} were given before the restart")
            job.id = number

    def tell(self, job, number, mark):
        """Notes that a client was told of a job, and how long which file was then."""
        with self.lock:
            job.told, job.mark = True, mark
            self.counts["told"] += 1
            if number is not None:
                self.give(number, job)

    def begin(self, device, number, words):
        """Notes the line of a job at a device."""
        with self.lock:
            before = self.prints.get(number)
            if before:
                self.wrong(f"job {number} is sent to {device}, and was sent before: {before}")
            self.waiting -= 1
            self.prints[number] = Print(device, words)
            return self.prints[number]

    def take_octets(self, number, got, length):
        """Notes the octets of a job that a device got: none may have come out before, and they are what was sent."""
        with self.lock:
            place, job = 0, None
            while place + TOKEN <= len(got):
                document, job = self.documents.get(bytes(got[place:place + TOKEN]).decode("latin-1"), (None, None))
                if not document:
                    self.wrong(f"job {number} has octets at {place} that no client sent: {bytes(got[place:place + 20])}")
                    return
                if document.token in self.out:
                    self.wrong(f"document {document.token} of {job} comes out of job {number}, and came out of job {self.out[document.token]}")
                self.out[document.token] = number
                place += document.length
            if job:
                self.give(number, job)
        if job and len(got) == length:
            self.compare(job, self.prints[number], got)

    def compare(self, job, one, got):
        """Compares a job that a device got whole with what was sent."""
        one.whole = True
        self.counts["printed"] += 1
        if not any(job.contents(count) == got for count in set(job.counts)):
            self.wrong(f"{job} has other octets than were sent, {len(got)} of them")
        wanted = [str(job.ticket["copies"]), SIDES[job.ticket["sides"]], job.ticket["media"]]
        if one.words != wanted:
            self.wrong(f"{job} is to be printed as {one.words}, and not {wanted}")
        if job.held == {True} or job.ready == {False}:
            self.wrong(f"{job} is printed, though it is held or not all in")

    def states(self, job):
        """The states that a job may have after a restart."""
        one = self.prints.get(job.id)
        if job.canceled == {True}:
            return {CANCELED}
        found = {CANCELED} if True in job.canceled else set()
        if one:
            return found | ({ABORTED} if one.end != "done" else {COMPLETED} if one.sure else {ABORTED, COMPLETED})
        if True in job.held or False in job.ready:
            found.add(HELD)
        if False in job.held and True in job.ready:
            found |= {PENDING, ABORTED}
        return found

    def may_be_finished(self, job):
        return job.id in self.prints or True in job.canceled


def values_of(tag, octets):
    return int.from_bytes(octets, "big") if tag in (INTEGER, ENUM) else octets.decode("utf-8", "replace")


def groups_of(body):
    """The groups behind the first of a reply's body: of each its attributes, by name, with their values."""
    found, place, name = [], 8, ""
    while body[place] != 3:
        tag, place = body[place], place + 1
        if tag < 0x10:
            found.append({})
            continue
        texts = []
        for _ in range(2):
            size = int.from_bytes(body[place:place + 2], "big")
            texts.append(body[place + 2:place + 2 + size])
            place += 2 + size
        name = texts[0].decode() or name
        found[-1].setdefault(name, []).append(values_of(tag, texts[1]))
    return found[1:]


def in_chunks(octets):
    """A body in chunks, as HTTP has it."""
    parts = [octets[start:start + 3000] for start in range(0, len(octets), 3000)]
    return b"".join(b"%x\r\n%s\r\n" % (len(part), part) for part in parts) + b"0\r\n\r\n"


class Client:
    """A connection of IPP."""

    def __init__(self, port, patience=PATIENCE):
        self.port = port
        self.connection = socket.create_connection(("127.0.0.1", port), timeout=patience)
        self.connection.setsockopt(socket.IPPROTO_TCP, socket.TCP_NODELAY, 1)
        self.stream = self.connection.makefile("rb")

    def close(self):
        self.stream.close()
        self.connection.close()

    def ask(self, operation, printer, user, more=b"", document=b"", manner="whole"):
        """The status of a request, and the groups of its answer. It is sent whole, in chunks, or slowly."""
        body = request(operation, f"ipp://localhost/printers/{printer}", user, more, document)
        lines = head(f"/printers/{printer}", self.port, len(body))
        if manner == "chunks":
            lines = re.sub(rb"Content-Length: \d+", b"Transfer-Encoding: chunked", lines)
            body = in_chunks(body)
        octets = lines + body
        half = len(octets) // 2 if manner == "slow" else len(octets)
        self.connection.sendall(octets[:half])
        if half < len(octets):
            time.sleep(0.004)
            self.connection.sendall(octets[half:])
        body = self.reply()
        return int.from_bytes(body[2:4], "big"), groups_of(body)

    def reply(self):
        length, status = 0, self.stream.readline()
        while (line := self.stream.readline()) != b"\r\n":
            if not line.endswith(b"\n"):
                raise EOFError
            if line.lower().startswith(b"content-length:"):
                length = int(line.split(b":")[1])
        body = self.stream.read(length)
        if len(body) < max(8, length):
            raise EOFError(status)
        return body

    def jobs(self, printer):
        """All jobs of a printer by their ids."""
        found = {}
        for which in ("not-completed", "completed"):
            more = attribute(KEYWORD, "requested-attributes", "all") + attribute(KEYWORD, "which-jobs", which)
            status, groups = self.ask(GET_JOBS, printer, "root", more)
            if status:
                raise EOFError
            found |= {group["job-id"][0]: group for group in groups}
        return found

    def job(self, job):
        """The attributes of a job, or nothing."""
        status, groups = self.ask(GET_JOB_ATTRIBUTES, job.printer, job.owner, attribute(INTEGER, "job-id", job.id))
        return groups[0] if not status else None


class Peer(threading.Thread):
    """A client or a device: it connects again whenever the server is up."""

    def __init__(self, day, seed):
        super().__init__(daemon=True)
        self.day, self.books, self.random = day, day.books, random.Random(seed)

    def run(self):
        while self.day.enter():
            try:
                self.live()
            except TimeoutError:
                if not self.day.patient:
                    self.books.wrong(f"{type(self).__name__}: no answer within {PATIENCE} s")
            except (OSError, EOFError) as error:
                self.end(error)
            except Exception:  # noqa: BLE001
                self.books.wrong(f"the tool itself: {traceback.format_exc()}")
            finally:
                self.leave()
                self.day.leave()

    def leave(self):
        """Ends a life."""

    def end(self, error):
        """What is done where a connection ends. Behind a kill nobody connects again, since a connection to a free port
        may be one to itself."""
        if self.day.killing:
            self.day.down.wait(PATIENCE)
        else:
            self.end_early(error)

    def end_early(self, error):
        """Only a kill may end the connection of a client."""
        self.books.wrong(f"{self.user}: a connection ends though the server is up: {error!r}")

    def rest(self, seconds):
        """Waits, but not beyond a kill."""
        if self.day.down.wait(seconds):
            raise EOFError

    def length(self):
        return self.random.choice(self.day.lengths)


def ticket_of(chance):
    """What a job asks for."""
    return {"copies": chance.choice([1, 1, 3]), "sides": chance.choice(list(SIDES)), "media": chance.choice(MEDIA),
            "job-priority": chance.choice([1, 50, 50, 100])}


class IppClient(Peer):
    """A client of IPP: it makes jobs, and asks and changes its own."""

    def __init__(self, day, place):
        super().__init__(day, f"{day.seed} ipp {place}")
        self.user = f"ipp-{place}"
        self.mine, self.client = [], None

    def live(self):
        self.client = Client(self.day.ports["ipp"])
        self.mine = self.books.waiting_of(self.user)
        while not self.day.down.is_set():
            self.step()
            if len(self.mine) > 60:
                self.mine = self.books.waiting_of(self.user)
            if self.random.random() < 0.02:
                self.client.close()
                self.client = Client(self.day.ports["ipp"])

    def leave(self):
        if self.client:
            self.client.close()
            self.client = None

    def step(self):
        chance = self.random.random()
        open_ones = [job for job in self.mine if job.ready == {False}]
        if open_ones and (chance < 0.2 or len(open_ones) > 3 or self.day.calm):
            self.send(self.random.choice(open_ones))
        elif self.mine and chance < 0.4 and not self.day.calm:
            self.change()
        elif chance < 0.45:
            self.client.ask(GET_JOBS, self.random.choice(list(PRINTERS)), self.user)
        elif self.day.producing and self.books.waiting < WAITING:
            self.create() if chance < 0.6 else self.print_one()
        else:
            self.rest(0.01)

    def ask(self, operation, job, more, document=b""):
        """The status of a request about a job, and the groups of its answer."""
        manner = self.random.choice(["whole", "whole", "whole", "chunks", "slow"])
        status, groups = self.client.ask(operation, job.printer, self.user, more, document, manner)
        if status and (operation not in CHANGES or status not in (NOT_FOUND, NOT_POSSIBLE)):
            self.books.wrong(f"{job}: operation {operation:#06x} is answered {status:#06x}")
        return status, groups

    def make(self, operation, job, document=b""):
        """Makes a job."""
        held = self.random.random() < 0.1
        job.held = {held}
        more = attribute(NAME, "job-name", job.name) + b"\x02"
        more += b"".join(attribute(KEYWORD if isinstance(value, str) else INTEGER, name, value) for name, value in job.ticket.items())
        more += attribute(KEYWORD, "job-hold-until", "indefinite") if held else b""
        status, groups = self.ask(operation, job, more, document)
        if status == 0:
            self.books.tell(job, groups[0]["job-id"][0], self.day.mark())
            self.mine.append(job)

    def new_job(self):
        return self.books.new_job("ipp", self.user, self.random.choice(list(PRINTERS)), ticket_of(self.random))

    def print_one(self):
        job = self.new_job()
        document = self.books.new_document(job, self.length())
        job.counts, job.ready = {1}, {True}
        self.make(PRINT_JOB, job, document.octets())

    def create(self):
        self.make(CREATE_JOB, self.new_job())

    def send(self, job):
        """Sends a document, which may be the last."""
        last, (count,) = self.random.random() < 0.6, job.counts
        document = self.books.new_document(job, self.length())
        job.counts, job.ready = {count, count + 1}, {False, last}
        status, _ = self.ask(SEND_DOCUMENT, job, attribute(INTEGER, "job-id", job.id) + attribute(BOOLEAN, "last-document", chr(last)), document.octets())
        if status == 0:
            job.counts, job.ready = {count + 1}, {last}

    def change(self):
        """Holds, releases or cancels a job. One that is held is mostly released."""
        held = [job for job in self.mine if job.held == {True}]
        if len(held) > 4 or (held and self.random.random() < 0.3):
            job, operation = held[0], RELEASE_JOB
        else:
            job, operation = self.random.choice(self.mine), self.random.choice(list(CHANGES))
        (kind, value), before = CHANGES[operation], getattr(job, CHANGES[operation][0])
        setattr(job, kind, before | {value})
        status, _ = self.ask(operation, job, attribute(INTEGER, "job-id", job.id))
        setattr(job, kind, before if status else {value})
        if status or kind == "canceled":
            self.mine.remove(job)
            if not status and job.id not in self.books.prints:
                self.books.waiting -= 1


class LpdClient(Peer):
    """A client of LPD: each job has a connection."""

    def __init__(self, day, place):
        super().__init__(day, f"{day.seed} lpd {place}")
        self.user, self.count, self.connection = f"lpd-{place}", 0, None

    def live(self):
        while not self.day.down.is_set():
            if not self.day.producing or self.books.waiting >= WAITING:
                self.rest(0.01)
                continue
            with socket.create_connection(("127.0.0.1", self.day.ports["lpd"]), timeout=PATIENCE) as self.connection:
                self.print_one()
            self.rest(self.random.random() * 0.02)

    def print_one(self):
        """Prints a job of one file or two; its control file is the first or the last."""
        self.count += 1
        job = self.books.new_job("lpd", self.user, self.random.choice(list(PRINTERS)), PLAIN)
        names = [f"df{letter}{self.count % 1000:03}here" for letter in "AB"[:self.random.choice([1, 1, 2])]]
        documents = [self.books.new_document(job, self.length()) for _ in names]
        job.counts, job.ready = {len(names)}, {True}
        control = f"Hhere\nP{self.user}\nJ{job.name}\n" + "".join(f"l{name}\n" for name in names)
        files = [(3, name, document.octets()) for name, document in zip(names, documents)]
        files.insert(self.random.choice([0, len(files)]), (2, f"cfA{self.count % 1000:03}here", control.encode()))
        taken = self.put(b"\x02%s\n" % job.printer.encode())
        for kind, name, octets in files:
            taken = taken and self.put(b"%c%d %s\n" % (kind, len(octets), name.encode())) and self.put(octets + b"\0")
        if taken:
            self.books.tell(job, None, self.day.mark())
        else:
            self.books.wrong(f"{job} is refused by LPD")

    def put(self, octets):
        """Sends octets: whether they are acknowledged."""
        self.connection.sendall(octets)
        answer = self.connection.recv(1)
        if not answer:
            raise EOFError
        return answer == b"\0"


class Device(Peer):
    """A device. Where the day isn't calm it stalls, fails jobs and drops its connection."""

    def __init__(self, day, name):
        super().__init__(day, f"{day.seed} {name}")
        self.device, self.speed = name, DEVICES[name] / 1000
        self.hand = self.connection = None
        # whether the last connection had no job in hand at its end
        self.idle, self.kept = False, bytearray()

    def live(self):
        self.hand, self.kept = None, bytearray()
        self.rest(self.random.random() * 0.02)
        self.connection = socket.socket()
        self.connection.setsockopt(socket.IPPROTO_TCP, socket.TCP_NODELAY, 1)
        if self.random.random() < 0.5:
            # the server's writes are then taken in small parts; a small segment keeps the system from waiting
            self.connection.setsockopt(socket.IPPROTO_TCP, socket.TCP_MAXSEG, 1000)
            self.connection.setsockopt(socket.SOL_SOCKET, socket.SO_RCVBUF, 8192)
        self.connection.connect(("127.0.0.1", self.day.ports["devices"]))
        self.idle = True
        self.connection.sendall(f"HELLO {self.device}\nREADY\n".encode())
        before = None
        while True:
            words = self.line()
            if words[0] == "CANCEL":
                continue
            if before:
                before.sure = True
            before = self.print_one(words)

    def end_early(self, error):
        """A device may drop its connection, or be turned away while the one before is open."""

    def leave(self):
        """Ends a life; a job in hand is lost."""
        if self.hand:
            self.hand.end, self.idle = "lost", False
        if self.connection:
            self.connection.close()

    def receive(self):
        octets = self.connection.recv(65536)
        if not octets:
            raise EOFError
        self.kept += octets

    def line(self):
        """The words of the next line."""
        while b"\n" not in self.kept:
            self.receive()
        line, _, rest = bytes(self.kept).partition(b"\n")
        self.kept = bytearray(rest)
        return line.decode("latin-1").split(" ")

    def fill(self, got, count):
        """Receives octets until there are so many."""
        while len(got) < count:
            if not self.kept:
                self.receive()
            part = self.kept[:count - len(got)]
            got += part
            del self.kept[:len(part)]

    def say(self, line):
        self.connection.sendall(line.encode() + b"\n")

    def print_one(self, words):
        """Prints a job, or does something else with it."""
        number, length = int(words[1]), int(words[2])
        ways = ["print"] if self.day.calm else ["print"] * 42 + ["stall", "stop", "fail", "early", "late", "reset"]
        way, got = self.random.choice(ways), bytearray()
        self.hand = self.books.begin(self.device, number, words[3:6])
        try:
            self.fill(got, max(min(length, TOKEN), length // 2))
            if way in ("early", "stall"):
                self.interrupt(way)
            self.fill(got, length)
        finally:
            self.books.take_octets(number, got, length)
        self.say(f"PAGES {number} 1")
        self.rest(self.speed * self.random.uniform(0.3, 2))
        if way != "print":
            self.interrupt(way)
        self.hand.end = "failed" if way == "fail" else "done"
        ended, self.hand = self.hand, None
        self.say(f"{'FAIL' if way == 'fail' else 'DONE'} {number}")
        return ended

    def interrupt(self, way):
        """Goes away, or stands still for a while."""
        if way == "reset":
            self.connection.setsockopt(socket.SOL_SOCKET, socket.SO_LINGER, struct.pack("ii", 1, 0))
        if way in ("early", "late", "reset"):
            raise EOFError
        if way == "stop":
            self.say("STOP")
        self.rest(self.random.random() * 0.15)
        if way == "stop":
            self.say("READY")


class Refused(Exception):
    """The server ended at its start: with which status, and what it said."""

    def __init__(self, status, said):
        super().__init__(f"the start ends with status {status}: {said.strip()}")
        self.status, self.said = status, said


class Server:
    """A server on free ports, with its spool if it has one."""

    def __init__(self, program, folder, spool, words=()):
        self.errors, self.ports = folder / "errors", {}
        self.begun = self.errors.stat().st_size if self.errors.exists() else 0
        doors = ["--ipp", "0", "--lpd", "0", "--devices", "0"]
        keeps = ["--spool", spool] if spool else []
        with self.errors.open("a") as errors:
            self.process = subprocess.Popen(
                [str(word) for word in [program, "serve", "--settings", folder / "settings.toml", *doors, *keeps, *words]],
                stdout=subprocess.PIPE, stderr=errors, text=True)

    def said(self):
        """What it wrote to standard error."""
        return self.errors.read_text(errors="replace")[self.begun:]

    def wait(self):
        """Waits until it answers; the error is that it ended. One that takes too long is killed."""
        watch = threading.Timer(4 * PATIENCE, self.process.kill)
        watch.start()
        try:
            while len(self.ports) < 3:
                name, port = self.process.stdout.readline().split()
                self.ports[name] = int(port)
            client = Client(self.ports["ipp"], None)
            client.ask(GET_PRINTER_ATTRIBUTES, "lab", "root")
            client.close()
        except (OSError, EOFError, ValueError) as error:
            raise Refused(self.process.wait(), self.said()) from error
        finally:
            watch.cancel()
        return self

    def end(self, how=signal.SIGKILL):
        self.process.send_signal(how)
        self.process.wait()
        self.process.stdout.close()


class Day:
    """A server that is killed and restarted, and its load."""

    def __init__(self, chosen, folder, spool):
        self.program, self.seed, self.folder, self.spool = chosen.program, chosen.seed, folder, spool
        self.lengths, self.drains = [length for length in LENGTHS if length <= chosen.longest], chosen.drain
        self.words = (["--sync"] if chosen.sync else []) + (["--log", folder / "log"] if chosen.log else [])
        self.random, self.books = random.Random(chosen.seed), Books()
        self.ports, self.times, self.server, self.file, self.base = {}, [], None, None, None
        self.turn, self.is_open, self.inside, self.over = threading.Condition(), False, 0, False
        self.down = threading.Event()
        self.calm, self.producing, self.patient = False, True, False
        self.killed_at, self.start_killed, self.killing = 0, False, False
        (folder / "settings.toml").write_text(SETTINGS)
        self.devices = [Device(self, name) for name in DEVICES]
        self.peers = self.devices + [IppClient(self, place) for place in range(6)] + [LpdClient(self, place) for place in range(3)]
        for peer in self.peers:
            peer.start()

    def enter(self):
        """Waits until the server is up; False where the day is over."""
        with self.turn:
            self.turn.wait_for(lambda: self.is_open or self.over)
            self.inside += 0 if self.over else 1
            return not self.over

    def leave(self):
        with self.turn:
            self.inside -= 1
            self.turn.notify_all()

    def open(self):
        """Lets the load in."""
        for device in self.devices:
            device.idle = False
        self.killing = False
        with self.turn:
            self.down.clear()
            self.is_open = True
            self.turn.notify_all()

    def close(self):
        """Waits until the load has seen that the server is gone."""
        with self.turn:
            self.is_open = False
            self.down.set()
            if not self.turn.wait_for(lambda: self.inside == 0, 2 * PATIENCE):
                self.books.wrong("the load doesn't end")

    def files(self):
        return sorted(self.spool.glob("*.trace")) if self.spool else []

    def mark(self):
        """The name of the last file, and how many bytes it has."""
        return (self.file.name, self.file.stat().st_size) if self.file else None

    def start(self):
        """Starts the server on the spool, and checks what it knows."""
        if not self.books.wrongs:
            self.keep("before")
        begun = time.monotonic()
        self.server = Server(self.program, self.folder, self.spool, self.words)
        self.server.wait()
        self.times.append((time.monotonic() - begun) * 1000)
        self.ports = self.server.ports
        files = self.files()
        self.file = files[-1] if files else None
        anew, self.base = self.base not in (None, files[:1]), files[:1]
        wrongs = len(self.books.wrongs)
        Check(self, anew).check()
        if self.books.wrongs and not wrongs:
            self.keep("after")

    def keep(self, name):
        """Keeps a copy of the spool."""
        if self.spool and self.spool.exists():
            shutil.rmtree(self.folder / name, ignore_errors=True)
            shutil.copytree(self.spool, self.folder / name)

    def kill(self):
        """Kills the server, and waits until nobody is told or sent any more."""
        self.killing = True
        self.server.end()
        self.close()
        self.killed_at, self.start_killed = self.server.errors.stat().st_size, False

    def in_hand(self):
        """The ids of the jobs of which starts since the last kill said that a device had them in hand."""
        said = (self.folder / "errors").read_text(errors="replace")[self.killed_at:]
        return {int(number) for number in re.findall(r"job (\d+) .*hand", said)}

    def kill_start(self):
        """Kills a server while it starts."""
        self.start_killed = True
        usual = self.times[-1] / 1000 if self.times else 0.05
        server = Server(self.program, self.folder, self.spool, self.words)
        time.sleep(self.random.uniform(0, 1.2 * usual))
        server.end()

    def verify(self):
        """Whether the files play the same."""
        files = self.files()
        if not files:
            return
        with subprocess.Popen(["cat", *files], stdout=subprocess.PIPE) as cat:
            done = subprocess.run([self.program, "replay", "--verify"], stdin=cat.stdout, capture_output=True, timeout=600, check=False)
        if (done.returncode, done.stdout) != (0, b"same\n"):
            said = (done.stdout + done.stderr).decode("utf-8", "replace")[:300]
            self.books.wrong(f"replay --verify has status {done.returncode}: {said.strip()}")
            self.keep("verified")

    def drain(self):
        """Has all jobs printed, held ones and those that aren't all in among them."""
        self.producing, self.calm = False, True
        # what clients have asked is answered by then
        time.sleep(0.3)
        ends, left, client = time.monotonic() + 4 * PATIENCE, None, Client(self.ports["ipp"])
        while left != {} and time.monotonic() < ends:
            left = {number: entry for printer in PRINTERS for number, entry in client.jobs(printer).items() if entry["job-state"][0] < CANCELED}
            for number, entry in left.items():
                job = self.books.ids.get(number) or self.books.jobs[entry["job-name"][0].removeprefix("job-")]
                if job.door == "ipp" and entry["job-hold-until"] == ["indefinite"]:
                    job.held = {True, False}
                    client.ask(RELEASE_JOB, job.printer, "root", attribute(INTEGER, "job-id", number))
            time.sleep(0.05)
        if left:
            self.books.wrong(f"jobs {sorted(left)[:20]} aren't printed")
        client.close()

    def resume(self):
        """Goes on after all were printed."""
        self.producing, self.calm = True, False

    def finish(self):
        """Lets the load end."""
        with self.turn:
            self.over = True
            self.turn.notify_all()


class Check:
    """What a server knows after a restart, compared with the books."""

    def __init__(self, day, anew):
        self.day, self.books, self.anew = day, day.books, anew
        self.idle = sum(device.idle for device in day.devices)
        self.client = Client(day.ports["ipp"])
        self.listed = {number: entry for printer in PRINTERS for number, entry in self.client.jobs(printer).items()}
        self.finished = sum(entry["job-state"][0] >= CANCELED for entry in self.listed.values())
        self.unseen = []

    def check(self):
        self.match()
        for job in list(self.books.live.values()):
            entry = self.listed.get(job.id)
            if entry:
                self.check_known(job, entry)
            else:
                self.check_unknown(job)
        self.check_aborted()
        self.books.floor = max([self.books.floor, *self.books.ids])
        self.books.waiting = sum(job.canceled != {True} for job in self.books.live.values())
        self.client.close()

    def check_aborted(self):
        """The jobs that are aborted though no device saw them, and those of which the start said that they were in hand."""
        if len(self.unseen) > self.idle:
            self.books.wrong(f"{len(self.unseen)} jobs are aborted that no device saw, and {self.idle} devices were idle: {self.unseen}")
        said = self.day.in_hand()
        for number in said:
            if self.listed[number]["job-state"] != [ABORTED]:
                self.books.wrong(f"job {number} is said to be aborted, and isn't: {self.listed[number]}")
        for job in self.unseen:
            if job.id not in said and not self.day.start_killed:
                self.books.wrong(f"{job} is aborted, no device saw it, and the start doesn't say that one had it")

    def match(self):
        """Finds the job of each entry by its name."""
        for number, entry in self.listed.items():
            job = self.books.jobs.get(entry["job-name"][0].removeprefix("job-"))
            if not job:
                self.books.wrong(f"job {number} is one that nobody sent: {entry}")
                continue
            self.books.give(number, job)
            if job.final not in (None, entry["job-state"][0]):
                self.books.wrong(f"{job} was finished, and is now in state {entry['job-state'][0]}")

    def check_unknown(self, job):
        """A job that the server doesn't know: it was never taken, or is finished and was forgotten."""
        begun = job.id in self.books.prints
        if not job.told and not begun:
            job.final = "never taken"
        elif self.books.may_be_finished(job) and (self.anew or self.finished >= KEPT):
            job.final = "forgotten"
        else:
            self.books.wrong(f"{job} was told of, or begun, and is unknown: {self.books.prints.get(job.id)}")
            job.final = "unknown"
        del self.books.live[job.token]

    def check_known(self, job, entry):
        """A job that the server knows: its attributes, and its state."""
        job.told = True
        self.check_attributes(job, entry)
        single = self.client.job(job) or {}
        if {**single, "job-printer-up-time": 0} != {**entry, "job-printer-up-time": 0}:
            self.books.wrong(f"{job}: Get-Job-Attributes shows {single}, Get-Jobs {entry}")
        state, reasons = entry["job-state"][0], entry["job-state-reasons"]
        if state not in self.books.states(job):
            self.books.wrong(f"{job} is in state {state}, {reasons}, and may be in {sorted(self.books.states(job))}; sent: {self.books.prints.get(job.id)}")
        elif state == ABORTED and job.id not in self.books.prints:
            job.unseen = True
            self.unseen.append(job)
        one = self.books.prints.get(job.id)
        if state == ABORTED and not (one and one.end == "failed"):
            self.books.counts["aborted"] += 1
        self.settle(job, entry, state, "job-incoming" in reasons)

    def check_attributes(self, job, entry):
        wanted = {"job-name": job.name, "job-originating-user-name": job.owner, **job.ticket}
        for name, value in wanted.items():
            if entry.get(name) != [value]:
                self.books.wrong(f"{job}: {name} is {entry.get(name)}, and was {value}")
        counts = {(count, -(-sum(document.length for document in job.documents[:count]) // 1024)) for count in job.counts}
        if (entry["number-of-documents"][0], entry["job-k-octets"][0]) not in counts:
            self.books.wrong(f"{job}: it has {entry['number-of-documents']} documents of {entry['job-k-octets']} KiB, and not one of {counts}")
        for name in ("job-uri", "job-printer-uri", "time-at-creation"):
            if job.seen.setdefault(name, entry[name]) != entry[name]:
                self.books.wrong(f"{job}: {name} was {job.seen[name]}, and is {entry[name]}")

    def settle(self, job, entry, state, incoming):
        """What was possible of a job is known now."""
        count = entry["number-of-documents"][0]
        del job.documents[count:]
        job.counts, job.canceled = {count}, {state == CANCELED}
        if state >= CANCELED:
            job.final = state
            del self.books.live[job.token]
        else:
            job.ready, job.held = {not incoming}, {entry["job-hold-until"] == ["indefinite"]}


def check_end(books):
    """Whether each told job came out once, where nothing excuses it."""
    for job in books.jobs.values():
        one = books.prints.get(job.id)
        if not job.told or True in job.canceled or job.unseen or (one and one.end in ("failed", "lost")):
            continue
        if not (one and one.whole):
            books.wrong(f"{job} was told of, and didn't come out: {one}")


def line_of(day):
    books, times = day.books, day.times or [0]
    return (f"{books.kills} kills: {books.counts['told']} jobs told, {books.counts['printed']} printed, {books.counts['aborted']} aborted in hand; "
            f"restarts take {sum(times) / len(times):.0f} ms, {max(times):.0f} at most; "
            f"{sum(file.stat().st_size for file in day.files()) >> 20} MiB in {len(day.files())} files")


def one_kill(day, number):
    """A kill after a random time, and the restart."""
    time.sleep(day.random.uniform(0.02, 0.6))
    drains = number % day.drains == 0
    if drains:
        day.drain()
    day.kill()
    day.books.kills = number
    if number % 50 == 0:
        day.verify()
    for _ in range(day.random.choice([1, 2, 3] if drains else [0] * 9 + [1, 2])):
        day.kill_start()
    day.start()
    day.resume()
    day.open()
    if number % 50 == 0:
        print(line_of(day), flush=True)


def run_kills(day, kills):
    """The day: so many kills, and then all jobs are printed."""
    day.start()
    day.open()
    for number in range(1, kills + 1):
        one_kill(day, number)
        if len(day.books.wrongs) >= WRONGS:
            print("too much is wrong: the run ends here")
            day.kill()
            return
    time.sleep(0.3 if kills else 5)
    day.drain()
    day.kill()
    day.verify()
    if day.spool:
        day.start()
        day.server.end(signal.SIGTERM)
    check_end(day.books)
    print(line_of(day), flush=True)


class Trial:
    """A copy of a day's spool, changed, and a server that is started on it."""

    def __init__(self, day, change):
        self.day, self.server, self.refused = day, None, None
        self.spool = day.folder / "trial"
        shutil.rmtree(self.spool, ignore_errors=True)
        shutil.copytree(day.spool, self.spool)
        change(self.files())
        self.before = self.contents()

    def files(self):
        return sorted(self.spool.glob("*.trace"))

    def contents(self):
        return {file.name: file.read_bytes() for file in self.files()}

    def __enter__(self):
        server = Server(self.day.program, self.day.folder, self.spool, self.day.words)
        try:
            self.server = server.wait()
        except Refused as error:
            self.refused = error
        finally:
            if not self.server:
                server.process.kill()
        return self

    def __exit__(self, *_):
        if self.server:
            self.server.end()

    def fault(self, name, first=None, last=None):
        """What is wrong with a start that had to be refused for a file, and for one of these lines of it."""
        if not self.refused:
            return "the server starts"
        said = self.refused.said.strip()
        number = re.search(r"line (\d+)", said)
        if self.refused.status != 3 or name not in said or len(said.splitlines()) != 1:
            return str(self.refused)
        if first and not (number and first <= int(number[1]) <= last):
            return f"the line is {first} to {last}, and is said to be another: {said}"
        return "" if self.contents() == self.before else "the files are changed"

    def listed(self):
        """The jobs that the server knows, by their names."""
        client = Client(self.server.ports["ipp"])
        found = {entry["job-name"][0]: entry for printer in PRINTERS for entry in client.jobs(printer).values()}
        client.close()
        return found


def lines_of(octets):
    """The places of a file's lines, without the octets of documents and without the settings."""
    place = octets.index(b"\n.\n") + 3 if octets.startswith(b"version") else 0
    while (end := octets.find(b"\n", place)) >= 0:
        yield place, octets[place:end]
        words = octets[place:end].split(b" ")
        place = end + 1 + (int(words[2]) + 1 if words[0] == b"octets" else 0)


def tell_row(day, name, faults, count, more=""):
    """Prints a row, and notes what is wrong."""
    print(f"{name}: {count} tried, {count - len(faults)} good{more}", flush=True)
    for fault in faults:
        day.books.wrong(f"{name}: {fault}")


def cut(place):
    def change(files):
        os.truncate(files[-1], place)
    return change


def torn_row(day, count=50):
    """The last file is cut at random places of its last turns: all that was told by then is there."""
    last, faults = day.files()[-1], []
    octets = last.read_bytes()
    turns = [place for place, line in lines_of(octets) if line.startswith(b"turn ")]
    for _ in range(count):
        place = day.random.randint(turns[-min(30, len(turns))], len(octets))
        told = [job for job in day.books.jobs.values() if job.told and job.mark and (job.mark[0] != last.name or job.mark[1] <= place)]
        with Trial(day, cut(place)) as trial:
            if trial.refused:
                faults.append(f"cut at {place} of {len(octets)}: {trial.refused}")
                continue
            listed = trial.listed()
        # the oldest of many finished jobs are forgotten
        many = sum(entry["job-state"][0] >= CANCELED for entry in listed.values()) >= KEPT
        lost = [job for job in told if (job.name not in listed and not (many and job.final))
                or (job.name in listed and job.id not in (None, listed[job.name]["job-id"][0]))]
        if lost:
            faults.append(f"cut at {place} of {len(octets)}: {lost[:3]} were told of and are lost")
    tell_row(day, "a torn last line", faults, count)


def head_row(day):
    """The last file is cut in its head, which no kill does; and a new file has no head yet, which a kill leaves."""
    last, faults = day.files()[-1], []
    places = (0, 1, 5, 20, 29, 40)
    for place in places:
        with Trial(day, cut(place)) as trial:
            fault = trial.fault(last.name)
            faults += [f"cut at {place}: {fault}"] if fault else []
    new = f"{int(last.stem) + 1:06}.new"
    with Trial(day, lambda files: files[-1].with_name(new).write_bytes(b"#goes on be")) as trial:
        faults += [f"with {new}: {trial.refused}"] if trial.refused else []
        faults += [f"{new} stays"] if (trial.spool / new).exists() else []
    tell_row(day, "a torn head", faults, len(places) + 1)


def flip(name, place, mask):
    def change(files):
        file = files[0].with_name(name)
        octets = bytearray(file.read_bytes())
        octets[place] ^= mask
        file.write_bytes(octets)
    return change


def flipped_row(day, count=40):
    """A bit of a line's first word, or of a sum, is changed: the start is refused and says where."""
    faults, places = [], []
    for file in day.files():
        octets = file.read_bytes()
        lines = [(place, line) for place, line in lines_of(octets) if not line.startswith(b"#")]
        ends = [place for place, line in lines if line.startswith(b"turn ")]
        places += [(file.name, octets, place, line) for place, line in lines if place < ends[-1]]
    sums = [one for one in places if one[3].startswith(b"sent ")]
    for number in range(count):
        name, octets, place, text = day.random.choice(sums if number % 2 else places)
        first = octets.count(b"\n", 0, place) + 1
        # of a sum it may be the line that ends its turn
        last = octets.count(b"\n", 0, octets.index(b"\nturn ", place)) + 2 if number % 2 else first
        place, mask = (place + len(text) - 1, 1) if number % 2 else (place, 0x20)
        with Trial(day, flip(name, place, mask)) as trial:
            fault = trial.fault(name, first, last)
            faults += [f"{name}, byte {place}, in {text[:60]}: {fault}"] if fault else []
    tell_row(day, "a changed word or sum", faults, count)


def any_byte_row(day, count=40):
    """Any byte of the files is changed. Where nothing depends on it, as in a document that waits, the server starts."""
    faults, started = [], 0
    for _ in range(count):
        file = day.random.choice(day.files()[:-1])
        place = day.random.randrange(file.stat().st_size)
        with Trial(day, flip(file.name, place, day.random.randint(1, 255))) as trial:
            started += not trial.refused
            # a document that was changed is missed where its job is sent, maybe in a later file
            fault = trial.fault(".trace") if trial.refused else ""
            faults += [f"{file.name}, byte {place}: {fault}"] if fault else []
    tell_row(day, "any changed byte", faults, count, f", {started} of them starts")


def missing_row(day):
    """A file is missing."""
    files, faults = day.files(), []
    for place in (0, 1, len(files) - 2):
        with Trial(day, lambda files, place=place: files[place].unlink()) as trial:
            fault = trial.fault(".trace")
            faults += [f"without {files[place].name} of {len(files)}: {fault}"] if fault else []
    tell_row(day, "a missing file", faults, 3)


def append(text):
    def change(files):
        with files[-1].open("ab") as file:
            file.write(text)
    return change


def further(text):
    def change(files):
        files[-1].with_name(f"{int(files[-1].stem) + 1:06}.trace").write_bytes(text)
    return change


def foreign_row(day):
    """Lines of another program."""
    faults, last = [], day.files()[-1]
    moment = max(int(line.split()[1]) for _, line in lines_of(last.read_bytes()) if line.startswith(b"turn "))
    changes = {
        "lines of another program": append(b"\nhello world\nturn %d\n" % (moment + 1)),
        "a read of a connection that isn't open": append(b"\nread 77 hello\nturn %d\n" % (moment + 1)),
        "another program's file": further(b"hello\nworld\n"),
        "a file that goes on behind another": further(b"#goes on behind 000099.trace\n#started 1 1.0.0\nturn %d\n" % (moment + 1)),
    }
    for name, change in changes.items():
        with Trial(day, change) as trial:
            fault = trial.fault(".trace")
            faults += [f"{name}: {fault}"] if fault else []
    tell_row(day, "lines of another program", faults, len(changes))


def second_row(day):
    """A second server on the directory is refused, and the first goes on."""
    faults = []
    with Trial(day, lambda files: None) as trial:
        before = trial.listed()
        try:
            Server(day.program, day.folder, trial.spool, day.words).wait().end()
            faults.append("it starts")
        except Refused as error:
            faults += [str(error)] if error.status != 3 or len(error.said.strip().splitlines()) != 1 else []
        if trial.server.process.poll() is not None or trial.listed().keys() != before.keys():
            faults.append("the first one doesn't go on")
    with Trial(day, lambda files: None) as trial:
        faults += [f"after a kill: {trial.refused}"] if trial.refused else []
    tell_row(day, "a second server", faults, 2)


def modes_row(day):
    """Nobody else may read the spool."""
    paths = {day.spool: 0o700, **{path: 0o600 for path in day.spool.iterdir()}}
    faults = [f"{path.name} has mode {path.stat().st_mode & 0o777:o}" for path, mode in paths.items() if path.stat().st_mode & 0o777 != mode]
    tell_row(day, "modes", faults, len(paths))


def run_rows(day):
    """Makes a spool of some files by kills, and tries what a disk may do to it."""
    os.umask(0)
    day.start()
    day.open()
    for number in range(1, 6):
        time.sleep(day.random.uniform(0.2, 0.5))
        day.kill()
        day.books.kills = number
        if number < 5:
            day.start()
            day.open()
    day.verify()
    print(line_of(day))
    for row in (modes_row, torn_row, head_row, flipped_row, any_byte_row, missing_row, foreign_row, second_row):
        row(day)


def until(holds, seconds):
    """Waits until something holds: whether it does."""
    ends = time.monotonic() + seconds
    while not holds() and time.monotonic() < ends:
        time.sleep(0.05)
    return holds()


def is_stalled(day):
    """Whether nothing is told any more, and the server says why."""
    before = day.books.counts["told"]
    time.sleep(1)
    return day.books.counts["told"] == before and "cannot" in day.server.said()


def fill(day, number):
    """Waits until the disk is full: nothing more may be told then, and the server says so once."""
    if not until(lambda: is_stalled(day), 60):
        day.books.wrong(f"fill {number}: clients are still answered, or the server doesn't say why not: {day.server.said()!r}")
    told, disk = day.books.counts["told"], os.statvfs(day.spool)
    room = disk.f_bavail * disk.f_frsize
    time.sleep(3)
    said = day.server.said().strip().splitlines()
    print(f"fill {number}: {told} jobs told, {room} bytes left; the server says: {' / '.join(said)}", flush=True)
    if day.books.counts["told"] != told:
        day.books.wrong(f"fill {number}: {day.books.counts['told'] - told} jobs are told of while the disk is full")
    if (times := sum("cannot" in line for line in said)) != number:
        day.books.wrong(f"fill {number}: it is said {times} times")
    return told


def run_full(day):
    """Fills the disk of the spool, and makes room again: with the server up, and then while it is killed."""
    ballast = [day.spool.parent / f"ballast{number}" for number in (1, 2)]
    for file in ballast:
        file.write_bytes(bytes(500_000))
    day.patient = True
    day.start()
    day.open()
    told = fill(day, 1)
    ballast[0].unlink()
    if not until(lambda: day.books.counts["told"] > told, 10):
        day.books.wrong("there is room, and the server doesn't go on")
    fill(day, 2)
    day.kill()
    day.books.kills = 1
    try:
        Server(day.program, day.folder, day.spool, day.words).wait().end()
        print("a start with a full disk: the server starts")
    except Refused as error:
        print(f"a start with a full disk: {error}")
    ballast[1].unlink()
    day.start()
    day.producing = False
    day.open()
    day.drain()
    day.kill()
    day.verify()
    check_end(day.books)
    if day.books.wrongs:
        day.keep("after")
    print(line_of(day), flush=True)


def full_disk(chosen, folder):
    """Mounts a small disk for the run, if that is allowed."""
    disk = folder / "disk"
    disk.mkdir()
    mounted = subprocess.run(["mount", "-t", "tmpfs", "-o", "size=2m", "none", disk], capture_output=True, check=False)
    if mounted.returncode:
        print("a full disk: none can be mounted here")
        return []
    try:
        chosen.longest = min(chosen.longest, 20_000)
        day = Day(chosen, folder, disk / "spool")
        guarded(day, run_full)
    finally:
        subprocess.run(["umount", "-l", disk], check=True)
    return day.books.wrongs


def guarded(day, run, *words):
    """Runs a day, and ends what it started."""
    try:
        run(day, *words)
    except Refused as error:
        day.books.wrong(str(error))
    finally:
        day.finish()
        if day.server and day.server.process.poll() is None:
            day.server.end()


def words_of():
    parser = argparse.ArgumentParser()
    parser.add_argument("--kills", type=int, default=1000)
    parser.add_argument("--seed", type=int, default=1)
    parser.add_argument("--sync", action="store_true")
    parser.add_argument("--program", type=pathlib.Path)
    parser.add_argument("--log", action="store_true")
    parser.add_argument("--longest", type=int, default=max(LENGTHS))
    parser.add_argument("--drain", type=int, default=100)
    parser.add_argument("--rows", action="store_true")
    parser.add_argument("--full", action="store_true")
    return parser.parse_args()


def main():
    chosen = words_of()
    # so that what was started and mounted is ended
    signal.signal(signal.SIGTERM, lambda *_: sys.exit("ended by a signal"))
    if not chosen.program:
        chosen.program = subprocess.run([HERE.parent / "printd", "which", "--unproved"], stdout=subprocess.PIPE, text=True, check=True).stdout.strip()
    said = subprocess.run([chosen.program, "serve", "--help"], capture_output=True, text=True, check=True).stdout
    has_spool = "--spool" in said
    if not has_spool and (chosen.kills or chosen.rows or chosen.full):
        sys.exit("this program has no --spool: only --kills 0 is run")
    folder = pathlib.Path(tempfile.mkdtemp(prefix="crash_days."))
    if chosen.full:
        wrongs = full_disk(chosen, folder)
    else:
        day = Day(chosen, folder, folder / "spool" if has_spool else None)
        guarded(day, *([run_rows] if chosen.rows else [run_kills, chosen.kills]))
        wrongs = day.books.wrongs
    if not wrongs:
        shutil.rmtree(folder)
        print("all held")
        sys.exit(0)
    print(*wrongs, sep="\n")
    sys.exit(f"{len(wrongs)} wrong; the directory is {folder}")


if __name__ == "__main__":
    main()
