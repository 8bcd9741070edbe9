#!/usr/bin/env python3
"""Restarts a server on its spool with other settings, with --reprint and as another version, and compares its jobs.

    tools/renewed_queue.py [--program PATH]

Each row makes a queue, kills the server and starts it otherwise. Jobs that wait are to be the same jobs under new ids:
their attributes are compared, and what a device then gets of each. Status 1 where anything was wrong. --program is the
program that ./printd runs, if it isn't given.
"""
import argparse
import os
import pathlib
import random
import re
import shutil
import socket
import subprocess
import sys
import tempfile

HERE = pathlib.Path(__file__).resolve().parent
sys.path[:0] = [str(HERE), str(HERE / "load")]
from crash_days import (  # noqa: E402
    ABORTED, BOOLEAN, CANCELED, CREATE_JOB, HELD, PENDING, SEND_DOCUMENT, SETTINGS, Client, Refused, Server)
from messages import CANCEL_JOB, INTEGER, KEYWORD, NAME, PAUSE_PRINTER, PRINT_JOB, RESUME_PRINTER, attribute  # noqa: E402

# what a job gets anew
ANEW = {"job-id", "job-uri", "time-at-creation", "time-at-processing", "time-at-completed", "job-printer-up-time", "job-more-info"}
SHOP = SETTINGS[SETTINGS.rindex("\n[[printer]]"):]
OTHERS = SETTINGS.replace(SHOP, "").replace("\n[[printer]]", SHOP.replace('"shop"', '"front"') + "\n[[printer]]", 1)
LONG = random.Random(1).randbytes(70_001)


def option(name, value):
    return attribute(KEYWORD if isinstance(value, str) else INTEGER, name, value)


def template(**options):
    """The attributes of a job's group."""
    return b"\x02" + b"".join(option(name.replace("_", "-"), value) for name, value in options.items())


def named(name):
    return attribute(NAME, "job-name", name)


class Device:
    """A device that takes one job after the other."""

    def __init__(self, port, name):
        self.connection = socket.create_connection(("127.0.0.1", port), timeout=30)
        self.stream = self.connection.makefile("rb")
        self.say(f"HELLO {name}\nREADY")

    def say(self, line):
        self.connection.sendall(line.encode() + b"\n")

    def job(self):
        """The number and the octets of the next job."""
        words = self.stream.readline().split()
        return int(words[1]), self.stream.read(int(words[2]))

    def close(self):
        self.stream.close()
        self.connection.close()


class Queue:
    """A server on a spool, and the jobs that it was sent: their octets by their names."""

    def __init__(self, program, folder):
        self.program, self.folder, self.spool = program, folder, folder / "spool"
        self.sent, self.server, self.client = {}, None, None

    def start(self, settings, *words):
        (self.folder / "settings.toml").write_text(settings)
        self.server = Server(self.program, self.folder, self.spool, words).wait()
        self.client = Client(self.server.ports["ipp"])
        return self.server.said()

    def kill(self):
        self.client.close()
        self.server.end()

    def ask(self, operation, printer, user, more=b"", document=b""):
        status, groups = self.client.ask(operation, printer, user, more, document)
        if status > 0xFF:
            raise ValueError(f"operation {operation:x} has status {status:x}")
        return groups

    def print(self, name, printer, user, document, **options):
        groups = self.ask(PRINT_JOB, printer, user, named(name) + template(**options), document)
        self.sent[name] = document
        return groups[-1]["job-id"][0]

    def create(self, name, printer, user, documents, last=True, **options):
        """A job of documents that come one after the other; without `last` others are to come."""
        number = self.ask(CREATE_JOB, printer, user, named(name) + template(**options))[-1]["job-id"][0]
        for place, document in enumerate(documents):
            ends = attribute(BOOLEAN, "last-document", "\1" if last and place + 1 == len(documents) else "\0")
            self.ask(SEND_DOCUMENT, printer, user, attribute(INTEGER, "job-id", number) + ends, document)
        self.sent[name] = b"".join(documents)
        return number

    def jobs(self):
        """All jobs by their names, the newest of each."""
        found = {}
        for printer in ("lab", "shop", "front"):
            try:
                found |= {number: entry for number, entry in self.client.jobs(printer).items()}
            except EOFError:
                continue
        return {found[number]["job-name"][0]: found[number] for number in sorted(found)}

    def fill(self):
        """Jobs of all kinds that wait."""
        self.print("plain", "lab", "ann", b"plain one")
        self.create("pages", "lab", "bob", [LONG, b"five!"], copies=3, sides="two-sided-long-edge", job_priority=80)
        self.print("held", "lab", "ann", b"held one", job_hold_until="indefinite", media="na_letter_8.5x11in")
        self.create("nothing yet", "lab", "eve", [])
        self.create("half", "lab", "eve", [b"first half"], last=False)
        self.create("empty", "lab", "eve", [b""])
        self.ask(CANCEL_JOB, "lab", "ann", attribute(INTEGER, "job-id", self.print("gone", "lab", "ann", b"gone")))
        self.print('quoted "name" \\ \u00e9', "shop", "zo\u00eb", b"for the shop")

    def verify(self):
        files = sorted(self.spool.glob("*.trace"))
        with subprocess.Popen(["cat", *files], stdout=subprocess.PIPE) as cat:
            done = subprocess.run([self.program, "replay", "--verify"], stdin=cat.stdout, capture_output=True, check=False)
        return [] if done.stdout == b"same\n" else [f"replay --verify: {(done.stdout + done.stderr).decode()[:200]}"]


def same_jobs(before, after, names):
    """What differs of jobs."""
    wrong = []
    for name in names:
        if name not in after:
            wrong.append(f"{name} is lost")
            continue
        for key in sorted((before[name].keys() | after[name].keys()) - ANEW):
            if before[name].get(key) != after[name].get(key):
                wrong.append(f"{name}: {key} was {before[name].get(key)}, and is {after[name].get(key)}")
    return wrong


def printed(queue, names):
    """What a device gets that isn't what was sent."""
    wrong, device = [], Device(queue.server.ports["devices"], "window")
    numbers = {entry["job-id"][0]: name for name, entry in queue.jobs().items()}
    for _ in names:
        number, octets = device.job()
        if octets != queue.sent[numbers[number]]:
            wrong.append(f"{numbers[number]} comes out with other octets")
        device.say(f"DONE {number}")
    device.close()
    return wrong


def in_hand(queue, name):
    """A job that a device has in hand, and its id."""
    device = Device(queue.server.ports["devices"], "corner")
    number, _ = device.job()
    return device, number


def settings_row(queue):
    """Other settings: a printer more, and one fewer. Another start with them finds the same queue."""
    queue.start(SETTINGS)
    queue.print("begun", "lab", "bob", b"in hand")
    device, begun = in_hand(queue, "begun")
    queue.fill()
    queue.ask(PAUSE_PRINTER, "lab", "root")
    before, waiting = queue.jobs(), ["plain", "pages", "held", "nothing yet", "half", "empty"]
    queue.kill()
    device.close()
    said = queue.start(OTHERS)
    after = queue.jobs()
    wrong = same_jobs(before, after, waiting) + queue.verify()
    for name in waiting:
        old, new = before[name]["job-id"][0], after[name]["job-id"][0]
        if f"job {old} of \"{before[name]['job-originating-user-name'][0]}\" is now {new}\n" not in said or new <= max(entry["job-id"][0] for entry in before.values()):
            wrong.append(f"{name} was {old} and is {new}: {said}")
    if f"job {begun} of \"bob\" was in a device's hand, and is aborted" not in said or "begun" in after:
        wrong.append(f"the job in hand: {said}")
    refused = before['quoted "name" \\ \u00e9']["job-id"][0]
    kept = queue.spool / f"job-{refused}-1"
    if f"job {refused} of \"zo" not in said or not kept.exists() or kept.read_bytes() != b"for the shop" or kept.stat().st_mode & 0o777 != 0o600:
        wrong.append(f"the refused job: {said}")
    queue.kill()
    said = queue.start(OTHERS)
    again = queue.jobs()
    wrong += [f"again: {one}" for one in same_jobs(after, again, waiting)]
    wrong += [f"{name} has another id again: {said}" for name in waiting if after[name]["job-id"] != again[name]["job-id"]]
    queue.ask(RESUME_PRINTER, "lab", "root")
    wrong += printed(queue, ["pages", "empty", "plain"]) + queue.verify()
    queue.kill()
    return wrong


def paused_row(queue):
    """A paused printer stays paused where the journal begins anew."""
    queue.start(SETTINGS)
    queue.ask(PAUSE_PRINTER, "shop", "root")
    queue.kill()
    said, wrong = queue.start(SETTINGS), []
    number = queue.print("later", "shop", "ann", b"later")
    device = Device(queue.server.ports["devices"], "yard")
    if queue.jobs()["later"]["job-state"] != [PENDING] or "printer-stopped" not in queue.jobs()["later"]["job-state-reasons"]:
        wrong.append(f"job {number} of a paused printer: {queue.jobs()['later']}, {said}")
    queue.ask(RESUME_PRINTER, "shop", "root")
    if device.job()[1] != b"later":
        wrong.append("another job comes out")
    device.close()
    wrong += queue.verify()
    queue.kill()
    # without operators it can't be paused
    queue.start(SETTINGS)
    queue.ask(PAUSE_PRINTER, "shop", "root")
    queue.kill()
    said = queue.start(SETTINGS.replace('operators = ["root"]', "operators = []"))
    if 'printer "shop" was paused and is not' not in said:
        wrong.append(f"without operators: {said}")
    queue.kill()
    return wrong


def reprint_row(queue, settings):
    """With --reprint a job that a device had in hand is printed again, under another id."""
    queue.start(SETTINGS)
    queue.print("begun", "lab", "bob", b"in hand")
    device, begun = in_hand(queue, "begun")
    queue.print("later", "lab", "ann", b"later")
    before = queue.jobs()
    queue.kill()
    device.close()
    said, wrong = queue.start(settings, "--reprint"), []
    after = queue.jobs()
    new = after["begun"]["job-id"][0]
    if f"job {begun} of \"bob\" is now {new}\n" not in said or "hand" in said:
        wrong.append(f"the job in hand: {said}")
    if settings == SETTINGS and (after["later"]["job-id"] != before["later"]["job-id"] or queue.client.jobs("lab")[begun]["job-state"] != [ABORTED]):
        wrong.append(f"with the same settings: {after}")
    wrong += printed(queue, ["begun", "later"]) + queue.verify()
    queue.kill()
    return wrong


def as_other(files):
    """Makes files those of another version, whose replies were others."""
    for file in files:
        octets = re.sub(rb"(recorded|#started) (\d+) \S+", rb"\1 \2 0.8.0", file.read_bytes())
        place = octets.rindex(b"\nsent ")
        end = octets.index(b"\n", place + 1)
        file.write_bytes(octets[:end - 1] + (b"0" if octets[end - 1:end] != b"0" else b"1") + octets[end:])


def version_row(queue):
    """A journal of another version that can't be played: refused while jobs are unfinished, else begun anew."""
    queue.start(SETTINGS)
    number, wrong = queue.print("done", "lab", "bob", b"done"), []
    queue.kill()
    files = sorted(queue.spool.glob("*.trace"))
    before = {file.name: file.read_bytes() for file in files}
    as_other(files)
    try:
        queue.start(SETTINGS)
        wrong.append("with a job that waits it starts")
        queue.kill()
    except Refused as error:
        wrong += [] if error.status == 3 and "version 0.8.0" in error.said else [str(error)]
    for name, octets in before.items():
        (queue.spool / name).write_bytes(octets)
    queue.start(SETTINGS)
    queue.ask(CANCEL_JOB, "lab", "bob", attribute(INTEGER, "job-id", number))
    queue.jobs()
    queue.kill()
    as_other(sorted(queue.spool.glob("*.trace")))
    said = queue.start(SETTINGS)
    if queue.print("next", "lab", "bob", b"next") != number + 1:
        wrong.append(f"the next job gets another id: {said}")
    queue.kill()
    # with the version of the server it is a fault
    return wrong


def main():
    parser = argparse.ArgumentParser(description=__doc__, formatter_class=argparse.RawDescriptionHelpFormatter)
    parser.add_argument("--program", type=pathlib.Path)
    chosen = parser.parse_args()
    program = chosen.program or HERE.parent / "printd"
    rows = {
        "other settings": settings_row,
        "paused printers": paused_row,
        "--reprint": lambda queue: reprint_row(queue, SETTINGS),
        "--reprint and other settings": lambda queue: reprint_row(queue, OTHERS),
        "another version": version_row,
    }
    failed = False
    for name, row in rows.items():
        folder = pathlib.Path(tempfile.mkdtemp(prefix="renewed_queue."))
        try:
            wrong = row(Queue(program.resolve(), folder))
        except (OSError, EOFError, ValueError, KeyError, IndexError, Refused) as error:
            wrong = [f"{type(error).__name__}: {error}"]
        print(f"{name}: {'good' if not wrong else ''}", *wrong, sep="\n  " if wrong else "", flush=True)
        failed |= bool(wrong)
        shutil.rmtree(folder)
    return int(failed)


if __name__ == "__main__":
    sys.exit(main())
