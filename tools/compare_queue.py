#!/usr/bin/env python3
"""Follows the spool of a server by `printd page --follow`, and compares the page with what the server says of its queue.

    tools/compare_queue.py [--moments 100] [--jobs 10000] [--program PATH]

First a busy day: clients print, hold and cancel jobs, and devices print, fail, stop and come back. At each moment nobody
acts for a while. The jobs that the server lists for a client of LPD (`lpq`) are compared with those of the page, their
owners and titles too, and their ids with those of Get-Jobs; it is measured how long it takes until the page has them. Then a day of many jobs: of the server
and the follower the processor time and the memory, after each tenth of the jobs, and how late the page is. Status 1 where
a page differs, or is later than 1.5 s. --program is the program that ./printd runs, if it isn't given. Its memory is the
program's own only if that was proved: one built with checks keeps memory of all that it does.
"""
import argparse
import html
import os
import pathlib
import random
import re
import socket
import subprocess
import sys
import tempfile
import threading
import time

HERE = pathlib.Path(__file__).resolve().parent
sys.path[:0] = [str(HERE), str(HERE / "clients"), str(HERE / "load")]
from crash_days import Client  # noqa: E402
from messages import CANCEL_JOB, INTEGER, KEYWORD, NAME, PRINT_JOB, attribute, head, request, requested  # noqa: E402
from peers import settings_of  # noqa: E402
from running import Process, Running  # noqa: E402

GET_JOBS = 0x000A
# where the files are, so that a busy disk isn't measured
MEMORY = "/dev/shm"
# how late the page may be, and how long it is waited for, in s
LATEST, PATIENCE = 1.5, 10
DEVICES = ["hall", "window", "corner"]
OWNERS = ["ann", "bob", "zo\u00eb", "o'neil & co"]
TITLES = ["Minutes.pdf", "<b>bold</b>", "two  spaces", "letter \"A\"", "\u00fcber.txt"]


def listing(port, printer="lab"):
    """The jobs that the server lists for a client of LPD: of each its id, state, owner, octets and title."""
    with socket.create_connection(("127.0.0.1", port), timeout=30) as connection:
        connection.sendall(b"\x03" + printer.encode() + b"\n")
        octets = b"".join(iter(lambda: connection.recv(65536), b""))
    return [line for line in octets.decode().splitlines()[1:] if line != "no entries"]


def rows_of(page):
    """The texts of the cells of each row of the table below a heading."""
    found = re.search(r"<h2>Waiting</h2>\n<table>.*?<tbody>(.*?)</tbody>", page, re.DOTALL)
    rows = re.findall(r"<tr[^>]*>(.*?)</tr>", found[1]) if found else []
    return [[html.unescape(re.sub(r"<[^>]*>", "", cell)) for cell in re.findall(r"<td[^>]*>(.*?)</td>", row)] for row in rows]


def shown(page):
    """The jobs that a page has on devices, without those that were canceled, and those that wait: their ids with owner,
    whose spaces the server lists as question marks, and title."""
    taken = {int(found) for found in re.findall(r"</b><p>job (\d+),(?![^<]*cancel)", page)}
    return taken, {int(cells[0]): (cells[1].replace(" ", "?"), cells[2]) for cells in rows_of(page)}


def listed(lines):
    """The same of the lines that the server lists."""
    taken, waiting = set(), {}
    for line in lines:
        number, state, more = line.split(" ", 2)
        if state.startswith("processing"):
            taken.add(int(number))
        else:
            owner, title = re.fullmatch(r"(.*?) \d+ (.*)", more).groups()
            waiting[int(number)] = (owner, title)
    return taken, waiting


class Day:
    """What the peers of a server share: whoever acts holds `acting`."""

    def __init__(self, server, seed):
        self.server, self.seed = server, seed
        self.acting, self.over = threading.Lock(), threading.Event()
        self.wrong = []

    def begin(self, run, place):
        """Has a peer run until the day is over."""
        def guarded():
            try:
                run(self, random.Random(f"{self.seed} {run.__name__} {place}"), place)
            except Exception as error:  # noqa: BLE001
                if not self.over.is_set():
                    self.wrong.append(f"{run.__name__}: {error!r}")
        thread = threading.Thread(target=guarded, daemon=True)
        thread.start()
        return thread


def print_job(client, owner, title, octets, held=False):
    """The id of a job that is printed."""
    more = attribute(NAME, "job-name", title) + b"\x02" + attribute(INTEGER, "copies", 1)
    more += attribute(KEYWORD, "job-hold-until", "indefinite") if held else b""
    status, groups = client.ask(PRINT_JOB, "lab", owner, more, b"x" * octets)
    return groups[-1]["job-id"][0] if status < 0x100 else None


def run_client(day, chance, place):
    """Prints jobs, some of them held, and cancels some."""
    client, mine = Client(day.server.ipp), []
    while not day.over.is_set():
        with day.acting:
            if mine and chance.random() < 0.25:
                number, owner = mine.pop(chance.randrange(len(mine)))
                client.ask(CANCEL_JOB, "lab", owner, attribute(INTEGER, "job-id", number))
            elif len(listing(day.server.lpd)) < 60:
                owner = chance.choice(OWNERS)
                number = print_job(client, owner, chance.choice(TITLES), chance.choice([5, 5000, 100_000]), chance.random() < 0.1)
                mine.append((number, owner))
        time.sleep(chance.uniform(0.0, 0.1))


def run_device(day, chance, place):
    """Prints one job after the other; now and then it fails one, stops for a while, or goes and comes back."""
    while not day.over.is_set():
        with day.acting:
            connection = socket.create_connection(("127.0.0.1", day.server.devices))
            stream = connection.makefile("rb")
            connection.sendall(f"HELLO {DEVICES[place]}\nREADY\n".encode())
        for _ in range(chance.randrange(5, 40)):
            words = stream.readline().split()
            if words[0] != b"JOB":
                continue
            stream.read(int(words[2]))
            time.sleep(chance.uniform(0.0, 0.3))
            with day.acting:
                connection.sendall(b"STOP\nREADY\n" if chance.random() < 0.1 else b"")
                connection.sendall((b"FAIL " if chance.random() < 0.1 else b"DONE ") + words[1] + b"\n")
        with day.acting:
            stream.close()
            connection.close()
        time.sleep(chance.uniform(0.0, 0.5))


def settled(port):
    """The server's listing, once two in a row are the same."""
    before = None
    while (now := listing(port)) != before:
        before = now
        time.sleep(0.02)
    return now


def ids_by_ipp(port):
    """The ids of the jobs that the server lists for a client of IPP."""
    path = "/printers/lab"
    body = request(GET_JOBS, f"ipp://localhost:{port}{path}", "ann", requested(["job-id"]))
    with socket.create_connection(("127.0.0.1", port), timeout=30) as connection:
        connection.sendall(head(path, port, len(body)).replace(b"Host:", b"Connection: close\r\nHost:") + body)
        octets = b"".join(iter(lambda: connection.recv(65536), b""))
    return {int.from_bytes(found, "big") for found in re.findall(rb"!\x00\x06job-id\x00\x04(.{4})", octets, re.DOTALL)}


def compare(day, page):
    """Compares the page with the server's listings. Returns the s until the page has the queue. A queue that changes by
    itself meanwhile, as by a tick, is compared anew."""
    with day.acting:
        wanted, began = None, 0.0
        end = time.monotonic() + 3 * PATIENCE
        while time.monotonic() < end:
            now = listed(settled(day.server.lpd))
            if now != wanted:
                wanted, began = now, time.monotonic()
            if page.exists() and shown(page.read_text()) == wanted:
                waited = time.monotonic() - began
                ids = ids_by_ipp(day.server.ipp)
                if ids != {*wanted[0], *wanted[1]} and listed(listing(day.server.lpd)) == wanted:
                    day.wrong.append(f"Get-Jobs has {sorted(ids)}, and the page {wanted}")
                return waited
            if time.monotonic() - began > PATIENCE:
                break
        day.wrong.append(f"the page has {shown(page.read_text())}, and the server {wanted}")
        return PATIENCE


def follow(program, spool, folder):
    """The follower of a spool."""
    words = [program, "page", "--follow", spool, "--to", folder / "queue.html", "--metrics", folder / "printd.prom", "--names"]
    return Process(words, stderr=(folder / "follower").open("w"))


def told(waits):
    waits = sorted(waits)
    return f"the page has the queue after {waits[len(waits) // 2]:.2f} s (middle), {waits[-1]:.2f} s (worst)"


def busy_day(program, folder, moments):
    """Compares the page at moments of a busy day. Returns what was wrong."""
    settings = folder / "settings.toml"
    settings.write_text(settings_of([(name, 15, 0) for name in DEVICES]))
    page, waits = folder / "queue.html", []
    with Running(settings, ["--spool", folder / "spool"], program=program) as server, follow(program, folder / "spool", folder):
        day = Day(server, 1)
        for run, count in ((run_client, 4), (run_device, len(DEVICES))):
            for place in range(count):
                day.begin(run, place)
        for _ in range(moments):
            time.sleep(random.Random(len(waits)).uniform(0.1, 0.6))
            waits.append(compare(day, page))
        day.over.set()
    said = (folder / "follower").read_text()
    wrong = day.wrong + ([f"the follower said: {said}"] if said else []) + [f"a page was {one:.2f} s late" for one in waits if one > LATEST]
    print(f"{moments} moments of a busy day: {len(day.wrong)} pages differ; {told(waits)}", flush=True)
    return wrong


def used(process):
    return f"{process.processor_seconds():.1f} s, {process.resident_kib() / 1024:.1f} MiB"


def long_day(program, folder, jobs):
    """Prints many jobs, and shows what the server and the follower take. Returns what was wrong."""
    settings = folder / "settings.toml"
    settings.write_text(settings_of([(name, 15, 0) for name in DEVICES]))
    page, waits = folder / "queue.html", []
    with Running(settings, ["--spool", folder / "spool"], program=program) as server, follow(program, folder / "spool", folder) as follower:
        day = Day(server, 2)
        for place in range(len(DEVICES)):
            day.begin(run_quick_device, place)
        client = Client(server.ipp)
        for number in range(1, jobs + 1):
            with day.acting:
                print_job(client, OWNERS[0], f"job {number}", 5)
            time.sleep(0.005)
            if number % max(1, jobs // 10) == 0:
                waits.append(compare(day, page))
                print(f"{number} jobs: server {used(server)}; follower {used(follower)}", flush=True)
        day.over.set()
    print(f"a day of {jobs} jobs: {told(waits)}", flush=True)
    return day.wrong + [f"a page was {one:.2f} s late" for one in waits if one > LATEST]


def run_quick_device(day, _chance, place):
    """Says of each job at once that it is done."""
    connection = socket.create_connection(("127.0.0.1", day.server.devices))
    stream = connection.makefile("rb")
    connection.sendall(f"HELLO {DEVICES[place]}\nREADY\n".encode())
    while words := stream.readline().split():
        if words[0] == b"JOB":
            stream.read(int(words[2]))
            connection.sendall(b"DONE " + words[1] + b"\n")


def main():
    parser = argparse.ArgumentParser(description=__doc__, formatter_class=argparse.RawDescriptionHelpFormatter)
    parser.add_argument("--moments", type=int, default=100)
    parser.add_argument("--jobs", type=int, default=10_000)
    parser.add_argument("--program", type=pathlib.Path)
    chosen = parser.parse_args()
    program = chosen.program or pathlib.Path(subprocess.run([HERE.parent / "printd", "which", "--unproved"], capture_output=True, text=True, check=True).stdout.strip())
    wrong = []
    for run, count in ((busy_day, chosen.moments), (long_day, chosen.jobs)):
        if count:
            with tempfile.TemporaryDirectory(dir=MEMORY if os.path.isdir(MEMORY) else None) as folder:
                wrong += run(os.path.abspath(program), pathlib.Path(folder), count)
    for one in wrong[:20]:
        print(f"WRONG {one}")
    return 1 if wrong else 0


if __name__ == "__main__":
    sys.exit(main())
