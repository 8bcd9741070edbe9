#!/usr/bin/env python3
"""Records a day of the server and plays it again, and prints what came of it, a line each.

    tools/record_day.py [REQUESTS]         (2,000 where none are given)

A day: requests over all three doors, from tools/load.py's messages on several connections, from `lp` and from
`rlpr`, of clients that stall and of clients that reset; three devices, each of which stands still for a while, resets
its connection in the middle of a job, and comes back. The server records it with --record, and another day, a
tenth as long, with --record-heads too. Then: `printd replay --verify` of each, and of the first with a byte changed,
with an octet too few, and cut off in the middle of a document; `printd log` compared with the log that the server
wrote; the size of the file, also packed; a day that begins four seconds before midnight of UTC, and goes on in a
second file; a disk that is full in mid-day; and the speed of a server with a recording and without one, in turns.
Ends with status 1 where a day isn't the same, or a changed one is.

Wanted: Debian's cups-client and rlpr (absent ones are said, and their requests come from here), a C compiler for
midnight, wrk for the speed, and for the full disk to be allowed to mount one. PRINTD names the program; without it, it is the one that ./printd
built.
"""
import gzip
import os
import pathlib
import random
import shutil
import socket
import struct
import subprocess
import sys
import tempfile
import threading
import time

HERE = pathlib.Path(__file__).resolve().parent
sys.path[:0] = [str(HERE), str(HERE / "clients"), str(HERE / "load")]
import load  # noqa: E402
from running import PROGRAM, Running  # noqa: E402

DEVICES = ["hall", "window", "corner"]
SETTINGS = """version = 1
uri_base = "ipp://localhost:631"
operators = ["root"]
""" + "".join(f"""
[[device]]
name = "{name}"
rate_one = {10 * (place + 1)}
media = ["iso_a4_210x297mm"]
formats = ["application/octet-stream", "application/pdf", "text/plain"]
""" for place, name in enumerate(DEVICES)) + """
[[printer]]
name = "lab"
devices = ["hall", "window", "corner"]
media_default = "iso_a4_210x297mm"
format_default = "application/octet-stream"
"""
LINGER = struct.pack("ii", 1, 0)
# a clock that is ahead by so many seconds; unlike faketime it goes with the checks of an unproved program
AHEAD = """
#define _GNU_SOURCE
#include <sys/syscall.h>
#include <time.h>
#include <unistd.h>
int clock_gettime(clockid_t clock, struct timespec *time) {
    int failed = syscall(SYS_clock_gettime, clock, time);
    if (!failed && clock == CLOCK_REALTIME) time->tv_sec += SECONDS;
    return failed;
}
"""
DAY = 86_400


class Device(threading.Thread):
    """A device that prints at once, but stands still and goes away in the middle of a job now and then."""

    def __init__(self, port, name, seed):
        super().__init__(daemon=True)
        self.port, self.name_said, self.random, self.over = port, name, random.Random(seed), False
        self.stalls = self.resets = self.starts = self.printed = 0

    def run(self):
        while not self.over:
            try:
                self.serve()
            except OSError:
                pass
            time.sleep(0.05)

    def serve(self):
        """One life of the device: until it goes away, or the server does."""
        self.starts += 1
        self.connection = socket.create_connection(("127.0.0.1", self.port))
        self.connection.setsockopt(socket.SOL_SOCKET, socket.SO_RCVBUF, 4096)
        self.connection.sendall(f"HELLO {self.name_said}\nREADY\n".encode())
        stream = self.connection.makefile("rb")
        ends = self.random.randint(100, 250)
        for number in range(10 ** 9):
            line = stream.readline().split()
            if not line:
                return
            if line[0] != b"JOB":
                continue
            if number == ends // 2:
                self.stalls += 1
                time.sleep(0.5)
            if number == ends:
                stream.read(int(line[2]) // 2)
                self.reset()
                return
            stream.read(int(line[2]))
            self.connection.sendall(b"DONE " + line[1] + b"\n")
            self.printed += 1

    def reset(self):
        self.resets += 1
        self.connection.setsockopt(socket.SOL_SOCKET, socket.SO_LINGER, LINGER)
        self.connection.close()


def document(chance):
    """Octets of any kind, some of them line feeds and backslashes."""
    return chance.randbytes(chance.choice([5, 300, 5_000, 20_000]))


def post(server, body, chunked):
    """An HTTP request."""
    head = f"POST {server.path} HTTP/1.1\r\nHost: localhost:{server.port}\r\nContent-Type: application/ipp\r\n"
    if not chunked:
        return f"{head}Content-Length: {len(body)}\r\n\r\n".encode() + body
    pieces = [body[start:start + 3000] for start in range(0, len(body), 3000)]
    return f"{head}Transfer-Encoding: chunked\r\n\r\n".encode() + b"".join(b"%x\r\n%s\r\n" % (len(piece), piece) for piece in pieces) + b"0\r\n\r\n"


class Ipp(threading.Thread):
    """A client of IPP that keeps its connection: jobs and questions by turns, some in chunks, some cut and slow."""

    def __init__(self, server, count, seed):
        super().__init__()
        self.server, self.count, self.random = server, count, random.Random(seed)

    def run(self):
        client = load.Client(self.server)
        for number in range(self.count):
            job = number % 3 != 2
            body = load.message(load.PRINT_JOB if job else load.GET_PRINTER_ATTRIBUTES, self.server, 0)
            if job:
                body += document(self.random)
            sent = post(self.server, body, number % 5 == 0)
            if number % 40 == 7:
                client.connection.sendall(sent[:len(sent) // 2])
                time.sleep(0.3)
                sent = sent[len(sent) // 2:]
            client.connection.sendall(sent)
            client.reply()
            if number % 60 == 33:
                self.abandon(sent)

    def abandon(self, sent):
        """Another connection, which is reset in the middle of a request."""
        with socket.create_connection(("127.0.0.1", self.server.port)) as other:
            other.sendall(sent[:len(sent) * 2 // 3])
            other.setsockopt(socket.SOL_SOCKET, socket.SO_LINGER, LINGER)


class Lpd(threading.Thread):
    """A client of LPD: a job a connection, and now and then a listing."""

    def __init__(self, port, count, seed):
        super().__init__()
        self.port, self.count, self.random = port, count, random.Random(seed)

    def run(self):
        for number in range(self.count):
            with socket.create_connection(("127.0.0.1", self.port)) as connection:
                if number % 4 == 3:
                    connection.sendall(b"\x04lab\n")
                    while connection.recv(4096):
                        pass
                else:
                    self.print_one(connection, number)

    def print_one(self, connection, number):
        octets = document(self.random)
        control = f"Hhere\nPann\nJday\nldfA{number % 1000:03}here\n".encode()
        for part in (b"\x02lab\n", b"\x02%d cfA%03dhere\n" % (len(control), number % 1000), control + b"\0",
                     b"\x03%d dfA%03dhere\n" % (len(octets), number % 1000), octets + b"\0"):
            connection.sendall(part)
            connection.recv(1)


def run_programs(server, count, folder):
    """`lp` and `rlpr`, so many times each; which of them aren't there."""
    file = folder / "hello.txt"
    file.write_bytes(b"hello\n" * 100)
    programs = {"lp": ["lp", "-h", f"localhost:{server.ipp}", "-d", "lab", file], "rlpr": ["rlpr", "--no-bind", f"--port={server.lpd}", "-H", "localhost", "-P", "lab", file]}
    absent = [name for name in programs if not shutil.which(name)]
    for name, words in programs.items():
        for _ in range(0 if name in absent else count):
            subprocess.run(words, capture_output=True, timeout=60, check=False)
    return absent


def make_day(folder, name, requests, words=()):
    """Records a day; what it had, in a line, and the path of its file."""
    settings, trace = folder / "settings.toml", folder / f"{name}.trace"
    settings.write_text(SETTINGS)
    with Running(settings, ["--record", trace, "--log", folder / f"{name}.log", *words], log=None) as server:
        devices = [Device(server.devices, device, place) for place, device in enumerate(DEVICES)]
        server.port, server.path, server.name = server.ipp, "/printers/lab", "printd"
        programs = max(1, requests // 100)
        lpd = requests // 4
        each = (requests - lpd - 2 * programs) // 4
        clients = [Ipp(server, each, 10 + place) for place in range(4)] + [Lpd(server.lpd, lpd // 2, 20 + place) for place in range(2)]
        for thread in devices + clients:
            thread.start()
        absent = run_programs(server, programs, folder)
        for thread in clients:
            thread.join()
        time.sleep(1.5)
        for device in devices:
            device.over = True
        time.sleep(0.2)
    said = ", ".join(f"{device.name_said}: {device.printed} jobs, {device.starts} starts, {device.stalls} stalls, {device.resets} resets" for device in devices)
    print(f"{name}: about {requests} requests over three doors; {said}" + "".join(f"; {one} is absent" for one in absent))
    return trace


def played(words):
    """What the program writes, and its status."""
    done = subprocess.run([str(word) for word in [PROGRAM, *words]], capture_output=True, timeout=600, check=False)
    return (done.stdout + done.stderr).decode("utf-8", "replace").strip(), done.returncode


def verify(trace):
    start = time.monotonic()
    said, status = played(["replay", "--verify", trace])
    print(f"{trace.name}: {said.splitlines()[0][:150]} (status {status}, {time.monotonic() - start:.1f} s)")
    return said, status


def change(trace):
    """The same day with one byte changed: the number of a request in the middle of it."""
    octets = trace.read_bytes()
    place = octets.index(b"\x01\x01\x00\x02\x00\x00\x00\x01\x01G", len(octets) // 2) + 7
    changed = trace.with_name("changed.trace")
    changed.write_bytes(octets[:place] + b"\x02" + octets[place + 1:])
    return changed


def cut_short(trace):
    """The same day without one octet of the first document that stands behind its line, and its line's number."""
    octets = trace.read_bytes()
    line = octets.index(b"\noctets ") + 1
    place = octets.index(b"\n", line) + 1
    short = trace.with_name("short.trace")
    short.write_bytes(octets[:place] + octets[place + 1:])
    return short, octets.count(b"\n", 0, line) + 1


def cut_off(trace):
    """The same day up to the middle of the last document that stands behind its line."""
    octets = trace.read_bytes()
    cut = trace.with_name("cut.trace")
    cut.write_bytes(octets[:octets.rindex(b"\noctets ") + 500])
    return cut


def verify_cuts(trace):
    """Whether a day with an octet too few is refused at its line, and one that is cut off is the same up to there."""
    short, line = cut_short(trace)
    said, status = verify(short)
    refused = status == 2 and f"line {line}: " in said
    return refused and verify(cut_off(trace))[0].startswith("same, up to line ")


def ahead_of_midnight(folder, seconds):
    """A library by which a program's clock is so many seconds before the midnight of UTC to come."""
    source, library = folder / "ahead.c", folder / "ahead.so"
    source.write_text(AHEAD)
    ahead = DAY - int(time.time()) % DAY - seconds
    subprocess.run(["cc", "-shared", "-fPIC", f"-DSECONDS={ahead}", "-o", library, source], check=True)
    return library


def pass_midnight(folder):
    """A day over midnight, by the clock that a server is given: whether both of its files play as one."""
    if not shutil.which("cc"):
        print("midnight: a C compiler is absent")
        return True
    trace, next_trace = folder / "night.trace", folder / "night.1.trace"
    server = Running(folder / "settings.toml", ["--record", trace])
    server.streams["env"] = os.environ | {"LD_PRELOAD": str(ahead_of_midnight(folder, 4))}
    with server:
        server.port, server.path, server.name = server.ipp, "/printers/lab", "printd"
        client = load.Client(server)
        for _ in range(80):
            client.connection.sendall(post(server, load.message(load.PRINT_JOB, server, 0) + bytes(4_000), False))
            client.reply()
            time.sleep(0.1)
    first = next_trace.read_bytes().split(b"\n")[0].decode().replace(str(folder) + "/", "")
    print(f"midnight: {trace.stat().st_size} and {next_trace.stat().st_size} bytes, the second from {first}")
    alone, status = verify(next_trace)
    whole = folder / "whole.trace"
    whole.write_bytes(trace.read_bytes() + next_trace.read_bytes())
    return verify(trace)[0] == "same" and status == 2 and "continues another file" in alone and verify(whole)[0] == "same"


def show_sizes(trace):
    octets = trace.read_bytes()
    packed = len(gzip.compress(octets))
    print(f"{trace.name}: {len(octets)} bytes, packed {packed}; mode {trace.stat().st_mode & 0o777:o}")


def compare_logs(folder, trace):
    said, _ = played(["log", trace])
    written = trace.with_suffix(".log").read_text()
    missing = len(written.splitlines()) - len(said.splitlines())
    if said.strip() == written.strip():
        what = "the very ones of the server"
    elif written.startswith(said):
        what = f"those of the server but its last {missing}: it was killed, and the last 100 ms weren't in the file yet"
    else:
        what = "others than the server"
    print(f"{trace.name}: printd log writes {len(said.splitlines())} lines, {what}")
    return written.startswith(said.strip())


def fill_disk(folder):
    """A day whose disk is full in the middle."""
    disk = folder / "disk"
    disk.mkdir()
    mounted = subprocess.run(["mount", "-t", "tmpfs", "-o", "size=256k", "none", disk], capture_output=True, check=False)
    if mounted.returncode:
        print("a full disk: none can be mounted here")
        return
    settings = folder / "settings.toml"
    try:
        with Running(settings, ["--record", disk / "full.trace"], log=(folder / "errors").open("w")) as server:
            server.port, server.path, server.name = server.ipp, "/printers/lab", "printd"
            client = load.Client(server)
            for _ in range(20):
                client.connection.sendall(post(server, load.message(load.PRINT_JOB, server, 0) + bytes(40_000), False))
                client.reply()
            time.sleep(0.3)
            client.good(load.message(load.GET_PRINTER_ATTRIBUTES, server, 0))
        print("a full disk: " + " / ".join((folder / "errors").read_text().splitlines()) + "; the server answers on")
        verify(disk / "full.trace")
    finally:
        subprocess.run(["umount", disk], check=True)


def speed(folder, kind, one):
    """How quick a server is under a load, with a recording or without one."""
    trace = folder / "speed.trace"
    words = {"without": [], "with": ["--record", trace], "with heads": ["--record", trace, "--record-heads"]}[kind]
    with load.Ours(folder, words=words) as server:
        measured = load.measure(server, one, folder, 3)
    trace.unlink(missing_ok=True)
    return measured


def compare_speed(folder):
    """Prints how quick a server is with a recording and without one: the middle one of three rounds."""
    if not shutil.which("wrk"):
        print("speed: wrk is absent")
        return
    for one in load.LOADS:
        found = {"without": [], "with": [], "with heads": []}
        for _ in range(3):
            for kind, rows in found.items():
                rows.append(speed(folder, kind, one))
        middle = {kind: sorted(rows, key=lambda row: row.used)[1] for kind, rows in found.items()}
        print(f"{one[0]}: " + "; ".join(f"{kind} {row.rate:.0f}/s, {row.used:.1f} us each" for kind, row in middle.items()), flush=True)


def main():
    requests = int(sys.argv[1]) if len(sys.argv) > 1 else 2000
    folder = pathlib.Path(tempfile.mkdtemp(prefix="record_day."))
    trace = make_day(folder, "day", requests)
    show_sizes(trace)
    good = verify(trace)[0] == "same"
    changed = verify(change(trace))
    print("\n".join(line[:150] for line in changed[0].splitlines()[1:]))
    good &= changed[1] == 1
    good &= verify_cuts(trace)
    good &= compare_logs(folder, trace)
    heads = make_day(folder, "heads", requests // 10, ["--record-heads"])
    show_sizes(heads)
    good &= verify(heads)[0] == "same"
    good &= pass_midnight(folder)
    fill_disk(folder)
    compare_speed(folder)
    shutil.rmtree(folder, ignore_errors=True)
    sys.exit(not good)


if __name__ == "__main__":
    main()
