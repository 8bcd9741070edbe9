"""Servers that a script plays for printers' adapters, what stands between an adapter and `printd serve`, and printers."""
import contextlib
import json
import re
import socket
import struct
import subprocess
import sys
import threading
import time
import pathlib

from running import TOP, Adapter, Process

A4 = "iso_a4_210x297mm"
TOOLS = {"socket": "printer.py", "pjl": "printer.py", "lpd": "lpd_printer.py", "ipp": "ipp_printer.py"}
PATHS = {"socket": "", "pjl": "", "lpd": "/lab", "ipp": "/printer"}


def free_port():
    with socket.create_server(("127.0.0.1", 0)) as listener:
        return listener.getsockname()[1]


def listens(port):
    """Whether a program listens there; it isn't asked, which a printer would count."""
    place = f"{socket.ntohl(struct.unpack('>I', socket.inet_aton('127.0.0.1'))[0]):08X}:{port:04X}"
    return any(f" {place} 00000000:0000 0A " in line for line in pathlib.Path("/proc/net/tcp").read_text().splitlines())


class Printer(Process):
    """A printer of tools/clients that keeps what it prints in a folder, until the end of a `with`."""

    def __init__(self, to, folder, faults=(), attributes=None, late=0.0):
        self.to, self.folder, self.port, self.late = to, folder, free_port(), late
        self.address = f"{'socket' if to == 'pjl' else to}://127.0.0.1:{self.port}{PATHS[to]}"
        self.folder.mkdir(parents=True, exist_ok=True)
        if attributes is not None:
            self.has(attributes)
        words = [sys.executable, TOP / "tools/clients" / TOOLS[to], self.port, folder, *faults, "pjl" if to == "pjl" else "well"]
        if late:
            words = ["sh", "-c", f'sleep {late}; exec "$@"', "sh", *words]
        super().__init__(words, stdout=subprocess.DEVNULL)

    def __enter__(self):
        super().__enter__()
        while not self.late and not listens(self.port):
            time.sleep(0.02)
        return self

    def has(self, attributes):
        """Has a printer of IPP tell these attributes of itself from now on."""
        beside = self.folder / "beside"
        beside.write_text(json.dumps(attributes))
        beside.rename(self.folder / "attributes")

    def requests(self, operation):
        """The requests that a printer of IPP has had for an operation."""
        path = self.folder / "requests"
        lines = path.read_text().splitlines() if path.exists() else []
        return [request for request in map(json.loads, lines) if request["operation"] == operation]


def hear(connection, said):
    """Hears lines up to the end of a connection, each with its moment."""
    with contextlib.suppress(OSError):
        for line in connection.makefile("rb"):
            said.append((time.time(), line.rstrip(b"\n").decode("utf-8", "replace")))


class ScriptedServer:
    """A server of one device, until the end of a `with`: it keeps what the device says, each line with its moment,
    and writes to it what the script says. With `turns_away` it closes each connection as soon as it has come."""

    def __init__(self, host="127.0.0.1", port=0, turns_away=False):
        family = socket.AF_INET6 if ":" in host else socket.AF_INET
        self.listener = socket.create_server((host, port), family=family)
        self.port = self.listener.getsockname()[1]
        self.turns_away, self.came, self.said, self.connection = turns_away, [], [], None

    def __enter__(self):
        threading.Thread(target=self.run, daemon=True).start()
        return self

    def __exit__(self, *_):
        # a thread that waits there wakes up
        self.listener.shutdown(socket.SHUT_RDWR)
        self.listener.close()
        if self.connection:
            self.connection.close()

    def run(self):
        with contextlib.suppress(OSError):
            while True:
                self.connection, _ = self.listener.accept()
                self.came.append(time.time())
                if self.turns_away:
                    self.connection.close()
                else:
                    hear(self.connection, self.said)

    def lines(self):
        """What the device said, without HELLO."""
        return [line for _, line in self.said if not line.startswith("HELLO")]

    def moment_of(self, pattern, seconds=20.0, since=0.0):
        """When the device first said such a line after a moment, or None where it doesn't for so long."""
        end = time.time() + seconds
        while time.time() < end:
            for moment, line in list(self.said):
                if moment >= since and re.fullmatch(pattern, line):
                    return moment
            time.sleep(0.01)
        return None

    def bring(self, job, document, copies=1, sides="1", media=A4, finishings=""):
        """Brings the device a job."""
        order = f"JOB {job} {len(document)} {copies} {sides} {media}{' ' * bool(finishings)}{finishings}\n"
        self.connection.sendall(order.encode("ascii") + document)

    def has_printed(self, job, document, seconds=20.0, **order):
        """Brings the device a job: whether it says DONE."""
        self.bring(job, document, **order)
        return self.moment_of(f"(DONE|FAIL) {job}", seconds) is not None and f"DONE {job}" in self.lines()


@contextlib.contextmanager
def attached(to, folder, words=(), **streams):
    """A scripted server, and an adapter that has said to it who it is."""
    with ScriptedServer() as server, Adapter("window", server.port, to, folder / "adapter.log", words, **streams) as adapter:
        server.moment_of("HELLO window")
        yield server, adapter


class Tap:
    """What stands between an adapter and a server at this port: it passes on what each says, and keeps the lines of the
    adapter."""

    def __init__(self, port):
        self.behind, self.said = port, []
        self.listener = socket.create_server(("127.0.0.1", 0))
        self.port = self.listener.getsockname()[1]
        threading.Thread(target=self.run, daemon=True).start()

    def run(self):
        with contextlib.suppress(OSError):
            while True:
                device, _ = self.listener.accept()
                server = socket.create_connection(("127.0.0.1", self.behind))
                threading.Thread(target=self.pass_on, args=(device, server, bytearray()), daemon=True).start()
                threading.Thread(target=self.pass_on, args=(server, device, None), daemon=True).start()

    def pass_on(self, source, target, unread):
        """Passes on what comes, up to its end, and keeps its lines where it is the adapter's."""
        with contextlib.suppress(OSError):
            while part := source.recv(65536):
                target.sendall(part)
                if unread is not None:
                    unread.extend(part)
                    *lines, rest = bytes(unread).split(b"\n")
                    self.said.extend(line.decode("utf-8", "replace") for line in lines)
                    unread[:] = rest
        with contextlib.suppress(OSError):
            target.shutdown(socket.SHUT_WR)

    def lines(self):
        """What the adapter said, without HELLO and without PAGES."""
        return [line for line in self.said if not line.startswith(("HELLO", "PAGES"))]

    def lines_until(self, job):
        """What the adapter said up to the answer to a job, which it logs before it is passed on here."""
        ends = {f"DONE {job}", f"FAIL {job}"}
        for _ in range(100):
            if ends & set(self.said):
                break
            time.sleep(0.05)
        return self.lines()
