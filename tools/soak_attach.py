#!/usr/bin/env python3
"""Many jobs through printers' adapters: their memory and the server's, at each tenth of the jobs.

    tools/soak_attach.py SCHEME JOBS [ADAPTERS]      (one adapter, where none is said)

SCHEME is file, socket, pjl, lpd or ipp. A server with a device for each adapter is given jobs of 5,000 bytes, at most
300 of them unfinished at a time, and `printd attach` prints them: into a folder in memory, to a printer here that
takes what it is sent, and with pjl tells of its pages, or, with ipp, to tools/clients/ipp_printer.py, which takes a
tenth of a second for each. It prints the resident memory of all and the adapters' descriptors at each tenth, how many
jobs were done and failed, and the processor time of the adapters over a minute with nothing to do. It ends with
status 1 where a job failed, or where memory has grown by more than a twentieth since half of them. PRINTD names the
program; without it, it is the one that ./printd built.
"""
import contextlib
import http.client
import os
import pathlib
import shutil
import socket
import sys
import tempfile
import threading
import time

TOP = pathlib.Path(__file__).resolve().parent.parent
sys.path.insert(0, str(TOP / "tools/clients"))
from ipp_printer import CHARSET, LANGUAGE, attribute  # noqa: E402
from running import Adapter, Process, Running  # noqa: E402

URI = 0x45
WAITING = 300
OCTETS = 5000
IDLE = 60


HEAD = (
    b"\x01\x01\x00\x02\x00\x00\x00\x01\x01"
    + attribute(CHARSET, b"attributes-charset", b"utf-8")
    + attribute(LANGUAGE, b"attributes-natural-language", b"en")
    + attribute(URI, b"printer-uri", b"ipp://localhost:631/printers/lab")
    + b"\x03"
)


def device(name):
    """A device, as settings have it."""
    media, formats = '["iso_a4_210x297mm"]', '["application/octet-stream"]'
    return f'[[device]]\nname = "{name}"\nrate_one = 100\nmedia = {media}\nformats = {formats}\n'


def settings(names):
    """The settings of a printer over devices of these names."""
    listed = ", ".join(f'"{name}"' for name in names)
    return (
        'version = 1\nuri_base = "ipp://localhost:631"\n' + "".join(device(name) for name in names)
        + f'[[printer]]\nname = "lab"\ndevices = [{listed}]\n'
        + 'media_default = "iso_a4_210x297mm"\nformat_default = "application/octet-stream"\n'
    )


def printer(take):
    """The port of a printer that takes each connection so."""
    listener = socket.create_server(("127.0.0.1", 0))

    def run():
        while True:
            connection, _ = listener.accept()
            with connection:
                take(connection)

    threading.Thread(target=run, daemon=True).start()
    return listener.getsockname()[1]


def take_app_socket(connection):
    while connection.recv(65536):
        pass


def take_pjl(connection):
    """Takes a job wrapped in PJL, and tells of its pages and of its end."""
    taken = b""
    while b"@PJL EOJ" not in taken and (part := connection.recv(65536)):
        taken += part
    pages = range(1, 2 + len(taken) // 4096)
    told = b"".join(b"@PJL USTATUS PAGE\r\n%d\r\n\f" % page for page in pages)
    connection.sendall(b"@PJL USTATUS DEVICE\r\nCODE=10001\r\n\f" + told + b"@PJL USTATUS JOB\r\nEND\r\nNAME=\"a job\"\r\n\f")
    while connection.recv(65536):
        pass


def take_lpd(connection):
    stream = connection.makefile("rb")
    stream.readline()
    connection.sendall(b"\0")
    for _ in range(2):
        count = int(stream.readline()[1:].split()[0])
        connection.sendall(b"\0")
        stream.read(count + 1)
        connection.sendall(b"\0")


def free_port():
    with socket.create_server(("127.0.0.1", 0)) as listener:
        return listener.getsockname()[1]


class Counted(Adapter):
    """An adapter, and how many of its jobs are done or have failed so far."""

    def __enter__(self):
        self.lines, self.done, self.failed = self.log.open(), 0, 0
        return super().__enter__()

    def ended(self):
        """How many jobs have ended."""
        text = self.lines.read()
        self.done += text.count(" done ")
        self.failed += text.count(" fail ")
        return self.done + self.failed


def target(scheme, name, folder, ends):
    """What --to is given; what runs behind it ends with `ends`."""
    if scheme == "file":
        return f"file:{folder / name}"
    if scheme in ("socket", "pjl"):
        return f"socket://127.0.0.1:{printer(take_pjl if scheme == 'pjl' else take_app_socket)}"
    if scheme == "lpd":
        return f"lpd://127.0.0.1:{printer(take_lpd)}/lab"
    port = free_port()
    ends.enter_context(Process([sys.executable, TOP / "tools/clients/ipp_printer.py", port, folder / name]))
    return f"ipp://127.0.0.1:{port}/printer"


def send(door, count):
    """Sends up to so many jobs: how many were taken."""
    for sent in range(count):
        door.request("POST", "/printers/lab", HEAD + os.urandom(OCTETS), {"Content-Type": "application/ipp"})
        if door.getresponse().read()[2:4] != b"\0\0":
            return sent
    return count


def reading(server, adapters):
    """The memory of each, and the adapters' descriptors."""
    memory = [run.resident_kib() for run in (*adapters, server)]
    return memory, [adapter.descriptors() for adapter in adapters]


def soak(server, adapters, jobs):
    """Has so many jobs printed: the memory of each at each tenth."""
    door = http.client.HTTPConnection("127.0.0.1", server.ipp, timeout=60)
    begun, sent, ended, memories = time.time(), 0, 0, []
    while ended < jobs:
        sent += send(door, min(jobs - sent, WAITING - (sent - ended)))
        time.sleep(0.2)
        ended = sum(adapter.ended() for adapter in adapters)
        if ended >= jobs * (len(memories) + 1) // 10:
            memory, descriptors = reading(server, adapters)
            memories.append(memory)
            of_adapters = " ".join(str(size) for size in memory[:-1])
            print(f"{time.time() - begun:6.0f} s {ended:6} jobs: adapters {of_adapters} KiB, server {memory[-1]} KiB, descriptors {descriptors}", flush=True)
    return memories


def idle_share(adapters):
    """The part of a processor that each takes over a minute, in percent."""
    before = [adapter.processor_seconds() for adapter in adapters]
    time.sleep(IDLE)
    return [(adapter.processor_seconds() - early) / IDLE * 100 for adapter, early in zip(adapters, before)]


def main():
    scheme, jobs, count = sys.argv[1], int(sys.argv[2]), int(sys.argv[3] if len(sys.argv) > 3 else 1)
    names = [f"device{number}" for number in range(1, 1 + count)]
    folder = pathlib.Path(tempfile.mkdtemp(dir="/dev/shm"))
    with contextlib.ExitStack() as ends:
        ends.callback(shutil.rmtree, folder)
        (folder / "settings.toml").write_text(settings(names))
        server = ends.enter_context(Running(folder / "settings.toml"))
        targets = [target(scheme, name, folder, ends) for name in names]
        time.sleep(1)
        words = ["--pjl"] if scheme == "pjl" else []
        adapters = [Counted(name, server.devices, to, folder / f"{name}.log", words) for name, to in zip(names, targets)]
        for adapter in adapters:
            ends.enter_context(adapter)
        time.sleep(1)
        memories = soak(server, adapters, jobs)
        shares = ", ".join(f"{share:.3f}" for share in idle_share(adapters))
    done, failed = sum(one.done for one in adapters), sum(one.failed for one in adapters)
    print(f"{scheme}: {done} done, {failed} failed; idle over {IDLE} s, {shares} % of a processor")
    sys.exit(failed > 0 or any(late > early + early // 20 for early, late in zip(memories[len(memories) // 2], memories[-1])))


if __name__ == "__main__":
    main()
