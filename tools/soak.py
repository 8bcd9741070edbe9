#!/usr/bin/env python3
"""Prints many jobs, each taken and finished by a device, and compares the server's memory and descriptors with
those of an early moment. Ends with status 1 where the memory has grown by more than a twentieth.

    tools/soak.py [JOBS]           (100,000 where none are given)

PRINTD names the program; without it, it is the one that ./printd built.
"""
import pathlib
import socket
import sys
import threading
import time
import typing

sys.path.insert(0, str(pathlib.Path(__file__).resolve().parent / "clients"))
from running import TOP, Running  # noqa: E402

EARLY = 2000
# how many jobs wait for the device at most: the server takes 512
WAITING = 100
BODY = (TOP / "examples/print_job.ipp").read_bytes()
REQUEST = b"POST /printers/lab HTTP/1.1\r\nHost: a\r\nContent-Type: application/ipp\r\nContent-Length: %d\r\n\r\n" % len(BODY) + BODY


class Device(threading.Thread):
    """Takes each job, and says at once that it is done."""

    def __init__(self, port):
        super().__init__(daemon=True)
        self.connection = socket.create_connection(("127.0.0.1", port))
        self.connection.setsockopt(socket.IPPROTO_TCP, socket.TCP_NODELAY, 1)
        self.connection.sendall(b"HELLO window\nREADY\n")
        self.done = 0

    def run(self):
        stream = self.connection.makefile("rb")
        for line in stream:
            _job, number, octets, *_rest = line.split()
            stream.read(int(octets))
            self.connection.sendall(b"DONE " + number + b"\n")
            self.done += 1


def reply(stream):
    """The status of the next IPP reply."""
    length = 0
    while (line := stream.readline()) != b"\r\n":
        if line.lower().startswith(b"content-length:"):
            length = int(line.split(b":")[1])
    body = stream.read(length)
    return int.from_bytes(body[2:4], "big")


class Soaked(typing.NamedTuple):
    """How many seconds the jobs took, and how many of a processor; resident KiB early and at the end; open
    descriptors at the start and at the end."""

    passed: float
    used: float
    early_kib: float
    late_kib: float
    descriptors: float
    descriptors_late: float


def print_all(server, device, count, early):
    """Prints so many jobs one after the other; the resident KiB after the early ones and at the end."""
    client = socket.create_connection(("127.0.0.1", server.ipp))
    client.setsockopt(socket.IPPROTO_TCP, socket.TCP_NODELAY, 1)
    stream = client.makefile("rb")
    early_kib = 0
    for number in range(1, count + 1):
        while number - device.done > WAITING:
            time.sleep(0.001)
        client.sendall(REQUEST)
        status = reply(stream)
        if status > 1:
            sys.exit(f"job {number} is answered {status:#06x}")
        if number == early:
            early_kib = server.resident_kib()
    while device.done < count:
        time.sleep(0.01)
    client.close()
    return early_kib, server.resident_kib()


def soak(count, early=EARLY):
    """Prints so many jobs by a server of its own."""
    with Running() as server:
        before = server.descriptors()
        device = Device(server.devices)
        device.start()
        start = time.monotonic()
        kib = print_all(server, device, count, early)
        passed = time.monotonic() - start
        device.connection.shutdown(socket.SHUT_RDWR)
        time.sleep(1)
        return Soaked(passed, server.processor_seconds(), *kib, before, server.descriptors())


def main():
    count = int(sys.argv[1]) if len(sys.argv) > 1 else 100_000
    soaked = soak(count)
    print(f"{count} jobs in {soaked.passed:.0f} s, {soaked.used:.1f} s of them the server's")
    print(f"resident: {soaked.early_kib} KiB after {EARLY} jobs, {soaked.late_kib} KiB at the end")
    print(f"descriptors: {soaked.descriptors} at the start, {soaked.descriptors_late} at the end")
    sys.exit(soaked.late_kib > soaked.early_kib + soaked.early_kib // 20)


if __name__ == "__main__":
    main()
