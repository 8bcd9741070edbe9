#!/usr/bin/env python3
"""How much processor time the server takes in states in which it has to wait. Prints a table, and ends with
status 1 where a state takes more than two hundredths of a processor.

    tools/idle.py [SECONDS]        (5 where none are given, in each state)

PRINTD names the program; without it, it is the one that ./printd built.
"""
import pathlib
import resource
import socket
import sys

sys.path.insert(0, str(pathlib.Path(__file__).resolve().parent / "clients"))
from running import TOP, Running  # noqa: E402

REQUEST = (TOP / "examples/print_job.ipp").read_bytes()
MOST = 0.02


def posted(body):
    head = f"POST / HTTP/1.1\r\nHost: a\r\nContent-Type: application/ipp\r\nContent-Length: {len(body)}\r\n\r\n"
    return head.encode("ascii") + body


def connect(port, receive=None):
    """A client's socket; with a size, its system keeps no more than about so many bytes that came."""
    client = socket.socket()
    if receive:
        client.setsockopt(socket.SOL_SOCKET, socket.SO_RCVBUF, receive)
    client.connect(("127.0.0.1", port))
    return client


def idle(_server):
    """Nothing is connected."""
    return []


def kept_alive(server):
    """32 clients that had an answer each."""
    clients = [connect(server.ipp) for _ in range(32)]
    for client in clients:
        client.sendall(posted(REQUEST))
        client.recv(4096)
    return clients


def full_door(server):
    """64 clients that say nothing, and eight more that wait."""
    return [connect(server.ipp) for _ in range(72)]


def slow_reader(server):
    """A client that asks and asks, and reads nothing."""
    client = connect(server.ipp, 4096)
    client.settimeout(1)
    try:
        while True:
            client.sendall(posted(REQUEST) * 16)
    except TimeoutError:
        return [client]


def deaf_device(server):
    """A device that gets a job of 8 MiB, and reads nothing."""
    device = connect(server.devices, 4096)
    device.sendall(b"HELLO window\nREADY\n")
    client = connect(server.ipp)
    client.sendall(posted(REQUEST + bytes(8 << 20)))
    client.recv(4096)
    return [device, client]


def no_descriptors(server):
    """No descriptor is left to the server, and clients come."""
    resource.prlimit(server.process.pid, resource.RLIMIT_NOFILE, (server.descriptors() + 2,) * 2)
    return [connect(server.ipp) for _ in range(8)]


STATES = (idle, kept_alive, full_door, slow_reader, deaf_device, no_descriptors)


def share_in(state, seconds):
    """The part of a processor that a server uses in a state, from a second after it has begun."""
    with Running() as server:
        held = state(server)
        server.processor_share(1.0)
        share = server.processor_share(seconds)
        for one in held:
            one.close()
        return share


def main():
    seconds = float(sys.argv[1]) if len(sys.argv) > 1 else 5.0
    worst = 0.0
    for state in STATES:
        share = share_in(state, seconds)
        print(f"{share * 100:6.2f} %  {state.__doc__}", flush=True)
        worst = max(worst, share)
    sys.exit(worst > MOST)


if __name__ == "__main__":
    main()
