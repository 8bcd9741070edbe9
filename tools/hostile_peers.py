#!/usr/bin/env python3
"""What a peer costs the others that sends the server little and has it do much: prints the figures of docs/SECURITY.md.

    tools/hostile_peers.py [SECONDS]        (each flood lasts 4 where none are given)

PRINTD names the program; without it, it is the one that ./printd built.
"""
import pathlib
import selectors
import socket
import sys
import threading
import time

HERE = pathlib.Path(__file__).resolve().parent
sys.path[:0] = [str(HERE / "clients"), str(HERE / "load")]
from messages import GET_PRINTER_ATTRIBUTES, NAME, PRINT_JOB, attribute, head, request, requested  # noqa: E402
from running import Running  # noqa: E402

GET_JOBS = 0x000A
PATH = "/printers/lab"
PATIENCE = 60
CHUNKED = b"POST /printers/lab HTTP/1.1\r\nHost: a\r\nContent-Type: application/ipp\r\nTransfer-Encoding: chunked\r\n\r\n"


def ask(operation, port, user="ann", more=b"", document=b""):
    """An HTTP request of this operation."""
    body = request(operation, f"ipp://localhost:{port}{PATH}", user, more, document)
    return head(PATH, port, len(body)) + body


def chunk(octets):
    return b"%x\r\n%s\r\n" % (len(octets), octets)


def begun_job(server):
    """A Print-Job whose document is still to come."""
    return CHUNKED + chunk(request(PRINT_JOB, f"ipp://localhost:{server.ipp}{PATH}", "ann"))


# what a peer sends: its port, its first bytes, and those that it sends again and again
FLOODS = {
    "empty lines before a head": lambda server: (server.ipp, b"", b"\r\n" * 8192),
    "a document in chunks of a byte": lambda server: (server.ipp, begun_job(server), chunk(b"a") * 2730),
    "aborts of LPD": lambda server: (server.lpd, b"\2lab\n", b"\1\n" * 8192),
    "a document": lambda server: (server.ipp, begun_job(server), chunk(b"a" * 16374)),
}


class Flood(threading.Thread):
    """So many connections, each of which sends its first bytes and then the same bytes again and again."""

    def __init__(self, connections, port, first, again):
        super().__init__(daemon=True)
        self.again, self.ends = again, False
        self.poll = selectors.DefaultSelector()
        for _ in range(connections):
            connection = socket.create_connection(("127.0.0.1", port))
            connection.sendall(first)
            connection.setblocking(False)
            self.poll.register(connection, selectors.EVENT_READ | selectors.EVENT_WRITE, again)

    def run(self):
        while not self.ends and self.poll.get_map():
            for key, events in self.poll.select(0.1):
                self.go_on(key.fileobj, key.data, events)
        for key in list(self.poll.get_map().values()):
            key.fileobj.close()

    def go_on(self, connection, left, events):
        """Drops what came, and sends the rest of the bytes, or all of them again."""
        try:
            if events & selectors.EVENT_READ and not connection.recv(65536):
                raise ConnectionResetError
            if events & selectors.EVENT_WRITE:
                left = left[connection.send(left):] or self.again
                self.poll.modify(connection, selectors.EVENT_READ | selectors.EVENT_WRITE, left)
        except BlockingIOError:
            pass
        except OSError:
            self.poll.unregister(connection)
            connection.close()

    def end(self):
        self.ends = True
        self.join()


class Client:
    """A client of IPP with a connection of its own, which may take only little at once."""

    def __init__(self, server, window=None):
        self.connection = socket.socket()
        self.connection.settimeout(PATIENCE)
        if window:
            self.connection.setsockopt(socket.SOL_SOCKET, socket.SO_RCVBUF, window)
        self.connection.connect(("127.0.0.1", server.ipp))
        self.stream = self.connection.makefile("rb")

    def reply(self, asked):
        """The octets of the reply's body."""
        self.connection.sendall(asked)
        length = 0
        while (line := self.stream.readline().lower()) not in (b"\r\n", b""):
            if line.startswith(b"content-length:"):
                length = int(line.split(b":")[1])
        return len(self.stream.read(length))


def wait(server):
    """The seconds that a Print-Job over a new connection takes; PATIENCE where no answer came by then."""
    begun, client = time.monotonic(), Client(server)
    try:
        client.reply(ask(PRINT_JOB, server.ipp, document=b"hello"))
    except TimeoutError:
        return PATIENCE
    finally:
        client.connection.close()
    return time.monotonic() - begun


def until_idle(server):
    """Waits until the server has nothing to do, for PATIENCE at most."""
    until = time.monotonic() + PATIENCE
    while server.processor_share(0.5) > 0.1 and time.monotonic() < until:
        pass


def longest_wait(kind, connections, seconds):
    """The longest that a client waits while so many connections flood the server."""
    with Running() as server:
        flood = Flood(connections, *kind(server))
        flood.start()
        longest, until = 0.0, time.monotonic() + seconds
        while time.monotonic() < until:
            longest = max(longest, wait(server))
        flood.end()
        return longest


def cost(kind):
    """The ms of a processor that 1,000,000 bytes of the flood take."""
    with Running() as server:
        port, first, again = kind(server)
        before = server.processor_seconds()
        with socket.create_connection(("127.0.0.1", port)) as connection:
            def send():
                connection.sendall(first + again * 16)
                connection.shutdown(socket.SHUT_WR)

            threading.Thread(target=send).start()
            while connection.recv(65536):
                pass
        return (server.processor_seconds() - before) / (len(again) * 16) * 1e9


def floods(seconds):
    print("| A peer sends | processor for a MB | longest wait of another client: 1 connection | 8 | 56 |")
    print("|---|---:|---:|---:|---:|")
    for name, kind in FLOODS.items():
        waits = " | ".join(f"{longest_wait(kind, connections, seconds):.2f} s" for connections in (1, 8, 56))
        print(f"| {name} | {cost(kind):.0f} ms | {waits} |", flush=True)


def reply_cost(server, client, question):
    """The octets of a reply, and the ms of a processor that it takes until it is read."""
    before = server.processor_seconds()
    length = client.reply(question)
    return length, (server.processor_seconds() - before) * 1000


def long_names(jobs, octets):
    """What a Get-Jobs costs where the jobs have names of so many octets, and what eight at once do."""
    with Running() as server:
        client, name = Client(server), "n" * octets
        for _ in range(jobs):
            client.reply(ask(PRINT_JOB, server.ipp, name, attribute(NAME, "job-name", name), b"a"))
        question = ask(GET_JOBS, server.ipp, more=requested(["all"]))
        length, at_once = reply_cost(server, client, question)
        _, in_parts = reply_cost(server, Client(server, window=4096), question)
        resident = server.resident_kib()
        others = [Client(server) for _ in range(8)]
        for other in others:
            other.connection.sendall(question)
        waited = wait(server)
        until_idle(server)
        grown = (server.resident_kib() - resident) / 1024
        print(f"| {jobs} | {octets:,} | {len(question)} | {length:,} | {at_once:.0f} ms | {in_parts:.0f} ms | {waited:.2f} s | {grown:.0f} MiB |", flush=True)


def names():
    print("| Jobs | octets of each name | asked | answered | processor, read at once | read in small parts | wait of another client while 8 ask and don't read | memory for these |")
    print("|---:|---:|---:|---:|---:|---:|---:|---:|")
    for jobs, octets in [(100, 10), (100, 255), (100, 30_000), (400, 30_000)]:
        long_names(jobs, octets)


def memory(count=4000):
    """How much memory the server keeps of each request on one connection."""
    with Running() as server:
        client, question = Client(server), ask(GET_PRINTER_ATTRIBUTES, server.ipp)
        for _ in range(500):
            client.reply(question)
        before = server.resident_kib()
        for _ in range(count):
            client.reply(question)
        print(f"memory kept of each of {count:,} status reports: {(server.resident_kib() - before) * 1024 / count:.0f} octets")


def main():
    floods(float(sys.argv[1]) if len(sys.argv) > 1 else 4)
    print()
    names()
    print()
    memory()


if __name__ == "__main__":
    main()
