#!/usr/bin/env python3
"""A printer that speaks IPP: it takes each job, and keeps its document.

    ipp_printer.py PORT FOLDER [FAULT ..]

The documents go to FOLDER/1, FOLDER/2 and so on. Of each request FOLDER/requests gets a line, as JSON: its moment,
its operation, its attributes, and its head of HTTP. What FOLDER/attributes has, as JSON, replaces attributes that the printer tells of
itself; one that is null is left out. FAULT N of the list is what it does with job N, and after the last of them all
is well:

    well         it prints a page (4,096 bytes) in a tenth of a second
    chunked      the same, and its reply comes in chunks of seven bytes, behind an interim reply
    rated        it takes half a second, and then for a page as long as printer.py does
    early        it closes after 1,000 bytes of the document
    stall        it reads 1,000 bytes of the document and then nothing more, and keeps the connection
    garbage      it answers with bytes that are no HTTP
    closed       it takes the document, and closes without a reply
    mute         it takes the document, and never answers
    half         it says that its reply is longer than it is, and closes
    short        it says that its reply is shorter than it is
    untold       it doesn't say how long its reply is, and closes behind it
    newer        its reply is of IPP/2.0
    long         its reply's head never ends
    huge         its reply's body has 100 megabytes
    denied       it answers 401 before the document has come
    failed       it answers 500
    busy         it answers server-error-busy, twice
    occupied     it answers 503, with Retry-After, three times
    waits        it takes the job, and answers 503 and server-error-busy where it is asked for it first
    lost         it takes the job, prints it, and doesn't know it then
    others       it takes the job, and answers for another job, and to another request, where it is asked for it first
    trickle      it takes the job, and never ends its reply where it is asked for it
    secretive    it takes the job, and closes each connection on which it is asked for it
    aborted      it takes the job, and aborts it
    stuck        it takes the job, and never ends it
    deaf         it takes the job, and doesn't answer where it is asked for it
    forgetful    it closes the first three connections on which it is asked for the job
    stopped      it takes the job, and is stopped for twelve seconds, with a reason of its own

It ends with SIGTERM.
"""
import json
import pathlib
import socket
import struct
import sys
import threading
import time

from printer import RATE_ONE, RATE_TWO, SETUP

INTEGER, BOOLEAN, ENUM, RANGE, KEYWORD, CHARSET, LANGUAGE, FORMAT = 0x21, 0x22, 0x23, 0x33, 0x44, 0x47, 0x48, 0x49
PRINT_JOB, CANCEL_JOB, GET_JOB, GET_PRINTER = 0x02, 0x08, 0x09, 0x0B
# how long a printer is stopped, in seconds
STOPPED = 12
PAGE = 4096
# what the printer tells of itself, and its tags
TOLD = {
    "printer-state": [4],
    "printer-state-reasons": ["toner-empty-warning", "media-low-report"],
    "media-ready": ["iso_a4_210x297mm"],
    "copies-supported": [[1, 5]],
    "media-supported": ["iso_a4_210x297mm"],
    "sides-supported": ["one-sided"],
    "document-format-supported": ["application/octet-stream"],
}
TAGS = {"printer-state": ENUM, "finishings-supported": ENUM, "copies-supported": RANGE, "document-format-supported": FORMAT}


def attribute(tag, name, *values):
    """An attribute, as RFC 8010 spells it."""
    text = b""
    for value in values:
        value = struct.pack(">i", value) if isinstance(value, int) else value
        text += struct.pack(">BH", tag, len(name)) + name + struct.pack(">H", len(value)) + value
        name = b""
    return text


def spelled(name, values):
    """An attribute of the printer's, by values as JSON has them."""
    octets = [value.encode() if isinstance(value, str) else value for value in values]
    octets = [struct.pack(">ii", *value) if isinstance(value, list) else value for value in octets]
    return attribute(TAGS.get(name, KEYWORD), name.encode(), *octets)


def attributes_of(front):
    """The attributes of a message, each with its values: numbers where they are integers, else texts."""
    found, name, at = {}, "", 8
    while at < len(front) and front[at] != 3:
        tag, at = front[at], at + 1
        if tag < 0x10:
            continue
        length = struct.unpack_from(">H", front, at)[0]
        name = front[at + 2 : at + 2 + length].decode() or name
        at += 2 + length
        length = struct.unpack_from(">H", front, at)[0]
        value = front[at + 2 : at + 2 + length]
        at += 2 + length
        number = tag in (INTEGER, ENUM, BOOLEAN)
        found.setdefault(name, []).append(int.from_bytes(value, "big") if number else value.decode())
    return found


def message(status, group=b""):
    """A reply of IPP/1.1 to request 1."""
    operation = attribute(CHARSET, b"attributes-charset", b"utf-8")
    operation += attribute(LANGUAGE, b"attributes-natural-language", b"en")
    return struct.pack(">BBHi", 1, 1, status, 1) + b"\x01" + operation + group + b"\x03"


def reply(body):
    """A reply of HTTP."""
    return b"HTTP/1.1 200 OK\r\nContent-Length: %d\r\n\r\n" % len(body) + body


def other_request(group):
    """A reply to another request, with this group."""
    body = message(0, group)
    return body[:4] + struct.pack(">i", 2) + body[8:]


def chunked(body):
    """The same in chunks, with extensions and a trailer, behind an interim reply."""
    parts = [body[at : at + 7] for at in range(0, len(body), 7)]
    chunks = b"".join(b"%X ;a=b\r\n%s\r\n" % (len(part), part) for part in parts)
    return b"HTTP/1.1 102 Wait\r\n\r\nHTTP/1.1 200 OK\r\ntransfer-encoding: Chunked\r\n\r\n" + chunks + b"0\r\nx: y\r\n\r\n"


# that the printer is busy, by HTTP; a completed job of another id
UNAVAILABLE = b"HTTP/1.1 503 Service Unavailable\r\nRetry-After: 1\r\nContent-Length: 0\r\n\r\n"
OTHER_JOB = message(0, b"\x02" + attribute(INTEGER, b"job-id", 99) + attribute(ENUM, b"job-state", 9))


class Printer:
    """The jobs, with the fault of each and when it came."""

    def __init__(self, folder, faults):
        self.folder, self.faults, self.jobs, self.ended, self.forgotten, self.refused = folder, faults, [], {}, 0, 0

    def fault(self, job):
        return self.faults[job - 1] if job <= len(self.faults) else "well"

    def note(self, head, front):
        """Keeps of a request what it asks: its operation."""
        operation = struct.unpack(">H", front[2:4])[0] if len(front) > 8 else 0
        line = {"moment": time.time(), "operation": operation, "attributes": attributes_of(front), "head": head.decode()}
        with (self.folder / "requests").open("a") as requests:
            requests.write(json.dumps(line) + "\n")
        return operation

    def state(self):
        """The printer's group."""
        stops = any(self.fault(job) == "stopped" and time.time() < came + STOPPED for job, (came, *_) in enumerate(self.jobs, 1))
        told = {**TOLD, "printer-state-reasons": ["media-jam", "toner-low-warning"]} if stops else dict(TOLD)
        others = self.folder / "attributes"
        told.update(json.loads(others.read_text()) if others.exists() else {})
        return b"\x04" + b"".join(spelled(name, values) for name, values in told.items() if values is not None)

    def pages(self, job):
        """How many pages of a job are printed, and how many it has."""
        came, octets, sides = self.jobs[job - 1]
        passed, pages = time.time() - came, octets // PAGE
        if self.fault(job) == "rated":
            pages = max(1, -(-octets // PAGE))
            return int((passed - SETUP) / (RATE_ONE if sides == "one-sided" else RATE_TWO)), pages
        return int((passed - (STOPPED if self.fault(job) == "stopped" else 0)) * 10), pages

    def job(self, job):
        """A job's group."""
        fault, (printed, pages) = self.fault(job), self.pages(job)
        state = 9 if printed >= pages and fault not in ("stuck", "aborted") else 5
        state = self.ended.get(job, 8 if fault == "aborted" and printed >= 10 else state)
        count = attribute(INTEGER, b"job-impressions-completed", max(0, min(printed, pages)))
        return b"\x02" + attribute(INTEGER, b"job-id", job) + attribute(ENUM, b"job-state", state) + count


def read_head(stream):
    """The head of a request."""
    head = b""
    while not head.endswith(b"\r\n\r\n") and (line := stream.readline()):
        head += line
    return head


def read_body(stream, head):
    """The pieces of a request's body."""
    if not head:
        return
    if b"chunked" not in head:
        yield stream.read(int(head.lower().split(b"content-length:")[1].split()[0]))
        return
    while size := int(stream.readline(), 16):
        yield stream.read(size)
        stream.readline()
    stream.readline()


def said_of(fault, done):
    """What is said of a job that has come."""
    match fault:
        case "garbage":
            return b"220 a printer of another kind\r\n" * 100
        case "closed" | "denied":
            return b""
        case "failed":
            return b"HTTP/1.1 500 Internal Server Error\r\nContent-Length: 0\r\n\r\n"
        case "half":
            return reply(done)[:-20]
        case "short":
            return reply(done[:-20]) + done[-20:]
        case "untold":
            return b"HTTP/1.1 200 OK\r\n\r\n" + done
        case "newer":
            return reply(b"\x02\x00" + done[2:])
        case "long":
            return b"HTTP/1.1 200 OK\r\n" + b"x: y\r\n" * 10_000
        case "huge":
            return b"HTTP/1.1 200 OK\r\n\r\n" + b"\x01" * 100_000_000
        case "chunked":
            return chunked(done)
    return reply(done)


def answer_job(printer, connection, pieces, sides):
    """Takes a job, or does what its fault says."""
    printer.jobs.append((time.time(), 0, sides))
    number = len(printer.jobs)
    fault, taken = printer.fault(number), bytearray()
    path = printer.folder / str(number)
    if fault == "denied":
        connection.sendall(b"HTTP/1.1 401 Unauthorized\r\nWWW-Authenticate: Basic\r\nContent-Length: 0\r\n\r\n")
    for piece in pieces:
        taken.extend(piece)
        if fault == "early" and len(taken) > 1000:
            return
        if fault == "stall" and len(taken) > 1000:
            time.sleep(3600)
    path.write_bytes(taken)
    printer.jobs[-1] = (time.time(), len(taken), sides)
    if printer.refused < {"busy": 2, "occupied": 3}.get(fault, 0):
        printer.refused += 1
        if printer.refused < 3:
            printer.jobs.pop()
        connection.sendall(UNAVAILABLE if fault == "occupied" else reply(message(0x0507)))
        return
    done = message(0, printer.job(number))
    if fault == "mute":
        time.sleep(3600)
    connection.sendall(said_of(fault, done))


def answer_of_job(printer, connection, operation, job):
    """Answers where it is asked for a job, or is to cancel it."""
    if operation == CANCEL_JOB:
        print("cancel", job, flush=True)
        printer.ended[job] = 7
    elif printer.fault(job) == "deaf":
        time.sleep(3600)
    elif printer.fault(job) == "secretive":
        return
    elif printer.fault(job) == "trickle":
        connection.sendall(b"HTTP/1.1 200 OK\r\n")
        while True:
            connection.sendall(b"x: y\r\n")
            time.sleep(0.5)
    elif printer.fault(job) == "lost" and printer.pages(job)[0] >= printer.pages(job)[1]:
        connection.sendall(reply(message(0x0406)))
        return
    elif printer.fault(job) in ("waits", "others"):
        printer.forgotten += 1
        early = {"waits": [UNAVAILABLE, reply(message(0x0507))], "others": [reply(OTHER_JOB), reply(other_request(printer.job(job)))]}
        if printer.forgotten <= 2:
            connection.sendall(early[printer.fault(job)][printer.forgotten - 1])
            return
    elif printer.fault(job) == "forgetful":
        printer.forgotten += 1
        if printer.forgotten <= 3:
            return
    connection.sendall(reply(message(0, printer.job(job))))


def serve(printer, connection):
    """Answers a request."""
    with connection, connection.makefile("rb") as stream:
        head = read_head(stream)
        pieces = read_body(stream, head)
        front = next(pieces, b"")
        operation = printer.note(head, front)
        if operation == PRINT_JOB:
            answer_job(printer, connection, pieces, attributes_of(front).get("sides", ["one-sided"])[0])
        elif operation in (CANCEL_JOB, GET_JOB):
            answer_of_job(printer, connection, operation, attributes_of(front)["job-id"][0])
        else:
            connection.sendall(reply(message(0, printer.state())))


def serve_quietly(printer, connection):
    """The same, though the other side goes away, in the middle of a chunk too."""
    try:
        serve(printer, connection)
    except (OSError, ValueError) as error:
        print(error, flush=True)


def main():
    port, folder, faults = int(sys.argv[1]), pathlib.Path(sys.argv[2]), sys.argv[3:]
    folder.mkdir(parents=True, exist_ok=True)
    printer = Printer(folder, faults)
    with socket.create_server(("127.0.0.1", port)) as listener:
        while True:
            connection, _ = listener.accept()
            threading.Thread(target=serve_quietly, args=(printer, connection), daemon=True).start()


if __name__ == "__main__":
    main()
