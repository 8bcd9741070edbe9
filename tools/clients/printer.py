#!/usr/bin/env python3
"""A printer that speaks AppSocket: it takes what each connection brings, and keeps it.

    printer.py PORT FOLDER [FAULT ..]

The bytes of the connections go to FOLDER/1, FOLDER/2 and so on; once the other side has ended, the printer
closes. FAULT N of the list is what it does at connection N instead, and after the last of them all is well:

    well         nothing else
    early        it closes after 1,000 bytes, without reading on
    reset        it resets the connection after 1,000 bytes
    stall        it reads 1,000 bytes and then nothing more, and keeps the connection
    full         the same, and its machine takes little beyond what it reads
    late         its machine takes as little; it reads 1,000 bytes, nothing for LATE seconds, and then all, and doesn't
                 close by itself
    shut         its machine takes as little; it reads 1,000 bytes, ends its side a second later, and then closes
    open         it reads all, and doesn't close by itself
    slow         it reads 10,000 bytes a second
    talk         it writes 100,000 bytes of nonsense and then reads all
    pjl          it tells by PJL of each page (4,096 bytes) and of the end of the job, and doesn't close
    rated        the same, but it takes SETUP seconds, and then RATE_ONE for each page, RATE_TWO on two sides
    jam          as pjl, but after the first page it is jammed for three seconds
    code-N       as pjl, but after the first page its state has the code N for a second
    names        as pjl, but before that it tells of a job whose name has 10,000 bytes, twice
    boasts       as pjl, but it tells of 10,000 pages
    given-up     as pjl, but the job ends after 1,000 bytes
    mute         it reads all, says nothing of the job, and doesn't close

It ends with SIGTERM.
"""
import contextlib
import pathlib
import re
import socket
import struct
import sys
import threading
import time

FIRST = 1000
PAGE = 4096
# how long a late printer reads nothing, in seconds
LATE = 6
# the faults of a printer whose machine takes little, and how many bytes it takes then; Linux takes twice as many
LITTLE, LITTLE_BYTES = ("full", "late", "shut"), 4096
JOB_ENDS = b"@PJL EOJ"
# how long a rated printer takes before a job, for a page on one side and for one on two, in seconds
SETUP, RATE_ONE, RATE_TWO = 0.5, 0.2, 0.15
# what stands before a job's octets
HEAD = re.compile(rb"@PJL SET DUPLEX=(?:OFF|ON\r\n@PJL SET BINDING=[A-Z]+)\r\n")
TELLING = ("pjl", "rated", "jam", "given-up", "mute", "names", "boasts", "foreign", "unnamed")
# the name of a job, by its head
NAME = re.compile(rb'@PJL JOB NAME="([^"]*)"')


def rest_of(connection, taken):
    """Adds what still comes to the bytes taken."""
    while part := connection.recv(65536):
        taken.extend(part)


def serve_slowly(connection, taken):
    """Adds what still comes, at ten kilobytes a second."""
    while part := connection.recv(1000):
        taken.extend(part)
        time.sleep(0.1)


def tell(connection, kind, *lines):
    """Writes a message of PJL's unsolicited status."""
    connection.sendall(b"@PJL USTATUS %s\r\n" % kind + b"".join(line + b"\r\n" for line in lines) + b"\f")


def tell_state(connection, code, text):
    """Tells of the printer's state."""
    tell(connection, b"DEVICE", b"CODE=%d" % code, b'DISPLAY="%s"' % text, b"ONLINE=TRUE")


def tell_fault(connection, fault):
    """Is in another state for a while, as the fault says."""
    code, seconds = (42000, 3) if fault == "jam" else (int(fault.removeprefix("code-")), 1)
    tell_state(connection, code, b"Look here")
    time.sleep(seconds)
    tell_state(connection, 10001, b"Ready")


def document_of(taken):
    """The octets of a job without the PJL around it."""
    return bytes(taken[HEAD.search(taken).end() :].partition(b"\x1b%-12345X@PJL EOJ")[0])


def tell_pages(connection, fault, pages, taken):
    """Tells of the pages that come after this one, as far as the job is there: how many are told now."""
    while pages < len(taken) // PAGE:
        pages += 1
        tell(connection, b"PAGE", b"%d" % pages)
        if pages == 1 and (fault == "jam" or fault.startswith("code-")):
            tell_fault(connection, fault)
    return pages


def print_pages(connection, fault, taken):
    """Prints the pages of a job that is there whole, and tells of each: how many they are."""
    pages = 10_000 if fault == "boasts" else max(1, -(-len(document_of(taken)) // PAGE))
    rate = RATE_TWO if b"DUPLEX=ON" in taken else RATE_ONE
    time.sleep(SETUP if fault == "rated" else 0)
    for page in range(1, 1 + pages):
        time.sleep(rate if fault == "rated" else 0)
        tell(connection, b"PAGE", b"%d" % page)
    return pages


def tell_end(connection, fault, pages, taken):
    """Tells that the job has ended, by its name."""
    if fault == "foreign":
        tell(connection, b"JOB", b"END", b'NAME="another"', b"PAGES=3")
        time.sleep(1)
    name = [] if fault == "unnamed" else [b'NAME="%s"' % NAME.search(taken)[1]]
    tell(connection, b"JOB", b"END", *name, b"PAGES=%d" % pages)


def serve_telling(connection, fault, taken):
    """Takes a job wrapped in PJL, and tells of it."""
    pages = 0
    if fault == "names":
        for _ in range(2):
            tell(connection, b"JOB", b"START", b'NAME="%s"' % (b"n" * 10_000))
    tell_state(connection, 10001, b"Ready")
    if fault == "foreign":
        tell(connection, b"JOB", b"END", b'NAME="another"', b"PAGES=3")
    while JOB_ENDS not in taken[-200:] and (part := connection.recv(65536)):
        taken.extend(part)
        if fault not in ("rated", "boasts"):
            pages = tell_pages(connection, fault, pages, taken)
        if fault == "given-up" and len(taken) > FIRST:
            break
    if fault in ("rated", "boasts"):
        pages = print_pages(connection, fault, taken)
    if fault != "mute":
        tell_end(connection, fault, pages, taken)
    rest_of(connection, taken)


def serve(connection, fault, taken):
    """Takes a connection's bytes, or does what the fault says."""
    if fault in TELLING or fault.startswith("code-"):
        serve_telling(connection, fault, taken)
        return
    if fault in ("early", "reset", "stall", *LITTLE):
        while len(taken) < FIRST and (part := connection.recv(FIRST - len(taken))):
            taken.extend(part)
    if fault == "reset":
        connection.setsockopt(socket.SOL_SOCKET, socket.SO_LINGER, struct.pack("ii", 1, 0))
    if fault in ("early", "reset"):
        return
    if fault == "shut":
        time.sleep(1)
        connection.shutdown(socket.SHUT_WR)
        time.sleep(0.5)
        return
    if fault in ("stall", "full"):
        time.sleep(3600)
    if fault == "late":
        time.sleep(LATE)
    if fault == "slow":
        serve_slowly(connection, taken)
        return
    if fault == "talk":
        connection.sendall(b"nonsense\r\n" * 10000)
    rest_of(connection, taken)


def keep(connection, fault, path):
    """Serves a connection, and keeps its bytes."""
    taken = bytearray()
    try:
        with connection:
            serve(connection, fault, taken)
            path.write_bytes(taken)
            if fault in ("open", "late"):
                time.sleep(3600)
    except OSError as error:
        print(path.name, error, flush=True)
    finally:
        path.write_bytes(taken)


def next_job(listener):
    """The next connection that brings something. One that is closed before that only tries the printer."""
    while True:
        connection, _ = listener.accept()
        with contextlib.suppress(OSError):
            if connection.recv(1, socket.MSG_PEEK):
                return connection
        connection.close()


def main():
    port, folder, faults = int(sys.argv[1]), pathlib.Path(sys.argv[2]), sys.argv[3:]
    folder.mkdir(parents=True, exist_ok=True)
    with socket.socket() as listener:
        listener.setsockopt(socket.SOL_SOCKET, socket.SO_REUSEADDR, 1)
        if any(fault in LITTLE for fault in faults):
            listener.setsockopt(socket.SOL_SOCKET, socket.SO_RCVBUF, LITTLE_BYTES)
        listener.bind(("127.0.0.1", port))
        listener.listen()
        for number in range(1, 1_000_000):
            connection = next_job(listener)
            fault = faults[number - 1] if number <= len(faults) else "well"
            threading.Thread(target=keep, args=(connection, fault, folder / str(number)), daemon=True).start()


if __name__ == "__main__":
    main()
