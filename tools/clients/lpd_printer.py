#!/usr/bin/env python3
"""A printer that speaks LPD (RFC 1179): it takes the files of each connection, and keeps the data file.

    lpd_printer.py PORT FOLDER [FAULT ..]

The data files go to FOLDER/1, FOLDER/2 and so on, the control files to FOLDER/1.control. FAULT N of the list is
what it does at connection N, and after the last of them all is well:

    well         it acknowledges each part
    refused      it refuses the queue
    no-control   it refuses the control file
    no-data      it refuses the data file before it has come
    spoilt       it refuses the data file once it has come
    early        it acknowledges the data file before it has come
    closed       it closes after 1,000 bytes of the data file
    stall        it reads 1,000 bytes of the data file and then nothing more, and keeps the connection
    mute         it takes the data file, and never acknowledges it

It ends with SIGTERM.
"""
import pathlib
import socket
import sys
import threading
import time

from printer import next_job

FIRST = 1000
GOOD, BAD = b"\0", b"\1"
# the part that is refused, by its place
REFUSED = {"refused": 0, "no-control": 1, "no-data": 3}


def take_data(connection, stream, octets, fault, path):
    """Takes the data file, or does what the fault says."""
    if fault == "early":
        connection.sendall(GOOD)
    if fault in ("closed", "stall"):
        stream.read(FIRST)
        time.sleep(3600 if fault == "stall" else 0)
        return
    path.write_bytes(stream.read(octets))
    stream.read(1)
    if fault == "mute":
        time.sleep(3600)
    connection.sendall(BAD if fault == "spoilt" else GOOD)


def serve(connection, stream, fault, path):
    """Takes a job: the queue, the head of the control file, that file, the head of the data file, that file."""
    octets = 0
    for place in range(4):
        if place == 2:
            path.with_suffix(".control").write_bytes(stream.read(octets))
            stream.read(1)
        else:
            words = stream.readline()[1:].split()
            octets = int(words[0]) if place else 0
        if REFUSED.get(fault) == place:
            connection.sendall(BAD)
            stream.read()
            return
        connection.sendall(GOOD)
    take_data(connection, stream, octets, fault, path)


def keep(connection, fault, path):
    """Serves a connection, though the other side goes away."""
    try:
        with connection, connection.makefile("rb") as stream:
            serve(connection, stream, fault, path)
    except (OSError, ValueError, IndexError) as error:
        print(path.name, error, flush=True)


def main():
    port, folder, faults = int(sys.argv[1]), pathlib.Path(sys.argv[2]), sys.argv[3:]
    folder.mkdir(parents=True, exist_ok=True)
    with socket.create_server(("127.0.0.1", port)) as listener:
        for number in range(1, 1_000_000):
            connection = next_job(listener)
            fault = faults[number - 1] if number <= len(faults) else "well"
            threading.Thread(target=keep, args=(connection, fault, folder / str(number)), daemon=True).start()


if __name__ == "__main__":
    main()
