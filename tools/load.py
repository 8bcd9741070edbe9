#!/usr/bin/env python3
"""Compares the server under load, without a spool and with one, with cupsd, ippeveprinter and a program that only
answers, on this machine alone.

    tools/load.py [SECONDS [ROUNDS]]       (3 seconds for each load and server, in 3 rounds)

Each load is one request that wrk sends again and again over kept-alive connections, for so many seconds, to a
server that has just started. The rounds take turns between the servers, and the table has the middle one of
each: requests a second, the server's processor time for one, how long one takes (middle and 99th percent), the
part that was taken, and how many times better than cupsd's the first two are. A job that is refused since the
server is busy counts as no request. cupsd is given a raw queue for /dev/null, no limit of jobs and no
history of them (it is quickest so), `printd` 16 devices that take each job and end it at once. Its spool is in the
directory for temporary files, as that of cupsd: what --sync costs depends on the disk that has it. Then: how long a
Print-Job and a Get-Printer-Attributes take while 120 jobs wait for 16 devices, each of which has one.

Wanted: Debian's cups-daemon, cups-ipp-utils and wrk, and a C compiler. PRINTD names the program; without it, it is the one that
./printd built.
"""
import pathlib
import sys

sys.path.insert(0, str(pathlib.Path(__file__).resolve().parent / "load"))
from measures import LOADS, WAITING, Client, compare, measure, percentile, while_jobs_wait  # noqa: E402, F401
from messages import GET_PRINTER_ATTRIBUTES, PRINT_JOB, message  # noqa: E402, F401
from peers import Cupsd, Ours  # noqa: E402, F401
from rounds import middles  # noqa: E402


def row(name, one, base):
    """The row of a server, compared with another where that could be measured."""
    text = f"  {name:26} {one.rate:9.0f}/s {one.used:9.1f} us {one.p50 / 1000:9.2f} ms {one.p99 / 1000:9.2f} ms {one.taken * 100:6.1f} %"
    text += "" if isinstance(base, str) else f" {one.rate / base.rate:8.2f} {base.used / one.used:8.2f}"
    if one.reply:
        text += f"  replies of {one.reply:.0f} octets"
    return text + (f"  {one.failed:.0f} failed" if one.failed else "")


def show(load, rounds, seconds):
    """Prints the rows of a load."""
    found = middles(compare(load, rounds, seconds))
    for name, one in found.items():
        print(f"  {name:26} {one}" if isinstance(one, str) else row(name, one, found[Cupsd.name]), flush=True)


def main():
    seconds = int(sys.argv[1]) if len(sys.argv) > 1 else 3
    rounds = int(sys.argv[2]) if len(sys.argv) > 2 else 3
    print(f"{'':28} {'requests':>11} {'processor':>12} {'p50':>12} {'p99':>12} {'taken':>8} {'to cupsd':>8} {'by time':>8}")
    for load in LOADS:
        print(load[0], flush=True)
        show(load, rounds, seconds)
    print(f"{WAITING} jobs wait for 16 devices")
    for name, times in zip(("Print-Job of 5 octets", "Get-Printer-Attributes"), while_jobs_wait()):
        print(f"  {name:24} p50 {percentile(times, 0.5):6.2f} ms, p99 {percentile(times, 0.99):6.2f} ms, most {max(times) * 1000:6.2f} ms")


if __name__ == "__main__":
    main()
