#!/usr/bin/env python3
"""Runs real clients against `printd serve`, with `printd attach` as a device that keeps what it gets, and prints a
table.

    tools/clients/try_clients.py [NAME..]      (all rows, where none is named)

Wanted: Debian's cups-client, cups-bsd, cups-ipp-utils, cups (its backends), curl; for LPD rlpr and lprng. A
program that isn't there makes its row `absent`. lprng can't be installed beside cups-client; LPRNG names the
folder of its programs where it was unpacked (`dpkg -x`), and it wants its /etc/lprng/lpd.conf and an
/etc/printcap, which may be empty. Ends with status 1 where a row fails. PRINTD names the program; without it,
it is the one that ./printd built.
"""
import os
import pathlib
import shutil
import subprocess
import sys
import tempfile
import time
import typing

sys.path.insert(0, str(pathlib.Path(__file__).resolve().parent))
from running import TOP, Adapter, Running  # noqa: E402

TESTS = "/usr/share/cups/ipptool"
BACKENDS = "/usr/lib/cups/backend"
LPRNG = os.environ.get("LPRNG", "/usr/lib/lprng")
CONTENTS = b"".join(bytes([65 + n % 26]) for n in range(5000)) + b"\n"
# what ipptool sends of the operations that are served; docs/CLIENTS.md has those that want what isn't there
SUITES = [
    "validate-job.test", "print-job.test", "create-job.test", "get-jobs.test", "print-job-media-col.test",
    "print-job-letter.test", "get-completed-jobs.test",
    "get-printer-description-attributes.test", "ipp-1.1.test",
]


class Row(typing.NamedTuple):
    """A program that is run: its name in the table, the words of its command, what its surroundings say,
    whether a job of its prints, and what it has to write."""

    name: str
    words: list
    surroundings: dict = {}
    prints: bool = False
    says: str = ""


def rows(server, file):
    """Clients while a device prints."""
    ipp = f"localhost:{server.ipp}"
    uri = f"ipp://{ipp}/printers/lab"
    lpd = f"localhost:{server.lpd}"
    request = ["curl", "-sSf", "-o", os.devnull, "-H", "Content-Type: application/ipp", "--data-binary", f"@{TOP}/examples/print_job.ipp"]
    yield Row("lp", ["lp", "-h", ipp, "-d", "lab", "-t", "hello", file], prints=True)
    yield Row("lp with options", ["lp", "-h", ipp, "-d", "lab", "-n", "2", "-o", "sides=two-sided-long-edge", "-o", "media=iso_a4_210x297mm", file], prints=True)
    yield Row("lpstat -o", ["lpstat", "-h", ipp, "-o"])
    yield Row("lpstat -o lab", ["lpstat", "-h", ipp, "-o", "lab"])
    yield Row("lpr of CUPS", ["lpr", "-H", ipp, "-P", "lab", file], prints=True)
    yield Row("backend ipp", [f"{BACKENDS}/ipp", "7", "alice", "hello", "1", "", file], {"DEVICE_URI": uri}, prints=True)
    yield Row("curl", [*request, f"http://{ipp}/printers/lab"], prints=True)
    yield Row("curl, in chunks and told to go on", [*request, "-H", "Transfer-Encoding: chunked", "-H", "Expect: 100-continue", f"http://{ipp}/printers/lab"], prints=True)
    for suite in SUITES:
        yield Row(f"ipptool {suite}", ["ipptool", "-tI" if suite == "ipp-1.1.test" else "-t", "-f", file, uri, f"{TESTS}/{suite}"])
    yield Row("backend lpd", [f"{BACKENDS}/lpd", "7", "alice", "hello", "1", "", file], {"DEVICE_URI": f"lpd://{lpd}/lab"}, prints=True)
    yield Row("rlpr", ["rlpr", *rlpr_words(server), file], prints=True)
    yield Row("lpr of LPRng", [f"{LPRNG}/lpr", *lprng_words(server), file], prints=True)


def rlpr_words(server):
    return ["--no-bind", f"--port={server.lpd}", "-H", "localhost", "-P", "lab"]


def lprng_words(server):
    return ["-P", f"lab@localhost%{server.lpd}"]


# Clients that send a job while there is no device, list it, take it back, and list what is left: of the job 1
# of a server of their own.

def cups_queue(server, file):
    ipp = f"localhost:{server.ipp}"
    yield Row("lpr of CUPS, no device", ["lpr", "-H", ipp, "-P", "lab", file])
    yield Row("lpq of CUPS", ["lpq", "-h", ipp, "-P", "lab"], says="hello.txt")
    yield Row("lprm of CUPS", ["lprm", "-h", ipp, "-P", "lab", "1"])
    yield Row("lpq of CUPS, then", ["lpq", "-h", ipp, "-P", "lab"], says="no entries")
    # it releases a job that isn't held, which a device may have finished by then
    yield Row("ipptool print-job-hold.test, no device", ["ipptool", "-t", "-f", file, f"ipp://{ipp}/printers/lab", f"{TESTS}/print-job-hold.test"])


def rlpr_queue(server, file):
    words = rlpr_words(server)
    yield Row("rlpr, no device", ["rlpr", *words, file])
    yield Row("rlpq", ["rlpq", *words], says="hello.txt")
    yield Row("rlprm", ["rlprm", *words, "1"])
    yield Row("rlpq, then", ["rlpq", *words], says="no entries")


def lprng_queue(server, file):
    words = lprng_words(server)
    yield Row("lpr of LPRng, no device", [f"{LPRNG}/lpr", *words, file])
    yield Row("lpq of LPRng", [f"{LPRNG}/lpq", *words], says="hello.txt")
    yield Row("lprm of LPRng", [f"{LPRNG}/lprm", *words, "1"])
    yield Row("lpq of LPRng, then", [f"{LPRNG}/lpq", *words], says="no entries")


def run(words, surroundings, log, seconds=60):
    """How a command ends, in words."""
    if shutil.which(words[0]) is None:
        return "absent"
    try:
        ended = subprocess.run(words, env={**os.environ, **surroundings}, stdout=log, stderr=subprocess.STDOUT, timeout=seconds)
    except subprocess.TimeoutExpired:
        return "never ends"
    return "ok" if ended.returncode == 0 else f"status {ended.returncode}"


def jobs(kept):
    """The files of the jobs that are printed, as 7-window.txt; one that is being written has a dot in front."""
    return list(kept.glob("[0-9]*"))


def printed(kept, before, seconds=10.0):
    """The bytes of the job that was printed after so many, if one is."""
    end = time.monotonic() + seconds
    while time.monotonic() < end:
        if len(jobs(kept)) > before:
            return max(jobs(kept), key=lambda file: int(file.name.split("-")[0])).read_bytes()
        time.sleep(0.05)
    return None


def outcome(row, kept, logs, wanted):
    """What came of a row."""
    before = len(jobs(kept))
    file = logs / (row.name.replace(" ", "_").replace(",", "") + ".log")
    with open(file, "wb") as log:
        ended = run(row.words, row.surroundings, log)
    if ended == "ok" and row.says.encode() not in file.read_bytes():
        return f"doesn't say {row.says!r}"
    if ended != "ok" or not row.prints:
        return ended
    got = printed(kept, before)
    if got is None:
        return "not printed"
    return "ok, printed byte for byte" if got in wanted else f"printed {len(got)} other bytes"


def play(table, kept, folder):
    """Runs the rows that are asked for, prints what came of each, and gives how many fail."""
    fails = 0
    for row in table:
        if len(sys.argv) > 1 and not any(word in row.name for word in sys.argv[1:]):
            continue
        ended = outcome(row, kept, folder, (CONTENTS, b"hello"))
        fails += not ended.startswith(("ok", "absent"))
        print(f"{row.name:44} {ended}", flush=True)
    return fails


def main():
    folder = pathlib.Path(tempfile.mkdtemp(prefix="clients."))
    file, kept = folder / "hello.txt", folder / "kept"
    file.write_bytes(CONTENTS)
    with Running(log=open(folder / "server.log", "wb"), words=["--log"]) as server:
        with Adapter("window", server.devices, f"file:{kept}", folder / "adapter.log"):
            time.sleep(0.5)
            fails = play(rows(server, str(file)), kept, folder)
    for queue in (cups_queue, rlpr_queue, lprng_queue):
        with Running(log=open(folder / f"{queue.__name__}.log", "wb"), words=["--log"]) as server:
            fails += play(queue(server, str(file)), kept, folder)
    print(f"what each wrote: {folder}")
    sys.exit(fails > 0)


if __name__ == "__main__":
    main()
