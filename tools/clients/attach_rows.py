"""Rows of try_printers.py: what an adapter makes of documents, copies, waits, names and rates, whatever it prints to."""
import contextlib
import re
import socket
import stat
import subprocess
import threading
import time

from printer import LATE, RATE_ONE, RATE_TWO, SETUP
from running import PROGRAM, Adapter
from scripted_server import Printer, ScriptedServer, attached, free_port

DOCUMENT = bytes(n % 251 for n in range(20_000))
PAGE = 4096
# a job that the adapter's machine takes as a whole, whatever the printer does
WAITING = DOCUMENT * 3
# the first bytes of documents, the ending of their files, and their media types
FRONTS = [
    (b"%PDF-1.7\n", "pdf", "application/pdf"),
    (b"%!PS-Adobe-3.0\n", "ps", "application/postscript"),
    (b"\x1bE\x1b&l0O", "pcl", "application/vnd.hp-PCL"),
    (b"\x1b&l2A", "pcl", "application/vnd.hp-PCL"),
    (b"\x1b*t300R", "pcl", "application/vnd.hp-PCL"),
    (b"\x1b(10U", "pcl", "application/vnd.hp-PCL"),
    (b"\x1b)10U", "pcl", "application/vnd.hp-PCL"),
    (b"\x1b%-12345X@PJL ENTER LANGUAGE=PCL\r\n", "pcl", "application/vnd.hp-PCL"),
    (b"RaS2PwgRaster\0", "pwg", "image/pwg-raster"),
    (b"UNIRAST\0\0\0\0\1", "urf", "image/urf"),
    (b"\xff\xd8\xff\xe0\0\x10JFIF", "jpg", "image/jpeg"),
    (b"\x89PNG\r\n\x1a\n", "png", "image/png"),
    (b"hello, printer\r\n\f", "txt", "text/plain"),
    ("Gr\u00fc\u00dfe\n".encode(), "txt", "text/plain"),
    (b"%PD", "txt", "text/plain"),
    (b"\0\1\2\3", "bin", "application/octet-stream"),
    (b"\x1b[1mbold", "bin", "application/octet-stream"),
    (b"", "bin", "application/octet-stream"),
]
# how long an adapter waits for a printer: how it is spoken to, what it does, the words, what is said, after how long
WAITS = [
    ("socket", "stall", ["--timeout", "4"], "FAIL 1", 4),
    ("pjl", "stall", ["--timeout", "4"], "FAIL 1", 4),
    ("pjl", "mute", ["--timeout", "4"], "FAIL 1", 4),
    ("lpd", "stall", ["--timeout", "4"], "FAIL 1", 4),
    ("lpd", "mute", ["--timeout", "4"], "FAIL 1", 4),
    ("ipp", "stall", ["--timeout", "4"], "FAIL 1", 4),
    ("ipp", "mute", ["--timeout", "4"], "FAIL 1", 4),
    ("ipp", "deaf", ["--timeout", "4"], "FAIL 1", 4),
    ("socket", "full", ["--timeout", "4", "--linger", "1"], "FAIL 1", 4),
    ("socket", "open", ["--linger", "3"], "DONE 1", 3),
    ("socket", "open", [], "DONE 1", 30),
    ("socket", "stall", [], "FAIL 1", 300),
]
# after how many seconds what was away is there, and after how many it is reached: a server by pauses of 30 s at
# most, 1 + 2 + 4 + 8 + 16 + 30 + 30, and a printer by pauses of 60 s at most, 1 + 2 + 4 + 8 + 16 + 32
AWAY, REACHED = 63, 91
PRINTER_AWAY, PRINTER_REACHED = 35, 63
TURNED_AWAY = [1, 2, 4, 8, 16, 30]


def answers(server):
    """What a device said of jobs' ends."""
    return [line for line in server.lines() if line.startswith(("DONE", "FAIL"))]


def play_front(front, ending, words, folder):
    """What file a document becomes."""
    with attached(f"file:{folder / 'kept'}", folder, words) as (server, adapter):
        printed = server.has_printed(1, front)
        files, peak = sorted(path.name for path in (folder / "kept").iterdir()), adapter.peak_kib()
    good = printed and files == [f"1-window.{ending}"] and (folder / "kept" / files[0]).read_bytes() == front
    return good, ", ".join(files), peak


def play_folder(folder):
    """When a file is there: beside while it is printed, and then whole, once for all copies."""
    kept, seen = folder / "kept", []
    with attached(f"file:{kept}", folder, ["--ms-per-page", "500"]) as (server, adapter):
        begun = time.time()
        server.bring(1, b"h" * (PAGE + 1), copies=2)
        while not answers(server) and time.time() < begun + 20:
            names = sorted(path.name for path in kept.iterdir()) if kept.exists() else []
            seen += [names] if names and names not in seen[-1:] else []
            time.sleep(0.01)
        took, peak = server.moment_of("DONE 1", 1) - begun, adapter.peak_kib()
    good = 1.9 < took < 2.8 and seen in ([[".1-window.txt.part"], ["1-window.txt"]], [[".1-window.txt.part"]])
    good = good and [path.name for path in kept.iterdir()] == ["1-window.txt"]
    return good, f"{' then '.join(', '.join(names) for names in seen)}; DONE 1 after {took:.1f} s", peak


def play_no_folder(folder):
    """What is said at the start of a folder that can't be written to."""
    (folder / "file").write_bytes(b"")
    words = [str(PROGRAM), "attach", "--name", "window", "--to", f"file:{folder / 'file'}", "--turns", "20"]
    ended = subprocess.run(words, capture_output=True, text=True, timeout=60)
    said = ended.stderr.strip()
    return ended.returncode == 3 and str(folder / "file") in said and said.count("\n") == 0, f"status {ended.returncode}, {said[-120:]}", 0


def play_kept(folder):
    """What becomes of the document of an earlier job of the same id, as after a restart of the server."""
    kept = folder / "kept"
    with attached(f"file:{kept}", folder) as (server, adapter):
        moments = [0.0]
        for document in (b"first", b"second", b"third"):
            server.bring(1, document)
            moments.append(server.moment_of("DONE 1", since=moments[-1] + 1e-6) or 1e12)
        printed, peak = moments[-1] < 1e12, adapter.peak_kib()
    found = {path.name: path.read_bytes() for path in sorted(kept.iterdir())}
    modes = {stat.S_IMODE(path.stat().st_mode) for path in kept.iterdir()}
    wanted = {"1-window.txt": b"first", "1-window-2.txt": b"second", "1-window-3.txt": b"third"}
    return printed and found == wanted and modes == {0o600}, ", ".join(found), peak


def play_folder_lost(folder):
    """What the server is told where a folder can't be written to for a while, and when it is tried again."""
    kept = folder / "kept"
    with attached(f"file:{kept}", folder) as (server, adapter):
        good = server.moment_of("READY") is not None and server.has_printed(1, b"first")
        kept.rename(folder / "moved")
        kept.write_bytes(b"")
        server.bring(2, b"second")
        failed = server.moment_of("FAIL 2") or 0
        time.sleep(4)
        kept.unlink()
        ready = server.moment_of("READY", 10, since=failed) or 0
        good = good and server.has_printed(3, b"third")
        lines, log, peak = server.lines(), adapter.log.read_text(), adapter.peak_kib()
    told = ["READY", "DONE 1", "STOP", "FAIL 2", "READY", "DONE 3"]
    good = good and lines == told and log.count("printer away") == 1 and 6.5 < ready - failed < 8.5
    return good, f"{', '.join(lines)}; READY after {ready - failed:.1f} s", peak


def play_words(folder):
    """What is said without a log: of a printer that is away, and of a server that is."""
    port, printer = free_port(), free_port()
    words = [str(PROGRAM), "attach", "--name", "window", "--server", f"127.0.0.1:{port}", "--to", f"socket://127.0.0.1:{printer}"]
    with open(folder / "said", "w") as said, subprocess.Popen(words, stderr=said) as process:
        time.sleep(5)
        with ScriptedServer(port=port) as server, socket.create_server(("127.0.0.1", printer)):
            ready = server.moment_of("READY", 20) is not None
            time.sleep(1)
        process.terminate()
    lines = sorted(line.removeprefix("printd attach window: ") for line in (folder / "said").read_text().splitlines())
    wanted = ["the printer can't be reached; it is tried again", "the printer prints again", "the server can't be reached; it is tried again", "the server is there"]
    return ready and lines[:4] == wanted, "; ".join(lines), 0


def play_copies(to, order, wanted, folder):
    """What a printer is sent of a job with copies: what has to stand in it, as patterns, and how often the document."""
    times, patterns = wanted
    words = ["--pjl"] if to == "pjl" else []
    with Printer(to, folder / "kept") as printer, attached(printer.address, folder, words) as (server, adapter):
        printed, peak = server.has_printed(1, DOCUMENT, **order), adapter.peak_kib()
    sent = (folder / "kept/1").read_bytes()
    control = folder / "kept/1.control"
    told = control.read_bytes() if control.exists() else sent
    good = printed and sent.count(DOCUMENT) == times and (to == "pjl" or len(sent) == times * len(DOCUMENT))
    good = good and all(re.search(pattern, told, re.DOTALL) for pattern in patterns) and answers(server) == ["DONE 1"]
    around = f", and {told[:300]!r}" if to != "socket" else ""
    return good, f"the document {sent.count(DOCUMENT)} times{around}", peak


def play_pages(to, folder):
    """What a server is told of a job's pages."""
    words = ["--pjl"] if to == "pjl" else []
    with Printer(to, folder / "kept", ["rated"]) as printer, attached(printer.address, folder, words) as (server, adapter):
        printed = server.has_printed(1, b"h" * (6 * PAGE))
        lines, peak = [line for line in server.lines() if not line.startswith("MEDIA")], adapter.peak_kib()
    pages = [int(line.split()[2]) for line in lines if line.startswith("PAGES 1 ")]
    good = printed and pages == sorted(set(pages)) and pages[-1] == 6 and lines[-1] == "DONE 1"
    return good and (to == "ipp" or pages == list(range(1, 7))), ", ".join(lines), peak


def play_wait(to, fault, words, says, seconds, folder):
    """How long an adapter waits for a printer that says nothing."""
    words = [*words, "--pjl"] if to == "pjl" else words
    with Printer(to, folder / "kept", [fault]) as printer, attached(printer.address, folder, words) as (server, adapter):
        time.sleep(1)
        begun = time.time()
        server.bring(1, {"stall": DOCUMENT * 100, "full": WAITING}.get(fault, DOCUMENT))
        ended = server.moment_of("(DONE|FAIL) 1", seconds + 20)
        peak = adapter.peak_kib()
    took = (ended or 0) - begun
    return answers(server) == [says] and seconds <= took + 0.1 and took < seconds + 2, f"{', '.join(answers(server)) or 'nothing'} after {took:.1f} s", peak


def play_late(folder):
    """When a job is done that waits in the adapter's machine until its printer reads on, which doesn't close."""
    linger = LATE - 3
    with Printer("socket", folder / "kept", ["late"]) as printer:
        with attached(printer.address, folder, ["--linger", str(linger), "--timeout", "60"]) as (server, adapter):
            begun = time.time()
            server.bring(1, WAITING)
            done = server.moment_of("(DONE|FAIL) 1", LATE + linger + 20) or begun
            said, peak = answers(server), adapter.peak_kib()
    taken = (folder / "kept/1").stat().st_mtime
    good = said == ["DONE 1"] and (folder / "kept/1").read_bytes() == WAITING and taken - begun > LATE - 0.1
    good = good and linger - 0.1 < done - taken < linger + 2
    return good, f"{', '.join(said)}; taken after {taken - begun:.1f} s, done {done - taken:.1f} s later", peak


def play_server_away(folder):
    """When an adapter is linked whose server comes late, and what its log says."""
    port = free_port()
    with Adapter("window", port, f"file:{folder / 'kept'}", folder / "adapter.log") as adapter:
        begun = time.time()
        time.sleep(AWAY)
        with ScriptedServer(port=port) as server:
            linked = server.moment_of("HELLO window", 60)
            printed, peak = server.has_printed(1, DOCUMENT), adapter.peak_kib()
    took, log = (linked or 0) - begun, adapter.log.read_text()
    good = printed and REACHED - 1 < took < REACHED + 2 and log.count("server away") == 1
    return good, f"linked after {took:.1f} s, {log.count('server away')} line of it", peak


def play_printer_away(to, folder):
    """When a job is printed whose printer comes late, and what the server and the log are told."""
    words = ["--pjl"] if to == "pjl" else []
    with Printer(to, folder / "kept", late=PRINTER_AWAY) as printer, attached(printer.address, folder, words) as (server, adapter):
        begun = time.time()
        server.bring(1, DOCUMENT)
        done = server.moment_of("DONE 1", PRINTER_REACHED + 40)
        lines, peak = server.lines(), adapter.peak_kib()
    took, log = (done or 0) - begun, adapter.log.read_text()
    told = [line for line in lines if not line.startswith(("MEDIA", "PAGES"))]
    good = told in (["READY", "STOP", "READY", "DONE 1"], ["STOP", "READY", "DONE 1"]) and log.count("printer away") == 1
    good = good and PRINTER_REACHED - 1 < took < PRINTER_REACHED + 4
    return good, f"{', '.join(told)} after {took:.1f} s, {log.count('printer away')} line of it", peak


def play_turned_away(folder):
    """When an adapter tries again that each time is turned away, as one whose name the settings don't have."""
    with ScriptedServer(turns_away=True) as server, Adapter("window", server.port, f"file:{folder}", folder / "adapter.log") as adapter:
        time.sleep(sum(TURNED_AWAY) + 3)
        came, peak = list(server.came), adapter.peak_kib()
    gaps = [late - early for early, late in zip(came, came[1:])]
    good = len(gaps) == len(TURNED_AWAY)
    good = good and all(wanted - 0.1 < gap < wanted + 0.8 for gap, wanted in zip(gaps, TURNED_AWAY))
    return good, f"tried after {', '.join(f'{gap:.1f}' for gap in gaps)} s", peak


def take_all(listener):
    """A printer of AppSocket at this listener, which keeps nothing."""
    with contextlib.suppress(OSError):
        while True:
            connection, _ = listener.accept()
            with connection:
                while connection.recv(65536):
                    pass


def play_host(host, server_host, folder):
    """Whether an adapter finds its server and its printer by these names."""
    family = socket.AF_INET6 if ":" in host else socket.AF_INET
    listener = socket.create_server(("::1" if ":" in host else "127.0.0.1", 0), family=family)
    threading.Thread(target=take_all, args=(listener,), daemon=True).start()
    to = f"socket://{host}:{listener.getsockname()[1]}"
    with listener, ScriptedServer("::1" if ":" in server_host else "127.0.0.1") as server:
        with Adapter("window", server.port, to, folder / "adapter.log", host=server_host) as adapter:
            linked = server.moment_of("HELLO window", 10) is not None
            printed, peak = linked and server.has_printed(1, DOCUMENT), adapter.peak_kib()
    return printed, f"{', '.join(server.lines()) or 'nothing'}", peak


def play_no_host(to, folder):
    """What is said of a printer whose name isn't known."""
    with attached(to, folder) as (server, adapter):
        server.bring(1, DOCUMENT)
        stopped = server.moment_of("STOP", 30) is not None
        time.sleep(4)
        lines, log, peak = server.lines(), adapter.log.read_text(), adapter.peak_kib()
        server.connection.sendall(b"CANCEL 1\n")
        failed = server.moment_of("FAIL 1", 10) is not None
    good = stopped and failed and lines[-1] == "STOP" and log.count("printer away") == 1
    return good, ", ".join(server.lines()), peak


def measured(to, words, folder):
    """What --measure writes of jobs of known lengths on one side and on two, and the printer's peak of memory."""
    with open(folder / "figures", "w") as figures, attached(to, folder, [*words, "--measure"], stdout=figures) as (server, adapter):
        time.sleep(1)
        jobs = [(pages, sides) for sides in "1L" for pages in (1, 6, 3, 10, 2)]
        for job, (pages, sides) in enumerate(jobs, 1):
            server.has_printed(job, b"h" * (PAGE * pages), sides=sides)
        time.sleep(0.5)
        peak = adapter.peak_kib()
    last = "\n".join((folder / "figures").read_text().splitlines()[-4:])
    return {name: int(value) for name, value in re.findall(r"^(\w+) = (\d+)$", last, re.M)}, peak


def play_measure(to, true, margins, folder):
    """The figures of --measure beside the printer's own."""
    if to == "file":
        found, peak = measured(f"file:{folder / 'kept'}", ["--ms-per-page", str(true["rate_one"])], folder)
    else:
        with Printer(to, folder / "kept", ["rated"] * 10) as printer:
            found, peak = measured(printer.address, ["--pjl"] if to == "pjl" else [], folder)
    good = found.keys() == true.keys() and all(abs(found[name] - true[name]) <= margins[name] for name in true)
    return good, ", ".join(f"{name} {found.get(name)} for {value}" for name, value in true.items()), peak


def play_name(name, folder):
    """Whether a device of this name is one to its server."""
    with ScriptedServer() as server, Adapter(name, server.port, f"file:{folder / 'kept'}", folder / "adapter.log") as adapter:
        linked = server.moment_of(f"HELLO {name}", 10) is not None
        printed, peak = linked and server.has_printed(1, DOCUMENT), adapter.peak_kib()
    return printed and (folder / f"kept/1-{name}.bin").exists(), f"HELLO of {len(name)} bytes, {', '.join(server.lines())}", peak


def rows():
    """The name of each row, and how it is played."""
    for front, ending, _ in FRONTS:
        yield f"file {front[:12]!r}", lambda folder, one=(front, ending): play_front(*one, [], folder)
    yield "file --format application/pdf", lambda folder: play_front(b"hello", "pdf", ["--format", "application/pdf"], folder)
    yield "file --format image/tiff", lambda folder: play_front(b"hello", "bin", ["--format", "image/tiff"], folder)
    yield "file beside, then whole", play_folder
    yield "file, a folder that can't be written to", play_no_folder
    yield "file, documents that are kept", play_kept
    yield "file, a folder that is lost for a while", play_folder_lost
    yield "words without a log", play_words
    order = {"copies": 3, "sides": "S"}
    asked = rb"@PJL SET COPIES=3\r\n@PJL SET DUPLEX=ON\r\n@PJL SET BINDING=SHORTEDGE\r\n"
    pjl = [asked, rb"@PJL JOB .*@PJL USTATUS JOB=ON.*@PJL USTATUS PAGE=ON.*@PJL USTATUS DEVICE=ON", rb"@PJL EOJ"]
    yield "socket copies", lambda folder: play_copies("socket", order, (3, []), folder)
    yield "pjl copies", lambda folder: play_copies("pjl", order, (1, pjl), folder)
    yield "lpd copies", lambda folder: play_copies("lpd", order, (1, [rb"(ldfA001printd\n){3}UdfA001printd\n"]), folder)
    for to in ("pjl", "ipp"):
        yield f"{to} pages", lambda folder, to=to: play_pages(to, folder)
    for wait in WAITS:
        yield f"wait {wait[4]} s, {wait[0]} {wait[1]} {' '.join(wait[2])}", lambda folder, wait=wait: play_wait(*wait, folder)
    yield f"wait {2 * LATE - 3} s, socket late", play_late
    yield "away, the server", play_server_away
    for to in ("socket", "pjl", "lpd", "ipp"):
        yield f"away, a printer by {to}", lambda folder, to=to: play_printer_away(to, folder)
    yield "away, turned away", play_turned_away
    for host, server_host in (("localhost", "localhost"), ("127.0.0.1", "127.0.0.1"), ("[::1]", "[::1]")):
        yield f"host {host}", lambda folder, hosts=(host, server_host): play_host(*hosts, folder)
    for to in ("socket://nowhere.invalid", f"socket://{'n' * 300}.invalid", "lpd://nowhere.invalid/lab", "ipp://nowhere.invalid/printer"):
        yield f"host {to[:40]}", lambda folder, to=to: play_no_host(to, folder)
    true = {"rate_one": int(RATE_ONE * 1000), "rate_two": int(RATE_TWO * 1000), "setup": int(SETUP * 1000)}
    near = {"rate_one": 25, "rate_two": 25, "setup": 100}
    yield "measure file", lambda folder: play_measure("file", {"rate_one": 150, "rate_two": 150, "setup": 0}, near, folder)
    yield "measure pjl", lambda folder: play_measure("pjl", true, near, folder)
    yield "measure ipp", lambda folder: play_measure("ipp", true, {"rate_one": 60, "rate_two": 60, "setup": 1_000}, folder)
    yield "name of 32 bytes", lambda folder: play_name("n" * 32, folder)
