"""Rows of try_printers.py: what a printer of IPP is asked and tells, and what its adapter says of that to a server."""
import time

from attach_rows import DOCUMENT, FRONTS
from ipp_printer import CANCEL_JOB, GET_JOB, GET_PRINTER, PRINT_JOB
from scripted_server import A4, Printer, attached

LETTER = "na_letter_8.5x11in"
STOPPING = [
    "media-empty", "media-needed", "media-jam", "door-open", "cover-open", "marker-supply-empty", "toner-empty", "offline", "paused",
]
# a printer's state and its reasons, and whether it is stopped by them
STATES = [
    (3, ["none"], False),
    (4, ["none"], False),
    (5, ["none"], True),
    (4, ["media-low", "toner-low", "moving-to-paused", "connecting-to-device", "other"], False),
    (4, ["toner-low-warning", "media-low-report", "door-open-error"], True),
]
# what a printer says of its media, and what its server is told of that
MEDIA = [
    ({"media-ready": [A4, LETTER]}, f"MEDIA {A4},{LETTER}"),
    ({"media-ready": ["custom_of-nobody_10x20in", A4]}, f"MEDIA custom_of-nobody_10x20in,{A4}"),
    ({"media-ready": ["A4", "a name", A4, "n" * 64, "n" * 65, "n" * 1000]}, f"MEDIA {A4},{'n' * 64}"),
    ({"media-ready": [f"{number:0>64}" for number in range(40)]}, "MEDIA " + ",".join(f"{number:0>64}" for number in range(15))),
    ({"media-ready": None, "media-default": [LETTER]}, f"MEDIA {LETTER}"),
    ({"media-ready": None, "media-default": None}, None),
]
ALL = {
    "copies-supported": [[1, 99]],
    "sides-supported": ["one-sided", "two-sided-long-edge", "two-sided-short-edge"],
    "media-supported": [A4, LETTER],
    "finishings-supported": [3, 4, 5, 7],
}
NOTHING = {name: None for name in ALL}
EVERYTHING = {"copies": 3, "sides": "L", "finishings": "SPB"}
WANTED = {"copies": [3], "sides": ["two-sided-long-edge"], "media": [A4], "finishings": [4, 5, 7]}
# what a printer supports, what a job asks for, what of that the printer is asked, and what the log says is left out
TICKETS = [
    (ALL, {}, {"copies": [1], "sides": ["one-sided"], "media": [A4]}, None),
    (ALL, EVERYTHING, WANTED, None),
    (
        ALL, {"sides": "S", "media": LETTER, "finishings": "P"},
        {"copies": [1], "sides": ["two-sided-short-edge"], "media": [LETTER], "finishings": [5]}, None,
    ),
    ({**ALL, "copies-supported": [[1, 2]]}, EVERYTHING, {**WANTED, "copies": None}, "left out copies"),
    ({**ALL, "sides-supported": ["one-sided"]}, EVERYTHING, {**WANTED, "sides": None}, "left out sides"),
    ({**ALL, "media-supported": [LETTER]}, EVERYTHING, {**WANTED, "media": None}, "left out media"),
    ({**ALL, "finishings-supported": [3, 4]}, EVERYTHING, {**WANTED, "finishings": [4]}, "left out finishings"),
    (NOTHING, EVERYTHING, {}, "left out copies sides media finishings"),
    (NOTHING, {}, {"copies": [1]}, "left out sides media"),
]
# what a printer does with a job, after which it has to be asked for its state a second later
FAULTS = ["failed", "denied", "early", "closed", "garbage", "aborted", "mute", "deaf"]


def stops(printer, folder, state, reasons, wanted):
    """Whether an adapter says STOP of a printer that is so. Where that is wanted, it is waited for."""
    printer.has({"printer-state": [state], "printer-state-reasons": reasons})
    count = len(printer.requests(GET_PRINTER))
    with attached(printer.address, folder) as (server, _):
        while len(printer.requests(GET_PRINTER)) == count:
            time.sleep(0.02)
        return server.moment_of("STOP", 10 if wanted else 1) is not None


def play_state(state, reasons, wanted, folder):
    """What is said of a printer in a state."""
    with Printer("ipp", folder / "kept") as printer:
        stopped = stops(printer, folder, state, reasons, wanted)
    return stopped == wanted, "STOP" if stopped else "no STOP", 0


def play_reason(reason, folder):
    """What is said of a printer that prints, with a reason of each severity."""
    wanted = {"": True, "-error": True, "-warning": False, "-report": False}
    with Printer("ipp", folder / "kept") as printer:
        said = {end: stops(printer, folder, 4, ["none", reason + end], stop) for end, stop in wanted.items()}
    return said == wanted, ", ".join(f"{reason}{end}: {'STOP' if stop else 'no STOP'}" for end, stop in said.items()), 0


def play_media(told, wanted, folder):
    """What is said of a printer's media."""
    with Printer("ipp", folder / "kept", attributes=told) as printer, attached(printer.address, folder) as (server, adapter):
        server.moment_of("MEDIA.*", 3)
        media = [line for line in server.lines() if line.startswith("MEDIA")]
        good = server.has_printed(1, DOCUMENT) and all(len(line) < 1024 for line in media)
        peak = adapter.peak_kib()
    return good and media == ([wanted] if wanted else []), ", ".join(media)[:100] or "no MEDIA", peak


def play_changes(folder):
    """How often a printer is asked for its state while there is nothing to do, and what is said of its changes."""
    stopped = {"printer-state": [5]}
    states = [{}, stopped, stopped, {"media-ready": [LETTER, A4]}, {"printer-state-reasons": ["paused"]}, {}]
    with Printer("ipp", folder / "kept", attributes={}) as printer, attached(printer.address, folder) as (server, adapter):
        for place, state in enumerate(states):
            printer.has(state)
            while len(printer.requests(GET_PRINTER)) <= place:
                time.sleep(0.05)
        time.sleep(1)
        lines, peak = server.lines(), adapter.peak_kib()
        moments = [request["moment"] for request in printer.requests(GET_PRINTER)]
    gaps = [late - early for early, late in zip(moments, moments[1:])]
    said = ["READY", f"MEDIA {A4}", "STOP", f"MEDIA {LETTER},{A4}", "READY", f"MEDIA {A4}", "STOP", "READY"]
    turns = [line for line in lines if line in ("READY", "STOP")]
    good = sorted(lines) == sorted(said) and turns == ["READY", "STOP", "READY", "STOP", "READY"]
    text = f"asked after {', '.join(f'{gap:.2f}' for gap in gaps)} s; {', '.join(lines)}"
    return good and all(9.9 < gap < 10.5 for gap in gaps), text, peak


def play_fault(fault, folder):
    """How soon a printer is asked for its state after a job that failed."""
    words, kept = ["--timeout", "4"], folder / "kept"
    with Printer("ipp", kept, [fault]) as printer, attached(printer.address, folder, words) as (server, adapter):
        time.sleep(2)
        early = len(printer.requests(GET_PRINTER))
        server.bring(1, DOCUMENT)
        failed = server.moment_of("FAIL 1", 30)
        time.sleep(2)
        asked = [request["moment"] - (failed or 0) for request in printer.requests(GET_PRINTER)[early:]]
        good = failed is not None and any(0.5 < after < 1.8 for after in asked) and server.has_printed(2, DOCUMENT)
        peak = adapter.peak_kib()
    return good, f"FAIL 1; asked {', '.join(f'{after:.2f}' for after in asked) or 'not for 2'} s after it; DONE 2", peak


def play_looks(folder):
    """How often a printer is asked for a job that it prints, and how the job comes to it."""
    with Printer("ipp", folder / "kept") as printer, attached(printer.address, folder) as (server, adapter):
        printed = server.has_printed(1, DOCUMENT * 10)
        moments = [request["moment"] for request in printer.requests(GET_JOB)]
        head, peak = printer.requests(PRINT_JOB)[0]["head"], adapter.peak_kib()
    gaps = [late - early for early, late in zip(moments, moments[1:])]
    good = printed and "Transfer-Encoding: chunked\r\n" in head and head.startswith("POST /printer HTTP/1.1\r\n")
    good = good and gaps[:2] == sorted(gaps[:2]) and all(0.9 < gap < 1.5 for gap in gaps[3:])
    return good, f"asked after {', '.join(f'{gap:.2f}' for gap in gaps)} s", peak


def play_cancel(folder):
    """Whether a printer is told to cancel a job that the server cancels."""
    with Printer("ipp", folder / "kept", ["stuck"]) as printer, attached(printer.address, folder) as (server, adapter):
        server.bring(1, DOCUMENT)
        while not printer.requests(GET_JOB):
            time.sleep(0.05)
        server.connection.sendall(b"CANCEL 1\n")
        failed = server.moment_of("FAIL 1", 5) is not None
        time.sleep(0.5)
        jobs = [request["attributes"]["job-id"] for request in printer.requests(CANCEL_JOB)]
        good, peak = failed and jobs == [[1]] and server.has_printed(2, DOCUMENT), adapter.peak_kib()
    return good, f"FAIL 1, Cancel-Job of {jobs}, DONE 2", peak


def play_ticket(supports, order, wanted, left_out, folder):
    """What a printer is asked of a job."""
    with Printer("ipp", folder / "kept", attributes=supports) as printer, attached(printer.address, folder) as (server, adapter):
        printed = server.has_printed(1, DOCUMENT, **order)
        asked = printer.requests(PRINT_JOB)[0]["attributes"]
        log, peak = adapter.log.read_text(), adapter.peak_kib()
    found = {name: asked.get(name) for name in ("copies", "sides", "media", "finishings")}
    good = printed and (folder / "kept/1").read_bytes() == DOCUMENT and asked["ipp-attribute-fidelity"] == [0]
    good = good and found == {name: wanted.get(name) for name in found}
    good = good and log.count("left out") == bool(left_out) and (not left_out or f" {left_out}\n" in log)
    asks = ", ".join(f"{name} {','.join(map(str, values))}" for name, values in found.items() if values)
    return good, f"asked {asks or 'nothing'}; {left_out or 'nothing left out'}", peak


def play_formats(folder):
    """As what documents are sent to a printer that supports all formats."""
    formats = sorted({media_type for _, _, media_type in FRONTS})
    told = {"document-format-supported": formats}
    with Printer("ipp", folder / "kept", attributes=told) as printer, attached(printer.address, folder) as (server, adapter):
        printed = [server.has_printed(job, front) for job, (front, _, _) in enumerate(FRONTS, 1)]
        sent = [request["attributes"]["document-format"][0] for request in printer.requests(PRINT_JOB)]
        peak = adapter.peak_kib()
    wanted = [media_type for _, _, media_type in FRONTS]
    wrong = [f"{front!r} is {one}" for (front, _, media_type), one in zip(FRONTS, sent) if one != media_type]
    text = f"{len(sent)} documents, {len(set(sent))} formats" + "".join(f"; {one}" for one in wrong)
    return all(printed) and sent == wanted, text, peak


def play_format(said, supported, wanted, folder):
    """As what a PDF is sent where --format says something else."""
    told, words = {"document-format-supported": supported}, ["--format", said]
    with Printer("ipp", folder / "kept", attributes=told) as printer, attached(printer.address, folder, words) as (server, adapter):
        printed = server.has_printed(1, b"%PDF-1.7\n")
        sent, peak = printer.requests(PRINT_JOB)[0]["attributes"]["document-format"][0], adapter.peak_kib()
    return printed and sent == wanted, f"sent as {sent}", peak


def rows():
    """The name of each row, and how it is played."""
    for state, reasons, wanted in STATES:
        yield f"ipp state {state} {' '.join(reasons)}", lambda folder, one=(state, reasons, wanted): play_state(*one, folder)
    for reason in STOPPING:
        yield f"ipp reason {reason}", lambda folder, reason=reason: play_reason(reason, folder)
    for told, wanted in MEDIA:
        name = ", ".join(f"{name} {len(values) if values else 'no'} names" for name, values in told.items())
        yield f"ipp media, {name}", lambda folder, one=(told, wanted): play_media(*one, folder)
    yield "ipp asked every ten seconds", play_changes
    yield "ipp asked for a job", play_looks
    yield "ipp Cancel-Job", play_cancel
    for fault in FAULTS:
        yield f"ipp asked after {fault}", lambda folder, fault=fault: play_fault(fault, folder)
    for place, ticket in enumerate(TICKETS, 1):
        yield f"ipp ticket {place}", lambda folder, ticket=ticket: play_ticket(*ticket, folder)
    octets = "application/octet-stream"
    yield "ipp formats", play_formats
    yield "ipp --format text/plain", lambda folder: play_format("text/plain", ["text/plain", octets], "text/plain", folder)
    yield "ipp --format image/tiff", lambda folder: play_format("image/tiff", ["image/tiff", octets], "image/tiff", folder)
    yield "ipp --format image/tiff, unsupported", lambda folder: play_format("image/tiff", ["text/plain"], octets, folder)
