"""Requests of IPP as bytes."""
import struct

PRINT_JOB, CANCEL_JOB, GET_PRINTER_ATTRIBUTES, PAUSE_PRINTER, RESUME_PRINTER = 0x0002, 0x0008, 0x000B, 0x0010, 0x0011
URI, NAME, KEYWORD, INTEGER, CHARSET, LANGUAGE = 0x45, 0x42, 0x44, 0x21, 0x47, 0x48
ASKED = ["printer-name", "printer-state", "printer-state-reasons", "printer-is-accepting-jobs", "queued-job-count",
         "operations-supported", "document-format-supported", "document-format-default", "charset-supported", "printer-up-time"]


def attribute(tag, name, value):
    """An attribute, whose value is a text or a number."""
    octets = struct.pack(">i", value) if isinstance(value, int) else value.encode()
    return struct.pack(">BH", tag, len(name)) + name.encode() + struct.pack(">H", len(octets)) + octets


def request(operation, uri, user, more=b"", document=b""):
    """A request to a printer, with more attributes of its operation, and its document."""
    body = struct.pack(">HHI", 0x0101, operation, 1) + b"\x01"
    body += attribute(CHARSET, "attributes-charset", "utf-8") + attribute(LANGUAGE, "attributes-natural-language", "en")
    body += attribute(URI, "printer-uri", uri) + attribute(NAME, "requesting-user-name", user)
    return body + more + b"\x03" + document


def requested(names):
    """The attributes that are asked for by name."""
    return b"".join(attribute(KEYWORD, "" if number else "requested-attributes", name) for number, name in enumerate(names))


def message(operation, server, octets):
    """A request to a server under load, with its document."""
    more = requested(ASKED) if operation == GET_PRINTER_ATTRIBUTES else b""
    document = b"%PDF-".ljust(octets, b"\0")[:octets]
    return request(operation, f"ipp://localhost:{server.port}{server.path}", "ann", more, document)


def head(path, port, length):
    """The head of the HTTP request that brings a message of so many octets."""
    return f"POST {path} HTTP/1.1\r\nHost: localhost:{port}\r\nContent-Type: application/ipp\r\nContent-Length: {length}\r\n\r\n".encode()
