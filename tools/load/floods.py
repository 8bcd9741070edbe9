"""How long a client waits while a device or another client sends the server more than it should."""
import threading

from measures import Client, message, timed, with_server
from messages import GET_PRINTER_ATTRIBUTES, PRINT_JOB, head, request
from peers import WideOurs

READY = 20_000
REFUSED = 1000
# questions that are asked once all is sent
BEHIND = 200


def longest_wait(server, flood):
    """The longest time in ms that a question takes while another peer floods the server, and a while after that."""
    client, question = Client(server), message(GET_PRINTER_ATTRIBUTES, server, 0)
    client.good(question)
    sender = threading.Thread(target=flood)
    sender.start()
    longest, behind = 0.0, 0
    while behind < BEHIND:
        longest = max(longest, timed(client, question))
        behind += not sender.is_alive()
    sender.join()
    return longest * 1000


def wait(server, jobs):
    """Has the server take so many jobs, and each of its devices one more."""
    client, job = Client(server), message(PRINT_JOB, server, 5)
    for _ in range(jobs + server.count):
        client.good(job)


def while_ready(jobs):
    """While a device that prints says READY again and again, and so many jobs wait."""

    def act(server, _folder):
        wait(server, jobs)
        device = server.devices.connections[0]
        return longest_wait(server, lambda: device.sendall(b"READY\n" * READY))

    return with_server(WideOurs, act)


def while_refused(jobs):
    """While a client sends Print-Jobs for a printer that isn't there, all at once, and so many jobs wait."""

    def act(server, _folder):
        wait(server, jobs)
        body = request(PRINT_JOB, f"ipp://localhost:{server.port}/printers/nobody", "ann", document=b"%PDF-")
        asked = head(server.path, server.port, len(body)) + body
        other = Client(server)

        def flood():
            other.connection.sendall(asked * REFUSED)
            for _ in range(REFUSED):
                other.reply()

        return longest_wait(server, flood)

    return with_server(WideOurs, act)
