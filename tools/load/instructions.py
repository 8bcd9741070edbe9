"""The instructions that a server executes for a request, without those of the system, as valgrind counts them. From
machine to machine and from hour to hour they differ far less than seconds."""
import pathlib
import re
import shutil
import tempfile

from measures import Client, with_server
from messages import message
from rounds import CannotMeasure

# requests before those that are counted, so that a server's start isn't
FIRST = 100


def counted(kind, out):
    """A kind of server, run by valgrind, which writes its count to a file."""
    words = ["valgrind", "--tool=callgrind", f"--callgrind-out-file={out}", "--log-file=/dev/null"]

    class Counted(kind):
        wanted = "valgrind"

        def __init__(self, folder):
            super().__init__(folder)
            if hasattr(self, "running"):
                self.running.words = [*words, *self.running.words]

        def words(self):
            return [*words, *super().words()]

    return Counted


def executed(kind, load, count):
    """The instructions of a run that serves so many requests of a load over one connection."""
    _, operation, _, octets = load

    def act(server, _folder):
        client, body = Client(server), message(operation, server, octets)
        for _ in range(count):
            client.good(body)

    with tempfile.TemporaryDirectory(prefix="instructions.") as folder:
        out = pathlib.Path(folder) / "counts"
        with_server(counted(kind, out), act)
        return int(re.search(r"^(?:summary|totals): (\d+)", out.read_text(), re.MULTILINE)[1])


def instructions(kind, load, count):
    """The instructions of a request, from two runs of which one serves so many requests more."""
    if not count:
        raise CannotMeasure("valgrind can't run a program that checks its memory")
    if not shutil.which(kind.wanted):
        raise CannotMeasure(f"{kind.wanted} isn't installed")
    return (executed(kind, load, FIRST + count) - executed(kind, load, FIRST)) / count
