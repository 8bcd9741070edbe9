"""Programs that run for a while: a server on ports that are free, and a printer's adapter."""
import os
import pathlib
import re
import subprocess
import time

TOP = pathlib.Path(__file__).resolve().parents[2]
PROGRAM = pathlib.Path(os.environ.get("PRINTD", TOP / "crates/printd/out/printd"))


class Process:
    """A program, until the end of a `with`."""

    def __init__(self, words, **streams):
        self.words, self.streams = [str(word) for word in words], streams

    def __enter__(self):
        self.process = subprocess.Popen(self.words, **self.streams)
        return self

    def __exit__(self, *_):
        self.process.terminate()
        self.process.wait(10)

    def said(self, file):
        """What the system says of it."""
        return pathlib.Path(f"/proc/{self.process.pid}/{file}").read_text()

    def processor_seconds(self):
        """The processor time that it has used so far."""
        return int(self.said("schedstat").split()[0]) / 1e9

    def descriptors(self):
        """How many descriptors it has open."""
        return len(os.listdir(f"/proc/{self.process.pid}/fd"))

    def resident_kib(self):
        """The KiB of memory that it has resident."""
        return int(re.search(r"VmRSS:\s+(\d+)", self.said("status"))[1])

    def peak_kib(self):
        """The most KiB that it had resident."""
        return int(re.search(r"VmHWM:\s+(\d+)", self.said("status"))[1])

    def processor_share(self, seconds):
        """The part of one processor that it uses in so many seconds from now on."""
        before = self.processor_seconds()
        time.sleep(seconds)
        return (self.processor_seconds() - before) / seconds


class Running(Process):
    """`printd serve`, by the program that is measured or tried, or by another."""

    def __init__(self, settings=TOP / "examples/office.toml", words=(), log=subprocess.DEVNULL, program=None):
        doors = ["--ipp", "0", "--lpd", "0", "--devices", "0"]
        super().__init__([program or PROGRAM, "serve", "--settings", settings, *doors, *words], stdout=subprocess.PIPE, stderr=log, text=True)

    def __enter__(self):
        super().__enter__()
        lines = [self.process.stdout.readline().split() for _ in range(3)]
        self.ipp, self.lpd, self.devices = (int(port) for _, port in lines)
        return self


class Adapter(Process):
    """`printd attach`: a device of this name of the server at this port, whose log is this file."""

    def __init__(self, name, port, to, log, words=(), command=(PROGRAM, "attach"), host="127.0.0.1", **streams):
        self.log = log
        words = [*command, "--name", name, "--server", f"{host}:{port}", "--to", to, *words, "--log"]
        super().__init__(words, stderr=log.open("w"), **streams)


class EndingAdapter(Adapter):
    """The same by `printd-attach`, which ends in order with SIGTERM."""

    def __init__(self, name, port, to, log, words=()):
        command = (TOP / "examples/printd-attach",)
        super().__init__(name, port, to, log, words, command, env={**os.environ, "PRINTD": str(PROGRAM)})
