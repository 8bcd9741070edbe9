"""The servers that a load is put on, each on a free port of this machine and in a folder of its own."""
import os
import pathlib
import re
import selectors
import signal
import socket
import subprocess
import sys
import threading
import time

sys.path.insert(0, str(pathlib.Path(__file__).resolve().parents[1] / "clients"))
from running import TOP, Running  # noqa: E402

TICKS = os.sysconf("SC_CLK_TCK")
# with a history of jobs cupsd takes a fifth to a half as many of them
CUPSD = """Listen 127.0.0.1:{port}
LogLevel error
AccessLogLevel config
Browsing Off
WebInterface No
DefaultAuthType None
MaxJobs 0
MaxClients 100
PreserveJobFiles No
PreserveJobHistory No
<Location />
  Order allow,deny
  Allow all
</Location>
<Policy default>
  <Limit All>
    Order deny,allow
  </Limit>
</Policy>
"""
CUPS_FILES = """User lp
Group lp
SystemGroup root
FileDevice Yes
Sandboxing Relaxed
ServerRoot {folder}
CacheDir {folder}/cache
StateDir {folder}/state
RequestRoot {folder}/spool
TempDir {folder}/spool/tmp
AccessLog {folder}/access_log
ErrorLog {folder}/error_log
PageLog {folder}/page_log
"""
# ippeveprinter doesn't start without a system bus: one of its own, with no service on it
BUS = """<!DOCTYPE busconfig PUBLIC "-//freedesktop//DTD D-Bus Bus Configuration 1.0//EN"
 "http://www.freedesktop.org/standards/dbus/1.0/busconfig.dtd">
<busconfig>
  <type>system</type>
  <listen>unix:path={folder}/bus</listen>
  <auth>EXTERNAL</auth>
  <policy context="default">
    <allow user="*"/>
    <allow send_destination="*"/>
    <allow receive_sender="*"/>
  </policy>
</busconfig>
"""
QUEUE = """<DefaultPrinter lab>
DeviceURI file:///dev/null
State Idle
Accepting Yes
Shared No
ErrorPolicy abort-job
OpPolicy default
</DefaultPrinter>
"""
DEVICE = """[[device]]
name = "{name}"
rate_one = {rate}
setup = {setup}
media = ["iso_a4_210x297mm"]
formats = ["application/octet-stream", "text/plain"]
"""
SETTINGS = """version = 1
uri_base = "ipp://localhost:631"
operators = ["root"]
{devices}[[printer]]
name = "lab"
devices = [{names}]
media_default = "iso_a4_210x297mm"
format_default = "application/octet-stream"
"""


def settings_of(devices):
    """Settings of a printer with devices: of each its name, its ms an impression, and those before a job."""
    tables = "".join(DEVICE.format(name=name, rate=rate, setup=setup) for name, rate, setup in devices)
    return SETTINGS.format(devices=tables, names=", ".join(f'"{name}"' for name, _, _ in devices))


def free_port():
    with socket.socket() as probe:
        probe.bind(("127.0.0.1", 0))
        return probe.getsockname()[1]


def processor_seconds(process):
    """The processor time of a process, and of those of its children that have ended."""
    words = pathlib.Path(f"/proc/{process}/stat").read_text().rsplit(") ", 1)[1].split()
    return sum(int(word) for word in words[11:15]) / TICKS


def resident_kib(process):
    """The KiB that a process has resident."""
    return int(re.search(r"VmRSS:\s+(\d+)", pathlib.Path(f"/proc/{process}/status").read_text())[1])


class Devices(threading.Thread):
    """Devices that take each job and say at once that it is done; or, where they are slow, that it is done
    when they are told so."""

    def __init__(self, port, names, slow=False):
        super().__init__(daemon=True)
        self.slow, self.count = slow, len(names)
        self.has = {}
        self.poll = selectors.DefaultSelector()
        self.connections = []
        for name in names:
            connection = socket.create_connection(("127.0.0.1", port))
            connection.setsockopt(socket.IPPROTO_TCP, socket.TCP_NODELAY, 1)
            connection.sendall(f"HELLO {name}\nREADY\n".encode("ascii"))
            self.poll.register(connection, selectors.EVENT_READ, Jobs())
            self.connections.append(connection)

    def run(self):
        while self.poll.get_map():
            for key, _ in self.poll.select():
                self.hear(key.fileobj, key.data)

    def hear(self, connection, jobs):
        """Takes what came, and ends the jobs that are whole."""
        try:
            piece = connection.recv(1 << 20)
        except ConnectionResetError:
            piece = b""
        if not piece:
            self.poll.unregister(connection)
            connection.close()
            return
        for job in jobs.whole(piece):
            if self.slow:
                self.has[job] = connection
            else:
                connection.sendall(b"DONE %s\n" % job)

    def end_one(self):
        """Ends the job that some device has had for longest, once each has one."""
        for _ in range(10_000):
            if len(self.has) == self.count:
                break
            time.sleep(0.001)
        job = next(iter(self.has))
        self.has.pop(job).sendall(b"DONE %s\n" % job)


class Jobs:
    """What came of a device's jobs: a line of words, and as many bytes as its third word says."""

    def __init__(self):
        self.line = b""
        self.job = b""
        self.left = 0

    def whole(self, piece):
        """The jobs whose last byte is in this piece."""
        ended = []
        while piece:
            if self.left:
                count = min(self.left, len(piece))
                self.left -= count
                piece = piece[count:]
            else:
                line, feed, piece = piece.partition(b"\n")
                self.line += line
                if not feed:
                    break
                words, self.line = self.line.split(), b""
                if words[0] != b"JOB":
                    continue
                self.job, self.left = words[1], int(words[2])
            if not self.left:
                ended.append(self.job)
        return ended


class Ours:
    """`printd serve` with sixteen devices."""

    name, wanted = "printd", "true"
    path = "/printers/lab"
    count = 16
    program = None

    def __init__(self, folder, slow=False, words=()):
        names = [f"d{number}" for number in range(self.count)]
        settings = folder / "load.toml"
        # fifteen milliseconds an impression, so that five octets are one of them
        settings.write_text(settings_of([(name, 15, 0) for name in names]))
        self.running = Running(settings, words, program=self.program)
        self.names, self.slow = names, slow

    def __enter__(self):
        server = self.running.__enter__()
        self.port, self.process = server.ipp, server.process.pid
        self.devices = Devices(server.devices, self.names, self.slow)
        self.devices.start()
        time.sleep(0.2)
        return self

    def __exit__(self, *end):
        self.running.__exit__(*end)


class Spooled(Ours):
    """The same, which writes what comes to a directory before it sends anything."""

    name = "printd --spool"
    more = ()

    def __init__(self, folder):
        super().__init__(folder, words=["--spool", folder / "spool", *self.more])


class Synced(Spooled):
    """The same, which waits until that is on the disk."""

    name = "printd --spool --sync"
    more = ("--sync",)


def earlier(name, program):
    """The same by an earlier build of the program."""
    return type("Earlier", (Ours,), {"name": f"printd {name}", "program": program})


class SlowOurs(Ours):
    """The same with devices that end a job when they are told so."""

    def __init__(self, folder):
        super().__init__(folder, slow=True)


class WideOurs(SlowOurs):
    """The same with 32 devices."""

    count = 32


class LoneOurs(Ours):
    """`printd serve` whose only device isn't connected."""

    def __init__(self, _folder):
        self.running = Running(TOP / "examples/lab.toml")

    def __enter__(self):
        server = self.running.__enter__()
        self.port, self.process = server.ipp, server.process.pid
        return self


class Other:
    """A server that isn't ours."""

    def __enter__(self):
        self.port = free_port()
        self.children = []
        try:
            self.prepare()
            self.process = self.begin(self.words()).pid
            self.wait_for_port()
        except BaseException:
            self.__exit__()
            raise
        return self

    def __exit__(self, *_):
        for child in reversed(self.children):
            end(child)

    def begin(self, words):
        child = subprocess.Popen(words, cwd=self.folder, env=self.surroundings(), stdout=subprocess.DEVNULL, stderr=subprocess.DEVNULL, start_new_session=True)
        self.children.append(child)
        return child

    def surroundings(self):
        return os.environ

    def wait_for_port(self):
        for _ in range(100):
            try:
                socket.create_connection(("127.0.0.1", self.port)).close()
                return
            except ConnectionRefusedError:
                time.sleep(0.05)
        sys.exit(f"{self.name} listens at no port")


def end(child):
    """Has a process end, at the latest in twenty seconds, and with it those of its session that it left: a child
    of ippeveprinter may hang before it is the command of a job."""
    child.terminate()
    try:
        child.wait(20)
    except subprocess.TimeoutExpired:
        pass
    try:
        os.killpg(child.pid, signal.SIGKILL)
    except ProcessLookupError:
        pass
    child.wait(10)


class Cupsd(Other):
    """cupsd with one raw queue, whose device is /dev/null."""

    name, wanted = "cupsd", "/usr/sbin/cupsd"
    path = "/printers/lab"

    def __init__(self, folder):
        self.folder = folder / "cupsd"

    def prepare(self):
        for part in ("cache", "state/certs", "spool/tmp", "ppd", "ssl"):
            (self.folder / part).mkdir(parents=True)
        for part in (self.folder.parent, self.folder, *self.folder.glob("**/*")):
            part.chmod(0o777)
        (self.folder / "cupsd.conf").write_text(CUPSD.format(port=self.port))
        (self.folder / "cups-files.conf").write_text(CUPS_FILES.format(folder=self.folder))
        (self.folder / "printers.conf").write_text(QUEUE)

    def words(self):
        return ["/usr/sbin/cupsd", "-f", "-c", str(self.folder / "cupsd.conf"), "-s", str(self.folder / "cups-files.conf")]


class Ippeveprinter(Other):
    """ippeveprinter, which runs /bin/true for each job and takes no other while it does."""

    name, wanted = "ippeveprinter", "/usr/sbin/ippeveprinter"
    path = "/ipp/print"

    def __init__(self, folder):
        self.folder = folder / "ippeveprinter"

    def prepare(self):
        self.folder.mkdir()
        (self.folder / "bus.conf").write_text(BUS.format(folder=self.folder))
        self.begin(["dbus-daemon", "--nofork", f"--config-file={self.folder}/bus.conf"])
        for _ in range(100):
            if (self.folder / "bus").exists():
                return
            time.sleep(0.05)
        sys.exit("dbus-daemon doesn't start")

    def surroundings(self):
        return {**os.environ, "DBUS_SYSTEM_BUS_ADDRESS": f"unix:path={self.folder}/bus"}

    def words(self):
        return ["/usr/sbin/ippeveprinter", "-r", "off", "-n", "localhost", "-p", str(self.port), "-d", str(self.folder),
                "-f", "application/pdf", "-c", "/bin/true", "lab"]


class Answerer(Other):
    """A program that only answers each request: what of a time is the machine's, and the client's."""

    name, wanted = "a program that only answers", "cc"
    path = "/"

    def __init__(self, folder):
        self.folder = folder

    def prepare(self):
        source = pathlib.Path(__file__).with_name("answer.c")
        subprocess.run(["cc", "-O2", "-o", self.folder / "answer", source], check=True)

    def words(self):
        return [str(self.folder / "answer"), str(self.port)]
