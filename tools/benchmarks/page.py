"""docs/BENCHMARKS.md with the newest section, the chart, and the three figures of docs/RUNNING.md."""
import datetime
import os
import pathlib
import re
import subprocess
import typing

from running import TOP
from tables import figure, table

PAGE, RUNNING, PICTURE = TOP / "docs/BENCHMARKS.md", TOP / "docs/RUNNING.md", TOP / "docs/pictures/benchmarks.svg"
SECTIONS = "<!-- bench: the newest section -->\n"
BEGIN, END = "<!-- bench: begin -->\n", "<!-- bench: end -->\n"

# The beginning of the title of a section with the planners alone.
PLANNERS = "The planners of "

UNPROVED = "unproved: with checks of its memory and its arithmetic, which take most of the time"


class Head(typing.NamedTuple):
    """Of what and where the figures of a section are."""

    version: str
    commit: str
    date: str
    rows: list
    # what a section of fewer tables has before the version
    part: str = ""

    def title(self):
        return f"{self.part}{self.version} ({self.commit}, {self.date})"

    def is_unproved(self):
        return dict(self.rows)["program"] == UNPROVED


def said(*words):
    """What a program writes; nothing, where it isn't there or fails."""
    try:
        return subprocess.run(words, cwd=TOP, capture_output=True, text=True, check=True).stdout.strip()
    except (OSError, subprocess.CalledProcessError):
        return ""


def processor():
    """The name of the processor."""
    found = re.search(r"^model name\s*: (.+)$", pathlib.Path("/proc/cpuinfo").read_text(), flags=re.M)
    return found[1] if found else os.uname().machine


def kind_of(program):
    """Whether a program is the proved one."""
    if program == pathlib.Path(said("./printd", "which")).resolve():
        return "proved"
    if program.name == "printd_unproved":
        return UNPROVED
    return f"{program.name}, of which isn't known whether it is proved"


def package(name):
    """The version of a package of Debian."""
    return said("dpkg-query", "-W", "-f", "${Version}", name) or "not installed"


def own_version():
    """The version of the sources."""
    return (TOP / "VERSION").read_text().strip()


def head_with(version, quick, more, part=""):
    """The head of a section, at its start, with more rows."""
    commit = said("git", "rev-parse", "--short", "HEAD") or "unknown"
    changed = said("git", "status", "--porcelain", "--", "crates", "crates.txt")
    date = str(datetime.date.today())
    load = pathlib.Path("/proc/loadavg").read_text().split()[:3]
    rows = [
        ["version", version],
        ["commit", commit + (", with changes in `crates`" if changed else "")],
        ["date", date],
        ["processor", processor()],
        ["processors", str(len(os.sched_getaffinity(0)))],
        ["load at the start, over 1, 5 and 15 minutes", ", ".join(load)],
        *more,
    ]
    if quick:
        rows.append(["measured", "with `--quick`, to try the tool: no figure is worth keeping"])
    return Head(version, commit, date, rows, part)


def planners_head(quick):
    """The head of a section that has the planners alone."""
    rows = [["scipy", package("python3-scipy")], ["LEMON", package("liblemon-dev")]]
    return head_with(own_version(), quick, rows, PLANNERS)


def head_of(program, quick, earlier):
    """The head of a section with all tables. `earlier` names an earlier program, if there is one."""
    version = said(str(program), "--version").removeprefix("printd ") or own_version()
    rows = [["program", kind_of(program)], ["CUPS", package("cups-daemon")], ["scipy", package("python3-scipy")], ["LEMON", package("liblemon-dev")]]
    if earlier:
        rows.append(["measured beside it", f"`printd {earlier}`, an earlier program"])
    return head_with(version, quick, rows)


def section(head, tables):
    """A section of the page."""
    titled = (head.version, head.commit, head.date)
    rows = "".join(f"| {name} | {value} |\n" for name, value in head.rows if value not in titled)
    parts = [f"## {head.title()}\n\n| What | Here |\n|---|---|\n{rows}"]
    return "\n".join([*parts, *(f"### {one.title}\n\n{one.text}" for one in tables)])


def with_section(page, head, text):
    """The page with a section in place of the one of the same tables."""
    before, marker, rest = page.partition(SECTIONS)
    old = [one for one in re.split(r"^(?=## )", rest.lstrip("\n"), flags=re.M) if one.strip()]
    kept = [one for one in old if one.startswith(f"## {PLANNERS}") != bool(head.part)]
    return before + marker + "\n" + "\n".join([text, *(one.rstrip("\n") + "\n" for one in kept)])


def figures(head, sizes, memory, jobs, event):
    """The three figures that an operator asks for, and where they were measured; of one that couldn't be, why."""
    rows = [
        [f"memory: resident after {sizes.soaked:,} jobs", memory if isinstance(memory, str) else f"{memory / 1024:.1f} MiB"],
        ["jobs of 5 octets a second over one connection, each sent to a device and ended", jobs if isinstance(jobs, str) else figure(jobs.rate)],
        [f"an event, with its plan, while {sizes.waiting} jobs wait for {sizes.devices} devices",
         event if isinstance(event, str) else f"{figure(event[0])} to {figure(event[1])} ms of a processor"],
    ]
    known = dict(head.rows)
    where = f"Version {head.title()}, {known['program'].partition(':')[0]}, on {known['processors']} processors ({known['processor']})."
    return table(["What", "Measured"], rows) + f"\n{where}\n"


def write_section(head, text):
    """Puts a section into the page."""
    PAGE.write_text(with_section(PAGE.read_text(), head, text))
    subprocess.run([TOP / "tools/check_docs", "--contents"], check=False)


def write(head, text, picture, asked):
    """Puts a section, the chart and the three figures where they belong."""
    PICTURE.write_text(picture)
    before, begin, rest = RUNNING.read_text().partition(BEGIN)
    _, end, after = rest.partition(END)
    RUNNING.write_text(before + begin + asked + end + after)
    write_section(head, text)
