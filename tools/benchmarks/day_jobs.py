"""The jobs of the days of tools/make_day.py, as `plan_bench given` reads them."""
import sys
import tomllib

from running import TOP

sys.path.insert(0, str(TOP / "tools"))
import make_day  # noqa: E402

# each day with its settings in examples/, and the highest of its loads in docs/COMPARE.md
DAYS = {"office": ("three_devices", 4), "school": ("school", 2), "print_room": ("print_room", 1.5)}
DAY = 24 * make_day.HOUR


def time_on(device, able, job):
    """The ms of a job on a device of its printer; none, if the device isn't able."""
    rate = device.get("rate_two" if job.get("sides") else "rate_one")
    wanted = job.get("finishings") or None
    if device["name"] not in able or rate is None or wanted not in (None, *device.get("finishings", [])):
        return None
    return device["setup"] + make_day.size_of(job) * rate


def lines_of_day(name, seed):
    """The lines of a day's jobs: the moment, the priority, and the time on each device."""
    file, load = DAYS[name]
    known = tomllib.loads((TOP / f"examples/{file}.toml").read_text())
    able = {printer["name"]: printer["devices"] for printer in known["printer"]}
    first = known["printer"][0]["name"]
    for job in sorted(make_day.days_of(name, seed, load), key=lambda job: job["moment"]):
        times = [time_on(device, able[job.get("printer") or first], job) for device in known["device"]]
        words = [DAY * seed + job["moment"], job.get("priority", 50), *("-" if time is None else time for time in times)]
        yield " ".join(map(str, words)) + "\n"


def write_days(path, name, count):
    """Writes so many days, one after the other, into a file. Returns how many jobs they have."""
    lines = [line for seed in range(count) for line in lines_of_day(name, seed + 1)]
    path.write_text("".join(lines))
    return len(lines)
