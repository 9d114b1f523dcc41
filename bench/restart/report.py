"""Times a venue's start from trails and its close, alongside sef_replay and Python's sqlite3 over the same rows."""

import os
import re
import statistics
import subprocess
import sys
import time

sys.dont_write_bytecode = True
TOP = os.path.join(os.path.dirname(os.path.abspath(__file__)), "..", "..")
sys.path[:0] = [os.path.join(TOP, "tests", "lib"), os.path.join(TOP, "bench", "replay")]
import make_trail  # noqa: E402
from fix import Files, Venue, free_ports, wait_until  # noqa: E402

LONGEST = 900  # seconds
SAMPLES = 3
# the rows, read and hashed
READ = """
import hashlib, sqlite3, sys
summed = hashlib.sha256()
with sqlite3.connect(f"file:{sys.argv[1]}?mode=ro", uri=True) as db:
    for row in db.execute("SELECT n, who, number, moment, text FROM item ORDER BY n"):
        summed.update(repr(row).encode())
print(summed.hexdigest())
"""
TICK = os.sysconf("SC_CLK_TCK")


def market(folder):
    """The files that the trail names."""
    paths = []
    for name in ("participants", "instruments"):
        paths.append(os.path.join(folder, f"restart_{name}.toml"))
        with open(paths[-1], "w", encoding="utf-8") as file:
            file.write(getattr(make_trail, name.upper()))
    return Files.of(*paths, make_trail.NAMES)


def megabytes(process, key):
    with open(f"/proc/{process.pid}/status", encoding="ascii") as file:
        return int(re.search(rf"{key}:\s+([0-9]+) kB", file.read())[1]) / 1024


def processor_seconds(process):
    with open(f"/proc/{process.pid}/stat", encoding="ascii") as file:
        return sum(map(int, file.read().rpartition(")")[2].split()[11:13])) / TICK


def sample(program, files, trail):
    """Of the start the seconds, those of the processor, and MB; of the close both seconds, and MB at the peak."""
    began = time.monotonic()
    with Venue(program, files, free_ports(len(files.names), 26000), "--trail", trail) as venue:
        wait_until(lambda: venue.listens() or not venue.is_up(), LONGEST, "the venue does not listen")
        started = time.monotonic() - began, processor_seconds(venue.process)
        if not venue.is_up():
            raise SystemExit(venue.log())
        resident = megabytes(venue.process, "VmRSS")
        with open(venue.stop_file.path, "w", encoding="ascii"):
            began = time.monotonic()
        _, status, usage = os.wait4(venue.process.pid, 0)
        closed = time.monotonic() - began
        venue.process.returncode = os.waitstatus_to_exitcode(status)
        if venue.process.returncode != 0:
            raise SystemExit(venue.log())
    return *started, resident, closed, usage.ru_utime + usage.ru_stime - started[1], usage.ru_maxrss / 1024


def run_of(*words):
    """The processor seconds of a program's run, and its peak MB."""
    with subprocess.Popen(words, stdout=subprocess.DEVNULL) as ran:
        _, status, usage = os.wait4(ran.pid, 0)
        ran.returncode = os.waitstatus_to_exitcode(status)
    if ran.returncode != 0:
        raise SystemExit(f"bench/restart: {words[0]}: status {ran.returncode}")
    return usage.ru_utime + usage.ru_stime, usage.ru_maxrss / 1024


def shown(values, form):
    return f"{statistics.median(values):{form}} ({min(values):{form}} to {max(values):{form}})"


def compare(rows, starts, others):
    """Lines for sef_replay and Python's sqlite3, with the ratio of each to the latter, of the same sample."""
    readings = [each for each, _ in others["Python's sqlite3"]]
    for what, seconds in {"start": starts, **{name: [it for it, _ in found] for name, found in others.items()}}.items():
        ratios = [one / other for one, other in zip(seconds, readings)]
        memory = f", {max(it for _, it in others[what]):.0f} MB" if what in others else ""
        taken = f"{shown(seconds, '.2f')} s of the processor{memory}, {shown(ratios, '.1f')} of Python"
        print(f"{rows:,} rows: {what}: {taken}")


def main():
    program, replay, folder, *counts = sys.argv[1:]
    program, files = os.path.abspath(program), market(folder)
    print("| Rows | Trail, MB | Until all ports listen, s | Processor, s | MB then | Close, s | Processor, s | Peak MB |")
    print("|---|---|---|---|---|---|---|---|")
    lines = []
    for rows in map(int, counts):
        trail = os.path.join(folder, f"restart_{rows}.trail")
        make_trail.make(rows, trail)
        size = os.path.getsize(trail) / 1_000_000
        starts, others = [], {"sef_replay": [], "Python's sqlite3": []}
        for _ in range(SAMPLES):
            starts.append(sample(program, files, trail))
            others["sef_replay"].append(run_of(replay, trail))
            others["Python's sqlite3"].append(run_of(sys.executable, "-c", READ, trail))
        found = list(zip(*starts))
        forms = (".2f", ".2f", ".0f", ".2f", ".2f", ".0f")
        cells = " | ".join(shown(values, form) for values, form in zip(found, forms))
        print(f"| {rows:,} | {size:,.1f} | {cells} |", flush=True)
        lines.append((rows, found[1], others))
        os.remove(trail)
    for each in lines:
        compare(*each)


if __name__ == "__main__":
    main()
