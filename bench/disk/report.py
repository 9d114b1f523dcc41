"""Times the rows of a trail in a file against what the disk does."""

import collections
import contextlib
import os
import re
import signal
import sqlite3
import statistics
import subprocess
import sys

sys.path.insert(0, "bench")
from venues import fresh, numbers_in, ours, spread  # noqa: E402

PORT = 7300
SYMBOL = "IRS5Y"
COUNTED = 2_000  # rows whose calls are counted
NEW, SMALL = 4096, 512  # bytes of a page of a new trail, and of one that SQLite made smaller
CALL = re.compile(r"(pwrite64|write|fdatasync|fsync|ftruncate|pwritev)\(([0-9]+)<([^>]*)>.* = ([0-9]+)$")


def made(path, page):
    """A trail without rows and with pages of this size: a new one, which stock SQLite rewrites."""
    ours(PORT, "--trail", fresh(path)).end()
    with contextlib.closing(sqlite3.connect(path, isolation_level=None)) as trail:
        for word in ("PRAGMA journal_mode=DELETE", f"PRAGMA page_size={page}", "VACUUM", "PRAGMA journal_mode=WAL"):
            trail.execute(word)
    return path


def rows_of(path, directory, rows):
    """Rows a second of a venue with this trail, which is removed, and the venue's processor time a row in us."""
    venue = ours(PORT, "--trail", path)
    before = venue.on_processor()
    try:
        pace = venue.load(directory, SYMBOL, rows, "at-once")["per_second"]
        return pace, (venue.on_processor() - before) / rows * 1e6
    finally:
        venue.end()
        fresh(path)


def counted(path, directory):
    """The calls by which a venue writes its trail, the bytes, by call and file, and the bytes of the middle commit."""
    venue = ours(PORT, "--trail", path)
    log = f"{directory}/disk.strace"
    words = ["strace", "-f", "-qq", "-y", "-e", "trace=pwrite64,pwritev,write,fdatasync,fsync,ftruncate", "-o", log]
    tracer = subprocess.Popen([*words, "-p", str(venue.process.pid)])
    try:
        venue.load(directory, SYMBOL, COUNTED, "at-once")
    finally:
        tracer.send_signal(signal.SIGINT)
        tracer.wait()
        venue.end()
        fresh(path)
    calls, sizes, commits, commit = collections.Counter(), collections.Counter(), [], 0
    with open(log, encoding="utf-8", errors="replace") as lines:
        for line in lines:
            found = CALL.search(line)
            if not found or os.path.basename(path) not in found[3]:
                continue
            key = (found[1], "log" if found[3].endswith("-wal") else "file")
            written = int(found[4]) if "write" in found[1] else 0
            calls[key] += 1
            sizes[key] += written
            commit += written
            if key == ("fdatasync", "log"):
                commits.append(commit)
                commit = 0
    return calls, sizes, statistics.median_low(commits)


def print_calls(path, directory, page):
    """Prints what a row writes with pages of this size; the bytes of a commit."""
    calls, sizes, commit = counted(made(path, page), directory)
    print(f"pages of {page:,} bytes: a commit writes {commit:,} bytes: the middle one", flush=True)
    for (call, where), count in sorted(calls.items()):
        each = sizes[call, where] / COUNTED
        print(f"    {call} of the trail's {where}: {count / COUNTED:.3f} a row, {each:,.0f} bytes a row", flush=True)
    return commit


def main():
    directory, rows, samples, folder = sys.argv[1], int(sys.argv[2]), int(sys.argv[3]), sys.argv[4]
    path = os.path.join(folder, "disk.trail")
    commits = {page: print_calls(path, directory, page) for page in (NEW, SMALL)}
    found, costs = collections.defaultdict(list), collections.defaultdict(list)
    for _ in range(samples):
        for page, commit in commits.items():
            pace, cost = rows_of(made(path, page), directory, rows)
            found[page].append(pace)
            costs[page].append(cost)
            words = [f"{directory}/overwrite", os.path.join(folder, "disk.overwritten"), str(commit), str(rows)]
            printed = subprocess.run(words, check=True, capture_output=True, text=True).stdout
            found["writes", page].append(numbers_in(printed)["per_second"])
    os.remove(os.path.join(folder, "disk.overwritten"))
    for page, commit in commits.items():
        ratios = [mine / other for mine, other in zip(found[page], found["writes", page])]
        pace, cost, writes = spread(found[page]), spread(costs[page]), spread(found["writes", page])
        print(f"pages of {page:,} bytes: rows a second: {pace}; processor a row, us: {cost}")
        print(f"    writes of {commit:,} bytes a second: {writes}; rows to these: {spread(ratios, 2)}")


if __name__ == "__main__":
    main()
