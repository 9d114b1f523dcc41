#!/usr/bin/env python3
"""The heads of a trail (`--heads FILE`): its digest after a row, appended while the rows come.

usage: heads.py PORT VENUE_MAIN [SEF_REPLAY]

PORT and the next 24 are used in turn. Each line is compared with the digest that Python computes of the trail
(tests/cli/check_digest.py), and with `sef_replay --digest --row`, where SEF_REPLAY is given.

1. Two clients trade: the last row has its line within seconds while the venue runs, and once. The venue closes.
2. A venue begins again, goes on with the chain, and appends; a line that a failed write left in part is ended first.
3. A venue is killed (SIGKILL) while orders come: no line is ahead of the rows that were committed. One begins again.
4. No line can be written (/dev/full): one event says so, the venue serves on, and its status says it at the close.
5. A file that is another one of the venue is refused, and so is one that cannot be opened, before a port listens.
"""

import os
import subprocess
import sys
import tempfile
import time

HERE = os.path.dirname(os.path.abspath(__file__))
sys.path += [os.path.join(HERE, "..", "lib"), os.path.join(HERE, "..", "cli")]
from check_digest import digests, stored  # noqa: E402
from fix import Client, Files, Venue, expect, limit_order, serve_command, wait_until  # noqa: E402
from trail import copied, rows_of  # noqa: E402
from two_clients import trade  # noqa: E402

LINE_SECONDS = 5.0  # until the last row has its line
KILLED_AFTER = 2.5  # seconds of orders


def compared(what, found, expected):
    expect(what, found, expected)
    print(f"{what}: {found!r}", flush=True)


def utc(ms):
    return time.strftime("%Y%m%d-%H:%M:%S", time.gmtime(ms // 1000)) + f".{ms % 1000:03}"


def expected_lines(trail):
    """The line that each row of a trail would have, by its number."""
    kept = stored(trail)
    chain = dict(digests(*kept))
    return {row[0]: f"{row[0]} {utc(row[1])} {chain[row[0]].hex()}" for row in kept[4]}


class Heads:
    def __init__(self, port, venue_main, sef_replay, folder):
        self.port = port - 5
        self.venue_main = venue_main
        self.sef_replay = sef_replay
        self.folder = folder
        self.files = Files()
        self.venues = []
        self.trail = self.path("day.trail")
        self.heads = self.path("heads")

    def path(self, name):
        return os.path.join(self.folder, name)

    def begin(self, trail, heads):
        self.port += 5
        venue = Venue(self.venue_main, self.files, self.port, "--trail", trail, "--heads", heads)
        self.venues.append(venue)
        return venue.await_start()

    def lines(self):
        """The whole lines of the file."""
        with open(self.heads, encoding="ascii") as file:
            return [line.rstrip("\n") for line in file if line.endswith("\n")]

    def await_last(self, rows):
        """Waits for the line of the last row."""
        numbers = lambda: [int(line.split()[0]) for line in self.lines()]  # noqa: E731
        wait_until(lambda: rows in numbers(), LINE_SECONDS, "the last row has no line")

    def refuses(self, what, stderr, status, *words):
        command = serve_command(self.venue_main, self.files, self.port, *words)
        ran = subprocess.run(command, capture_output=True, text=True, check=False, cwd=self.folder, timeout=60)
        compared(what, (ran.stdout, ran.stderr, ran.returncode), ("", f"venue_main: {stderr}\n", status))

    def check(self, lines, trail):
        """Each line is that of a committed row."""
        expected = expected_lines(trail)
        for line in lines:
            n = int(line.split()[0])
            expect(f"the line of row {n}", line, expected.get(n))
            if self.sef_replay:
                command = [self.sef_replay, "--digest", trail, "--row", str(n)]
                printed = subprocess.run(command, capture_output=True, text=True, check=True).stdout
                expect(f"the digest of row {n}", printed, f"{n} {line.split()[2]}\n")
        return len(expected)

    def end(self):
        for venue in self.venues:
            venue.stop()


def rises(lines):
    numbers = [int(line.split()[0]) for line in lines]
    return all(a < b for a, b in zip(numbers, numbers[1:]))


def first_run(day):
    print("-- a day with heads", flush=True)
    venue = day.begin(day.trail, day.heads)
    compared("lines of no row", day.lines(), [])
    trade(venue.port)
    day.await_last(2)
    time.sleep(1.5)
    idle = day.lines()
    compared("closing", (venue.end().strip(), venue.process.returncode), ("closed sessions 5 taken 2", 0))
    compared("each row has at most one line", (rises(idle), idle), (True, day.lines()))
    compared("rows", day.check(idle, day.trail), 2)


def second_run(day):
    print("-- it goes on", flush=True)
    before = day.lines()
    with open(day.heads, "a", encoding="ascii") as file:
        file.write("2 2025")
    venue = day.begin(day.trail, day.heads)
    alpha = Client("ALPHA", venue.port)
    alpha.log_on()
    alpha.send("D", limit_order("h1", 1, 100))
    alpha.await_field("150=0")
    alpha.log_out()
    venue.end()
    lines = day.lines()
    compared("what was there", lines[: len(before) + 1], [*before, "2 2025"])
    added = lines[len(before) + 1 :]
    compared("rows", day.check(added, day.trail), 3)
    numbers = [line.split()[0] for line in added]
    compared("the first line and the last", (rises(added), numbers[0], numbers[-1]), (True, "2", "3"))
    os.remove(day.heads)


def killed_run(day):
    print("-- it is killed", flush=True)
    venue = day.begin(day.trail, day.heads)
    alpha = Client("ALPHA", venue.port)
    alpha.log_on()
    over = time.monotonic() + KILLED_AFTER
    sent = 0
    while time.monotonic() < over and sent < 140:
        sent += 1
        alpha.send("D", limit_order(f"k{sent}", 1, 1), quietly=True)
        time.sleep(0.01)
    venue.stop()
    lines = day.lines()
    rows = day.check(lines, copied(day.trail, day.folder))
    print(f"{len(lines)} lines of {rows} rows, {sent} orders", flush=True)
    compared("several lines, and none ahead of the rows", (len(lines) > 1, rises(lines)), (True, True))
    venue = day.begin(day.trail, day.heads)
    day.await_last(rows)
    venue.end()
    again = day.lines()[len(lines) :]
    day.check(again, day.trail)
    compared("lines of the venue that began again", len(again), 1)


def full_run(day):
    print("-- no line can be written", flush=True)
    venue = day.begin(day.path("full.trail"), "/dev/full")
    trade(venue.port)
    time.sleep(2.5)
    is_up = venue.is_up()
    compared("it serves on", (is_up, venue.end().strip()), (True, "closed sessions 5 taken 2"))
    compared("its end", (venue.faults(), venue.process.returncode), ("venue_main: stopped: heads\n", 1))
    compared("events", venue.log().count(" event=heads_failed\n"), 1)
    compared("rows", len(rows_of(day.path("full.trail"))), 2)


def refusals(day):
    print("-- refused before a port listens", flush=True)
    os.symlink(day.trail, day.path("link"))
    os.link(day.trail, day.path("hard"))
    day.refuses("no trail", "command line refused\n  --heads without --trail", 2, "--heads", "heads")
    heads = "command line refused\n  --heads names another file of the venue"
    metrics = "command line refused\n  --metrics names another file of the venue"
    for name in ("day.trail", "./day.trail", "link", "hard", "day.trail-wal", "day.trail-probe", day.trail, "stop"):
        words = ("--trail", day.trail, "--stop-file", "stop")
        day.refuses(f"heads {os.path.basename(name)}", heads, 2, *words, "--heads", name)
        day.refuses(f"metrics {os.path.basename(name)}", metrics, 2, *words, "--metrics", name)
    links = {"early": "new.trail", "earlier": "./early", "log": day.path("new.trail-wal"), "written.tmp": "new.trail"}
    for link, target in links.items():
        os.symlink(target, day.path(link))
    for name in ("new.trail", "../" + os.path.basename(day.folder) + "/new.trail", "early", "earlier", "log"):
        day.refuses("heads of a trail to be made", heads, 2, "--trail", "new.trail", "--heads", name)
    day.refuses("metrics of a trail to be made", metrics, 2, "--trail", "new.trail", "--metrics", "written")
    for name in (day.files.participants, day.files.instruments):
        day.refuses("heads a file", heads, 2, "--trail", day.trail, "--heads", name)
        day.refuses("metrics a file", metrics, 2, "--metrics", name)
    words = ("--trail", day.trail, "--heads", "h.tmp", "--metrics")
    day.refuses("each other", metrics, 2, *words, "./h.tmp")
    day.refuses("what is written first", metrics, 2, *words, "h")
    # (a trail is looked for before its heads, and one with a second name is refused)
    absent = ("--heads", "absent/heads")
    day.refuses("a trail with two names", "trail refused 1", 3, "--trail", day.trail, *absent)
    os.remove(day.path("hard"))
    day.refuses("no folder", "stopped: heads", 1, "--trail", day.trail, *absent)
    day.refuses("a folder", "stopped: heads", 1, "--trail", day.trail, "--heads", ".")


def main():
    if len(sys.argv) not in (3, 4):
        raise SystemExit(__doc__)
    sef_replay = sys.argv[3] if len(sys.argv) == 4 else None
    with tempfile.TemporaryDirectory() as folder:
        day = Heads(int(sys.argv[1]), os.path.abspath(sys.argv[2]), sef_replay, folder)
        try:
            for part in (first_run, second_run, killed_run, full_run, refusals):
                part(day)
        finally:
            day.end()
    print("the heads are those of the trail")


if __name__ == "__main__":
    main()
