#!/usr/bin/env python3
"""Allocation failures: each allocation of the programs fails in turn, and each run ends in a way that is allowed.

usage: alloc_failures.py PORT VENUE_MAIN SEF_REPLAY EXPORT_DICTIONARY FAIL_ALLOC DISCONNECTS [TRIES]

The programs; FAIL_ALLOC is the library of tests/faults/fail_alloc.c, DISCONNECTS the program of disconnects.cpp in
this folder. PORT and the next 39 are used. Of each command every allocation fails in turn, or evenly TRIES (300) of
them where there are more.

1. `check`, `once`, `sef_replay`, its `--trade` and its `--migrate`, and `export_dictionary`. Either the output is
   that of the plain run, and the status 0; or the program reports that it stopped for memory (or by its trail,
   where the allocation was the database's), the status is 1, and the output is a prefix of that. A trail that was
   to be migrated is then as it was or wholly migrated: the same command, run plainly, prints the whole day.
2. `serve`: ALPHA and DELTA send orders and cancels, which trade, and go on with their numbers over a connection
   that the venue closes. The venue closes with the line of the plain run, or reports that it stopped for memory or
   for lack of a thread. In the first case each message was answered once, and each report and trade received once;
   in the second what was received was in order, each number once. Then the same with a trail, of which nothing is
   left, or what sef_replay reads.
"""

import collections
import concurrent.futures
import os
import shutil
import subprocess
import sys
import tempfile
import threading

sys.path.insert(0, os.path.join(os.path.dirname(os.path.abspath(__file__)), "..", "lib"))
from checked_client import market  # noqa: E402
from fix import ROOT, Venue, expect  # noqa: E402
from trail import SAMPLE_DAY, older_trail, replayed  # noqa: E402

MESSAGES = 8  # of both clients
PATIENCE = "3"  # seconds without an answer, after which none comes
LONGEST = 60  # seconds for a run
WORKERS = min(os.cpu_count() or 2, 8)  # of five ports each
STOPPED = ("stopped: memory\n", "stopped: trail\n", "stopped: thread\n")
TRAIL = "the trail"


def failing(library, **words):
    return {**os.environ, "LD_PRELOAD": library, **words}


def allocations_in(stderr):
    """How many allocations there were: the library prints it last."""
    count = stderr.strip().rsplit("\n", 1)[-1]
    if not count.isdigit() or int(count) == 0:
        raise SystemExit(f"the allocations cannot be counted: {stderr}")
    return int(count)


def some_of(count, tries):
    """Every allocation, or evenly this many."""
    return sorted({1 + k * count // min(count, tries) for k in range(min(count, tries))})


def outcome(status, stderr):
    return "went on" if status == 0 else stderr.strip().partition(": ")[2]


def report(name, count, outcomes):
    ended = ", ".join(f"{times} {how}" for how, times in sorted(collections.Counter(outcomes).items()))
    print(f"{name}: {len(outcomes)} of {count} allocations failed in turn: {ended}", flush=True)


def in_parallel(work, items):
    with concurrent.futures.ThreadPoolExecutor(WORKERS) as pool:
        return list(pool.map(work, items))


class Command:
    """A command that ends by itself, with what it prints where no allocation fails."""

    def __init__(self, library, name, words, given=b"", trail=None, stops=STOPPED[:1]):
        self.library = library
        self.name = name
        self.words = words
        self.given = given
        self.trail = trail  # is copied for each run, in the place of TRAIL
        self.stops = [f"{os.path.basename(words[0])}: {stop}" for stop in stops]
        self.whole = None

    def run(self, folder, **words):
        """Its status, output and standard error, with these words for the library, on the trail in the folder."""
        copy = os.path.join(folder, "trail")
        if self.trail and not os.path.exists(copy):
            shutil.copyfile(self.trail, copy)
        command = [copy if word == TRAIL else word for word in self.words]
        env = failing(self.library, **words) if words else None
        ended = subprocess.run(command, input=self.given, capture_output=True, env=env, timeout=LONGEST)
        return ended.returncode, ended.stdout, ended.stderr.decode()

    def failed(self, at):
        """How the run ended in which this allocation failed, once compared with what is allowed."""
        with tempfile.TemporaryDirectory() as folder:
            status, printed, stderr = self.run(folder, FAIL_AT=str(at))
            which = f"{self.name} with allocation {at} failed"
            if (status, stderr) == (0, ""):
                expect(f"{which}: the output", printed, self.whole)
            elif status != 1 or stderr not in self.stops or not self.whole.startswith(printed):
                raise SystemExit(f"{which}: status {status}, {stderr!r}, and the output {printed[-200:]!r}")
            if self.trail:
                expect(f"{which}: the plain run after it", self.run(folder)[:2], (0, self.whole))
            return outcome(status, stderr)

    def test(self, tries):
        with tempfile.TemporaryDirectory() as folder:
            status, self.whole, stderr = self.run(folder, COUNT="1")
            expect(f"{self.name}: the status", status, 0)
            count = allocations_in(stderr)
        report(self.name, count, in_parallel(self.failed, some_of(count, tries)))


class Served:
    """A venue on which two clients trade."""

    def __init__(self, library, program, clients, files, port, sef_replay=None):
        self.library = library
        self.sef_replay = sef_replay  # where a trail is kept
        self.name = "serve with a trail" if sef_replay else "serve"
        self.program = program
        self.clients = clients
        self.files = files
        self.ports = [port + 5 * k for k in range(WORKERS)]
        self.lock = threading.Lock()
        self.closing = None

    def run(self, trail, **words):
        """How the clients' day ended, and how the venue did."""
        with self.lock:
            port = self.ports.pop()
        kept = ["--trail", trail] if self.sef_replay else []
        env = failing(self.library, **words)
        try:
            with Venue(self.program, self.files, port, *kept, env=env) as venue:
                venue.await_start(or_end=True)
                command = [self.clients, str(port), str(MESSAGES), "1000", "1", "100", PATIENCE]
                day = subprocess.run(command, capture_output=True, text=True, timeout=LONGEST, check=False)
                printed = venue.end(LONGEST)
                # (an event's line may be cut short where an allocation failed)
                faults = [line for line in venue.faults().splitlines() if " event=" not in line]
                return day.returncode, day.stderr, venue.process.returncode, printed, "\n".join(faults)
        finally:
            with self.lock:
                self.ports.append(port)

    def failed(self, at):
        with tempfile.TemporaryDirectory() as folder:
            trail = os.path.join(folder, "trail")
            day, fault, status, printed, stderr = self.run(trail, FAIL_AT=str(at))
            which = f"{self.name} with allocation {at} failed"
            if self.sef_replay:
                self.read_back(which, trail, status)
            if status == 0:
                expect(f"{which}: the clients, and how it closed", (day, fault, printed, stderr), (0, "", self.closing, ""))
                return outcome(status, stderr)
            if status != 1 or stderr not in [f"venue_main: {stop.strip()}" for stop in STOPPED] or printed:
                raise SystemExit(f"{which}: status {status}, {stderr!r}, and the output {printed!r}")
            if day not in (0, 3) or ("trail" in stderr and not self.sef_replay):
                raise SystemExit(f"{which}: {stderr!r}, and the clients {fault!r}")
            return outcome(status, stderr)

    def read_back(self, which, trail, status):
        found, _, fault = replayed(self.sef_replay, trail)
        if (found, fault) != (0, "") and (status, found, fault) != (1, 3, "sef_replay: trail refused 1\n"):
            raise SystemExit(f"{which}: sef_replay ends with {found} and {fault!r}")

    def test(self, tries):
        with tempfile.TemporaryDirectory() as folder:
            day, fault, status, self.closing, stderr = self.run(os.path.join(folder, "trail"), COUNT="1")
        expect(f"{self.name}: the clients and the status", (day, fault, status), (0, "", 0))
        count = allocations_in(stderr)
        report(self.name, count, in_parallel(self.failed, some_of(count, tries)))


def main():
    if not 7 <= len(sys.argv) <= 8:
        raise SystemExit(__doc__)
    port = int(sys.argv[1])
    venue_main, sef_replay, export_dictionary, library, clients = sys.argv[2:7]
    tries = int(sys.argv[7]) if len(sys.argv) == 8 else 300
    with tempfile.TemporaryDirectory() as folder:
        files = market(folder)
        with open(os.path.join(ROOT, "crates", "venue_main", "stdin"), "rb") as file:
            frames = file.read()
        day = SAMPLE_DAY
        older = older_trail(folder, 1)
        Command(library, "check", [venue_main, "check", *files.words()]).test(tries)
        Command(library, "once", [venue_main, "once", *files.words(), "--at", "20250303-14:30:00"], frames).test(tries)
        Command(library, "sef_replay", [sef_replay, TRAIL], trail=day, stops=STOPPED[:2]).test(tries)
        Command(library, "sef_replay --trade", [sef_replay, TRAIL, "--trade", "T3"], trail=day, stops=STOPPED[:2]).test(tries)
        Command(library, "sef_replay --migrate", [sef_replay, "--migrate", TRAIL], trail=older, stops=STOPPED[:2]).test(tries)
        Command(library, "export_dictionary", [export_dictionary, "--transport"]).test(tries)
        Served(library, venue_main, clients, files, port).test(tries)
        Served(library, venue_main, clients, files, port, sef_replay).test(tries)
    print("each run ended as it may")


if __name__ == "__main__":
    main()
