#!/usr/bin/env python3
"""Crashes: a stop at each write and sync of a trail, of a venue that is served, and of a trail that is migrated.

usage: crashes.py PORT VENUE_MAIN SEF_REPLAY CRASH_AT

The programs; CRASH_AT is the library of tests/faults/crash_at.c. PORT and the next 39 are used. Each run is stopped
at one write or sync of the trail's files, at the first, the second and so on until one is not stopped. The process
is killed there; or that call fails and each after it.

1. A venue makes a trail and is sent seven items, one by one: a request to four, a quote off tick, two good ones, a
   pass, a hit that trades, and one that comes too late. The file, opened again, has a prefix of them: all whose
   answers were received, and one more at most. sef_replay prints the trade where the sixth is among them, and
   nothing else. A venue begins from what was left, also where that is no trail yet, and closes with that many
   messages taken.
2. sef_replay migrates the sample day, as venues of versions 1 and 2 kept it. It is then of that version or of the
   new one, and read back whole.
"""

import concurrent.futures
import contextlib
import os
import sqlite3
import subprocess
import sys
import tempfile
import threading

sys.path.insert(0, os.path.join(os.path.dirname(os.path.abspath(__file__)), "..", "lib"))
from checked_client import market  # noqa: E402
from fix import Client, Venue, expect  # noqa: E402
from trail import copied, is_database, older_trail, replayed, rows_of, tables_of  # noqa: E402

WORKERS = min(os.cpu_count() or 2, 8)  # of five ports each

SILENCE = 2.0  # seconds without an answer, after which none comes from a venue whose disk fails
LONGEST = 60  # seconds for a run
PARTIES = "453=4|" + "".join(f"448={name}|447=D|452=35|" for name in ("BETA", "GAMMA", "DELTA", "EPSILON"))
# Who sends an item, the item, and a field of its answer.
ITEMS = [
    ("ALPHA", "R", f"131=q1|146=1|55=IRS5Y|54=1|38=100|{PARTIES}", None),
    ("BETA", "S", "117=b1|131=R1|55=IRS5Y|133=2.501|", "58=Invalid price"),
    ("BETA", "S", "117=b1|131=R1|55=IRS5Y|133=2.5025|", "297=0"),
    ("DELTA", "S", "117=d1|131=R1|55=IRS5Y|133=2.5|", "297=0"),
    ("ALPHA", "AJ", "693=h1|117=Q1|694=6|", "297=11"),
    ("ALPHA", "AJ", "693=h2|117=Q2|694=1|54=1|", "880=T1"),
    ("ALPHA", "AJ", "693=h2|117=Q2|694=1|54=1|", "297=9"),
]
TRADE = "T1 rfq IRS5Y 100 @ 2.5 buyer ALPHA seller DELTA room R1 asked BETA,GAMMA,DELTA,EPSILON first Q1 shown none\n"


def stopping(library, at, fails):
    words = {"STOP_AT": str(at), "LD_PRELOAD": library}
    if fails:
        words["FAILS"] = "1"
    return {**os.environ, **words}


def answered_items(port, patience):
    """How many of the items were answered before the venue answered no more for this many seconds."""
    answered = 0
    try:
        clients = {}
        for name, place in (("ALPHA", 0), ("BETA", 1), ("DELTA", 3)):
            clients[name] = Client(name, port + place)
            clients[name].send("A", "98=0|108=0|1137=9|", quietly=True)
            clients[name].await_field("35=A", quietly=True)
            clients[name].connection.settimeout(patience)
        for sender, kind, fields, answer in ITEMS:
            clients[sender].send(kind, fields, quietly=True)
            # (a request that is taken is answered to its recipients alone)
            clients[sender if answer else "BETA"].await_field(answer or "35=R", quietly=True)
            answered += 1
    except (OSError, SystemExit):
        pass
    return answered


class Crashes:
    def __init__(self, port, venue_main, sef_replay, library, folder):
        self.ports = [port + 5 * k for k in range(WORKERS)]
        self.lock = threading.Lock()
        self.venue_main = venue_main
        self.sef_replay = sef_replay
        self.library = library
        self.folder = folder
        self.files = market(folder)
        self.days = {version: self.migrated(older_trail(folder, version)) for version in (1, 2)}

    @contextlib.contextmanager
    def port(self):
        with self.lock:
            port = self.ports.pop()
        try:
            yield port
        finally:
            with self.lock:
                self.ports.append(port)

    def stopped_day(self, trail, port, at, fails):
        """A venue over the trail that is stopped: how many items it answered, and whether it was stopped at all."""
        env = stopping(self.library, at, fails)
        with Venue(self.venue_main, self.files, port, "--trail", trail, env=env) as venue:
            venue.await_start(or_end=True)
            is_begun = venue.is_up()
            answered = answered_items(port, SILENCE if fails else LONGEST) if is_begun else 0
            if fails:
                venue.end(LONGEST)
            elif answered < len(ITEMS):
                # (the connections of a process that is killed end before it does)
                venue.process.wait(LONGEST)
            if venue.is_up() or venue.process.returncode == 0:
                expect("items that a venue answered which was not stopped", answered, len(ITEMS))
                return answered, False
            fault = venue.faults().splitlines()[-1:]
            # (a file of which no trail can be made may be reported as a refused one)
            is_refused = not is_begun and (venue.process.returncode, fault) == (3, ["venue_main: trail refused 1"])
            if fails and not is_refused:
                expect(f"serve, from call {at} on its disk fails", (venue.process.returncode, fault), (1, ["venue_main: stopped: trail"]))
            return answered, True

    def begun_again(self, trail, port):
        """How many messages a venue closes with that begins from the trail."""
        with Venue(self.venue_main, self.files, port, "--trail", trail, turns=1) as venue:
            venue.process.wait(LONGEST)
            expect(f"status of a venue that begins again: {venue.faults()}", venue.process.returncode, 0)
            return venue.process.stdout.read()

    def serve(self, at, fails):
        """Whether the run was stopped; what it left is as it may be."""
        which = f"serve, {'failing from' if fails else 'killed at'} call {at}"
        trail = os.path.join(self.folder, f"serve-{at}-{fails}")
        with self.port() as port:
            answered, is_stopped = self.stopped_day(trail, port, at, fails)
            rows = texts_of(trail)
            expected = [f"35={kind}|{fields}" for _, kind, fields, _ in ITEMS]
            if rows is None:
                expect(f"{which}: answers without a trail", answered, 0)
            else:
                expect(f"{which}: the rows", rows, expected[: len(rows)])
                if not answered <= len(rows) <= answered + 1:
                    raise SystemExit(f"{which}: {answered} items were answered, and {len(rows)} rows kept")
                trades = TRADE if len(rows) >= 6 else ""
                expect(f"{which}: the trades", replayed(self.sef_replay, trail), (0, trades, ""))
            closing = f"closed sessions 5 taken {len(rows or [])}\n"
            expect(f"{which}: begun again", self.begun_again(trail, port), closing)
        return is_stopped, answered

    def migrated(self, trail):
        """The day of a trail that is migrated."""
        status, printed, fault = replayed(self.sef_replay, trail, "--migrate")
        expect("status and fault of sef_replay --migrate", (status, fault), (0, ""))
        return printed

    def migrate(self, version, at, fails):
        which = f"migrate of version {version}, {'failing from' if fails else 'killed at'} call {at}"
        with tempfile.TemporaryDirectory() as folder:
            trail = older_trail(folder, version)
            env = stopping(self.library, at, fails)
            ended = subprocess.run([self.sef_replay, "--migrate", trail], capture_output=True, env=env)
            found = version_of(trail)
            if found not in (version, 3):
                raise SystemExit(f"{which}: it is of version {found}")
            if ended.returncode == 0:
                expect(f"{which}: the version after status 0", found, 3)
            expect(f"{which}: read back", self.migrated(trail), self.days[version])
        return ended.returncode != 0, found

    def count_up(self, what, run):
        """Runs with the first call stopped, the second and so on, until one is not."""
        found = {}
        with concurrent.futures.ThreadPoolExecutor(WORKERS) as pool:
            for first in range(1, 1000, WORKERS):
                for is_stopped, left in pool.map(run, range(first, first + WORKERS)):
                    if not is_stopped:
                        kinds = ", ".join(f"{count} left {left}" for left, count in sorted(found.items()))
                        print(f"{what}: {sum(found.values())} stops: {kinds}", flush=True)
                        return
                    found[left] = found.get(left, 0) + 1
        raise SystemExit(f"{what}: each run is stopped")


def texts_of(trail):
    """The texts of a trail's rows, once its tables were compared; nothing where it has none."""
    if not is_database(trail):
        return None
    with tempfile.TemporaryDirectory() as folder:
        copy = copied(trail, folder)
        with contextlib.closing(sqlite3.connect(copy)) as database:
            tables = tables_of(database)
            if not tables:
                return None
            expect("the tables", tables, {"head", "item", "delay", "later_era"})
            head = database.execute("SELECT count(*), min(version) FROM head").fetchall()
            expect("the rows of the head", head, [(1, 3)])
        return [text.decode("ascii").replace("\x01", "|") for _, text in rows_of(copy)]


def version_of(trail):
    with tempfile.TemporaryDirectory() as folder, contextlib.closing(sqlite3.connect(copied(trail, folder))) as database:
        return database.execute("SELECT version FROM head").fetchone()[0]


def main():
    if len(sys.argv) != 5:
        raise SystemExit(__doc__)
    with tempfile.TemporaryDirectory() as folder:
        test = Crashes(int(sys.argv[1]), *sys.argv[2:], folder)
        for fails in (False, True):
            how = "the disk fails from a call on" if fails else "killed at a call"
            test.count_up(f"serve, {how}", lambda at, fails=fails: test.serve(at, fails))
            for version in (1, 2):
                test.count_up(f"migrate of version {version}, {how}", lambda at, fails=fails, version=version: test.migrate(version, at, fails))
    print("each stop left what it may")


if __name__ == "__main__":
    main()
