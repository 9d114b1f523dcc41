#!/usr/bin/env python3
"""A trail that is lost under its venue, and a clock behind the last row at the start.

usage: lost_trail.py PORT VENUE_MAIN STEP_CLOCK

The program, and the library of tests/faults/step_clock.c. PORT and the next four are used.

1. Under a running venue the trail is removed, moved away, or another file is put in its place: the event trail_gone
   and the metric sef_trail_gone say so, messages are answered as before, the figures of the rows are those of the
   orders, and the close is done, but ends with `stopped: trail`. Status 0 where the file is back at its place before
   the close, or its log alone was removed.
2. A venue whose trail has a row that is an hour ahead of the clock is stopped before a port listens, with both
   moments; of one that is a second ahead it waits, and serves.
"""

import os
import re
import subprocess
import sys
import tempfile
import time

sys.path.insert(0, os.path.join(os.path.dirname(os.path.abspath(__file__)), "..", "lib"))
from fix import Client, Files, Venue, expect, limit_order, serve_command, wait_until  # noqa: E402

SEEN_SECONDS = 5.0  # until the event: the path is looked at each second
WRITTEN_SECONDS = 20.0  # until the metric: it is written each ten seconds
ORDERS = 3
CLOSED = "closed sessions 5 taken {}\n"
STOPPED = "venue_main: stopped: trail\n"
BEHIND = re.compile(
    r"venue_main: stopped: clock\n"
    r"  the last row is of ([0-9]{8}-[0-9:.]{12}), and the clock shows ([0-9]{8}-[0-9:.]{12})\n"
)


def removed(trail, _aside):
    os.remove(trail)
    os.remove(trail + "-wal")


def log_removed(trail, _aside):
    os.remove(trail + "-wal")


def moved(trail, aside):
    os.rename(trail, aside)


def replaced(trail, aside):
    os.rename(trail, aside)
    with open(trail, "w", encoding="ascii"):
        pass


def moved_back(trail, aside):
    os.rename(aside, trail)


def figure_in(metrics, name):
    """The value of a figure in the file of counters, where that is written."""
    try:
        with open(metrics, encoding="utf-8") as file:
            found = re.search(rf"^{name} ([0-9.]+)$", file.read(), re.MULTILINE)
    except FileNotFoundError:
        return None
    return found and found[1]


def gone_in(metrics):
    return figure_in(metrics, "sef_trail_gone")


def compare_figures(metrics, began):
    """The figures of a trail whose last row is of an order sent since `began`, of time.monotonic()."""
    age, commit = (float(figure_in(metrics, f"sef_{name}_seconds")) for name in ("last_row_age", "greatest_commit"))
    expect("sef_rows", figure_in(metrics, "sef_rows"), str(ORDERS))
    most = time.monotonic() - began + 1
    expect(f"0 <= the last row's age {age} < {most}, 0 <= the greatest commit {commit}", 0 <= age < most and commit >= 0, True)


def order(client, name):
    client.send("D", limit_order(name, 1, 10), quietly=True)
    client.await_field("150=0", quietly=True)


def first_order(port):
    """A client that has logged on and has an order in the book."""
    client = Client("ALPHA", port)
    client.send("A", "98=0|108=0|1137=9|141=Y|", quietly=True)
    client.await_field("35=A", quietly=True)
    order(client, "a0")
    return client


def gone(venue):
    return [event["event"] for event in venue.events()].count("trail_gone")


def lost(program, port, loses, returns=None, kept=False):
    with tempfile.TemporaryDirectory() as folder:
        trail, metrics, aside = (os.path.join(folder, name) for name in ("day.trail", "day.prom", "aside"))
        with Venue(program, Files(), port, "--trail", trail, "--metrics", metrics) as venue:
            venue.await_start()
            client = first_order(port)
            wait_until(lambda: gone_in(metrics) == "0", WRITTEN_SECONDS, "no metric says that the trail is there")
            expect("events trail_gone before", gone(venue), 0)
            loses(trail, aside)
            wait_until(lambda: gone(venue) == 1, SEEN_SECONDS, lambda: f"no event trail_gone: {venue.log()}")
            began = time.monotonic()
            for k in range(1, ORDERS):
                order(client, f"a{k}")
            wait_until(lambda: gone_in(metrics) == "1", WRITTEN_SECONDS, "no metric says that the trail is gone")
            wait_until(lambda: figure_in(metrics, "sef_rows") == str(ORDERS), WRITTEN_SECONDS, "no metric has all rows")
            compare_figures(metrics, began)
            if returns:
                returns(trail, aside)
            printed = venue.end()
            ended = (venue.process.returncode, printed, venue.faults(), gone(venue))
            status, faults = (0, "") if returns or kept else (1, STOPPED)
            expect(f"how the venue ended ({loses.__name__})", ended, (status, CLOSED.format(ORDERS), faults, 1))


def ahead(program, port, library, seconds):
    """A venue makes a row by a clock that is this far ahead, and the next begins without: how long it took to listen,
    or None, its status and its messages where it did not."""
    with tempfile.TemporaryDirectory() as folder:
        trail, shift = (os.path.join(folder, name) for name in ("day.trail", "shift"))
        with open(shift, "w", encoding="ascii") as file:
            file.write(str(seconds))
        files = Files()
        with Venue(program, files, port, "--trail", trail, env={**os.environ, "LD_PRELOAD": library, "SHIFT": shift}) as venue:
            venue.await_start()
            first_order(port).close()
            expect("the venue ahead", (venue.end(), venue.process.returncode), (CLOSED.format(1), 0))
        if seconds > 2:
            ran = subprocess.run(
                serve_command(program, files, port, "--trail", trail), capture_output=True, text=True, timeout=60, check=False
            )
            return ran.returncode, ran.stdout, ran.stderr
        begun = time.monotonic()
        with Venue(program, files, port, "--trail", trail) as venue:
            venue.await_start()
            took = time.monotonic() - begun
            expect("the venue that waited", (venue.end(), venue.process.returncode, venue.faults()), (CLOSED.format(1), 0, ""))
            return took


def main():
    if len(sys.argv) != 4:
        sys.exit(__doc__)
    port, program, library = int(sys.argv[1]), os.path.abspath(sys.argv[2]), os.path.abspath(sys.argv[3])
    for loses, returns in ((removed, None), (moved, None), (replaced, None), (moved, moved_back)):
        lost(program, port, loses, returns)
        print(f"{loses.__name__}{' and put back' if returns else ''}: seen")
    lost(program, port, log_removed, kept=True)
    print("log_removed: seen, and all rows in the file at the close")
    status, printed, faults = ahead(program, port, library, 3600)
    found = BEHIND.fullmatch(faults)
    if (status, printed) != (1, "") or not found or not found[1] > found[2]:
        sys.exit(f"a clock an hour behind: status {status}, {printed!r}, {faults!r}")
    print("a clock an hour behind: stopped")
    ahead(program, port, library, 1)
    print("a clock a second behind: waited for")
    print("no loss went unseen")


main()
