#!/usr/bin/env python3
"""A day whose rows are kept in a trail: served, stopped, begun again from the trail, killed, and read back.

usage: trail_day.py PORT VENUE_MAIN [SEF_REPLAY]

PORT and the next 29 are used in turn. VENUE_MAIN and SEF_REPLAY are the programs; without the second nothing is
read back.

1. Two clients trade on a venue with a trail, as in two_clients.py. While it runs, a second venue over the same file
   reports that it is held; sef_replay reads the trade, and a copy of the file and its log has it. The venue closes, and
   the file alone has all rows.
2. A venue begins again from the file. Its sessions' numbers begin at 1. ALPHA's order, sent again, is refused as a
   duplicate, with its number; its leaves quantity rests, and DELTA trades with it. The venue closes, and its closing
   line counts the rows of both runs.
3. A venue is killed (SIGKILL) while ALPHA sends orders. Each answered order has its row, and a venue begins from them.
4. A venue whose log may not grow past some size ends its sessions, prints `stopped: trail` and stops. Each answered
   order has its row.
5. A venue whose log may not hold an empty trail stops before it listens.
"""

import contextlib
import os
import resource
import shutil
import subprocess
import sys
import tempfile
import threading

sys.path.insert(0, os.path.join(os.path.dirname(os.path.abspath(__file__)), "..", "lib"))
from fix import (  # noqa: E402
    Client,
    Files,
    Venue,
    expect,
    field,
    limit_order,
    serve_command,
    wait_until,
)
from trail import order_ids, replayed, rows_of, snapshot  # noqa: E402
from two_clients import trade  # noqa: E402

KILLED_AFTER = 40  # of the answers
ORDERS = 150  # fewer than one side of the book may have
LONGEST_LOG = 400000  # bytes, enough for some of the orders but not all; the log grows by 262,144 at once
SHORTEST_LOG = 8192  # bytes, not enough for an empty trail
STOP_SECONDS = 60.0  # until a venue that stops has ended
STOPPED = "venue_main: stopped: trail\n"
FIRST_TRADE = "T1 book IRS5Y 40 @ 2.5 buyer ALPHA seller DELTA\n"
SECOND_TRADE = "T2 book IRS5Y 60 @ 2.5 buyer ALPHA seller DELTA\n"


def compared(what, found, expected):
    expect(what, found, expected)
    print(f"{what}: {found!r}", flush=True)


class Day:
    """The programs, the trail, and the next five ports."""

    def __init__(self, port, venue_main, sef_replay, folder):
        self.port = port - 5
        self.venue_main = venue_main
        self.sef_replay = sef_replay
        self.folder = folder
        self.trail = os.path.join(folder, "day.trail")
        self.files = Files()
        self.venues = []

    def begin(self, trail, longest_file=None):
        """A venue over this trail. Where a longest file is given none that it writes may be longer."""

        def confine():
            if longest_file is not None:
                resource.setrlimit(resource.RLIMIT_FSIZE, (longest_file, longest_file))

        self.port += 5
        # Python ignores the signal of a file that is too long, and so does a process that it starts like this.
        how = {"restore_signals": False, "preexec_fn": confine}
        venue = Venue(self.venue_main, self.files, self.port, "--trail", trail, **how)
        self.venues.append(venue)
        return venue

    def end(self):
        """Ends the venues that a failed run left up."""
        for venue in self.venues:
            venue.stop()

    def replayed(self, trail):
        return replayed(self.sef_replay, trail)

    def copied(self, name):
        """A copy of the trail's file and of its log, which a venue may have open."""
        return snapshot(self.trail, os.path.join(self.folder, name))


def closed(venue):
    """Ends a venue by its stop file, and returns what it printed as it closed."""
    printed = venue.end()
    compared("status", venue.process.returncode, 0)
    return printed.strip()


def first_run(day):
    print("-- a day begins", flush=True)
    venue = day.begin(day.trail).await_start()
    trade(venue.port)
    day.port += 5
    command = serve_command(day.venue_main, day.files, day.port, "--trail", day.trail)
    second = subprocess.run(command, capture_output=True, text=True, check=False)
    compared("a second venue", (second.stdout, second.stderr, second.returncode), ("", STOPPED, 1))
    compared("the rows of a copy of file and log", len(rows_of(day.copied("read.trail"))), 2)
    if day.sef_replay:
        compared("the trail that is held", day.replayed(day.trail), (0, FIRST_TRADE, ""))
        compared("the day of a copy", day.replayed(day.copied("copy.trail")), (0, FIRST_TRADE, ""))
    compared("closing", closed(venue), "closed sessions 5 taken 2")
    alone = shutil.copy(day.trail, os.path.join(day.folder, "alone.trail"))
    compared("the rows of the file without its log", len(rows_of(alone)), 2)


def second_run(day):
    print("-- it goes on from its trail", flush=True)
    venue = day.begin(day.trail).await_start()
    alpha = Client("ALPHA", venue.port)
    alpha.log_on()
    # The session's numbers begin at 1 again, and a1 was used on this day.
    alpha.send("D", limit_order("a1", 1, 100))
    compared("the order that rests", field(alpha.await_field("103=6"), 37), b"O1")
    delta = Client("DELTA", venue.port + 3)
    delta.log_on()
    delta.send("D", limit_order("d2", 2, 60))
    delta.await_field("150=F")
    alpha.await_field("150=F")
    delta.log_out()
    alpha.log_out()
    compared("closing", closed(venue), "closed sessions 5 taken 4")
    if day.sef_replay:
        compared("the day", day.replayed(day.trail), (0, FIRST_TRADE + SECOND_TRADE, ""))


class Answered(threading.Thread):
    """Reads a client's answers, and keeps the ClOrdIDs of the orders that were answered."""

    def __init__(self, client):
        super().__init__(daemon=True)
        self.client = client
        self.orders = []

    def run(self):
        try:
            while True:
                order = field(self.client.next_message(), 11)
                if order is not None:
                    self.orders.append(order.decode("ascii"))
        except (OSError, SystemExit):
            return


def send_until(venue, is_over, prefix):
    """Has ALPHA send orders, all at once, and waits until it is over; returns the orders that were answered."""
    alpha = Client("ALPHA", venue.port)
    alpha.log_on()
    answered = Answered(alpha)
    answered.start()
    with contextlib.suppress(OSError):
        for count in range(1, ORDERS + 1):
            alpha.send("D", limit_order(f"{prefix}{count}", 1, 1), quietly=True)
    wait_until(lambda: is_over(answered.orders), STOP_SECONDS, "the orders come to no end", 0.01)
    return answered


def killed_run(day):
    print("-- it is killed", flush=True)
    venue = day.begin(day.trail).await_start()
    answered = send_until(venue, lambda orders: len(orders) >= KILLED_AFTER, "k")
    venue.stop()
    answered.join(STOP_SECONDS)
    kept = order_ids(day.copied("killed.trail"))
    lost = [name for name in answered.orders if name not in kept]
    compared(f"of {len(answered.orders)} answered orders, those without a row", lost, [])
    if day.sef_replay:
        compared("the day", day.replayed(day.copied("read_back.trail")), (0, FIRST_TRADE + SECOND_TRADE, ""))
    venue = day.begin(day.trail).await_start()
    kept = len(rows_of(day.copied("again.trail")))
    compared("closing", closed(venue), f"closed sessions 5 taken {kept}")


def confined_run(day):
    print("-- its log may not grow", flush=True)
    trail = os.path.join(day.folder, "confined.trail")
    venue = day.begin(trail, LONGEST_LOG).await_start()
    answered = send_until(venue, lambda orders: not venue.is_up(), "f")
    printed = venue.process.stdout.read(), venue.faults()
    compared("the end", (*printed, venue.process.returncode), ("", STOPPED, 1))
    answered.join(STOP_SECONDS)
    kept = order_ids(trail)
    lost = [name for name in answered.orders if name not in kept]
    compared(f"of {len(answered.orders)} answered orders, those without a row", lost, [])
    compared("rows of orders that were not answered", [name for name in kept if name not in answered.orders], [])
    trail = os.path.join(day.folder, "short.trail")
    venue = day.begin(trail, SHORTEST_LOG)
    wait_until(lambda: not venue.is_up(), STOP_SECONDS, "a venue without space for a trail does not stop")
    printed = venue.process.stdout.read(), venue.log()
    compared("no space for a trail", (*printed, venue.process.returncode), ("", STOPPED, 1))


def main():
    if len(sys.argv) not in (3, 4):
        raise SystemExit(__doc__)
    sef_replay = sys.argv[3] if len(sys.argv) == 4 else None
    with tempfile.TemporaryDirectory() as folder:
        day = Day(int(sys.argv[1]), sys.argv[2], sef_replay, folder)
        try:
            first_run(day)
            second_run(day)
            killed_run(day)
            confined_run(day)
        finally:
            day.end()
    print("the day is kept")


if __name__ == "__main__":
    main()
