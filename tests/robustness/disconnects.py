#!/usr/bin/env python3
"""A day over connections that break: nothing is lost or doubled, as seen from both ends.

usage: disconnects.py PORT VENUE_MAIN DISCONNECTS [MESSAGES [KEPT [SEED]]]

VENUE_MAIN is the program, DISCONNECTS that of disconnects.cpp in this folder; PORT and the next four are the
venue's ports. ALPHA and DELTA send MESSAGES (100000) in all, and a connection breaks each 1,000. Each message is
answered once, and they receive each report and each trade that the venue numbered. Then they send KEPT (10000)
messages, with a break each 100, to a venue with a trail: its rows are the messages of each client, each once, in
the order in which they were sent, under numbers that rise.
"""

import contextlib
import os
import sqlite3
import subprocess
import sys
import tempfile

sys.path.insert(0, os.path.join(os.path.dirname(os.path.abspath(__file__)), "..", "lib"))
from checked_client import market  # noqa: E402
from fix import Venue, expect  # noqa: E402

LONGEST = 3600  # seconds


def day(program, clients, files, port, count, between, seed, *options):
    with Venue(program, files, port, *options) as venue:
        venue.await_start()
        command = [clients, str(port), str(count), str(between), seed]
        ran = subprocess.run(command, capture_output=True, text=True, timeout=LONGEST, check=False)
        expect("the clients' fault and status", (ran.stderr, ran.returncode), ("", 0))
        expect("the venue's faults", (venue.is_up(), venue.faults()), (True, ""))
        print(ran.stdout, end="", flush=True)


def text_of(name, side, k, count):
    """The k-th message of a client, as its row has it."""
    if k == count:
        return "35=V|262=v|263=0|264=0|267=2|269=0|269=1|146=1|55=IRS5Y|"
    if k % 2:
        return f"35=F|11={name}{k}|41={name}{k - 1}|"
    quantity = 10 if side == 1 else 1 + k // 2 % 15
    return f"35=D|11={name}{k}|55=IRS5Y|54={side}|38={quantity}|40=2|44=2.5|"


def compare_rows(trail, count):
    with contextlib.closing(sqlite3.connect(trail)) as database:
        rows = database.execute("SELECT n, who, number, text FROM item ORDER BY n").fetchall()
    expect("the rows' own numbers", [row[0] for row in rows], list(range(1, len(rows) + 1)))
    for name, who, side in (("A", 1, 1), ("D", 4, 2)):
        found = [(number, bytes(text).decode("ascii").replace("\x01", "|")) for _, by, number, text in rows if by == who]
        expect(f"the rows of {name}", [text for _, text in found], [text_of(name, side, k, count) for k in range(count + 1)])
        numbers = [number for number, _ in found]
        expect(f"whether the numbers of {name} rise", numbers, sorted(set(numbers)))
    expect("rows in all", len(rows), 2 * (count + 1))
    print(f"{len(rows)} rows are in the trail, each message once")


def main():
    if not 4 <= len(sys.argv) <= 7:
        raise SystemExit(__doc__)
    port, program, clients = int(sys.argv[1]), sys.argv[2], sys.argv[3]
    count = int(sys.argv[4]) if len(sys.argv) > 4 else 100_000
    kept = int(sys.argv[5]) if len(sys.argv) > 5 else 10_000
    seed = sys.argv[6] if len(sys.argv) > 6 else "1"
    print(f"seed {seed}", flush=True)
    with tempfile.TemporaryDirectory() as folder:
        files = market(folder)
        day(program, clients, files, port, count, 1000, seed)
        trail = os.path.join(folder, "trail")
        day(program, clients, files, port, kept, 100, seed, "--trail", trail)
        compare_rows(trail, kept // 2)
    print("nothing was lost or doubled")


if __name__ == "__main__":
    main()
