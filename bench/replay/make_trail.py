#!/usr/bin/env python3
"""Writes a trail of version 3 with that many rows, of a day that the venue could have had.

usage: make_trail.py ROWS FILE

Two unrelated participants trade: the orders of one fill those of the other, and some rest a while. In each twenty
messages one asks for the prices and one cancels nothing; in each thousand four are a request for quotes, two quotes and
a hit.
"""

import os
import sqlite3
import sys

NAMES = ["ALPHA", "BETA", "GAMMA", "DELTA", "EPSILON"]
PARTICIPANTS = 'venue = "SEF"\n' + "".join(f'[[participant]]\nname = "{name}"\n' for name in NAMES)
DELAYS = {"IRS5Y": 15_000, "BASIS1Y": 1_000}
INSTRUMENTS = "".join(f'[[instrument]]\nsymbol = "{it}"\ntick = 2500\nleast = 1\nrfq_life = 30\ndelay_ms = {ms}\n' for it, ms in DELAYS.items())
TABLES = [
    "CREATE TABLE head (id INTEGER PRIMARY KEY, version INTEGER NOT NULL, participants BLOB NOT NULL, instruments BLOB NOT NULL)",
    "CREATE TABLE item (n INTEGER PRIMARY KEY, who INTEGER NOT NULL, number INTEGER NOT NULL, moment INTEGER NOT NULL, text BLOB NOT NULL)",
    "CREATE TABLE delay (x INTEGER PRIMARY KEY, ms INTEGER NOT NULL)",
    "CREATE TABLE later_era (n INTEGER PRIMARY KEY, era INTEGER NOT NULL)",
]
FIRST_MOMENT = 1_741_012_200_000
ALPHA, BETA, GAMMA, DELTA = 1, 2, 3, 4


def parties(*names):
    return f"453={len(names)}|" + "".join(f"448={name}|447=D|452=35|" for name in names)


def messages(count):
    """The senders and the texts."""
    quotes = 0
    for k in range(1, count + 1):
        who = ALPHA if k % 2 else DELTA
        if k % 1000 == 501:
            quotes += 1
            yield ALPHA, f"35=R|131=r{k}|146=1|55=IRS5Y|54=1|38=100|" + parties("BETA", "GAMMA", "DELTA")
        elif k % 1000 == 502:
            yield BETA, f"35=S|117=q{k}|131=R{quotes}|55=IRS5Y|133=2.5|"
        elif k % 1000 == 503:
            yield GAMMA, f"35=S|117=q{k}|131=R{quotes}|55=IRS5Y|133=2.5025|"
        elif k % 1000 == 504:
            yield ALPHA, f"35=AJ|693=h{k}|117=Q{2 * quotes - 1}|694=1|"
        elif k % 20 == 10:
            yield who, f"35=F|11=c{k}|41=none|"
        elif k % 20 == 5:
            yield who, f"35=V|262=v{k}|263=0|264=0|267=1|269=0|146=1|55=IRS5Y|"
        else:
            side = 1 if who == ALPHA else 2
            yield who, f"35=D|11=o{k}|55=IRS5Y|54={side}|38={10 + k % 7}|40=2|44=2.5|"


def make(rows, path):
    for end in ("", "-wal"):
        if os.path.exists(path + end):
            os.remove(path + end)
    db = sqlite3.connect(path)
    db.execute("PRAGMA journal_mode = WAL")
    for table in TABLES:
        db.execute(table)
    db.execute("INSERT INTO head VALUES (1, 3, ?, ?)", (PARTICIPANTS.encode(), INSTRUMENTS.encode()))
    db.executemany("INSERT INTO delay VALUES (?, ?)", enumerate(DELAYS.values(), 1))
    numbers = dict.fromkeys(range(1, len(NAMES) + 1), 1)
    batch = []
    for n, (who, text) in enumerate(messages(rows), 1):
        numbers[who] += 1
        batch.append((n, who, numbers[who], FIRST_MOMENT + n, text.replace("|", "\x01").encode()))
    db.executemany("INSERT INTO item VALUES (?, ?, ?, ?, ?)", batch)
    db.commit()
    db.execute("PRAGMA wal_checkpoint(TRUNCATE)")
    db.close()


if __name__ == "__main__":
    make(int(sys.argv[1]), sys.argv[2])
