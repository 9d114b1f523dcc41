"""Trails in files: copies, rows, and trails as older venues wrote them.

    is_database(path)           whether a database was begun there
    copied(trail, folder)       a copy of a trail and its log, which nobody writes to
    snapshot(trail, copy)       a consistent copy, while a venue may have it open (examples/copy_trail)
    rows_of(trail)              (place of the sender, text) of each row; None where there are no tables
    items_of(trail)             (n, place of the sender, number, moment, text) of each row
    order_ids(trail)            the ClOrdIDs (11) in its rows
    older_trail(folder, version)    the sample day as a venue of version 1 or 2 kept it
    replayed(program, trail, *options)  status, output and standard error of sef_replay
"""

import contextlib
import os
import re
import shutil
import sqlite3
import subprocess

from fix import EXAMPLES, SOH

SAMPLE_DAY = os.path.join(EXAMPLES, "sample_day", "day.trail")


def is_database(path):
    """Whether a database was begun there: its first byte stays 0 until it was."""
    if not os.path.exists(path):
        return False
    with open(path, "rb") as file:
        return file.read(1) not in (b"", b"\0")


def copied(trail, folder):
    """A copy of the file and of its log; no file where there is none."""
    copy = os.path.join(folder, "copy")
    for end in ("", "-wal"):
        if os.path.exists(copy + end):
            os.remove(copy + end)
        if os.path.exists(trail + end):
            shutil.copyfile(trail + end, copy + end)
    return copy


def snapshot(trail, copy):
    subprocess.run([os.path.join(EXAMPLES, "copy_trail"), trail, copy], check=True)
    return copy


def tables_of(database):
    return {name for (name,) in database.execute("SELECT name FROM sqlite_master WHERE type = 'table'")}


def rows_of(trail):
    """The place of the sender (from 1; 0 for a tick) and the text of each row; None where there is no trail."""
    if not is_database(trail):
        return None
    with contextlib.closing(sqlite3.connect(trail)) as database:
        if "item" not in tables_of(database):
            return None
        return [(who, bytes(text)) for who, text in database.execute("SELECT who, text FROM item ORDER BY n")]


def items_of(trail):
    with contextlib.closing(sqlite3.connect(trail)) as database:
        items = database.execute("SELECT n, who, number, moment, text FROM item ORDER BY n")
        return [(*item, bytes(text)) for *item, text in items]


def order_ids(trail):
    fields = (field for _, text in rows_of(trail) for field in text.split(SOH))
    return {field[3:].decode("ascii") for field in fields if field.startswith(b"11=")}


def older_trail(folder, version):
    gone = "later_era|delay" if version == 1 else "later_era"
    with open(os.path.join(EXAMPLES, "sample_day", "day.sql"), encoding="utf-8") as file:
        lines = [line for line in file if not re.search(f"(TABLE|INTO) ({gone}) ", line)]
    trail = os.path.join(folder, f"version{version}.trail")
    with contextlib.closing(sqlite3.connect(trail)) as database:
        database.executescript("".join(lines).replace("VALUES (1, 3,", f"VALUES (7, {version},"))
    return trail


def replayed(program, trail, *options):
    ended = subprocess.run([program, *options, trail], capture_output=True, text=True, check=False)
    # (an indented second line names what is at fault)
    return ended.returncode, ended.stdout, re.sub(r"\n  .*\n", "\n", ended.stderr)
