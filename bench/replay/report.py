"""Times each mode of sef_replay, and Python's sqlite3 over the same rows, alternately.

usage: report.py [--prepare] [--minutes N] [--rounds N] PROGRAM FOLDER ROWS..
"""

import argparse
import csv
import hashlib
import os
import sqlite3
import statistics
import subprocess
import sys
import time

sys.dont_write_bytecode = True
TOP = os.path.join(os.path.dirname(os.path.abspath(__file__)), "..", "..")
sys.path.append(os.path.join(TOP, "tests", "lib"))
import make_trail  # noqa: E402
from fix import frame, wire  # noqa: E402

# Those that print most come last. (tables have no head, and so no digest of all rows)
BARE = "book, table"
MODES = {
    BARE: ["TRAIL", "--book", "IRS5Y", "--csv"],
    "book": ["TRAIL", "--book", "IRS5Y"],
    "trades": ["TRAIL"],
    "trades, table": ["--csv", "TRAIL"],
    "why": ["TRAIL", "--why", "10"],
    "what rests": ["TRAIL", "--rests", "--csv"],
    "digest": ["TRAIL", "--digest"],
    "one participant's figures": ["TRAIL", "--desk", "ALPHA", "--csv"],
    "one order": ["TRAIL", "--answers", "--order", "O3"],
    "one request": ["TRAIL", "--answers", "--room", "R1"],
    "owed to one": ["TRAIL", "--answers", "--to", "BETA"],
    "evidence of the first": ["TRAIL", "--trade", "T1"],
    "a participant's log": ["TRAIL", "--against", "LOG", "--desk", "ALPHA"],
    "answers, table": ["TRAIL", "--answers", "--csv"],
    "answers": ["TRAIL", "--answers"],
    "answers, JSON": ["TRAIL", "--answers", "--json"],
    "evidence of all": ["TRAIL", "--trade", "all"],
}


def sample(words):
    """Seconds of the processor, peak MB and bytes of a program's run; None where it is refused."""
    with subprocess.Popen(words, stdout=subprocess.PIPE, stderr=subprocess.PIPE) as ran:
        count = 0
        while chunk := ran.stdout.read(1 << 20):
            count += len(chunk)
        fault = ran.stderr.read().decode()
        _, status, usage = os.wait4(ran.pid, 0)
        ran.returncode = os.waitstatus_to_exitcode(status)
    if ran.returncode != 0:
        print(f"bench/replay: {' '.join(words)}: status {ran.returncode}: {fault.strip()}", file=sys.stderr)
        return None
    return usage.ru_utime + usage.ru_stime, usage.ru_maxrss / 1024, count


def make_log(program, trail, path):
    """The log of ALPHA: a Logon, and each message that it was owed."""
    texts = subprocess.Popen([program, trail, "--answers", "--to", "ALPHA", "--csv"], stdout=subprocess.PIPE, text=True)
    with texts, open(path, "wb") as log:
        log.write(frame(wire("35=A|49=SEF|56=ALPHA|34=1|52=20250303-14:30:00.000|98=0|108=30|1137=9|")) + b"\n")
        for number, row in enumerate(csv.DictReader(texts.stdout), 2):
            kind, fields = row["text"].split("|", 1)
            log.write(frame(wire(f"{kind}|49=SEF|56=ALPHA|34={number}|52={row['moment_utc']}|{fields}")) + b"\n")


def read_by_sqlite(path):
    """Seconds of the processor in which Python's sqlite3 reads the rows and hashes them."""
    began = time.process_time()
    summed = hashlib.sha256()
    with sqlite3.connect(f"file:{path}?mode=ro", uri=True) as db:
        for row in db.execute("SELECT n, who, number, moment, text FROM item ORDER BY n"):
            summed.update(repr(row).encode())
    return time.process_time() - began


def shown(values, form):
    """The median, and in brackets the least and the greatest."""
    return f"{statistics.median(values):{form}} ({min(values):{form}} to {max(values):{form}})"


def prepare(program, folder, rows):
    """The trail of that many rows, and the log of ALPHA: written where they are not there."""
    files = {"TRAIL": os.path.join(folder, f"replay_{rows}.trail"), "LOG": os.path.join(folder, f"replay_{rows}.log")}
    if not os.path.exists(files["TRAIL"]):
        made = files["TRAIL"] + ".made"
        make_trail.make(rows, made)
        os.rename(made, files["TRAIL"])
    if not os.path.exists(files["LOG"]):
        made = files["LOG"] + ".made"
        make_log(program, files["TRAIL"], made)
        os.rename(made, files["LOG"])
    return files


def measured(program, files, rounds, deadline):
    """Of each mode what each round took, and of Python's sqlite3; no sample begins after the deadline."""
    found, peer = {mode: [] for mode in MODES}, []
    for _ in range(rounds):
        if time.monotonic() < deadline:
            peer.append(read_by_sqlite(files["TRAIL"]))
        for mode, words in MODES.items():
            if found[mode] is not None and time.monotonic() < deadline:
                one = sample([program, *[files.get(it, it) for it in words]])
                found[mode] = None if one is None else [*found[mode], one]
    return found, peer


def line_of(rows, mode, seconds, bare, rest):
    """A line of the table; the ratio is to the bare replay of the same round."""
    if not seconds or not bare:
        return f"| {rows:,} | {mode} | not run | | | | |"
    ratios = [mine / other for mine, other in zip(seconds, bare)]
    pace = rows / statistics.median(seconds)
    return f"| {rows:,} | {mode} | {shown(seconds, '.3f')} | {pace:,.0f} | {shown(ratios, '.2f')} | {rest} |"


def main():
    parser = argparse.ArgumentParser()
    parser.add_argument("--prepare", action="store_true")
    parser.add_argument("--minutes", type=float, default=float("inf"))
    parser.add_argument("--rounds", type=int, default=5)
    parser.add_argument("program")
    parser.add_argument("folder")
    parser.add_argument("rows", type=int, nargs="+")
    args = parser.parse_args()
    files = {rows: prepare(args.program, args.folder, rows) for rows in args.rows}
    if args.prepare:
        return
    deadline = time.monotonic() + 60 * args.minutes
    print("| Rows | Mode | Seconds | Rows/s | Of a bare replay | Peak MB | Printed bytes |")
    print("|---|---|---|---|---|---|---|")
    for rows in args.rows:
        rounds = min(args.rounds, 5 if rows <= 100_000 else 3)
        found, peer = measured(args.program, files[rows], rounds, deadline)
        bare = [it[0] for it in found[BARE] or []]
        for mode, taken in found.items():
            taken = taken or []
            rest = f"{max(it[1] for it in taken):.0f} | {taken[0][2]:,}" if taken else ""
            print(line_of(rows, mode, [it[0] for it in taken], bare, rest))
        print(line_of(rows, "Python's sqlite3", peer, bare, "|"), flush=True)
    for path in (it for rows in args.rows for it in files[rows].values()):
        for written in (path, f"{path}-wal", f"{path}-shm"):
            if os.path.exists(written):
                os.remove(written)


if __name__ == "__main__":
    main()
