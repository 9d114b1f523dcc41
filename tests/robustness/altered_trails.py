#!/usr/bin/env python3
"""A trail is altered byte by byte, and its log is cut: sef_replay refuses it, or prints the digest of what is there.

usage: altered_trails.py SEF_REPLAY [STRIDE [FIRST]]

SEF_REPLAY is the program. Of the places below each STRIDE-th (1) is taken, from place FIRST (0) on.

1. Each byte of the sample day is changed by a value that its place draws; where it is content of a table, by a second
   value too.
2. The same day with its rows in the log, each committed by itself: the log is cut at each 512 bytes, and a byte of each
   512 is changed.

`sef_replay --digest` of each copy is refused with status 1 or 3 and a known line, and prints nothing; or it prints a
digest. Where that is the day's, all answers have to be the day's, and Python's SQLite has to read the same of the copy
(tests/cli/check_digest.py), if it reads anything. Nothing is written: no byte, no time, no name in the folder changes.
Each outcome is counted.
"""

import collections
import concurrent.futures
import os
import random
import re
import shutil
import sqlite3
import subprocess
import sys
import tempfile

HERE = os.path.dirname(os.path.abspath(__file__))
sys.path += [os.path.join(HERE, "..", "lib"), os.path.join(HERE, "..", "cli")]
from check_digest import digests, stored  # noqa: E402
from fix import EXAMPLES  # noqa: E402

DAY = os.path.join(EXAMPLES, "sample_day", "day.trail")
DAY_SQL = os.path.join(EXAMPLES, "sample_day", "day.sql")
LONGEST = 600  # seconds, on a machine that does much else
PIECE = 512  # bytes of a log
PAGE = 4096
TREES = {2: 12, 5: 12, 10: 8, 13: 8}  # the length of a page's head, by the type of its tree
REFUSED = re.compile(rb"sef_replay: (trail refused [1-5]|stopped: trail)\n(  .*\n)?")
DIGEST = re.compile(rb"[0-9]+ [0-9a-f]{64}\n")


def changed(data, at, value):
    return data[:at] + bytes([data[at] ^ value]) + data[at + 1 :]


def drawn(at):
    """Two values that the place draws, which change a byte."""
    return random.Random(at).sample(range(1, 256), 2)


def content_of(data):
    """The places of a file's cells: of a page with a tree from where these begin, of another page all."""
    places = set()
    for start in range(0, len(data), PAGE):
        head = start + (100 if start == 0 else 0)
        begins = int.from_bytes(data[head + 5 : head + 7], "big") if data[head] in TREES else 0
        places.update(range(start + begins, start + PAGE))
    return places


def day_with_log(folder):
    """The bytes of the day's file and log, with a transaction for the tables and files, and one for each row."""
    path = os.path.join(folder, "day.trail")
    with open(DAY_SQL, encoding="utf-8") as file:
        tables, _, rows = file.read().partition("INSERT INTO item")
    database = sqlite3.connect(path, isolation_level=None)
    database.executescript("PRAGMA wal_autocheckpoint = 0;" + tables + "COMMIT;")
    whole = sqlite3.connect(shutil.copy(DAY, os.path.join(folder, "whole.trail")))
    kept = [("item", row) for row in whole.execute("SELECT n, who, number, moment, text FROM item ORDER BY n")]
    kept += [("later_era", row) for row in whole.execute("SELECT n, era FROM later_era ORDER BY n")]
    whole.close()
    for table, row in kept:
        database.execute(f"INSERT INTO {table} VALUES ({', '.join('?' * len(row))})", row)
    data = []
    for end in ("", "-wal"):
        with open(path + end, "rb") as file:
            data.append(file.read())
    database.close()
    return data


def read_by_python(path):
    """The line that --digest would print of a trail, or None where Python's SQLite reads none."""
    try:
        last = collections.deque(digests(*stored(path)), 1)[0]
    except (sqlite3.Error, TypeError, OverflowError, AttributeError, ValueError):
        return None
    return b"%d %s\n" % (last[0], last[1].hex().encode("ascii"))


def state_of(folder):
    """The name, bytes and time of each file of a folder."""
    found = {}
    for name in os.listdir(folder):
        path = os.path.join(folder, name)
        with open(path, "rb") as file:
            found[name] = (file.read(), os.stat(path).st_mtime_ns)
    return found


class Wrong(Exception):
    """What is not as it may be."""


def asked(program, path, *words):
    """Status, output and errors of the program, which writes nothing."""
    before = state_of(os.path.dirname(path))
    try:
        ran = subprocess.run([program, *words, path], capture_output=True, timeout=LONGEST, check=False)
    except subprocess.TimeoutExpired:
        raise Wrong(f"no answer in {LONGEST} s") from None
    if state_of(os.path.dirname(path)) != before:
        raise Wrong("the folder is not as it was")
    return ran.returncode, ran.stdout, ran.stderr


def outcome_of(program, path, day):
    """What the program says of a trail: a word. `day` is what it says of the whole day: its digest and answers."""
    status, printed, errors = asked(program, path, "--digest")
    if status in (1, 3):
        if printed or not REFUSED.fullmatch(errors):
            raise Wrong(f"status {status}, printed {printed}, {errors}")
        return f"refused ({errors.split(b': ', 1)[1].splitlines()[0].decode('ascii')})"
    if status != 0 or errors or not DIGEST.fullmatch(printed):
        raise Wrong(f"status {status}, printed {printed}, {errors}")
    by_python = read_by_python(path)
    is_day = printed == day[0]
    if by_python is not None and by_python != printed and is_day:
        raise Wrong(f"the digest of the day, and Python reads other rows: {by_python}")
    if is_day and asked(program, path, "--answers") != (0, day[1], b""):
        raise Wrong("the digest of the day, and other answers")
    agreed = "as Python's" if by_python == printed else "none by Python" if by_python is None else "another than Python's"
    return f"{'the same rows' if is_day else 'another digest'} ({agreed})"


def run(program, day, name, files):
    """The outcome for a trail of these bytes, with its log if there is one; or what is wrong with it."""
    folder = tempfile.mkdtemp()
    try:
        path = os.path.join(folder, "altered.trail")
        for end, data in zip(("", "-wal"), files):
            with open(path + end, "wb") as file:
                file.write(data)
        return outcome_of(program, path, day), None
    except Wrong as wrong:
        return "WRONG", f"{name}: {wrong}"
    finally:
        shutil.rmtree(folder)


def bytes_changed(data, places):
    """Each byte, and that of a table's content twice."""
    content = content_of(data)
    for at in places(range(len(data))):
        for value in drawn(at)[: 1 + (at in content)]:
            yield f"byte {at} changed by {value}", [changed(data, at, value)]


def log_changed(data, log, places):
    """The log cut at each piece, and then a byte of each piece changed."""
    for at in places(range(0, len(log) + PIECE, PIECE)):
        yield f"the log cut at {at}", [data, log[:at]]
    for at in places(range(0, len(log), PIECE)):
        place = min(at + drawn(at)[0] * 2, len(log) - 1)
        yield f"byte {place} of the log changed", [data, changed(log, place, drawn(place)[0])]


def count(title, program, day, cases):
    """Runs all cases, as many at once as there are processors; prints the counts, and returns what is wrong."""
    counts, wrong, waiting = collections.Counter(), [], set()
    with concurrent.futures.ProcessPoolExecutor(os.cpu_count()) as pool:
        for name, files in cases:
            waiting.add(pool.submit(run, program, day, name, files))
            if len(waiting) >= 200:
                done, waiting = concurrent.futures.wait(waiting, return_when=concurrent.futures.FIRST_COMPLETED)
                add_all(done, counts, wrong)
        add_all(waiting, counts, wrong)
    print(f"{title}: {counts.total()} runs: " + ", ".join(f"{many} {it}" for it, many in sorted(counts.items())))
    for it in wrong[:20]:
        print(f"  {it}", flush=True)
    return wrong


def add_all(done, counts, wrong):
    for it in done:
        outcome, fault = it.result()
        counts[outcome] += 1
        wrong += [fault] if fault else []


def main():
    if not 2 <= len(sys.argv) <= 4:
        raise SystemExit(__doc__)
    program = os.path.abspath(sys.argv[1])
    stride = int(sys.argv[2]) if len(sys.argv) > 2 else 1
    first = int(sys.argv[3]) if len(sys.argv) > 3 else 0

    def places(all_places):
        return all_places[first % stride :: stride]

    # (other tests run in parallel, and bound the time to an answer)
    os.nice(5)
    with open(DAY, "rb") as file:
        data = file.read()
    with tempfile.TemporaryDirectory() as folder:
        copy = shutil.copy(DAY, folder)
        status, digest, errors = asked(program, copy, "--digest")
        if (status, digest, errors) != (0, read_by_python(copy), b""):
            raise SystemExit(f"the day itself: status {status}, printed {digest}, {errors}")
        day = digest, asked(program, copy, "--answers")[1]
    with tempfile.TemporaryDirectory() as folder:
        file_of_log, log = day_with_log(folder)
    wrong = count("bytes of the file", program, day, bytes_changed(data, places))
    wrong += count("a log that is cut or changed", program, day, log_changed(file_of_log, log, places))
    if wrong:
        raise SystemExit(f"{len(wrong)} runs were not as they may be")
    print("no altered byte was overlooked")


if __name__ == "__main__":
    main()
