"""Texts that are refused, those of participants before those of instruments; the longest text; trails; a stop file."""
import contextlib
import os
import shutil
import sqlite3
import subprocess

from refused_files import INSTRUMENTS, PARTICIPANTS, ROW

LONGEST = 60  # seconds
MOST_BYTES = 1_048_576


def ran(words, folder):
    """The program's output, standard error and status."""
    done = subprocess.run(words, cwd=folder, stdin=subprocess.DEVNULL, capture_output=True, timeout=LONGEST, check=False)
    return done.stdout.decode(), done.stderr.decode(), done.returncode


def write(folder, name, text):
    with open(os.path.join(folder, name), "w", encoding="utf-8") as it:
        it.write(text)
    return name


def checks(program, folder):
    """`check` of each file that is refused, alone and with one for instruments of each number."""

    def row(participants, instruments, fault, line):
        words = [program, "check", "--participants", participants, "--instruments", instruments]
        return f"check of {participants} and {instruments}", ran(words, folder), ("", f"venue_main: {fault}\n  {line}\n", 3)

    def files(kind, rows):
        return [(number, write(folder, f"{kind}_{name}", text), line) for name, number, text, line in rows]

    first, later = files("participants", PARTICIPANTS), files("instruments", INSTRUMENTS)
    for number, participants, line in first:
        yield row(participants, "instruments.toml", f"participants refused {number}", line)
    for number, instruments, line in later:
        yield row("participants.toml", instruments, f"instruments refused {number}", line)
    for number, participants, line in {row[0]: row for row in first}.values():
        for _, instruments, _ in {row[0]: row for row in later}.values():
            yield row(participants, instruments, f"participants refused {number}", line)


def lengths(program, folder):
    """A text of as many bytes as it may have has no name; one that has one more is not read."""
    for count, fault, status in ((MOST_BYTES, "participants refused 2\n  venue is missing", 3), (MOST_BYTES + 1, "stopped: input\n  long: more than 1048576 bytes", 1)):
        long = write(folder, "long", count * "#")
        words = [program, "check", "--participants", long, "--instruments", "instruments.toml"]
        yield f"check of a text of {count} bytes", ran(words, folder), ("", f"venue_main: {fault}\n", status)


def most_rows(program, folder):
    """Files with as many rows as they may have: names of each length, and each pair of participants."""
    names = [f"{k:02d}{'N' * (2 * k)}" for k in range(32)]
    pairs = [(a, b) for place, b in enumerate(names) for a in names[:place]]
    participants = 'venue = "SEF"\n' + "".join(f'[[participant]]\nname = "{name}"\n' for name in names)
    participants += "".join(f'[[related]]\na = "{a}"\nb = "{b}"\n' for a, b in pairs)
    instruments = "".join(ROW.format(f"{k:03d}{'S' * (k % 62)}") for k in range(256))
    words = [program, "check", "--participants", write(folder, "most_participants", participants), "--instruments", write(folder, "most_instruments", instruments)]
    yield "check of the most rows", ran(words, folder), ("participants 32 related 496 instruments 256\n", "", 0)


def trails(program, folder, day):
    """`check` with a trail of these files and of others; `serve` with one in which a row is missing, and with one that
    somebody has open."""
    files = ["--participants", "of_the_day", "--instruments", "rows_of_the_day"]
    words = [program, "serve", *files, "--port", "25960", "--turns", "1", "--trail", "day"]
    shutil.copy(day, os.path.join(folder, "day"))
    with contextlib.closing(sqlite3.connect(os.path.join(folder, "day"), isolation_level=None)) as database:
        for name, column in (("of_the_day", "participants"), ("rows_of_the_day", "instruments")):
            write(folder, name, bytes(database.execute(f"SELECT {column} FROM head").fetchone()[0]).decode())
        database.execute("UPDATE delay SET ms = 15000")
    yield from checks_of_a_trail(program, folder, files)
    with contextlib.closing(sqlite3.connect(os.path.join(folder, "day"), isolation_level=None)) as database:
        database.execute("BEGIN EXCLUSIVE")
        yield "serve with a trail that somebody has open", ran(words, folder), ("", "venue_main: stopped: trail\n", 1)
        database.execute("DELETE FROM item WHERE n = 2")
        database.execute("COMMIT")
    yield "serve with a trail in which a row is missing", ran(words, folder), ("", "venue_main: trail refused 3\n", 3)


def checks_of_a_trail(program, folder, files):
    counts = "participants 5 related 1 instruments 2\n"
    yield "check of a trail of these files", ran([program, "check", *files, "--trail", "day"], folder), (counts, "", 0)
    with open(os.path.join(folder, "of_the_day"), encoding="utf-8") as it:
        commented = write(folder, "commented", "# a comment\n" + it.read())
    words = [program, "check", "--participants", commented, *files[2:], "--trail", "day"]
    line = "the trail keeps another participant file: line 1 is the first that differs"
    yield "check of a trail of other files", ran(words, folder), (counts, f"venue_main: trail refused 2\n  {line}\n", 3)


def stops(program, folder):
    """`serve` with a stop file from before ends, and says why."""
    words = [program, "serve", "--participants", "participants.toml", "--instruments", "instruments.toml"]
    words += ["--port", "25970", "--turns", "1000000000", "--stop-file", write(folder, "stop", "")]
    printed, faults, status = ran(words, folder)
    line = "venue_main: the stop file stop is there already"
    yield "serve with a stop file from before", (printed, faults.split("\n")[0], status), ("closed sessions 5 taken 0\n", line, 0)


def rows(program, folder, day):
    """Each row: its name, what was found, and what is expected."""
    yield from checks(program, folder)
    yield from lengths(program, folder)
    yield from most_rows(program, folder)
    yield from trails(program, folder, day)
    yield from stops(program, folder)
