#!/usr/bin/env python3
"""venue_main's messages and status where the command line, a file or the stream is refused, and its answers to streams.

Each of cases/ is what the program reads, with its arguments in a file NAME.args, one a line. Its output is compared
with expected.stdout, its standard error and status with expected.stderr. Some of the streams come again as in
streams.py; sizes.py has messages of each size, and texts.py texts and trails that are refused. The program is that of
crates/venue_main/out, or the one that is named.

usage: refusals.py [PROGRAM]
"""
import difflib
import os
import shutil
import socket
import subprocess
import sys
import tempfile

sys.dont_write_bytecode = True
import sizes
import streams
import texts

HERE = os.path.dirname(os.path.abspath(__file__))
sys.path.insert(0, os.path.join(HERE, "..", "lib"))
from fix import without_events  # noqa: E402

EXAMPLES = f"{HERE}/../../examples"
CRATES = f"{HERE}/../../crates"
PROGRAM = os.path.abspath(sys.argv[1] if len(sys.argv) > 1 else f"{CRATES}/venue_main/out/venue_main")
FILES = [f"{EXAMPLES}/{name}.toml" for name in ("participants", "instruments")]
FILES += [it.path for it in os.scandir(f"{HERE}/files")]
DAY = f"{EXAMPLES}/sample_day/day.trail"
TAKEN = 25911  # the third port of case port_taken; the ports of all cases are below those of connections
LONGEST = 60  # seconds


class Folder(tempfile.TemporaryDirectory):
    """A folder of its own, with the files."""

    def __enter__(self):
        folder = super().__enter__()
        for file in FILES:
            shutil.copy(file, folder)
        return folder


def stream_of(case):
    with open(f"{HERE}/cases/{case}", "rb") as it:
        return it.read()


def run(case):
    """The program's output in a case, and its standard error and status in a line."""
    with open(f"{HERE}/cases/{case}.args", encoding="utf-8") as it:
        arguments = it.read().splitlines()
    with Folder() as folder:
        how = {"cwd": folder, "capture_output": True, "timeout": LONGEST, "check": False}
        ran = subprocess.run([PROGRAM, *arguments], input=stream_of(case), **how)
    return ran.stdout, f"{without_events(ran.stderr.decode())}case={case} run=ended status={ran.returncode}\n"


def section(case, printed):
    """The section of a case in expected.stdout. Frames have no end of line."""
    text = printed.decode()
    return f"== {case}\n{text}" + ("" if not text or text.endswith("\n") else "\n== (no line's end)\n")


def is_as_stored(name, found):
    with open(f"{HERE}/{name}", encoding="utf-8", newline="") as it:
        stored = it.read()
    sys.stdout.writelines(difflib.unified_diff(stored.splitlines(True), found.splitlines(True), name, "found"))
    return found == stored


def is_as_expected(row):
    name, found, expected = row
    if found != expected:
        print(f"{name}:\n  found    {found}\n  expected {expected}")
    return found == expected


if not os.access(PROGRAM, os.X_OK):
    sys.exit("tests/cli: venue_main is not built (./run --proved builds it)")
with socket.create_server(("127.0.0.1", TAKEN)):
    cases = sorted(it.removesuffix(".args") for it in os.listdir(f"{HERE}/cases") if it.endswith(".args"))
    found = {case: run(case) for case in cases}
printed = "".join(section(case, it) for case, (it, _) in found.items())
stderr = "".join(it for _, it in found.values())
with Folder() as folder:
    answered = {case: (stream_of(case), it) for case, (it, _) in found.items()}
    rows = [*streams.rows(PROGRAM, folder, answered), *sizes.rows(PROGRAM, folder), *texts.rows(PROGRAM, folder, DAY)]
    results = [is_as_expected(row) for row in rows]
if not all([is_as_stored("expected.stdout", printed), is_as_stored("expected.stderr", stderr), *results]):
    sys.exit(1)
print(f"the program's {len(found) + len(results)} refusals and answers are as expected")
