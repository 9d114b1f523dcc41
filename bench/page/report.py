"""Times --page of invented days against a bare replay.

usage: report.py PROGRAM FOLDER [--rounds N] [--instructions] [ROWS..]
"""

import argparse
import importlib.util
import os
import random
import re
import subprocess
import sys
import tempfile

sys.dont_write_bytecode = True
HERE = os.path.dirname(os.path.abspath(__file__))
TOP = os.path.join(HERE, "..", "..")
sys.path[:0] = [os.path.join(TOP, "tests", "page"), os.path.join(TOP, "bench", "replay")]
import cases  # noqa: E402
import days  # noqa: E402
import make_trail  # noqa: E402

spec = importlib.util.spec_from_file_location("replay_report", os.path.join(TOP, "bench", "replay", "report.py"))
replay = importlib.util.module_from_spec(spec)
spec.loader.exec_module(replay)

NAMES = ["ALPHA", "BETA", "GAMMA", "DELTA", "EPSILON", "ZETA"]
TABLES = ";".join(make_trail.TABLES) + ";"


def requests(rows, path):
    instruments = ["IRS5Y", "BASIS1Y"]
    days.invented(path, TABLES, days.Invented(rows, NAMES, instruments).rows, NAMES, instruments)


def orders(rows, path, many):
    """Orders that do not trade, at 20 prices a side, and cancels: at most 50 rest in an instrument, on average."""
    instruments = [f"I{k}" for k in range(1, many + 1)]
    chosen, messages, live = random.Random(many), [], []
    for n in range(rows):
        who, side = 1 + n % len(NAMES), 1 + n % 2
        if live and (len(live) > 50 * many or chosen.random() < 0.45):
            who, name = live.pop(chosen.randrange(len(live)))
            text = f"35=F|11=c{n}|41={name}|"
        else:
            price = 2500000 + (-2500 if side == 1 else 2500) * (1 + chosen.randrange(20))
            text = days.order(f"o{n}", chosen.choice(instruments), side, 10, price)
            live.append((who, f"o{n}"))
        messages.append((who, days.START + 10 * n, text))
    days.invented(path, TABLES, days.numbered(messages), NAMES, instruments)


def crosses(rows, path):
    """Crosses 20 ms apart in eight instruments, of which 750 sides are held; each then meets its first."""
    instruments = [f"I{k}" for k in range(1, 9)]
    messages = []
    for n in range(rows):
        text = cases.cross(f"k{n}", instruments[n % 8], 2.5, 10, f"b{n}", f"s{n}", str(1 + n % 2))
        messages += [(1 + n % len(NAMES), days.START + 20 * n, text), (0, days.START + 20 * n + 15001, "")]
    messages.sort(key=lambda it: it[1])
    days.invented(path, TABLES, days.numbered(messages[:rows]), NAMES, instruments)


DAYS = {
    "trades": ("IRS5Y", make_trail.make), "requests": ("IRS5Y", requests),
    "2 instruments": ("I1", lambda rows, path: orders(rows, path, 2)),
    "256 instruments": ("I1", lambda rows, path: orders(rows, path, 256)), "crosses": ("I1", crosses),
}


def instructions(words):
    """Millions of instructions of a program's run."""
    counted = ["valgrind", "--tool=callgrind", "--callgrind-out-file=/dev/null", *words]
    found = subprocess.run(counted, stdout=subprocess.DEVNULL, stderr=subprocess.PIPE, check=True).stderr.decode()
    return int(re.search(r"Collected : (\d+)", found)[1]) / 1e6


def timed(rounds, bare, page):
    """The columns of seconds, ratios, memory and bytes."""
    both = [(replay.sample(bare), replay.sample(page)) for _ in range(rounds)]
    columns = [replay.shown([it[k][0] for it in both], ".2f") for k in (0, 1)]
    ratios = replay.shown([page[0] / bare[0] for bare, page in both], ".2f")
    return [*columns, ratios, f"{max(it[1][1] for it in both):.0f}", f"{both[0][1][2]:,}"]


def main():
    parser = argparse.ArgumentParser()
    parser.add_argument("program")
    parser.add_argument("folder")
    parser.add_argument("--rounds", type=int, default=3)
    parser.add_argument("--instructions", action="store_true")
    parser.add_argument("rows", type=int, nargs="*", default=[100_000])
    args = parser.parse_intermixed_args()
    unit = "Million instructions" if args.instructions else "Seconds"
    print(f"| Rows | Day | {unit}, bare | With --page | Ratio | Peak MB | Bytes |\n|---|---|---|---|---|---|---|")
    for rows in args.rows:
        for day, (symbol, make) in DAYS.items():
            with tempfile.TemporaryDirectory(dir=args.folder) as folder:
                trail = os.path.join(folder, "day.trail")
                make(rows, trail)
                bare, page = [args.program, trail, "--book", symbol, "--csv"], [args.program, trail, "--page"]
                if args.instructions:
                    counts = [instructions(words) for words in (bare, page)]
                    columns = [*(f"{n:,.0f}" for n in counts), f"{counts[1] / counts[0]:.2f}", "", ""]
                else:
                    columns = timed(args.rounds, bare, page)
            print(f"| {rows:,} | {day} | {' | '.join(columns)} |", flush=True)


if __name__ == "__main__":
    main()
