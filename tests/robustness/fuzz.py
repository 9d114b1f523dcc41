#!/usr/bin/env python3
"""Fuzzing: frames mutated from real ones, through `once` and through a served venue's port.

usage: fuzz.py PORT VENUE_MAIN [BYTES [SEED]]

VENUE_MAIN is the program; PORT and the next four are its ports. BYTES (10000000) go through each. The bytes come
from SEED (1), so a run can be repeated.

1. Each run of `once` reads a Logon, some 16,000 mutated bytes, bytes that end whatever frame they left open, and a
   Logon that begins an era with an order, its cancel and a snapshot request. The program ends with status 0 and an
   empty standard error, each frame that it wrote is whole and has its number, and the last four answers are the
   right ones, unless a Logout ended the session: then that is the last frame.
2. A sender has the served venue's first port. It cuts its bytes anywhere, breaks its connection now and then, and
   reconnects when it is dropped. In parallel DELTA and EPSILON trade in another instrument, and each of their
   answers is compared to the last byte, but for timestamps and the venue's own numbers. After that ALPHA logs on at
   that first port and trades with EPSILON in the same way. DELTA's round trips before and during the bytes are
   printed.
"""

import collections
import functools
import multiprocessing
import os
import re
import subprocess
import sys
import tempfile
import time

sys.path.insert(0, os.path.join(os.path.dirname(os.path.abspath(__file__)), "..", "lib"))
from checked_client import SYMBOL, CheckedClient, market, trade  # noqa: E402
from fix import Venue, expect, shown, wire  # noqa: E402
from hostile import HostileClient, Mutator, Received  # noqa: E402

RUN = 16_000  # bytes of a run of `once`
ENDING = b"x" * 8300  # after which no frame that began before can end
ROUNDS = 100  # before the bytes are sent


def counted(kinds):
    return ", ".join(f"{count} of 35={kind}" for kind, count in sorted(kinds.items()))


def ending(mutator):
    """A Logon that begins an era, an order, its cancel and a snapshot request, and their answers."""
    mutator.number = 1
    asked = [
        ("A", "98=0|108=30|1137=9|141=Y|"),
        ("D", f"11=s1|55={SYMBOL}|54=2|38=10|40=2|44=2.5|"),
        ("F", "11=s2|41=s1|"),
        ("V", f"262=v1|263=0|264=0|267=1|269=0|146=1|55={SYMBOL}|"),
    ]
    answers = [
        "35=A|49=SEF|56=ALPHA|34=1|52=20250303-14:30:00.000|98=0|108=30|1137=9|141=Y|",
        f"35=8|49=SEF|56=ALPHA|34=2|52=20250303-14:30:00.000|37=*|17=*|150=0|39=0|55={SYMBOL}|54=2|151=10|14=0|11=s1|",
        f"35=8|49=SEF|56=ALPHA|34=3|52=20250303-14:30:00.000|37=*|17=*|150=4|39=4|55={SYMBOL}|54=2|151=0|14=0|11=s2|41=s1|",
        f"35=W|49=SEF|56=ALPHA|34=4|52=20250303-14:30:00.000|262=v1|55={SYMBOL}|268=1|269=J|",
    ]
    frames = [mutator.plain(kind.encode("ascii"), wire(text)) for kind, text in asked]
    return b"".join(frames), [re.compile(re.escape(answer).replace(r"\*", r"[OE][0-9]+")) for answer in answers]


def run_once(program, files, seed, run):
    """One run of `once`: how many mutated bytes and frames it read, what it answered, and whether to the last frame."""
    mutator = Mutator(b"ALPHA", f"{seed} once {run}")
    stream = mutator.log_on()
    while len(stream) < RUN:
        stream += mutator.mutated()
    read = len(stream)
    last, expected = ending(mutator)
    command = [program, "once", *files.words(), "--at", "20250303-14:30:00"]
    ended = subprocess.run(command, input=stream + ENDING + last, capture_output=True)
    which = f"run {run} of once with seed {seed}"
    expect(f"{which}: status and standard error", (ended.returncode, ended.stderr), (0, b""))
    answers = Received()
    bodies = answers.read(ended.stdout)
    expect(f"{which}: what follows the last frame", answers.unread, b"")
    if answers.kinds["5"]:
        expect(f"{which}: Logouts and the last type", (answers.kinds["5"], answers.last[:5]), (1, b"35=5\x01"))
        return read, mutator.frames, answers.kinds, 0
    for found, answer in zip(bodies[-4:], expected, strict=True):
        if not answer.fullmatch(shown(found)):
            raise SystemExit(f"{which}: {shown(found)}, and not {answer.pattern}")
    return read, mutator.frames, answers.kinds, 1


def run_or_fault(program, files, seed, run):
    """The same, or what was not as expected: a worker that ends reports nothing."""
    try:
        return run_once(program, files, seed, run)
    except SystemExit as fault:
        return str(fault)


def fuzz_once(program, files, count, seed):
    total = frames = whole = 0
    kinds = collections.Counter()
    runs = 1 + count // RUN
    with multiprocessing.Pool() as pool:
        for outcome in pool.imap_unordered(functools.partial(run_or_fault, program, files, seed), range(runs)):
            if isinstance(outcome, str):
                raise SystemExit(outcome)
            more, mutated, answered, is_whole = outcome
            total, frames, whole = total + more, frames + mutated, whole + is_whole
            kinds += answered
    print(f"once: {total} bytes, {frames} mutated frames, in {runs} runs, {whole} of them answered to the last frame")
    print(f"once: answered by {counted(kinds)}", flush=True)


def attack(port, count, seed, pipe):
    sender = HostileClient(port, seed)
    try:
        sender.run(count)
    except SystemExit as fault:
        pipe.send(("fault", str(fault)))
        return
    frames, lines = sender.mutator.frames, sender.lines
    summary = f"{sender.sent} bytes, {frames} mutated frames, on {lines} connections, of which {sender.drops} were dropped"
    pipe.send((summary, sender.received.kinds))


def round_trips(seller, buyer, until, name):
    """Trades until then; the seconds of each snapshot request."""
    trips = []
    while not until(len(trips)):
        trade(seller, buyer, f"{name}{len(trips)}")
        begun = time.monotonic()
        seller.snapshot(f"p{name}{len(trips)}")
        trips.append(time.monotonic() - begun)
    return sorted(trips)


def microseconds(trips):
    return f"{trips[len(trips) // 2] * 1e6:.0f} us at the median, {trips[len(trips) * 99 // 100] * 1e6:.0f} us for 99 of 100"


def fuzz_served(program, files, port, count, seed):
    with Venue(program, files, port) as venue:
        venue.await_start()
        delta = CheckedClient("DELTA", port + 3).begin()
        epsilon = CheckedClient("EPSILON", port + 4).begin()
        before = round_trips(delta, epsilon, lambda rounds: rounds >= ROUNDS, "b")
        here, there = multiprocessing.Pipe()
        sender = multiprocessing.Process(target=attack, args=(port, count, seed, there), daemon=True)
        sender.start()
        during = round_trips(delta, epsilon, lambda rounds: rounds >= ROUNDS and not sender.is_alive(), "d")
        what, kinds = here.recv() if here.poll() else ("fault", f"the sender ended with status {sender.exitcode}")
        if what == "fault":
            raise SystemExit(kinds)
        print(f"serve: {what}")
        print(f"serve: answered by {counted(kinds)}")
        print(f"serve: {len(before)} trades of two clients before, a round trip takes {microseconds(before)}")
        print(f"serve: {len(during)} trades during the bytes, a round trip takes {microseconds(during)}")
        print(f"serve: DELTA received {delta.of_others} other messages, of requests that the sender made")
        alpha = CheckedClient("ALPHA", port).begin()
        for k in range(ROUNDS):
            trade(alpha, epsilon, f"a{k}")
        print(f"serve: {ROUNDS} trades of ALPHA on the port that had the bytes")
        expect("the venue's faults", (venue.is_up(), venue.faults()), (True, ""))


def main():
    if not 3 <= len(sys.argv) <= 5:
        raise SystemExit(__doc__)
    port, program = int(sys.argv[1]), sys.argv[2]
    count = int(sys.argv[3]) if len(sys.argv) > 3 else 10_000_000
    seed = sys.argv[4] if len(sys.argv) > 4 else "1"
    print(f"seed {seed}")
    with tempfile.TemporaryDirectory() as folder:
        files = market(folder)
        fuzz_once(program, files, count, seed)
        fuzz_served(program, files, port, count, seed)
    print("no byte stopped the venue")


if __name__ == "__main__":
    main()
