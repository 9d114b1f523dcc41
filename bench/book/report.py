"""Times the order book and the RFQ rooms by test_scenarios and by their peers in C++, alternately and at several sizes;
prints nanoseconds and ratios."""

import os
import subprocess
import sys

PROGRAM = "crates/test_scenarios/out/test_scenarios"
# the orders that rest on each side of each instrument, the orders closed before, and the instruments
SIZES = (
    (10, 1_000, 1),
    (10, 10_000, 1),
    (10, 100_000, 1),
    (10, 1_000_000, 1),
    (199, 1_000, 1),
    (199, 100_000, 1),
    (10, 1_000, 256),
    (100, 1_000, 256),
    (199, 1_000, 256),
)
KINDS = ("rest", "replace", "cancel", "fill", "snapshot")
# the RFQ rooms closed before
ROOMS_CLOSED = (1_000, 10_000, 100_000, 1_000_000)
ROOM_KINDS = ("request", "quote", "hit")
SAMPLES = 4


def timings(words, kinds):
    """The nanoseconds that a program prints, a line for each kind of request."""
    lines = subprocess.run(words, check=True, capture_output=True, text=True).stdout.splitlines()
    if len(lines) != len(kinds):
        raise SystemExit(f"bench/book: {words[0]} prints {len(lines)} lines, and not {len(kinds)}")
    return {kind: int(line.split()[1]) for kind, line in zip(kinds, lines)}


def alternately(words, peer, kinds):
    """The samples of a program and of its peer, which run alternately."""
    samples = [(timings(words, kinds), timings(peer, kinds)) for _ in range(SAMPLES)]
    return [ours for ours, _ in samples], [theirs for _, theirs in samples]


def best(samples):
    """The best of the samples, of each kind by itself."""
    return {kind: min(sample[kind] for sample in samples) for kind in samples[0]}


def time_book(timed, directory):
    """A line for each size and kind of request: nanoseconds of both, and the ratio."""
    for resting, closed, instruments in SIZES:
        # (where many rest, one request is timed in each instrument)
        timed_here = min(timed, instruments) if resting * instruments > 10_000 else timed
        size = [str(resting), str(closed), str(instruments), str(timed_here)]
        ours, theirs = alternately([PROGRAM, "book", *size], [os.path.join(directory, "book_peer"), *size], KINDS)
        book, peer = best(ours), best(theirs)
        print(f"{resting} rest on each side, {closed} closed, {instruments} instruments:")
        for kind in KINDS:
            ratio = book[kind] / max(peer[kind], 1)
            print(f"  {kind}: {book[kind]} ns, C++ {peer[kind]} ns, ratio {ratio:.2f}", flush=True)


def time_rooms(timed, directory):
    """A table with a row for each count of closed rooms: the best samples, their ratio, and the ratio of each
    sample."""
    print("| rooms closed | " + " | ".join(f"{kind}: ns | C++ | ratio (of each sample)" for kind in ROOM_KINDS) + " |")
    print("|---" * (1 + 3 * len(ROOM_KINDS)) + "|")
    for closed in ROOMS_CLOSED:
        size = [str(closed), str(timed)]
        ours, theirs = alternately([PROGRAM, "rooms", *size], [os.path.join(directory, "rfq_peer"), *size], ROOM_KINDS)
        rooms, peer = best(ours), best(theirs)
        cells = [f"{closed:,}"]
        for kind in ROOM_KINDS:
            each = ", ".join(f"{a[kind] / max(b[kind], 1):.2f}" for a, b in zip(ours, theirs))
            cells += [str(rooms[kind]), str(peer[kind]), f"{rooms[kind] / max(peer[kind], 1):.2f} ({each})"]
        print("| " + " | ".join(cells) + " |", flush=True)


def main():
    timed, directory = int(sys.argv[1]), sys.argv[2]
    time_book(timed, directory)
    time_rooms(timed, directory)


if __name__ == "__main__":
    main()
