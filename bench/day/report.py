"""Times a venue over a long day, says what its memory is of, and compares the trades with those of the replay."""

import os
import subprocess
import sys
import time
from itertools import zip_longest

sys.path.insert(0, "bench")
from venues import fresh, numbers_in, ours  # noqa: E402

REPLAY = os.environ.get("SEF_REPLAY", "crates/sef_replay/out/sef_replay")
PORT = 7300
SENDER, MAKER = 0, 3  # participants, who are not related
FIRST, BLOCK = 1_000, 100_000
A_RUN = 2_500_000  # messages, after which a venue with a trail is started again from it: a run keeps what it sent
TRIPS = 1_000
RESTS, REFUSED, TESTS = "IRS5Y", "NOPE", "-"  # orders that rest, and cancels; refused ones; TestRequests
OF_EACH = 100_000  # messages of a kind
MOST_BYTES = 1_200  # that a message leaves: what has to be free for the day to begin


class Day:
    """A venue with one participant that sends, and where trades are written down one that fills its orders."""

    def __init__(self, directory, symbol, *options, trades_in=None):
        self.venue = ours(PORT, *options)
        words = [f"{directory}/day_client", str(PORT + SENDER), self.venue.names[SENDER], symbol]
        if trades_in:
            words += [str(PORT + MAKER), self.venue.names[MAKER], trades_in]
        self.client = subprocess.Popen(words, stdin=subprocess.PIPE, stdout=subprocess.PIPE, text=True)
        self.options, self.has_trail = options, "--trail" in options
        self.sent = self.last = 0
        self.before = self.venue.resident()

    def send(self, how, count):
        """What the client prints of this many messages; and the venue's processor seconds."""
        before = self.venue.on_processor()
        print(how, count, file=self.client.stdin, flush=True)
        line = self.client.stdout.readline()
        if not line:
            raise SystemExit("bench/day: the client ends before its last answer")
        self.sent += count
        return numbers_in(line), self.venue.on_processor() - before

    def send_up_to(self, count):
        while count > self.sent:
            self.send("many", min(count, self.sent + A_RUN - self.sent % A_RUN) - self.sent)
            if self.has_trail and self.sent < count and self.sent % A_RUN == 0:
                self.restart()

    def restart(self):
        trades = self.send("out", 0)[0]["trades"]
        had, begun = self.venue.resident(), time.monotonic()
        self.venue.end()
        self.venue = ours(PORT, *self.options)
        took = f"{time.monotonic() - begun:.1f} s, {self.venue.resident() / 1e6:,.0f} MB"
        print(f"started again after {self.sent:,} messages, {trades:,} trades, {had / 1e6:,.0f} MB: {took}", flush=True)
        self.send("on", 0)
        self.before, self.last = self.venue.resident(), self.sent

    def left(self):
        """The bytes that the venue has, and those that each message left since it was last asked."""
        now = self.venue.resident()
        each = (now - self.before) / max(self.sent - self.last, 1)
        self.before, self.last = now, self.sent
        return now, each

    def end(self):
        self.client.kill()
        self.client.wait()
        self.venue.end()


def free_bytes():
    with open("/proc/meminfo", encoding="utf-8") as file:
        rows = dict(line.split(":") for line in file)
    return int(rows["MemAvailable"].split()[0]) * 1024


def counts(messages):
    """The counts of messages at which the day is measured."""
    count = FIRST
    while count <= messages:
        yield count
        count *= 10


def print_day(directory, messages, *options):
    """The table of a day, whose trades are written down as they are reported; where they are."""
    print("| After | Processor each, us | Messages/s | p50, us | p99, us | Memory, MB | Bytes each |\n|" + "---|" * 7)
    trades_in = f"{directory}/day_trades"
    day = Day(directory, RESTS, *options, trades_in=trades_in)
    begun = day.before
    try:
        for count in counts(messages):
            day.send_up_to(count)
            now, each = day.left()
            block = min(count, BLOCK)
            took, cost = day.send("many", block)
            trips, _ = day.send("trips", TRIPS)
            pace = block / (took["us"] / 1e6)
            cells = f"{cost / block * 1e6:.1f} | {pace:,.0f} | {trips['p50_us']} | {trips['p99_us']}"
            print(f"| {count:,} | {cells} | {now / 1e6:,.0f} | {each:,.0f} |", flush=True)
        trades = day.send("out", 0)[0]["trades"]
    finally:
        day.end()
    names = [day.venue.names[who] for who in (SENDER, MAKER)]
    print(f"{begun / 1e6:.0f} MB at the start; {day.sent:,} messages, {trades:,} trades", flush=True)
    return [(name, f"{trades_in}.{name}") for name in names]


def lines_of(path):
    with open(path, encoding="utf-8") as file:
        yield from map(str.strip, file)


def compare_replay(trail, reported):
    """Whether the trades of the replay are those that were reported to each of the two, and what the replay took."""
    (buyer, bought), (seller, sold) = reported
    begun = time.monotonic()
    count = 0
    with subprocess.Popen([REPLAY, trail], stdout=subprocess.PIPE, text=True) as replay:
        for line, one, other in zip_longest(replay.stdout, lines_of(bought), lines_of(sold), fillvalue=""):
            if one != other or line != f"{one} buyer {buyer} seller {seller}\n":
                raise SystemExit(f"bench/day: replayed {line!r}, reported to {buyer} {one!r}, to {seller} {other!r}")
            count += 1
        _, status, usage = os.wait4(replay.pid, 0)
        replay.returncode = os.waitstatus_to_exitcode(status)
    if replay.returncode:
        raise SystemExit(f"bench/day: {REPLAY}: status {replay.returncode}")
    size = sum(os.path.getsize(path) for path in (trail, trail + "-wal") if os.path.exists(path))
    cost = f"{usage.ru_utime + usage.ru_stime:.1f} s of the processor, {usage.ru_maxrss / 1024:,.0f} MB"
    took = f"{time.monotonic() - begun:.1f} s, {cost}, from {size / 1e6:,.0f} MB"
    print(f"replayed to the same {count:,} trades that were reported to both: {took}", flush=True)


def left_by(directory, symbol, *options):
    """The bytes that a message of this kind leaves, once as many went before."""
    day = Day(directory, symbol, *options)
    try:
        day.send_up_to(OF_EACH)
        before = day.venue.resident()
        day.send("many", 4 * OF_EACH)
        return (day.venue.resident() - before) / (4 * OF_EACH)
    finally:
        day.end()


def main():
    directory, messages, folders = sys.argv[1], int(sys.argv[2]), sys.argv[3:]
    if free_bytes() < messages * MOST_BYTES:
        raise SystemExit(f"bench/day: {messages * MOST_BYTES / 1e9:.0f} GB of memory have to be free")
    trails = [("rows in memory", [])]
    for folder in folders:
        trails.append(("a trail in a file", ["--trail", fresh(os.path.join(folder, "day.trail"))]))
    for what, options in trails:
        print(f"{what}:", flush=True)
        reported = print_day(directory, messages, *options)
        if options:
            compare_replay(options[-1], reported)
            fresh(options[-1])
    kinds = {
        "a TestRequest (its number alone)": TESTS,
        "an order that is refused (its reply is kept, and its row)": REFUSED,
        "an order or its cancel (its identifier too)": RESTS,
    }
    for what, symbol in kinds.items():
        print(f"{what}: {left_by(directory, symbol):.0f} bytes", flush=True)
    for folder in folders:
        for what, symbol in list(kinds.items())[1:]:
            path = fresh(os.path.join(folder, "day.trail"))
            left = left_by(directory, symbol, "--trail", path)
            print(f"{what}, with a trail in a file: {left:.0f} bytes", flush=True)
            fresh(path)


if __name__ == "__main__":
    main()
