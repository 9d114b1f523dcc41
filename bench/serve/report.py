"""Times a venue that is served over TCP, as its clients see it, and alternately a venue of stock parts."""

import multiprocessing
import os
import statistics
import subprocess
import sys
import time

sys.path[:0] = ["tests/lib", "bench"]
from hostile import HostileClient  # noqa: E402
from venues import NAMES, PROGRAM, fresh, ours, peer, spread  # noqa: E402

BEFORE = os.environ.get("VENUE_BEFORE")  # a program of this venue that takes the peer's place
SAMPLES = 9
ROUND_TRIPS = 2_000
RECORDED = 10  # one of ten messages is sent where each is a row of a trail
IDLE = 10.0  # seconds
UNDER_ATTACK = 20_000  # round trips while hostile bytes come
ATTACKED = 0.3  # seconds of hostile bytes before round trips are timed
CONFINED = 2  # processors
# orders that are refused before the book, and orders that rest and are cancelled, each by its instrument
KINDS = (("refused", "NOPE"), ("rested and cancelled", "IRS5Y"))

# what a sample has of each kind, in this order
FIGURES = ("messages a second", "us of the processor each", "us of a round trip, p50", "us of a round trip, p99")


def measure(venue, directory, messages):
    """One sample: each kind of message at once, then one by one."""
    figures = {}
    for kind, symbol in KINDS:
        before = venue.spent()
        at_once = venue.load(directory, symbol, messages, "at-once")
        cost = (venue.spent() - before) / messages * 1e6
        trips = venue.load(directory, symbol, min(messages, ROUND_TRIPS), "one-by-one")
        figures[kind] = (at_once["per_second"], cost, trips["p50_us"], trips["p99_us"])
        print(
            f"{venue.name}: {kind}: {at_once['per_second']} a second, {cost:.1f} us of the processor each; "
            f"round trip p50 {trips['p50_us']} us, p99 {trips['p99_us']} us",
            flush=True,
        )
    return figures


def compare(samples, name):
    """Ours and those of the venue of this name, each the median of its samples, and the ratio in a sample."""
    for kind, _ in KINDS:
        for at, what in enumerate(FIGURES):
            mine, theirs = ([figures[kind][at] for figures in each] for each in samples)
            ratios = [one / other for one, other in zip(mine, theirs)]
            both = f"{statistics.median(mine):.0f}, {name} {statistics.median(theirs):.0f}"
            print(f"{kind}: {what}: {both}, ratio {spread(ratios, 2)}", flush=True)


def idle(venue, directory):
    """The processor time of five participants that are logged on and idle, and the round trip of an order after an idle
    second."""
    trips = []
    for _ in range(10):
        time.sleep(1.05)
        trips.append(venue.load(directory, "NOPE", 1, "one-by-one")["p50_us"])
    middle, most = statistics.median(trips), max(trips)
    print(f"{venue.name}: after an idle second a round trip takes {middle:.0f} us, at most {most}", flush=True)
    words = ([f"{directory}/load", str(venue.port + k), name, "NOPE", "0", "hold", "0"] for k, name in enumerate(NAMES))
    holders = [*map(subprocess.Popen, words)]
    time.sleep(1.0)
    before = venue.on_processor()
    time.sleep(IDLE)
    share = (venue.on_processor() - before) / IDLE
    print(f"{venue.name}: five idle participants take {share * 100:.2f} % of a processor", flush=True)
    for holder in holders:
        holder.terminate()


class Sender(HostileClient):
    """A client that sends hostile bytes, and counts them where another process reads the count."""

    def __init__(self, port, total):
        self.total = total
        super().__init__(port, "bench")

    @property
    def sent(self):
        return self.total.value

    @sent.setter
    def sent(self, count):
        self.total.value = count


def attack(port, total):
    """Sends hostile bytes to ALPHA's port without an end."""
    Sender(port, total).run(float("inf"))


def under_attack(venue, directory, port):
    """A sample of BETA's round trips, of orders that match no other, while hostile bytes come to a port, where one is
    given: the median, the 99th hundredth, and the hostile bytes a second."""
    total = multiprocessing.Value("q", 0)
    sender = multiprocessing.Process(target=attack, args=(port, total), daemon=True)
    if port:
        sender.start()
        time.sleep(ATTACKED)
    before, since = total.value, time.monotonic()
    trips = venue.load(directory, KINDS[0][1], UNDER_ATTACK, "one-by-one", 1)
    sent = (total.value - before) / (time.monotonic() - since)
    if port:
        if not sent:
            raise SystemExit("bench/serve: the hostile sender sends nothing")
        sender.kill()
        sender.join()
    return trips["p50_us"], trips["p99_us"], sent


def hostile(port, directory):
    """What hostile bytes on one participant's port do to the round trips of another, compared with none, and with those
    of the same sender to another venue on this machine."""
    venue, other = ours(port), ours(port + 100)
    states = {
        "alone": 0,
        "with hostile bytes to another venue": other.port,
        "with hostile bytes on another port": venue.port,
    }
    found = {state: [] for state in states}
    try:
        for _ in range(SAMPLES):
            for state, attacked in states.items():
                found[state].append(under_attack(venue, directory, attacked))
    finally:
        for each in (venue, other):
            each.end()
    for state, samples in found.items():
        middle, last, sent = zip(*samples)
        trips = f"p50 {spread(middle)} us, p99 {spread(last)} us"
        print(f"{state}: {trips}, {spread(sent)} hostile bytes a second", flush=True)


def alternately(venues, directory, messages, with_idle):
    """Measures the venues alternately and compares them where there are two; then what being idle costs, where that is
    wanted."""
    try:
        samples = [[] for _ in venues]
        for _ in range(SAMPLES):
            for venue, figures in zip(venues, samples):
                figures.append(measure(venue, directory, messages))
        if len(venues) > 1:
            compare(samples, venues[1].name)
        if with_idle:
            for venue in venues:
                idle(venue, directory)
    finally:
        for venue in venues:
            venue.end()


def started(port, directory, peers, with_trails=False):
    """Ours, and what it is compared with: the program before, where one is named, or the peer, where there is one."""

    def trail(name):
        return [fresh(f"{directory}/{name}.trail")] if with_trails else []

    def serving(at, name, program):
        return ours(at, *(["--trail", *trail(name)] if with_trails else []), program=program)

    venues = [serving(port, "serve", PROGRAM)]
    if BEFORE:
        venues.append(serving(port + 100, "before", BEFORE))
    elif peers == "recorded" or (peers == "unrecorded" and not with_trails):
        venues.append(peer(directory, port + 100, *trail("quickfix")))
    return venues


def main():
    messages, port, directory, peers = int(sys.argv[1]), int(sys.argv[2]), sys.argv[3], sys.argv[4]
    processors = sorted(os.sched_getaffinity(0))
    print(f"load of the machine: {os.getloadavg()[0]:.1f} on {len(processors)} processors", flush=True)
    alternately(started(port, directory, peers), directory, messages, True)
    if len(processors) > CONFINED:
        print(f"confined to {CONFINED} processors, venue and client together:", flush=True)
        os.sched_setaffinity(0, processors[:CONFINED])
        alternately(started(port, directory, peers), directory, messages, False)
        os.sched_setaffinity(0, processors)
    print("a participant's round trips:", flush=True)
    hostile(port, directory)
    print("each message a row of a trail in a file, a transaction each:", flush=True)
    alternately(started(port, directory, peers, True), directory, max(1, messages // RECORDED), False)


if __name__ == "__main__":
    main()
