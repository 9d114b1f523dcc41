"""Times a venue of this repository and one of stock parts, each with one, five and 32 participants at once."""

import os
import statistics
import sys

sys.path.insert(0, "bench")
from venues import numbers_in, ours, peer, spread, together, write_market  # noqa: E402

PORT = 7300
NAMES = tuple(f"P{k:02}" for k in range(32))
COUNTS = (1, 5, 32)
# messages of a participant of load, more than a second takes
MESSAGES = {1: 500_000, 5: 200_000, 32: 60_000}
TRIPS = 500  # round trips of each participant of load
SYMBOL = {"refused": "NOPE", "rested": "IRS5Y"}
# orders, or requests, of a participant of trader that are under way
UNDER_WAY = {"trades": 1_000, "requests": 24}
ASKED = 3
KEYS = ("per_second", "p50_us", "p99_us")


def instrument(count, who):
    """The instrument in which a participant buys, where this number trade."""
    return f"T{count}_{who}"


def symbols():
    return ["IRS5Y", *(instrument(count, who) for count in COUNTS for who in range(count))]


class Crowd:
    """A venue, and those who trade there."""

    def __init__(self, venue, directory):
        self.venue, self.directory = venue, directory
        self.is_offered = set()  # the counts of participants for whom orders rest already

    def words(self, kind, count, who):
        """What the trader of this index does, where this number trade."""
        if kind == "requests":
            others = [(who + k) % max(count, ASKED + 1) for k in range(1, ASKED + 1)]
            return ["requests", *(NAMES[each] for each in others)] if who < count else ["requests"]
        buys = instrument(count, who) if who < count else "-"
        # (it sells to the one before it)
        sells = "-" if count in self.is_offered or (count == 1 and who == 0) else instrument(count, (who - 1) % count)
        return ["orders", buys, sells]

    def trade(self, kind, count, under_way):
        """What each trader prints, who begin together; and the processor seconds of the venue."""
        more = {"requests": ASKED, "trades": 1}[kind] if count == 1 else 0
        program = f"{self.directory}/trader"

        def starting(who, begin):
            words = (self.venue.runs + 1, under_way, *self.words(kind, count, who))
            return self.venue.client(program, who, *words, begin=begin)

        before = self.venue.spent()
        traders = together(starting, count + more)
        lines = [trader.stdout.readline() for trader in traders]
        cost = self.venue.spent() - before
        for trader in traders:
            trader.kill()
            trader.wait()
        if not all(lines):
            raise SystemExit("bench/crowd: a trader ends before its last answer")
        if kind == "trades":
            self.is_offered.add(count)
        return [numbers_in(line) for line in lines], cost

    def sample(self, kind, count):
        """The messages a second of all, the least share, the processor time of venue and clients a message in us, and
        round trips, p50 and p99; those of hits, where there are hits."""
        if kind in SYMBOL:
            before = self.venue.spent()
            loads = self.venue.load_all(self.directory, SYMBOL[kind], MESSAGES[count], "for-a-second", count)
            cost, messages = self.venue.spent() - before, sum(one["answers"] for one in loads)
            trips = self.venue.load_all(self.directory, SYMBOL[kind], TRIPS, "one-by-one", count)
        else:
            loads, cost = self.trade(kind, count, UNDER_WAY[kind])
            messages = sum(one["messages"] for one in loads)
            trips = self.trade(kind, count, 1)[0][:count]
        rates = [one["per_second"] for one in loads]
        least = min(rates[:count]) / statistics.mean(rates[:count])
        of_clients = sum(one["processor_us"] for one in loads) / messages
        whole = [statistics.median(one[key] for one in trips) for key in ("p50_us", "p99_us")]
        hits = [statistics.median(one.get(f"hit_{key}", 0) for one in trips) for key in ("p50_us", "p99_us")]
        return (sum(rates), least, cost * 1e6 / messages, of_clients, *whole, *hits)


def report(kind, count, samples):
    """The rows of the table for these samples, each of one or two venues."""
    mine = list(zip(*(sample[0] for sample in samples)))
    theirs = list(zip(*(sample[-1] for sample in samples))) if len(samples[0]) > 1 else None

    def both(at):
        return [spread(mine[at]), spread(theirs[at]) if theirs else ""]

    ratio = spread([one / other for one, other in zip(mine[0], theirs[0])], 1) if theirs else ""
    costs = [f"{statistics.median(mine[at]):.1f}" for at in (2, 3)]
    cells = [*both(0), ratio, spread(mine[1], 2), *costs, *both(4), *both(5)]
    print(f"| {kind} | {count} | " + " | ".join(cells) + " |", flush=True)
    if kind == "requests":
        print(f"| hits | {count} | | | | | | | " + " | ".join((*both(6), *both(7))) + " |", flush=True)


def main():
    directory, peers, samples, kinds = sys.argv[1], sys.argv[2], int(sys.argv[3]), sys.argv[4:]
    print(f"load of the machine: {os.getloadavg()[0]:.1f} on {len(os.sched_getaffinity(0))} processors", flush=True)
    venues = [ours(PORT, names=NAMES, **write_market(directory, NAMES, symbols()))]
    if peers != "alone":
        for k, with_groups in enumerate((False, True), 1):
            how = {"names": NAMES, "symbols": symbols(), "with_groups": with_groups}
            venues.append(peer(directory, PORT + 100 * k, **how))
    crowds = [Crowd(venue, directory) for venue in venues]
    try:
        found = {}
        for _ in range(samples):
            for kind in kinds:
                compared = [crowds[0], *crowds[2:]] if kind == "requests" else crowds[:2]
                for count in COUNTS:
                    each = [crowd.sample(kind, count) for crowd in compared]
                    found.setdefault((kind, count), []).append(each)
        names = "Messages/s | Peer | Ratio | Least share | CPU each, us | Clients, us | p50, us | Peer | p99, us | Peer"
        print(f"| Kind | At once | {names} |\n|{'---|' * 12}", flush=True)
        for (kind, count), each in found.items():
            report(kind, count, each)
        for kind in kinds:
            few, many = ([sample[0][0] for sample in found[kind, count]] for count in COUNTS[-2:])
            parts = spread([one / other for one, other in zip(many, few)], 2)
            print(f"{kind}: {COUNTS[-1]} at once have {parts} of the messages a second of {COUNTS[-2]}", flush=True)
    finally:
        for venue in venues:
            venue.end()


if __name__ == "__main__":
    main()
