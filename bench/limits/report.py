"""Times a venue of this repository and one of stock parts, each with nothing in it and at the limits."""

import sys

sys.path[:0] = ["bench", "tests/lib"]
from fix import Client  # noqa: E402
from venues import numbers_in, ours, peer, spread, together, write_market  # noqa: E402

PORT = 7300
NAMES = tuple(f"P{k:02}" for k in range(32))
SYMBOLS = ("IRS5Y", *(f"S{k:03}" for k in range(255)))
SIDE = 200  # orders that rest on a side at most
ROOMS = 1_000
CROSSES, OF_EACH = 1_000, 4  # and of them in an instrument
LEVELS = 20  # prices of a side
ORDERS = 2_000  # orders and cancels that are timed
HOUR = "delay_ms = 3600000\n"  # no held side enters while it is timed
SECONDS = 120.0  # until the venue has all
SENT = "60=20250303-14:30:00|"


def price(side, j):
    """Of an order on a side (0 to buy), so that none meets another."""
    return f"{(1 if side == 0 else 4) + j % LEVELS * 0.0025:g}"


def resting(venue):
    """The messages of each participant that make the limits, as (type, fields)."""
    texts = [[] for _ in NAMES]
    has_crosses = venue.name != "QuickFIX"
    for i, symbol in enumerate(SYMBOLS):
        of_crosses = OF_EACH if has_crosses and 0 < i <= CROSSES // OF_EACH else 0
        for j in range(of_crosses):
            sides = "".join(f"54={side}|11=x{i}s{j}n{side}|38=10|" for side in (1, 2))
            fields = f"548=c{i}n{j}|549=4|550=1|552=2|{sides}55={symbol}|40=2|44={price(0, j)}|"
            texts[i % len(NAMES)].append(("s", fields))
        for side in (0, 1):
            # (the first instrument keeps a place for the order that is timed)
            for j in range(SIDE - (of_crosses if side == 0 else 0) - (1 if i == 0 and side == 0 else 0)):
                fields = f"11=o{i}s{side}n{j}|55={symbol}|54={side + 1}|38=10|40=2|44={price(side, j)}|"
                texts[(i + j) % len(NAMES)].append(("D", fields + SENT))
    for k in range(ROOMS - 1):
        parties = "".join(f"448={NAMES[(k + j) % len(NAMES)]}|447=D|452=35|" for j in (1, 2, 3))
        texts[k % len(NAMES)].append(("R", f"131=k{k}|146=1|55=IRS5Y|54=1|38=100|453=3|{parties}"))
    return texts


def fill(venue):
    """Brings the venue to its limits; what each participant sends last is refused once all before it was answered."""
    clients = [Client(name, venue.port + k, timeout=SECONDS) for k, name in enumerate(NAMES)]
    for client in clients:
        client.send("A", "98=0|108=3600|1137=9|141=Y|", quietly=True)
        client.await_field("35=A", quietly=True)
    for client, texts in zip(clients, resting(venue)):
        for k in range(0, len(texts), 100):
            for kind, fields in texts[k : k + 100]:
                client.send(kind, fields, quietly=True)
            client.send("F", f"11=f{k}|41=nothing|55=IRS5Y|54=1|{SENT}", quietly=True)
            client.await_field("35=9", quietly=True)
    for client in clients:
        client.close()


def traders(venue, directory, *words):
    """What each trader prints: the first does this, the next three quote."""

    def starting(who, begin):
        of = words if who == 0 else ("requests",)
        return venue.client(f"{directory}/trader", who, venue.runs + 1, 1, *of, begin=begin)

    begun = together(starting, 4)
    lines = [trader.stdout.readline() for trader in begun]
    for trader in begun:
        trader.kill()
        trader.wait()
    if not all(lines):
        raise SystemExit("bench/limits: a trader ends before its last answer")
    return [numbers_in(line) for line in lines]


def sample(venue, directory):
    """The p50 of each kind of round trip, in microseconds."""
    order = venue.load(directory, "IRS5Y", ORDERS, "one-by-one")["p50_us"]
    snapshot = traders(venue, directory, "looks", "IRS5Y")[0]["p50_us"]
    trips = traders(venue, directory, "requests", *NAMES[1:4])
    quotes = max(each["quote_p50_us"] for each in trips[1:])
    return {
        "order or cancel": order,
        "snapshot": snapshot,
        "request, three quotes and hit": trips[0]["p50_us"],
        "quote": quotes,
        "hit": trips[0]["hit_p50_us"],
    }


def main():
    directory, peers, samples = sys.argv[1], sys.argv[2], int(sys.argv[3])
    market = write_market(directory, NAMES, SYMBOLS, HOUR)
    venues = [ours(PORT, names=NAMES, **market)]
    if peers != "alone":
        venues.append(peer(directory, PORT + 100, names=NAMES, symbols=SYMBOLS, with_groups=True))
    try:
        found = []
        for is_full in (False, True):
            for venue in venues if is_full else ():
                fill(venue)
            found.append([[sample(venue, directory) for venue in venues] for _ in range(samples)])
        names = [f"{venue.name}, {state}" for venue in venues for state in ("nothing in it", "at the limits")]
        print("| Round trip, p50 in us | " + " | ".join(names) + " |\n|" + "---|" * (1 + len(names)))
        for kind in found[0][0][0]:
            cells = [spread([each[k][kind] for each in state]) for k in range(len(venues)) for state in found]
            print(f"| {kind} | " + " | ".join(cells) + " |", flush=True)
    finally:
        for venue in venues:
            venue.end()


if __name__ == "__main__":
    main()
