"""The resting orders of a day, by the reports that were printed of it.

    Book()
        .take(row)                  takes a row with its replies; the instruments whose best bid or offer it changed,
                                    each with both as they are then, in millionths, or None
        .resting(symbol, side)      the orders of a side (54), first the best price, then the earliest
    millionths(text), price_text(millionths)
"""
from collections import namedtuple
from decimal import Decimal

Order = namedtuple("Order", "number price left")


def millionths(text):
    return int(Decimal(text) * 1_000_000)


def price_text(price):
    """A price as the venue writes it: without needless zeros."""
    whole, part = divmod(abs(price), 1_000_000)
    return f"{'-' if price < 0 else ''}{whole}.{part:06}".rstrip("0").rstrip(".")


class Book:
    def __init__(self):
        self.sides = {}  # the orders at rest by number, of an instrument and a side
        self.places = {}  # the number of an order with its instrument and side, by its participant and identifier (11)
        self.crosses = {}  # the price of each side of a cross, by the same

    def take(self, row):
        before = {}
        for reply in row.replies:
            report = dict(reversed(reply.fields))
            # (a trade in a request has the number of its room in the place of an order's; a refusal may name an order)
            if report["35"] == "8" and report["150"] != "8" and report["37"].startswith("O"):
                before.setdefault(report["55"], self.top(report["55"]))
                self.report(reply.to, row.message, report)
        return [(symbol, *self.top(symbol)) for symbol in before if self.top(symbol) != before[symbol]]

    def report(self, who, message, report):
        number, name, left = int(report["37"][1:]), (who, report["11"]), int(report["151"])
        if report["150"] == "5":
            earlier, *side = self.places[who, report["41"]]
            del self.sides[tuple(side)][earlier]
        if report["150"] in "05":
            self.enter(number, name, message, report)
        side = self.sides[report["55"], report["54"]]
        if left == 0:
            del side[number]
        else:
            side[number] = side[number]._replace(left=left)

    def enter(self, number, name, message, report):
        """An order by the message that entered it; a side of a cross, which the clock entered, by its cross."""
        sent = dict(reversed(message))
        if sent.get("35") == "s":
            self.crosses.update({(name[0], text): sent["44"] for tag, text in message if tag == "11"})
        price = millionths(sent["44"] if sent else self.crosses[name])
        side = report["55"], report["54"]
        self.sides.setdefault(side, {})[number] = Order(number, price, int(report["151"]))
        self.places[name] = number, *side

    def resting(self, symbol, side):
        of = self.sides.get((symbol, side), {}).values()
        return sorted(of, key=lambda order: (-order.price if side == "1" else order.price, order.number))

    def top(self, symbol):
        bids, offers = (self.sides.get((symbol, side), {}).values() for side in "12")
        return max((order.price for order in bids), default=None), min((order.price for order in offers), default=None)
