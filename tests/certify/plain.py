"""The plain venue in Python of tests/soak (reference.py) over the steps of a case, at the very moments of the case."""

import collections
import os
import re
import sys

from causes import NAMES, holding, list_of
from certify import HERE, MARKETS, moment, seconds_of
from lists import ALWAYS

sys.path.insert(0, os.path.join(HERE, "..", "soak"))
from reference import Instrument, Reference, Row  # noqa: E402

BEGAN = seconds_of("20250303-14:30:00.000")
# A row that was taken, with its replies and the causes that held of it.
Taken = collections.namedtuple("Taken", "row replies causes")


def market_of(market):
    """The participants, the related ones and the instruments of a market's files."""
    with open(os.path.join(MARKETS, f"{market}.participants.toml"), encoding="utf-8") as file:
        text = file.read()
    names = re.findall(r'(?m)^name = "(.*)"', text)
    related = re.findall(r'\na = "(.*)"\nb = "(.*)"', text)
    with open(os.path.join(MARKETS, f"{market}.instruments.toml"), encoding="utf-8") as file:
        entries = [dict(re.findall(r'(?m)^(\w+) = "?([^"\n]*)', it)) for it in file.read().split("[[instrument]]")[1:]]
    numbers = [[int(it.get(key, 15000)) for key in ("tick", "least", "rfq_life", "delay_ms")] for it in entries]
    listed = [Instrument(it["symbol"], a, b, 1000 * c, d) for it, (a, b, c, d) in zip(entries, numbers)]
    return names, related, listed


class Run:
    """The steps of a case on a plain venue."""

    def __init__(self, market):
        self.names, related, listed = market_of(market)
        self.venue = Reference(self.names, related, listed)
        self.at = 0  # milliseconds since the case began
        self.numbers = dict.fromkeys(self.names, 1)
        self.rows = []
        self.asked = []  # the numbers, from 1, of the rows that ALPHA sent last in a step, and of those of the clock

    def take_row(self, row):
        causes = holding(self.venue, row)
        found = self.venue.take(row)
        self.rows.append(Taken(row, found, causes))
        if not row.who:
            self.asked.append(len(self.rows))
        return found

    def text_at(self, text):
        """What is sent, with its moments."""
        return re.sub(r"<([+-][0-9.]+)>", lambda found: moment(BEGAN + self.at / 1000 + float(found[1])), text)

    def take(self, who, text):
        """The answers to a message, and to the ticks that are due before it; who is 0 for those alone."""
        now = int(BEGAN * 1000) + self.at
        found = []
        while self.venue.held and self.venue.held[0][0] <= now:
            found += self.take_row(Row(0, 0, now, ""))
        if who:
            found += self.take_row(Row(self.names.index(who) + 1, self.numbers[who], now, text))
        return [f"{self.names[to]} gets 35={kind}|{fields}" for to, kind, fields in found]

    def run(self, step):
        if step.verb == "wait":
            self.at += int(1000 * float(step.text))
            return self.take(None, "")
        for k in range(step.times):
            self.numbers[step.who] += 1
            found = self.take(step.who, self.text_at(step.text).replace("*", str(k)))
        if step.who == "ALPHA":
            self.asked.append(len(self.rows))
        return found


def shown_by(case):
    """The lists of which a case shows causes, and those of each of its messages that is refused: where it shows two of
    a message, another has the second alone."""
    shown = [it.partition(" ") for it in case.shows]
    causes = [(name, rest.split(" before ")) for name, _, rest in shown if name in NAMES]
    if causes:
        name, last = causes[-1]
        causes += [(name, last[1:])] * (len(last) > 1)
    return {name for name, _ in causes}, [with_always(*it) for it in causes]


def with_always(name, causes):
    """With the causes that hold wherever one of these does; each is the next one of its list."""
    after = {first: [second] for first, second in ALWAYS.get(name, {}) if second not in causes}
    return [it for cause in causes for it in [cause, *after.get(cause, [])]]


def causes_fault(case, run):
    """Where other causes hold of the refused messages of a case than it shows, or None."""
    names, wanted = shown_by(case)
    asked = [run.rows[n - 1] for n in run.asked]
    found = [it.causes for it in asked if it.causes and list_of(it.row) in names]
    if found != wanted:
        return f"of its refused messages it shows {wanted}, and {found} hold"
    return None
