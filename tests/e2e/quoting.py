#!/usr/bin/env python3
"""The statements of docs/QUOTING.md, against a served venue.

usage: quoting.py PORT VENUE_MAIN

PORT and the next four are the venue's ports. The requests, quotes and hits of the sample day give EPSILON the
conversation that stands in the page; then each statement is tried in requests of its own, for the instruments of
examples/ and one whose requests last three seconds.
"""

import os
import re
import sys
import tempfile
import time

sys.path.insert(0, os.path.join(os.path.dirname(os.path.abspath(__file__)), "..", "lib"))
from fix import PARTICIPANTS, ROOT, Client, Files, Venue, expect, field, fields_of, shown  # noqa: E402
from trail import SAMPLE_DAY, items_of  # noqa: E402

SHORT = '\n[[instrument]]\nsymbol = "SHORT"\ntick = 2500\nleast = 1\nrfq_life = 3\n'
LAST_ROW = 8  # of the sample day: the hit
MAKERS = ("BETA", "DELTA", "EPSILON")  # unrelated
HEADER = {b"8", b"9", b"49", b"56", b"34", b"52", b"10"}


def text_of(received):
    """A message without its header and trailer."""
    return "".join(f"{tag.decode()}={value.decode()}|" for tag, value in fields_of(received) if tag not in HEADER)


class Participant(Client):
    """A participant that knows what it is sent in answer to all that the venue has taken so far."""

    def __init__(self, name, venue, era=""):
        super().__init__(name, venue.port + PARTICIPANTS.index(name))
        self.asked = 0
        self.send("A", f"98=0|108=0|1137=9|{era}", quietly=True)
        self.received = [self.await_field("35=A", quietly=True)]

    def sent(self):
        """What came since the last call. The book that it asks for comes behind it."""
        self.asked += 1
        self.send("V", f"262=look{self.asked}|263=0|264=0|267=1|269=0|146=1|55=IRS5Y|", quietly=True)
        self.received = []
        while not self.received or field(self.received[-1], 262) != b"look%d" % self.asked:
            self.received.append(self.next_message())
        return [text_of(it) for it in self.received[:-1]]

    def answers(self, kind, fields):
        """Sends a message, and returns what came since."""
        self.send(kind, fields, quietly=True)
        return self.sent()


class Market:
    def __init__(self, program, files, port, trail):
        self.words = program, files, port, "--trail", trail
        self.venue = Venue(*self.words).await_start()
        self.clients = {name: Participant(name, self.venue) for name in PARTICIPANTS}
        self.rooms = self.names = 0
        self.heard = {}  # SendingTime of each request as the last of its makers was sent it

    def name(self):
        self.names += 1
        return f"n{self.names}"

    def ask(self, symbol="IRS5Y", side="54=1|"):
        """A request of ALPHA to the makers; its number, and what EPSILON is sent of it."""
        self.rooms += 1
        parties = "453=3|" + "".join(f"448={name}|447=D|452=35|" for name in MAKERS)
        expect("the answer to a request", self.clients["ALPHA"].answers("R", f"131={self.name()}|146=1|55={symbol}|{side}38=100|{parties}"), [])
        for name in MAKERS:
            expect(f"what {name} is sent", self.clients[name].sent(), [f"35=R|131=R{self.rooms}|146=1|55={symbol}|{side}38=100|"])
            self.heard[self.rooms] = field(self.clients[name].received[0], 52).decode()
        return f"R{self.rooms}"

    def quote(self, room, prices, name="EPSILON", symbol="IRS5Y", own=None):
        """A quote: its maker's answer, and its number with the requester."""
        own = own or self.name()
        came = self.clients[name].answers("S", f"117={own}|131={room}|55={symbol}|{prices}")
        sent_on = [it for it in self.clients["ALPHA"].sent() if it.startswith("35=S|")]
        number = re.search(r"\|117=(Q[0-9]+)\|", sent_on[0])[1] if sent_on else None
        return came, number

    def accepted(self, room, prices, name="EPSILON", symbol="IRS5Y"):
        own = self.name()
        came, number = self.quote(room, prices, name, symbol, own)
        expect("the answer to a quote", came, [f"35=AI|117={own}|131={room}|55={symbol}|297=0|"])
        return number, own

    def refused(self, what, room, prices, cause, **how):
        came, number = self.quote(room, prices, **how)
        expect(f"{what}: its number", number, None)
        expect(f"{what}: {came} has {cause}", [cause in it and "|297=5|" in it for it in came], [True])

    def respond(self, number, kind=1, side=""):
        return self.clients["ALPHA"].answers("AJ", f"693={self.name()}|117={number}|694={kind}|{side}")

    def statuses(self, came):
        return [it.split("|297=")[1].split("|")[0] for it in came if it.startswith("35=AI|")]

    def fill(self, room, name="EPSILON"):
        """The one message that a maker is sent of a hit."""
        came = self.clients[name].sent()
        expect("messages to a maker that is hit", len(came), 1)
        expect(f"the report {came[0]}", came[0].startswith(f"35=8|37={room}|") and "|150=F|" in came[0], True)
        expect("an identifier in it", re.findall(r"\|(117|131|11)=", came[0]), [])
        return dict(it.split("=") for it in came[0].split("|")[:-1])

    def end(self):
        self.venue.end()
        for client in self.clients.values():
            client.close()


def page_conversation():
    with open(os.path.join(ROOT, "docs", "QUOTING.md"), encoding="utf-8") as page:
        return re.findall(r"^    ([<>] .*)$", page.read(), re.MULTILINE)


def conversation(market):
    """EPSILON's side of the sample day, up to the hit."""
    found, epsilon = [], market.clients["EPSILON"]
    for _, who, _, _, text in items_of(SAMPLE_DAY)[:LAST_ROW]:
        kind, fields = shown(text)[3:].split("|", 1)
        sender = market.clients[PARTICIPANTS[who - 1]]
        answered = sender.answers(kind, fields)
        if sender is epsilon:
            found.append(f"> 35={kind}|{fields}")
        found += [f"< {it}" for it in (answered if sender is epsilon else epsilon.sent())]
    market.rooms = 1
    expect("the conversation", found, page_conversation())
    expect("the requester in it", [it for it in found if "ALPHA" in it], [])
    print("the conversation is that of the page", flush=True)


def others(market):
    """What a maker is sent of a request in which another one trades, and after it."""
    for name in ("BETA", "GAMMA", "DELTA"):
        came = [it for it in market.clients[name].sent() if not it.startswith("35=8|37=O")]
        expect(f"what {name} is sent", came, ["35=R|131=R1|146=1|55=IRS5Y|54=1|38=100|"])
    market.refused("a quote after the trade", "R1", "133=2.5|", "|300=4|58=Too late|", name="BETA")
    room = market.ask()
    _, own = market.accepted(room, "133=2.5025|", "BETA")
    number, _ = market.accepted(room, "133=2.5|")
    expect("of others' quotes", market.clients["BETA"].sent() + market.clients["DELTA"].sent(), [])
    market.respond(number)
    expect("31 of the fill", market.fill(room)["31"], "2.5")
    expect("of another's trade", market.clients["BETA"].sent() + market.clients["DELTA"].sent(), [])
    expect("a withdrawal then", market.statuses(market.clients["BETA"].answers("Z", f"117={own}|298=5|")), ["9"])
    print("other makers are sent nothing", flush=True)


def sides(market):
    room = market.ask()
    market.refused("a bid for a buyer", room, "132=2.5|", "|58=Invalid price|")
    market.refused("a part of the quantity", room, "133=2.5|135=50|", "|58=Size|")
    number, _ = market.accepted(room, "133=2.5|134=100|135=100|")
    market.refused("a refused one", room, "133=2.501|", "|58=Invalid price|")
    came = market.respond(number)
    fill = market.fill(room)
    expect("the earlier one lives on", (fill["54"], fill["31"], fill["32"], fill["39"]), ("2", "2.5", "100", "2"))
    expect("the trade's number is the requester's", f"|880={fill['880']}|" in "".join(came), True)
    room = market.ask(side="54=2|")
    market.refused("an offer for a seller", room, "133=2.5|", "|58=Invalid price|")
    market.accepted(room, "132=2.5|")
    room = market.ask(side="")
    market.refused("neither for both sides", room, "", "|58=Invalid price|")
    for prices in ("132=2.5|", "133=2.5|", "132=2.5|133=2.5025|"):
        number, _ = market.accepted(room, prices)
    market.respond(number, side="54=2|")
    expect("the maker's side", market.fill(room)["54"], "1")
    print("sides and quantities are as stated", flush=True)


def replaced(market):
    room, epsilon = market.ask(), market.clients["EPSILON"]
    first, own = market.accepted(room, "133=2.505|")
    market.refused("the same 117", room, "133=2.5|", "|58=Duplicate quote|", own=own)
    second, own = market.accepted(room, "133=2.5025|")
    expect("a hit of a replaced quote", market.statuses(market.respond(first)), ["9"])
    expect("of which its maker is sent", epsilon.sent(), [])
    expect("a withdrawal", epsilon.answers("Z", f"117={own}|298=5|"), [f"35=AI|117={own}|131={room}|55=IRS5Y|297=17|"])
    expect("a hit after it", market.statuses(market.respond(second)), ["17", "17"])
    third, _ = market.accepted(room, "133=2.5|")
    market.respond(third, kind=6)
    expect("a pass", market.statuses(epsilon.sent()), ["11"])
    fourth, own = market.accepted(room, "133=2.4975|")
    market.respond(fourth)
    expect("31 of the last", market.fill(room)["31"], "2.4975")
    expect("a withdrawal after the hit", market.statuses(epsilon.answers("Z", f"117={own}|298=5|")), ["9"])
    market.refused("a replacement after the hit", room, "133=2.5|", "|58=Too late|")
    print("replaced, withdrawn, passed and quoted again", flush=True)


def equal_prices(market):
    room = market.ask()
    market.accepted(room, "133=2.5|", "BETA")
    later, _ = market.accepted(room, "133=2.5|")
    market.respond(later)
    market.fill(room)
    print("at equal prices the requester chooses", flush=True)


def ends(market):
    """A request's end, and a quote's own."""
    room = market.ask("SHORT")
    number, own = market.accepted(room, "133=2.5|", symbol="SHORT")
    time.sleep(3.1)
    epsilon = market.clients["EPSILON"]
    expect("of the end", epsilon.sent(), [])
    expect("a hit after the end", market.statuses(market.respond(number)), ["7"])
    market.refused("a quote after it", room, "133=2.5|", "|300=4|58=Too late|", symbol="SHORT")
    expect("a withdrawal after it", market.statuses(epsilon.answers("Z", f"117={own}|298=5|")), ["9"])
    room = market.ask()
    until = time.time() + 3
    utc = time.strftime("%Y%m%d-%H:%M:%S", time.gmtime(until)) + f".{int(until * 1000) % 1000:03d}"
    number, _ = market.accepted(room, f"133=2.5|62={utc}|")
    time.sleep(3.1)
    expect("of the quote's end", epsilon.sent(), [])
    expect("a hit after it", market.statuses(market.respond(number)), ["7"])
    market.accepted(room, "133=2.5|")
    print("a quote ends with its request or before", flush=True)


def two_sided(market):
    """Prices of a maker in the book: the far side moves first; a related participant's order in front."""
    epsilon = market.clients["EPSILON"]

    def moved(own, old, price):
        return epsilon.answers("G", f"11={own}|41={old}|38=10|40=2|44={price}|")[0]

    for own, side, price in (("bid", 1, "2.4"), ("offer", 2, "2.4025")):
        expect(own, "|150=0|" in epsilon.answers("D", f"11={own}|55=IRS5Y|54={side}|38=10|40=2|44={price}|")[0], True)
    expect("the bid first", moved("bid2", "bid", "2.4025").endswith("|102=99|58=Linked order too recent|"), True)
    expect("the offer first", "|150=5|" in moved("offer2", "offer", "2.405"), True)
    expect("the old bid then", "|150=5|" in moved("bid2", "bid", "2.4025"), True)
    for name, quantity in (("GAMMA", 1), ("DELTA", 10)):
        market.clients[name].answers("D", f"11=front|55=SHORT|54=2|38={quantity}|40=2|44=2.5|")
    came = market.clients["BETA"].answers("D", "11=back|55=SHORT|54=1|38=5|40=2|44=2.5|")
    expect("a related order in front", [it.endswith("|103=99|58=Linked order too recent|") for it in came], [True])
    print("prices in the book move with the far side first", flush=True)


def begin_again(market):
    """The venue's process ends and another begins over its trail; all log on again."""
    market.end()
    market.venue = Venue(*market.words).await_start()
    market.clients = {name: Participant(name, market.venue) for name in PARTICIPANTS}


def outlived(market):
    """A connection, an era, the venue's process: the quote is hit after each. A hit while its maker is away is not
    reported by the next process."""
    room = market.ask()
    number, _ = market.accepted(room, "133=2.5|")
    market.clients["EPSILON"].close()
    market.clients["EPSILON"] = Participant("EPSILON", market.venue, "141=Y|")
    market.respond(number)
    market.fill(room)
    room = market.ask()
    number, _ = market.accepted(room, "133=2.5|")
    begin_again(market)
    market.respond(number)
    market.fill(room)
    number, _ = market.accepted(market.ask(), "133=2.5|")
    market.clients["EPSILON"].close()
    market.respond(number)
    begin_again(market)
    expect("of a hit before a restart", market.clients["EPSILON"].sent(), [])
    print("it outlives a connection, a reset and a restart", flush=True)


def begins(market, trail):
    """52 of a request that is sent on is the moment of its row, or later."""
    moments = [moment for *_, moment, text in items_of(trail) if text.startswith(b"35=R\x01")]
    expect("requests in the trail", len(moments), market.rooms)
    for room, heard in market.heard.items():
        moment = moments[room - 1]
        taken = time.strftime("%Y%m%d-%H:%M:%S", time.gmtime(moment // 1000)) + f".{moment % 1000:03d}"
        expect(f"R{room} of {taken} has 52={heard}, that or later", heard >= taken, True)


def main():
    if len(sys.argv) != 3:
        raise SystemExit(__doc__)
    with tempfile.TemporaryDirectory() as folder:
        trail = os.path.join(folder, "day.trail")
        market = Market(sys.argv[2], Files(folder, SHORT), int(sys.argv[1]), trail)
        with market.venue:
            conversation(market)
            for part in (others, sides, replaced, equal_prices, ends, two_sided):
                part(market)
            outlived(market)
            market.end()
        begins(market, trail)
    print("the page of quotes is as the program")


if __name__ == "__main__":
    main()
