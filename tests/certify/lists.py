"""The lists of refusals: what is sent for each cause, and for each two causes that hold at once.

A list has a message that is accepted, and for each cause a change of it, in the order of the rules. A change is fields
in the place of the message's own; a value of `-` leaves the field out. Three fields stand for groups: `to` for the
recipients of a request (+ adds to them), `ids`, `sides` and `qtys` for the two sides of a cross.
"""

import os
import re

from certify import HERE, Case, Step, step_of

PAGE = os.path.join(HERE, "..", "..", "docs", "PROTOCOL.md")
FIVE = "BETA DELTA EPSILON"
THIRTEEN = "BETA GAMMA DELTA EPSILON ZETA ETA THETA IOTA KAPPA LAMBDA MU NU XI"


def request(who, number, to, symbol="IRS5Y", side=1):
    return f"{who} sends {expanded(f'35=R|131={number}|146=1|55={symbol}|54={side}|38=10|to={to}|')}"


class Cause:
    """A cause, its place in the page's list, and the change that brings it about."""

    def __init__(self, name, item, change, *setup, market="six", alone=None, near=False, words=None):
        self.name, self.item, self.change, self.setup = name, item, change, setup
        self.words = words  # in the place of the page's
        self.market = market
        self.alone = alone or change  # where it is the second of two, and the first is put right
        self.near = near  # with all but its neighbour in one case: what is set up takes thousands of messages


class List:
    def __init__(self, name, kind, section, source, base, setup, causes, both=None, by_hand=(), never=None):
        self.name, self.kind, self.section, self.source = name, kind, section, source
        self.base, self.setup, self.causes = base, setup, causes
        self.both = both or {}  # the change that brings two causes about, where it is not that of each
        self.by_hand = by_hand  # two causes whose case stands in its file
        self.never = never or {}  # two causes that do not hold at once, and why


def expanded(text):
    """A message with the groups that `to` or `ids`, `sides` and `qtys` stand for."""
    fields = dict(piece.partition("=")[::2] for piece in text.split("|")[:-1])
    if "ids" in fields:
        sides, ids, counts = (fields[it].split(",") for it in ("sides", "ids", "qtys"))
        group = "".join(f"54={a}|11={b}|38={c}|" for a, b, c in zip(sides, ids, counts))
        text = re.sub(r"sides=[^|]*\|ids=[^|]*\|qtys=[^|]*\|", f"552=2|{group}", text)
    if "to" in fields:
        people = fields["to"].split()
        group = "".join(f"448={it}|447=D|452=35|" for it in people)
        text = re.sub(r"to=[^|]*\|", f"453={len(people)}|{group}" if people else "", text)
    return text


def changed(base, *changes):
    """A message with some changes, the first of which counts where two are of one field."""
    fields = [list(piece.partition("=")[::2]) for piece in base.split("|")[:-1]]
    tags = [tag for tag, _ in fields]
    for change in reversed(changes):
        for piece in change.split("|"):
            tag, _, value = piece.partition("=")
            if tag.endswith("+"):
                fields[tags.index(tag[:-1])][1] += f" {value}"
            elif tag in tags:
                fields[tags.index(tag)][1] = value
            elif piece:
                fields.append([tag, value])
                tags.append(tag)
    return expanded("".join(f"{tag}={value}|" for tag, value in fields if value != "-"))


def tags_of(change):
    return {piece.partition("=")[0] for piece in change.split("|")} - {"to+", ""}


def items_of(section):
    """The numbered list under a heading of the page, each item on a line."""
    with open(PAGE, encoding="utf-8") as file:
        text = file.read()
    text = re.split(rf"(?m)^#+ {section}\n", text)[1]
    text = re.split(r"(?m)^#", text)[0]
    found = re.findall(r"(?m)^([0-9]+\. .*(?:\n   .*)*)", text)
    return [" ".join(it.split()) for it in found]


def phrase(item):
    """What holds, of an item as `1. the symbol is not listed: 103=1 ..`."""
    return re.sub(r"^[0-9]+\. (?:G: )?", "", item).partition(": ")[0]


def setup_of(it, *causes):
    """What is set up: what takes long first, since a side that is held may fall due."""
    lines = dict.fromkeys(line for cause in causes for line in cause.setup)
    return [step_of(line) for line in [*sorted(lines, key=lambda line: " times " not in line), *it.setup]]


def market_of(*causes):
    return "large" if any(cause.market == "large" for cause in causes) else "six"


def single(it, place, items):
    """A cause alone, and then the message that is accepted."""
    cause = it.causes[place]
    rule = items[cause.item - 1]
    sentence = f"{it.kind} is refused: {cause.words or phrase(rule)}." + (" Without that it is accepted." if cause.change else "")
    case = Case(f"{it.name}/{place + 1}_{snake(cause.name)}", sentence, [f"{it.name} {cause.name}"], [rule], it.source, market_of(cause))
    case.setup = setup_of(it, cause)
    case.steps = [Step("ALPHA", "sends", changed(it.base, cause.change))]
    if cause.change:
        case.steps.append(Step("ALPHA", "sends", expanded(it.base)))
    return case


def pair(it, first, second, items):
    """Two causes at once, of which the first is given; and then the second alone."""
    a, b = it.causes[first], it.causes[second]
    rules = [items[a.item - 1], items[b.item - 1]]
    sentence = f"{it.kind} has two faults: {a.words or phrase(rules[0])}; and {b.words or phrase(rules[1])}. The first of the list is given, then the other."
    name = f"{it.name}/{first + 1}_before_{second + 1}"
    case = Case(name, sentence, [f"{it.name} {a.name} before {b.name}"], rules, it.source, market_of(a, b))
    case.setup = setup_of(it, a, b)
    both = it.both.get((first + 1, second + 1))
    case.steps = [
        Step("ALPHA", "sends", changed(it.base, both or a.change, "" if both else b.change)),
        Step("ALPHA", "sends", changed(it.base, b.alone)),
    ]
    return case


def each_before(it, last, items):
    """Each cause at once with the last of the list, but for its neighbour, in one case; and then the last alone."""
    b = it.causes[last]
    before = [it.causes[k] for k in range(last - 1) if (k + 1, last + 1) not in it.never]
    rules = list(dict.fromkeys(items[cause.item - 1] for cause in [*before, b]))
    sentence = f"{it.kind} has other faults in turn while {b.words or phrase(items[b.item - 1])}. Each of them is given, and at the end the last of the list."
    shows = [f"{it.name} {cause.name} before {b.name}" for cause in before]
    case = Case(f"{it.name}/each_before_{last + 1}", sentence, shows, rules, it.source, market_of(*before, b))
    case.setup = setup_of(it, *before, b)
    both = [it.both.get((it.causes.index(cause) + 1, last + 1), cause.change) for cause in before]
    case.steps = [Step("ALPHA", "sends", changed(it.base, change, b.change)) for change in both]
    case.steps.append(Step("ALPHA", "sends", changed(it.base, b.alone)))
    return case


def is_pair(it, first, second):
    a, b = it.causes[first], it.causes[second]
    near = second == first + 1
    if (first + 1, second + 1) in {*it.never, *it.by_hand} or (near is False and (a.near or b.near)):
        return False
    clash = tags_of(a.change) & tags_of(b.change)
    if clash and (first + 1, second + 1) not in it.both:
        if near:
            raise SystemExit(f"tests/certify: {it.name}: causes {first + 1} and {second + 1} change {clash}")
        return False
    return True


def snake(name):
    return re.sub(r"(?<=[a-z])(?=[A-Z])", "_", name.replace("ClOrdId", "Clordid")).lower()


def cases_of(it):
    items = items_of(it.section)
    for place in range(len(it.causes)):
        yield single(it, place, items)
    for first in range(len(it.causes)):
        for second in range(first + 1, len(it.causes)):
            if is_pair(it, first, second):
                yield pair(it, first, second, items)
    for place, cause in enumerate(it.causes):
        if cause.near:
            yield each_before(it, place, items)


# (an identifier that was used is that of an order in another book: a sale without a price, as one at 0, meets none)
USED = "ALPHA sends 35=D|11=a1|55=BASIS1Y|54=1|38=10|40=2|44=2.5|"
BID = "ALPHA sends 35=D|11=a0|55=IRS5Y|54=1|38=10|40=2|44=2.5|"
CROSSED = f"ALPHA sends {expanded('35=s|548=c1|549=4|550=1|sides=1,2|ids=x1,x2|qtys=10,10|55=IRS5Y|40=2|44=-2.4|')}"
SELLS = "DELTA sends 200 times 35=D|11=d*|55=IRS5Y|54=2|38=10|40=2|44=2.7|"
# (of a thousand sides that are held, and requests that are open, one is the participant's own)
HELD = [
    f"BETA sends {199 if k == 5 else 200} times {expanded(f'35=s|548=c{k}-*|549=4|550=1|sides=1,2|ids=x{k}-*,y{k}-*|qtys=1,1|55=I{k}|40=2|44=2.5|')}"
    for k in range(1, 6)
]
ROOMS = request("BETA", "b*", "DELTA EPSILON ZETA", "I1").replace(" sends ", " sends 999 times ")

ORDER = List(
    "order", "An order", "Orders", "crates/venue_rules/specs/Orders.antt, order_refusals",
    "35=D|11=a2|55=IRS5Y|54=2|38=10|40=2|44=2.505|",
    [],
    [
        Cause("UnknownInstrument", 1, "55=IRS9Y"),
        Cause("DuplicateClOrdId", 2, "11=a1", USED),
        Cause("UnsupportedOrder", 3, "40=1"),
        Cause("PriceMissing", 4, "44=-"),
        Cause("PriceOffTick", 5, "44=2.506"),
        Cause("QuantityBelowLeast", 6, "38=9"),
        Cause("LinkedOrderTooRecent", 7, "44=2.5", BID),
        Cause("BookSideFull", 8, "", SELLS),
    ],
    both={(4, 7): "44=-", (5, 7): "44=2.499", (7, 8): "44=2.5|38=20"},
    never={
        **{(1, k): "a symbol that is not listed has no tick, no least quantity and no orders" for k in (5, 6, 7, 8)},
        (4, 5): "an order without a price is off no tick",
    },
)  # fmt: skip

CANCEL = List(
    "cancel", "A cancel", "Cancel and replace", "crates/venue_rules/specs/Changes.antt, answer_cancel_of",
    "35=F|11=a2|41=a1|",
    ["ALPHA sends 35=D|11=a1|55=IRS5Y|54=1|38=10|40=2|44=2.5|"],
    [Cause("UnknownOrder", 1, "41=a9"), Cause("DuplicateClOrdId", 2, "11=a1")],
)  # fmt: skip

REPLACE = List(
    "replace", "A replacement", "Cancel and replace", "crates/venue_rules/specs/Changes.antt, answer_replace_of",
    "35=G|11=a4|41=a1|38=20|40=2|44=2.495|",
    [
        "ALPHA sends 35=D|11=a1|55=IRS5Y|54=1|38=20|40=2|44=2.5|",
        "ALPHA sends 35=D|11=a2|55=IRS5Y|54=2|38=10|40=2|44=2.51|",
        f"ALPHA sends {expanded('35=s|548=c1|549=4|550=1|sides=1,2|ids=x1,x2|qtys=10,10|55=IRS5Y|40=2|44=2.4|')}",
    ],
    [
        Cause("UnknownOrder", 1, "41=a9"),
        Cause("DuplicateClOrdId", 2, "11=a2"),
        Cause("HeldSide", 3, "41=x2", words="41 names a held side"),
        Cause("UnsupportedOrder", 4, "40=1"),
        Cause("PriceMissing", 5, "44=-"),
        Cause("PriceOffTick", 6, "44=2.496"),
        Cause("QuantityBelowLeast", 7, "38=9"),
        Cause("QuantityAlreadyFilled", 8, "38=10", "DELTA sends 35=D|11=d1|55=IRS5Y|54=2|38=10|40=2|44=2.5|"),
        Cause("LinkedOrderTooRecent", 9, "44=2.51"),
    ],
    both={(6, 9): "44=2.511", (7, 8): "38=9"},
    by_hand={(5, 9)},
    never={
        (1, 3): "41 names one order",
        **{(1, k): "an order that is not there has no instrument and no fills" for k in (6, 7, 8, 9)},
        **{(3, k): "a held side has no fills, and is in no book" for k in (8, 9)},
        (5, 6): "a replacement without a price is off no tick",
        (8, 9): "it would have nothing left that trades",
    },
)  # fmt: skip

CROSS = List(
    "cross", "A cross", "Crosses", "crates/venue_rules/specs/Crosses.antt, cross_refusals",
    "35=s|548=c2|549=4|550=2|sides=1,2|ids=x3,x4|qtys=10,10|55=IRS5Y|40=2|44=2.6|",
    [],
    [
        Cause("UnknownInstrument", 1, "55=IRS9Y"),
        Cause("DuplicateCrossId", 2, "548=c1", CROSSED),
        Cause("DuplicateClOrdId", 3, "ids=a1,x4", USED, words="the participant has used an 11, or both are equal"),
        Cause("UnsupportedOrder", 4, "549=1"),
        Cause("PriceMissing", 5, "44=-"),
        Cause("OneBuyAndOneSell", 6, "sides=2,2"),
        Cause("PriceOffTick", 7, "44=2.601"),
        Cause("Quantity", 8, "qtys=10,20"),
        Cause("LinkedOrderTooRecent", 9, "44=2.5", BID, words="the first side would trade with a linked order too recent"),
        Cause("BookSideFull", 9, "", SELLS, words="the first side would rest where 200 orders do"),
        Cause("TooManyHeld", 10, "", *HELD, CROSSED, market="large", alone="550=1", near=True),
    ],
    both={(5, 9): "44=-", (5, 11): "44=-|550=1", (7, 9): "44=2.499", (9, 10): "44=2.5|qtys=20,20"},
    never={
        **{(1, k): "a symbol that is not listed has no tick and no orders" for k in (7, 9, 10)},
        (5, 7): "a cross without a price is off no tick",
    },
)  # fmt: skip

REQUEST = List(
    "request", "A request for quotes", "QuoteRequest", "crates/venue_rules/specs/Requests.antt, request_refusals",
    f"35=R|131=q2|146=1|55=IRS5Y|54=1|38=10|to={FIVE}|",
    [request("ALPHA", "q1", FIVE)],
    [
        Cause("DuplicateRequest", 1, "131=q1"),
        Cause("UnknownInstrument", 2, "55=IRS9Y"),
        Cause("QuantityBelowLeast", 3, "38=9"),
        Cause("UnknownParticipant", 4, "to+=OMEGA"),
        Cause("RequesterAmongRecipients", 5, "to+=ALPHA"),
        Cause("RecipientTwice", 6, "to+=BETA"),
        Cause("TooManyRecipients", 7, f"to={THIRTEEN}", market="large"),
        Cause("TooFewRecipients", 8, "to=BETA DELTA"),
        Cause("RecipientsNotUnrelated", 9, "to=BETA GAMMA DELTA"),
        Cause("TooManyRequests", 10, "", ROOMS, market="large", near=True),
    ],
    both={
        (4, 8): "to=BETA OMEGA",
        (5, 8): "to=BETA ALPHA",
        (5, 9): "to=BETA GAMMA ALPHA",
        (6, 8): "to=BETA BETA",
        (6, 9): "to=BETA GAMMA BETA",
        (8, 9): "to=BETA GAMMA",
    },
    by_hand={(7, 9)},
    never={(2, 3): "a symbol that is not listed has no least quantity", (7, 8): "thirteen recipients are not fewer than three"},
)  # fmt: skip

QUOTE = List(
    "quote", "A quote", "Quote", "crates/venue_rules/specs/Quotes.antt, answer_quote_of",
    "35=S|117=a2|131=R1|55=IRS5Y|133=2.5|",
    [
        request("BETA", "b1", "ALPHA DELTA EPSILON"),
        request("DELTA", "d1", "BETA EPSILON ZETA"),
        request("BETA", "b2", "ALPHA DELTA EPSILON"),
        request("DELTA", "d2", "BETA EPSILON ZETA"),
        "DELTA sends 35=S|117=d1|131=R3|55=IRS5Y|133=2.5|",
        "BETA sends 35=AJ|693=b3|117=Q1|694=1|",
        "BETA sends 35=S|117=b1|131=R4|55=IRS5Y|133=2.5|",
        "DELTA sends 35=AJ|693=d3|117=Q2|694=1|",
        "ALPHA sends 35=S|117=a1|131=R1|55=IRS5Y|133=2.51|",
    ],
    [
        Cause("UnknownRequest", 1, "131=R9"),
        Cause("NotAsked", 2, "131=R2"),
        Cause("RoomOver", 3, "131=R3"),
        Cause("UnknownInstrument", 4, "55=BASIS1Y"),
        Cause("DuplicateQuote", 5, "117=a1"),
        Cause("NotTradeable", 6, "537=0"),
        Cause("InvalidPrice", 7, "133=2.501"),
        Cause("Size", 8, "135=9"),
        Cause("EndPassed", 9, "62=<-1>"),
    ],
    both={(2, 3): "131=R4"},
    never={(1, k): "of a request that is not there nothing is known" for k in (2, 3, 4, 7, 8)},
)  # fmt: skip

SNAPSHOT = List(
    "snapshot", "A request for a snapshot", "Market data", "crates/venue_rules/specs/MarketData.antt, market_data_refusals",
    "35=V|262=v1|263=0|264=0|267=2|269=0|269=1|146=1|55=IRS5Y|",
    ["BETA sends 35=D|11=b1|55=IRS5Y|54=1|38=10|40=2|44=2.5|"],
    [Cause("UnknownInstrument", 1, "55=IRS9Y"), Cause("SnapshotsOnly", 2, "263=1"), Cause("FullDepthOnly", 3, "264=1")],
)  # fmt: skip

BY_CHANGE = [ORDER, CANCEL, REPLACE, CROSS, REQUEST, QUOTE, SNAPSHOT]

# A cause that holds of each message of which another does, and why: no case has that one without it.
ALWAYS = {
    "request": {("TooFewRecipients", "RecipientsNotUnrelated"): "of fewer than three recipients no three are unrelated"}
}

# What does not hold at once in the other lists.
NEVER = {
    "withdrawal": {
        **{(1, k): "298 is another, or 5, or 4" for k in (2, 3, 4)},
        (2, 3): "an absent 117 names no quote",
        **{(k, 4): "298 is 5 or 4" for k in (2, 3)},
    },
    "response": {
        **{(2, k): "of a quote that is not there nothing else is known" for k in range(3, 10)},
        (7, 8): "one side was asked, or both were",
        (7, 9): "where one side was asked, a quote has its price",
        (8, 9): "a price is that of a side",
    },
}
