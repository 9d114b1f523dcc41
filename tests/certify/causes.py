"""The causes of refusal that hold of a row, all of its list at once, on the plain venue of tests/soak.

    list_of(row)           the name of its list, as `order`; None where no message of its type is refused
    holding(venue, row)    the causes, in the order of the list, by the names of venue_rules

The lists are those of docs/PROTOCOL.md, as is each test; what a venue answers is the first that holds. Of a symbol that
is not listed tick and least quantity are 1, an absent price is 0, as in venue_rules/specs.
"""

import os
import sys

from certify import HERE

sys.path.insert(0, os.path.join(HERE, "..", "soak"))
from reference import ALL_OR_NONE, BUY, DAY, IMMEDIATE  # noqa: E402
from reference import HELD_LIMIT, RECIPIENT_LIMIT, ROOM_LIMIT, SIDE_LIMIT, Order, moment_of, price_of  # noqa: E402


def price_in(fields):
    return price_of(fields.get("44", "0"))


def is_off_tick(book, price):
    return bool(book) and price % book.instrument.tick != 0


def is_below_least(book, quantity):
    return quantity < (book.instrument.least if book else 1)


def fills_of(book, order, life=DAY):
    met, left = book.fills(order, order.left) if book else ([], order.left)
    return ([], order.left) if life == ALL_OR_NONE and left else (met, left)


def is_too_soon(venue, book, order, life=DAY):
    met, _ = fills_of(book, order, life)
    return any(venue.is_linked(order, other) and venue.at - other.entered < book.instrument.delay for other, _ in met)


def is_side_full(book, order, life=DAY):
    _, left = fills_of(book, order, life)
    return bool(book) and life == DAY and left > 0 and len(book.sides[order.side]) >= SIDE_LIMIT


def of_order(venue, who, fields, pairs):
    book, life = venue.books.get(fields["55"]), fields.get("59", DAY)
    quantity = int(fields["38"])
    order = Order(who, fields["11"], fields.get("583"), fields["54"], price_in(fields), quantity)
    is_life = life in (DAY, IMMEDIATE, ALL_OR_NONE)
    life = life if is_life else DAY
    yield "UnknownInstrument", book is None
    yield "DuplicateClOrdId", not venue.is_new("11", who, fields["11"])
    yield "UnsupportedOrder", fields["40"] != "2" or not is_life
    yield "PriceMissing", "44" not in fields
    yield "PriceOffTick", is_off_tick(book, order.price)
    yield "QuantityBelowLeast", is_below_least(book, quantity)
    yield "LinkedOrderTooRecent", is_too_soon(venue, book, order, life)
    yield "BookSideFull", is_side_full(book, order, life)


def named(venue, who, fields):
    """The held side that 41 names, and the book and the order, resting or held."""
    held = venue.held_names.get((who, fields["41"]))
    book, order = venue.resting.get((who, fields["41"]), (None, None))
    return held, *((held[2], held[3]) if held else (book, order))


def of_cancel(venue, who, fields, pairs):
    _, _, order = named(venue, who, fields)
    yield "UnknownOrder", order is None
    yield "DuplicateClOrdId", not venue.is_new("11", who, fields["11"])


def of_replacement(venue, who, fields, pairs):
    held, book, old = named(venue, who, fields)
    quantity, filled = int(fields["38"]), old.filled if old else 0
    yield from of_cancel(venue, who, fields, pairs)
    yield "HeldSide", held is not None
    yield "UnsupportedOrder", fields["40"] != "2"
    yield "PriceMissing", "44" not in fields
    yield "PriceOffTick", is_off_tick(book, price_in(fields))
    yield "QuantityBelowLeast", is_below_least(book, quantity)
    yield "QuantityAlreadyFilled", quantity <= filled
    if old and not held:
        order = Order(who, fields["11"], old.link, old.side, price_in(fields), max(quantity - filled, 0), filled)
        yield "LinkedOrderTooRecent", is_too_soon(venue, book, order)


def of_cross(venue, who, fields, pairs):
    book = venue.books.get(fields["55"])
    sides = [dict(pairs[k : k + 3]) for k, (tag, _) in enumerate(pairs) if tag == "54"]
    names, quantities = [it["11"] for it in sides], [int(it["38"]) for it in sides]
    first = next((it for it in sides if it["54"] == fields["550"]), sides[0])
    order = Order(who, first["11"], None, first["54"], price_in(fields), int(first["38"]))
    yield "UnknownInstrument", book is None
    yield "DuplicateCrossId", not venue.is_new("548", who, fields["548"])
    yield "DuplicateClOrdId", names[0] == names[1] or not all(venue.is_new("11", who, it) for it in names)
    yield "UnsupportedOrder", fields["549"] != "4" or fields["550"] not in ("1", "2") or fields["40"] != "2"
    yield "PriceMissing", "44" not in fields
    yield "OneBuyAndOneSell", sides[0]["54"] == sides[1]["54"]
    yield "PriceOffTick", is_off_tick(book, order.price)
    yield "Quantity", quantities[0] != quantities[1] or is_below_least(book, quantities[0])
    yield "LinkedOrderTooRecent", is_too_soon(venue, book, order)
    yield "BookSideFull", is_side_full(book, order)
    yield "TooManyHeld", len(venue.held) >= HELD_LIMIT


def of_due(venue):
    _, _, book, order = venue.held[0]
    yield "LinkedOrderTooRecent", is_too_soon(venue, book, order)
    yield "BookSideFull", is_side_full(book, order)


def of_request(venue, who, fields, pairs):
    book, names = venue.books.get(fields["55"]), venue.recipients_of(pairs)
    places = [venue.places[it] for it in names if it in venue.places]
    yield "DuplicateRequest", not venue.is_new("131", who, fields["131"])
    yield "UnknownInstrument", book is None
    yield "QuantityBelowLeast", is_below_least(book, int(fields["38"]))
    yield "UnknownParticipant", len(places) < len(names)
    yield "RequesterAmongRecipients", who in places
    yield "RecipientTwice", len(set(names)) < len(names)
    yield "TooManyRecipients", len(names) > RECIPIENT_LIMIT
    yield "TooFewRecipients", len(names) < 3
    yield "RecipientsNotUnrelated", not venue.are_three_unrelated(who, places)
    yield "TooManyRequests", venue.count_open() >= ROOM_LIMIT


def of_quote(venue, who, fields, pairs):
    room = venue.numbered("R", venue.rooms, fields["131"])
    bid, offer = fields.get("132"), fields.get("133")
    prices = [price_of(it) for it in (bid, offer) if it is not None]
    yield "UnknownRequest", room is None
    if room:
        yield "NotAsked", who not in room.recipients
        yield "RoomOver", not room.is_open(venue.moment)
        yield "UnknownInstrument", fields["55"] != room.book.instrument.symbol
    yield "DuplicateQuote", not venue.is_new("117", who, fields["117"])
    yield "NotTradeable", fields.get("537", "1") != "1"
    if room:
        needed = {"1": offer, "2": bid, None: bid or offer}[room.side]
        yield "InvalidPrice", needed is None or any(is_off_tick(room.book, it) for it in prices) or prices != sorted(prices)
        yield "Size", any(tag in fields and int(fields[tag]) != room.quantity for tag in ("134", "135"))
    yield "EndPassed", "62" in fields and moment_of(fields["62"]) < venue.moment


def of_withdrawal(venue, who, fields, pairs):
    live = [it for it in venue.live[who].values() if it.is_live(venue.moment)]
    yield "CancelUnsupported", fields["298"] not in ("4", "5")
    if fields["298"] == "5":
        yield "QuoteMissing", "117" not in fields
        yield "NotFound", "117" in fields and fields["117"] not in [it.name for it in live]
    yield "NotFound again", fields["298"] == "4" and not live


def of_response(venue, who, fields, pairs):
    quote = venue.numbered("Q", venue.quotes, fields["117"])
    yield "UnsupportedResponse", fields["694"] not in ("1", "6")
    yield "NotFound", quote is None
    if quote:
        room = quote.room
        side = room.side or fields.get("54")
        yield "NotYours", room.requester != who
        yield "NotFound again", room.has_traded or quote.is_replaced
        yield "Withdrawn", quote.is_withdrawn
        yield "Expired", venue.moment > quote.end
    if quote and fields["694"] != "6":
        yield "Side", bool(room.side) and fields.get("54", room.side) != room.side
        yield "SideMissing", side is None
        yield "InvalidPrice", side is not None and (quote.offer if side == BUY else quote.bid) is None


def of_snapshot(venue, who, fields, pairs):
    yield "UnknownInstrument", fields["55"] not in venue.books
    yield "SnapshotsOnly", fields["263"] != "0"
    yield "FullDepthOnly", fields["264"] != "0"


# By the type of a message: its list, and the tests of it.
TESTS = {
    "D": ("order", of_order),
    "F": ("cancel", of_cancel),
    "G": ("replace", of_replacement),
    "s": ("cross", of_cross),
    "R": ("request", of_request),
    "S": ("quote", of_quote),
    "Z": ("withdrawal", of_withdrawal),
    "AJ": ("response", of_response),
    "V": ("snapshot", of_snapshot),
}
NAMES = {name for name, _ in TESTS.values()} | {"due"}


def pairs_of(row):
    return [tuple(piece.split("=", 1)) for piece in row.text.split("|")[:-1]]


def list_of(row):
    return TESTS.get(pairs_of(row)[0][1], (None,))[0] if row.who else "due"


def holding(venue, row):
    venue.moment = venue.at = row.moment
    if not row.who:
        venue.at = venue.held[0][0]
        return [cause for cause, holds in of_due(venue) if holds]
    (_, kind), *pairs = pairs_of(row)
    if kind not in TESTS:
        return []
    return [cause for cause, holds in TESTS[kind][1](venue, row.who - 1, dict(pairs), pairs) if holds]
