"""A plain venue in Python, by docs/PROTOCOL.md: what each row of a trail makes the venue send, and to whom.

    Reference(names, related, instruments)
        .take(row)      the replies to a row (who, number, moment, text): (place, MsgType, fields) each, in order
        .trades         the lines that sef_replay prints of the trades so far
        .causes         how often each refusal was given, by its text or code
    Instrument(symbol, tick, least, life, delay)    ticks in millionths, life and delay in milliseconds

Texts have | for SOH. Lists are searched from the front, since no speed is needed: it is written to be read against the
protocol, not to share anything with the venue's code.
"""

import bisect
import collections

SIDE_LIMIT, HELD_LIMIT, ROOM_LIMIT, RECIPIENT_LIMIT = 200, 1_000, 1_000, 12
LAST_MOMENT = 253_402_300_799_999  # the end of 9999
BUY, SELL = "1", "2"
DAY, IMMEDIATE, ALL_OR_NONE = "0", "3", "4"
NEW, FILLED, CANCELLED, REPLACED = "0", "F", "4", "5"

CAUSES = """Unknown instrument, Duplicate ClOrdID, Unsupported order, Price missing, Price off tick, Quantity below least,
Linked order too recent, Book side full, Unknown order, Held side, Quantity already filled, Snapshots only, Full depth only,
Duplicate CrossID, One buy and one sell, Quantity, Too many held, Duplicate request, Unknown participant,
Requester among recipients, Recipient twice, Too many recipients, Too few recipients, Recipients not unrelated,
Too many requests, Unknown request, Not asked, Too late, Duplicate quote, Not tradeable, Invalid price, Size, Quote missing,
Unsupported cancel, Unsupported response, Not yours, Side, Side missing, Unsupported message type, 297=7, 297=9"""

Instrument = collections.namedtuple("Instrument", "symbol tick least life delay")
Row = collections.namedtuple("Row", "who number moment text")


class Broken(Exception):
    """A row that no venue would have written."""


def price_of(text):
    """A price in millionths."""
    sign = -1 if text.startswith("-") else 1
    whole, _, part = text.lstrip("-").partition(".")
    return sign * (int(whole or "0") * 1_000_000 + int((part + "000000")[:6]))


def price_text(millionths):
    whole, part = divmod(abs(millionths), 1_000_000)
    text = f"{whole}.{part:06d}".rstrip("0").rstrip(".")
    return f"-{text}" if millionths < 0 else text


def moment_text(moment):
    """A moment as a UTC timestamp field has it."""
    from datetime import datetime, timedelta

    at = datetime(1970, 1, 1) + timedelta(milliseconds=moment)
    return at.strftime("%Y%m%d-%H:%M:%S.") + f"{at.microsecond // 1000:03d}"


def moment_of(text):
    from datetime import datetime, timezone

    at = datetime.strptime(text[:17], "%Y%m%d-%H:%M:%S").replace(tzinfo=timezone.utc)
    return int(at.timestamp()) * 1000 + int((text[18:] + "000")[:3])


class Order:
    """A resting order, or one that enters. `filled` counts over all replacements."""

    def __init__(self, who, name, link, side, price, left, filled=0):
        self.who, self.name, self.link, self.side, self.price = who, name, link, side, price
        self.left, self.filled = left, filled
        self.number = self.entered = None


class Book:
    """An instrument's resting orders: a list for each side, best first, at one price the earliest first."""

    def __init__(self, instrument):
        self.instrument = instrument
        self.sides = {BUY: [], SELL: []}

    def key(self, order):
        return (-order.price if order.side == BUY else order.price, order.number)

    def rest(self, order):
        bisect.insort(self.sides[order.side], order, key=self.key)

    def remove(self, order):
        self.sides[order.side].remove(order)

    def fills(self, order, quantity):
        """The resting orders that it meets, each with the quantity, and what is left of it."""
        met = []
        for other in self.sides[SELL if order.side == BUY else BUY]:
            fits = other.price <= order.price if order.side == BUY else other.price >= order.price
            if not fits or not quantity:
                break
            taken = min(quantity, other.left)
            met.append((other, taken))
            quantity -= taken
        return met, quantity

    def snapshot(self):
        orders = self.sides[BUY] + self.sides[SELL]
        if not orders:
            return "268=1|269=J|"
        entries = (
            f"269={'0' if o.side == BUY else '1'}|270={price_text(o.price)}|271={o.left}|278=O{o.number}|"
            for o in orders
        )
        return f"268={len(orders)}|" + "".join(entries)

    def shown(self):
        orders = self.sides[BUY] + self.sides[SELL]
        return ",".join(f"O{o.number}x{o.left}" for o in orders) or "none"


class Room:
    def __init__(self, number, requester, request, book, fields):
        self.number, self.requester, self.request, self.book = number, requester, request, book
        self.side, self.quantity = fields.get("54"), int(fields["38"])
        self.has_traded = False
        self.quotes = []
        self.shown = None
        self.end = self.recipients = None

    def is_open(self, moment):
        return not self.has_traded and moment <= self.end


class Quote:
    def __init__(self, number, maker, name, room, bid, offer, end):
        self.number, self.maker, self.name, self.room, self.bid, self.offer, self.end = (
            number,
            maker,
            name,
            room,
            bid,
            offer,
            end,
        )
        self.is_replaced = self.is_withdrawn = False

    def is_live(self, moment):
        return not (self.is_replaced or self.is_withdrawn or self.room.has_traded) and moment <= self.end


class Reference:
    def __init__(self, names, related, instruments):
        self.names = names
        self.places = {name: k for k, name in enumerate(names)}
        self.related = {frozenset((self.places[a], self.places[b])) for a, b in related}
        self.books = {instrument.symbol: Book(instrument) for instrument in instruments}
        self.counts = collections.Counter()  # of orders, reports, rooms, quotes
        self.used = collections.defaultdict(set)  # identifiers, by tag and participant
        self.resting = {}  # (participant, 11) -> (book, order)
        self.held = []  # (due, count, book, order), the first due first
        self.held_names = {}  # (participant, 11) -> what is held
        self.rooms, self.quotes, self.maybe_open = [], [], []
        self.live = collections.defaultdict(dict)  # participant -> its quotes that were not replaced or withdrawn
        self.trades, self.causes = [], collections.Counter()
        self.replies = []
        self.moment = self.at = 0  # of the row, and at which its order enters: a held side at the moment it was due

    # Rows

    def take(self, row):
        self.replies = []
        if row.moment < self.moment:
            raise Broken(f"the moment {row.moment} of {row} is before the last one, {self.moment}")
        self.moment = self.at = row.moment
        is_due = bool(self.held) and self.held[0][0] <= row.moment
        if is_due != (row.who == 0):
            raise Broken(f"{row}: a held side is {'due' if is_due else 'not due'}")
        if row.who == 0:
            self.tick()
        else:
            pairs = [piece.split("=", 1) for piece in row.text.split("|")[:-1]]
            answer = self.ANSWERS.get(pairs[0][1], Reference.unsupported)
            answer(self, row.who - 1, dict(pairs[1:]), row._replace(text=pairs))
        return self.replies

    def send(self, to, kind, fields):
        self.replies.append((to, kind, fields))

    def next(self, prefix):
        self.counts[prefix] += 1
        return f"{prefix}{self.counts[prefix]}"

    def is_new(self, tag, who, name):
        return name not in self.used[tag, who]

    # Reports and refusals

    def report(self, who, order, status, symbol, side, left, filled, more):
        self.send(
            who,
            "8",
            f"37={order}|17={self.next('E')}|150={status[0]}|39={status[1]}|55={symbol}|54={side}|151={left}|14={filled}|{more}",
        )

    def refuse_order(self, who, name, symbol, side, cause):
        """The report of a refusal; that of a duplicate names the order that rests under its 11."""
        self.causes[cause[1]] += 1
        _, order = self.resting.get((who, name), (None, None)) if cause[0] == 6 else (None, None)
        number = "NONE" if order is None else f"O{order.number}"
        self.report(who, number, "88", symbol, side, 0, 0, f"11={name}|103={cause[0]}|58={cause[1]}|")

    def refuse_change(self, who, kind, fields, found, cause):
        self.causes[cause[1]] += 1
        number, status = ("NONE", "8") if found is None else (f"O{found.number}", "1" if found.filled else "0")
        change = {"F": 1, "G": 2}[kind]
        self.send(
            who, "9", f"37={number}|11={fields['11']}|41={fields['41']}|39={status}|434={change}|102={cause[0]}|58={cause[1]}|"
        )

    def reject(self, who, row, code, text):
        self.causes[text] += 1
        self.send(who, "j", f"45={row.number}|372={row.text[0][1]}|380={code}|58={text}|")

    def status(self, who, code, fields, cause=None):
        """A QuoteStatusReport; `fields` has values for 117, 131, 693, 55."""
        given = "".join(f"{tag}={value}|" for tag, value in zip(("117", "131", "693", "55"), fields) if value is not None)
        if cause:
            self.causes[cause[1]] += 1
        elif code not in (0, 11, 17):
            self.causes[f"297={code}"] += 1
        self.send(who, "AI", f"{given}297={code}|" + (f"300={cause[0]}|58={cause[1]}|" if cause else ""))

    # Orders

    def is_linked(self, order, other):
        return (
            order.who == other.who
            or frozenset((order.who, other.who)) in self.related
            or (order.link is not None and order.link == other.link)
        )

    def entry(self, book, order, life=DAY):
        """The fills of an order that enters and what is left of it, or why it may not."""
        met, left = book.fills(order, order.left)
        if life == ALL_OR_NONE and left:
            met, left = [], order.left
        delay = book.instrument.delay
        if any(self.is_linked(order, other) and self.at - other.entered < delay for other, _ in met):
            return None, (99, "Linked order too recent")
        if life == DAY and left and len(book.sides[order.side]) >= SIDE_LIMIT:
            return None, (3, "Book side full")
        return met, None

    def number(self, order):
        self.next("O")
        order.number, order.entered = self.counts["O"], self.at

    def report_of(self, book, order, status, more):
        self.report(
            order.who,
            f"O{order.number}",
            status,
            book.instrument.symbol,
            order.side,
            order.left,
            order.filled,
            f"11={order.name}|{more}",
        )

    def enter(self, book, order, met):
        self.number(order)
        self.report_of(book, order, "00", "")
        self.fill(book, order, met)

    def fill(self, book, order, met):
        symbol = book.instrument.symbol
        for other, taken in met:
            trade = f"T{len(self.trades) + 1}"
            for each in (order, other):
                each.left -= taken
                each.filled += taken
            for each in (order, other):
                self.report_of(
                    book,
                    each,
                    FILLED + ("1" if each.left else "2"),
                    f"31={price_text(other.price)}|32={taken}|880={trade}|",
                )
            buyer, seller = (order, other) if order.side == BUY else (other, order)
            parties = f"buyer {self.names[buyer.who]} seller {self.names[seller.who]}"
            self.trades.append(f"{trade} book {symbol} {taken} @ {price_text(other.price)} {parties}")
            if not other.left:
                book.remove(other)
                del self.resting[other.who, other.name]

    def rest(self, book, order):
        if order.left:
            book.rest(order)
            self.resting[order.who, order.name] = book, order

    def terms(self, fields, book):
        """The cause of a price or a quantity that the instrument does not have; the price is there."""
        if price_of(fields["44"]) % book.instrument.tick:
            return 99, "Price off tick"
        return None

    def order(self, who, fields, row):
        name, symbol, side = fields["11"], fields["55"], fields["54"]
        book, life = self.books.get(symbol), fields.get("59", DAY)

        def refuse(*cause):
            self.refuse_order(who, name, symbol, side, cause)

        if book is None:
            return refuse(1, "Unknown instrument")
        if not self.is_new("11", who, name):
            return refuse(6, "Duplicate ClOrdID")
        if fields["40"] != "2" or life not in (DAY, IMMEDIATE, ALL_OR_NONE):
            return refuse(11, "Unsupported order")
        if "44" not in fields:
            return self.reject(who, row, 5, "Price missing")
        if self.terms(fields, book):
            return refuse(*self.terms(fields, book))
        if int(fields["38"]) < book.instrument.least:
            return refuse(13, "Quantity below least")
        order = Order(who, name, fields.get("583"), side, price_of(fields["44"]), int(fields["38"]))
        met, cause = self.entry(book, order, life)
        if cause:
            return refuse(*cause)
        self.used["11", who].add(name)
        self.enter(book, order, met)
        if life == DAY:
            self.rest(book, order)
        elif order.left:
            order.left = 0
            self.report_of(book, order, CANCELLED + "4", "")

    def change_cause(self, who, fields):
        """Why a cancel or a replacement is refused by its identifiers; the held side that it names, or the order."""
        held = self.held_names.get((who, fields["41"]))
        book, order = self.resting.get((who, fields["41"]), (None, None))
        cause = None
        if held is None and order is None:
            cause = 1, "Unknown order"
        elif not self.is_new("11", who, fields["11"]):
            cause = 6, "Duplicate ClOrdID"
        return held, book, order, cause

    def cancel(self, who, fields, row):
        held, book, order, cause = self.change_cause(who, fields)
        if cause:
            return self.refuse_change(who, "F", fields, order, cause)
        self.used["11", who].add(fields["11"])
        names = f"11={fields['11']}|41={fields['41']}|"
        if held:
            self.held.remove(held)
            _, _, book, order = self.held_names.pop((who, fields["41"]))
            self.report(who, "NONE", CANCELLED + "4", book.instrument.symbol, order.side, 0, 0, names)
            return None
        book.remove(order)
        del self.resting[who, order.name]
        status = CANCELLED + "4"
        symbol = book.instrument.symbol
        self.report(who, f"O{order.number}", status, symbol, order.side, 0, order.filled, names)
        return None

    def replace(self, who, fields, row):
        held, book, old, cause = self.change_cause(who, fields)

        def refuse(*cause):
            self.refuse_change(who, "G", fields, old, cause)

        if cause:
            return refuse(*cause)
        if held:
            return refuse(99, "Held side")
        if fields["40"] != "2":
            return refuse(99, "Unsupported order")
        if "44" not in fields:
            return self.reject(who, row, 5, "Price missing")
        if self.terms(fields, book):
            return refuse(*self.terms(fields, book))
        quantity = int(fields["38"])
        if quantity < book.instrument.least:
            return refuse(99, "Quantity below least")
        if quantity <= old.filled:
            return refuse(99, "Quantity already filled")
        price, left = price_of(fields["44"]), quantity - old.filled
        order = Order(who, fields["11"], old.link, old.side, price, left, old.filled)
        met, left = book.fills(order, order.left)
        if any(self.is_linked(order, other) and self.at - other.entered < book.instrument.delay for other, _ in met):
            return refuse(99, "Linked order too recent")
        self.used["11", who].add(order.name)
        book.remove(old)
        del self.resting[who, old.name]
        self.number(order)
        self.report_of(book, order, REPLACED + ("1" if old.filled else "0"), f"41={old.name}|")
        self.fill(book, order, met)
        self.rest(book, order)

    # Crosses

    def cross_cause(self, who, fields, sides):
        """Why a cross is refused before its first side is looked at; "44" where its price is missing."""
        book = self.books.get(fields["55"])
        names = [side["11"] for side in sides]
        quantities = [int(side["38"]) for side in sides]
        if book is None:
            return 1, "Unknown instrument"
        if not self.is_new("548", who, fields["548"]):
            return 6, "Duplicate CrossID"
        if names[0] == names[1] or not all(self.is_new("11", who, name) for name in names):
            return 6, "Duplicate ClOrdID"
        if fields["549"] != "4" or fields["550"] not in ("1", "2") or fields["40"] != "2":
            return 11, "Unsupported order"
        if "44" not in fields:
            return "44"
        if sides[0]["54"] == sides[1]["54"]:
            return 99, "One buy and one sell"
        if self.terms(fields, book):
            return self.terms(fields, book)
        if quantities[0] != quantities[1] or quantities[0] < book.instrument.least:
            return 13, "Quantity"
        return None

    def cross(self, who, fields, row):
        pairs = row.text
        at = [k for k, (tag, _) in enumerate(pairs) if tag == "54"]
        sides = [dict(pairs[k : k + 3]) for k in at]
        cause = self.cross_cause(who, fields, sides)
        if cause == "44":
            return self.reject(who, row, 5, "Price missing")
        first = second = met = book = None
        if not cause:
            book = self.books[fields["55"]]
            both = [
                Order(who, side["11"], None, side["54"], price_of(fields["44"]), int(side["38"])) for side in sides
            ]
            first, second = both if both[0].side == fields["550"] else both[::-1]
            met, cause = self.entry(book, first)
            if not cause and len(self.held) >= HELD_LIMIT:
                cause = 3, "Too many held"
        if cause:
            for side in sides:
                self.refuse_order(who, side["11"], fields["55"], side["54"], cause)
            return None
        self.used["548", who].add(fields["548"])
        self.used["11", who].update(side["11"] for side in sides)
        self.enter(book, first, met)
        self.rest(book, first)
        self.counts["held"] += 1
        held = self.moment + book.instrument.delay, self.counts["held"], book, second
        self.held_names[who, second.name] = held
        bisect.insort(self.held, held, key=lambda each: each[:2])
        return None

    def tick(self):
        self.at, _, book, order = self.held.pop(0)
        del self.held_names[order.who, order.name]
        met, cause = self.entry(book, order)
        if cause:
            return self.refuse_order(order.who, order.name, book.instrument.symbol, order.side, cause)
        self.enter(book, order, met)
        self.rest(book, order)
        return None

    # Requests for quotes

    def recipients_of(self, pairs):
        parties = [pairs[k : k + 3] for k, (tag, _) in enumerate(pairs) if tag == "448"]
        return [party[0][1] for party in parties if [value for _, value in party[1:]] == ["D", "35"]]

    def are_three_unrelated(self, who, places):
        """Whether three of these are unrelated to each other and to this participant."""

        def are_apart(*some):
            return all(frozenset((a, b)) not in self.related for a in some for b in some if a < b)

        free = [place for place in places if are_apart(who, place)]
        return any(are_apart(a, b, c) for i, a in enumerate(free) for j, b in enumerate(free[:i]) for c in free[:j])

    def request_cause(self, who, fields, names):
        book = self.books.get(fields["55"])
        if not self.is_new("131", who, fields["131"]):
            return 99, "Duplicate request"
        if book is None:
            return 1, "Unknown instrument"
        if int(fields["38"]) < book.instrument.least:
            return 99, "Quantity below least"
        if any(name not in self.places for name in names):
            return 99, "Unknown participant"
        if self.names[who] in names:
            return 6, "Requester among recipients"
        if len(set(names)) < len(names):
            return 99, "Recipient twice"
        if len(names) > RECIPIENT_LIMIT:
            return 3, "Too many recipients"
        if len(names) < 3:
            return 99, "Too few recipients"
        if not self.are_three_unrelated(who, [self.places[name] for name in names]):
            return 99, "Recipients not unrelated"
        if self.count_open() >= ROOM_LIMIT:
            return 3, "Too many requests"
        return None

    def count_open(self):
        if len(self.maybe_open) >= ROOM_LIMIT:
            self.maybe_open = [room for room in self.maybe_open if room.is_open(self.moment)]
        return len(self.maybe_open)

    def request(self, who, fields, row):
        names = self.recipients_of(row.text)
        cause = self.request_cause(who, fields, names)
        if cause:
            self.causes[cause[1]] += 1
            self.send(who, "AG", f"131={fields['131']}|658={cause[0]}|146=1|55={fields['55']}|58={cause[1]}|")
            return
        self.used["131", who].add(fields["131"])
        self.next("R")
        room = Room(self.counts["R"], who, fields["131"], self.books[fields["55"]], fields)
        room.end = min(self.moment + room.book.instrument.life, LAST_MOMENT)
        room.recipients = [self.places[name] for name in names]
        self.rooms.append(room)
        self.maybe_open.append(room)
        side = f"54={room.side}|" if room.side else ""
        for recipient in room.recipients:
            self.send(recipient, "R", f"131=R{room.number}|146=1|55={fields['55']}|{side}38={room.quantity}|")

    def numbered(self, prefix, items, text):
        """The item with this number, as R1; None where there is none."""
        if text[:1] != prefix or not text[1:].isdigit() or text[1:2] == "0":
            return None
        return items[int(text[1:]) - 1] if int(text[1:]) <= len(items) else None

    def quote_cause(self, who, fields, room):
        book, bid, offer = room.book, fields.get("132"), fields.get("133")
        prices = [price_of(price) for price in (bid, offer) if price is not None]
        needed = {BUY: offer, SELL: bid, None: bid or offer}[room.side]
        if who not in room.recipients:
            return 9, "Not asked"
        if not room.is_open(self.moment):
            return 4, "Too late"
        if fields["55"] != book.instrument.symbol:
            return 1, "Unknown instrument"
        if not self.is_new("117", who, fields["117"]):
            return 6, "Duplicate quote"
        if fields.get("537", "1") != "1":
            return 99, "Not tradeable"
        if needed is None or any(price % book.instrument.tick for price in prices) or prices != sorted(prices):
            return 8, "Invalid price"
        if any(tag in fields and int(fields[tag]) != room.quantity for tag in ("134", "135")):
            return 99, "Size"
        if "62" in fields and moment_of(fields["62"]) < self.moment:
            return 4, "Too late"
        return None

    def quote(self, who, fields, row):
        room = self.numbered("R", self.rooms, fields["131"])
        if room is None:
            self.status(who, 5, (fields["117"], fields["131"], None, None), (99, "Unknown request"))
            return
        symbol = room.book.instrument.symbol
        cause = self.quote_cause(who, fields, room)
        if cause:
            self.status(who, 5, (fields["117"], fields["131"], None, symbol), cause)
            return
        self.used["117", who].add(fields["117"])
        self.next("Q")
        end = min(moment_of(fields["62"]) if "62" in fields else room.end, room.end)
        prices = [price_of(fields[tag]) if tag in fields else None for tag in ("132", "133")]
        quote = Quote(self.counts["Q"], who, fields["117"], room, *prices, end)
        for earlier in room.quotes:
            if earlier.maker == who:
                earlier.is_replaced = True
                self.live[who].pop(earlier.number, None)
        self.status(who, 0, (quote.name, f"R{room.number}", None, symbol))
        if not room.quotes:
            room.shown = room.book.shown()
            self.send(room.requester, "W", f"262={room.request}|55={symbol}|{room.book.snapshot()}")
        room.quotes.append(quote)
        self.quotes.append(quote)
        self.live[who][quote.number] = quote
        self.send(room.requester, "S", self.quote_text(quote))

    def quote_text(self, quote):
        room = quote.room
        priced = [(tag, price) for tag, price in (("132", quote.bid), ("133", quote.offer)) if price is not None]
        prices = "".join(f"{tag}={price_text(price)}|" for tag, price in priced)
        sizes = "".join(f"{'134' if tag == '132' else '135'}={room.quantity}|" for tag, _ in priced)
        party = f"453=1|448={self.names[quote.maker]}|447=D|452=35|"
        head = f"117=Q{quote.number}|131={room.request}|537=1|{party}55={room.book.instrument.symbol}|"
        return f"{head}{prices}{sizes}62={moment_text(quote.end)}|"

    def end_quote(self, quote, code, first=None):
        """Ends a quote for both sides, the maker first, or the sender of this response."""
        room, symbol = quote.room, quote.room.book.instrument.symbol
        quote.is_withdrawn = True
        self.live[quote.maker].pop(quote.number, None)
        maker = quote.maker, code, (quote.name, f"R{room.number}", None, symbol)
        requester = room.requester, code, (f"Q{quote.number}", room.request, first, symbol)
        for each in (requester, maker) if first else (maker, requester):
            self.status(*each)

    def withdraw(self, who, fields, row):
        name, kind = fields.get("117"), fields["298"]
        if kind not in ("4", "5"):
            self.status(who, 5, (name, None, None, None), (99, "Unsupported cancel"))
            return
        if kind == "5" and name is None:
            self.reject(who, row, 5, "Quote missing")
            return
        live = [quote for quote in self.live[who].values() if quote.is_live(self.moment)]
        if kind == "5":
            live = [quote for quote in live if quote.name == name]
        for quote in sorted(live, key=lambda quote: quote.number):
            self.end_quote(quote, 17)
        if not live:
            self.status(who, 9, (name if kind == "5" else None, None, None, None))

    def respond(self, who, fields, row):
        quote = self.numbered("Q", self.quotes, fields["117"])
        name, response, kind = fields["117"], fields["693"], fields["694"]
        if kind not in ("1", "6"):
            return self.status(who, 5, (name, None, response, None), (99, "Unsupported response"))
        if quote is None:
            return self.status(who, 9, (name, None, response, None))
        room, symbol = quote.room, quote.room.book.instrument.symbol
        if room.requester != who:
            return self.status(who, 5, (name, None, response, None), (9, "Not yours"))
        known = name, room.request, response, symbol
        if room.has_traded or quote.is_replaced:
            return self.status(who, 9, known)
        if quote.is_withdrawn:
            return self.status(who, 17, known)
        if self.moment > quote.end:
            return self.status(who, 7, known)
        if kind == "6":
            return self.end_quote(quote, 11, response)
        side = fields.get("54", room.side)
        if room.side and side != room.side:
            return self.status(who, 5, known, (99, "Side"))
        if side is None:
            return self.reject(who, row, 5, "Side missing")
        price = quote.offer if side == BUY else quote.bid
        if price is None:
            return self.status(who, 5, known, (8, "Invalid price"))
        return self.hit(quote, side, price, response)

    def hit(self, quote, side, price, response):
        room, symbol = quote.room, quote.room.book.instrument.symbol
        room.has_traded = True
        trade = f"T{len(self.trades) + 1}"
        last = f"31={price_text(price)}|32={room.quantity}|880={trade}|"
        number, other = f"R{room.number}", SELL if side == BUY else BUY
        self.report(room.requester, number, "F2", symbol, side, 0, room.quantity, f"{last}693={response}|")
        self.report(quote.maker, number, "F2", symbol, other, 0, room.quantity, last)
        requester, maker = self.names[room.requester], self.names[quote.maker]
        buyer, seller = (requester, maker) if side == BUY else (maker, requester)
        asked = ",".join(self.names[place] for place in room.recipients)
        first = f"first Q{room.quotes[0].number} shown {room.shown}"
        parties = f"buyer {buyer} seller {seller} room R{room.number} asked {asked} {first}"
        self.trades.append(f"{trade} rfq {symbol} {room.quantity} @ {price_text(price)} {parties}")

    # Market data and the rest

    def market_data(self, who, fields, row):
        book, name = self.books.get(fields["55"]), fields["262"]
        cause = None
        if book is None:
            cause = 0, "Unknown instrument"
        elif fields["263"] != "0":
            cause = 4, "Snapshots only"
        elif fields["264"] != "0":
            cause = 5, "Full depth only"
        if cause:
            self.causes[cause[1]] += 1
            self.send(who, "Y", f"262={name}|281={cause[0]}|58={cause[1]}|")
        else:
            self.send(who, "W", f"262={name}|55={fields['55']}|{book.snapshot()}")

    def unsupported(self, who, fields, row):
        if row.text[0][1] != "j":
            self.reject(who, row, 3, "Unsupported message type")

    ANSWERS = {
        "D": order,
        "F": cancel,
        "G": replace,
        "s": cross,
        "R": request,
        "S": quote,
        "Z": withdraw,
        "AJ": respond,
        "V": market_data,
    }
