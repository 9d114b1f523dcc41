"""The section Requests for quotes of the page of a day."""
import itertools

from answers import full, milliseconds
from asked import refused, refused_by_name, three

MOST_OPEN, MOST_FLAT, MOST_WHOLE, MOST_SHOWN, MOST_TRADES = 12, 60, 300, 4, 10000


class Room:
    """A request with what was answered of it: whom it was sent to, the quotes as the requester was sent them, the
    orders shown, and of each quote what ended it first."""

    def __init__(self, number, sent):
        self.number, self.row, self.sent, self.symbol = number, sent.row, [sent], sent.get("55")
        self.quotes, self.shown, self.ends, self.trade = [], {}, {}, None

    def end(self, quote, row, *fate):
        self.ends.setdefault(quote, (row, *fate))

    def take(self, reply):
        kind, row = reply.get("35"), reply.row
        if kind == "R":
            self.sent.append(reply)
        elif kind == "W":
            self.shown[row.n] = [entry for entry in entries(reply.fields) if entry["269"] != "J"]
        elif kind == "S":
            for earlier in self.quotes:
                if earlier.row.who == row.who and earlier.row is not row:
                    self.end(earlier.get("117"), row, "REPLACED", "quote", reply.get("117")[1:])
            self.quotes.append(reply)
        elif kind == "8":
            for quote in self.quotes:
                hit = quote.get("117") == row.get("117")
                self.end(quote.get("117"), row, *(("HIT", "trade", reply.get("880")[1:]) if hit else ("NOT_TAKEN",)))
        elif reply.to != row.who and reply.get("297") == "17":
            self.end(reply.get("117"), row, "WITHDRAWN", "row", row.n)
        elif reply.to != row.who and reply.get("297") == "11":
            self.end(row.get("117"), row, "PASSED", "row", row.n)


def entries(message):
    """The entries of a snapshot."""
    found = []
    for tag, text in message:
        if tag == "269":
            found.append({})
        if found:
            found[-1][tag] = text
    return found


def rooms_of(rows, trades):
    rooms, of_quote = {}, {}
    for reply in (reply for row in rows for reply in row.replies):
        kind = reply.get("35")
        if kind == "R":
            number = reply.get("131")
            if number not in rooms:
                rooms[number] = Room(number[1:], reply)
                continue
        elif kind in ("S", "W"):
            number = reply.row.get("131")
            if kind == "S":
                of_quote[reply.get("117")] = number
        elif kind == "8" and reply.get("880"):
            number = reply.get("37")
        elif kind == "AI":
            number = of_quote.get(reply.get("117"), of_quote.get(reply.row.get("117")))
        else:
            number = None
        if number in rooms:
            rooms[number].take(reply)
    for t in trades:
        if t.room is not None:
            rooms["R" + t.room].trade = t
    return list(rooms.values())


def fate(page, room, quote, last):
    """What became of a quote: what ended it first, unless it had run out by then."""
    row, name, *value = room.ends.get(quote.get("117"), (last, "LIVE"))
    if full(quote.get("62")) < row.utc:
        page.add("RAN_OUT")
    elif name == "HIT" and int(value[1]) > MOST_TRADES:
        page.add("HIT_ALONE", trade=value[1])
    else:
        page.add(name, **dict([value] if value else []))


def shown(page, values, room):
    """What was sent with the first quote: of each side the best orders, and the quantity of all."""
    page.add("ROOM_SHOWN")
    if not room.quotes:
        page.add("NOBODY_QUOTED")
        return
    first = room.quotes[0]
    orders = room.shown[first.row.n]
    if not orders:
        page.add("NOTHING_RESTED")
    for side, name, none in ("0", "BIDS", "NO_BID"), ("1", "OFFERS", "NO_OFFER"):
        of = [it for it in orders if it["269"] == side]
        if orders:
            page.add(f"request_sections.{name}" if of else none)
        for it in of[:MOST_SHOWN]:
            page.add("SHOWN", quantity=f"{int(it['271']):,}", price=values.price(room.symbol, it["270"]),
                     order=it["278"][1:])
        if len(of) > MOST_SHOWN:
            quantity = sum(int(it["271"]) for it in of)
            page.add("MORE_SHOWN", count=f"{len(of) - MOST_SHOWN:,}", quantity=f"{quantity:,}")
    page.add("SHOWN_WITH", quote=first.get("117")[1:])


def timeline(page, room, quote, last):
    """The life of a quote on the axis of its request, and the line on to its stated end. A hit is at 9,000 of 10,000;
    else the axis ends with the last quote or stated end in the room."""
    began, stated = quote.row.ms, milliseconds(quote.get("62"))
    ended, *_ = room.ends.get(quote.get("117"), (last,))
    if room.trade is None:
        length, until = 10000, max(ms for it in room.quotes for ms in (it.row.ms, milliseconds(it.get("62"))))
    else:
        length, until = 9000, room.trade.row.ms
    begin, end, line_end = (min(length * (ms - room.row.ms) // max(until - room.row.ms, 1), 10000)
                            for ms in (began, min(stated, ended.ms), stated))
    page.add("LIFE", start=begin, width=end - begin, **{"from": begin, "to": line_end})
    page.add("LIFE_END" if room.trade is None else "HIT_AT")


def quotes(page, values, room, last, row_number):
    page.add("QUOTES", room=room.number)
    for quote in room.quotes:
        bid, offer = (values.price(room.symbol, quote.get(tag)) for tag in ("132", "133"))
        page.add("QUOTE", quote=quote.get("117")[1:], maker=quote.row.who, id=quote.row.get("117"), bid=bid,
                 offer=offer, time=values.time(quote.row.utc), end=values.time(full(quote.get("62"))))
        timeline(page, room, quote, last)
        fate(page, room, quote, last)
        row_number(quote.row)
        page.add("CELL_END")
    makers = {quote.row.who for quote in room.quotes}
    silent = [sent.to for sent in room.sent if sent.to not in makers]
    if silent:
        page.add("NO_QUOTE")
        for name in silent:
            page.add("NAME", name=name)
        page.add("CELL_END")


def head(page, values, room):
    row, asked = room.row, room.sent[0].get
    page.add("ROOM", room=room.number, time=values.time(row.utc), requester=row.who, asked=f"{len(room.sent):,}",
             side={None: "to buy or sell", "1": "to buy", "2": "to sell"}[asked("54")],
             quantity=f"{int(asked('38')):,}", symbol=asked("55"), id=row.get("131"))
    t = room.trade
    if t is None:
        page.add("ROOM_IDLE", quotes=f"{len(room.quotes):,}")
    else:
        page.add("ROOM_TRADED" if t.number <= MOST_TRADES else "ROOM_TRADED_ALONE", trade=t.number,
                 price=values.price(room.symbol, t.price))


def body(page, values, room, known, row_number):
    """`known` are the pairs who are related, the refusals by what they name, and the last row."""
    related, refusals, last = known
    page.add("ROOM_ASKED", room=room.number)
    for sent in room.sent:
        page.add("NAME", name=sent.to)
    page.add("ASKED_ROW")
    row_number(room.row)
    three(page, room, related)
    shown(page, values, room)
    refused(page, values, room, refusals, row_number)
    page.add("ASKED_END")
    quotes(page, values, room, last, row_number)
    page.add("ROOM_END")


def requests(page, values, rows, trades, related, row_number):
    rooms = rooms_of(rows, trades)
    if not rooms:
        page.add("NO_REQUEST")
        return
    known = related, refused_by_name(rows), rows[-1]
    page.add("REQUESTS", count=f"{len(rooms):,}")
    hours = itertools.groupby(rooms, lambda room: room.row.utc[:11] if len(rooms) > MOST_FLAT else None)
    for hour, of in hours:
        of = list(of)
        if hour:
            traded = sum(it.trade is not None for it in of)
            page.add("HOUR_OF_REQUESTS", hour=hour, count=f"{len(of):,}", traded=f"{traded:,}", first=of[0].number,
                     last=of[-1].number)
        for room in of:
            if len(rooms) > MOST_WHOLE and room.trade is None:
                page.add("ROOM_LINE", room=room.number)
                head(page, values, room)
                page.add("ROOM_LINE_END")
            else:
                page.add("ROOM_OPEN" if len(rooms) <= MOST_OPEN else "ROOM_FOLDED")
                head(page, values, room)
                body(page, values, room, known, row_number)
        if hour:
            page.add("HOUR_OF_REQUESTS_END")
    page.add("request_sections.SECTION_END")
