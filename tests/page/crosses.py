"""The section Crosses of the page of a day."""
from answers import cause_of
from charts import utc
from deals import MOST_TRADES, folded


class Cross:
    """An accepted cross, by its message and the report that its first side entered: `due` is when its second side is,
    `end` the row and the replies that ended its wait, None where it is held at the last row."""

    def __init__(self, row, report, delays):
        self.row, self.order, self.end = row, report.get("37"), None
        sides = sorted(sides_of(row.message), key=lambda side: side["11"] != report.get("11"))
        self.first, self.second = sides
        self.due = row.ms + delays[row.get("55")]

    def trades(self):
        """The trades that the second side made as it entered: with its first, and with others."""
        own, others = [], []
        row, entry = self.end
        orders = {}
        for reply in row.replies:
            if reply.get("880"):
                orders.setdefault(reply.get("880"), set()).add(reply.get("37"))
        for trade, both in orders.items():
            assert entry.get("37") in both
            (own if self.order in both else others).append(trade)
        return own, others


def sides_of(message):
    """The sides of a cross (552), in the order of its message."""
    found = []
    for tag, text in message:
        if tag == "54":
            found.append({})
        if tag in ("54", "11", "38"):
            found[-1][tag] = text
    return found


def crosses_of(rows, delays):
    crosses, held = [], {}
    for row in rows:
        for reply in row.replies:
            kind = reply.get("150") if reply.get("35") == "8" else None
            if row.get("35") == "s" and kind == "0":
                it = Cross(row, reply, delays)
                crosses.append(it)
                held[row.who, it.second["11"]] = it
            elif row.who is None and kind in ("0", "8"):
                held.pop((reply.to, reply.get("11"))).end = row, reply
            elif kind == "4" and reply.get("37") == "NONE":
                held.pop((reply.to, reply.get("41"))).end = row, reply
    return crosses


SIDES = {"1": "BUY_FIRST", "2": "SELL_FIRST"}


def entered(page, it):
    own, others = it.trades()
    page.add("ENTERED", order=it.end[1].get("37")[1:])
    for trade in own:
        page.add("MET_LINK" if int(trade[1:]) <= MOST_TRADES else "MET_ALONE", trade=trade[1:])
    if others:
        page.add("MET_OTHERS")
    elif not own:
        page.add("MET_NONE")
    page.add("NOTHING")


def became(page, it):
    """What became of the second side."""
    kind = it.end and it.end[1].get("150")
    if kind is None:
        page.add("HELD")
    elif kind == "0":
        entered(page, it)
    elif kind == "4":
        page.add("CANCELLED")
    else:
        page.add("cross_sections.REFUSED", cause=cause_of(it.end[1]))


def cross_list(page, values, rows, delays, row_number):
    def add(it):
        row = it.row
        page.add("CROSS", row=row.n, cross=row.get("548"), who=row.who, symbol=row.get("55"),
                 quantity=f"{int(it.first['38']):,}", price=values.price(row.get("55"), row.get("44")))
        page.add(SIDES[it.first["54"]], order=it.order[1:], id=(it.first["11"], it.second["11"]),
                 time=values.time(row.utc), due=values.time(utc(it.due)))
        became(page, it)
        page.add("ITS_ROWS")
        row_number(row)
        if it.end:
            row_number(it.end[0])
        page.add("CELL_END")

    found = crosses_of(rows, delays)
    if found:
        folded(page, "cross_sections", "CROSSES", "TABLE_OF_CROSSES", "MORE_CROSSES", found, add)
    else:
        page.add("NO_CROSS")
