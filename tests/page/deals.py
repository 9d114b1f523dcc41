"""The sections Trades, Linked orders and Alarms of the page of a day. A trade of linked orders leads to its line, which
says whether the second order is a held side, that is, was entered by the clock."""
import itertools

from watched import alarms_of, linked_of

MOST_WHOLE, MOST_TRADES, IN_FOLD, MOST_LISTED = 500, 10000, 200, 10000


def trade(page, values, t, held_in, row_number):
    page.add("TRADE", trade=t.number, time=values.time(t.row.utc), instrument=values.places[t.symbol], symbol=t.symbol)
    page.add("IN_BOOK") if t.room is None else page.add("IN_ROOM", room=t.room)
    if t.number in held_in:
        page.add("HELD_SIDE" if held_in[t.number] else "LINKED_ORDERS", trade=t.number)
    else:
        page.add("UNLINKED")
    page.add("DEAL", quantity=f"{t.quantity:,}", price=values.price(t.symbol, t.price), buyer=t.buyer,
             seller=t.seller)
    row_number(t.row)
    page.add("CELL_END")


def trade_list(page, values, trades, day, row_number):
    # of each trade of linked orders whether the second is a held side
    held_in = {int(it["trade"][1:]): held for it, _, (_, held, _) in linked_of(day)}
    if not trades:
        page.add("NO_TRADE")
        return

    def table(of):
        page.add("TABLE_OF_TRADES")
        for t in of:
            trade(page, values, t, held_in, row_number)
        page.add("day_sections.LIST_END")

    page.add("TRADES", count=f"{len(trades):,}")
    if len(trades) <= MOST_WHOLE:
        table(trades)
    for hour, of in itertools.groupby(trades, lambda t: t.row.utc[:11]) if len(trades) > MOST_WHOLE else []:
        of = list(of)
        listed = [t for t in of if t.number <= MOST_TRADES]
        page.add("day_sections.HOUR" if listed else "day_sections.HOUR_LINE", hour=hour, count=f"{len(of):,}",
                 first=of[0].number, last=of[-1].number, quantity=f"{sum(t.quantity for t in of):,}")
        if listed == of:
            table(of)
            page.add("day_sections.FOLD_END")
        elif listed:
            table(listed)
            page.add("HOUR_END_MORE", count=f"{len(listed):,}")
    page.add("TRADES_END")


def folded(page, crate, name, head, more, found, add):
    """A list of a crate's: whole where it is short, else in folds."""
    def table(of):
        page.add(head)
        for it in of:
            add(it)
        page.add(f"{crate}.LIST_END")

    page.add(name, count=f"{len(found):,}")
    if len(found) <= IN_FOLD:
        table(found)
    else:
        for k in range(0, min(len(found), MOST_LISTED), IN_FOLD):
            of = found[k:min(k + IN_FOLD, MOST_LISTED)]
            page.add("day_sections.FOLD", **{"from": f"{k + 1:,}", "to": f"{k + len(of):,}"})
            table(of)
            page.add("day_sections.FOLD_END")
    if len(found) > MOST_LISTED:
        page.add(more, count=f"{len(found) - MOST_LISTED:,}")
    else:
        page.add(f"{crate}.SECTION_END")


def linked(page, values, rows, day, row_number):
    def add(found):
        it, (first, _, _), (second, held, _) = found
        one, other, number = rows[first - 1], rows[second - 1], it["trade"][1:]
        page.add("TRADE_LINK" if int(number) <= MOST_TRADES else "TRADE_ALONE", trade=number)
        page.add("LINKED_TRADE", buyer=it["buyer"], seller=it["seller"], first=values.time(one.utc),
                 second=values.time(other.utc))
        page.add("BY_CLOCK" if held else "BY_MESSAGE")
        page.add("LINKED_TIMES", between=f"{other.ms - one.ms:,}", delay=f"{day.delay[it['instrument']]:,}")
        row_number(one)
        row_number(other)
        page.add("CELL_END")

    found = linked_of(day)
    if found:
        folded(page, "alarm_sections", "LINKED", "TABLE_OF_LINKED", "MORE_LINKED", found, add)
    else:
        page.add("NO_LINKED")


def alarms(page, rows, day, row_number):
    def add(alarm):
        text, n = alarm
        page.add("ALARM", alarm=text)
        row_number(rows[n - 1]) if n else page.add("NO_ROW")
        page.add("CELL_END")

    found = alarms_of(day)
    if found:
        folded(page, "alarm_sections", "ALARMS", "TABLE_OF_ALARMS", "MORE_ALARMS", found, add)
    else:
        page.add("NO_ALARM")
