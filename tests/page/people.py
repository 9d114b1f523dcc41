"""The section Participants of the page of a day."""
from decimal import ROUND_DOWN, Decimal

from answers import all_replies, is_hit, refusals_of
from parts import grouped


def tenths(part, whole):
    """A quotient with one decimal, cut; nothing of a whole of 0."""
    return f"{(Decimal(part) / whole).quantize(Decimal('0.1'), ROUND_DOWN):,}" if whole else ""


def participants_list(page, rows, trades, day):
    replies, refused = all_replies(rows), refusals_of(rows)
    page.add("PEOPLE", count=f"{len(day.names):,}")
    for place, name in enumerate(day.names):
        own = [r for r in replies if r.to == name and r.get("35") == "8"]
        entered, replaced = (sum(r.get("150") == kind for r in own) for kind in "05")
        cancelled = [r for r in own if r.get("150") == "4" and r.get("41") is not None]
        page.add("PERSON", participant=place + 1, name=name, **grouped({
            "sent": sum(row.who == name for row in rows), "refused": sum(r.to == name for r in refused),
            "entered": entered, "replaced": replaced, "cancelled": len(cancelled)}))
        # (a held side that its owner cancels is no order yet)
        orders_cancelled = sum(r.get("37") != "NONE" for r in cancelled)
        in_book = sum(t.room is None and name in (t.buyer, t.seller) for t in trades)
        page.add("PERSON_TRADES", cancelled_percent=tenths(100 * orders_cancelled, entered),
                 orders_per_trade=tenths(entered + replaced, in_book), **grouped({
                     "bought": sum(t.buyer == name for t in trades), "sold": sum(t.seller == name for t in trades),
                     "requests": len({r.get("131") for r in replies if r.get("35") == "R" and r.row.who == name})}))
        quotes = [r for r in replies if r.row.who == name and r.get("35") == "S"]
        rooms, hit = len({r.row.get("131") for r in quotes}), sum(r.to == name and is_hit(r) for r in replies)
        page.add("PERSON_QUOTES", hit_percent=tenths(100 * hit, rooms), **grouped({
            "asked": sum(r.to == name and r.get("35") == "R" for r in replies), "rooms": rooms, "quotes": len(quotes),
            "hit": hit}))
    page.add("PEOPLE_END")
