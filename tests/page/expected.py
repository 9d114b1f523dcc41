"""expected.py TRAIL ANSWERS [PARTS]: prints the page of a day, made of the templates by this program alone: of a
trail's file, and of what `sef_replay TRAIL --answers` printed of it. PARTS is a file, to which the names of the page's
parts are added.

usage: expected.py --lacking PARTS: fails if a part of the templates is not in the file"""
import os
import re
import sys
import tomllib

sys.dont_write_bytecode = True
CLI = os.path.join(os.path.dirname(os.path.abspath(__file__)), "..", "cli")
sys.path.insert(0, CLI)
import check_digest
from answers import all_replies, cause_of, is_hit, refusals_of, rows_of, trades_of
from charts import instruments
from crosses import cross_list
from deals import alarms, linked, trade_list
from parts import Page, grouped, templates
from people import participants_list
from rooms import requests
from rules import rules
from values import Values, with_decimals
from watched import Watched

MOST_ROWS, MOST_OPEN, MOST_NAMED, IN_FOLD = 5000, 120, 24, 200
# Parts that no page has: each accepted request has three who are unrelated.
NEVER = {"recipient_sections.NO_THREE"}


def figures(page, people, rows, trades):
    replies = all_replies(rows)
    book = [t for t in trades if t.room is None]
    asked = [t for t in trades if t.room is not None]
    rooms = {r.get("131") for r in replies if r.get("35") == "R"}
    in_requests = (len(asked), sum(t.quantity for t in asked), len(rooms))
    counts = {
        "messages": sum(row.who is not None for row in rows), "participants": people, "rows": len(rows),
        "orders": sum(r.get("35") == "8" and r.get("150") == "0" for r in replies), "trades": len(trades),
        "quantity": sum(t.quantity for t in trades), "quotes": sum(r.get("35") == "S" for r in replies),
        "hit": sum(map(is_hit, replies)), "refusals": len(refusals_of(rows)),
    }
    page.add("FIGURES", **grouped(counts), requests=tuple(f"{n:,}" for n in in_requests),
             book=(f"{len(book):,}", f"{sum(t.quantity for t in book):,}"))


def bulletin(page, values, trades):
    if not trades:
        page.add("NO_BULLETIN")
        return
    page.add("BULLETIN")
    for symbol, place in values.places.items():
        of = [t for t in trades if t.symbol == symbol]
        if not of:
            continue
        prices = sorted(t.millionths for t in of)
        shown = {"open": of[0].millionths, "high": prices[-1], "low": prices[0], "last": of[-1].millionths}
        volumes, counts = ([f"{sum(count(t) for t in part):,}" for part in (
            of, [t for t in of if t.room is None], [t for t in of if t.room is not None])]
            for count in (lambda t: t.quantity, lambda t: 1))
        page.add("TRADED", instrument=place, symbol=symbol, volume=volumes[0], trades=counts[0],
                 book=(volumes[1], counts[1]), requests=(volumes[2], counts[2]),
                 **{name: with_decimals(price, values.ticks[symbol]) for name, price in shown.items()})
    page.add("BULLETIN_END")


def refusals(page, rows, row_number):
    causes = {}
    for reply in refusals_of(rows):
        causes.setdefault(cause_of(reply), []).append(reply)
    if not causes:
        page.add("NO_REFUSAL")
        return
    page.add("REFUSALS", count=f"{len(causes):,}")
    for cause, of in causes.items():
        page.add("CAUSE", cause=cause, count=f"{len(of):,}")
        for reply in of[:MOST_NAMED]:
            page.add("day_sections.REFUSED", name=reply.to)
            row_number(reply.row)
        page.add("MORE_ROWS" if len(of) > MOST_NAMED else "NO_MORE_ROWS")
    page.add("TABLE_END")


def row_list(page, rows):
    page.add("ROWS", count=f"{len(rows):,}")
    if not rows:
        page.add("NO_ROWS")
    elif len(rows) > MOST_ROWS:
        page.add("ROWS_LEFT")
    else:
        folds = [rows[k:k + IN_FOLD] for k in range(0, len(rows), IN_FOLD)] if len(rows) > MOST_OPEN else [rows]
        for place, fold in enumerate(folds):
            if len(rows) <= MOST_OPEN:
                page.add("ROWS_OPEN")
            else:
                page.add("NEXT_FOLD" if place else "day_page.FOLD", first=fold[0].n, last=fold[-1].n, begin=fold[0].utc,
                         end=fold[-1].utc)
            each_row(page, fold)
        page.add("ROWS_END")


def each_row(page, rows):
    for row in rows:
        if row.who is None:
            page.add("TICK", row=row.n, time=row.utc)
        else:
            page.add("MESSAGE", row=row.n, time=row.utc, participant=row.who, number=row.number, era=row.era,
                     words=row.words, text=row.text)


def head(page, venue, people, symbols, rows, stored):
    version, participants, instruments, delays, kept = stored
    *_, (_, digest) = check_digest.digests(version, participants, instruments, delays, kept)
    day, first, last = "(no rows)", "no rows", "no rows"
    if rows:
        first, last = rows[0].utc, rows[-1].utc
        day = " to ".join(sorted({first[:8], last[:8]}))
    files = [(check_digest.sha256(data).hex(), f"{len(data):,}") for data in (participants, instruments)]
    page.add("TOP", venue=venue, day=day)
    page.add("STYLE")
    page.add("HEAD", venue=venue, day=day, rows=f"{len(rows):,}", first=first, last=last, digest=digest.hex(),
             participants=(f"{people:,}", files[0][0]), instruments=(f"{len(symbols):,}", files[1][0]),
             length=(files[0][1], files[1][1]))


def words(text, key):
    """The values of a key of a file, in order."""
    found = re.findall(rf'^{key} = "((?:[^"\\]|\\.)*)"$', text, re.M)
    return [re.sub(r"\\(.)", r"\1", value) for value in found]


def main(trail, answers, used=None):
    stored = check_digest.stored(trail)
    participants = stored[1].decode()
    venue = words(participants, "venue")[0]
    names = words(participants, "name")
    symbols = words(stored[2].decode(), "symbol")
    ticks = {it["symbol"]: it["tick"] for it in tomllib.loads(stored[2].decode())["instrument"]}
    rows = rows_of(answers)
    trades = trades_of(rows)
    page, values = Page(), Values(rows, ticks)

    def row_number(row):
        page.add("ROW_LINK" if len(rows) <= MOST_ROWS else "ROW_ALONE", row=row.n)

    head(page, venue, len(names), symbols, rows, stored)
    watched = Watched(rows, trades, participants, symbols, stored[3])
    figures(page, len(names), rows, trades)
    rules(page, rows, trades, watched)
    bulletin(page, values, trades)
    instruments(page, values, rows, trades)
    trade_list(page, values, trades, watched, row_number)
    requests(page, values, rows, trades, watched.related, row_number)
    refusals(page, rows, row_number)
    participants_list(page, rows, trades, watched)
    linked(page, values, rows, watched, row_number)
    cross_list(page, values, rows, watched.delay, row_number)
    alarms(page, rows, watched, row_number)
    row_list(page, rows)
    page.add("END")
    sys.stdout.write(page.text())
    if used is not None:
        with open(used, "a", encoding="ascii") as file:
            file.writelines(f"{name}\n" for name in sorted(page.used))


def lacking(used):
    """The parts that no page had."""
    with open(used, encoding="ascii") as file:
        names = sorted(set(templates()) - NEVER - set(file.read().split()))
    if names:
        sys.exit(f"tests/page: no page that is compared has {', '.join(names)}")


if __name__ == "__main__":
    lacking(sys.argv[2]) if sys.argv[1] == "--lacking" else main(*sys.argv[1:])
