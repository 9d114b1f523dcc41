"""The section Part 37 in this day of the page of a day."""
from answers import all_replies, refusals_of
from parts import grouped
from watched import linked_of

USUAL_DELAY = 15_000


def rules(page, rows, trades, day):
    replies, linked = all_replies(rows), linked_of(day)
    causes = [reply.get("58") for reply in refusals_of(rows)]
    over = [rows[second - 1].ms - rows[first - 1].ms - day.delay[it["instrument"]]
            for it, (first, *_), (second, *_) in linked]
    shown = [tag for reply in replies if reply.get("35") == "W" and reply.row.get("35") == "S"
             for tag, side in reply.fields if tag == "269" and side != "J"]
    adjusted = [(symbol, ms) for symbol, ms in day.delay.items() if ms != USUAL_DELAY]
    page.add("RULES", least=f"{min(over):,} ms" if over else "no such trade", **grouped({
        "requests": len({reply.get("131") for reply in replies if reply.get("35") == "R"}),
        "traded": sum(t.room is not None for t in trades), "few": causes.count("Too few recipients"),
        "related": causes.count("Recipients not unrelated"), "orders": len(shown), "linked": len(linked),
        "near": sum(ms < 0 for ms in over), "recent": causes.count("Linked order too recent"),
        "adjusted": len(adjusted),
    }))
    for symbol, ms in adjusted:
        page.add("ADJUSTED", symbol=symbol, delay=f"{ms:,}")
    page.add("RULES_END", booked=f"{sum(t.room is None for t in trades):,}")
