"""A day as tests/cli/check_watch looks at it: its alarms by the usual thresholds, and the trades of linked orders."""
import importlib.machinery
import importlib.util
import os
import sys
import tomllib

from answers import all_replies

sys.dont_write_bytecode = True
CHECK = os.path.join(os.path.dirname(os.path.abspath(__file__)), "..", "cli", "check_watch")
loader = importlib.machinery.SourceFileLoader("check_watch", CHECK)
check_watch = importlib.util.module_from_spec(importlib.util.spec_from_loader(loader.name, loader))
loader.exec_module(check_watch)


class Watched:
    def __init__(self, rows, trades, participants, symbols, delays):
        self.replies = [((str(r.row.n), r.row.utc, r.row.who, first_of_each(r.row.message)), r.to,
                         {**first_of_each(r.fields), "entries": prices(r.fields)}) for r in all_replies(rows)]
        self.trades = [{"trade": f"T{t.number}", "row": str(t.row.n), "moment_utc": t.row.utc, "buyer": t.buyer,
                        "seller": t.seller, "instrument": t.symbol, "kind": "book" if t.room is None else "request"}
                       for t in trades]
        file = tomllib.loads(participants)
        self.names = [it["name"] for it in file["participant"]]
        self.related = {frozenset((it["a"], it["b"])) for it in file.get("related", [])}
        self.delay = dict(zip(symbols, delays))


def first_of_each(message):
    return dict(reversed(message))


def prices(message):
    """The sides and prices of a snapshot."""
    if message[0] != ("35", "W"):
        return []
    sides, found = ([text for tag, text in message if tag == wanted] for wanted in ("269", "270"))
    return list(zip(sides, found))


def linked_of(day):
    """The trades of linked orders, each with its first and its second order."""
    entered, orders, links_of = {}, {}, check_watch.links(day)
    for (n, _, sender, _), _, reply in day.replies:
        if reply["35"] == "8" and reply["150"] in "05":
            entered[reply["37"]] = (int(n), sender is None, links_of.get(reply["37"]))
        if reply["35"] == "8" and reply["150"] == "F" and reply["37"].startswith("O"):
            orders.setdefault(reply["880"], []).append(entered[reply["37"]])
    found = []
    for it in day.trades:
        both = sorted(orders.get(it["trade"], []))
        links = {link for _, _, link in both}
        one = it["buyer"] == it["seller"] or frozenset((it["buyer"], it["seller"])) in day.related
        if both and (one or (len(links) == 1 and None not in links)):
            found.append((it, *both))
    return found


def alarms_of(day):
    """Each alarm in words, with the number of its row, if it has one."""
    usual = check_watch.USUAL
    found = [*check_watch.trades(day, usual), *check_watch.cancels_and_prices(day, usual), *check_watch.again(day),
             *check_watch.ratios(day, usual)]
    return [(check_watch.line(it), int(it[1]) if it[1] else None) for it in found]
