"""What `sef_replay --why` prints of each cause, by its definitions: its number, of how many, and its sentence.

Read are crates/refusal_causes/specs: Places (a cause's place in the rules' list), Listed (its number) and Sentences.
"""

import os
import re

from certify import ROOT
from lists import BY_CHANGE, items_of

SPECS = os.path.join(ROOT, "crates", "refusal_causes", "specs")
# A list: its message, the definitions of its causes' places or numbers, and that of the answers which name them.
LISTS = {
    "order": ("NewOrderSingle", "order_place", "order_named"),
    "cancel": ("OrderCancelRequest", "change_place", "cancel_named"),
    "replace": ("OrderCancelReplaceRequest", "change_place", "replace_named"),
    "cross": ("NewOrderCross", "cross_place", "cross_named"),
    "request": ("QuoteRequest", "request_place", "request_named"),
    "quote": ("Quote", "quote_place", "quote_named"),
    "response": ("QuoteResponse", "response_place", "response_named"),
    "snapshot": ("MarketDataRequest", "market_place", "market_named"),
}
SECTIONS = {it.name: it.section for it in BY_CHANGE} | {"response": "QuoteResponse"}
MISSING = {"response": "SideMissing"}  # by BusinessMessageReject; elsewhere it is the price


def equations(file, name):
    """The equations of a definition: what it is given, and what it is then."""
    with open(os.path.join(SPECS, f"{file}.antt"), encoding="utf-8") as text:
        return re.findall(rf"(?m)^{name} (.*?) = (.*)$", text.read())


def by_cause(file, name):
    """By a cause the number that a definition gives it, or the words."""
    found = {}
    for given, rest in equations(file, name):
        cause = re.match(r"\w+\.(\w+)", given)
        value = re.fullmatch(r'([0-9]+)|codes "(.*)"', rest)
        if cause and value:
            found[cause[1]] = int(value[1]) if value[1] else value[2]
    return found


def words_of(file, name, given):
    """The words that a definition gives of what it is given."""
    return re.fullmatch(r'codes "(.*)"', dict(equations(file, name))[given])[1]


def sentences(name):
    """By a cause of a list its sentence."""
    found = by_cause("Sentences", "missing_sentence") | by_cause("Sentences", "state_sentence")
    if name == "withdrawal":
        words = words_of("Sentences", "not_found_sentence", "None symbol")
        return found | {"NotFound": words, "NotFound again": words}
    if name == "response":
        gone, again = (words_of("Sentences", "gone_sentence", it) for it in ("None", "(Some symbol)"))
        found |= {"NotFound": gone, "NotFound again": again}
    kind = {"cancel": "change", "replace": "change", "due": "order", "snapshot": "market"}.get(name, name)
    return found | by_cause("Sentences", f"{kind}_sentence")


def places(name):
    """The causes of a list by their place in the rules' list; a missing field under the name of its refusal."""
    _, place, named = LISTS[name]
    found = by_cause("Places", place)
    missing = [int(it.rpartition(" ")[2]) for _, it in equations("Places", named) if it.startswith("missing_place")]
    found |= {MISSING.get(name, "PriceMissing"): number for number in missing}
    if name == "response":
        found |= by_cause("Places", "response_state_place")
        gone = dict(equations("Places", "gone_place"))
        found |= {"NotFound": int(gone["None"]), "NotFound again": int(gone["(Some symbol)"])}
    return found


def numbers(name):
    """The causes of a list by the number that is printed, and the count that is printed."""
    message = LISTS[name][0]
    rule = next((rest for given, rest in equations("Listed", "number_in") if given.startswith(f"({message} ")), "place")
    count = next((rest for given, rest in equations("Listed", "many_in") if given.startswith(f"({message} ")), "count")
    if count == "count":
        count = next(rest for given, rest in equations("Places", "counted_by") if given.startswith(f"({message} "))
    found = places(name)
    if rule in ("change_listed w", "quote_listed w"):
        kind = rule.split("_")[0]
        found = by_cause("Listed", f"{kind}_number")
        others = [rest for given, rest in equations("Listed", f"{kind}_listed") if given == "_"]
        found |= {"PriceMissing": int(others[0])}
    elif rule.startswith("one_fewer "):
        last = int(rule.split()[1])
        found = {it: number - (number > last) for it, number in found.items()}
    elif rule != "place":
        raise SystemExit(f"tests/certify: number_in of {message} is not read: {rule}")
    return found, int(count)


def faults(cases):
    """Where a number or a count is not that of docs/PROTOCOL.md; a case of one cause has the sentence of its number."""
    known = {name: numbers(name) for name in LISTS}
    for name, (_, count) in known.items():
        listed = sum(it.startswith(f"{k}. ") for k, it in enumerate(items_of(SECTIONS[name]), 1))
        if count != listed:
            yield f"--why counts {count} causes of {name}, and docs/PROTOCOL.md {listed}"
    for case in cases:
        for shows in case.shows:
            name, _, cause = shows.partition(" ")
            if name not in known or " before " in cause:
                continue
            for rule in case.rule:
                item = re.match(r"([0-9]+)\. ", rule)
                if item and known[name][0].get(cause) != int(item[1]):
                    yield f"{case.name}: --why prints {known[name][0].get(cause)} of {cause}: {rule}"
