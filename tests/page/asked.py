"""Of a request: three of those asked who are unrelated, who is related, and what was refused in it."""
import itertools

from answers import cause_of, is_refusal


def first_three(room, related):
    """The first three of those asked, in the order of the request, who are related neither to the requester nor to each
    other; None if there are no three."""
    asked = [sent.to for sent in room.sent]
    for three in itertools.combinations(asked, 3):
        if not related_pairs([room.row.who, *three], related):
            return three
    return None


def related_pairs(names, related):
    return [pair for pair in itertools.combinations(names, 2) if frozenset(pair) in related]


def three(page, room, related):
    found, requester = first_three(room, related), room.row.who
    if found is None:
        page.add("NO_THREE", requester=requester)
    else:
        page.add("THREE", requester=requester, **dict(zip(("first", "second", "third"), found)))
    pairs = related_pairs([requester, *(sent.to for sent in room.sent)], related)
    page.add("RELATED" if pairs else "NONE_RELATED")
    for one, other in pairs:
        page.add("RELATED_PAIR", one=one, other=other)
    page.add("THREE_RULE")


def refused_by_name(rows):
    """The first refusals of quotes and of responses, by what each names: its request (131), or its quote (117)."""
    found = {}
    for row in rows:
        refusing = [reply for reply in row.replies if is_refusal(reply)]
        if refusing and row.get("35") in ("S", "AJ"):
            found.setdefault(row.get("131" if row.get("35") == "S" else "117"), []).append(refusing[0])
    return found


def refused(page, values, room, refusals, row_number):
    """Those that name the request and came after it, then those of each of its quotes that came after that."""
    named = [("R" + room.number, room.row), *((quote.get("117"), quote.row) for quote in room.quotes)]
    found = [(name, reply) for name, row in named for reply in refusals.get(name, []) if reply.row.n > row.n]
    if found:
        page.add("REFUSED_HERE")
    for name, reply in found:
        page.add("request_sections.REFUSED", sender=reply.row.who, named=name, time=values.time(reply.row.utc),
                 cause=cause_of(reply))
        row_number(reply.row)
        page.add("REFUSED_END")
