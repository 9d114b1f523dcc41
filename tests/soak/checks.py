"""What is checked after the day, of what each participant sent and received and of the rows of the trail.

    compare_rows(rows, sessions, cut)           each participant's messages, each once, in order, under their numbers
    compare_replies(reference, rows, sessions, cut)     each reply, and no other, by the reference, row by row
    adds_up(name, taken, has_earlier)           each order's reports: cumulated and left, prices, statuses
    both_sides(takens, unread)                  each trade was reported to both, alike
"""

import collections

from reference import Broken, moment_of, price_of
from sessions import Fault

CLOCK = 1_000  # milliseconds by which two readings of the machine's clock may differ, if it is set


def row_text(kind, fields):
    """The text of a message's row: of a type that no table has, the type alone."""
    return f"35={kind}|" + ("" if kind == "AE" else fields)


def compare_rows(rows, sessions, cut=()):
    sent = [
        [(number + 1, row_text(*each[:2]), each[2]) for number, each in enumerate(session.sent) if each]
        for session in sessions
    ]
    for session, messages in zip(sessions, sent):
        messages[:] = [each for each in messages if each[0] not in session.rejected]
    places = [0] * len(sessions)
    for n, row in rows:
        if row.who == 0:
            continue
        session, at = sessions[row.who - 1], places[row.who - 1]
        places[row.who - 1] += 1
        expected = sent[row.who - 1][at] if at < len(sent[row.who - 1]) else ("no more", "", None)
        if (row.number, row.text) != expected[:2]:
            raise Fault(f"row {n} of {session.name}\n  expected: {expected}\n  received: {row}")
        if row.moment < moment_of(expected[2]) - CLOCK:
            raise Fault(f"row {n} of {session.name}: its moment {row.moment} is before it was sent, {expected[2]}")
    for session, messages, at in zip(sessions, sent, places):
        if at < len(messages) and session.name not in cut:
            raise Fault(f"{session.name}: no row\n  expected: {messages[at]}\n  received: {at} rows")


def compare_replies(reference, rows, sessions, cut=()):
    """Compares each participant's application messages with the reference's; of those in `cut` the first ones. Returns
    the most replies to a message, by its type, and the count of ticks."""
    at = [0] * len(sessions)
    most = collections.Counter()
    for n, row in rows:
        try:
            replies = reference.take(row)
        except Broken as fault:
            raise Fault(f"row {n} is no row of a venue: {fault}") from None
        kind = row.text[3 : row.text.find("|")]
        most[kind] = max(most[kind], len(replies))
        most["tick"] += row.who == 0
        for to, kind, text in replies:
            session = sessions[to]
            place = at[to]
            at[to] += 1
            if place >= len(session.taken):
                if session.name in cut:
                    continue
                raise Fault(f"{session.name}: no reply\n  expected: {kind} {text}\n  to row {n}: {row}")
            found = session.taken[place]
            if (found.kind, found.text) != (kind, text):
                raise Fault(
                    f"{session.name}: message {found.number}\n  expected: {kind} {text}\n"
                    f"  received: {found.kind} {found.text}\n  to row {n}: {row}"
                )
            if not row.moment - CLOCK <= moment_of(found.sent) <= found.at * 1000 + CLOCK:
                raise Fault(
                    f"{session.name}: the SendingTime {found.sent} of message {found.number} is not between that of "
                    f"row {n}, {row.moment}, and its receipt, {found.at:.3f}"
                )
    for session, place in zip(sessions, at):
        if place < len(session.taken):
            raise Fault(f"{session.name}: a reply to nothing\n  expected: none\n  received: {session.taken[place]}")
    return most


def fields_of(text):
    return dict(part.split("=", 1) for part in text.split("|")[:-1])


class Life:
    """An order as its reports show it: what is left and cumulated."""

    def __init__(self, left, filled):
        self.left, self.filled = left, filled


def adds_up(name, taken, has_earlier):
    """Each order's reports add up, from its first to its last (AvgPx is not sent), or, of one that was entered before
    the venue began again, from the first of this run on."""
    lives = {}
    for each in taken:
        if each.kind != "8":
            continue
        f = fields_of(each.text)
        status, left, filled = f["150"] + f["39"], int(f["151"]), int(f["14"])
        if status == "88" or f["37"].startswith("R") or f["37"] == "NONE":
            is_right = left == 0 and filled == int(f.get("32", 0))
        elif status == "00":
            is_right = f["37"] not in lives and filled == 0 < left
            lives[f["37"]] = Life(left, 0)
        elif status[0] == "5":
            is_right = f["37"] not in lives and left > 0 and status[1] == ("1" if filled else "0")
            lives[f["37"]] = Life(left, filled)
        elif f["37"] not in lives:
            is_right = has_earlier
            lives[f["37"]] = Life(left, filled)
        else:
            is_right = follows(lives[f["37"]], status, left, filled, f)
        if not is_right:
            raise Fault(f"{name}: message {each.number} does not add up: {each.text}")


def follows(life, status, left, filled, fields):
    """Whether a fill or a cancel goes on from what was reported."""
    if status[0] == "4":
        is_right = status == "44" and left == 0 and filled == life.filled
    else:
        last = int(fields["32"])
        is_right = left == life.left - last and filled == life.filled + last and last > 0
        is_right = is_right and status == ("F1" if left else "F2")
    life.left, life.filled = left, filled
    return is_right


def both_sides(takens, unread=()):
    """Each trade is reported twice, to buyer and seller, with one price, quantity and instrument; once where the other
    report went to somebody in `unread`. Returns the numbers of the trades."""
    reports = collections.defaultdict(list)
    for name, taken in takens:
        for each in taken:
            if each.kind == "8" and "|880=" in each.text:
                f = fields_of(each.text)
                reports[f["880"]].append((f["54"], f["55"], price_of(f["31"]), f["32"], name))
    for trade, both in reports.items():
        sides = sorted(side for side, *_ in both)
        is_half = len(both) == 1 and bool(unread)
        if (sides != ["1", "2"] and not is_half) or len({each[1:4] for each in both}) != 1:
            raise Fault(f"the trade {trade}\n  expected: a buyer's and a seller's report, alike\n  received: {both}")
    return reports.keys()
