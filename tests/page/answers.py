"""What `sef_replay TRAIL --answers` printed of a day: its rows with their replies, and the trades of these."""
import re
from collections import namedtuple
from datetime import datetime

from book import millionths

CAME = re.compile(r"row (\d+) at (\S+) from (\S+), sequence number (\d+) in era (\d+): (.*)")
CLOCK = re.compile(r"row (\d+) at (\S+): the clock")
REPLY = re.compile(r"row (\d+) to (\S+): (.*)")

# a reply, with its row: its fields in order, and of each tag the first value
Reply = namedtuple("Reply", "row to fields get")


def fields(text):
    """The fields of a message, in order."""
    return [tuple(field.split("=", 1)) for field in text.split("|") if field]


class Row:
    def __init__(self, n, utc, who, number, era, text):
        self.n, self.utc, self.who, self.number, self.era, self.text = n, utc, who, number, era, text
        self.words, self.replies, self.message = "", [], fields(text)
        self.get, self.ms = dict(reversed(self.message)).get, milliseconds(utc)


def full(utc):
    """A moment with its thousandths."""
    return utc if "." in utc else utc + ".000"


def milliseconds(utc):
    day, time = datetime.strptime(utc[:8], "%Y%m%d"), full(utc)[9:].replace(".", ":").split(":")
    hours, minutes, seconds, thousandths = map(int, time)
    return (day - datetime(1970, 1, 1)).days * 86400000 + ((hours * 60 + minutes) * 60 + seconds) * 1000 + thousandths


def rows_of(path):
    rows = []
    with open(path, encoding="latin-1") as file:
        for line in file.read().split("\n")[1:]:
            if came := CAME.fullmatch(line):
                n, utc, who, number, era, text = came.groups()
                rows.append(Row(int(n), utc, who, number, era, text))
            elif clock := CLOCK.match(line):
                rows.append(Row(int(clock[1]), clock[2], None, "0", "0", ""))
            elif reply := REPLY.fullmatch(line):
                sent = fields(reply[3])
                rows[-1].replies.append(Reply(rows[-1], reply[2], sent, dict(reversed(sent)).get))
            elif line.startswith("    ") and not rows[-1].replies:
                rows[-1].words = line[4:]
    return rows


def all_replies(rows):
    return [reply for row in rows for reply in row.replies]


class Trade:
    """A trade, by its two reports at a row."""

    def __init__(self, one, other):
        self.row, self.number = one.row, int(one.get("880")[1:])
        self.symbol, self.price = one.get("55"), one.get("31")
        self.quantity, self.millionths = int(one.get("32")), millionths(self.price)
        place = one.get("37")
        self.room = place[1:] if place.startswith("R") else None
        who = {reply.get("54"): reply.to for reply in (one, other)}
        self.buyer, self.seller = who["1"], who["2"]


def trades_of(rows):
    trades = []
    for row in rows:
        reports = [reply for reply in row.replies if reply.get("880")]
        trades += [Trade(*reports[k:k + 2]) for k in range(0, len(reports), 2)]
    return trades


def is_refusal(reply):
    kind, state = reply.get("35"), reply.get("297")
    if kind == "8":
        return reply.get("150") == "8"
    if kind == "AI":
        return state in ("5", "7", "9") or (state == "17" and reply.get("693") is not None)
    return kind in ("9", "AG", "Y", "j")


def refusals_of(rows):
    """Of each refused row the first reply that refuses."""
    refusing = [[reply for reply in row.replies if is_refusal(reply)] for row in rows]
    return [replies[0] for replies in refusing if replies]


def cause_of(reply):
    return reply.get("58") or "no such quote is live (297)"


def is_hit(reply):
    """A trade in a room, as the maker is sent it."""
    return reply.get("880") is not None and reply.get("37")[0] == "R" and reply.get("693") is None
