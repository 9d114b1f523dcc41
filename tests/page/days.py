"""days.py FOLDER: puts trails into FOLDER: sample, quotes and busy, as tests/cli/check_activity makes them; hostile, a
day whose participants, instrument and identifiers are spelled like tags of HTML; charted, a day of thirteen
instruments, of which one has 401 trades and another nine prices a side and more; many, a day of 10,762 trades; small
ones, and days at the limits of folds; and long_400 and long_20000, invented days of 400 and 20,000 rows, of which it
prints how many requests each has."""
import importlib.machinery
import importlib.util
import itertools
import os
import random
import sqlite3
import sys

sys.dont_write_bytecode = True
import cases  # noqa: E402

CLI = os.path.join(os.path.dirname(os.path.abspath(__file__)), "..", "cli")
NAMES = ("<script>", "\"><b>", "&lt;", "'x'", "</td>")
START = 1741012200000
ROWS = (
    (1, "35=D|11=<b>bold</b>|55=<i>|54=2|38=60|40=2|44=2.5|"),
    (2, "35=D|11=\" onload=\"x|55=<i>|54=1|38=50|40=2|44=2.5|"),
    (3, "35=D|11=&#39;|55=<i>|54=1|38=7|40=2|44=2.55555|"),
    (1, "35=R|131=</section>|146=1|55=<i>|54=1|38=100|453=3|448=\"><b>|447=D|452=35|448=&lt;|447=D|452=35|448=</td>|447=D|452=35|"),
    (3, "35=S|117=<script>alert(1)</script>|131=R1|55=<i>|132=2.4|133=2.6|"),
    (5, "35=S|117=<!--|131=R1|55=<i>|133=2.55|"),
    (5, "35=Z|117=Q2|298=1|"),
    (1, "35=AJ|693=<style>|117=Q1|694=1|"),
    (4, "35=F|11=<a href=\"x\">|41=none|"),
    (5, "35=S|117=<!-- -->|131=R1|55=<i>|133=2.5555|"),
    (3, "35=s|548=</tr>|549=4|550=1|552=2|54=1|11=<s>|38=10|54=2|11=&quot;|38=10|55=<i>|40=2|44=2.5|"),
)


LONG = (400, 20000)
SOH = b"\1"


def quoted(text):
    return '"' + text.replace("\\", "\\\\").replace('"', '\\"') + '"'


def files():
    participants = 'venue = "<SEF>"\n' + "".join(f"[[participant]]\nname = {quoted(name)}\n" for name in NAMES)
    return participants.encode(), b'[[instrument]]\nsymbol = "<i>"\ntick = 2500\nleast = 5\nrfq_life = 20\n'


def hostile(path, tables):
    db = sqlite3.connect(path)
    db.executescript(tables)
    db.execute("INSERT INTO head VALUES (1, 3, ?, ?)", files())
    db.execute("INSERT INTO delay VALUES (1, 15000)")
    numbers = {}
    for n, (who, text) in enumerate(ROWS, 1):
        numbers[who] = numbers.get(who, 1) + 1
        row = (n, who, numbers[who], START + 1000 * n, text.replace("|", "\1").encode())
        db.execute("INSERT INTO item VALUES (?, ?, ?, ?, ?)", row)
    db.commit()
    db.close()


class Invented:
    """The rows of an invented day: orders, some of them cancelled, and requests with quotes, of which three in four are
    hit. Each message is one that the venue accepts, so that rooms and quotes have the numbers that are counted here."""

    def __init__(self, many, participants, instruments):
        self.many, self.participants, self.instruments = many, participants, instruments
        self.random, self.rows, self.moment = random.Random(many), [], START
        self.numbers, self.orders, self.rooms, self.quotes = {}, [], 0, 0
        while len(self.rows) < many:
            self.request() if self.random.random() < 0.05 else self.order()

    def send(self, who, text):
        if len(self.rows) < self.many:
            self.moment += self.random.randrange(1, 400)
            self.numbers[who] = self.numbers.get(who, 1) + 1
            row = (len(self.rows) + 1, who + 1, self.numbers[who], self.moment, text.replace("|", "\1").encode())
            self.rows.append(row)
        return len(self.rows)

    def order(self):
        if self.orders and self.random.random() < 0.4:
            who, name = self.orders.pop(self.random.randrange(len(self.orders)))
            self.send(who, f"35=F|11=c{len(self.rows)}|41={name}|")
            return
        who, side = self.random.randrange(len(self.participants)), self.random.choice((1, 2))
        price = 2500000 + 2500 * (self.random.randrange(-8, 3) if side == 1 else self.random.randrange(-2, 9))
        name = f"o{len(self.rows)}"
        text = f"35=D|11={name}|55={self.random.choice(self.instruments)}|54={side}|38={self.random.randrange(5, 100)}|40=2|"
        self.send(who, text + f"44={price / 1000000:.6f}|")
        self.orders.append((who, name))

    def request(self):
        who, *makers = self.random.sample(range(len(self.participants)), 4)
        symbol = self.random.choice(self.instruments)
        parties = "".join(f"448={self.participants[maker]}|447=D|452=35|" for maker in makers)
        self.send(who, f"35=R|131=q{len(self.rows)}|146=1|55={symbol}|54=1|38=50|453={len(makers)}|{parties}")
        self.rooms += 1
        for maker in makers:
            self.send(maker, f"35=S|117=s{len(self.rows)}|131=R{self.rooms}|55={symbol}|133={2.5 + 0.0025 * self.random.randrange(1, 9):.4f}|")
        self.quotes += len(makers)
        if self.random.random() < 0.75:
            self.send(who, f"35=AJ|693=h{len(self.rows)}|117=Q{self.quotes - self.random.randrange(len(makers))}|694=1|54=1|")


def numbered(messages):
    """The rows of messages, each given with its participant's place, or 0 for the clock, and its moment."""
    numbers, rows = {0: 0}, []
    for n, (who, moment, text) in enumerate(messages, 1):
        if who:
            numbers[who] = numbers.get(who, 1) + 1
        rows.append((n, who, numbers[who], moment, text.replace("|", "\1").encode()))
    return rows


def order(name, symbol, side, quantity, price, more=""):
    return f"35=D|11={name}|55={symbol}|54={side}|38={quantity}|40=2|44={price / 1000000:.4f}|{more}"


def charted_rows():
    """A sale and a purchase at one price for each of 401 trades in an instrument, in bursts. Between them, in the next
    one, offers and bids at thirteen prices each, of which one is replaced, one cancelled and three bought at once; an
    offer in a third one; twelve bids in a fourth of one that does not trade; and prices far from a trade in a fifth."""
    texts = []
    for k in range(401):
        price = 2500000 + 2500 * (k // 40 % 7 - k % 3)
        texts += [(who, order(f"t{k}", "I1", side, 5, price)) for who, side in ((1, 2), (2, 1))]
    others = []
    for k in range(26):
        price = 2500000 + 2500 * (-k // 2 if k % 2 else 1 + k // 2)
        others.append((1 + k % 3, order(f"l{k}", "I2", 1 + (k + 1) % 2, 20 + k, price)))
    others += [(1, "35=G|11=g|41=l0|38=15|40=2|44=2.5075|"), (2, "35=F|11=f|41=l1|")]
    others += [(4, order("i", "I2", 1, 500, 2510000, "59=3|")), (5, order("a", "I3", 2, 7, -1000000))]
    # a price that is far from the trade, then one that is eight ticks away, and one that is nine
    others += [(who, order(f"r{price}", "I5", side, 5, price)) for who, side, price in (
        (1, 2, 2500000000), (1, 2, 2520000), (2, 1, 2477500), (3, 2, 2500000), (2, 1, 2500000))]
    others += [(6, order(f"z{k}", "I4", 1, 5, 1000000 - 2500 * k)) for k in range(12)]
    for place, text in enumerate(others):
        texts.insert(20 * place, text)
    moments = itertools.accumulate(40000 if n % 50 == 0 else 7 for n in range(1, len(texts) + 1))
    return numbered([(who, START + moment, text) for (who, text), moment in zip(texts, moments)])


def many_rows():
    """120 trades of two participants; then, in 56 batches, 10,640 of five with themselves, a delay after their offers
    came, in all but three batches by crosses; an hour later, one in a request and one in the next instrument."""
    texts = []
    for k in range(120):
        texts += [(who, 400, order(f"t{k}", "I1", side, 5, 2500000 + 2500 * (k % 17))) for who, side in ((1, 2), (2, 1))]
    for batch in range(56):
        who, price = 1 + batch % 5, 2500000 - 2500 * batch
        for side, wait in ((2, 120000), (1, 16000)):
            names = [f"b{batch}.{side}.{k}" for k in range(190)]
            if batch < 3:
                of = [(who, order(it, "I1", side, 5, price)) for it in names]
            elif side == 2:
                of = [(who, cases.cross(it, "I1", price / 1000000, 5, it + "b", it + "s", "2")) for it in names]
            else:
                of = [(0, "") for _ in names]
            texts += [(it, 2 if k else wait, text) for k, (it, text) in enumerate(of)]
    parties = "".join(f"448={name}|447=D|452=35|" for name in ("BETA", "GAMMA", "DELTA"))
    texts += [(1, 3600000, f"35=R|131=r|146=1|55=I1|54=1|38=100|453=3|{parties}")]
    texts += [(who, 400, f"35=S|117=s|131=R1|55=I1|133={price}|") for who, price in ((2, 2.5), (3, 2.4975))]
    texts += [(who, 400, text) for who, text in (
        (5, "35=S|117=s|131=R1|55=I1|133=2.5|"), (4, "35=AJ|693=w|117=Q1|694=1|"), (1, "35=AJ|693=h|117=Q2|694=1|"))]
    texts += [(4, 400, order("l", "I2", 2, 9, 2500000))]
    texts += [(5, 400, order("m", "I2", 1, 9, 2500000)), (5, 400, order("n", "I2", 1, 9, 2400000))]
    moments = itertools.accumulate(ms for _, ms, _ in texts)
    return numbered([(who, START + moment, text) for (who, _, text), moment in zip(texts, moments)])


# Days at the limits of the folds, and one past them: how many requests, trades, trades of linked orders, orders that
# are cancelled at once, rows, and crosses whose second sides are cancelled.
LIMITS = {
    "most_12": (12, 0, 0, 0, 120, 0), "past_12": (13, 0, 0, 0, 121, 0), "most_60": (60, 500, 0, 199, 1860, 200),
    "past_60": (61, 501, 0, 200, 1870, 201), "most_300": (300, 400, 200, 0, 5000, 0),
    "past_300": (301, 401, 201, 0, 5001, 0),
}


def limit_rows(requests, trades, linked, cancelled, rows, crosses):
    parties = "".join(f"448={name}|447=D|452=35|" for name in ("BETA", "GAMMA", "DELTA"))
    texts = [(1, 1000, f"35=R|131=r{k}|146=1|55=I1|54=1|38=100|453=3|{parties}") for k in range(requests)]
    for k in range(trades):
        texts += [(who, 900, order(f"t{k}", "I1", side, 5, 2500000)) for who, side in ((1, 2), (2, 1))]
    for batch in range(0, linked, 100):
        of = range(batch, min(batch + 100, linked))
        for who, side, wait in ((3, 2, 5), (4, 1, 20000)):
            texts += [(who, wait if k == batch else 5, order(f"b{k}", "I2", side, 5, 2500000, f"583=L{k}|")) for k in of]
    for k in range(cancelled):
        texts += [(1, 5, order(f"c{k}", "I2", 1, 5, 2400000)), (1, 5, f"35=F|11=d{k}|41=c{k}|")]
    for k in range(crosses):
        price, first, second = (2.9, "2", "y") if k % 2 else (2.3, "1", "x")
        texts += [(2, 5, cases.cross(f"k{k}", "I2", price, 5, f"y{k}", f"x{k}", first)),
                  (2, 5, cases.cancel(f"z{k}", f"{second}{k}"))]
    texts += [(5, 5, f"35=F|11=f{k}|41=none|") for k in range(rows - len(texts))]
    moments = itertools.accumulate(ms for _, ms, _ in texts)
    return numbered([(who, START + moment, text) for (who, _, text), moment in zip(texts, moments)])


# Days without a row and with one; with a best price that stands from the last row on; over midnight; of more dates.
SMALL = {
    "empty": [],
    "one": [(1, START, order("a", "I1", 1, 10, 2500000))],
    "last": [(1, START, order("a", "I1", 1, 10, 2500000)), (2, START + 5000, order("b", "I1", 2, 10, 2600000))],
    "midnight": [
        (1, START + 34199000, order("a", "I1", 1, 10, 2500000)), (2, START + 34219000, order("b", "I1", 2, 10, 2600000)),
        (2, START + 34239000, order("c", "I1", 2, 10, 2500000)),
    ],
    "dates": [(1, START, order("a", "I1", 1, 10, 2500000)), (2, START + 3 * 86400000, order("b", "I1", 2, 4, 2500000))],
    "year": [(1, START, order("a", "I1", 1, 10, -5000)), (2, START + 366 * 86400000, order("b", "I1", 2, 10, -5000))],
}


def invented(path, tables, rows, names, instruments, pairs=(), ticks=None, delays=None):
    """A trail of rows; `pairs` are the participants who are related; instruments have a tick of 2,500 millionths and a
    delay of 15,000 ms, where `ticks` and `delays` have no other of theirs."""
    db = sqlite3.connect(path)
    db.executescript(tables)
    participants = 'venue = "SEF"\n' + "".join(f"[[participant]]\nname = {quoted(name)}\n" for name in names)
    participants += "".join(f"[[related]]\na = {quoted(a)}\nb = {quoted(b)}\n" for a, b in pairs)
    listed = "".join(f"[[instrument]]\nsymbol = {quoted(it)}\ntick = {(ticks or {}).get(it, 2500)}\nleast = 5\n"
                     "rfq_life = 20\n" for it in instruments)
    db.execute("INSERT INTO head VALUES (1, 3, ?, ?)", (participants.encode(), listed.encode()))
    db.executemany("INSERT INTO delay VALUES (?, ?)",
                   ((x, (delays or {}).get(it, 15000)) for x, it in enumerate(instruments, 1)))
    db.executemany("INSERT INTO item VALUES (?, ?, ?, ?, ?)", rows)
    db.commit()
    db.close()


def main(folder):
    loader = importlib.machinery.SourceFileLoader("check_activity", os.path.join(CLI, "check_activity"))
    check_activity = importlib.util.module_from_spec(importlib.util.spec_from_loader(loader.name, loader))
    loader.exec_module(check_activity)
    check_activity.made(folder)
    with open(os.path.join(os.path.dirname(check_activity.DAYS["sample"]), "day.sql"), encoding="utf-8") as file:
        tables = "".join(line for line in file if line.startswith("CREATE TABLE"))
    hostile(os.path.join(folder, "hostile"), tables)
    names = check_activity.PARTICIPANTS
    invented(os.path.join(folder, "charted"), tables, charted_rows(), names, [f"I{k}" for k in range(1, 14)])
    invented(os.path.join(folder, "many"), tables, many_rows(), names, ["I1", "I2"])
    for day, limits in LIMITS.items():
        invented(os.path.join(folder, day), tables, limit_rows(*limits), names, ["I1", "I2"])
    for day, messages in SMALL.items():
        invented(os.path.join(folder, day), tables, numbered(messages), names, ["I1"])
    for day, texts, instruments, more in (
            ("crosses", cases.CROSSES, cases.DELAYS, {"delays": cases.DELAYS}),
            ("asked", cases.REQUESTS, ("I1", "I2"), {}), ("ticked", cases.TICKED, cases.TICKS, {"ticks": cases.TICKS}),
            ("two_dates", cases.TWO_DATES, ("I1",), {})):
        messages = [(who, START + ms, text) for who, ms, text in texts]
        invented(os.path.join(folder, day), tables, numbered(messages), cases.NAMES, instruments, cases.PAIRS, **more)
    for many in LONG:
        rows = Invented(many, names, list(check_activity.INSTRUMENTS)).rows
        invented(os.path.join(folder, f"long_{many}"), tables, rows, names, check_activity.INSTRUMENTS)
        print(f"long_{many}: {sum(b'35=R' in row[4].split(SOH) for row in rows)} requests")


if __name__ == "__main__":
    main(*sys.argv[1:])
