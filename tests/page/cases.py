"""Days of a kind, as lists of rows: each has the place of its participant (0 is the clock), its milliseconds after
START and its message. CROSSES have each end of a second side; REQUESTS are among related participants, with what is
refused in them; TICKED have prices of few and of many decimals; TWO_DATES pass a midnight."""
NAMES = ("ALPHA", "BETA", "GAMMA", "DELTA", "EPSILON", "ZETA", "ETA")
PAIRS = (("BETA", "GAMMA"), ("DELTA", "EPSILON"), ("ALPHA", "ZETA"))
DELAYS = {"I1": 15_000, "I2": 1_000}


def cross(name, symbol, price, quantity, buy, sell, first="1", sides="12"):
    """A cross, of which the side of 54 `first` enters first; its message has the sides in the order of `sides`."""
    both = "".join(f"54={side}|11={buy if side == '1' else sell}|38={quantity}|" for side in sides)
    return f"35=s|548={name}|549=4|550={first}|552=2|{both}55={symbol}|40=2|44={price}|"


def order(name, symbol, side, quantity, price, more=""):
    return f"35=D|11={name}|55={symbol}|54={side}|38={quantity}|40=2|44={price}|{more}"


def cancel(name, earlier):
    return f"35=F|11={name}|41={earlier}|"


CROSSES = [
    # the second side meets its first
    (1, 0, cross("k1", "I2", 2.5, 10, "a1", "a2")), (0, 1000, ""),
    # it meets another's order, since the first has traded
    (1, 2000, cross("k2", "I2", 2.5, 10, "a3", "a4")), (2, 2100, order("b1", "I2", 2, 10, 2.5)),
    (3, 2200, order("g1", "I2", 1, 10, 2.5)), (0, 3000, ""),
    # what is left of its first, and another's; the sale enters first, and stands first or second in the message
    (1, 4000, cross("k3", "I2", 2.5, 10, "a5", "a6", "2", "21")), (4, 4100, order("d1", "I2", 1, 6, 2.5)),
    (5, 4200, order("e1", "I2", 2, 8, 2.5)), (0, 5001, ""), (5, 5100, cancel("e2", "e1")),
    (1, 5200, cross("k4", "I2", 2.5, 10, "a7", "a8", "2")), (0, 6300, ""),
    # it meets nobody: the first was cancelled, after a duplicate was refused that named it; then it is cancelled itself
    (1, 7000, cross("k5", "I2", 2.4, 10, "a9", "a10")), (1, 7050, order("a9", "I2", 1, 10, 2.4)),
    (1, 7100, cancel("a11", "a9")), (0, 8000, ""),
    (1, 8100, cancel("a12", "a10")), (1, 8200, cancel("a13", "a10")),
    # of three that are held, with the identifiers of another's, the second and then the first are cancelled
    (1, 9000, cross("k6", "I2", 2.4, 10, "a14", "a15")), (1, 9001, cross("k7", "I2", 2.4, 10, "a16", "a17")),
    (2, 9002, cross("k6", "I2", 2.4, 10, "a14", "a15")), (1, 9100, cancel("a18", "a17")),
    (1, 9200, cancel("a19", "a15")), (1, 9300, cancel("a20", "a15")), (0, 10002, ""),
    (1, 10100, cancel("a21", "a14")), (1, 10101, cancel("a22", "a16")), (2, 10102, cancel("b9", "a14")),
    # refused: its first was replaced less than the delay before it is due; one replaced at once is an order of its own
    (4, 11000, cross("k8", "I2", 2.4, 10, "d2", "d3")), (4, 11100, "35=G|11=d4|41=d2|38=12|40=2|44=2.4|"),
    (0, 12000, ""), (4, 12100, cancel("d5", "d4")),
    (4, 13000, cross("k9", "I2", 2.4, 10, "d6", "d7")), (4, 13000, "35=G|11=d8|41=d6|38=10|40=2|44=2.4|"),
    (0, 14000, ""),
    # a related one's order enters after the first, at a better price: too soon for the second
    (3, 16000, cross("k10", "I2", 2.4, 10, "g2", "g3")), (2, 16500, order("b2", "I2", 1, 5, 2.45)), (0, 17000, ""),
    (2, 17100, cancel("b10", "b2")), (3, 17101, cancel("g4", "g2")),
    # the first trades as it enters
    (6, 18000, order("z1", "I2", 2, 5, 2.35)), (6, 18001, order("z2", "I2", 2, 5, 2.4)),
    (5, 18100, cross("k11", "I2", 2.4, 10, "e3", "e4")), (0, 19100, ""), (5, 19200, cancel("e5", "e4")),
    # two of one moment and of different delays; the later one is due first
    (1, 20000, cross("k12", "I1", -1.2525, 10, "a23", "a24")),
    (2, 20000, cross("k13", "I2", 2.3, 1000, "b3", "b4", "2")),
    (0, 21000, ""), (0, 35000, ""),
    # refused as crosses: they have no line
    (1, 36000, cross("k1", "I1", 2.5, 10, "a25", "a26")), (1, 36001, cross("k14", "I3", 2.5, 10, "a25", "a26")),
    (1, 36002, cross("k14", "I1", 2.5001, 10, "a25", "a26")), (1, 36003, cross("k14", "I1", 2.5, 10, "a25", "a25")),
    (1, 36004, "35=s|548=k14|549=4|550=1|552=2|54=1|11=a25|38=10|54=2|11=a26|38=10|55=I1|40=2|"),
    # the identifiers are free again
    (1, 37000, cross("k14", "I1", 2.5, 10, "a25", "a26")),
    # the side is full: 199 sales rest, and one more enters before the second is due
    *[(6, 38000 + k, order(f"f{k}", "I2", 2, 5, 9)) for k in range(199)],
    (5, 38500, cross("k15", "I2", 1.5, 10, "e6", "e7")), (5, 38501, cancel("e10", "e6")),
    (6, 38600, order("f199", "I2", 2, 5, 9)), (0, 39500, ""),
    # held at the last row: one is due, and no row of the clock has come; a replacement of a held side is refused
    (4, 40000, cross("k16", "I2", 1.4, 10, "d9", "d10")), (4, 40100, "35=G|11=d11|41=d10|38=10|40=2|44=1.4|"),
    (5, 41000, cross("k17", "I1", 1.4, 10, "e8", "e9", "2", "21")),
    (2, 41200, order("b5", "I1", 1, 5, 2.5)),
]


def request(name, symbol, names, side="54=1|"):
    parties = "".join(f"448={it}|447=D|452=35|" for it in names)
    return f"35=R|131={name}|146=1|55={symbol}|{side}38=100|453={len(names)}|{parties}"


def quote(name, room, symbol="I1", more="133=2.5|"):
    return f"35=S|117={name}|131={room}|55={symbol}|{more}"


def hit(name, number, more=""):
    return f"35=AJ|693={name}|117={number}|694=1|{more}"


REQUESTS = [
    # no two are related; one is related to the requester; all of three pairs; the first of those asked is of a pair
    (1, 0, request("r1", "I1", ["BETA", "DELTA", "ETA"])),
    (1, 100, request("r2", "I1", ["ZETA", "GAMMA", "BETA", "EPSILON", "DELTA", "ETA"])),
    (7, 200, request("r3", "I2", ["ZETA", "ALPHA", "EPSILON", "DELTA", "GAMMA", "BETA"], "")),
    (2, 300, request("r4", "I1", ["EPSILON", "DELTA", "GAMMA", "ALPHA", "ETA"], "54=2|")),
    # refused: related, too few
    (1, 400, request("r5", "I1", ["BETA", "GAMMA", "ETA"])), (1, 500, request("r5", "I1", ["BETA", "ETA"])),
    # each cause that refuses a quote, in R1 and R3; of a room that is not there yet
    (3, 600, quote("g1", "R1")), (2, 700, quote("b1", "R1", "I2")), (2, 800, quote("b1", "R1", more="132=2.5|")),
    (2, 900, quote("b1", "R1", more="133=2.5|135=99|")),
    (2, 1000, quote("b1", "R1", more="133=2.5|62=20250303-14:29:00|")),
    (2, 1100, quote("b1", "R1", more="133=2.5|537=0|")), (2, 1200, quote("b1", "R9")), (2, 1250, quote("b1", "R5")),
    (2, 1300, quote("b1", "R1")), (2, 1400, quote("b1", "R1")), (4, 1500, quote("d1", "R3", "I2", "132=2.6|133=2.5|")),
    (4, 1600, quote("d1", "R3", "I2", "132=2.4|133=2.5|")), (4, 1650, quote("d2", "R01")), (4, 1660, quote("d2", "r1")),
    # each that refuses a response: of another's quote, of a side, of one that is not there, or not yet
    (3, 1700, hit("h1", "Q1")), (1, 1800, "35=AJ|693=h2|117=Q1|694=2|"), (1, 1900, hit("h3", "Q1", "54=2|")),
    (1, 2000, hit("h4", "Q5")), (7, 2100, hit("h5", "Q2")), (1, 2150, hit("h6", "b1")),
    # a pass, and what comes after it; a withdrawal, and one too many
    (7, 2200, "35=AJ|693=h7|117=Q2|694=6|"), (7, 2300, hit("h8", "Q2", "54=1|")),
    (2, 2400, "35=Z|117=b1|298=5|"), (2, 2500, "35=Z|117=b1|298=5|"), (1, 2600, hit("h9", "Q1")),
    (2, 2700, "35=Z|117=b1|298=1|"), (3, 2800, "35=Z|298=4|"), (3, 2850, "35=Z|298=5|"),
    (3, 2860, "35=Z|117=Q1|298=5|"),
    # a trade, and what comes too late
    (4, 2900, quote("d2", "R1")), (7, 3000, quote("t1", "R1", more="133=2.4975|")), (1, 3100, hit("h10", "Q4")),
    (1, 3200, hit("h11", "Q3")), (4, 3300, quote("d3", "R1")), (1, 3400, "35=AJ|693=h12|117=Q4|694=6|"),
    # one that is replaced, and one that has run out; a quote after the room's end
    (5, 3500, quote("e1", "R2", more="133=2.6|62=20250303-14:30:04|")), (7, 3600, quote("t2", "R2")),
    (7, 3700, quote("t3", "R2", more="133=2.505|")), (1, 3800, hit("h13", "Q6")), (1, 4001, hit("h14", "Q5")),
    (5, 30000, quote("e2", "R2")), (1, 31000, hit("h15", "Q7")),
    # an order whose identifiers look like these
    (5, 32000, order("R1", "I1", 1, 10, 2.50001, "583=R1|")), (5, 32100, order("Q1", "I1", 1, 3, 2.5, "583=R1|")),
    (5, 32200, cancel("e3", "Q1")),
    (4, 33000, order("R2", "I1", 2, 10, 2.5, "583=R1|")),
    # a room that is asked for after a quote named it
    (4, 34000, request("r6", "I1", ["ETA", "BETA", "ALPHA", "GAMMA"], "54=2|")),
]

# Ticks from a millionth to ten: the prices of each are whole numbers of them.
TICKS = {"T0": 1, "T1": 250, "T2": 10_000, "T3": 500_000, "T4": 1_000_000, "T5": 10_000_000}


def ticked():
    rows = []
    for place, (symbol, tick) in enumerate(TICKS.items()):
        at, of = 20_000 * place, [f"{n * tick / 1_000_000:.6f}".rstrip("0").rstrip(".") for n in range(-2, 8)]
        rows += [
            (1, at, order(f"a{place}", symbol, 2, 5, of[6])), (2, at + 10, order(f"b{place}", symbol, 1, 5, of[6])),
            (3, at + 20, order(f"c{place}", symbol, 1, 7, of[3])),
            (2, at + 25, order(f"d{place}", symbol, 2, 7, of[9])),
            (4, at + 30, request(f"r{place}", symbol, ["BETA", "GAMMA", "ALPHA", "ETA"], "")),
            (2, at + 40, quote(f"q{place}", f"R{place + 1}", symbol, f"132={of[4]}|133={of[8]}|")),
            (3, at + 50, quote(f"s{place}", f"R{place + 1}", symbol, f"132={of[2]}|")),
            (4, at + 60, hit(f"h{place}", f"Q{2 * place + 1}", "54=2|")),
            (5, at + 70, cross(f"k{place}", symbol, of[0], 6, f"e{place}", f"f{place}", "2")),
            (0, at + 15_100, ""),
        ]
    return rows


TICKED = ticked()
TWO_DATES = [
    (1, 34_195_000, cross("k", "I1", 2.5, 10, "a1", "a2")), (1, 34_196_000, order("a3", "I1", 1, 10, 2.4)),
    (2, 34_197_000, request("r", "I1", ["ALPHA", "DELTA", "ETA"])), (1, 34_198_000, quote("a4", "R1")),
    (4, 34_199_999, quote("d1", "R1", more="133=2.4975|62=20250303-23:59:59.999|")), (7, 34_200_000, quote("t1", "R1")),
    (2, 34_205_000, hit("h", "Q3")), (0, 34_210_000, ""), (1, 34_212_000, order("a5", "I1", 2, 10, 2.4)),
]
