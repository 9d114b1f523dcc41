"""The participants and the instruments of the soak, and what each participant sends, by phases of its day.

    Market(scale, folder)   .names, .related, .instruments; .files, a venue's files, which it writes there
    Trader(market, place, seed)     what one participant knows of its orders and quotes, and its messages
        .order(..), .cross(..), .request(..), .quote(..), ..    a message: MsgType, fields, and the field by which its
                            first answer is known, or None, or the Reject that it has to get
        .churn(count, taken)        random messages
        .learn(taken)       reads what was received since

Fields are in the order in which the venue prints them, so that a row of its trail has the same text.
"""

import os
import random
import sys
import time

from reference import BUY, HELD_LIMIT, ROOM_LIMIT, SELL, Instrument, price_text
from sessions import Reject

sys.path.insert(0, os.path.join(os.path.dirname(os.path.abspath(__file__)), "..", "lib"))
from fix import Files  # noqa: E402

PARTICIPANTS = 32
INSTRUMENTS = 256
RECIPIENTS = 12
SLOW = PARTICIPANTS - 1  # the place of the participant that will not read
MAKER = 20  # the place of one who quotes in each room
RELATED = [(0, 1), (2, 3), (4, 5), (5, 6), (30, 0)]
UNRELATED = range(7, 30)  # places of those who are related to nobody
TICKS = [2_500, 1, 1_000_000, 250_000, 10**12]  # millionths
GREATEST = 10**18  # millionths
NEAR, FAR = 2, 14  # ticks between the middle of an instrument and the orders of the first and of the second filling
LEVELS = 20  # prices of a side that is filled
SHORT_LIFE, LONG_LIFE = 2, 86_400  # seconds of a room
SHORT_DELAY, USUAL_DELAY, LONG_DELAY = 1_000, 15_000, 3_600_000  # milliseconds between linked orders
SLOWS_SHARE = 17  # of 20 orders of the first filling that are the slow participant's


def padded(name):
    """A name or an identifier of the greatest length."""
    return name + "-" * (64 - len(name))


class Market:
    def __init__(self, scale, folder):
        self.names = [f"P{k:02d}" for k in range(PARTICIPANTS)]
        self.names[7] = padded("P07")
        self.related = [(self.names[a], self.names[b]) for a, b in RELATED]
        self.instruments = [self.instrument(k) for k in range(max(4, round(INSTRUMENTS * scale)))]
        self.listed = {each.symbol: k for k, each in enumerate(self.instruments)}
        self.short_lived = [each for each in self.instruments if each.life == SHORT_LIFE * 1000] or self.instruments
        self.long_lived = [each for each in self.instruments if each.life == LONG_LIFE * 1000]
        self.of_delay = {
            delay: [each for each in self.instruments if each.delay == delay]
            for delay in (SHORT_DELAY, USUAL_DELAY, LONG_DELAY)
        }
        self.rooms = max(8, round(ROOM_LIMIT * scale))
        self.held = max(8, round(HELD_LIMIT * scale))
        self.files = self.written(folder)

    def instrument(self, k):
        symbol = padded("S000") if k == 0 else f"S{k:03d}"
        life = SHORT_LIFE if k % 16 == 7 else LONG_LIFE
        delay = {3: SHORT_DELAY, 5: LONG_DELAY}.get(k % 16, USUAL_DELAY)
        return Instrument(symbol, TICKS[k % 5], 1_000 if k % 3 == 1 else 1, life * 1000, delay)

    def middle(self, instrument):
        """The price round which an instrument trades, in ticks; negative prices and the greatest among them."""
        k = self.listed[instrument.symbol]
        return [10_000, 0, -300, GREATEST // instrument.tick - 500][k % 4]

    def price(self, instrument, ticks):
        return price_text((self.middle(instrument) + ticks) * instrument.tick)

    def written(self, folder):
        participants = os.path.join(folder, "participants.toml")
        instruments = os.path.join(folder, "instruments.toml")
        with open(participants, "w", encoding="utf-8") as file:
            file.write('venue = "SEF"\n')
            file.writelines(f'\n[[participant]]\nname = "{name}"\n' for name in self.names)
            file.writelines(f'\n[[related]]\na = "{a}"\nb = "{b}"\n' for a, b in self.related)
        with open(instruments, "w", encoding="utf-8") as file:
            for each in self.instruments:
                file.write(f'[[instrument]]\nsymbol = "{each.symbol}"\ntick = {each.tick}\nleast = {each.least}\n')
                file.write(f"rfq_life = {each.life // 1000}\n")
                file.write("" if each.delay == USUAL_DELAY else f"delay_ms = {each.delay}\n")
                file.write("\n")
        return Files.of(participants, instruments, self.names)


class Trader:
    def __init__(self, market, place, seed):
        self.market, self.place, self.name = market, place, market.names[place]
        self.dice = random.Random(f"{seed} {place}")
        self.count = 0
        self.orders = []  # (11, instrument, side, quantity) of orders that may rest
        self.gone = set()  # of these, those that were filled or cancelled
        self.held = []  # 11 of sides that may be held
        self.asked = []  # (room, symbol, side, quantity) of requests that came, not quoted yet
        self.offered, self.kept = [], []  # (quote, own request) of quotes that came; of those set aside
        self.quoted = []  # 117 of own quotes
        self.crossed, self.requested = [], []  # 548 and 131 of what was sent
        self.used = []  # 11 of orders that were accepted
        self.read = 0  # of what was taken
        self.known = {}  # 11 -> (instrument, side, quantity)

    # What it knows

    def learn(self, taken):
        for each in taken[self.read :]:
            if each.kind == "8":
                self.learn_report(dict(part.split("=", 1) for part in each.text.split("|")[:-1]))
            elif each.kind in ("R", "S"):
                fields = dict(part.split("=", 1) for part in each.text.split("|")[:-1])
                if each.kind == "R":
                    self.asked.append((fields["131"], fields["55"], fields.get("54"), fields["38"]))
                else:
                    self.offered.append((fields["117"], fields["131"]))
        self.read = len(taken)

    def learn_report(self, fields):
        name, status = fields.get("11"), fields["150"] + fields["39"]
        if name not in self.known:
            return
        if status == "00" or status[0] == "5":
            self.orders.append(name)
            if len(self.used) < 1000:
                self.used.append(name)
        elif status in ("F2", "44"):
            self.gone.add(name)
            self.gone.add(fields.get("41"))

    def forget(self, taken):
        """Begins with a new session, whose numbers begin again."""
        self.read = len(taken)

    # Messages

    def id(self, prefix):
        self.count += 1
        name = f"{prefix}{self.place}-{self.count}"
        return padded(name) if self.count % 50 == 0 else name

    def any_instrument(self):
        return self.dice.choice(self.market.instruments)

    def quantity(self, instrument):
        return self.dice.randrange(1, 51) * instrument.least

    def order(self, instrument, side, quantity, price, life=None, link=None):
        name = self.id("a")
        self.known[name] = instrument, side, quantity
        text = f"11={name}|" + (f"583={link}|" if link else "")
        text += f"55={instrument.symbol}|54={side}|38={quantity}|40=2|44={price}|" + (f"59={life}|" if life else "")
        return "D", text, f"11={name}"

    def look(self, instrument):
        name = self.id("v")
        return "V", f"262={name}|263=0|264=0|267=2|269=0|269=1|146=1|55={instrument.symbol}|", f"262={name}"

    def away(self, instrument, side, distance):
        """An order that rests this many ticks from the middle."""
        ticks = -distance if side == BUY else distance + 1
        quantity = self.quantity(instrument)
        return self.order(instrument, side, quantity, self.market.price(instrument, ticks))

    def sweep(self, instrument, side):
        """An order that fills against all that rests on the other side."""
        price = self.market.price(instrument, 250 if side == BUY else -250)
        return self.order(instrument, side, 10**9, price, "3")

    def cross(self, instrument, first, ticks, quantity=None):
        name, names = self.id("x"), [self.id("a"), self.id("a")]
        quantity = quantity or self.quantity(instrument)
        sides = [first, SELL if first == BUY else BUY]
        for each, side in zip(names, sides):
            self.known[each] = instrument, side, quantity
        if self.dice.random() < 0.5:
            sides, names = sides[::-1], names[::-1]
        self.held.append(names[sides.index(SELL if first == BUY else BUY)])
        both = "".join(f"54={side}|11={each}|38={quantity}|" for side, each in zip(sides, names))
        price = self.market.price(instrument, ticks)
        text = f"548={name}|549=4|550={first}|552=2|{both}55={instrument.symbol}|40=2|44={price}|"
        self.crossed.append(name)
        return "s", text, f"11={names[sides.index(first)]}"

    def request(self, instrument, places, side=None):
        name = self.id("q")
        parties = "".join(f"448={self.market.names[place]}|447=D|452=35|" for place in places)
        asked = f"54={side}|" if side else ""
        quantity = self.quantity(instrument)
        self.requested.append(name)
        text = f"131={name}|146=1|55={instrument.symbol}|{asked}38={quantity}|453={len(places)}|{parties}"
        return "R", text, None

    def recipients(self, *always):
        others = [k for k in range(PARTICIPANTS) if k not in (self.place, SLOW, *always)]
        places = [*always, *self.dice.sample(others, RECIPIENTS - len(always))]
        self.dice.shuffle(places)
        return places

    def quote(self, room, symbol, side, quantity, until=None):
        name = self.id("b")
        instrument = self.market.instruments[self.market.listed[symbol]]
        ticks = self.dice.randrange(-5, 6)
        bid = f"132={self.market.price(instrument, ticks)}|" if side != BUY else ""
        offer = f"133={self.market.price(instrument, ticks + 2)}|" if side != SELL else ""
        sizes = f"134={quantity}|" if bid and self.dice.random() < 0.3 else ""
        self.quoted.append(name)
        kind = "537=1|" if self.dice.random() < 0.3 else ""
        text = f"117={name}|131={room}|{kind}55={symbol}|{bid}{offer}{sizes}" + (f"62={until}|" if until else "")
        return "S", text, f"117={name}"

    def respond(self, quote, kind="1", side=None):
        name = self.id("h")
        # (a hit without a side may be answered by its number alone, where both sides were asked)
        key = f"693={name}" if side or kind != "1" else None
        return "AJ", f"693={name}|117={quote}|694={kind}|" + (f"54={side}|" if side else ""), key

    def cancel(self, old):
        name = self.id("c")
        return "F", f"11={name}|41={old}|", f"11={name}"

    def replace(self, old, quantity, price):
        name = self.id("g")
        instrument, side, _ = self.known[old]
        self.known[name] = instrument, side, quantity
        return "G", f"11={name}|41={old}|38={quantity}|40=2|44={price}|", f"11={name}"

    # Phases

    def quotes(self):
        """A quote for each request that came."""
        asked, self.asked = self.asked, []
        for room, symbol, side, quantity in asked:
            yield self.quote(room, symbol, side, quantity)

    def churn(self, count, taken):
        """Random messages, of each kind, and with each cause of a refusal."""
        kinds = [
            (40, self.some_order),
            (18, self.some_cancel),
            (12, self.some_replacement),
            (8, self.some_quote),
            (4, self.some_response),
            (1, self.some_request),
            (1, self.some_cross),
            (0.3, lambda: self.look(self.any_instrument())),
            (6, self.some_refusal),
            (1, self.some_fault),
            (1, lambda: ("1", f"112={self.id('t')}|", None)),
        ]
        weights = [weight for weight, _ in kinds]
        for k in range(count):
            if k % 16 == 0:
                self.learn(taken)
            item = self.dice.choices(kinds, weights)[0][1]()
            yield item or self.some_order()

    def some_order(self):
        instrument = self.any_instrument()
        side = self.dice.choice([BUY, SELL])
        ticks = self.dice.randrange(-9, 10) + (-3 if side == BUY else 4)
        life = self.dice.choice([None, None, None, None, "0", "3", "4"])
        link = self.dice.choice(["L1", "L2", "L3"]) if self.dice.random() < 0.05 else None
        price = self.market.price(instrument, ticks)
        return self.order(instrument, side, self.quantity(instrument), price, life, link)

    def taken_out(self, names):
        """One of these names, mostly taken off the list, and mostly of an order that may still rest."""
        name = None
        while names:
            at = self.dice.randrange(len(names))
            names[at], names[-1] = names[-1], names[at]
            name = names[-1] if self.dice.random() < 0.02 else names.pop()
            if name not in self.gone or self.dice.random() < 0.05:
                break
        return name

    def some_cancel(self):
        old = self.taken_out(self.held if self.held and self.dice.random() < 0.02 else self.orders)
        return self.cancel(old) if old else None

    def some_replacement(self):
        old = self.taken_out(self.orders)
        if not old:
            return None
        instrument, side, _ = self.known[old]
        ticks = self.dice.randrange(-9, 10) + (-3 if side == BUY else 4)
        return self.replace(old, self.quantity(instrument), self.market.price(instrument, ticks))

    def some_request(self):
        return self.request(self.dice.choice(self.market.short_lived), self.recipients(), self.dice.choice([None, BUY, SELL]))

    def some_quote(self):
        if not self.asked:
            return None
        asked = self.asked[-1] if self.dice.random() < 0.3 else self.asked.pop()
        until = None
        if self.dice.random() < 0.2:
            until = time.strftime("%Y%m%d-%H:%M:%S.000", time.gmtime(time.time() + self.dice.choice([1, 5, 60])))
        return self.quote(*asked, until)

    def some_response(self):
        if not self.offered:
            return self.withdrawal() if self.quoted else None
        at = max(0, len(self.offered) - 1 - int(self.dice.expovariate(0.5)))
        quote, _ = self.offered[at] if self.dice.random() < 0.1 else self.offered.pop(at)
        way = self.dice.random()
        if way < 0.15:
            return self.withdrawal()
        return self.respond(quote, "6" if way < 0.3 else "1", self.dice.choice([None, BUY, SELL]))

    def withdrawal(self):
        name = self.dice.choice(self.quoted[-20:]) if self.quoted else "none"
        return "Z", f"117={name}|298=5|", None

    def some_cross(self):
        places = self.market.of_delay[SHORT_DELAY if self.dice.random() < 0.8 else LONG_DELAY]
        if not places:
            return None
        return self.cross(self.dice.choice(places), self.dice.choice([BUY, SELL]), self.dice.randrange(-3, 4))

    def some_refusal(self):
        """A message with one cause of a refusal; the cause is the reference's to find."""
        way = self.dice.choice(self.REFUSALS)
        return way(self)

    def changed(self, item, old, new):
        kind, text, key = item
        return kind, text.replace(old, new, 1), key

    def without(self, item, tag):
        kind, text, key = item
        parts = [part for part in text.split("|")[:-1] if not part.startswith(f"{tag}=")]
        return kind, "".join(f"{part}|" for part in parts), key

    def coarse(self, instruments):
        """One of these that has prices off its tick."""
        return self.dice.choice([each for each in instruments if each.tick > 1])

    def an_order(self, instrument=None):
        return self.away(instrument or self.any_instrument(), self.dice.choice([BUY, SELL]), FAR)

    def a_cross(self):
        """One that, if it is taken, is soon over."""
        item = self.cross(self.coarse(self.market.of_delay[SHORT_DELAY]), BUY, 0)
        self.held.pop()
        return item

    def a_quote(self):
        room = self.asked[-1] if self.asked else ("R1", self.market.instruments[0].symbol, BUY, "1")
        return self.quote(*room)

    def a_replacement(self, quantity=None, name=None):
        if not self.orders:
            return None
        old = name or self.orders[-1]
        instrument, side, _ = self.known[old]
        price = self.market.price(instrument, -FAR if side == BUY else FAR)
        return self.replace(old, quantity or self.quantity(instrument), price)

    def a_request(self, places=None):
        return self.request(self.any_instrument(), places or self.recipients(), BUY)

    def by_number(self, item):
        """The same where the answer names the message by its number alone (45), so no key is known here."""
        return item[0], item[1], None

    def unknown_symbol(self, item):
        kind, text, key = item
        at = text.index("55=")
        return kind, text[:at] + "55=NOPE|" + text[text.index("|", at) + 1 :], key

    def off_tick(self, item, tag="44="):
        kind, text, key = item
        at = text.find(f"|{tag}") + 1
        return (kind, text[:at] + f"{tag}0.000001|" + text[text.index("|", at) + 1 :], key) if at else item

    def off_tick_change(self, item):
        """A replacement off the tick; as it is, where the instrument has no such price."""
        instrument, _, _ = self.known[item[2].removeprefix("11=")]
        return self.off_tick(item) if instrument.tick > 1 else item

    def repeated(self, item, tag, names):
        """The message with an identifier that was used before; other reports may have it, so no key is known here."""
        kind, text, _ = item
        if not names:
            return item
        name = next(part for part in text.split("|") if part.startswith(f"{tag}="))
        return kind, text.replace(f"{name}|", f"{tag}={self.dice.choice(names)}|", 1), None

    def below_least(self, item):
        kind, text, key = item
        at = text.index("38=")
        return kind, text[:at] + "38=1|" + text[text.index("|", at) + 1 :], key

    def unequal_cross(self):
        kind, text, key = self.a_cross()
        at = text.rindex("38=")
        return kind, text[:at] + "38=7|" + text[text.index("|", at) + 1 :], key

    def sized(self, item):
        """A quote of another size than the asked one."""
        kind, text, key = item
        return kind, self.without(item, "134")[1] + "135=999983|", key

    def maybe(self, change, item):
        return change(item) if item else None

    REFUSALS = [
        lambda self: self.unknown_symbol(self.an_order()),
        lambda self: self.repeated(self.an_order(), "11", self.used),
        lambda self: self.changed(self.an_order(), "|40=2|", "|40=1|"),
        lambda self: self.by_number(self.without(self.an_order(), "44")),
        lambda self: self.off_tick(self.an_order(self.coarse(self.market.instruments))),
        lambda self: self.below_least(self.an_order()),
        lambda self: self.cancel("nothing"),
        lambda self: self.repeated(self.cancel(self.orders[-1]), "11", self.used) if self.orders else None,
        lambda self: self.maybe(lambda item: self.changed(item, "|40=2|", "|40=3|"), self.a_replacement()),
        lambda self: self.maybe(lambda item: self.by_number(self.without(item, "44")), self.a_replacement()),
        lambda self: self.maybe(self.off_tick_change, self.a_replacement()),
        lambda self: self.maybe(self.below_least, self.a_replacement()),
        lambda self: self.a_replacement(1),
        lambda self: self.a_replacement(name=self.held[-1]) if self.held else None,
        lambda self: self.changed(self.look(self.any_instrument()), "|263=0|", "|263=1|"),
        lambda self: self.changed(self.look(self.any_instrument()), "|264=0|", "|264=1|"),
        lambda self: self.unknown_symbol(self.look(self.any_instrument())),
        lambda self: self.unknown_symbol(self.a_cross()),
        lambda self: self.changed(self.a_cross(), "|549=4|", "|549=1|"),
        lambda self: self.by_number(self.without(self.a_cross(), "44")),
        lambda self: self.changed(self.a_cross(), "|54=2|", "|54=1|"),
        lambda self: self.off_tick(self.a_cross()),
        lambda self: self.unequal_cross(),
        lambda self: self.repeated(self.a_cross(), "548", self.crossed),
        lambda self: self.repeated(self.a_cross(), "11", self.used),
        lambda self: self.repeated(self.a_request(), "131", self.requested),
        lambda self: self.repeated(self.a_quote(), "117", self.quoted),
        lambda self: self.off_tick(self.a_quote(), "133="),
        lambda self: self.without(self.a_quote(), "133"),
        lambda self: self.sized(self.a_quote()),
        lambda self: self.a_request([self.place, 1, 2, 3]),
        lambda self: self.a_request([10, 11, 11]),
        lambda self: self.a_request([12, 13]),
        lambda self: self.a_request([0, 1, 30]),
        lambda self: self.changed(self.a_request(), "448=P1", "448=Q1"),
        lambda self: self.a_request([k for k in range(31) if k != self.place][:13]),
        lambda self: self.unknown_symbol(self.a_request()),
        lambda self: self.below_least(self.a_request()),
        lambda self: self.changed(self.a_quote(), "131=R", "131=X"),
        lambda self: self.unknown_symbol(self.a_quote()),
        lambda self: self.quote("R1", self.market.instruments[0].symbol, BUY, "1"),
        lambda self: self.changed(self.without(self.a_quote(), "537"), "|55=", "|537=2|55="),
        lambda self: ("Z", "298=7|", None),
        lambda self: ("Z", "298=5|", None),
        lambda self: ("Z", "298=4|", None),
        lambda self: ("Z", "117=none|298=5|", None),
        lambda self: self.respond("Q1"),
        lambda self: self.respond("Q999999"),
        lambda self: self.respond("Q1", "2"),
        lambda self: ("AE", "", None),
        lambda self: ("8", "37=O1|17=E1|150=0|39=0|55=S001|54=1|151=1|14=0|", None),
        lambda self: ("j", "45=1|372=D|380=0|", None),
    ]

    def some_fault(self):
        """A message that gets a Reject, with the Reject's fields after 45."""
        kind, text, _ = self.an_order()
        return self.dice.choice(
            [
                (kind, text.replace("|54=1|", "|54=3|").replace("|54=2|", "|54=3|"), Reject("371=54|372=D|373=5|")),
                (kind, self.without((kind, text, None), "55")[1], Reject("371=55|372=D|373=1|")),
                (kind, text.replace("|40=2|", "|40=22|"), Reject("371=40|372=D|373=6|")),
                (kind, text + text[: text.index("|") + 1], Reject("371=11|372=D|373=13|")),
                (kind, text + "58=|", Reject("371=58|372=D|373=4|")),
                (kind, text + "x|", Reject("372=D|373=0|")),
                ("V", self.look(self.any_instrument())[1].replace("267=2|", "267=3|"), Reject("371=267|372=V|373=16|")),
                ("A", "98=0|108=30|1137=9|", Reject("372=A|373=99|")),
            ]
        )

