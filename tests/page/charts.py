"""The section Instruments of the page of a day."""
import itertools
from datetime import datetime, timedelta

from book import Book
from values import with_decimals

MOST_CHARTS, MOST_GLYPHS, MOST_LEVELS, MOST_TRADES, PARTS, BARS = 12, 400, 8, 10000, 200, 60
MOST_TIMES, MOST_PRICES = 5, 6
SECOND, MINUTE, HOUR, DAY = 1000, 60_000, 3_600_000, 86_400_000
SPANS = (*(n * SECOND for n in (1, 2, 5, 10, 15, 30)), *(n * MINUTE for n in (1, 2, 5, 10, 15, 30)),
         *(n * HOUR for n in (1, 2, 3, 6, 12)), *(n * DAY for n in (1, 2, 7)))


def multiples(step, low, high):
    return range(-(-low // step) * step, high + 1, step)


def price_step(tick, low, high):
    """The least of 1, 2, 5 times a power of ten that makes few enough labels, of whole ticks if there is one."""
    steps = sorted(n * 10**k for n in (1, 2, 5) for k in range(18))
    few = [step for step in steps if len(multiples(step, low, high)) <= MOST_PRICES]
    return next((step for step in few if step % tick == 0), few[0])


def utc(ms):
    return f"{datetime(1970, 1, 1) + timedelta(milliseconds=ms):%Y%m%d-%H:%M:%S.%f}"[:-3]


class Chart:
    """The trades and best prices of an instrument over the day; the places on it are whole numbers, cut off."""

    def __init__(self, page, values, rows, trades, tops, tick):
        self.page, self.values, self.trades, self.tops, self.tick = page, values, trades, tops, tick
        self.first, self.last = rows[0].ms, rows[-1].ms
        prices = [t.millionths for t in trades]
        best = [price for _, *top in tops for price in top if price is not None]
        if trades:
            reach = max(8 * tick, max(prices) - min(prices))
            best = [price for price in best if min(prices) - reach <= price <= max(prices) + reach]
        self.low, self.high = min(prices + best), max(prices + best)

    def price(self, millionths):
        return with_decimals(millionths, self.tick)

    def across(self, ms):
        """In ten thousandths of the width, of which 100 are left free on each side."""
        since = min(max(ms, self.first), self.last) - self.first
        return 100 + 9800 * since // max(self.last - self.first, 1)

    def percent(self, ms):
        """The same in percent: its whole part and two decimals."""
        x = f"{self.across(ms):04}"
        return int(x[:-2]), x[-2], x[-1]

    def down(self, price):
        """In pixels from the top: 12 at the highest price, 192 at the lowest; outside of the frame what is beyond."""
        if not self.low <= price <= self.high:
            return -9 if price > self.high else 213
        return 12 + 180 * (self.high - price) // max(self.high - self.low, 1)

    def price_ticks(self):
        prices = multiples(price_step(self.tick, self.low, self.high), self.low, self.high)
        for price in prices if len(prices) > 1 else dict.fromkeys((self.low, self.high)):
            self.page.add("PRICE_TICK", y=self.down(price), price=self.price(price))

    def time_ticks(self):
        dates = utc(self.first)[:8] != utc(self.last)[:8]
        span = next((it for it in SPANS if len(multiples(it, self.first, self.last)) <= MOST_TIMES), None)
        moments = multiples(span, self.first, self.last) if span else []
        if len(moments) < 2:
            for ms, anchor in zip(dict.fromkeys((self.first, self.last)), ("start", "end")):
                self.time_tick(ms, anchor, utc(ms)[:8] if dates else utc(ms)[9:])
            return
        for ms in moments:
            time = utc(ms)[9:14] if span % MINUTE == 0 else utc(ms)[9:17]
            self.time_tick(ms, "middle", utc(ms)[:8] if dates and ms % DAY == 0 else time)

    def time_tick(self, ms, anchor, text):
        self.page.add("TIME_TICK", x=self.percent(ms), anchor=anchor, time=text)

    def volume(self):
        books, rooms = [0] * BARS, [0] * BARS
        for t in self.trades:
            part = BARS * (t.row.ms - self.first) // (self.last - self.first + 1)
            (books if t.room is None else rooms)[part] += t.quantity
        greatest = max(map(sum, zip(books, rooms)))
        self.page.add("VOLUME", volume=f"{greatest:,}")
        for part, both in enumerate(zip(books, rooms)):
            top = 38
            for name, quantity in zip(("vb", "va"), both):
                height = -(-37 * quantity // max(greatest, 1))
                top -= height
                if height:
                    self.page.add("BAR", x=100 + 9800 * part // BARS, y=top, height=height, **{"class": name})
        self.page.add("VOLUME_END")

    def line(self, side):
        """A line for each run of changes that have a price; it ends at the change that has none, or at the last row. Of
        changes within a 2,000th of the width the last one stands."""
        changes = [(self.across(row.ms), top[side]) for row, *top in self.tops]
        last_of = {x // 5: (x, price) for x, price in changes}
        of = [*last_of.values(), (self.across(self.last), None)]
        for (_, before), (x, price), (next_x, after) in zip([(0, None)] + of, of, of[1:] + of[-1:]):
            if price is not None:
                self.page.add("MOVE" if before is None else "STEP", x=x, y=self.down(price))
                if after is None:
                    self.page.add("STOP", x=next_x)

    def lines(self):
        self.page.add("LINES")
        self.line(0)
        self.page.add("instrument_charts.OFFERS")
        self.line(1)
        self.page.add("LINES_END")

    def glyphs(self):
        for t in self.trades:
            shape, name = ("b", "dot") if t.room is None else ("r", "dia")
            self.page.add("GLYPH" if t.number <= MOST_TRADES else "GLYPH_ALONE", trade=t.number, shape=shape,
                          x=self.percent(t.row.ms), y=self.down(t.millionths), time=self.values.time(t.row.utc),
                          quantity=f"{t.quantity:,}", price=self.price(t.millionths), **{"class": name})

    def ranges(self):
        parts = {}
        for t in self.trades:
            part = PARTS * (t.row.ms - self.first) // (self.last - self.first + 1)
            parts.setdefault(part, []).append(self.down(t.millionths))
        self.page.add("RANGES")
        for part, at in sorted(parts.items()):
            self.page.add("RANGE", x=124 + 49 * part, high=min(at), low=max(at))
        self.page.add("RANGES_END")


def ladder(page, book, symbol, tick):
    page.add("LADDER")
    for side, word in (("1", "bid"), ("2", "offer")):
        levels = [list(of) for _, of in itertools.groupby(book.resting(symbol, side), lambda order: order.price)]
        for level in levels[:MOST_LEVELS]:
            page.add("LEVEL", side=word, price=with_decimals(level[0].price, tick), orders=f"{len(level):,}",
                     order=level[0].number, quantity=f"{sum(order.left for order in level):,}")
        if not levels:
            page.add("NO_SIDE", side=word + "s")
        elif len(levels) > MOST_LEVELS:
            page.add("MORE", side=word + "s", count=f"{len(levels) - MOST_LEVELS:,}")
    page.add("LADDER_END")


def instruments(page, values, rows, trades):
    ticks = values.ticks
    book, changes = Book(), {symbol: [] for symbol in ticks}
    for row in rows:
        for symbol, bid, offer in book.take(row):
            changes[symbol].append((row, bid, offer))
    page.add("INSTRUMENTS", count=f"{len(ticks):,}")
    for symbol, tick in ticks.items():
        of = [t for t in trades if t.symbol == symbol]
        if not of and not changes[symbol]:
            continue
        chart = Chart(page, values, rows, of, changes[symbol], tick)
        page.add("OPEN" if len(ticks) <= MOST_CHARTS else "FOLDED", symbol=symbol, count=f"{len(of):,}")
        page.add("CHART", symbol=symbol, count=f"{len(of):,}")
        chart.price_ticks()
        chart.time_ticks()
        if len(of) > MOST_GLYPHS:
            chart.ranges()
        else:
            chart.lines()
            chart.glyphs()
        chart.volume()
        page.add("CHART_END")
        ladder(page, book, symbol, tick)
        page.add("INSTRUMENT_END")
    page.add("INSTRUMENTS_END")
