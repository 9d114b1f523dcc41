"""Moments and prices as the page of a day has them."""
from book import millionths, price_text


def with_decimals(price, tick):
    """A price with as many decimals as its instrument's tick, or all its own if it has more."""
    decimals = [len(price_text(it).partition(".")[2]) for it in (price, tick)]
    return price_text(price) + ("." if decimals[0] == 0 < decimals[1] else "") + "0" * (decimals[1] - decimals[0])


class Values:
    """`ticks` has the symbols of the instruments with their least steps of a price, in millionths."""

    def __init__(self, rows, ticks):
        self.ticks, self.places = ticks, {symbol: place for place, symbol in enumerate(ticks)}
        self.dates = {row.utc[:8] for row in (rows[:1] + rows[-1:])}

    def time(self, utc):
        """A moment: with its date where the day has several."""
        return utc if len(self.dates) > 1 else utc.partition("-")[2]

    def price(self, symbol, text):
        """A price of an instrument, of which an answer has the text; nothing if there is none."""
        return with_decimals(millionths(text), self.ticks[symbol]) if text else ""
