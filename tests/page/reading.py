"""reading.py PAGE: prints what the tables and lists of a page say: a line for each heading and summary, for each row of
a table and for each entry of a list, every value after its heads."""
import itertools
import sys
from html.parser import HTMLParser


TEXTS = ("h1", "h2", "summary", "th", "td", "caption", "dt", "dd")


class Reader(HTMLParser):
    """`cell` is the text of the cell or entry that is open, `heads` are those of the table's columns."""

    def __init__(self):
        super().__init__()
        self.cell, self.row, self.heads, self.groups, self.caption, self.term = None, [], [], [], "", ""

    def handle_starttag(self, tag, attributes):
        if tag == "table":
            self.heads, self.groups = [], []
        if tag == "tr":
            self.row = []
        if tag in ("th", "td"):
            self.row.append([int(dict(attributes).get("colspan", 1)), tag, ""])
        if tag in TEXTS or (tag == "p" and self.term):
            self.cell = ""
        elif tag in ("small", "span") and self.cell:
            self.cell += " "

    def handle_data(self, data):
        if self.cell is not None:
            self.cell += data

    def handle_endtag(self, tag):
        text = " ".join((self.cell or "").split())
        if tag in ("th", "td") and self.cell is not None:
            self.row[-1][2] = text
        elif tag == "caption":
            self.caption = text
        elif tag == "dt":
            self.term = text
        elif tag in ("dd", "p") and self.term and self.cell is not None:
            print(f"{self.term}: {text}")
        if tag in ("h1", "h2", "summary"):
            print(f"# {text}")
        if tag in TEXTS or tag == "p":
            self.cell = None
        if tag == "dl":
            self.term = ""
        if tag == "tr":
            self.ended()

    def ended(self):
        """A row: of values, of which each is named by its column's head, or of heads."""
        texts = [text for width, _, text in self.row for _ in range(width)]
        if any(tag == "td" for _, tag, _ in self.row[1:]) or len(self.row) == 1:
            places = itertools.accumulate((width for width, _, _ in self.row), initial=0)
            named = [f"{self.heads[at]} {text}" if width == 1 else text
                     for at, (width, _, text) in zip(places, self.row) if text]
            print(f"{self.caption}: {', '.join(named)}")
        elif not self.heads and any(width > 1 for width, _, _ in self.row):
            self.groups = texts
        else:
            self.heads = [f"{group} {text}".strip() for group, text in zip(self.groups or [""] * len(texts), texts)]


def main(page):
    reader = Reader()
    with open(page, encoding="ascii") as file:
        reader.feed(file.read())


if __name__ == "__main__":
    main(*sys.argv[1:])
