"""The parts of the page of a day, which are the templates of the crates: their places are given values by name."""
import glob
import os
import re

CRATES = os.path.join(os.path.dirname(os.path.abspath(__file__)), "..", "..", "crates")
CONSTANT = re.compile(r'const (\w+): &\[u8\] =\s*b"((?:[^"\\]|\\.)*)";', re.S)
PLACE = re.compile(r"\$([^;]*);")
NAMED = {38: "&amp;", 60: "&lt;", 62: "&gt;", 34: "&quot;", 39: "&#39;"}


def templates():
    """The text of each part, by the names of its crate and its own."""
    found = {}
    for source in [*glob.glob(f"{CRATES}/*/src/template.rt"), f"{CRATES}/day_page/src/style.rt"]:
        crate = os.path.relpath(source, CRATES).split(os.sep)[0]
        with open(source, encoding="ascii") as file:
            for name, text in CONSTANT.findall(file.read()):
                found[f"{crate}.{name}"] = text.replace("\\n", "\n").replace('\\"', '"').replace("\\\\", "\\")
    return found


def escaped(value):
    data = str(value).encode("latin-1")
    return "".join(NAMED.get(b) or (chr(b) if 32 <= b <= 126 else f"&#x{b:02x};") for b in data)


def grouped(counts):
    """Whole numbers in groups of three."""
    return {place: f"{n:,}" for place, n in counts.items()}


class Page:
    """`used` are the names of its parts."""

    def __init__(self):
        self.templates, self.parts, self.used, self.found = templates(), [], set(), {}

    def named(self, name):
        """The text of the part of that name; the name has its crate's before it where two crates have another text."""
        full = [it for it in self.templates if name in (it, it.split(".")[1])]
        texts = {self.templates[it] for it in full}
        assert len(texts) == 1, f"parts named {name}: {full}"
        self.used.update(full)
        return texts.pop()

    def add(self, name, /, **values):
        """A part: each place has the value of its name; where a name has several values, they are a tuple, in order."""
        if name not in self.found:
            template = self.named(name)
            self.found[name] = (PLACE.split(template), PLACE.findall(template))
        pieces, places = self.found[name]
        assert set(places) == set(values), f"the part {name} has the places {sorted(set(places))}, not {sorted(values)}"
        several = {place: iter(value) for place, value in values.items() if isinstance(value, tuple)}
        assert all(len(values[place]) == places.count(place) for place in several), f"the part {name}: {values}"
        shown = [next(several[place]) if place in several else values[place] for place in places]
        self.parts.append(pieces[0])
        for value, piece in zip(shown, pieces[2::2]):
            self.parts += [escaped(value), piece]

    def text(self):
        return "".join(self.parts)
