"""The killed-mutants cache, tools/mutants/killed.txt: a line for each crate of which no mutant survived in the text of
this fingerprint. It has the kit that refused them, the day, and the mutants that it refused at no goal, if any.

A mutant is killed by its crate's own text and by what the crates below state: their definitions, their types and their
contracts. The prover does not read their bodies and proofs, so a fingerprint does not depend on these. It depends on
the crate, its mutants, what is stated below, and the mutation runner. Under another kit an entry is not void, but old:
those mutants are tried in turn (order.py)."""
import datetime
import functools
import hashlib
import os
import subprocess
from dataclasses import dataclass

from edits import FOLDER
from functions import bodies_of
from repository import PARTS, ROOT, crates_below, folder_of, text_of

FILE = f"{ROOT}/tools/mutants/killed.txt"
RUNNER = ("mutants/edits.py", "mutants/functions.py", "mutants/runner.py", "prover.py", "repository.py")
HEAD = """\
# Of these crates no mutant survived in the text with this fingerprint (tools/mutants/killed.py): crate, fingerprint, kit,
# day, and the mutants that were refused at no goal, which shows nothing.
"""


@dataclass(frozen=True)
class Entry:
    """What the cache has of a crate."""

    fingerprint: str
    kit: str
    day: str
    at_no_goal: tuple = ()


def files_below(folder):
    """The files below a folder, sorted."""
    return sorted(f"{at}/{name}" for at, _, names in os.walk(folder) for name in names)


def without_bodies(text):
    """A source text without the bodies of its functions."""
    stated, end = [], 0
    for body in sorted(bodies_of(text), key=lambda body: body.begin):
        # (a nested function is a part of its outer one)
        if body.begin >= end:
            stated.append(text[end : body.begin])
            end = body.end
    return "".join([*stated, text[end:]])


def sum_of(texts):
    """A sum of texts, each with its name."""
    seen = hashlib.sha256()
    for text in texts:
        for piece in text:
            seen.update(f"{len(piece)} {piece}".encode())
    return seen.hexdigest()


@functools.cache
def stated(crate):
    """A sum of what a crate states for the crates above it."""
    source, folder = folder_of(crate), os.path.dirname(folder_of(crate))
    texts = [(file, without_bodies(text_of(file))) for file in files_below(f"{source}/src")]
    texts += [(file, text_of(file)) for file in files_below(f"{source}/specs")]
    return sum_of((os.path.relpath(file, folder), text) for file, text in texts)


@functools.cache
def kit():
    """The kit, as one word: its name and the sum of its logic."""
    version = subprocess.run(["rt", "version"], stdout=subprocess.PIPE, text=True, check=True).stdout
    return "-".join(word for word in version.split() if word != "logic")


@functools.cache
def runner():
    """A sum of the mutation runner."""
    return sum_of((name, text_of(f"{ROOT}/tools/{name}")) for name in RUNNER)


def fingerprint(crate, uses):
    """The fingerprint of a crate in its present text."""
    source = folder_of(crate)
    own = [file for part in (*PARTS, FOLDER) for file in files_below(f"{source}/{part}")]
    return sum_of(
        [
            ("runner", runner()),
            *((below, stated(below)) for below in crates_below(crate, uses)),
            *((os.path.relpath(file, source), text_of(file)) for file in own),
        ]
    )


def today():
    return datetime.datetime.now(datetime.timezone.utc).strftime("%Y-%m-%d")


def killed():
    """The entries of the cache, by crate."""
    lines = text_of(FILE).split("\n") if os.path.isfile(FILE) else []
    rows = [line.split() for line in lines if line and not line.startswith("#")]
    return {name: Entry(*row[:3], tuple(row[3:])) for name, *row in rows if len(row) >= 3}


def keep(crate, entry):
    """Puts a crate's entry into the cache."""
    kept = {**killed(), crate: entry}
    rows = ([name, it.fingerprint, it.kit, it.day, *it.at_no_goal] for name, it in sorted(kept.items()))
    with open(FILE, "w", encoding="utf-8") as it:
        it.write(HEAD + "".join(f"{' '.join(row)}\n" for row in rows))
