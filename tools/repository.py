"""The crates of this repository, as crates.txt lists them, and where their files are."""
import os
import re

ROOT = os.path.dirname(os.path.dirname(os.path.realpath(__file__)))

# The parts of a crate that the prover reads.
PARTS = ("src", "specs", "proofs")


def text_of(file):
    with open(file, encoding="utf-8") as it:
        return it.read()


def folder_of(crate):
    return f"{ROOT}/crates/{crate}"


def library_of(crate):
    return f"{folder_of(crate)}/out/rlib/{crate}.rlib"


def crates():
    """Each crate with the libraries that it uses, in the order of crates.txt."""
    rows = re.findall(r"(?m)^(\w+)[^:#\n]*:([^#\n]*)", text_of(f"{ROOT}/crates.txt"))
    return {name: libraries.split() for name, libraries in rows}


def crates_below(crate, uses):
    """The crates of this repository that a crate depends on, lowest first, each once."""
    found = {}
    for library in uses[crate]:
        if library in uses:
            found.update(dict.fromkeys([*crates_below(library, uses), library]))
    return [*found]


def source_files(crate):
    """The files of the crate's Rattle code, sorted."""
    found = []
    for folder, _, names in os.walk(f"{folder_of(crate)}/src"):
        found += [f"{folder}/{name}" for name in names if name.endswith(".rt")]
    return sorted(found)


def size_of(crate):
    """The bytes of its code: the larger a crate, the longer its check."""
    return sum(os.path.getsize(file) for file in source_files(crate))
