"""Mutants: what an edit changes, and in which function."""
import os
import re
from dataclasses import dataclass

from functions import bodies_of, brace_shape, module_of
from repository import folder_of, source_files, text_of

FOLDER = "mutants"


@dataclass(frozen=True)
class Change:
    """The text from `begin` to `end` of a file of the crate is replaced by another."""

    path: str
    begin: int
    end: int
    new: str

    def meets(self, other):
        return self.path == other.path and self.begin < other.end and other.begin < self.end


@dataclass(frozen=True)
class Edit:
    """A mutant. `fault` is why it cannot be applied; `function` is the one whose body has all its changes, by the
    prover's name, or None for an edit of a constant, a clause, a definition or several functions; `refuser` is the
    function whose proof it says to break."""

    label: str
    changes: tuple = ()
    function: str = None
    fault: str = None
    refuser: str = None

    @property
    def name(self):
        return re.sub(r"\.edit$", "", self.label.partition("/")[2])

    def goes_with(self, others):
        """Whether it can be tried together with these: each in a function of its own, and none in the text of
        another."""
        if self.function in [other.function for other in others]:
            return False
        return not any(mine.meets(its) for other in others for its in other.changes for mine in self.changes)


class BadEdit(Exception):
    """Why an edit cannot be applied."""


def pairs_of(text):
    """The edit's pairs: the file, the old text and the new one."""
    path, old, pairs = None, None, []
    for line in text.split("\n"):
        if line.startswith("file: "):
            path = line[len("file: ") :].strip()
        elif line.startswith("old: "):
            old = line[len("old: ") :]
        elif line.startswith("new:"):
            if not path or not old:
                raise BadEdit("a 'new:' line comes before any 'file:' or 'old:' line")
            pairs.append((path, old, re.sub("^ ", "", line[len("new:") :])))
            old = None
    if not pairs or old:
        raise BadEdit("it has no pair, or half of one, of an 'old:' and a 'new:' line")
    return pairs


def change_of(crate, path, old, new):
    """The change that a pair asks for, where its old text is found once in a file of the crate's code or
    definitions."""
    if path.split("/")[0] not in ("src", "specs") or ".." in path:
        raise BadEdit(f"{path} is no file of src/ or specs/ (an edit of a proof shows nothing)")
    file = f"{folder_of(crate)}/{path}"
    if not os.path.isfile(file):
        raise BadEdit(f"there is no file {path}")
    text = text_of(file)
    if text.count(old) != 1:
        raise BadEdit(f"an 'old:' text is in {path} {text.count(old)} times, and not once")
    if old == new:
        raise BadEdit(f"it changes nothing in {path}")
    begin = text.find(old)
    return Change(path, begin, begin + len(old), new)


def prover_name(crate, path, body):
    """The prover's name for the function of a body in a file. A method is named by the module that declares its
    type."""
    declaration = rf"\b(?:struct|enum|union|trait) {body.kind}\b"
    homes = [file for file in source_files(crate) if body.kind and re.search(declaration, text_of(file))]
    if len(homes) == 1:
        path = os.path.relpath(homes[0], folder_of(crate))
    return "::".join(word for word in (crate, module_of(path), body.function) if word)


def function_of(crate, changes):
    """The function whose body has all changes, by the prover's name, or None."""
    path = changes[0].path
    if {change.path for change in changes} != {path} or not path.endswith(".rt"):
        return None
    text = text_of(f"{folder_of(crate)}/{path}")
    # (the functions of a cycle have one proof, which does not show whose body is wrong)
    if "#[cycle" in text:
        return None
    bodies = bodies_of(text)
    found = set()
    for change in changes:
        around = [body for body in bodies if body.holds(change.begin, change.end)]
        # (a nested function has a name like that of a closure)
        if len(around) != 1 or brace_shape(text[change.begin : change.end]) != brace_shape(change.new):
            return None
        found.add(around[0])
    body = found.pop()
    is_alone = not found and sum(other.function == body.function for other in bodies) == 1
    return prover_name(crate, path, body) if is_alone else None


def read_edit(crate, file):
    """The edit of a file of the crate's folder of edits."""
    label = f"{crate}/{os.path.basename(file)}"
    try:
        text = text_of(file)
        changes = tuple(change_of(crate, *pair) for pair in pairs_of(text))
        for at, change in enumerate(changes):
            if any(change.meets(other) for other in changes[:at]):
                raise BadEdit(f"two of its pairs change the same text in {change.path}")
    except (BadEdit, UnicodeDecodeError) as fault:
        return Edit(label, fault=str(fault))
    refuser = re.search(r"(?m)^in: (\S+)$", text)
    return Edit(label, changes, function_of(crate, changes), refuser=refuser and f"{crate}::{refuser[1]}")


def edits_of(crate):
    """The crate's edits, by name. A file of the folder that is no edit counts as one that cannot be applied, so that
    none is overlooked."""
    folder = f"{folder_of(crate)}/{FOLDER}"
    edits = []
    for name in sorted(os.listdir(folder)) if os.path.isdir(folder) else []:
        if name.endswith(".edit"):
            edits.append(read_edit(crate, f"{folder}/{name}"))
        elif not name.endswith(".md"):
            fault = "its name does not end in .edit (or in .md, if it is only to be read)"
            edits.append(Edit(f"{crate}/{name}", fault=fault))
    return edits
