"""Where the bodies of functions begin and end in a source text, and how the prover names these functions."""
import re
from dataclasses import dataclass

# Comments, strings and characters, in which braces and words have no meaning. (A lifetime is no character.)
UNREAD = re.compile(
    r"""//[^\n]* | /\*.*?\*/ | b?r(\#*)".*?"\1 | b?"(?:[^"\\]|\\.)*" | b?'(?:[^'\\\n]|\\[^\n][^'\n]*)'""",
    re.S | re.X,
)


@dataclass(frozen=True)
class Body:
    """The text from `begin` to `end` is the body of a function, whose name begins with that of its impl or trait.
    `kind` is the type of the impl, or the trait, and empty where the function is in neither."""

    begin: int
    end: int
    function: str
    kind: str = ""

    def holds(self, begin, end):
        return self.begin <= begin and end <= self.end


def blanked(text):
    """The text with spaces in place of what is no code; each position stays."""
    return UNREAD.sub(lambda found: re.sub(r"[^\n]", " ", found[0]), text)


def brace_shape(text):
    """The braces that the text opens less those that it closes, and the most that it closes of earlier ones. A text in
    place of one of the same shape leaves the bodies around it as they are."""
    depth = lowest = 0
    for found in re.finditer(r"[{}]", blanked(text)):
        depth += 1 if found[0] == "{" else -1
        lowest = min(lowest, depth)
    return depth, lowest


def ends_of_braces(code):
    """The position of each closing brace, by that of its opening one."""
    ends, open_ones = {}, []
    for found in re.finditer(r"[{}]", code):
        if found[0] == "{":
            open_ones.append(found.start())
        elif open_ones:
            ends[open_ones.pop()] = found.start()
    return ends


def opening_of_body(code, start, ends):
    """The position of the brace that opens the body of the function whose name ends at `start`, or None where it has
    none. The braces of clauses come before it, and a `;` within brackets, as in `[u8; 21]`, is a part of a type."""
    depth, clauses_from, at = 0, start, start
    while at < len(code):
        sign = code[at]
        if sign in "([":
            depth += 1
        elif sign in ")]":
            depth -= 1
        elif sign == ";" and depth == 0:
            return None
        elif sign == "{" and at not in ends:
            return None
        elif sign == "{":
            if not re.search(r"\b(requires|ensures|ghost)\b", code[clauses_from:at]):
                return at
            at = clauses_from = ends[at]
        at += 1
    return None


def names_of_impl(head):
    """The prover's name for an impl, from the text between `impl` and its brace, and its type: `MomentOrd`, type and
    then trait, and `Moment`. The arguments of a trait are a part of that name in a form of the prover's own, written
    `*` here: `FaultFrom*`."""
    head = re.split(r"\bwhere\b", head.replace("->", "  "))[0]
    head = re.sub(r">\s+for\b", "*> for", head)
    while re.search(r"<[^<>]*>", head):
        head = re.sub(r"<[^<>*]*(\*?)>", r"\1", head)
    trait_then_type = [word.strip().rpartition("::")[2] for word in re.split(r"\bfor\b", head)]
    return "".join(reversed(trait_then_type)), trait_then_type[-1]


def bodies_of(text):
    """The bodies of all functions of a source text, nested ones too."""
    code = blanked(text)
    ends = ends_of_braces(code)
    owners = []
    impls, traits = r"^ *(?:unsafe )?impl\b([^{;]*)\{", r"^ *(?:pub(?:\([^)]*\))? )?trait (\w+)[^{;]*\{"
    for found in re.finditer(f"(?m){impls}|{traits}", code):
        opening = found.end() - 1
        name, kind = (found[2], found[2]) if found[2] else names_of_impl(found[1])
        owners.append(Body(opening, ends.get(opening, opening), name, kind))
    bodies = []
    for found in re.finditer(r"\bfn\s+(\w+)", code):
        opening = opening_of_body(code, found.end(), ends)
        if opening is not None:
            around = [owner for owner in owners if owner.holds(*found.span())][-1:]
            name = "::".join([*(owner.function for owner in around), found[1]])
            bodies.append(Body(opening + 1, ends[opening], name, "".join(owner.kind for owner in around)))
    return bodies


def module_of(path):
    """The module of a source file, as `venue::orders` for `src/venue/orders.rt`, and an empty one for the crate's
    root."""
    words = re.sub(r"\.rt$", "", path).split("/")[1:]
    return "::".join(word for word in words if word not in ("lib", "main", "mod"))


def is_of(name, function):
    """Whether the prover's name is that of this function, or of a closure in it (`m::fn::f::map` of `m::f`)."""
    parts = function.split("::")
    if re.fullmatch(re.escape(function).replace(r"\*", r"\w*"), name):
        return True
    closures = ("::".join([*parts[:at], "fn", *parts[at:]]) + "::" for at in range(1, len(parts)))
    return name.startswith(tuple(closures))
