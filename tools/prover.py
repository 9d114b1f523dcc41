"""The prover, asked about a crate with edits, and its answer."""
import os
import re
import shutil
import subprocess
import tempfile
import time

from repository import PARTS, crates_below, folder_of, library_of, text_of

# What antt prints where a proof file does not fit the crate by its mere shape: it names something that the crate no
# longer has, or it is of another form than what it has to prove.
OF_ANOTHER_SHAPE = re.compile(r"has no field|is not in scope|has no `|was not admitted|the two types first differ")
# What antt prints where it cannot read a text at all, so that nothing was tried. (rt goes by the same words for
# must-fail edits.)
CANNOT_READ = re.compile(r"is not in scope|has no field|is no name|operand is missing|expected the end|cannot continue")
# What antt prints where a library's kept work does not fit this crate.
STALE = re.compile(r"module .Rattle-(\w+)-.*Run the lower steps again")


def command(crate, uses, kept, only=()):
    """The check of the crate whose parts are in the current folder, by the command that rt ci uses: over the libraries
    in crates/*/out/rlib, at one job, over the work that earlier checks kept, to which it adds its own. With `only` of
    these functions, and of those that they call."""
    kit = os.path.dirname(os.path.dirname(os.path.realpath(shutil.which("rt"))))
    top = "main" if os.path.isfile(f"{folder_of(crate)}/src/main.rt") else "lib"
    words = [f"{kit}/bin/rattle", "check", "--crate-name", crate, f"src/{top}.rt"]
    for library in ["std", *uses[crate]]:
        words += ["--extern", f"{library}={library_of(library) if library in uses else f'{kit}/rlibs/{library}.rlib'}"]
    words += ["-L", f"dependency={kit}/rlibs"]
    for library in crates_below(crate, uses):
        words += ["-L", f"dependency={os.path.dirname(library_of(library))}"]
    words += ["--antt-project", f"{kit}/rattle/logic/antt-project.json", "--logic-built", f"{kit}/logic_built"]
    words += ["--links", f"{crate}=", "--jobs", "1", "--incremental", kept]
    return words + [word for name in only for word in ("--only", name.partition("::")[2])]


def write_edited_copy(crate, edits, folder):
    """Writes the crate's parts into a folder, with these edits applied."""
    for part in PARTS:
        if os.path.isdir(f"{folder_of(crate)}/{part}"):
            shutil.copytree(f"{folder_of(crate)}/{part}", f"{folder}/{part}")
    changes = [change for edit in edits for change in edit.changes]
    for path in {change.path for change in changes}:
        text = text_of(f"{folder}/{path}")
        # (from the last to the first, so that each is still where it was found)
        for change in sorted((it for it in changes if it.path == path), key=lambda it: -it.begin):
            text = text[: change.begin] + change.new + text[change.end :]
        with open(f"{folder}/{path}", "w", encoding="utf-8") as it:
            it.write(text)


class Killed(Exception):
    """The prover was killed, most likely for lack of memory."""


class OutOfTime(Exception):
    """The time was over before the prover had answered."""


def ask(crate, uses, kept, ends, edits, only=()):
    """The prover's answer about the crate with these edits, or about these functions of it alone, until the moment
    `ends`."""
    with tempfile.TemporaryDirectory(prefix="mutants-") as folder:
        write_edited_copy(crate, edits, folder)
        how = {"cwd": folder, "stdin": subprocess.DEVNULL, "stdout": subprocess.PIPE, "stderr": subprocess.STDOUT}
        seconds = None if ends == float("inf") else max(0, ends - time.monotonic())
        try:
            words = command(crate, uses, kept, only)
            ran = subprocess.run(words, errors="replace", timeout=seconds, check=False, **how)
        except subprocess.TimeoutExpired:
            raise OutOfTime from None
    if ran.returncode < 0:
        raise Killed(f"{crate}: NOT TRIED: the prover was killed by signal {-ran.returncode}")
    return Answer(ran.returncode, ran.stdout)


def errors_of(output):
    """The errors that the prover prints, each with its file. A long one goes on in lines that are indented."""
    found = []
    for line in output.split("\n"):
        begins = re.match(r"(?:\./)?(\S+?):\d+:\d+: error: (.*)$", line)
        if begins:
            found.append([begins[1], begins[2]])
        elif found and found[-1] and line.startswith("  "):
            found[-1][1] += f" {line.strip()}"
        else:
            found.append(None)
    return [(file, error) for file, error in filter(None, found)]


class Answer:
    """The prover's answer about a crate, or about some of its functions.

    is_proved    the crate is proved, or these functions
    was_read     it is not, and all of it was read; where neither holds, `stopped` is the line with the reason
    refused      the functions that it refuses for more than that functions which they call are not proved
    at_goals     those of them that it refuses at a goal, and not only since a proof file is of another shape, or lacks
                 what is new
    goals        these, and the errors of a law, a definition or a lemma on definitions that is refused
    first        the first line of the output to show
    """

    def __init__(self, status, output):
        self.errors = errors_of(output)
        last = output.rstrip("\n").rpartition("\n")[2]
        unread = [f"{file}: {error}" for file, error in self.errors if is_unread(file, error)]
        stale = ["the kept work of a library could not be used"] if STALE.search(output) else []
        self.is_proved = status == 0 and bool(re.match(r"logic=proved|only=(\d+) proved=\1$", last))
        self.was_read = status == 1 and bool(re.match("logic=not-proved|only=", last)) and not unread and not stale
        self.stopped = [*stale, *unread, last][0][:200]
        lines = re.findall(r"(?m)^(?:fn|struct|enum|impl|trait) (\S+): (.*)$", output)
        self.refused = [name for name, verdict in lines if reasons_of(verdict)]
        self.at_goals = [name for name, verdict in lines if self.is_at_goal(name, reasons_of(verdict))]
        statements = [f"{file}: {error}" for file, error in self.errors if file.startswith(("src/", "specs/"))]
        lemmas = [f"{file}: {error}" for file, error in self.errors if is_false_lemma(file, error)]
        self.goals = [*self.at_goals, *statements, *lemmas]
        self.first = [*(f"{file}: {error}" for file, error in self.errors), *self.refused, last][0][:200]

    def is_at_goal(self, name, reasons):
        """Whether the function, refused for these reasons, is refused at a goal. Errors in its proof files that are all
        about their shape count as none, even where `search` then fails too: an invariant that cannot be read leaves its
        loop without one."""
        folder = f"proofs/{'/'.join(name.split('::')[1:])}/"
        errors = [error for file, error in self.errors if file.startswith(folder)]
        if errors:
            return any(not OF_ANOTHER_SHAPE.search(error) for error in errors)
        return any("did not prove" in reason for reason in reasons)


def reasons_of(verdict):
    """Those of the prover's reasons, which follow the name of what it refuses, that lie in the function itself: that
    one which it calls is not proved is none, nor that an impl waits for the proof of its method. A verdict other than
    `not proved` and `no proof` is no refusal."""
    is_refusal = re.match(r"(not proved|no proof)\b", verdict)
    if not is_refusal or re.match("not proved; it waits for the proofs? of ", verdict):
        return []
    reasons = re.split(r"[:;] ", verdict)
    if reasons[0] == "no proof" and len(reasons) > 1:
        reasons = reasons[1:]
    return [reason for reason in reasons if not reason.startswith("it calls ")]


def is_false_lemma(file, error):
    """Whether antt refuses a lemma of a file of lemmas for what it states, as where a definition that it cites is
    changed."""
    is_of_lemma = re.match(r"proofs/[^/]*\.antt$", file) and re.match("`[^`]*`: ", error)
    return bool(is_of_lemma) and not OF_ANOTHER_SHAPE.search(error)


def is_unread(file, error):
    """Whether antt could not read a text of the code or the definitions; else the error is that an item does not
    hold."""
    item = re.match(r"`[^`]*`: ", error)
    return file.startswith(("src/", "specs/")) and (not item or bool(CANNOT_READ.search(re.sub("`[^`]*`", "", error))))
