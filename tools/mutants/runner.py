"""The mutation runner: which mutants are tried at once, and what the prover's answer means for each."""
import functools
import os
import shutil
import tempfile
import time
from dataclasses import dataclass

from edits import edits_of
from functions import is_of
from prover import OutOfTime, ask
from repository import folder_of

# The verdict on an edit that the time did not suffice for.
LATE = "NOT TRIED: the time was over"


@dataclass(frozen=True)
class Result:
    """What came of a crate's edits: how many are refused at a goal, the names of those refused at none, how many were
    not tried for want of time, and how many are neither."""

    refused: int
    at_no_goal: tuple = ()
    late: int = 0
    faults: int = 0

    @property
    def tried(self):
        return self.refused + len(self.at_no_goal) + self.faults

    @property
    def left(self):
        return len(self.at_no_goal) + self.late + self.faults

    @property
    def is_whole(self):
        """Whether each was tried, and none survived."""
        return not self.late and not self.faults


def groups_of(edits):
    """The edits that lie in one function each, in groups that can be tried at once: each edit joins the first group
    that it fits."""
    groups = []
    for edit in edits:
        if edit.function:
            group = next((group for group in groups if edit.goes_with(group)), None)
            if group is None:
                groups.append([edit])
            else:
                group.append(edit)
    return groups


def verdicts_of_group(group, answer):
    """The verdicts that the answer to a group gives: some edits are refused, and of the others nothing is known. None
    where the answer is void."""
    if not answer.was_read and not answer.is_proved:
        return None
    is_edited = lambda name: any(is_of(name, edit.function) for edit in group)
    if not all(is_edited(name) for name in answer.refused):
        return None
    at_goal = lambda edit: any(is_of(name, edit.function) for name in answer.at_goals)
    return {edit: f"refused: {edit.function}" for edit in group if at_goal(edit)}


def halves_of(group):
    return group[: len(group) // 2], group[len(group) // 2 :]


def verdict_of_answer(answer):
    """The verdict that the answer to one edit gives."""
    if answer.is_proved:
        return "NOT REFUSED: the crate is still proved with this edit"
    if not answer.was_read:
        return f"BAD EDIT: the prover gave no verdict: {answer.stopped}"
    if not answer.goals:
        return f"NO GOAL: it is refused, but at no goal: {answer.first}"
    return f"refused alone: {', '.join(answer.goals[:3])}"


def verdicts_of(edits, groups, is_proved, ask_with):
    """The verdict on each edit, and the number of those that were tried alone. `ask_with` asks the prover about the
    crate with some edits, or about some of its functions. A group whose answer is void is tried again in halves.
    Nothing is a refusal where what is asked about is not proved without edits: that is asked first, unless the crate
    was proved just before, and always before an edit is tried alone. Where the time is over, no more is asked."""
    functions_of = lambda some: tuple(sorted({edit.function for edit in some}))
    functions = functions_of(sum(groups, []))
    answer_of = functools.cache(lambda some, only: ask_with(list(some), only))
    without = lambda only: answer_of((), only)
    verdicts, alone = {}, []

    def try_group(group):
        found = verdicts_of_group(group, answer_of(tuple(group), functions_of(group)))
        if found is None and len(group) > 1:
            for half in halves_of(group):
                try_group(half)
        else:
            verdicts.update(found or {})

    def verdict_by(edit, only, before):
        whole = without(before)
        if whole.is_proved:
            return verdict_of_answer(answer_of((edit,), only))
        return f"NOT TRIED: it is not proved without edits: {whole.first}"

    def verdict_alone(edit):
        # (by its function, or by the one that it names, and where that stands by the whole crate)
        if edit.function:
            return verdict_by(edit, (edit.function,), functions)
        named = verdict_by(edit, (edit.refuser,), (edit.refuser,)) if edit.refuser else ""
        return named if named.startswith("refused") else verdict_by(edit, (), ())

    try:
        if is_proved or not groups or without(functions).is_proved:
            for group in groups:
                try_group(group)
        for edit in [edit for edit in edits if edit not in verdicts]:
            alone.append(edit)
            verdicts[edit] = verdict_alone(edit)
    except OutOfTime:
        verdicts.update({edit: LATE for edit in edits if edit not in verdicts})
    return verdicts, len(alone)


def try_crate(crate, uses, is_quick, is_proved, ends, chosen=()):
    """Tries the edits of a crate, or those whose names are chosen, until the moment `ends`, prints the verdicts, and
    returns what came of them."""
    began = time.monotonic()
    edits = [edit for edit in edits_of(crate) if not chosen or edit.name in chosen]
    good = [edit for edit in edits if not edit.fault]
    groups = groups_of(good)
    with tempfile.TemporaryDirectory(prefix="mutants-kept-") as folder:
        kept, before = f"{folder}/kept", f"{folder_of(crate)}/out/incremental"
        if is_quick and os.path.isdir(before):
            shutil.copytree(before, kept)
        else:
            os.mkdir(kept)
        verdicts, alone = verdicts_of(good, groups, is_proved, lambda *asked: ask(crate, uses, kept, ends, *asked))
    verdicts.update({edit: f"BAD EDIT: {edit.fault}" for edit in edits if edit.fault})
    refused = sum(verdicts[edit].startswith("refused") for edit in edits)
    no_goal = tuple(edit.name for edit in edits if verdicts[edit].startswith("NO GOAL"))
    late = sum(verdicts[edit] == LATE for edit in edits)
    how = f"{len(groups)} group{'s' * (len(groups) != 1)}, {alone} alone, {minutes_since(began)}"
    lines = [f"{edit.label}: {verdicts[edit]}" for edit in edits]
    print("\n".join([*lines, f"== {crate}: {refused} of {len(edits)} refused ({how})"]), flush=True)
    return Result(refused, no_goal, late, len(edits) - refused - len(no_goal) - late)


def minutes_since(began):
    return f"{(time.monotonic() - began) / 60:.1f} minutes"
