"""Which crates' mutants are tried in a limited time, and in what order; and what is known of all when it is over."""
import subprocess
import time
import zlib

from edits import FOLDER
from repository import PARTS, ROOT, size_of

# The known ones are tried again in this many turns, one a day.
TURNS = 10


def turn_now():
    return int(time.time() // 86_400) % TURNS


def turn_of(name):
    return zlib.crc32(name.encode()) % TURNS


def lines_of_git(*words):
    ran = subprocess.run(["git", "-C", ROOT, *words], stdout=subprocess.PIPE, stderr=subprocess.DEVNULL, text=True, check=False)
    return ran.stdout.splitlines() if ran.returncode == 0 else []


def base_of_change():
    """The commit that this change is made upon: the last one of origin/main that it has, or where that is its own, or
    there is none, the commit before."""
    head = lines_of_git("rev-parse", "HEAD")
    landed = lines_of_git("merge-base", "HEAD", "origin/main")
    return next(iter(landed if landed != head else []), "HEAD^")


def crates_of_change(base):
    """The crates of which this change has texts or mutants."""
    files = lines_of_git("diff", "--name-only", base, "--", "crates")
    files += lines_of_git("ls-files", "--others", "--exclude-standard", "crates")
    parts = (file.split("/") for file in files)
    return {part[1] for part in parts if len(part) > 3 and part[2] in (*PARTS, FOLDER)}


def is_known(entry, fingerprint):
    return entry is not None and entry.fingerprint == fingerprint


def in_order(sums, entries, changed, turn, kit):
    """The crates to try, in order: those of this change, the others without an entry of their present text, those whose
    turn it is first, and of the rest those whose turn it is, of an older kit first. `sums` has the fingerprint of each
    crate in its present text."""
    open_ones = [name for name in sums if not is_known(entries.get(name), sums[name])]
    of_change = sorted((name for name in open_ones if name in changed), key=size_of)
    others = [name for name in open_ones if name not in changed]
    others.sort(key=lambda name: ((turn_of(name) - turn) % TURNS, size_of(name)))
    again = [name for name in sums if name not in open_ones and turn_of(name) == turn]
    again.sort(key=lambda name: (entries[name].kit == kit, entries[name].day, size_of(name)))
    return [*of_change, *others, *again]


def counts(sums, entries, edits, results, kit):
    """The line that says how many of all mutants are known to be killed: those that were refused now, and those of the
    cache that were not tried. `edits` has the number of each crate's, `results` what came of those that were tried."""
    before = {name: len(entries[name].at_no_goal) for name in sums if is_known(entries.get(name), sums[name])}
    known = {name: edits[name] - no_goal for name, no_goal in before.items() if name not in results}
    older = sum(count for name, count in known.items() if entries[name].kit != kit)
    tried = sum(result.tried for result in results.values())
    killed = sum(known.values()) + sum(result.refused for result in results.values())
    total = sum(edits.values())
    by_older = f" ({older:,} of them by an older kit)" if older else ""
    return f"mutants: {killed:,} known to be killed{by_older}, {tried:,} tried now, {total - killed:,} not known to be"
