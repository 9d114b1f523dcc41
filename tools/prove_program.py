#!/usr/bin/env python3
"""tools/prove_program.py PROGRAM..: proves programs and the crates that they depend on, and builds them, as many at
once as the machine allows. (rt itself locks a crate's libraries while it checks the crate, so that it works on one at a
time.)

Prints a line for each crate when it is proved: the share of the whole that is proved, by the bytes that the prover
reads, and, after the first tenth, an estimate of the time that is left. What was built of this very text stays as it
is. Next to each program comes a line on its build (build_line.py). The prover's output goes to out/proving.log. The
status is 1 where a crate is refused; then the checks that run are completed, and no more are started.
"""
import contextlib
import functools
import hashlib
import os
import subprocess
import sys
import time

import build_line
import host
import prover
import repository

LOG = f"{repository.ROOT}/out/proving.log"

# The share of the whole before which the time that is left is not estimated.
FIRST_ESTIMATE = 0.1

USES = repository.crates()


def wanted(programs):
    """The programs and the crates below them, lowest first."""
    found = {}
    for program in programs:
        found.update(dict.fromkeys([*repository.crates_below(program, USES), program]))
    return [*found]


def files_read(crate):
    """The files that the prover reads of a crate, sorted."""
    found = []
    for part in repository.PARTS:
        for folder, _, names in os.walk(f"{repository.folder_of(crate)}/{part}"):
            found += [f"{folder}/{name}" for name in names]
    return sorted(found)


def bytes_read(crate):
    """The bytes that the prover reads of a crate."""
    return sum(os.path.getsize(file) for file in files_read(crate))


@functools.cache
def toolchain():
    return subprocess.run(["rt", "version"], stdout=subprocess.PIPE, text=True, check=True).stdout


def own_sum(crate):
    """A sum of what the prover reads of a crate, in its present text."""
    seen = hashlib.sha256(f"{crate}: {USES[crate]}".encode())
    for file in files_read(crate):
        text = repository.text_of(file)
        seen.update(f"{os.path.relpath(file, repository.ROOT)} {len(text)} {text}".encode())
    return seen.hexdigest()


def text_sum(crate, own=own_sum):
    """A sum of the toolchain and of what the prover reads of a crate and of those below it, by a sum of each of
    them."""
    parts = [own(each) for each in [*repository.crates_below(crate, USES), crate]]
    return hashlib.sha256(f"{toolchain()} {parts}".encode()).hexdigest()


def is_program(crate):
    return os.path.isfile(f"{repository.folder_of(crate)}/src/main.rt")


def built(crate):
    """What is built of a crate: its program, or its library."""
    return f"{repository.folder_of(crate)}/out/{crate}" if is_program(crate) else repository.library_of(crate)


def stamp(crate):
    """The file next to what is built that has the sum of its text."""
    return f"{os.path.dirname(built(crate))}/{crate}.of"


def is_up_to_date(crate, own):
    if not os.path.exists(built(crate)) or not os.path.isfile(stamp(crate)):
        return False
    return repository.text_of(stamp(crate)) == text_sum(crate, own)


def build_words(crate, jobs):
    """The command that proves a crate from nothing, over the libraries in crates/*/out/rlib, and builds it."""
    words = prover.command(crate, USES, "")
    words = [words[0], "build", *words[2 : words.index("--jobs")], "--jobs", str(jobs)]
    if is_program(crate):
        kit = os.path.dirname(os.path.dirname(words[0]))
        return [*words, "--toolchain", f"{kit}/toolchain", "-o", f"{built(crate)}.o"]
    return [*words, "--statements", "-o", built(crate)]


def link(crate, log):
    """Links a program that was built, and returns whether that went well."""
    kit = os.path.dirname(os.path.dirname(prover.command(crate, USES, "")[0]))
    words = [f"{kit}/bin/rattle-link", "--target", "x86_64-unknown-linux-gnu", "--toolchain", f"{kit}/toolchain"]
    words += ["-o", built(crate), f"{built(crate)}.o", f"{kit}/c/libos_c.a", f"{kit}/c/liblibc_c.a"]
    return subprocess.run(words, stdout=log, stderr=log, check=False).returncode == 0


def minutes(seconds):
    return f"{seconds / 60:.0f} minutes" if seconds >= 90 else f"{seconds:.0f} seconds"


class Proving:
    """What is left to be proved, what is being proved, and what is proved. `heights` has the bytes of the longest chain
    of crates above each."""

    def __init__(self, programs, log):
        crates = wanted(programs)
        self.below = {crate: {library for library in USES[crate] if library in USES} for crate in crates}
        self.sizes = {crate: bytes_read(crate) for crate in crates}
        self.heights = {}
        for crate in reversed(crates):
            above = [self.heights[other] for other in self.heights if crate in self.below[other]]
            self.heights[crate] = self.sizes[crate] + max(above, default=0)
        self.done = set()
        own = functools.cache(own_sum)
        for crate in crates:
            if self.below[crate] <= self.done and is_up_to_date(crate, own):
                self.done.add(crate)
        self.left = [crate for crate in crates if crate not in self.done]
        self.before = self.share()
        self.checks = {}
        self.sums = {}
        self.failed = []
        self.log = log
        self.began = time.monotonic()

    def start(self, max_jobs):
        """Starts the crates whose libraries are proved, the longest chain above first, which share the jobs that are
        free."""
        ready = [crate for crate in self.left if self.below[crate] <= self.done and not self.failed]
        ready.sort(key=self.heights.get, reverse=True)
        free = max_jobs - sum(jobs for jobs, _ in self.checks.values())
        for crate in ready[:free]:
            jobs = max(1, free // len(ready))
            self.left.remove(crate)
            os.makedirs(os.path.dirname(built(crate)), exist_ok=True)
            with contextlib.suppress(FileNotFoundError):
                os.remove(stamp(crate))
            build_line.remove(built(crate))
            self.sums[crate] = text_sum(crate)
            streams = {"stdin": subprocess.DEVNULL, "stdout": self.log, "stderr": self.log}
            words = build_words(crate, jobs)
            self.checks[crate] = jobs, subprocess.Popen(words, cwd=repository.folder_of(crate), **streams)

    def end(self):
        """Reports the crates whose check is completed."""
        for crate, (_, check) in [*self.checks.items()]:
            if check.poll() is None:
                continue
            del self.checks[crate]
            if check.returncode != 0 or is_program(crate) and not link(crate, self.log):
                self.failed.append(crate)
                print(f"  {crate}: REFUSED", flush=True)
                continue
            # (a text that was edited in the meantime is not the one that was proved)
            if text_sum(crate) == self.sums[crate]:
                with open(stamp(crate), "w", encoding="utf-8") as it:
                    it.write(self.sums[crate])
            self.done.add(crate)
            print(f"  {crate} proved{self.rest()}", flush=True)

    def share(self):
        return sum(self.sizes[crate] for crate in self.done) / sum(self.sizes.values())

    def rest(self):
        """The share of the whole that is proved, and an estimate of the time that is left."""
        share = self.share()
        if not FIRST_ESTIMATE <= share - self.before < 1 - self.before:
            return f" ({share:.0%})"
        left = (time.monotonic() - self.began) * (1 - share) / (share - self.before)
        return f" ({share:.0%}; the rest may take {minutes(left)})"


def main(programs):
    os.makedirs(os.path.dirname(LOG), exist_ok=True)
    with open(LOG, "w", encoding="utf-8") as log:
        proving = Proving(programs, log)
        max_jobs = host.parallelism()
        proving.start(max_jobs)
        while proving.checks:
            time.sleep(0.2)
            proving.end()
            proving.start(max_jobs)
    if proving.failed:
        print(f"refused: {', '.join(proving.failed)}; the reason is in out/proving.log", file=sys.stderr)
        return 1
    for program in programs:
        if is_up_to_date(program, own_sum):
            build_line.write(built(program), is_proved=True)
    print(f"all is proved, in {minutes(time.monotonic() - proving.began)}")
    return 0


if __name__ == "__main__":
    sys.exit(main(sys.argv[1:]))
