#!/usr/bin/env python3
"""tools/build_line.py [--proved] [PROGRAM..]: prints a line on the build of programs, and writes it next to each of
them, into PROGRAM.build, which `venue_main --version` reads: the commit, whether crates/ is as it has it, the kit, and
whether they are proved. A program's own text cannot say so."""
import contextlib
import os
import subprocess
import sys

sys.dont_write_bytecode = True
import repository

# What programs are built of.
SOURCES = ["crates", "crates.txt", "HANDLES"]


def printed(*words):
    how = {"cwd": repository.ROOT, "stdout": subprocess.PIPE, "stderr": subprocess.DEVNULL, "text": True}
    return subprocess.run(words, check=True, **how).stdout


def sources():
    """The commit that the sources are of, and whether they are as it has them."""
    try:
        commit = printed("git", "rev-parse", "--short=12", "HEAD").strip()
        changed = printed("git", "status", "--porcelain", "--", *SOURCES).count("\n")
    except (OSError, subprocess.CalledProcessError):
        return "of no commit"
    return f"commit {commit}" + (f" with uncommitted changes (files: {changed})" if changed else "")


def line(is_proved):
    kit = printed("rt", "version").splitlines()[0]
    return f"{sources()}; {kit}; {'proved' if is_proved else 'not proved'}"


def write(program, is_proved):
    with open(f"{program}.build", "w", encoding="utf-8") as it:
        it.write(f"{line(is_proved)}\n")


def remove(program):
    """Before a program is built again."""
    with contextlib.suppress(FileNotFoundError):
        os.remove(f"{program}.build")


def main(words):
    is_proved = words[:1] == ["--proved"]
    for program in words[is_proved:]:
        write(program, is_proved)
    print(line(is_proved))


if __name__ == "__main__":
    main(sys.argv[1:])
