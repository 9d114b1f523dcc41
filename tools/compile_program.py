#!/usr/bin/env python3
"""tools/compile_program.py PROGRAM..: compiles programs as their sources stand, in parallel, by rt try: nothing is
proved.

A program goes to out/unproved/PROGRAM, with checks of memory compiled in, and a line on its build (build_line.py) next
to it. One that was compiled from this very text stays as it is. The status is 1 where a program is not compiled;
out/unproved/PROGRAM.log then says why."""
import functools
import os
import subprocess
import sys
import tempfile
import time
from concurrent.futures import ThreadPoolExecutor

import build_line
import prove_program
import repository

OUT = f"{repository.ROOT}/out/unproved"

# The seconds that a program may run before rt try ends it, and between two looks at what rt try has made.
MAX_RUN = 60
LOOK = 0.02

# The arguments with which a program opens a named pipe and waits there.
WAITS = {"venue_main": ["check", "--participants", "PIPE", "--instruments", "PIPE"], "sef_replay": ["PIPE"]}


def made(folder):
    """The program that rt try has linked in its temporary folder, or None: the linker gives it this name once it is
    whole."""
    for at, _, names in os.walk(folder):
        if "program" in names:
            return os.path.join(at, "program")
    return None


def compile_program(program):
    """Compiles a program, and returns whether that went well. rt try removes what it made once the program has ended,
    so the program is run up to a pipe that nobody writes to, linked to its place, and ended."""
    log = open(f"{OUT}/{program}.log", "w", encoding="utf-8")
    with log, tempfile.TemporaryDirectory(dir=OUT) as folder:
        pipe = f"{folder}/pipe"
        os.mkfifo(pipe)
        os.mkdir(f"{folder}/made")
        arguments = [pipe if word == "PIPE" else word for word in WAITS[program]]
        words = ["rt", "try", "--seconds", str(MAX_RUN), "--", *arguments]
        how = {"cwd": repository.folder_of(program), "env": {**os.environ, "TMPDIR": f"{folder}/made"}}
        trying = subprocess.Popen(words, stdin=subprocess.DEVNULL, stdout=log, stderr=log, **how)
        try:
            while trying.poll() is None:
                found = made(f"{folder}/made")
                if found:
                    os.replace(linked(found, folder), f"{OUT}/{program}")
                    return True
                time.sleep(LOOK)
        finally:
            trying.terminate()
            trying.wait()
    return False


def linked(file, folder):
    """Another name for a file, which stays once the file's own is gone."""
    os.link(file, f"{folder}/linked")
    return f"{folder}/linked"


def stamp(program):
    """The file that has the sum of the text that a program was compiled from."""
    return f"{OUT}/{program}.of"


def compile_stamped(program, text):
    """Compiles a program, whose text has this sum, where it is not up to date, and returns whether it is compiled."""
    built = f"{OUT}/{program}"
    if not all(map(os.path.isfile, (built, stamp(program)))) or repository.text_of(stamp(program)) != text:
        build_line.remove(built)
        if not compile_program(program):
            return False
        # (a text that was edited in the meantime is not the one that was compiled)
        if prove_program.text_sum(program) != text:
            return True
        with open(stamp(program), "w", encoding="utf-8") as it:
            it.write(text)
    build_line.write(built, is_proved=False)
    return True


def main(programs):
    os.makedirs(OUT, exist_ok=True)
    began = time.monotonic()
    own = functools.cache(prove_program.own_sum)
    texts = [prove_program.text_sum(program, own) for program in programs]
    with ThreadPoolExecutor(len(programs)) as pool:
        compiled = dict(zip(programs, pool.map(compile_stamped, programs, texts)))
    for program in programs:
        if not compiled[program]:
            print(f"{program}: not compiled; out/unproved/{program}.log says why", file=sys.stderr)
    if all(compiled.values()):
        print(f"compiled in {prove_program.minutes(time.monotonic() - began)}")
        return 0
    return 1


if __name__ == "__main__":
    sys.exit(main(sys.argv[1:]))
