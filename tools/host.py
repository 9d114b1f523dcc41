#!/usr/bin/env python3
"""tools/host.py [--speed]: prints how many checks of crates this machine runs at once: one per processor, as far as
memory allows. With --speed it proves one small crate from nothing, and prints how many times the seconds of docs/CI.md
this machine takes, in seconds of a processor: the minutes there times this are this machine's. Nothing else should
run."""
import os
import resource
import subprocess
import sys
import tempfile
import time

sys.dont_write_bytecode = True

# A check of a crate takes 1 to 4 GB at one job, and that of three programs 4.5 to 6 GB for a while.
MEMORY_OF_A_CHECK = 4_500_000_000

GROUP = "/sys/fs/cgroup"

# The crate that is timed, and its seconds on the machine whose minutes docs/CI.md has, with all processors busy.
TIMED = "ghost_history"
SECONDS = 22.0


def first_word(file):
    """The first word of a file of the system, or an empty text where there is no such file."""
    try:
        with open(file, encoding="utf-8") as it:
            return it.read().split()[0]
    except (OSError, IndexError):
        return ""


def processors():
    """The processors that this process may use, or fewer where its control group has a quota."""
    count = len(os.sched_getaffinity(0))
    quota = first_word(f"{GROUP}/cpu.max")
    if quota.isdigit():
        with open(f"{GROUP}/cpu.max", encoding="utf-8") as it:
            period = int(it.read().split()[1])
        count = min(count, max(1, int(quota) // period))
    return count


def free_memory():
    """The bytes of memory that are free, under the limit of the control group too."""
    with open("/proc/meminfo", encoding="utf-8") as it:
        rows = dict(line.split(":") for line in it)
    free = 1024 * int(rows["MemAvailable"].split()[0])
    limit, used = first_word(f"{GROUP}/memory.max"), first_word(f"{GROUP}/memory.current")
    if limit.isdigit() and used.isdigit():
        free = min(free, int(limit) - int(used))
    return free


def parallelism():
    """The number of checks to run at once, at least one."""
    return max(1, min(processors(), free_memory() // MEMORY_OF_A_CHECK))


def speed():
    """Prints how fast this machine proves a crate."""
    import prover
    import repository

    with tempfile.TemporaryDirectory(prefix="speed-") as kept:
        how = {"cwd": repository.folder_of(TIMED), "stdin": subprocess.DEVNULL, "stdout": subprocess.PIPE}
        began, before = time.monotonic(), used_by_children()
        ran = subprocess.run(prover.command(TIMED, repository.crates(), kept), stderr=subprocess.STDOUT, check=False, **how)
        took, used = time.monotonic() - began, used_by_children() - before
    if ran.returncode != 0:
        print(f"tools/host.py: {TIMED} is not proved, so this machine is not timed")
        return
    factor = f"{used / SECONDS:.2f} times the {SECONDS:.0f} of docs/CI.md"
    print(f"tools/host.py: {processors()} processors; {TIMED} takes {used:.1f} s of one, {factor} (by the clock {took:.1f} s)")


def used_by_children():
    """The seconds of a processor that the commands have taken that have ended."""
    used = resource.getrusage(resource.RUSAGE_CHILDREN)
    return used.ru_utime + used.ru_stime


if __name__ == "__main__":
    if sys.argv[1:] == ["--speed"]:
        speed()
    else:
        print(parallelism())
