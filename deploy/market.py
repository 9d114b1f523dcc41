#!/usr/bin/env python3
"""The names of a participant file and the ports of a venue, for the scripts of this folder.

usage: market.py names PARTICIPANTS                 the participants' names, a line each
       market.py listening PARTICIPANTS PORT SECONDS  waits until the venue listens at each port from PORT on

A venue takes any printable name without a comma. Here a name is a file's name and a section of stunnel's configuration
too: of A-Z, a-z, 0-9 and `.`, `_`, `-`, with none of these three first, and no two that differ in case alone.
"""

import os
import re
import sys
import time
import tomllib

NAME = re.compile(r"[A-Za-z0-9][A-Za-z0-9._-]{0,63}")
HIGHEST_PORT = 65535
LISTENS = "0A"  # the state of a listening socket in /proc/net/tcp


def names_of(path):
    """The participants' names, in their order."""
    try:
        with open(path, "rb") as file:
            names = [entry["name"] for entry in tomllib.load(file)["participant"]]
    except (OSError, tomllib.TOMLDecodeError, KeyError, TypeError) as fault:
        raise SystemExit(f"{path}: no participant file: {fault}") from None
    for name in names:
        if not isinstance(name, str) or not NAME.fullmatch(name):
            raise SystemExit(f"{path}: {name!r} cannot be a file's name: use A-Z, a-z, 0-9, . _ - alone")
    if len({name.lower() for name in names}) < len(names):
        raise SystemExit(f"{path}: two names differ in case alone")
    return names


def ports_of(first, names):
    """The port of each name, from the first port on."""
    if not 1 <= first <= HIGHEST_PORT - len(names) + 1:
        raise SystemExit(f"{first}: no first port of {len(names)}")
    return {name: first + k for k, name in enumerate(names)}


def listening():
    """The ports of 127.0.0.1 at which somebody listens, in this network namespace."""
    with open("/proc/self/net/tcp", encoding="ascii") as table:
        rows = [line.split() for line in table][1:]
    return {int(row[1].split(":")[1], 16) for row in rows if row[3] == LISTENS and row[1].startswith("0100007F:")}


def await_listening(ports, seconds):
    """Waits without a connection; ends too where the process MAINPID of the environment has ended."""
    deadline = time.monotonic() + seconds
    while missing := ports - listening():
        if "MAINPID" in os.environ and not os.path.exists(f"/proc/{os.environ['MAINPID']}"):
            raise SystemExit("market.py: the venue has ended")
        if time.monotonic() > deadline:
            raise SystemExit(f"market.py: nobody listens at {min(missing)}")
        time.sleep(0.05)


def main(words):
    if words[:1] == ["names"] and len(words) == 2:
        print("\n".join(names_of(words[1])))
    elif words[:1] == ["listening"] and len(words) == 4:
        await_listening({*ports_of(int(words[2]), names_of(words[1])).values()}, float(words[3]))
    else:
        raise SystemExit(__doc__)


if __name__ == "__main__":
    main(sys.argv[1:])
