#!/usr/bin/env python3
"""Two participants trade on a venue that is served over TCP, and both conversations are printed.

usage: two_clients.py PORT [COMMAND..]

ALPHA is the participant at PORT and DELTA the fourth, at PORT + 3, as in examples/participants.toml. ALPHA buys 100
IRS5Y at 2.5; once its order is in the book DELTA sells 40 at 2.5, both receive the trade, and both log out. `>` is
what a client sent and `<` what it received, with | for SOH.

With COMMAND the venue is started by it, and ended by a stop file, which is added to its options. Then its last line is
printed.
"""

import os
import subprocess
import sys
import threading

sys.path.insert(0, os.path.join(os.path.dirname(os.path.abspath(__file__)), "..", "lib"))
from fix import Client, StopFile, await_listening, limit_order  # noqa: E402

START_SECONDS = 600.0  # the venue may have to be built


def trade(port):
    """Both clients, from Logon to Logout."""
    alpha = Client("ALPHA", port)
    alpha.log_on()
    alpha.send("D", limit_order("a1", 1, 100))
    alpha.await_field("150=0")
    delta = Client("DELTA", port + 3)
    delta.log_on()
    delta.send("D", limit_order("d1", 2, 40))
    delta.await_field("150=F")
    alpha.await_field("150=F")
    delta.log_out()
    alpha.log_out()


def main():
    if len(sys.argv) < 2:
        raise SystemExit(__doc__)
    port = int(sys.argv[1])
    command = sys.argv[2:]
    if not command:
        trade(port)
        return
    stop_file = StopFile()
    venue = subprocess.Popen([*command, *stop_file.words], stderr=subprocess.PIPE, stdout=subprocess.PIPE, text=True)
    try:
        await_listening(venue.stderr, START_SECONDS)
        copying = threading.Thread(target=lambda: sys.stderr.writelines(venue.stderr), daemon=True)
        copying.start()
        trade(port)
        stop_file.end(venue)
        copying.join(10)  # (so that the closing line comes last)
    finally:
        if venue.poll() is None:
            venue.terminate()
    print(venue.stdout.read(), end="")
    raise SystemExit(venue.returncode)


if __name__ == "__main__":
    main()
