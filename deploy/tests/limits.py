#!/usr/bin/env python3
"""deploy/limits.nft, loaded in a network namespace of its own: what it drops, and what it lets pass.

usage: limits.py

Of one address eight connections stand at once, and a series passes up to its burst; then connections are dropped, and
counted. Another address, IPv6 and another port have nothing of that. Loaded again, it is as before.

Inside the namespace the script runs itself again, with --inside.
"""

import contextlib
import json
import os
import socket
import subprocess
import sys

sys.dont_write_bytecode = True
from programs import DEPLOY, Namespace, run  # noqa: E402

from fix import expect  # noqa: E402

PORT, OTHER = 9000, 8999
MOST, BURST, SERIES = 8, 20, 30
PATIENCE = 0.15  # seconds for a connection over the loopback


class Ports:
    """Listens at a port of either family."""

    def __init__(self):
        self.servers = {}
        for port in (PORT, OTHER):
            self.servers[port, False] = socket.create_server(("127.0.0.1", port), backlog=SERIES)
            self.servers[port, True] = socket.create_server(("::1", port), family=socket.AF_INET6, backlog=SERIES)

    def connected(self, source, port, count, stay):
        """How many of that many connections from an address pass, at once or one after the other."""
        is_ipv6 = ":" in source
        passed = 0
        with contextlib.ExitStack() as ends:
            for _ in range(count):
                client = socket.socket(socket.AF_INET6 if is_ipv6 else socket.AF_INET)
                client.settimeout(PATIENCE)
                client.bind((source, 0))
                try:
                    client.connect(("::1" if is_ipv6 else "127.0.0.1", port))
                except TimeoutError:
                    client.close()
                    continue
                passed += 1
                for each in (client, self.servers[port, is_ipv6].accept()[0]):
                    if stay:
                        ends.enter_context(each)
                    else:
                        each.close()
        return passed


def dropped():
    """The packets that were dropped."""
    found = json.loads(run("nft", "-j", "list", "counter", "inet", "venue_limits", "dropped"))
    return next(it["counter"]["packets"] for it in found["nftables"] if "counter" in it)


def inside():
    for _ in range(2):
        run("nft", "-f", os.path.join(DEPLOY, "limits.nft"))
    ports = Ports()
    for source in ("127.0.0.2", "127.0.0.3", "::1"):
        before = dropped()
        expect(f"connections of {source} at once", ports.connected(source, PORT, MOST + 2, True), MOST)
        expect(f"what was dropped of {source}", dropped() >= before + 2, True)
    expect("within the burst, one after the other", ports.connected("127.0.0.4", PORT, BURST, False), BURST)
    passed = ports.connected("127.0.0.4", PORT, SERIES, False)
    expect("after it not all pass, and some do", 0 < passed < SERIES, True)
    print(f"{MOST} of {MOST + 2} connections of one address stand; of {SERIES} after a burst {passed} pass")
    before = dropped()
    expect("at another port", ports.connected("127.0.0.4", OTHER, SERIES, False), SERIES)
    expect("what was dropped there", dropped(), before)
    print("connections past the limits of an address are dropped, and no others")


def main():
    if sys.argv[1:] == ["--inside"]:
        inside()
        return
    if len(sys.argv) != 1:
        raise SystemExit(__doc__)
    if not Namespace.is_possible():
        print("deploy/tests/limits: not run: no user may make a network namespace here")
        return
    again = ["sh", "-c", 'ip link set lo up && exec "$@"', "sh", sys.executable, os.path.abspath(__file__), "--inside"]
    raise SystemExit(subprocess.run([*Namespace.COMMAND, *again], check=False).returncode)


if __name__ == "__main__":
    main()
