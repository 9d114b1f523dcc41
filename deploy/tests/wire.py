#!/usr/bin/env python3
"""The record of the wire: whether it has each message that passed, and how tshark decodes it.

usage: wire.py VENUE_MAIN

In a network namespace deploy/keep_wire records while five clients trade a day (tests/e2e/day.py). deploy/read_wire then
prints each message that the clients sent and received, of each client in order; tshark decodes as many, none malformed.
deploy/pack_wire packs and signs them: they read the same, and a changed byte is found. A message in two packets is read
whole, bytes that are none are counted, and a ring drops its oldest files.

Inside the namespace the script runs itself again, with --inside.
"""

import os
import re
import signal
import socket
import subprocess
import sys
import tempfile
import time

sys.dont_write_bytecode = True
from programs import DEPLOY, Namespace, Programs, content, fails, run, script  # noqa: E402

from fix import PARTICIPANTS, Files, expect, message, serve_command, shown, wait_until  # noqa: E402

PORT = 7000
E2E = os.path.join(os.path.dirname(DEPLOY), "tests", "e2e")
MESSAGE = re.compile(r"^(?:\S+ )?([A-Z]+) +([<>]) (8=FIXT.*)$", re.MULTILINE)
DROPPED = re.compile(r"received/dropped on interface '[^']*': [0-9]+/([0-9]+)")
RING_BYTES = 6_000_000


def conversations(text):
    """What each client sent and received, in order, by its name and the sign."""
    found = {}
    for name, sign, message in MESSAGE.findall(text):
        found.setdefault((name, sign), []).append(message)
    return found


def record(programs, folder, files, **limits):
    """Starts the recorder; the process and its log."""
    log = os.path.join(folder, f"{time.monotonic_ns()}.log")
    command = [os.path.join(DEPLOY, "keep_wire"), files.participants, str(PORT), os.path.join(folder, "wire")]
    recorder = programs.start(command, log, env={**os.environ, **limits})
    wait_until(lambda: "File: " in content(log) or recorder.poll() is not None, 20, lambda: content(log))
    expect(f"the recorder ended: {content(log)}", recorder.poll(), None)
    time.sleep(0.5)
    return recorder, log


def end(recorder):
    time.sleep(1)
    recorder.send_signal(signal.SIGINT)
    recorder.wait(20)


def files_in(folder):
    wire = os.path.join(folder, "wire")
    return sorted(os.path.join(wire, name) for name in os.listdir(wire) if ".pcapng" in name)


def read(files, paths):
    ended = subprocess.run([os.path.join(DEPLOY, "read_wire"), files.participants, str(PORT), *paths], capture_output=True, text=True)
    return ended.stdout, ended.stderr.strip()


def is_within(part, whole):
    """Whether these messages are among the others, in this order."""
    rest = iter(whole)
    return all(any(message == other for other in rest) for message in part)


def day(programs, folder, files, venue_main):
    recorder, log = record(programs, folder, files)
    command = [sys.executable, os.path.join(E2E, "day.py"), os.path.join(E2E, "day.script"), os.path.join(E2E, "expected.messages")]
    printed = run(*command, str(PORT), *serve_command(venue_main, files, PORT))
    end(recorder)
    expect("packets that were dropped", DROPPED.findall(content(log)), ["0"])
    text, faults = read(files, files_in(folder))
    clients, wire = conversations(printed), conversations(text)
    for name in PARTICIPANTS:
        expect(f"what {name} sent", wire[name, ">"], clients[name, ">"])
        expect(f"whether all that {name} received is in the record", is_within(clients[name, "<"], wire[name, "<"]), True)
    count = sum(map(len, wire.values()))
    print(f"{count} messages of a day, as the clients have them; {faults or 'no other byte'}", flush=True)
    decode(folder, count)
    pack(folder, files, text)


def decode(folder, count):
    command = ["tshark", "-n", "-d", f"tcp.port=={PORT}-{PORT + 4},fix", "-Y", "fix", "-T", "fields"]
    command += ["-e", "fix.MsgType", "-e", "fix.checksum_bad", "-e", "_ws.malformed"]
    types = bad = 0
    for path in files_in(folder):
        for line in run(*command, "-r", path).splitlines():
            kinds, checksums, malformed = (line.split("\t") + ["", ""])[:3]
            types += len(kinds.split(","))
            bad += checksums.count("1") + checksums.count("True") + (malformed != "")
    expect("messages that tshark decodes, and malformed ones", (types, bad), (count, 0))
    print("tshark decodes as many, none malformed", flush=True)


def pack(folder, files, text):
    wire, key = (os.path.join(folder, name) for name in ("wire", "key"))
    run("ssh-keygen", "-q", "-t", "ed25519", "-N", "", "-f", key)
    with open(key + ".signers", "w", encoding="ascii") as file:
        file.write("venue " + " ".join(content(key + ".pub").split()[:2]) + "\n")
    env = {**os.environ, "SIGN_KEY": key, "SIGNERS": key + ".signers"}
    script("pack_wire", wire, env=env)
    script("sign", "--check", wire, env=env)
    packed = files_in(folder)
    expect("the packed record reads the same", read(files, packed)[0] == text, True)
    with open(packed[0], "r+b") as file:
        file.seek(200)
        old = file.read(1)
        file.seek(200)
        file.write(bytes([old[0] ^ 1]))
    fails(os.path.join(DEPLOY, "sign"), "--check", wire, env=env)
    print("packed and signed it reads the same; a changed byte is found", flush=True)


def pieces(programs, folder, files):
    """A message in two packets, and bytes that are none."""
    os.mkdir(folder)
    recorder, _ = record(programs, folder, files)
    sent = message("A", "ALPHA", 1, "98=0|108=30|1137=9|")
    server = socket.create_server(("127.0.0.1", PORT))
    client = socket.create_connection(("127.0.0.1", PORT))
    client.setsockopt(socket.IPPROTO_TCP, socket.TCP_NODELAY, 1)
    for piece in (b"abc", sent[:40], sent[40:]):
        client.sendall(piece)
        time.sleep(0.1)
    end(recorder)
    client.close()
    server.close()
    text, faults = read(files, files_in(folder))
    expect("a message in two packets", conversations(text), {("ALPHA", ">"): [shown(sent)]})
    expect("bytes that are none", faults, "read_wire: 3 bytes that are no message, 0 gaps")
    print("a message in two packets is whole, and bytes that are none are counted", flush=True)


def ring(programs, folder, files):
    """Three files of a megabyte, while six pass."""
    os.mkdir(folder)
    recorder, _ = record(programs, folder, files, FILES="3", MEGABYTES="1")
    sends = f"""
import socket, threading
server = socket.create_server(("127.0.0.1", {PORT}))
client = socket.create_connection(("127.0.0.1", {PORT}))
taken = server.accept()[0]
threading.Thread(target=lambda: client.sendall(bytes({RING_BYTES})), daemon=True).start()
count = 0
while count < {RING_BYTES}:
    count += len(taken.recv(65536))
"""
    run(sys.executable, "-c", sends)
    end(recorder)
    expect("files of a ring of three", len(files_in(folder)), 3)
    print("a ring of three files keeps three", flush=True)


def main():
    if len(sys.argv) == 3 and sys.argv[1] == "--inside":
        with tempfile.TemporaryDirectory() as folder, Programs() as programs:
            files = Files()
            day(programs, folder, files, sys.argv[2])
            pieces(programs, os.path.join(folder, "pieces"), files)
            ring(programs, os.path.join(folder, "ring"), files)
        print("the wire is kept")
        return
    if len(sys.argv) != 2:
        raise SystemExit(__doc__)
    if not Namespace.is_possible():
        print("deploy/tests/wire: not run: no user may make a network namespace here")
        return
    inside = ["sh", "-c", 'ip link set lo up && exec "$@"', "sh", sys.executable, os.path.abspath(__file__), "--inside", os.path.abspath(sys.argv[1])]
    raise SystemExit(subprocess.run([*Namespace.COMMAND, *inside], check=False).returncode)


if __name__ == "__main__":
    main()
