#!/usr/bin/env python3
"""Runs the script of a trading day on a venue that is served over TCP; prints what its clients sent and received.

usage: day.py SCRIPT EXPECTED PORT COMMAND..

SCRIPT is written as for a stock QuickFIX (../interop/quickfix/initiator.cpp): a client logs on and out, breaks its
connection and comes back, sends a body, asks for messages again, and waits for one that has some fields. The
clients are the participants of ../../examples/participants.toml, at PORT and the next four. COMMAND serves them,
and is ended as in two_clients.py. A connection that is closed unanswered, as the venue takes the one before for alive,
is tried again. Each client keeps its session by FIXT 1.1: it numbers and keeps what it sends,
takes each application message once under the expected number, asks for those that it lost, and resends what it is
asked for, with gap fills for session messages.

What each client took is compared with the file EXPECTED, message by message: all fields but those of the frame, the
CompIDs, the number and the timestamps (8, 9, 10, 34, 43, 49, 52, 56, 62, 122).
"""

import contextlib
import difflib
import os
import socket
import subprocess
import sys
import threading
import time

sys.path.insert(0, os.path.join(os.path.dirname(os.path.abspath(__file__)), "..", "lib"))
from fix import (  # noqa: E402
    ANSWER_SECONDS,
    PARTICIPANTS,
    StopFile,
    await_listening,
    first_frame,
    message,
    shown,
    timestamp,
)

START_SECONDS = 600.0  # the venue may have to be built
TRIES = 50  # of a connection, one each 0.1 seconds
SESSION_TYPES = {"0", "1", "2", "3", "4", "5", "A"}
NOT_COMPARED = {"8", "9", "10", "34", "43", "49", "52", "56", "62", "122"}


class SessionClient:
    """A participant's side of its session, over one connection after the other."""

    def __init__(self, name, port):
        self.name = name
        self.port = port
        self.connection = None
        self.resets = False
        self.taken = []
        self.received = []
        self.begin_numbers()

    def begin_numbers(self):
        self.sent = []  # by number, from 1: an application message and its SendingTime, or None
        self.expected = 1
        self.early = {}

    def write(self, kind, number, fields, first_sent=None):
        """Sends a message under a number, where there is a connection; a resent one with its first SendingTime."""
        if self.connection is None:
            return
        again = f"43=Y|122={first_sent}|" if first_sent else ""
        sent = message(kind, self.name, number, fields, timestamp(), again)
        print(f"{self.name:7} > {shown(sent)}", flush=True)
        with contextlib.suppress(ConnectionError):
            self.connection.sendall(sent)

    def send(self, kind, fields):
        """Numbers and keeps a message, and sends it. Without a connection it is lost, and the venue will ask for it."""
        self.sent.append(None if kind in SESSION_TYPES else (kind, fields, timestamp()))
        self.write(kind, len(self.sent), fields)

    def log_on(self):
        self.connection = socket.create_connection(("127.0.0.1", self.port), timeout=ANSWER_SECONDS)
        self.connection.setsockopt(socket.IPPROTO_TCP, socket.TCP_NODELAY, 1)
        self.unread = b""
        self.asked = False
        self.is_answered = False
        if self.resets:
            self.begin_numbers()
        self.send("A", "98=0|108=0|" + ("141=Y|" if self.resets else "") + "1137=9|")

    def break_off(self):
        """Closes the connection, with what was not read of it."""
        self.connection.close()
        self.connection = None
        self.early = {}

    def resend(self, number):
        """Sends again what was numbered, from this number on."""
        while number <= len(self.sent):
            kept = self.sent[number - 1]
            if kept:
                kind, fields, first_sent = kept
                self.write(kind, number, fields, first_sent)
                number += 1
            else:
                after = number
                while after <= len(self.sent) and self.sent[after - 1] is None:
                    after += 1
                self.write("4", number, f"123=Y|36={after}|", timestamp())
                number = after

    def take(self, kind, fields):
        """Takes a message under the expected number, and those after it that came early."""
        self.expected = int(fields.get("36", 0)) if kind == "4" else self.expected + 1
        if kind not in SESSION_TYPES:
            self.taken.append("|".join(f"{tag}={value}" for tag, value in fields["all"] if tag not in NOT_COMPARED))
        if self.expected in self.early:
            self.take(*self.early.pop(self.expected))

    def receive(self):
        """Reads one message, and does what a session does with it."""
        found, self.unread = first_frame(self.unread)
        while found is None:
            found, self.unread = first_frame(self.unread + self.more())
        self.is_answered = True
        text = shown(found)
        print(f"{self.name:7} < {text}", flush=True)
        self.received.append("|" + text)
        pairs = [piece.split("=", 1) for piece in text.split("|")[:-1]]
        fields = {tag: value for tag, value in pairs}
        fields["all"] = pairs
        kind, number = fields["35"], int(fields["34"])
        if number == self.expected:
            self.take(kind, fields)
        elif number > self.expected:
            self.early[number] = (kind, fields)
            if not self.asked:
                self.asked = True
                self.send("2", f"7={self.expected}|16=0|")
        if kind == "2":
            self.resend(int(fields["7"]))

    def more(self):
        """Reads what comes, on a further connection where this one was closed unanswered."""
        for _ in range(TRIES):
            with contextlib.suppress(ConnectionError):
                more = self.connection.recv(4096)
                if more:
                    return more
            if self.is_answered:
                break
            time.sleep(0.1)
            self.connection.close()
            self.log_on()
        raise SystemExit(f"{self.name}: the venue closed the connection")

    def await_fields(self, text):
        """Reads until a message has all these fields; what was awaited before does not count."""
        pieces = ["|" + piece + "|" for piece in text.split("|") if piece]
        while True:
            while self.received:
                if all(piece in self.received[0] for piece in pieces):
                    self.received.pop(0)
                    return
                self.received.pop(0)
            if self.connection is None:
                self.log_on()
            try:
                self.receive()
            except socket.timeout:
                raise SystemExit(f"{self.name} did not receive {text}") from None


def run(lines, port):
    """Runs the lines of a script, and returns what each client took."""
    clients = {name: SessionClient(name, port + k) for k, name in enumerate(PARTICIPANTS)}
    for line in lines:
        line = line.strip()
        if not line or line.startswith("#"):
            print(line, flush=True)
            continue
        name, verb, *rest = line.split(" ", 2)
        client, rest = clients[name], "".join(rest)
        if verb == "logon":
            client.log_on()
        elif verb == "logout":
            client.send("5", "")
        elif verb == "break":
            client.break_off()
        elif verb == "resets":
            client.resets = rest == "yes"
        elif verb == "resend":
            first, last = rest.split()
            client.send("2", f"7={first}|16={last}|")
        elif verb == "send":
            kind, fields = rest.split("|", 1)
            client.send(kind.removeprefix("35="), fields)
        elif verb == "hears":
            client.await_fields(rest)
        else:
            raise SystemExit(f"no such line: {line}")
    return [f"{client.name} {taken}" for client in clients.values() for taken in client.taken]


def main():
    if len(sys.argv) < 5:
        raise SystemExit(__doc__)
    script, expected, port, command = sys.argv[1], sys.argv[2], int(sys.argv[3]), sys.argv[4:]
    stop_file = StopFile()
    venue = subprocess.Popen([*command, *stop_file.words], stderr=subprocess.PIPE, stdout=subprocess.PIPE, text=True)
    try:
        await_listening(venue.stderr, START_SECONDS)
        copying = threading.Thread(target=lambda: sys.stderr.writelines(venue.stderr), daemon=True)
        copying.start()
        with open(script, encoding="ascii") as lines:
            taken = run(lines, port)
        stop_file.end(venue)
        copying.join(10)  # (so that the closing line comes last)
    finally:
        if venue.poll() is None:
            venue.terminate()
    with open(expected, encoding="ascii") as lines:
        differences = list(difflib.unified_diff(lines.read().splitlines(), taken, expected, "taken", lineterm=""))
    if differences:
        raise SystemExit("\n".join(differences))
    print(venue.stdout.read(), end="")
    raise SystemExit(venue.returncode)


if __name__ == "__main__":
    main()
