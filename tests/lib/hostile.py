"""Hostile bytes: frames that are mutated from real ones, and a client that sends them.

    Mutator(name, seed)         .mutated(): the bytes of the next frame, or of what is nearly one; .plain, .synchronized
    Received()                  .read(bytes): whole frames with rising numbers, else SystemExit; .kinds counts the types
    HostileClient(port, seed)   .run(count): sends this many bytes on connections that it breaks; .sent, .lines, .drops

The real frames are those of the repository's transcripts. A mutated body mostly has its right length and checksum,
so that it gets past the search for frames, and mostly the right CompIDs and number, so that it gets past the
session.
"""

import collections
import functools
import glob
import os
import random
import re
import select
import socket
import struct
import time

from fix import ROOT, SOH, expect, frame, shown

BODY = re.compile(rb"(?<![0-9A-Za-z=])35=([0-9A-Za-z]+)\|([^\n]*\|)?$")
HEADER = {b"8", b"9", b"10", b"35", b"49", b"56", b"34", b"52", b"43", b"122"}
LONGEST = 8192  # bytes of a body
HIGHEST = 900_000_000  # a number above which few may be sent, since only a new era leads back from it
MOST_ERAS = 900  # of the thousand that a session may have
SYNCHRONIZED = 25  # frames, after which a SequenceReset states the expected number
VALUES = [
    b"", b"0", b"1", b"2", b"-1", b"-0", b".", b"2.5", b"-0.25", b"2.5001", b"999999999", b"1000000000", b"1000000000000000", b"9" * 20, b"Y", b"N",
    b"x", b"\xff\x00\x80", b"=", b"35=D", b"8=FIXT.1.1", b"20250303-14:30:00", b"20250230-00:00:00", b"20250303-23:59:60.999999999", b"NONE", b"O1",
    b"Q1", b"R1", b"ALPHA", b"BETA", b"GAMMA", b"DELTA", b"EPSILON", b"SEF", b"IRS5Y", b"BASIS1Y", b"x" * 64, b"x" * 65, b"x" * 200, b"x" * 201,
]  # fmt: skip
TAGS = [b"0", b"1", b"034", b"999999999", b"1000000000", b"-5", b"x", b"", b"49", b"56", b"34", b"43", b"123", b"141"]
COUNTS = (b"146", b"268", b"453", b"552")
RARE = (b"2", b"4", b"5")  # types that ask for many resends, move the expected number or end the session
PIECE = 40  # frames at most that are sent at once
FRAME = re.compile(rb"8=FIXT\.1\.1\x019=([0-9]+)\x01")


@functools.cache
def real_bodies():
    """The bodies in the repository's transcripts, by type: each a list of tags and values without the header's."""
    places = glob.glob(os.path.join(ROOT, "crates", "*", "stdin")) + [os.path.join(ROOT, "examples", "order.fix")]
    found = {}
    for path in sorted(places):
        with open(path, "rb") as file:
            text = file.read().replace(SOH, b"|").replace(b"|10=", b"|\n10=").replace(b"|35=", b"|\n35=")
        for line in text.split(b"\n"):
            at = BODY.search(line)
            if at and len(line) < 1000:
                pieces = [tuple(piece.partition(b"=")[::2]) for piece in (at.group(2) or b"").split(b"|")[:-1]]
                found.setdefault(at.group(1), set()).add(tuple(piece for piece in pieces if piece[0] not in HEADER))
    return {kind: sorted(bodies) for kind, bodies in sorted(found.items())}


@functools.cache
def real_fields():
    """Each field of one of them."""
    return sorted({field for bodies in real_bodies().values() for body in bodies for field in body})


class Mutator:
    """The bytes of one sender, with its sequence numbers."""

    def __init__(self, name, seed):
        self.dice = random.Random(seed)
        self.bodies = real_bodies()
        self.fields = real_fields()
        self.usual = [kind for kind in self.bodies if kind not in RARE]
        self.head = b"\x0149=" + name + b"\x0156=SEF\x0134=%d\x0152=20250303-14:30:00\x01"
        self.number = 1  # of the next frame
        self.eras = 0  # that were begun, or may have been
        self.frames = 0
        self.since = 0  # frames since the last SequenceReset

    def plain(self, kind, text):
        """A right frame, under the next number."""
        body = b"35=" + kind + self.head % self.number + text
        self.number += 1
        return frame(body)

    def log_on(self, text=b"98=0\x01108=0\x011137=9\x01"):
        self.since = 0
        return self.plain(b"A", text)

    def synchronized(self):
        """A SequenceReset to the number after all that were sent."""
        self.number += 1
        self.since = 0
        return frame(b"35=4" + self.head % 1 + b"36=%d\x01" % self.number)

    def value(self):
        way = self.dice.random()
        if way < 0.5:
            return self.dice.choice(VALUES)
        if way < 0.9:
            return self.dice.choice(self.fields)[1]
        return self.dice.randbytes(self.dice.randrange(1, 90)).replace(SOH, b"x")

    def change(self, fields):
        """Changes a list of fields in one way."""
        dice = self.dice
        if not fields:
            fields.append(dice.choice(self.fields))
            return
        at = dice.randrange(len(fields))
        way = dice.randrange(12)
        if way == 0:
            del fields[at]
        elif way == 1:
            fields.insert(dice.randrange(len(fields) + 1), fields[at])
        elif way == 2:
            fields.insert(dice.randrange(len(fields)), fields.pop(at))
        elif way <= 5:
            fields[at] = (fields[at][0], self.value())
        elif way == 6:
            fields[at] = (dice.choice(TAGS), fields[at][1])
        elif way == 7:
            fields.insert(at, dice.choice(self.fields))
        elif way == 8:
            fields[at:at] = dice.choice(self.bodies[dice.choice(self.usual)])
        elif way == 9:
            fields[at:at] = fields[at : at + dice.randrange(1, 5)] * dice.randrange(1, 12)
        elif way == 10:
            places = [k for k, field in enumerate(fields) if field[0] in COUNTS]
            if places:
                fields[dice.choice(places)] = (dice.choice(COUNTS), b"%d" % dice.randrange(300))
        else:
            fields[at] = (fields[at][0], fields[at][1] * dice.randrange(2, 100))

    def body(self):
        dice = self.dice
        kind = dice.choice(self.usual)
        rare = dice.random()
        if rare < 0.008:
            kind = dice.choice(RARE)
        elif rare < 0.03:
            kind = self.value().replace(SOH, b"")
        fields = list(dice.choice(self.bodies.get(kind) or self.bodies[b"D"]))
        for _ in range(dice.choice((0, 1, 1, 1, 2, 2, 3, 6))):
            self.change(fields)
        if kind == b"2" and dice.random() < 0.9:
            # (a resend request for all since the day began is rare)
            fields = [(b"7", b"%d" % dice.randrange(1, 2000)), (b"16", b"%d" % dice.randrange(1, 2000))]
        body = b"35=" + kind + self.head % self.number + b"".join(tag + b"=" + value + SOH for tag, value in fields)
        while dice.random() < 0.04:
            at = dice.randrange(len(body) - 1)
            body = body[:at] + dice.randbytes(1) + body[at + 1 :]
        if dice.random() < 0.002:
            body += b"58=" + b"x" * (LONGEST - len(body) - 4 + dice.randrange(-1, 2)) + SOH
        return body

    def is_too_much(self, body):
        """Whether it may begin an era, or make one needed, after as many as there may be."""
        high = re.search(rb"\x01(?:34|36)=0*([0-9]{9,})\x01", body)
        # (Python makes no number of some thousand digits)
        is_high = high and (len(high.group(1)) > len(str(HIGHEST)) or int(high.group(1)) > HIGHEST)
        if b"\x01141=Y\x01" not in body and not is_high:
            return False
        if self.eras >= MOST_ERAS:
            return True
        self.eras += 1
        return False

    def mutated(self):
        """The bytes of the next frame, or of what is nearly one."""
        if self.since >= SYNCHRONIZED:
            return self.synchronized()
        self.since += 1
        self.frames += 1
        body = self.body()
        while len(body) > 2 * LONGEST or self.is_too_much(body):
            body = self.body()
        self.number += 1
        dice = self.dice
        way = dice.random()
        if way < 0.92:
            return frame(body)
        if way < 0.94:
            return frame(body, length=b"%06d" % len(body))
        if way < 0.95:
            return frame(body, length=b"%d" % max(0, len(body) + dice.randrange(-9, 10)))
        if way < 0.96:
            return frame(body, checksum=b"%03d" % dice.randrange(256))
        if way < 0.97:
            return frame(body)[: dice.randrange(len(body))]
        if way < 0.98:
            return b"8=FIXT.1.1\x019=%d\x0135=" % dice.randrange(9000) + frame(body)
        if way < 0.99:
            return dice.randbytes(dice.randrange(1, 300)) + frame(body)
        return frame(b"35=D\x0158=" + frame(body)) + frame(body)


class Received:
    """What a session writes: whole frames, whose numbers go on."""

    def __init__(self):
        self.unread = b""
        self.number = 0
        self.kinds = collections.Counter()
        self.last = b""

    def read(self, more):
        """Takes the whole frames of what came; the text of each after its length."""
        self.unread += more
        bodies = []
        while begun := FRAME.match(self.unread):
            end = begun.end() + int(begun.group(1))
            if len(self.unread) < end + 7:
                break
            expect("the end of a frame", self.unread[end : end + 7], b"10=%03d\x01" % (sum(self.unread[:end]) % 256))
            self.last = self.unread[begun.end() : end]
            self.take(self.last)
            bodies.append(self.last)
            self.unread = self.unread[end + 7 :]
        if len(self.unread) > 30 and not begun:
            raise SystemExit(f"no frame begins with {shown(self.unread[:80])}")
        return bodies

    def take(self, body):
        fields = dict(piece.partition(b"=")[::2] for piece in body.split(b"\x01")[:-1])
        self.kinds[fields[b"35"].decode("ascii")] += 1
        number = int(fields[b"34"])
        if b"43" in fields and b"122" in fields:
            if number > self.number:
                raise SystemExit(f"a message is repeated that was never sent: {shown(body)}")
            return
        if fields[b"35"] == b"A" and number == 1:
            self.number = 0
        expect(f"the number of {shown(body)}", number, self.number + 1)
        self.number = number


class ReceivedOnSeveral(Received):
    """What comes on connections that break: numbers go on from whatever comes first on each."""

    def take(self, body):
        if self.number is None:
            self.number = int(re.search(rb"\x0134=([0-9]+)\x01", body).group(1)) - 1
        super().take(body)


class HostileClient:
    """A sender on one port, which reconnects whenever it is dropped."""

    def __init__(self, port, seed):
        self.dice = random.Random(f"{seed} pieces")
        self.mutator = Mutator(b"ALPHA", f"{seed} serve")
        self.port = port
        self.sent = 0
        self.lines = 0
        self.drops = 0
        self.longest = 0.005  # seconds of the slowest answer of late
        self.received = ReceivedOnSeveral()

    def log_on(self):
        if self.mutator.number > HIGHEST:
            self.mutator.number = 1
            self.mutator.eras += 1
            return self.mutator.log_on(b"98=0\x01108=0\x011137=9\x01141=Y\x01")
        return self.mutator.log_on(b"98=0\x01108=0\x011137=9\x01")

    def receive(self, line, asked):
        """Reads until this is answered, or nothing more comes; whether the connection is up."""
        begun = time.monotonic()
        while select.select([line], [], [], max(0.01, 3 * self.longest))[0]:
            more = line.recv(65536)
            if not more:
                self.drops += 1
                return False
            for body in self.received.read(more):
                due = re.search(rb"expecting ([0-9]+) received", body)
                if due:
                    self.mutator.number = int(due.group(1))
                if asked in body:
                    self.longest = min(0.05, max(0.9 * self.longest, time.monotonic() - begun))
                    return True
        return True

    def connection(self, count):
        self.lines += 1
        self.received.unread = b""
        self.received.number = None
        with socket.create_connection(("127.0.0.1", self.port), timeout=30) as line:
            line.setsockopt(socket.IPPROTO_TCP, socket.TCP_NODELAY, 1)
            if self.dice.random() < 0.5:
                # (a connection that is reset when it is closed)
                line.setsockopt(socket.SOL_SOCKET, socket.SO_LINGER, struct.pack("ii", 1, 0))
            line.sendall(self.log_on())
            asked = b"\x0198=0\x01"
            while self.sent < count and self.receive(line, asked) and self.dice.random() > 0.005:
                piece = b"".join(self.mutator.mutated() for _ in range(self.dice.randrange(1, PIECE)))
                asked = b"\x01112=asked%d\x01" % self.sent
                piece += self.mutator.synchronized() + self.mutator.plain(b"1", asked[1:])
                cut = self.dice.randrange(len(piece))
                line.sendall(piece[:cut])
                line.sendall(piece[cut:])
                self.sent += len(piece)

    def run(self, count):
        while self.sent < count:
            try:
                self.connection(count)
            except (ConnectionResetError, BrokenPipeError):
                self.drops += 1
