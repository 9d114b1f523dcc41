"""Sessions of many participants in one thread: each keeps its FIXT session over one connection after the other, checks
what it receives at once, and records it.

    Hub()                       .turn(): reads, writes and sends what is due; .sessions; .run_until(condition, ..)
    Session(hub, place, name, port, heartbeat)
        .connect(), .break_line(hard), .log_out(), .send(kind, fields, key)
        .sent                   by number: (MsgType, fields, its moment), or None for a message of the session
        .taken                  the application messages received, by number: Taken
        .begin(items)           sends these (kind, fields, key) as answers come, WINDOW ahead

Checked at once: each frame's length and checksum, the header, the numbers (in order, each once, none missing on a
connection that lost nothing), a repeat against what it repeats, gap fills (no application message in them), Rejects
and Heartbeats by what caused them, the first answer to each message in the order of sending and within
Limits.answer seconds, and that a venue with a heartbeat is never silent for its interval and Limits.answer more.
"""

import collections
import os
import re
import select
import socket
import struct
import sys
import time

sys.path.insert(0, os.path.join(os.path.dirname(os.path.abspath(__file__)), "..", "lib"))
from fix import SOH, message, shown  # noqa: E402

BEGUN = re.compile(rb"8=FIXT\.1\.1\x019=([0-9]+)\x01")
HEADER = re.compile(r"35=([^|]+)\|49=SEF\|56=([^|]+)\|34=([0-9]+)\|52=([^|]{21})\|(?:43=Y\|122=([^|]{21})\|)?(.*)")
ANSWERED = re.compile(r"(?:^|\|)(11|693|262|45)=([^|]+)")
ANSWERED_QUOTE = re.compile(r"(?:^|\|)(117|131)=([^|]+)")
SESSION_TYPES = {"0", "1", "2", "3", "4", "5", "A"}
WINDOW = 16  # messages of a session that wait for their answers
PIECE = 16_384  # bytes that are read at once, few, so that no session waits long for its turn
RECEIVE_BUFFER = 4_096  # bytes, of a session that does not read
LAST = 12  # messages that a fault shows
PULSE = 0.1  # seconds between two looks at the clocks of all sessions
AGAIN = 0.2  # seconds until a connection that the venue ended before its Logon is tried again
KEEP_ALIVE = 0.7  # of its heartbeat, after which a session that sent nothing sends a Heartbeat

Taken = collections.namedtuple("Taken", "number kind text sent at")


class Reject(str):
    """The fields of a Reject after its 45, where a message has to get one."""


class Fault(SystemExit):
    """What is not as it must be: where, and what was expected and received."""


class Limits:
    answer = 30.0  # seconds to the first answer of a message


def now_text():
    """The present moment, in milliseconds, as SendingTime has it."""
    at = time.time()
    return time.strftime("%Y%m%d-%H:%M:%S", time.gmtime(at)) + f".{int(at * 1000) % 1000:03d}"


class Hub:
    """All sessions, and the time that their answers took."""

    def __init__(self):
        self.epoll = select.epoll()
        self.sessions = []
        self.by_file = {}
        self.pulse = 0.0
        self.greatest = 0.0  # seconds to an answer
        self.greatest_of = ""
        self.received = self.entries = 0  # messages, and entries of snapshots in them
        self.observers = []

    def turn(self, wait=0.01):
        for file, events in self.epoll.poll(wait):
            session = self.by_file.get(file)
            if session and session.file == file:
                if events & ~select.EPOLLOUT:
                    session.read()
                if events & select.EPOLLOUT:
                    session.flush()
        for session in self.sessions:
            session.pump()
        if time.monotonic() > self.pulse + PULSE:
            self.pulse = time.monotonic()
            for session in self.sessions:
                session.look_at_clock(self.pulse)
            for observer in self.observers:
                observer()

    def run_until(self, condition, seconds, what):
        deadline = time.monotonic() + seconds
        while not condition():
            if time.monotonic() > deadline:
                raise Fault(f"{what()}: not within {seconds} seconds")
            self.turn()

    def run_for(self, seconds):
        until = time.monotonic() + seconds
        while time.monotonic() < until:
            self.turn()


class Session:
    def __init__(self, hub, place, name, port, heartbeat):
        self.hub, self.place, self.name, self.port, self.heartbeat = hub, place, name, port, heartbeat
        self.sent = []
        self.rejected = {}  # number -> the Reject that the message has to get
        self.taken = []
        self.of_number = {}  # of a taken application message its index there
        self.expected = 1
        self.early = {}
        self.todo = collections.deque()  # iterators of (kind, fields, key) to send
        self.pending = {}  # what answers a message -> when it was sent
        self.is_leaving = False  # has sent a Logout, which was not answered yet
        self.is_mute = False  # sends nothing at all
        self.answers_tests_alone = False
        self.reads = True
        self.between_breaks = None  # messages, after which a connection is broken
        self.breaks = self.repeats = self.recovered = self.filled = self.tests = self.rejects = 0
        self.file = self.connection = None
        self.on_drop = self.again_at = None
        hub.sessions.append(self)

    # Connections

    def connect(self, reads=True, again=False):
        """Begins a connection and sends a Logon. One that does not read takes few bytes."""
        self.reads, self.again_at = reads, None
        if not again:
            self.began = time.monotonic()
        connection = socket.socket()
        if not reads:
            connection.setsockopt(socket.SOL_SOCKET, socket.SO_RCVBUF, RECEIVE_BUFFER)
        connection.settimeout(Limits.answer)
        connection.connect(("127.0.0.1", self.port))
        connection.setblocking(False)
        connection.setsockopt(socket.IPPROTO_TCP, socket.TCP_NODELAY, 1)
        self.connection, self.file = connection, connection.fileno()
        self.unread, self.out, self.is_blocked = b"", bytearray(), False
        self.is_up = False
        self.asked = set()  # the fields of TestRequests that were not answered yet
        self.fill_to = None  # the number up to which a gap is being filled
        self.since_break = 0
        self.last_heard = self.last_sent = time.monotonic()
        self.test_at = None
        self.hub.by_file[self.file] = self
        if reads:
            self.hub.epoll.register(self.file, select.EPOLLIN)
        self.send("A", f"98=0|108={self.heartbeat}|1137=9|")

    def read_again(self):
        """Reads a connection that was not read."""
        self.reads, self.last_heard = True, time.monotonic()
        self.connection.setsockopt(socket.SOL_SOCKET, socket.SO_RCVBUF, 64 * PIECE)
        self.hub.epoll.register(self.file, select.EPOLLIN)

    def break_line(self, hard=False):
        """Closes the connection, with what was not read of it; a hard break loses what is under way."""
        if self.connection is None:
            return
        if hard:
            self.connection.setsockopt(socket.SOL_SOCKET, socket.SO_LINGER, struct.pack("ii", 1, 0))
        if self.reads:
            self.hub.epoll.unregister(self.file)
        self.hub.by_file.pop(self.file, None)
        self.connection.close()
        self.connection = self.file = None
        self.is_up = False

    def was_dropped(self):
        """The venue ended the connection: a fault, unless somebody waits for it, or it still had the one before, after
        which it is tried again."""
        if self.on_drop is None and not self.is_up:
            self.break_line()
            self.again_at = time.monotonic() + AGAIN
            return
        if self.on_drop is None:
            raise self.fault("the venue closed the connection", "none was due", shown(self.unread))
        drop, self.on_drop = self.on_drop, None
        self.break_line()
        drop(self)

    def log_out(self):
        """Sends a Logout, after which the venue answers by one and ends the connection."""
        self.is_leaving, self.on_drop = True, Session.has_left
        self.send("5", "")

    def has_left(self):
        if self.is_leaving:
            raise self.fault("the end of the connection", "a Logout before it", "none")

    def fault(self, what, expected, received):
        """A fault, with the last messages that were sent and received."""
        sent = [f"34={k + 1} {each}" for k, each in enumerate(self.sent) if each][-LAST:]
        lines = [
            f"{self.name}: {what}",
            f"  expected: {expected}",
            f"  received: {received}",
            *(f"  sent {each}" for each in sent),
            *(f"  then received 34={each.number} {each.kind} {each.text}" for each in self.taken[-LAST:]),
            f"  expected next: {self.expected}, ahead of it: {sorted(self.early)[:LAST]}, being filled: {self.fill_to}",
            f"  awaits answers to {list(self.pending)[:LAST]}",
        ]
        return Fault("\n".join(lines))

    # Sending

    def send(self, kind, fields, key=None):
        """Numbers a message and sends it; without a connection it is lost, and the venue will ask for it. `key` is the
        field by which its first answer is known."""
        self.sent.append(None if kind in SESSION_TYPES else (kind, fields, now_text()))
        if kind == "1":
            self.asked.add(fields)
        if key is not None:
            self.pending[key] = time.monotonic()
        self.write(kind, len(self.sent), fields)

    def send_faulty(self, kind, fields, reject):
        """Sends a message that has a fault: it gets this Reject, and no row."""
        self.rejected[len(self.sent) + 1] = reject
        self.send(kind, fields)

    def write(self, kind, number, fields, first_sent=None):
        if self.connection is None:
            return
        again = f"43=Y|122={first_sent}|" if first_sent else ""
        self.out += message(kind, self.name, number, fields, now_text(), again)
        self.last_sent = time.monotonic()
        if len(self.out) > 60_000 and not self.is_blocked:
            self.flush()

    def flush(self):
        try:
            count = self.connection.send(self.out)
            del self.out[:count]
        except BlockingIOError:
            pass
        except (ConnectionResetError, BrokenPipeError):
            self.was_dropped()
            return
        if self.reads and bool(self.out) != self.is_blocked:
            self.is_blocked = bool(self.out)
            self.hub.epoll.modify(self.file, select.EPOLLIN | (select.EPOLLOUT if self.out else 0))

    def pump(self):
        """Sends more of what it has to do, and breaks the line where that is due."""
        if self.connection is None:
            return
        if self.is_up and not self.is_mute:
            while len(self.pending) < WINDOW and self.fill_to is None and self.send_next():
                self.since_break += 1
                if self.between_breaks and self.since_break >= self.between_breaks:
                    self.break_off()
                    return
        if self.out and not self.is_blocked:
            self.flush()

    def send_next(self):
        """Sends the next of what it has to do, and returns whether there was anything."""
        while self.todo:
            item = next(self.todo[0], None)
            if item is None:
                self.todo.popleft()
                continue
            if isinstance(item[2], Reject):
                self.send_faulty(*item)
            else:
                self.send(*item)
            return True
        return False

    def break_off(self):
        """Breaks the line and comes back; every other time with messages that were not written yet."""
        self.breaks += 1
        is_hard = self.breaks % 2 == 0
        if is_hard:
            for _ in range(WINDOW):
                self.send_next()
        else:
            self.flush()
        self.break_line(is_hard)
        self.connect()

    def begin(self, items):
        self.todo.append(iter(items))

    def is_idle(self):
        return not self.todo and not self.pending and self.is_up and self.fill_to is None

    def resend(self, number):
        """Sends again what was numbered from this number on, with gap fills for messages of the session."""
        while number <= len(self.sent):
            kept = self.sent[number - 1]
            if kept and number not in self.rejected:
                self.write(kept[0], number, kept[1], kept[2])
                self.repeats += 1
                number += 1
                continue
            after = number
            while after <= len(self.sent) and (self.sent[after - 1] is None or after in self.rejected):
                after += 1
            self.write("4", number, f"123=Y|36={after}|", now_text())
            number = after

    # Receiving

    def read(self):
        try:
            more = self.connection.recv(PIECE)
        except BlockingIOError:
            return
        except ConnectionResetError:
            more = b""
        if not more:
            self.was_dropped()
            return
        self.last_heard = time.monotonic()
        unread, at = self.unread + more, 0
        while self.connection:
            begun = BEGUN.match(unread, at)
            if begun is None:
                if len(unread) - at > 30:
                    raise self.fault("no frame", "8=FIXT.1.1|9=LENGTH|", shown(unread[at : at + 80]))
                break
            end = begun.end() + int(begun.group(1))
            if len(unread) < end + 7:
                break
            trailer = b"10=%03d\x01" % (sum(unread[at:end]) % 256)
            if unread[end : end + 7] != trailer:
                raise self.fault("the end of a frame", shown(trailer), shown(unread[at : end + 7]))
            self.receive(unread[begun.end() : end].replace(SOH, b"|").decode("ascii"))
            at = end + 7
        self.unread = unread[at:]

    def receive(self, body):
        found = HEADER.fullmatch(body)
        if found is None or found[2] != self.name:
            raise self.fault("the header", f"35=..|49=SEF|56={self.name}|34=..|52=..|", body)
        kind, number, sent, first_sent, text = found[1], int(found[3]), found[4], found[5], found[6]
        self.hub.received += 1
        if not self.is_up and kind != "A":
            raise self.fault("the first message of a connection", "35=A", body)
        if number < self.expected:
            self.receive_again(kind, number, first_sent, text, body)
        elif number > self.expected:
            self.receive_early(kind, number, (kind, sent, first_sent, text), body)
        else:
            self.take(number, kind, sent, first_sent, text)
            while self.expected in self.early:
                number = self.expected
                self.take(number, *self.early.pop(number))
        if self.fill_to is not None and self.expected > self.fill_to:
            self.fill_to = None

    def receive_again(self, kind, number, first_sent, text, body):
        """A message that was taken already: only as a repeat, and the same again."""
        if first_sent is None:
            raise self.fault("a number that is too low", self.expected, body)
        if kind == "4":
            self.filled += 1
            after = int(text.split("36=")[1].rstrip("|"))
            if any(each in self.of_number for each in range(number, min(after, self.expected))):
                raise self.fault("a gap fill over an application message", number, body)
            return
        first = self.taken[self.of_number[number]] if number in self.of_number else None
        if first is None or (first.kind, first.text, first.sent) != (kind, text, first_sent):
            raise self.fault("a repeat", first, body)

    def receive_early(self, kind, number, parts, body):
        """A message ahead of the expected number: only while the gap that a Logon showed is being filled."""
        if kind == "A" and not self.is_up:
            self.fill_to = number
            self.log_on_received(parts[3], body)
            self.send("2", f"7={self.expected}|16={0 if number % 2 else number - 1}|")
        elif self.fill_to is None:
            raise self.fault("a number is missing", self.expected, body)
        known = self.early.get(number)
        if known and known[0] == kind and kind not in "0A1245" and known[3] != parts[3]:
            raise self.fault("a repeat", known, body)
        self.early.setdefault(number, parts)

    def take(self, number, kind, sent, first_sent, text):
        """Takes the message of the expected number."""
        self.expected += 1
        if kind == "4":
            self.expected = int(text.split("36=")[1].rstrip("|"))
            self.filled += 1
            if first_sent is None or f"123=Y|36={self.expected}|" != text or self.expected <= number:
                raise self.fault("a SequenceReset", "a gap fill that leads on", text)
        elif kind == "A":
            if not self.is_up:
                self.log_on_received(text, text)
        elif kind == "0":
            self.heartbeat_received(text)
        elif kind == "1":
            self.test_received(text)
        elif kind == "2":
            first, last = (int(part.split("=")[1]) for part in text.rstrip("|").split("|"))
            if last != 0 or not 1 <= first <= len(self.sent):
                raise self.fault("a ResendRequest", f"7=1 to {len(self.sent)}, 16=0", text)
            self.resend(first)
        elif kind == "3":
            self.reject_received(text)
        elif kind == "5":
            if text or not self.is_leaving:
                raise self.fault("a Logout", "none with a text, and only after its own", text)
            self.is_leaving = False
        else:
            self.hub.entries += text.count("|278=") if kind == "W" else 0
            self.recovered += first_sent is not None
            self.of_number[number] = len(self.taken)
            self.taken.append(Taken(number, kind, text, first_sent or sent, time.time()))
            self.answer_received(kind, text)

    def log_on_received(self, text, body):
        if text != f"98=0|108={self.heartbeat}|1137=9|":
            raise self.fault("the Logon", f"98=0|108={self.heartbeat}|1137=9|", body)
        self.is_up = True

    def heartbeat_received(self, text):
        if text and text not in self.asked:
            raise self.fault("a Heartbeat", f"no 112, or that of one of {self.asked}", text)
        self.asked.discard(text)

    def test_received(self, text):
        if text != "112=TEST|" or not self.heartbeat:
            raise self.fault("a TestRequest", "112=TEST|", text)
        self.tests += 1
        self.test_at = time.monotonic()
        if not self.is_mute:
            self.send("0", text)

    def reject_received(self, text):
        number = int(text.split("|")[0].removeprefix("45="))
        self.rejects += 1
        expected = self.rejected.get(number, "no Reject")
        if text != f"45={number}|{expected}":
            raise self.fault(f"the answer to {number}", expected, text)

    def answer_received(self, kind, text):
        """Where this answers a message: it has to be the one sent first of those that wait, and in time."""
        found = ANSWERED.search(text)
        if found is None and kind in ("AI", "AG"):
            found = ANSWERED_QUOTE.search(text)
        key = found and f"{found[1]}={found[2]}"
        if key not in self.pending:
            return
        first = next(iter(self.pending))
        if first != key:
            raise self.fault("the first answer", f"one to {first}", f"{kind} {text}")
        took = time.monotonic() - self.pending.pop(key)
        if took > self.hub.greatest:
            self.hub.greatest, self.hub.greatest_of = took, f"{self.name} {key}"
        self.in_time(took, key)

    def in_time(self, took, key):
        if took > Limits.answer:
            sent = [each for each in self.sent[-4 * WINDOW :] if each and key in each[1]]
            raise self.fault(f"the answer to {sent or key}", f"within {Limits.answer} s", f"none in {took:.1f} s")

    # Time

    def look_at_clock(self, now):
        if self.pending:
            key = next(iter(self.pending))
            self.in_time(now - self.pending[key], key)
        if self.again_at is not None and now > self.again_at:
            self.connect(again=True)
        if self.again_at is not None or (self.connection and self.reads and not self.is_up):
            self.in_time(now - self.began, "its Logon")
        if self.connection is None or not self.reads or not self.is_up:
            return
        if self.heartbeat and now - self.last_heard > self.heartbeat + Limits.answer:
            raise self.fault("silence of the venue", f"a Heartbeat each {self.heartbeat} s", "nothing")
        elif self.heartbeat and not self.is_mute and not self.answers_tests_alone:
            if now - self.last_sent > KEEP_ALIVE * self.heartbeat:
                self.send("0", "")
