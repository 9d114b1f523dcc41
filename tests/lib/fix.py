"""FIX frames, clients, served venues and waiting with a deadline, for the tests and the benchmarks.

A script takes it from its own folder by

    sys.path.insert(0, os.path.join(os.path.dirname(os.path.abspath(__file__)), "..", "lib"))
    from fix import Client, Files, Venue

Texts have `|` for SOH. What is not as expected ends the script by SystemExit, with both values.

Frames
    wire(text), shown(message)      a text's bytes, with SOH for `|`; and back, for printing
    frame(body, length, checksum)   the frame of a body, with its own length and checksum where none are given
    message(kind, sender, number, fields, sent, again)
                                    the frame of a message to the venue: MsgType, SenderCompID, MsgSeqNum, its fields
    timestamp()                     the present moment as SendingTime has it
    first_frame(unread)             a whole frame and what follows it, or None and the bytes
    fields_of(message)              its (tag, value) pairs, in order
    field(message, tag)             the value of the first field with this tag, or None

Clients
    Client(name, port, timeout, receive_buffer)     a participant's side of one session over one connection
        .send(kind, fields)         numbers a message and sends it; prints it, unless quietly=True
        .next_message()             the next frame; SystemExit where the venue closed the connection
        .await_field("150=F")       prints what comes, up to the first message with this field, which it returns
        .log_on(), .log_out(), .close()

Served venues
    Files(folder, more)             the files of examples/, with more instruments where a text of them is given
    Files.of(participants, instruments, names)      other files, which list these participants
        .words()                    the command-line options that name them
    Venue(program, files, port, *options, turns=ENDLESS, env=None)
        with Venue(..) as venue:    killed at the end where it is still up
        .await_start()              waits until each port listens, and returns the venue
        .log()                      all that it wrote to standard error so far
        .events(), .faults()        its events so far (below); the other lines, but for those of its start
        .is_up(), .stop()           stop: SIGKILL, and its end is awaited
        .end()                      ends it by its stop file, and returns its output
        .process, .port             the Popen; the first of its ports, one for each participant
    await_listening(stderr)         the same of a venue that was started otherwise
    StopFile()                      a stop file of its own: .words for the command line, .end(process)
    serve_command(program, files, port, *options, turns=ENDLESS)
    events_of(log), without_events(log)
                                    the event lines of a text, each as the dict of its keys; and the other lines

Waiting and comparing
    wait_until(condition, seconds, failure)     polls; SystemExit(failure) past the deadline
    free_ports(count, first)                    the first of this many ports in a row that nobody has
    expect(what, found, expected)
"""

import os
import re
import socket
import subprocess
import tempfile
import time

ROOT = os.path.normpath(os.path.join(os.path.dirname(os.path.abspath(__file__)), "..", ".."))
EXAMPLES = os.path.join(ROOT, "examples")
PARTICIPANTS = ("ALPHA", "BETA", "GAMMA", "DELTA", "EPSILON")  # of examples/participants.toml, a port each
SOH = b"\x01"
SENT = "20250303-14:30:00"  # a SendingTime for messages whose moment does not matter
ENDLESS = 1_000_000_000  # turns of a venue
ANSWER_SECONDS = 10.0  # for an answer
START_SECONDS = 60.0  # until a venue listens
END_SECONDS = 150.0  # until a venue that is stopped has ended: it may wait two minutes for a slow disk
# What a venue without a trail says at its start.
NO_TRAIL = "venue_main: no trail: "
# An event of a venue behind its fixed lines, with the moment in RFC 3339 UTC.
EVENT = re.compile(r"(?:venue_main: )?([0-9]{4}-[0-9]{2}-[0-9]{2}T[0-9:.]+Z) (.*)")
CHECKSUM = re.compile(rb"\x0110=[0-9]{3}\x01")


def expect(what, found, expected):
    if found != expected:
        raise SystemExit(f"{what}: {found!r}, and not {expected!r}")


def wait_until(condition, seconds, failure, pause=0.002):
    """Polls the condition; past the deadline ends the script with the failure: a text, or a function that gives one."""
    deadline = time.monotonic() + seconds
    while not condition():
        if time.monotonic() > deadline:
            raise SystemExit(failure() if callable(failure) else failure)
        time.sleep(pause)


def free_ports(count, first=17900):
    """The first of this many ports in a row that nobody has."""
    while first < 60000:
        taken = []
        try:
            for k in range(count):
                taken.append(socket.create_server(("127.0.0.1", first + k)))
            return first
        except OSError:
            first += count
        finally:
            for server in taken:
                server.close()
    raise SystemExit("no ports are free")


def wire(text):
    return text.replace("|", "\x01").encode("ascii")


def shown(message):
    return message.replace(SOH, b"|").decode("ascii", "replace")


def timestamp():
    return time.strftime("%Y%m%d-%H:%M:%S", time.gmtime())


def frame(body, length=None, checksum=None):
    """The frame of a body by FIXT 1.1, with its own length (9) and checksum (10) where none are given (bytes)."""
    head = b"8=FIXT.1.1\x019=" + (length or b"%d" % len(body)) + SOH + body
    return head + b"10=" + (checksum or b"%03d" % (sum(head) % 256)) + SOH


def message(kind, sender, number, fields, sent=SENT, again=""):
    """The frame of a message to the venue. `again` is what a resent message has before its SendingTime."""
    return frame(wire(f"35={kind}|49={sender}|56=SEF|34={number}|{again}52={sent}|{fields}"))


def first_frame(unread):
    """The first frame of these bytes, and what follows it; None and the bytes where none is whole."""
    end = CHECKSUM.search(unread)
    if end is None:
        return None, unread
    return unread[: end.end()], unread[end.end() :]


def fields_of(message):
    return [tuple(field.partition(b"=")[::2]) for field in message.split(SOH)[:-1]]


def field(message, tag):
    for found, value in fields_of(message):
        if found == b"%d" % tag:
            return value
    return None


class Client:
    """A participant's side of one session over one connection."""

    def __init__(self, name, port, timeout=ANSWER_SECONDS, receive_buffer=None):
        self.name = name
        self.number = 0  # of the last message sent
        self.unread = b""
        self.connection = socket.socket()
        if receive_buffer:
            self.connection.setsockopt(socket.SOL_SOCKET, socket.SO_RCVBUF, receive_buffer)
        self.connection.settimeout(timeout)
        self.connection.connect(("127.0.0.1", port))
        self.connection.setsockopt(socket.IPPROTO_TCP, socket.TCP_NODELAY, 1)

    def send(self, kind, fields, quietly=False):
        """Sends a message of this type under the next number, with the header before its fields."""
        self.number += 1
        sent = message(kind, self.name, self.number, fields, timestamp())
        if not quietly:
            print(f"{self.name:5} > {shown(sent)}", flush=True)
        self.connection.sendall(sent)

    def next_message(self):
        found, self.unread = first_frame(self.unread)
        while found is None:
            more = self.connection.recv(4096)
            if not more:
                raise SystemExit(f"{self.name}: the venue closed the line")
            found, self.unread = first_frame(self.unread + more)
        return found

    def has_whole_message(self):
        """Whether the next message came already."""
        return CHECKSUM.search(self.unread) is not None

    def await_field(self, text, quietly=False):
        """Prints each message up to the first that has this field, as `35=A`, and returns that one."""
        while True:
            received = self.next_message()
            if not quietly:
                print(f"{self.name:5} < {shown(received)}", flush=True)
            if text.encode("ascii") in received.split(SOH):
                return received

    def log_on(self, heartbeat=30):
        self.send("A", f"98=0|108={heartbeat}|1137=9|")
        self.await_field("35=A")

    def log_out(self):
        self.send("5", "")
        self.await_field("35=5")
        self.close()

    def close(self):
        self.connection.close()


def limit_order(identifier, side, quantity, symbol="IRS5Y", price="2.5"):
    """The fields of a limit order that was sent at the present moment."""
    return f"11={identifier}|55={symbol}|54={side}|38={quantity}|40=2|44={price}|60={timestamp()}|"


class Files:
    """The files of examples/; `more` is the text of further instruments, added to a copy in the folder."""

    @classmethod
    def of(cls, participants, instruments, names):
        files = cls()
        files.participants, files.instruments, files.names = participants, instruments, names
        return files

    def __init__(self, folder=None, more=""):
        self.names = PARTICIPANTS
        self.participants = os.path.join(EXAMPLES, "participants.toml")
        self.instruments = os.path.join(EXAMPLES, "instruments.toml")
        if more:
            with open(self.instruments, encoding="utf-8") as file:
                text = file.read()
            self.instruments = os.path.join(folder, "instruments.toml")
            with open(self.instruments, "w", encoding="utf-8") as copy:
                copy.write(text + more)

    def words(self):
        return ["--participants", self.participants, "--instruments", self.instruments]


class Venue:
    """A venue that is served in a process of its own. What it writes to standard error is kept in a file."""

    def __init__(self, program, files, port, *options, turns=ENDLESS, **how):
        self.port = port
        self.count = len(files.names)
        # (the venue writes by a handle of its own, and so at a position of its own)
        self.stderr = tempfile.NamedTemporaryFile(mode="r")
        self.stop_file = StopFile()
        command = serve_command(program, files, port, *options, *self.stop_file.words, turns=turns)
        with open(self.stderr.name, "w", encoding="utf-8") as log:
            how = {"stdin": subprocess.DEVNULL, "stdout": subprocess.PIPE, "stderr": log, "text": True, **how}
            self.process = subprocess.Popen(command, **how)

    def __enter__(self):
        return self

    def __exit__(self, *_fault):
        self.stop()

    def log(self):
        self.stderr.seek(0)
        return self.stderr.read()

    def events(self):
        return events_of(self.log())

    def faults(self):
        return "".join(line for line in without_events(self.log()).splitlines(True) if not is_of_start(line))

    def is_up(self):
        return self.process.poll() is None

    def listens(self):
        return self.log().count(" at 127.0.0.1:") == self.count

    def await_start(self, or_end=False, seconds=START_SECONDS):
        """Waits until all ports listen; or until the venue has ended, where that may be."""
        has_ended = False

        def is_over():
            nonlocal has_ended
            has_ended = not self.is_up()
            return self.listens() or has_ended

        wait_until(is_over, seconds, lambda: f"the venue does not listen: {self.log()}")
        if has_ended and not or_end and not self.listens():
            raise SystemExit(f"the venue does not listen: {self.log()}")
        return self

    def end(self, seconds=END_SECONDS):
        """Ends the venue by its stop file, unless it has ended, and returns what it printed."""
        self.stop_file.end(self.process, seconds)
        return self.process.stdout.read()

    def stop(self):
        if self.is_up():
            self.process.kill()
        self.process.wait()


def is_of_start(line):
    return " at 127.0.0.1:" in line or line.startswith(NO_TRAIL)


def serve_command(program, files, port, *options, turns=ENDLESS):
    return [program, "serve", *files.words(), "--port", str(port), "--turns", str(turns), *options]


def await_listening(stderr, seconds=START_SECONDS):
    """Prints a venue's standard error until it has named the port of each participant."""
    listening = 0
    deadline = time.monotonic() + seconds
    for line in stderr:
        print(line, end="", flush=True)
        listening += line.startswith("venue_main: ") and " at 127.0.0.1:" in line
        if listening == len(PARTICIPANTS):
            return
        if time.monotonic() > deadline:
            break
    raise SystemExit("the venue does not listen")


class StopFile:
    """A path of its own at which a file ends a venue."""

    def __init__(self):
        self.folder = tempfile.TemporaryDirectory()
        self.path = os.path.join(self.folder.name, "stop")
        self.words = ["--stop-file", self.path]

    def end(self, process, seconds=END_SECONDS):
        """Makes the file, and waits until the venue has ended."""
        with open(self.path, "w", encoding="ascii"):
            pass
        wait_until(lambda: process.poll() is not None, seconds, "the venue does not end by its stop file", 0.01)


def events_of(log):
    """The events of a text: of each line the values by key, `event` and `time` among them."""
    events = []
    for line in log.splitlines():
        found = EVENT.fullmatch(line)
        if found:
            words = [word.partition("=") for word in found[2].split(" ")]
            events.append({"time": found[1], **{key if sign else "event": value if sign else key for key, sign, value in words}})
    return events


def without_events(log):
    return "".join(line for line in log.splitlines(True) if not EVENT.fullmatch(line.rstrip("\n")))
