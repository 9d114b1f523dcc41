"""The cases of the certification pack: their files, a market for each, and the participants' side of them over TCP.

A file of cases/ is one case. Its head has a sentence and lines `shows:` (what of the rules it covers), `rule:` (the
sentence of docs/PROTOCOL.md), `source:` (the definition) and `market:`; then come the steps, behind the lines `set up`
and `case`:

    WHO sends BODY              a message; * is 0, 1, .. where it says `sends 200 times`, and the last is answered below
      WHO gets BODY             what the venue answers, without 8, 9, 49, 56, 34, 52 and 10: first the sender, then the
                                others, each in the order in which it comes to them
    wait SECONDS                what comes in this time is below

In a case of the recovery the connection ends, or the venue's process, and the participant logs on again:

    WHO disconnects             the connection ends
    WHO loses BODY              it ends before this message has arrived
    venue restarts              the process ends (SIGKILL), and begins again from its trail
    WHO logs on                 with the next number; what it lacks is requested, and comes again (43=Y)
    WHO resets                  tries that, and is answered below; then logs on with 141=Y

In a case of the session a body begins with 35 and 34, an answer has its 34, and there are two lines more:

    WHO disconnects
      WHO is disconnected       the venue closes the connection

`|` is SOH. <+30> is a moment, 30 seconds after the message was sent, or in an answer after the case began; <34> in an
answer is the number of the message that is answered, * any value. Other header fields may follow 34 in what is sent;
49=-, 34=- leave one out.
"""

import calendar
import concurrent.futures
import contextlib
import os
import re
import socket
import sys
import tempfile
import time

HERE = os.path.dirname(os.path.abspath(__file__))
sys.path.insert(0, os.path.join(HERE, "..", "lib"))
sys.dont_write_bytecode = True
from fix import ANSWER_SECONDS, ROOT, Client, Files, Venue, field, fields_of  # noqa: E402
from fix import first_frame, frame, free_ports, message, timestamp, wire  # noqa: E402

CASES = os.path.join(HERE, "cases")
MARKETS = os.path.join(HERE, "markets")
FOLDERS = "order cancel replace snapshot request response quote withdrawal cross due reply recovery session".split()
HEADER = {"8", "9", "10", "35", "49", "56", "34", "52"}
SLOW_SECONDS = 60  # for the answers to a thousand messages
LATE = 2.5  # seconds by which a moment may differ from a case's
PORTS = 14  # of a venue
FIRST_PORT = 20000
PROGRAM = os.path.join(ROOT, "crates/venue_main/out/venue_main")
QUIET = 0.6  # seconds after which nothing more comes in a case of the session


class Failure(Exception):
    """What was not as a case has it."""


class Step:
    """A message that somebody sends, or a time that passes, with what comes then."""

    def __init__(self, who, verb, text="", times=1):
        self.who, self.verb, self.text, self.times = who, verb, text, times
        self.answers = []

    def line(self):
        if self.verb == "wait":
            return f"wait {self.text}"
        count = f"{self.times} times " if self.times > 1 else ""
        return f"{self.who} {self.verb} {count}{self.text}".rstrip()


def step_of(line):
    who, _, rest = line.partition(" ")
    if who == "wait":
        return Step("", "wait", rest)
    found = re.fullmatch(r"(sends|loses|disconnects|logs on|resets|restarts)(?: ([0-9]+) times)? ?(.*)", rest)
    if not found:
        raise SystemExit(f"tests/certify: no such step: {line}")
    return Step(who, found[1], found[3], int(found[2] or 1))


class Case:
    """A case: what it shows, and its steps; those of `setup` come first."""

    def __init__(self, name, sentence, shows, rule, source, market="six"):
        self.name, self.sentence, self.shows, self.rule = name, sentence, shows, rule
        self.source, self.market = source, market
        self.setup, self.steps = [], []

    def is_session(self):
        return self.name.startswith("session/")

    def is_recovery(self):
        return self.name.startswith("recovery/")

    def is_timed(self):
        """Whether time passes in it."""
        return any(step.verb == "wait" for step in self.all_steps())

    def all_steps(self):
        return self.setup + self.steps

    def rules_steps(self):
        """The steps as the rules see them: nothing is lost, and what comes again came at the message before."""
        found = []
        for step in self.all_steps():
            if step.verb in ("sends", "loses", "wait"):
                found.append(Step(step.who, step.verb.replace("loses", "sends"), step.text, step.times))
            found[-1].answers += [re.sub(r"\|43=Y\|122=\*\|", "|", it) for it in step.answers if " gets 35=5|" not in it]
        return found

    def text(self):
        lines = [self.sentence, *(f"shows: {it}" for it in self.shows), *(f"rule: {it}" for it in self.rule)]
        lines += [f"source: {self.source}", f"market: {self.market}"]
        for title, steps in (("set up", self.setup), ("case", self.steps)):
            if steps:
                lines += ["", title]
            for step in steps:
                lines += [step.line(), *(f"  {answer}" for answer in step.answers)]
        return "\n".join(lines) + "\n"


def read_case(name):
    with open(os.path.join(CASES, name), encoding="ascii") as file:
        head, _, rest = file.read().partition("\n\n")
    sentence, *lines = head.splitlines()
    found = {}
    for line in lines:
        word, _, text = line.partition(": ")
        found.setdefault(word, []).append(text)
    case = Case(name, sentence, found["shows"], found.get("rule", []), found["source"][0], found["market"][0])
    steps = None
    for line in rest.splitlines():
        if line in ("set up", "case"):
            steps = case.setup if line == "set up" else case.steps
        elif line.startswith("  "):
            steps[-1].answers.append(line[2:])
        elif line:
            steps.append(step_of(line))
    return case


def place_of(name):
    """The folders in their order; in a list the causes alone, and then two at once."""
    folder, _, rest = name.partition("/")
    return FOLDERS.index(folder), "_before_" in rest, [int(it) if it.isdigit() else 0 for it in re.findall(r"[0-9]+", rest)], rest


def names():
    return sorted((f"{it}/{name}" for it in os.listdir(CASES) for name in os.listdir(os.path.join(CASES, it))), key=place_of)


def chosen(words):
    """The names that are asked for, or that begin so, as `order`; all where none are."""
    found = [name for name in names() if not words or any(name == it or name.startswith(f"{it}/") for it in words)]
    if not found:
        raise SystemExit(f"tests/certify: there is no case {' '.join(words)}")
    return found


def script_of(cases, name="ALPHA"):
    """The cases as a script of the QuickFIX client of tests/interop/quickfix: what it sends in each, and waits for."""
    yield f"{name} logon\n{name} hears 35=A"
    for case in cases:
        yield f"# {case.name}"
        for step in case.all_steps():
            if step.who == "ALPHA" and step.verb in ("sends", "loses"):
                yield f"{name} send {step.text.replace('ALPHA', name)}"
            for it in step.answers:
                who, _, text = it.partition(" gets ")
                # (the client takes 35=AI for a Logon, 35=A, and waits for the session)
                fields = re.sub(r"^35=A[IG]\||\|(45|62|122)=[^|]*", "", text).rstrip("|")
                if who == "ALPHA":
                    yield f"{name} hears {fields.replace('ALPHA', name)}"
            if step.verb == "resets":
                yield f"{name} resets yes\n{name} hears 35=A|34=1|141=Y\n{name} resets no"
    yield f"{name} ends"


def files_of(market):
    participants = os.path.join(MARKETS, f"{market}.participants.toml")
    with open(participants, encoding="utf-8") as file:
        listed = re.findall(r'(?m)^name = "(.*)"', file.read())
    return Files.of(participants, os.path.join(MARKETS, f"{market}.instruments.toml"), listed)


def moment(at):
    return time.strftime("%Y%m%d-%H:%M:%S", time.gmtime(at)) + f".{int(at * 1000) % 1000:03d}"


def seconds_of(value):
    """The moment of a UTC timestamp, or None."""
    found = re.fullmatch(r"([0-9]{8}-[0-9:]{8})\.([0-9]{3})", value)
    if not found:
        return None
    return calendar.timegm(time.strptime(found[1], "%Y%m%d-%H:%M:%S")) + int(found[2]) / 1000


def with_moments(text, at):
    return re.sub(r"<([+-][0-9.]+)>", lambda found: moment(at + float(found[1])), text)


def pieces_of(text):
    return [tuple(piece.partition("=")[::2]) for piece in text.split("|")[:-1]]


def answer_text(received, header):
    """What a message from the venue has, without its header but for these tags."""
    pieces = [(tag.decode(), value.decode("ascii", "replace")) for tag, value in fields_of(received)]
    return "".join(f"{tag}={value}|" for tag, value in pieces if tag == "35" or tag in header or tag not in HEADER)


def general(text, number, began):
    """An answer as a file has it: its moments since the case began, and the number of the message answered."""
    pieces = []
    for tag, value in pieces_of(text):
        at = seconds_of(value)
        if at is not None:
            value = "*" if tag == "122" else f"<{round(at - began):+d}>"
        elif tag == "45" and value == str(number):
            value = "<34>"
        pieces.append(f"{tag}={value}|")
    return "".join(pieces)


def is_same_value(tag, wanted, value, number, began):
    if wanted in ("*", value) or (wanted == "<34>" and value == str(number)):
        return True
    asked = re.fullmatch(r"<([+-][0-9.]+)>", wanted)
    at = seconds_of(value)
    return bool(asked) and at is not None and abs(at - began - float(asked[1])) <= LATE


def first_difference(wanted, found, number, began):
    """The first field of an answer that is not as the file has it, in words, or None."""
    expected, came = pieces_of(wanted), pieces_of(found)
    for place, (tag, value) in enumerate(expected):
        if place >= len(came):
            return f"{tag}={value} is missing"
        if came[place][0] != tag or not is_same_value(tag, value, came[place][1], number, began):
            return f"{came[place][0]}={came[place][1]} in the place of {tag}={value}"
    if len(came) > len(expected):
        return f"{came[len(expected)][0]}={came[len(expected)][1]} is too much"
    return None


class Participant(Client):
    """One of the participants on a served market."""

    received = 0  # the number of the last message in order
    lost = None  # the message that did not arrive

    def log_on_quietly(self, fields=""):
        self.send("A", f"98=0|108=30|1137=9|{fields}", quietly=True)
        return self.await_field("35=A", quietly=True)

    def next_message(self):
        found = super().next_message()
        if field(found, 43) is None:
            self.received = int(field(found, 34))
        return found

    def send_body(self, body):
        kind, _, fields = body.partition("|")
        self.send(kind.partition("=")[2], with_moments(fields, time.time()), quietly=True)

    def logged_on_again(self, port):
        """The participant on another connection, and what it received again."""
        other = Participant(self.name, port, SLOW_SECONDS)
        other.number, expected = self.number, self.received + 1
        number = int(field(other.log_on_quietly(), 34))
        if self.lost:
            other.send_again(self.lost)
        found = []
        if number > expected:
            other.send("2", f"7={expected}|16={number - 1}|", quietly=True)
            while len(found) < number - expected:
                found.append(other.await_field("43=Y", quietly=True))
        return other, found

    def send_again(self, body):
        """Answers the venue's request for what was lost: the message, and a gap fill over the Logon."""
        self.await_field("35=2", quietly=True)
        kind, _, fields = body.partition("|")
        again = f"43=Y|122={timestamp()}|"
        lost = message(kind.partition("=")[2], self.name, self.number - 1, fields, timestamp(), again)
        self.connection.sendall(lost + message("4", self.name, self.number, f"123=Y|36={self.number + 1}|", timestamp(), again))

    def tried_to_log_on(self, port):
        """What answers a Logon with the next number, up to the end of the connection."""
        other = Participant(self.name, port, SLOW_SECONDS)
        other.number = self.number
        other.send("A", "98=0|108=30|1137=9|", quietly=True)
        found = []
        with contextlib.suppress(SystemExit, ConnectionError):
            while True:
                found.append(other.next_message())
        other.close()
        return found

    def flush(self, label):
        """Asks for a book that is not there. The answer comes after all that the venue owed before."""
        self.send("V", f"262={label}|263=0|264=0|267=1|269=0|146=1|55=none|", quietly=True)

    def received_before(self, label):
        """The messages before the answer to that."""
        found = []
        end = [b"35=Y", f"262={label}".encode()]
        while True:
            received = self.next_message()
            pieces = received.split(b"\x01")
            if all(it in pieces for it in end):
                return found
            if field(received, 35) not in (b"0", b"1"):
                found.append(received)


class RulesRun:
    """The steps of a case of the rules on a venue: what each participant is answered."""

    def __init__(self, port, names, restart=None):
        self.restart = restart
        self.ports = {name: port + place for place, name in enumerate(names)}
        self.people = {name: Participant(name, it, SLOW_SECONDS) for name, it in self.ports.items()}
        self.away = {}
        for it in self.people.values():
            it.log_on_quietly()
        self.began = time.time()
        self.flushes = 0
        self.number = 0

    def collected(self, first):
        """What everybody was sent since the last time; the sender is asked first."""
        self.flushes += 1
        label = f"flush{self.flushes}"
        order = [first] * bool(first) + [name for name in self.people if name != first]
        found = {}
        if first:
            self.people[first].flush(label)
            found[first] = self.people[first].received_before(label)
        for name in order[bool(first):]:
            self.people[name].flush(label)
        for name in order[bool(first):]:
            found[name] = self.people[name].received_before(label)
        return [f"{name} gets {answer_text(it, ())}" for name in order for it in found[name]]

    def leave(self, who):
        self.away[who] = self.people.pop(who)
        self.away[who].close()
        time.sleep(0.1)  # (so that the venue sees the end before another connection)

    def begin_again(self):
        """The venue's process is killed, and begins again; the others log on with 141=Y."""
        self.restart()
        for name, it in self.people.items():
            it.close()
            self.people[name] = Participant(name, self.ports[name], SLOW_SECONDS)
            self.people[name].log_on_quietly("141=Y|")

    def recover(self, step):
        """A step of a case of the recovery."""
        who = step.who
        if step.verb == "disconnects":
            self.leave(who)
        elif step.verb == "loses":
            self.people[who].number += 1
            self.people[who].lost = step.text
            self.leave(who)
        elif step.verb == "restarts":
            self.leave("ALPHA")
            self.begin_again()
        elif step.verb == "logs on":
            lost = self.away[who].lost
            self.people[who], found = self.away.pop(who).logged_on_again(self.ports[who])
            self.number = self.people[who].number - bool(lost)
            return [f"{who} gets {answer_text(it, ())}" for it in found] + self.collected(who)
        elif step.verb == "resets":
            found = self.away.pop(who).tried_to_log_on(self.ports[who])
            self.people[who] = Participant(who, self.ports[who], SLOW_SECONDS)
            self.people[who].log_on_quietly("141=Y|")
            return [f"{who} gets {answer_text(it, ())}" for it in found]
        return []

    def run(self, step):
        """The answers to a step."""
        if step.verb == "wait":
            time.sleep(float(step.text))
            return self.collected(None)
        if step.verb != "sends":
            return self.recover(step)
        sender = self.people[step.who]
        for k in range(step.times - 1):
            sender.send_body(step.text.replace("*", str(k)))
        if step.times > 1:
            self.collected(step.who)
        sender.send_body(step.text.replace("*", str(step.times - 1)))
        self.number = sender.number
        return self.collected(step.who)

    def close(self):
        for it in self.people.values():
            it.close()


class SessionRun:
    """The steps of a case of the session on a venue."""

    def __init__(self, port, names, restart=None):
        self.restart = restart
        self.port, self.names = port, names
        self.lines = {}
        self.unread = {}
        self.began = time.time()
        self.number = 0

    def line(self, who):
        if who not in self.lines:
            port = self.port + self.names.index(who)
            self.lines[who] = socket.create_connection(("127.0.0.1", port), timeout=ANSWER_SECONDS)
            self.lines[who].setsockopt(socket.IPPROTO_TCP, socket.TCP_NODELAY, 1)
            self.unread[who] = b""
        return self.lines[who]

    def next(self, who, seconds):
        """The next message; None where the connection ends, and "" where nothing comes in this time."""
        deadline = time.monotonic() + seconds
        while True:
            found, self.unread[who] = first_frame(self.unread[who])
            if found:
                return found
            self.lines[who].settimeout(max(0.001, deadline - time.monotonic()))
            try:
                more = self.lines[who].recv(65536)
            except TimeoutError:
                return ""
            except ConnectionError:
                return None
            if not more:
                return None
            self.unread[who] += more

    def answers(self, step, wanted):
        """What comes; as many answers as are wanted, or until nothing more comes."""
        found = []
        seconds = float(step.text) if step.verb == "wait" else QUIET
        deadline = time.monotonic() + (ANSWER_SECONDS if wanted else seconds)
        for who in [step.who] if step.who else [*self.lines]:
            while who in self.lines and (wanted is None or len(found) < wanted):
                received = self.next(who, deadline - time.monotonic() if wanted or not step.who else QUIET)
                if received == "":
                    break
                if received is None:
                    self.lines.pop(who).close()
                    found.append(f"{who} is disconnected")
                else:
                    found.append(f"{who} gets {answer_text(received, ('34',))}")
        return found

    def run(self, step, wanted=None):
        if step.verb == "disconnects":
            self.lines.pop(step.who).close()
            time.sleep(0.1)  # (so that the venue sees the end before another connection)
            return []
        if step.verb == "sends":
            for k in range(step.times):
                self.line(step.who).sendall(raw_frame(step.who, step.text.replace("*", str(k))))
                if k < step.times - 1:
                    self.next(step.who, ANSWER_SECONDS)
            found = re.search(r"\|34=([0-9]+)\|", step.text)
            self.number = int(found[1]) if found else 0
        if wanted == 0:
            time.sleep(float(step.text) if step.verb == "wait" else 0)
            return []
        return self.answers(step, wanted)

    def close(self):
        for it in self.lines.values():
            it.close()


def raw_frame(who, text):
    """The frame of a text as a case of the session has it: 49, 56 and 52 are put in where it has none."""
    if text.startswith("8="):
        return wire(with_moments(text, time.time()))
    pieces = pieces_of(with_moments(text, time.time()))
    tags = [tag for tag, _ in pieces]
    head = [pieces.pop(0)]
    for tag, value in (("49", who), ("56", "SEF"), ("34", None), ("52", timestamp())):
        if tag in tags:
            head.append(pieces.pop([it for it, _ in pieces].index(tag)))
        elif value:
            head.append((tag, value))
    return frame(wire("".join(f"{tag}={value}|" for tag, value in head + pieces if value != "-")))


def run_case(case, port, compare, restart=None):
    """Runs a case on the venue at this port. `compare(step, found, number, began)` is called after each step."""
    names = files_of(case.market).names
    run = (SessionRun if case.is_session() else RulesRun)(port, names, restart)
    try:
        for step in case.all_steps():
            if case.is_session() and compare is not record:
                found = run.run(step, len(step.answers))
            else:
                found = run.run(step)
            compare(step, found, run.number, run.began)
    finally:
        run.close()


@contextlib.contextmanager
def served(program, case, port):
    """A venue for a case, with a trail in a case of the recovery. Gives what restarts it, and what fails where it has
    ended."""
    venue = None

    def begin():
        nonlocal venue
        if venue:
            venue.stop()
        venue = Venue(program, files_of(case.market), port, *options)
        venue.await_start()

    def check_up():
        if not venue.is_up():
            raise Failure(f"the venue ended: {venue.log()}")

    with tempfile.TemporaryDirectory() as folder:
        options = ["--trail", os.path.join(folder, "trail")] if case.is_recovery() else []
        try:
            begin()
            yield begin, check_up
        finally:
            venue.stop()


def run_all(program, cases, check, workers):
    """Runs each case on a venue of its own; what failed, by the case's name."""
    ports = [free_ports(PORTS * workers, FIRST_PORT) + PORTS * k for k in range(workers)]

    def fault(case, port):
        try:
            with served(program, case, port) as (restart, check_up):
                run_case(case, port, check, restart)
                check_up()
        except (Failure, OSError, SystemExit) as failure:
            return case.name, str(failure) or type(failure).__name__
        return None

    def run(case):
        port = ports.pop()
        try:
            found = fault(case, port)
            # (where time passes in a case, a machine that stopped for a while may be why it fails)
            return fault(case, port) if found and case.is_timed() else found
        finally:
            ports.append(port)

    with concurrent.futures.ThreadPoolExecutor(workers) as pool:
        return [failure for failure in pool.map(run, cases) if failure]


def record(step, found, number, began):
    """Takes what was found as what the file has."""
    step.answers = [general(it, number, began) if " gets " in it else it for it in found]


def compare(step, found, number, began):
    """Fails at the first answer that is not as the file has it."""
    for wanted, came in zip(step.answers, found):
        head, _, text = wanted.partition(" gets ")
        other, _, received = came.partition(" gets ")
        difference = None if head == other else f"{other} and not {head}"
        difference = difference or first_difference(text, received, number, began)
        if difference:
            raise Failure(f"{step.line()}\n  wanted {wanted}\n  came   {came}\n  {difference}")
    if len(found) != len(step.answers):
        missing = step.answers[len(found):] or found[len(step.answers):]
        what = "did not come" if len(found) < len(step.answers) else "is too much"
        raise Failure(f"{step.line()}\n  {what}: {missing[0]}")
