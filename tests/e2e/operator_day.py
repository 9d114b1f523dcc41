#!/usr/bin/env python3
"""A venue as its operator sees it: events on standard error, counters, how it ends, what it does about stuck lines.

usage: operator_day.py PORT VENUE_MAIN [PART..]

PORT and the next 169 are used. The parts, all of them or those that are named, run in parallel, each on venues of its
own, and at last `turns` and `pace` alone:

stop        a venue ends by its stop file while five clients send all they can: each message that it took was answered,
            each answer arrives, the status is 0, and nobody is served any more
eof         the same by the end of standard input
worker      the worker's turns are spent: the sessions end at once
session     a session's turns are spent: its port is closed, and the others trade on
refusals    a connection that is refused or dropped is reported with its cause
restarted   over its trail a venue refuses a Logon above 1, each time under number 1, and takes one at 1; without a
            trail it requests what is missing
gaps        a gap is reported; one that is not filled ends the connection after 2.2 heartbeat intervals
hour        the same after 60 seconds without heartbeats; and the metrics of each ten seconds and of the end
troubles    a connection that breaks, bytes that come as a line ends, counters that cannot be written and lines that are
            left out are reported
places      a second connection is closed, or takes the place of one that is silent
newcomers   one that sends nothing takes no place and is closed; a client that comes after it is served at once
reconnects  a client that ends its connection, even behind a message, and comes back at once is served
stalls      a stalled venue ends no line for which bytes waited, nor gives its place away
logouts     a Logout arrives, and no reset with it, also where its receiver goes on sending; who comes next is served
clock       a clock that steps by an hour is reported (with a C compiler alone)
eras        a session that has begun 900 of its 1,000 eras is reported
slow        a slow consumer is reported as cut
failing     a disk that fails is reported, and who is logged on is cut
starts      on a full disk, or where nothing may be written, a venue stops before it listens
unread      nobody reads standard error: the venue trades on, and ends
lost        nobody reads standard error for a while: the events that were lost are counted
ports       a venue listens at each participant's port of 127.0.0.1, as it prints them, and at nothing else; at each
            port that participant alone is served
moments     the moments of frames and of rows are the machine's
again       700 reports that are requested again at once come again, each once
full        a participant that reads nothing loses its connection after five seconds; others are served, and so is it
turns       an idle venue spends at most 11 turns a second in each thread, and with its five participants logged on at
            most MOST_IDLE of a processor; at 50,000 messages a second, a session and the worker spend at most
            MOST_TURNS a message, and MOST_DELAYED where they do not keep up (what they spend is printed)
pace        the median round trip of the last participant takes less than MOST_TRIP; orders in one write are answered
            without a pause between them
"""

import concurrent.futures
import contextlib
import fcntl
import os
import resource
import shutil
import signal
import socket
import statistics
import struct
import subprocess
import sys
import tempfile
import threading
import time
from datetime import datetime, timezone

sys.path.insert(0, os.path.join(os.path.dirname(os.path.abspath(__file__)), "..", "lib"))
from fix import (  # noqa: E402
    ENDLESS,
    PARTICIPANTS,
    ROOT,
    Client,
    Files,
    StopFile,
    Venue,
    events_of,
    expect,
    field,
    frame,
    limit_order,
    message,
    serve_command,
    timestamp,
    wait_until,
    wire,
    without_events,
)
from trail import items_of, snapshot  # noqa: E402

NAME = "tests/e2e/operator_day"
PORTS = 170
EVENT_SECONDS = 20.0  # for an event
IDLE_SECONDS = 10.0
QUIET_SECONDS = 11.0  # past the ten seconds of each bound
BEHIND = 1 << 20  # bytes sent behind a message that ends a session
RATE = 50_000  # messages a second
MOST_TURNS = 2  # a message; 1.2 are aimed at
MOST_DELAYED = 4  # the same where other programs keep the venue from KEPT_UP of the rate
KEPT_UP = 0.95
MOST_IDLE = 0.02  # of a processor; 0.002 are aimed at, and a busy machine's caches make it more
BUSY_SECONDS = 3.0
WINDOW = 4096  # messages that wait for their answers
REPORT = b"\x0135=8\x01"
FLOOD_SECONDS = 2.0
UNANSWERED = 500  # of a flood, so that none of its answers waits for room at its socket
ERAS = 900
GAPS = 1000
RECONNECTS = 30
LOOKED_AFTER = 0.3  # seconds; a connection's thread looks for another each quarter of a second
TRIPS = 100  # round trips
MOST_TRIP = 0.04  # seconds; a thread that nobody wakes waits a tenth of a second
TOGETHER = 100  # orders in one write
MOST_TOGETHER = 3.0  # seconds
AGAIN = 700  # reports, more than 64 KiB
CLOCK_SECONDS = 3.0  # between a moment of the venue and this test's
ASKED = 1_000  # snapshots of a full side, some 8 MB, of which a socket takes some three
FULL_SECONDS = 150.0  # for these three, where memory is checked, and then the five
QUEUED = 65_536  # replies that may wait for one participant
STEP_CLOCK = os.path.join(ROOT, "tests", "faults", "step_clock.c")
STOPPED = (1, "", "venue_main: stopped: trail\n")
SNAPSHOT_ASKED = "262=v1|263=0|264=0|267=1|269=0|146=1|55=IRS5Y|"


class NotRun(Exception):
    """Why a part cannot be run here."""


class Part:
    """What a part needs: the program, ports of its own, and its output."""

    def __init__(self, program, ports):
        self.program = program
        self.files = Files()
        self.ports = ports
        self.lines = []
        self.left_out = []

    def print(self, line):
        self.lines.append(line)

    def leave_out(self, what, why):
        """Has the end print that this is not run, and why."""
        self.left_out.append(f"{what}: not run: {why}")

    def compare(self, what, found, expected):
        expect(what, found, expected)
        self.print(f"{what}: {found!r}")

    def venue(self, *options, **how):
        return Venue(self.program, self.files, self.ports.pop(0), *options, **how)

    def copy_to(self, folder):
        """Has the next venues begin from copies of program and files that each user may read."""
        self.program = shutil.copy(self.program, os.path.join(folder, "program"))
        self.files = Files()
        self.files.participants = shutil.copy(self.files.participants, folder)
        self.files.instruments = shutil.copy(self.files.instruments, folder)
        for file in (self.program, self.files.participants, self.files.instruments):
            os.chmod(file, 0o755)

    def await_event(self, venue, name, seconds=EVENT_SECONDS, **keys):
        """The first event of this name whose keys have these values."""
        found = []

        def has_come():
            found.extend(event for event in venue.events() if is_of(event, name, keys))
            return found

        wait_until(has_come, seconds, lambda: f"no event {name} {keys}: {venue.log()}", 0.02)
        self.print(" ".join(f"{key}={value}" for key, value in found[0].items() if key != "time"))
        return found[0]

    def end(self, venue, taken):
        """Ends a venue by its stop file."""
        began = time.monotonic()
        printed = venue.end()
        self.print(f"ended after {time.monotonic() - began:.1f} s")
        self.compare("closing, status and faults", closing_of(venue, printed), closed(taken))


def is_of(event, name, keys):
    return event["event"] == name and all(event.get(key) == value for key, value in keys.items())


def closing_of(venue, printed):
    return printed, venue.process.returncode, venue.faults()


def closed(taken):
    return f"closed sessions 5 taken {taken}\n", 0, ""


def summaries(venue):
    """The last line of each participant and of the worker, by name."""
    found = {event.get("participant", event.get("thread")): event for event in venue.events() if event["event"] == "summary"}
    expect("who has a summary", sorted(found), sorted([*PARTICIPANTS, "worker"]))
    return found


def turns_of(venue):
    """The turns that each thread spent."""
    return {name: ENDLESS - int(event["turns_left"]) for name, event in summaries(venue).items()}


def place_of(name):
    return PARTICIPANTS.index(name)


def client_of(venue, name):
    return Client(name, venue.port + place_of(name))


def logged_on(venue, name, heartbeat=30):
    client = client_of(venue, name)
    log_on(client, heartbeat)
    return client


def log_on(client, heartbeat=30, more=""):
    client.send("A", f"98=0|108={heartbeat}|1137=9|{more}", quietly=True)
    client.await_field("35=A", quietly=True)


def is_served(venue, name):
    """Whether somebody takes a connection and keeps it for a moment."""
    try:
        client = client_of(venue, name)
        client.connection.settimeout(0.5)
        return client.connection.recv(1) != b""
    except TimeoutError:
        return True
    except OSError:
        return False


def seconds_until_end(client, since, seconds):
    """The seconds until the venue closes the connection."""
    client.connection.settimeout(seconds)
    with contextlib.suppress(ConnectionError):
        while client.connection.recv(4096):
            pass
    return time.monotonic() - since


def rest(client):
    """Reads up to the end of the connection, and returns what came."""
    with contextlib.suppress(ConnectionError):
        while more := client.connection.recv(4096):
            client.unread += more
    return client.unread


def orders_and_cancels(name, count):
    """The frames of these messages, under the numbers from 2 on."""
    at = timestamp()
    frames = []
    for k in range(count):
        order = f"11={name}{k}|55=IRS5Y|54=1|38=10|40=2|44=2.5|" if k % 2 == 0 else f"11={name}{k}|41={name}{k - 1}|"
        frames.append(message("F" if k % 2 else "D", name, k + 2, order, at))
    return frames


# -- turns


def processor_seconds(venue):
    """Of all its threads so far, by the scheduler, which counts nanoseconds."""
    folder = f"/proc/{venue.process.pid}/task"
    total = 0
    for thread in os.listdir(folder):
        with open(f"{folder}/{thread}/schedstat", encoding="ascii") as file:
            total += int(file.read().split()[0])
    return total / 1e9


def turns(part):
    with part.venue() as venue:
        venue.await_start()
        clients = [logged_on(venue, name) for name in PARTICIPANTS]
        time.sleep(1)
        before = processor_seconds(venue)
        time.sleep(IDLE_SECONDS - 1)
        share = (processor_seconds(venue) - before) / (IDLE_SECONDS - 1)
        part.print(f"five idle participants: {share * 100:.2f} % of a processor")
        if share > MOST_IDLE:
            raise SystemExit(f"five idle participants take {share * 100:.1f} % of a processor")
        for client in clients:
            client.close()
        part.end(venue, 0)
        spent = turns_of(venue)
        part.print(f"turns of {IDLE_SECONDS:.0f} idle seconds and an end: {spent}")
        for name, count in spent.items():
            if count > 11 * (IDLE_SECONDS + 2):
                raise SystemExit(f"idle: {name} spent {count} turns")
    with part.venue() as venue:
        venue.await_start()
        busy = Busy(logged_on(venue, "ALPHA"))
        count, took = busy.run()
        part.print(f"{count / took:.0f} messages a second")
        part.end(venue, count)
        spent = turns_of(venue)
        for name in ("ALPHA", "worker"):
            part.print(f"{name}: {spent[name]} turns, {spent[name] / count:.2f} a message")
        most = MOST_TURNS if count / took > KEPT_UP * RATE else MOST_DELAYED
        for name in ("ALPHA", "worker"):
            if spent[name] > most * count + 11 * (took + 3):
                raise SystemExit(f"{name} spends more than {most} turns a message")


class Busy:
    """A client that sends RATE messages a second, where the venue answers as many."""

    def __init__(self, client):
        self.client = client
        self.frames = orders_and_cancels(client.name, int(RATE * BUSY_SECONDS))
        self.sent = self.answered = 0
        self.is_over = False
        self.sender = threading.Thread(target=self.send, daemon=True)

    def send(self):
        began = time.monotonic()
        each = RATE // 200
        while self.sent < len(self.frames) and time.monotonic() < began + BUSY_SECONDS + 1:
            due = began + self.sent / RATE - time.monotonic()
            if due > 0 or self.sent - self.answered > WINDOW:
                time.sleep(max(due, 0.0005))
                continue
            self.client.connection.sendall(b"".join(self.frames[self.sent : self.sent + each]))
            self.sent += len(self.frames[self.sent : self.sent + each])
        self.is_over = True

    def run(self):
        """How many messages were sent and answered, and in how many seconds."""
        began = time.monotonic()
        self.sender.start()
        tail = b""
        while not self.is_over or self.answered < self.sent:
            more = self.client.connection.recv(1 << 16)
            if not more:
                raise SystemExit(f"the connection ends after {self.answered} answers")
            self.answered += (tail + more).count(REPORT)
            tail = (tail + more)[1 - len(REPORT) :]
        return self.sent, time.monotonic() - began


# -- ends


class Flood:
    """A client that sends orders for no instrument as fast as they are answered, and counts the answers."""

    def __init__(self, venue, name):
        self.client = logged_on(venue, name)
        self.answered = 0
        self.threads = [threading.Thread(target=work, daemon=True) for work in (self.send, self.receive)]
        for thread in self.threads:
            thread.start()

    def send(self):
        with contextlib.suppress(OSError):
            for k in range(10_000_000):
                while k - self.answered > UNANSWERED:
                    time.sleep(0.001)
                order = limit_order(f"{self.client.name}{k}", 1, 1, symbol="NOPE")
                self.client.send("D", order, quietly=True)

    def receive(self):
        with contextlib.suppress(OSError, SystemExit):
            while True:
                self.answered += field(self.client.next_message(), 35) == b"8"

    def join(self):
        for thread in self.threads:
            thread.join(30)
        return self.answered


def stop(part):
    with part.venue() as venue:
        venue.await_start()
        floods = [Flood(venue, name) for name in PARTICIPANTS]
        time.sleep(FLOOD_SECONDS)
        printed = venue.end()
        ended_by(part, venue, printed, floods)


def eof(part):
    with part.venue("--until-eof", stdin=subprocess.PIPE) as venue:
        venue.await_start()
        floods = [Flood(venue, name) for name in PARTICIPANTS]
        time.sleep(FLOOD_SECONDS)
        venue.process.stdin.close()
        wait_until(lambda: not venue.is_up(), 150, "the venue does not end by its standard input")
        ended_by(part, venue, venue.process.stdout.read(), floods)


def ended_by(part, venue, printed, floods):
    """A venue that was stopped answered all that it took, and its events have it."""
    answered = {flood.client.name: flood.join() for flood in floods}
    part.compare("closing, status and faults", closing_of(venue, printed), closed(sum(answered.values())))
    part.await_event(venue, "stopping")
    part.await_event(venue, "drained")
    found = summaries(venue)
    for name, count in answered.items():
        part.compare(f"{name}: taken", int(found[name]["taken"]), count)
    part.compare("who is served after the end", [name for name in PARTICIPANTS if is_served(venue, name)], [])


def worker(part):
    with part.venue(turns=30) as venue:
        venue.await_start()
        alpha = logged_on(venue, "ALPHA")
        since = time.monotonic()
        part.print(f"the connection ended after {seconds_until_end(alpha, since, 20):.1f} s")
        venue.process.wait(20)
        part.compare("closing, status and faults", closing_of(venue, venue.process.stdout.read()), closed(0))
        part.await_event(venue, "worker_ended", cause="turns_spent")


def session(part):
    with part.venue(turns=3000) as venue:
        venue.await_start()
        beta = logged_on(venue, "BETA")
        alpha = client_of(venue, "ALPHA")
        log_on(alpha)
        # (each byte is read in a turn of its own)
        with contextlib.suppress(OSError):
            for _ in range(30_000):
                alpha.connection.sendall(b"x")
                time.sleep(0.0003)
        part.await_event(venue, "port_shut", participant="ALPHA", cause="turns_spent")
        part.compare("who is served", [name for name in ("ALPHA", "GAMMA") if is_served(venue, name)], ["GAMMA"])
        beta.send("D", limit_order("b1", 1, 100), quietly=True)
        beta.await_field("150=0", quietly=True)
        part.end(venue, 1)


# -- events


def refused(part, venue, name, kind, fields, **keys):
    """Sends a message on a connection of its own; the venue closes it, and the event has these keys."""
    client = client_of(venue, name)
    client.connection.sendall(frame(wire(f"35={kind}|{fields}52={timestamp()}|")))
    came = rest(client)
    part.await_event(venue, "refused", participant=name, **keys)
    return came


def refusals(part):
    head = "49=BETA|56=SEF|"
    with part.venue() as venue:
        venue.await_start()
        logon = "98=0|108=30|1137=9|"
        cases = [
            ("0", f"{head}34=1|", {"cause": "not_logon"}),
            ("A", f"49=NOBODY|56=SEF|34=1|{logon}", {"cause": "wrong_comp_id"}),
            ("A", f"{head}34=1|98=0|108=30|1137=8|", {"cause": "bad_logon", "reason": "5", "tag": "1137"}),
            ("A", f"{head}{logon}", {"cause": "no_sequence_number"}),
            ("A", "49=NOBODY|56=SEF|34=1|98=1|108=30|1137=9|", {"cause": "wrong_comp_id"}),
            ("A", f"{head}34=2|{logon}141=Y|", {"cause": "reset_refused"}),
        ]
        for kind, fields, keys in cases:
            part.compare(f"{keys['cause']}: answered", refused(part, venue, "BETA", kind, fields, **keys), b"")
        beta = logged_on(venue, "BETA")
        part.await_event(venue, "logged_on", participant="BETA", heartbeat="30")
        beta.send("5", "", quietly=True)
        rest(beta)
        part.await_event(venue, "dropped", participant="BETA", cause="logged_out")
        came = refused(part, venue, "BETA", "A", f"{head}34=1|{logon}", cause="sequence_number_too_low")
        part.compare("sequence_number_too_low: answered", b"expecting 3 received 1" in came, True)
        gamma = logged_on(venue, "GAMMA", heartbeat=1)
        since = time.monotonic()
        part.print(f"GAMMA is silent, and dropped after {seconds_until_end(gamma, since, 20):.1f} s")
        part.await_event(venue, "dropped", participant="GAMMA", cause="silent")
        delta = logged_on(venue, "DELTA")
        delta.connection.sendall(frame(wire(f"35=0|49=DELTA|56=SEF|52={timestamp()}|")))
        rest(delta)
        part.await_event(venue, "dropped", participant="DELTA", cause="no_sequence_number")
        delta = client_of(venue, "DELTA")
        delta.number = 1
        log_on(delta)
        delta.close()
        part.await_event(venue, "disconnected", participant="DELTA")
        since = time.monotonic()
        epsilon = client_of(venue, "EPSILON")
        took = seconds_until_end(epsilon, since, 20)
        part.await_event(venue, "line_ended", participant="EPSILON", cause="no_logon")
        if not 9.5 <= took <= 16:
            raise SystemExit(f"a connection without a Logon was closed after {took:.1f} s")
        part.print(f"a connection without a Logon was closed after {took:.1f} s")
        part.end(venue, 0)


def old_numbers(venue):
    return [event for event in venue.events() if is_of(event, "refused", {"cause": "numbers_restarted"})]


def restarted(part):
    port = part.ports.pop(0)
    logon = "49=BETA|56=SEF|34=3|98=0|108=30|1137=9|"
    with tempfile.TemporaryDirectory() as folder:
        kept = "--trail", os.path.join(folder, "trail")
        with Venue(part.program, part.files, port, *kept) as venue:
            beta = logged_on(venue.await_start(), "BETA")
            beta.send("D", limit_order("b1", 1, 1), quietly=True)
            beta.await_field("150=0", quietly=True)
        with Venue(part.program, part.files, port, *kept) as venue:
            venue.await_start()
            for _ in range(3):
                came = refused(part, venue, "BETA", "A", logon, cause="numbers_restarted")
                found = [field(came, tag) for tag in (35, 34, 58)], came.count(b"8=FIXT.1.1")
                expect("a Logon above 1", found, ([b"5", b"1", b"Sequence numbers began anew, reset (141=Y)"], 1))
            wait_until(lambda: len(old_numbers(venue)) == 3, 5, lambda: f"refusals: {len(old_numbers(venue))}", 0.02)
            beta = client_of(venue, "BETA")
            beta.send("A", "98=0|108=30|1137=9|", quietly=True)
            part.compare("a Logon at 1", field(beta.await_field("35=A", quietly=True), 34), b"1")
            beta.send("F", "11=b2|41=b1|", quietly=True)
            beta.await_field("150=4", quietly=True)
            part.end(venue, 2)
    with Venue(part.program, part.files, port) as venue:
        beta = client_of(venue.await_start(), "BETA")
        beta.number = 2
        log_on(beta)
        part.compare("without a trail is requested", field(beta.await_field("35=2", quietly=True), 7), b"1")
        part.end(venue, 0)


def ahead(client, number):
    """A Heartbeat under this number."""
    client.number = number - 1
    client.send("0", "", quietly=True)


def ended_by_a_gap(part, venue, client, seconds, heartbeat):
    """The client is ahead, and goes on being heard, until the venue ends its connection."""
    ahead(client, client.number + 2)
    since = time.monotonic()
    over = threading.Event()

    def beat():
        with contextlib.suppress(OSError):
            while not over.wait(heartbeat):
                client.send("0", "", quietly=True)

    beating = threading.Thread(target=beat, daemon=True)
    beating.start()
    took = seconds_until_end(client, since, seconds + 10)
    over.set()
    if not seconds - 0.2 <= took <= seconds + 6:
        raise SystemExit(f"a gap ended the connection after {took:.1f} s, and not after {seconds}")
    part.print(f"a gap ended the connection after {took:.1f} s")
    asked = part.await_event(venue, "gap_asked", participant=client.name, **{"from": "2"})
    ended_at = part.await_event(venue, "line_ended", participant=client.name, cause="gap_overdue", expected="2")
    expect("since when", ended_at["since"], asked["time"])


def gaps(part):
    with part.venue() as venue:
        venue.await_start()
        alpha = logged_on(venue, "ALPHA", heartbeat=2)
        ended_by_a_gap(part, venue, alpha, 4.4, 1.0)
        # who comes back under the number that is due has no gap any more
        again = client_of(venue, "ALPHA")
        again.number = 1
        log_on(again, heartbeat=2)
        for k in range(6):
            time.sleep(1)
            goes_on(again, f"again{k}")
        part.print("who comes back after a gap is served on")
        # a gap whose number moves on in time is none
        beta = logged_on(venue, "BETA", heartbeat=2)
        ahead(beta, 6)
        for due in range(2, 7):
            time.sleep(1.5)
            beta.number = due - 1
            beta.send("0", "", quietly=True)
        beta.send("1", "112=here|", quietly=True)
        beta.await_field("112=here", quietly=True)
        part.print("a gap that is filled in eight seconds, a number each 1.5 s, ends nothing")
        part.end(venue, 0)


def hour(part):
    with tempfile.TemporaryDirectory() as folder:
        metrics = os.path.join(folder, "venue.prom")
        with part.venue("--metrics", metrics) as venue:
            venue.await_start()
            beta = logged_on(venue, "BETA", heartbeat=0)
            beta.send("D", limit_order("b1", 1, 100), quietly=True)
            beta.await_field("150=0", quietly=True)
            alpha = logged_on(venue, "ALPHA", heartbeat=0)
            ended_by_a_gap(part, venue, alpha, 60.0, 5.0)
            wait_until(lambda: stands_of(metrics_of(metrics), "ALPHA") == (0, 2, 3, 0), 15, "no metrics after a minute", 0.1)
            found = metrics_of(metrics)
            part.print(f"after a minute: {len(found)} metrics")
            part.compare("taken of BETA", taken_of(metrics, "BETA"), 1)
            for name, stands in (("BETA", (1, 3, 3, 0)), ("DELTA", (0, 1, 1, 0))):
                part.compare(f"how {name} stands", stands_of(found, name), stands)
            part.compare("figures of a trail", [metric for metric in found if metric.startswith("sef_rows")], [])
            beta.send("F", "11=b2|41=b1|", quietly=True)
            beta.await_field("150=4", quietly=True)
            # (a request has no reply to who sent it)
            beta.send("R", request_for_quotes("r1", "ALPHA", "DELTA", "EPSILON"), quietly=True)
            beta.send("V", SNAPSHOT_ASKED, quietly=True)
            beta.await_field("35=W", quietly=True)
            part.end(venue, 4)
        ends = summaries(venue)
        part.compare("BETA: taken and sent", (ends["BETA"]["taken"], ends["BETA"]["sent"]), ("4", "3"))
        for event in venue.events():
            if event["event"] == "port_shut":
                numbers = [(at["next_in"], at["next_out"]) for at in (ends[event["participant"]], event)]
                part.compare(f"{event['participant']}: the next numbers", *numbers)
        compare_metrics(part, metrics_of(metrics), ends)


def request_for_quotes(name, *recipients):
    asked = "".join(f"448={recipient}|447=D|452=35|" for recipient in recipients)
    return f"131={name}|146=1|55=IRS5Y|38=10|453={len(recipients)}|{asked}"


def taken_of(metrics, name):
    return metrics_of(metrics).get(f'sef_messages_taken_total{{participant="{name}"}}')


def stands_of(found, name):
    """Whether a participant is logged on, its next numbers, and the replies that wait for it."""
    gauges = ("sef_logged_on", "sef_next_in", "sef_next_out", "sef_replies_waiting")
    return tuple(found.get(f'{gauge}{{participant="{name}"}}') for gauge in gauges)


def metrics_of(path):
    """The values of a file in Prometheus's text format, by name and labels."""
    found = {}
    with open(path, encoding="ascii") as file:
        for line in file:
            if line.strip() and not line.startswith("#"):
                name, value = line.rsplit(" ", 1)
                found[name] = float(value)
    return found


def compare_metrics(part, found, ends):
    keys = {"sef_connections_total": "connections", "sef_messages_taken_total": "taken", "sef_messages_sent_total": "sent"}
    for name in ("ALPHA", "BETA"):
        for metric, key in {**keys, "sef_turns_left": "turns_left"}.items():
            value = found.get(f'{metric}{{participant="{name}"}}')
            part.compare(f"{metric} of {name}", value, float(ends[name][key]))
        numbers = (float(ends[name]["next_in"]), float(ends[name]["next_out"]))
        part.compare(f"how {name} stands", stands_of(found, name), (0, *numbers, 0))
    part.compare("turns of the worker", found.get("sef_worker_turns_left"), float(ends["worker"]["turns_left"]))


def troubles(part):
    with tempfile.TemporaryDirectory() as folder, part.venue("--metrics", os.path.join(folder, "absent", "prom")) as venue:
        venue.await_start()
        part.await_event(venue, "metrics_failed")
        beta = logged_on(venue, "BETA")
        beta.connection.setsockopt(socket.SOL_SOCKET, socket.SO_LINGER, struct.pack("ii", 1, 0))
        beta.close()
        part.await_event(venue, "line_fault", participant="BETA")
        # (of one participant 20 lines a second are printed)
        for _ in range(100):
            client_of(venue, "DELTA").close()
        part.await_event(venue, "left_out", participant="DELTA")
        # what comes once the venue reads no more
        alpha = logged_on(venue, "ALPHA")
        with open(venue.stop_file.path, "w", encoding="ascii"):
            part.await_event(venue, "stopping")
        alpha.connection.sendall(b"x" * 1000)
        part.await_event(venue, "passed_over", participant="ALPHA", bytes="1000")
        part.end(venue, 0)


def places(part):
    with part.venue() as venue:
        venue.await_start()
        alpha = logged_on(venue, "ALPHA")
        second = client_of(venue, "ALPHA")
        since = time.monotonic()
        took = seconds_until_end(second, since, 10)
        if took > 5:
            raise SystemExit(f"a second connection was closed after {took:.1f} s")
        part.await_event(venue, "second_closed", participant="ALPHA")
        alpha.send("1", "112=here|", quietly=True)
        alpha.await_field("112=here", quietly=True)
        part.print(f"a second connection was closed after {took:.1f} s, and the first goes on")
        # its machine is gone, and tries again each second on another
        since = time.monotonic()
        again = try_until_served(venue, alpha)
        took = time.monotonic() - since
        part.await_event(venue, "line_ended", participant="ALPHA", cause="replaced")
        again.send("1", "112=back|", quietly=True)
        again.await_field("112=back", quietly=True)
        if not 8.5 <= took <= 20:
            raise SystemExit(f"a participant is back after {took:.1f} s")
        part.print(f"a participant whose connection is dead is back after {took:.1f} s")
        part.end(venue, 0)


def probe(venue, name):
    """A connection that sends nothing, and when it was opened."""
    return client_of(venue, name), time.monotonic()


def goes_on(client, text):
    client.send("1", f"112={text}|", quietly=True)
    client.await_field(f"112={text}", quietly=True)


def newcomers(part):
    with part.venue() as venue:
        venue.await_start()
        quiet = {name: logged_on(venue, name, heartbeat=0) for name in ("ALPHA", "BETA", "GAMMA")}
        time.sleep(QUIET_SECONDS)
        # a port probe that sends nothing, and one that is gone at once
        held, since = probe(venue, "ALPHA")
        client_of(venue, "BETA").close()
        part.await_event(venue, "second_closed", participant="BETA")
        # a client that comes back while another probe waits
        waiting, _since = probe(venue, "GAMMA")
        time.sleep(1)
        again = client_of(venue, "GAMMA")
        again.number = quiet["GAMMA"].number
        began = time.monotonic()
        log_on(again, heartbeat=0)
        served = time.monotonic() - began
        waiting.close()
        if served > 3:
            raise SystemExit(f"a client that comes after a probe is served after {served:.1f} s")
        part.print(f"a client that comes after a probe is served after {served:.1f} s")
        part.await_event(venue, "line_ended", participant="GAMMA", cause="replaced")
        took = seconds_until_end(held, since, 20)
        if not 9.5 <= took <= 13:
            raise SystemExit(f"a probe was closed after {took:.1f} s")
        part.print(f"a probe that sends nothing was closed after {took:.1f} s")
        part.await_event(venue, "second_closed", participant="ALPHA")
        for name in ("ALPHA", "BETA"):
            goes_on(quiet[name], "still")
            ended = [event for event in venue.events() if is_of(event, "line_ended", {"participant": name})]
            part.compare(f"ends of {name}'s line", ended, [])
        # one that waits is closed once the first is heard
        time.sleep(QUIET_SECONDS)
        held, since = probe(venue, "BETA")
        time.sleep(1)
        goes_on(quiet["BETA"], "alive")
        took = seconds_until_end(held, since, 20)
        if took > 5:
            raise SystemExit(f"a probe of a line that is heard was closed after {took:.1f} s")
        part.end(venue, 0)


def come_back(venue, name):
    """Sends a message, ends the connection and opens the next one at once, again and again."""
    client = logged_on(venue, name)
    for _ in range(RECONNECTS):
        time.sleep(LOOKED_AFTER)
        client.send("1", "112=last|", quietly=True)
        client.close()
        number = client.number
        try:
            client = at_number(venue, name, number)
        except (SystemExit, ConnectionError):
            client = at_number(venue, name, number)


def at_number(venue, name, number):
    """A client on another connection that goes on behind this number."""
    client = client_of(venue, name)
    client.number = number
    log_on(client)
    return client


def reconnects(part):
    with part.venue() as venue:
        venue.await_start()
        with concurrent.futures.ThreadPoolExecutor(len(PARTICIPANTS)) as pool:
            for done in [pool.submit(come_back, venue, name) for name in PARTICIPANTS]:
                done.result()
        closed_seconds = [event for event in venue.events() if event["event"] == "second_closed"]
        # (a busy machine may handle the end of a connection behind the beginning of the next)
        part.print(f"of {RECONNECTS * len(PARTICIPANTS)} connections {len(closed_seconds)} were closed")
        expect("more than one was closed", closed_seconds[1:], [])
        part.end(venue, 0)


def states_of(venue):
    """The states of its threads, as the system has them; T is stopped."""
    folder = f"/proc/{venue.process.pid}/task"
    states = set()
    for thread in os.listdir(folder):
        with open(f"{folder}/{thread}/stat", encoding="ascii", errors="replace") as file:
            states.add(file.read().rsplit(")", 1)[1].split()[0])
    return states


def stop_threads(venue):
    """Stops a venue. On a busy machine its threads run on for a while, and read what comes: so each is awaited."""
    venue.process.send_signal(signal.SIGSTOP)
    wait_until(lambda: states_of(venue) == {"T"}, 20, lambda: f"the venue does not stop: {states_of(venue)}")


def stalls(part):
    with part.venue() as venue:
        venue.await_start()
        # ALPHA has not logged on; BETA owes what was asked for; GAMMA has logged on
        alpha = client_of(venue, "ALPHA")
        part.await_event(venue, "connected", participant="ALPHA")
        beta = logged_on(venue, "BETA", heartbeat=2)
        gamma = logged_on(venue, "GAMMA", heartbeat=0)
        ahead(beta, 3)
        part.await_event(venue, "gap_asked", participant="BETA")
        stop_threads(venue)
        alpha.send("A", "98=0|108=0|1137=9|", quietly=True)
        for number in (1, 2):
            beta.number = number
            beta.send("0", "", quietly=True)
        beta.send("1", "112=filled|", quietly=True)
        gamma.send("1", "112=here|", quietly=True)
        second = client_of(venue, "GAMMA")
        second.number = 2
        second.send("A", "98=0|108=0|1137=9|", quietly=True)
        time.sleep(QUIET_SECONDS)
        venue.process.send_signal(signal.SIGCONT)
        alpha.await_field("35=A", quietly=True)
        beta.await_field("112=filled", quietly=True)
        gamma.await_field("112=here", quietly=True)
        part.print(f"three lines go on after a stall of {QUIET_SECONDS:.0f} s")
        part.await_event(venue, "second_closed", participant="GAMMA")
        part.compare("ends of lines", [event for event in venue.events() if event["event"] == "line_ended"], [])
        part.end(venue, 0)


def how_it_ends(client):
    """Reads up to the end of the connection: what came, and whether it was reset."""
    try:
        while more := client.connection.recv(4096):
            client.unread += more
        return client.unread, "end"
    except ConnectionError:
        return client.unread, "reset"


def logouts(part):
    with part.venue() as venue:
        venue.await_start()
        for name, sender, kind in (("ALPHA", "ALPHA", "5"), ("BETA", "NOBODY", "0")):
            client = logged_on(venue, name)
            client.connection.sendall(message(kind, sender, 2, "", timestamp()) + b"x" * BEHIND)
            time.sleep(0.3)
            came, end = how_it_ends(client)
            part.compare(f"{name}: whether a Logout arrives, and what comes last", (b"\x0135=5\x01" in came, end), (True, "end"))
            # (the old connection stays open on this side)
            began = time.monotonic()
            again = client_of(venue, name)
            again.number = 2
            log_on(again)
            took = time.monotonic() - began
            if took > 3:
                raise SystemExit(f"the next connection is served after {took:.1f} s")
            part.print(f"{name}: the next connection is served after {took:.1f} s")
            goes_on(again, "here")
        part.end(venue, 0)


def try_until_served(venue, old):
    """A new connection of a client, tried each second until its Logon is answered."""
    deadline = time.monotonic() + 30
    while time.monotonic() < deadline:
        client = client_of(venue, old.name)
        client.number = old.number
        try:
            log_on(client)
            return client
        except (OSError, SystemExit):
            time.sleep(1)
    raise SystemExit(f"{old.name} is not served")


def clock(part):
    with tempfile.TemporaryDirectory() as folder:
        library = os.path.join(folder, "step_clock.so")
        if not shutil.which("cc") or subprocess.run(["cc", "-shared", "-fPIC", "-o", library, STEP_CLOCK], check=False).returncode:
            raise NotRun("no C compiler (cc) that makes shared libraries")
        shift = os.path.join(folder, "shift")
        step_clock(shift, "0")
        with part.venue(env={**os.environ, "LD_PRELOAD": library, "SHIFT": shift}) as venue:
            venue.await_start()
            alpha = logged_on(venue, "ALPHA", heartbeat=0)
            # (the first look at the clock comes with the first turn of the worker)
            time.sleep(2)
            for to, name, moment in (("3600", "clock_forward", "leaps"), ("0", "clock_back", "stands")):
                step_clock(shift, to)
                part.await_event(venue, name, moment=moment)
                alpha.send("1", "112=here|", quietly=True)
                alpha.await_field("112=here", quietly=True)
            part.end(venue, 0)


LISTENS = {"tcp": "0A", "tcp6": "0A", "udp": "07", "udp6": "07"}  # the states in /proc/net of what is bound


def bound_by(process):
    """The addresses and ports at which a process listens, as /proc has them, by protocol."""
    inodes = set()
    for name in os.listdir(f"/proc/{process.pid}/fd"):
        with contextlib.suppress(OSError):
            inodes.add(os.readlink(f"/proc/{process.pid}/fd/{name}"))
    found = set()
    for protocol, state in LISTENS.items():
        with contextlib.suppress(FileNotFoundError), open(f"/proc/{process.pid}/net/{protocol}", encoding="ascii") as rows:
            for words in (row.split() for row in rows):
                if len(words) > 9 and words[3] == state and f"socket:[{words[9]}]" in inodes:
                    address, port = words[1].split(":")
                    found.add((protocol, address, int(port, 16)))
    return found


def ports(part):
    if not os.path.exists("/proc/self/net/tcp"):
        raise NotRun("there is no /proc/self/net/tcp")
    here = f"{int.from_bytes(socket.inet_aton('127.0.0.1'), sys.byteorder):08X}"
    with part.venue() as venue:
        venue.await_start()
        wanted = {("tcp", here, venue.port + k) for k in range(len(PARTICIPANTS))}
        part.compare("what it listens at beyond its ports, and the reverse", bound_by(venue.process) ^ wanted, set())
        printed = [line for line in without_events(venue.log()).splitlines() if " at " in line]
        lines = [f"venue_main: {name} at 127.0.0.1:{venue.port + place_of(name)}" for name in PARTICIPANTS]
        part.compare("the ports that it prints", printed, lines)
        try:
            socket.create_connection(("127.0.0.2", venue.port), timeout=5).close()
            raise SystemExit("the venue listens at another address")
        except ConnectionRefusedError:
            part.print("a connection to 127.0.0.2 is refused")
        for name in PARTICIPANTS:
            own = logged_on(venue, name)
            own.send("5", "", quietly=True)
            rest(own)
            other = PARTICIPANTS[place_of(name) - 1]
            came = refused(part, venue, name, "A", f"49={other}|56=SEF|34=1|98=0|108=30|1137=9|", cause="wrong_comp_id")
            part.compare(f"{other} at {name}'s port", came, b"")
        part.end(venue, 0)


def moment_of(message):
    """The SendingTime of a message, in seconds since 1970."""
    text = field(message, 52).decode("ascii")
    return datetime.strptime(text, "%Y%m%d-%H:%M:%S.%f").replace(tzinfo=timezone.utc).timestamp()


def moments(part):
    with tempfile.TemporaryDirectory() as folder:
        trail = os.path.join(folder, "trail")
        with part.venue("--trail", trail) as venue:
            venue.await_start()
            epsilon = logged_on(venue, "EPSILON")
            for k in range(3):
                before = time.time()
                epsilon.send("D", limit_order(f"e{k}", 1, 1), quietly=True)
                at = moment_of(epsilon.await_field("150=0", quietly=True))
                check_moment("a report", at, before, time.time())
                kept = items_of(snapshot(trail, os.path.join(folder, f"copy{k}")))[-1][3] / 1000
                check_moment("a row", kept, before, time.time())
            part.end(venue, 3)


def check_moment(what, at, first, last):
    """A moment of the venue is between these two of this machine, but for the seconds that one may have waited."""
    if not first - CLOCK_SECONDS <= at <= last + CLOCK_SECONDS:
        raise SystemExit(f"the moment of {what} is {at - last:.3f} s after that of this machine")


def again(part):
    with part.venue() as venue:
        venue.await_start()
        alpha = logged_on(venue, "ALPHA")
        at = timestamp()
        orders = (f"11=a{k}|55=NOPE|54=1|38=10|40=2|44=2.5|" for k in range(AGAIN))
        frames = b"".join(message("D", "ALPHA", k + 2, order, at) for k, order in enumerate(orders))
        threading.Thread(target=alpha.connection.sendall, args=(frames,), daemon=True).start()
        first = [field(alpha.next_message(), 34) for _ in range(AGAIN)]
        alpha.number = AGAIN + 1
        alpha.send("2", f"7={int(first[0])}|16=0|", quietly=True)
        came = [alpha.next_message() for _ in range(AGAIN)]
        part.compare("all that come again", {field(it, 43) for it in came}, {b"Y"})
        part.compare("each once, in order", [field(it, 34) for it in came] == first, True)
        goes_on(alpha, "after")
        part.end(venue, AGAIN)


def full(part):
    with part.venue() as venue:
        venue.await_start()
        beta = logged_on(venue, "BETA")
        for k in range(200):
            beta.send("D", limit_order(f"b{k}", 1, 1), quietly=True)
            beta.await_field("150=0", quietly=True)
        alpha = Client("ALPHA", venue.port, receive_buffer=4096)
        log_on(alpha)
        asked = "262=v|263=0|264=0|267=1|269=0|146=1|55=IRS5Y|"
        frames = b"".join(message("V", "ALPHA", k + 2, asked) for k in range(ASKED))

        def send():
            with contextlib.suppress(OSError):
                alpha.connection.sendall(frames)

        threading.Thread(target=send, daemon=True).start()
        began = time.monotonic()
        while not [event for event in venue.events() if is_of(event, "line_fault", {"participant": "ALPHA"})]:
            goes_on(beta, "here")
            if time.monotonic() - began > FULL_SECONDS:
                raise SystemExit(f"who reads nothing is still connected after {FULL_SECONDS:.0f} s: {venue.log()}")
            time.sleep(0.05)
        took = time.monotonic() - began
        if took < 4.9:
            raise SystemExit(f"who reads nothing loses its connection after {took:.1f} s")
        part.print(f"who reads nothing loses its connection after {took:.1f} s")
        back = client_of(venue, "ALPHA")
        log_on(back, more="141=Y|")
        goes_on(back, "back")


def step_clock(path, shift):
    with open(path + ".new", "w", encoding="ascii") as file:
        file.write(f"{shift}\n")
    os.replace(path + ".new", path)


def eras(part):
    with part.venue() as venue:
        venue.await_start()
        alpha = logged_on(venue, "ALPHA")
        for count in range(ERAS):
            alpha.number = 0
            log_on(alpha, more="141=Y|")
            # (256 events wait, and more are lost)
            time.sleep(0.1 if count % 100 == 0 else 0)
        part.await_event(venue, "era_begun", participant="ALPHA", era=str(ERAS), of="1000")
        part.end(venue, 0)


def slow(part):
    """ALPHA's order is filled by small ones of three others, and it reads nothing."""
    each = QUEUED // 3 + 9000
    with part.venue() as venue:
        venue.await_start()
        alpha = logged_on(venue, "ALPHA")
        alpha.send("D", limit_order("a1", 1, 10_000_000), quietly=True)
        alpha.await_field("150=0", quietly=True)
        sellers = [Seller(logged_on(venue, name), each) for name in ("BETA", "DELTA", "EPSILON")]
        for seller in sellers:
            seller.start()
        try:
            part.await_event(venue, "cut", seconds=15, participant="ALPHA")
        except SystemExit:
            fills = sum(seller.fills for seller in sellers)
            if fills < QUEUED or any(is_of(event, "line_fault", {"participant": "ALPHA"}) for event in venue.events()):
                raise NotRun(f"this machine does not make {QUEUED} replies in five seconds") from None
            raise
        wait_until(lambda: not is_served(venue, "ALPHA"), 15, "ALPHA is served after it was cut")


class Seller:
    """A client that sells ten in each of its orders, and reads the answers."""

    def __init__(self, client, count):
        at = timestamp()
        orders = (f"11=s{k}|55=IRS5Y|54=2|38=10|40=2|44=2.5|" for k in range(count))
        self.flow = b"".join(message("D", client.name, k + 2, order, at) for k, order in enumerate(orders))
        self.client = client
        self.fills = 0

    def start(self):
        self.client.connection.settimeout(None)
        for work in (self.send, self.receive):
            threading.Thread(target=work, daemon=True).start()

    def send(self):
        with contextlib.suppress(OSError):
            self.client.connection.sendall(self.flow)

    def receive(self):
        with contextlib.suppress(OSError):
            while more := self.client.connection.recv(1 << 18):
                self.fills += more.count(b"\x01150=F\x01")


def confined(longest_file):
    def confine():
        resource.setrlimit(resource.RLIMIT_FSIZE, (longest_file, longest_file))

    # (Python ignores the signal of a file that is too long, and so does a process that it starts like this)
    return {"restore_signals": False, "preexec_fn": confine}


def failing(part):
    with tempfile.TemporaryDirectory() as folder:
        trail = os.path.join(folder, "trail")
        with part.venue("--trail", trail, **confined(400_000)) as venue:
            venue.await_start()
            alpha = logged_on(venue, "ALPHA")
            beta = logged_on(venue, "BETA")
            since = time.monotonic()
            with contextlib.suppress(OSError):
                for k in range(300):
                    alpha.send("D", limit_order(f"a{k}", 1, 1), quietly=True)
            seconds_until_end(beta, since, 30)
            venue.process.wait(60)
            part.compare("status, output and faults", ended(venue), STOPPED)
            part.await_event(venue, "trail_refused")
            for client in (alpha, beta):
                part.await_event(venue, "cut", participant=client.name)
            for name in PARTICIPANTS:
                part.await_event(venue, "port_shut", participant=name, cause="over")
            expect("no turn was the last", [event for event in venue.events() if event["event"] == "worker_ended"], [])


def ended(venue):
    return venue.process.returncode, venue.process.stdout.read(), venue.faults()


def starts(part):
    with tempfile.TemporaryDirectory() as folder:
        os.chmod(folder, 0o755)
        trail = os.path.join(folder, "trail")
        with part.venue("--trail", trail) as venue:
            venue.await_start()
            part.end(venue, 0)
        for what, path, how in refused_starts(part, folder, trail):
            with part.venue("--trail", path, **how) as venue:
                venue.process.wait(30)
                part.compare(what, (*ended(venue), venue.log().count(" at 127.0.0.1:")), (*STOPPED, 0))


def refused_starts(part, folder, trail):
    """Where a venue may not begin: what it is, the trail, and how the process is started."""
    yield "no space for a trail", os.path.join(folder, "new"), confined(8192)
    yield "no space for a row", trail, confined(8192)
    if os.getuid() == 0:
        part.copy_to(folder)
        how = {"preexec_fn": lambda: os.setuid(65534)}
        yield "a file that may not be written", trail, how
        yield "a folder that may not be written", os.path.join(folder, "other"), how
        full = os.path.join(folder, "full")
        os.mkdir(full)
        if subprocess.run(["mount", "-t", "tmpfs", "-o", "size=256k", "tmpfs", full], capture_output=True).returncode == 0:
            try:
                with contextlib.suppress(OSError), open(os.path.join(full, "filling"), "wb") as file:
                    file.write(b"x" * (1 << 20))
                yield "a full disk", os.path.join(full, "trail"), {}
            finally:
                subprocess.run(["umount", full], check=True)
        else:
            part.leave_out("a full disk", "no file system may be mounted")
    else:
        part.leave_out("a full disk", "it needs root")
        os.chmod(trail, 0o444)
        yield "a file that may not be written", trail, {}
        os.chmod(folder, 0o555)
        yield "a folder that may not be written", os.path.join(folder, "other"), {}
        os.chmod(folder, 0o755)


class UnreadVenue:
    """A venue whose standard error is a pipe of 4,096 bytes."""

    def __init__(self, part):
        self.stop_file = StopFile()
        self.port = part.ports.pop(0)
        command = serve_command(part.program, Files(), self.port, *self.stop_file.words)
        self.process = subprocess.Popen(command, stdin=subprocess.DEVNULL, stdout=subprocess.PIPE, stderr=subprocess.PIPE)
        fcntl.fcntl(self.process.stderr, fcntl.F_SETPIPE_SZ, 4096)

    def __enter__(self):
        return self

    def __exit__(self, *_fault):
        self.process.kill()
        self.process.wait()

    def logged_on(self, name, heartbeat=30):
        """A client that is logged on as soon as the venue listens."""
        deadline = time.monotonic() + 20
        while True:
            try:
                return logged_on(self, name, heartbeat)
            except OSError:
                if time.monotonic() > deadline:
                    raise SystemExit("the venue does not listen") from None

    def end(self, part, taken):
        began = time.monotonic()
        self.stop_file.end(self.process, 30)
        part.print(f"ended after {time.monotonic() - began:.1f} s")
        found = self.process.stdout.read(), self.process.returncode
        part.compare("closing and status", found, (closed(taken)[0].encode(), 0))


def unread(part):
    with UnreadVenue(part) as venue:
        beta = venue.logged_on("BETA")
        # more lines than the pipe holds
        for _ in range(15):
            for _ in range(10):
                for name in ("ALPHA", "GAMMA", "DELTA", "EPSILON"):
                    with contextlib.suppress(OSError):
                        client_of(venue, name).close()
            time.sleep(0.2)
        slowest = 0.0
        for k in range(200):
            began = time.monotonic()
            beta.send("D", limit_order(f"b{k}", 1, 1, symbol="NOPE"), quietly=True)
            beta.await_field("150=8", quietly=True)
            slowest = max(slowest, time.monotonic() - began)
        part.print(f"the slowest of 200 round trips: {slowest * 1000:.0f} ms")
        venue.end(part, 200)


def lost(part):
    with UnreadVenue(part) as venue:
        clients = [venue.logged_on(name, heartbeat=0) for name in PARTICIPANTS]
        for client in clients:
            client.connection.sendall(gaps_that_are_filled(client, GAPS))
        for client in clients:
            goes_on(client, "here")
        # (what is printed of all of them is more than the pipe holds, so that the venue's writer waits)
        lines = []
        reading = threading.Thread(target=lambda: lines.extend(venue.process.stderr), daemon=True)
        reading.start()
        wait_until(lambda: any(b" event=lost " in line for line in lines), 20, "no events were lost", 0.05)
        venue.end(part, 0)
        reading.join(10)
        events = events_of(b"".join(lines).decode("ascii"))
        for name in PARTICIPANTS:
            counts = {kind: lost_of(events, kind, name) for kind in ("lost", "summary")}
            expect(f"events of {name} that were lost", counts["lost"], counts["summary"])
            part.print(f"{name}: {counts['lost']} events lost")


def gaps_that_are_filled(client, count):
    """Heartbeats of which one is ahead of the next, as often as this."""
    frames = []
    for _ in range(count):
        due = client.number + 1
        frames += [message("0", client.name, number, "", timestamp()) for number in (due + 1, due, due + 1)]
        client.number = due + 1
    return b"".join(frames)


def lost_of(events, kind, name):
    return sum(int(event["events_lost"]) for event in events if is_of(event, kind, {"participant": name}))


def pace(part):
    with part.venue() as venue:
        venue.await_start()
        client = logged_on(venue, PARTICIPANTS[-1])
        trips = []
        for k in range(TRIPS):
            began = time.monotonic()
            client.send("D", limit_order(f"p{k}", 1, 1, symbol="NOPE"), quietly=True)
            client.await_field("150=8", quietly=True)
            trips.append(time.monotonic() - began)
            time.sleep(0.01)
        median = statistics.median(trips)
        part.print(f"the median of {TRIPS} round trips: {median * 1000:.1f} ms")
        if median > MOST_TRIP:
            raise SystemExit(f"the median round trip takes {median * 1000:.0f} ms")
        orders = (limit_order(f"t{k}", 1, 1, symbol="NOPE") for k in range(TOGETHER))
        frames = [message("D", client.name, client.number + 1 + k, order) for k, order in enumerate(orders)]
        began = time.monotonic()
        client.connection.sendall(b"".join(frames))
        for _ in frames:
            client.await_field("150=8", quietly=True)
        took = time.monotonic() - began
        part.print(f"{TOGETHER} orders in one write: {took:.2f} s")
        if took > MOST_TOGETHER:
            raise SystemExit(f"{TOGETHER} orders in one write are answered after {took:.1f} s")
        # (of these a reply goes to others alone)
        client.number += TOGETHER
        requests = [request_for_quotes(f"r{k}", "ALPHA", "BETA", "DELTA") for k in range(TOGETHER)]
        frames = [message("R", client.name, client.number + 1 + k, request) for k, request in enumerate(requests)]
        client.number += TOGETHER
        began = time.monotonic()
        client.connection.sendall(b"".join(frames))
        client.send("V", SNAPSHOT_ASKED, quietly=True)
        client.await_field("35=W", quietly=True)
        took = time.monotonic() - began
        part.print(f"{TOGETHER} requests for quotes in one write: {took:.2f} s")
        if took > MOST_TOGETHER:
            raise SystemExit(f"{TOGETHER} requests for quotes in one write are taken after {took:.1f} s")
        part.end(venue, TRIPS + 2 * TOGETHER + 1)


PARTS = [
    stop, eof, worker, session, refusals, restarted, gaps, hour, troubles, places, newcomers, reconnects, stalls, logouts, clock,
    eras, slow, failing, starts, unread, lost, ports, moments, again, full,
]  # fmt: skip
ALONE = [turns, pace]


def run(part, test):
    """Runs a part, and returns how it ended."""
    try:
        test(part)
    except NotRun as why:
        return f"not run: {why}"
    except (SystemExit, Exception) as failure:  # pylint: disable=broad-except
        return f"FAILED: {type(failure).__name__}: {failure}"
    return "passed"


def main():
    if len(sys.argv) < 3:
        raise SystemExit(__doc__)
    first, program, asked = int(sys.argv[1]), sys.argv[2], sys.argv[3:]
    tests = [test for test in [*PARTS, *ALONE] if not asked or test.__name__ in asked]
    free = iter(range(first, first + PORTS, 5))
    needed = {turns: 2, starts: 7}
    parts = {test: Part(program, [next(free) for _ in range(needed.get(test, 1))]) for test in tests}
    failed = []

    def report(test, outcome):
        if outcome.startswith("not run"):
            print(f"{NAME}, {test.__name__}: {outcome}")
        else:
            print(f"-- {test.__name__}: {outcome}")
        print("".join(f"   {line}\n" for line in parts[test].lines), end="")
        print("".join(f"{NAME}, {test.__name__}, {line}\n" for line in parts[test].left_out), end="", flush=True)
        if outcome.startswith("FAILED"):
            failed.append(test.__name__)

    with concurrent.futures.ThreadPoolExecutor(len(PARTS)) as pool:
        running = {pool.submit(run, parts[test], test): test for test in tests if test not in ALONE}
        for done in concurrent.futures.as_completed(running):
            report(running[done], done.result())
    for test in ALONE:
        if test in tests:
            report(test, run(parts[test], test))
    if failed:
        raise SystemExit(f"failed: {' '.join(failed)}")
    print("the operator's day is as expected")


if __name__ == "__main__":
    main()
