#!/usr/bin/env python3
"""A day at the limits against a served venue, all of whose replies are checked; its figures.

usage: soak.py VENUE_MAIN SEF_REPLAY [--scale S] [--messages N] [--seed SEED] [--answer SECONDS] [--spare MB]
               [--folder DIR]

The head of `check` in this folder says what the day has, what is checked, and the bounds.
"""

import argparse
import gc
import itertools
import os
import shutil
import signal
import subprocess
import sys
import time

import checks
from market import FAR, LEVELS, LONG_DELAY, MAKER, NEAR, PARTICIPANTS, SHORT_DELAY, SLOW, SLOWS_SHARE, USUAL_DELAY
from market import UNRELATED, Market, Trader
from reference import BUY, CAUSES, SELL, SIDE_LIMIT, Reference, Row
from sessions import Fault, Hub, Limits, Session

sys.path.insert(0, os.path.join(os.path.dirname(os.path.abspath(__file__)), "..", "lib"))
from fix import ENDLESS, SOH, Venue, expect, free_ports, wait_until  # noqa: E402
from trail import copied, items_of, replayed  # noqa: E402

START_SECONDS = 300.0  # until a venue has read its trail and listens
END_SECONDS = 300.0  # until a venue has ended
LOG_SHOWN = 2_000  # characters of a venue's standard error
MESSAGES = 320_000  # in all, at full size
PHASE_SECONDS = 3_600.0  # a limit for a phase, which the limit of each answer makes needless
BREAKERS = range(0, 8)  # places whose connections break
BETWEEN_BREAKS = 1_000  # messages
SILENT = (12, 14)  # places that fall silent, and are tested and dropped
ANSWERS_TESTS = (8, 10)  # places that send no Heartbeat but the answer to a TestRequest
DELAY_SECONDS = 16.0  # more than the delay of the crosses
CUT_SECONDS = 60.0  # until the connection of a participant that does not read has ended
QUEUE_LIMIT = 65_536  # replies that may wait for a participant
SPARE = 15_000  # replies that its connection may take before they wait
KEPT = 20  # quotes of each requester that are hit after the venue began again
SWEEPERS = 16  # participants whose orders fill against all others
UNREAD_SNAPSHOTS = 100  # of all that rests, which fill the connection of one that does not read
UNREAD_SECONDS = 3.0  # one whose answers take longer may be disconnected for reading nothing, before it is cut
NO_LOGON_SECONDS = 3.0  # without an answer to a Logon, at a port that accepts nobody


def heartbeat_of(place):
    return 0 if place == 1 else 1 if place % 2 == 0 else 30


class Memory:
    """The resident memory of a venue, by what it took and sent so far; a fault where it is more than the day's.

    What a day keeps: of each reply the message (568 bytes, and 16 of the allocation) and its entry in the session's
    store (24, in a list that may have three times the capacity while it moves); of a snapshot its entries (112, in a
    list likewise); of each message taken its identifiers (40 or 72 bytes each, in tables that may have doubled) and
    the order, quote or trade that it made. `spare` is for buffers and queues, of which the greatest is that of a
    participant that is cut.
    """

    PER_REPLY, PER_ENTRY, PER_MESSAGE = 656, 160, 400
    spare = 96_000_000

    def __init__(self, process, hub, count):
        self.process, self.hub, self.count = process, hub, count
        self.base = self.resident()
        self.samples = []
        self.at = 0.0
        self.unread = 0  # replies to a participant that does not read

    def resident(self):
        with open(f"/proc/{self.process.pid}/statm", encoding="ascii") as file:
            return int(file.read().split()[1]) * os.sysconf("SC_PAGE_SIZE")

    def bound(self):
        replies = self.hub.received + self.unread
        kept = self.PER_REPLY * replies + self.PER_ENTRY * self.hub.entries + self.PER_MESSAGE * self.count()
        return self.base + self.spare + kept

    def look(self):
        if time.monotonic() < self.at + 0.25 or self.process.poll() is not None:
            return
        self.at = time.monotonic()
        found, bound = self.resident(), self.bound()
        self.samples.append((self.count(), found))
        if found > bound:
            raise Fault(
                f"the venue's memory after {self.count()} messages, {self.hub.received} replies and "
                f"{self.hub.entries} entries of snapshots\n  expected: at most {bound} bytes\n  received: {found}"
            )

    def at_part(self, part):
        """The first sample at or after this part of the messages, in MB."""
        whole = self.samples[-1][0]
        return next(memory for count, memory in self.samples if count >= part * whole) // 1_000_000


class TooSlow(Exception):
    """This machine does not make what is owed to a participant before that is disconnected for another cause."""


class Day:
    def __init__(self, options, folder):
        self.options = options
        self.market = Market(options.scale, folder)
        self.trail = os.path.join(folder, "trail")
        self.stop_file = os.path.join(folder, "stop")
        self.stop_words = [] if hasattr(Venue, "end") else stop_words(options.venue_main, self.stop_file)
        self.traders = [Trader(self.market, place, options.seed) for place in range(PARTICIPANTS)]
        self.port = free_ports(PARTICIPANTS, 24_000)
        # (a venue without a stop file leaves the connection of one that is cut open)
        self.closes_cut = hasattr(Venue, "end") or bool(self.stop_words)
        self.cut = ()
        self.began = time.monotonic()
        self.seconds = 0.0  # while participants were connected
        self.venue = None

    def note(self, text):
        print(f"{time.monotonic() - self.began:6.1f} s: {text}", flush=True)

    # A venue's life

    def begin(self):
        words = ["--trail", self.trail, *self.stop_words]
        self.venue = Venue(self.options.venue_main, self.market.files, self.port, *words, turns=ENDLESS)
        self.venue.await_start(seconds=START_SECONDS)
        self.hub = Hub()
        self.sessions = [
            Session(self.hub, k, name, self.port + k, heartbeat_of(k)) for k, name in enumerate(self.market.names)
        ]
        self.memory = Memory(self.venue.process, self.hub, self.count)
        self.hub.observers.append(self.observe)
        self.connected = time.monotonic()
        for session in self.sessions:
            session.between_breaks = BETWEEN_BREAKS if session.place in BREAKERS else None
            session.connect()
        self.settle("all log on")

    def observe(self):
        self.memory.look()
        if not self.venue.is_up():
            raise Fault(f"the venue ended: status {self.venue.process.returncode}, {self.venue.log()}")

    def end(self):
        """Ends the venue: by a stop file where the library or the program knows one, else by a signal. Returns its
        closing line in the first case."""
        if hasattr(self.venue, "end"):
            printed = self.venue.end(END_SECONDS)
        elif self.stop_words:
            with open(self.stop_file, "w", encoding="ascii"):
                pass
            wait_until(lambda: not self.venue.is_up(), END_SECONDS, "the venue does not end by its stop file")
            os.remove(self.stop_file)
            printed = self.venue.process.stdout.read()
        else:
            self.venue.process.send_signal(signal.SIGTERM)
            wait_until(lambda: not self.venue.is_up(), END_SECONDS, "the venue does not end")
            return None
        expect("the venue's status", self.venue.process.returncode, 0)
        return printed.strip()

    def count(self):
        """The application messages that were sent so far."""
        return sum(len(session.sent) for session in self.sessions)

    # Phases

    def settle(self, what, besides=()):
        """Runs until each participant has sent what it had to, and was answered."""
        sessions = [session for session in self.active() if session.place not in besides]

        def waiting():
            return [each for each in sessions if not each.is_idle()]

        def failure():
            return f"{what}: {[(each.name, len(each.pending)) for each in waiting()]}"

        self.hub.run_until(lambda: not waiting(), PHASE_SECONDS, failure)
        for session in sessions:
            self.traders[session.place].learn(session.taken)
        hub, memory = self.hub, self.memory.resident() // 1_000_000
        self.note(f"{what}: {self.count()} sent, {hub.received} received, {hub.entries} entries, {memory} MB")

    def give(self, place, items):
        self.sessions[place].begin(items)

    def looks(self, what):
        """A snapshot of each instrument."""
        places = itertools.cycle(session.place for session in self.active())
        found = []
        for instrument, place in zip(self.market.instruments, places):
            item = self.traders[place].look(instrument)
            found.append((place, item[2]))
            self.give(place, [item])
        self.settle(what)
        texts = {}
        for session in self.sessions:
            for each in session.taken[-2 * len(self.market.instruments) :]:
                if each.kind == "W":
                    texts[session.place, each.text.split("|", 1)[0]] = each.text
        snapshots = [texts[key] for key in found]
        resting = sum(text.count("|278=") for text in snapshots)
        self.note(f"{what}: {resting} orders rest")
        return snapshots, resting

    def fill(self):
        """Both sides of each instrument, up to what the crosses will add."""
        market, limit = self.market, SIDE_LIMIT
        self.crossed = (market.of_delay[USUAL_DELAY] * 5)[: market.held]
        of_place = [[] for _ in range(PARTICIPANTS)]
        for instrument in market.instruments:
            crosses = self.crossed.count(instrument)
            for j in range(limit):
                for side, less in ((BUY, (crosses + 1) // 2), (SELL, crosses // 2)):
                    if j < limit - less:
                        # (orders that are linked with it for an hour would keep an order from filling all)
                        is_slows = j % 20 < SLOWS_SHARE or instrument.delay == LONG_DELAY
                        place = SLOW if is_slows else (j * 7 + market.listed[instrument.symbol]) % SLOW
                        of_place[place].append((instrument, side, NEAR + j % LEVELS))
        for place, orders in enumerate(of_place):
            trader = self.traders[place]
            self.give(place, (trader.away(*order) for order in orders))
        self.settle("both sides are filled")

    def hold(self):
        """Crosses, until the most sides are held; one more is refused, and an order on each full side."""
        counts = {}
        for k, instrument in enumerate(self.crossed):
            j = counts[instrument.symbol] = counts.get(instrument.symbol, -1) + 1
            first, ticks = ((BUY, -1), (SELL, 2), (BUY, 0), (SELL, 1))[j % 4]
            self.give(k % SLOW, [self.traders[k % SLOW].cross(instrument, first, ticks)])
        self.settle(f"{len(self.crossed)} sides are held")
        # (by one who has no part in what it would meet)
        instrument = self.crossed[0]
        owners = {k % SLOW for k, each in enumerate(self.crossed) if each == instrument}
        place = next(k for k in UNRELATED if k not in owners)
        self.give(place, [self.traders[place].cross(instrument, BUY, 200, instrument.least)])
        for k, (instrument, side) in enumerate(itertools.product(self.market.instruments, (BUY, SELL))):
            self.give(k % SLOW, [self.traders[k % SLOW].away(instrument, side, FAR)])
        self.settle("one more order on each side")
        self.expect_full(self.looks("snapshots of full sides")[1])

    def expect_full(self, resting):
        expect("the orders that rest", resting, 2 * SIDE_LIMIT * len(self.market.instruments))

    def ask(self):
        """Open rooms, quotes by all that were asked, and one withdrawal of all quotes of one of them."""
        places = [k for k in range(SLOW) if k != MAKER]
        for k in range(self.market.rooms + 1):
            place = places[k % len(places)]
            trader = self.traders[place]
            instrument = self.market.long_lived[k % len(self.market.long_lived)]
            item = trader.request(instrument, trader.recipients(MAKER), (None, BUY, SELL)[k % 3])
            self.give(place, [item, trader.look(instrument)] if k % 16 < 2 else [item])
        for place in places:
            self.give(place, [self.traders[place].look(self.market.instruments[0])])
        self.settle(f"{self.market.rooms} rooms are open")
        self.barrier("the requests are sent on")
        for place, trader in enumerate(self.traders):
            self.give(place, trader.quotes())
        self.settle("all have quoted")
        before = len(self.sessions[MAKER].taken)
        self.give(MAKER, [("Z", "298=4|", None)])
        self.barrier("one has withdrawn all quotes")
        withdrawn = sum(each.text.endswith("|297=17|") for each in self.sessions[MAKER].taken[before:])
        expect("the quotes that were withdrawn", withdrawn, len(self.traders[MAKER].quoted))
        for place in places:
            trader = self.traders[place]
            offered, trader.kept, trader.offered = trader.offered[:-KEPT], trader.offered[-KEPT:], []
            self.give(place, (trader.respond(quote, "1") for quote, _ in offered[::40]))
            self.give(place, (trader.respond(quote, "6") for quote, _ in offered[7::40]))
        self.settle("some have traded")

    def rest(self):
        """Nobody sends anything but heartbeats, and some answers to TestRequests alone, until held sides were due."""
        for place in ANSWERS_TESTS:
            self.sessions[place].answers_tests_alone = True
        self.hub.run_for(DELAY_SECONDS)
        for place in ANSWERS_TESTS:
            self.sessions[place].answers_tests_alone = False
        self.barrier("the held sides were due")

    def barrier(self, what):
        """Waits until all that was sent before was answered to all, as two rounds of snapshots show: the answers of a
        participant come in the order in which the venue made them."""
        for _ in range(2):
            for session in self.active():
                self.give(session.place, [self.traders[session.place].look(self.market.instruments[-1])])
            self.settle(what)

    def active(self):
        return [session for session in self.sessions if session.name not in self.cut]

    def overwhelm(self):
        """A participant that does not read, while orders fill against all of its own: it is cut."""
        slow = self.sessions[SLOW]
        owed = self.resting_of(SLOW)
        slow.break_line()
        self.hub.run_for(1.0)
        slow.connect(reads=False)
        for k in range(UNREAD_SNAPSHOTS):
            kind, fields, _ = self.traders[SLOW].look(self.market.instruments[k % len(self.market.instruments)])
            slow.send(kind, fields)
        slow.flush()
        began = time.monotonic()
        # (all at once, since it is disconnected after five seconds)
        sweeps = itertools.product(self.market.instruments, (BUY, SELL))
        for k, (instrument, side) in enumerate(sweeps):
            self.sessions[k % SWEEPERS].send(*self.traders[k % SWEEPERS].sweep(instrument, side))
        self.memory.unread = owed
        self.settle("the book is swept", besides=(SLOW,))
        took = time.monotonic() - began
        if owed < QUEUE_LIMIT + SPARE:
            slow.read_again()
            self.settle(f"{slow.name} was owed {owed} reports: too few for a cut")
            return
        self.drain(slow)
        if not self.accepts_nobody(slow):
            if took > UNREAD_SECONDS:
                raise TooSlow(f"{owed} reports took {took:.1f} s, and who reads nothing is disconnected after 5 s")
            raise slow.fault(
                "a participant that does not read",
                f"cut, with {owed} reports owed to it",
                f"its port accepts a Logon; the reports took {took:.1f} s, and it is disconnected after 5 s",
            )
        self.cut = (slow.name,)
        self.note(f"{slow.name} was cut: {owed} reports were owed to it, the orders took {took:.1f} s")

    def resting_of(self, place):
        """How many orders of this participant rest, as it knows."""
        return len(self.traders[place].orders)

    def drain(self, slow):
        """Reads what was written to the slow participant, up to the end of its connection."""
        ended = []
        slow.on_drop = ended.append
        slow.read_again()
        if self.closes_cut:
            self.hub.run_until(lambda: ended, CUT_SECONDS, lambda: f"the end of {slow.name}'s connection")
        else:
            self.hub.run_for(NO_LOGON_SECONDS)
            slow.break_line()

    def accepts_nobody(self, slow):
        """Whether its port answers no Logon."""
        try:
            slow.connect()
        except ConnectionRefusedError:
            return True
        ended = []
        slow.on_drop = ended.append
        since = time.monotonic()
        while time.monotonic() < since + NO_LOGON_SECONDS and not ended and not slow.is_up:
            self.hub.turn()
        is_cut = not slow.is_up
        slow.break_line()
        return is_cut

    def churn(self, count):
        """Random messages of all, while some participants are silent and dropped."""
        for place in range(SLOW):
            taken = self.sessions[place].taken
            self.give(place, self.traders[place].churn(max(20, count // SLOW), taken))
        for place in SILENT:
            self.fall_silent(self.sessions[place])
        self.settle("random messages")
        self.barrier("all is answered")

    def fall_silent(self, session):
        """Sends nothing until it was tested and dropped, and then goes on."""
        self.hub.run_for(0.5)
        session.is_mute, session.test_at = True, None
        dropped = []
        session.on_drop = dropped.append
        patience = session.heartbeat + -(-session.heartbeat // 5)
        since = session.last_sent
        limit = 2 * patience + Limits.answer
        self.hub.run_until(lambda: dropped, limit, lambda: f"{session.name} is silent, and not dropped")
        if session.test_at is None:
            raise session.fault("silence", "a TestRequest before it is dropped", "none")
        tested, ended = session.test_at - since, time.monotonic() - since
        if tested < patience - 0.2 or ended < 2 * patience - 0.2:
            raise session.fault("silence", f"a test after {patience} s, an end after twice that", (tested, ended))
        self.note(f"{session.name} was silent: tested after {tested:.1f} s, dropped after {ended:.1f} s")
        session.is_mute = False
        session.connect()

    def refill(self):
        """Full sides again, of what the snapshots show to be missing."""
        snapshots, _ = self.looks("snapshots before the second filling")
        places = itertools.cycle(range(SLOW))
        for instrument, text in zip(self.market.instruments, snapshots):
            for side, entry in ((BUY, "|269=0|"), (SELL, "|269=1|")):
                missing = SIDE_LIMIT - text.count(entry)
                for j, place in zip(range(missing), places):
                    self.give(place, [self.traders[place].away(instrument, side, FAR + j % LEVELS)])
        self.settle("both sides are filled again")
        self.expect_full(self.looks("snapshots of full sides")[1])

    def log_out(self):
        self.barrier("all is answered")
        self.seconds += time.monotonic() - self.connected
        for session in self.active():
            session.log_out()

        def failure():
            return f"no Logout: {[session.name for session in self.active() if session.connection]}"

        self.hub.run_until(lambda: not any(session.connection for session in self.sessions), Limits.answer, failure)

    def leave(self):
        self.barrier("all is answered")
        self.seconds += time.monotonic() - self.connected
        for session in self.active():
            session.break_line()

    # The two runs of the venue

    def first_run(self):
        self.begin()
        self.fill()
        self.hold()
        self.ask()
        self.rest()
        self.overwhelm()
        rest = 2 * SIDE_LIMIT * len(self.market.instruments)
        self.churn(max(2_000, self.options.messages - self.count() - rest))
        self.hub.run_for(SHORT_DELAY / 1000 + 0.5)
        self.refill()
        self.leave()

    def second_run(self):
        self.begin()
        for trader in self.traders:
            trader.forget([])
        self.looks("snapshots of a venue that began again")
        for place in range(PARTICIPANTS):
            trader = self.traders[place]
            self.give(place, (trader.respond(quote, "1") for quote, _ in trader.kept))
            self.give(place, [trader.repeated(trader.an_order(), "11", trader.used)])
            self.give(place, (trader.cancel(name) for name in trader.held[-5:]))
            self.give(place, [trader.look(self.market.instruments[0])])
        self.settle("quotes, identifiers and held sides of before")
        self.churn(max(1_000, self.options.messages // 50))
        self.log_out()


def stop_words(program, path):
    """The option of a stop file, where the program knows it."""
    shown = subprocess.run([program, "serve", "--help"], capture_output=True, text=True, check=False)
    return ["--stop-file", path] if "--stop-file" in shown.stdout + shown.stderr else []


class Examiner:
    """What is checked after each run of the venue; the reference goes through all rows of the trail."""

    def __init__(self, day, folder):
        self.day, self.folder = day, folder
        self.reference = Reference(day.market.names, day.market.related, day.market.instruments)
        self.rows = self.messages = 0
        self.fills = 0

    def rows_behind(self):
        """The rows that were not looked at yet, numbered, of a copy of the trail."""
        items = items_of(copied(self.day.trail, self.folder))
        expect("the rows' own numbers", [item[0] for item in items], list(range(1, len(items) + 1)))
        found = [
            (n, Row(who, number, moment, text.replace(SOH, b"|").decode("ascii")))
            for n, who, number, moment, text in items[self.rows :]
        ]
        self.rows = len(items)
        self.messages += sum(row.who > 0 for _, row in found)
        return found

    def examine(self, closing):
        began, day, reference = time.monotonic(), self.day, self.reference
        rows = self.rows_behind()
        if closing is not None:
            expect("the closing line", closing, f"closed sessions {PARTICIPANTS} taken {self.messages}")
        first = len(reference.trades)
        checks.compare_rows(rows, day.sessions, day.cut)
        most = checks.compare_replies(reference, rows, day.sessions, day.cut)
        takens = [(session.name, session.taken) for session in day.sessions]
        for name, taken in takens:
            checks.adds_up(name, taken, self.rows > len(rows))
        reported = checks.both_sides(takens, day.cut)
        expected = {line.split(" ", 1)[0] for line in reference.trades[first:]}
        if reported - expected or (expected - reported and not day.cut):
            raise Fault(f"the trades that were reported\n  expected: {len(expected)}\n  received: {len(reported)}")
        took = time.monotonic() - began
        day.note(f"{len(rows)} rows, and each reply to them, are as they must be (checked in {took:.0f} s)")
        return most

    def compare_trades(self):
        """Compares what sef_replay prints of the trail with the reference's trades."""
        status, printed, fault = replayed(self.day.options.sef_replay, self.day.trail)
        expect("sef_replay's status and fault", (status, fault), (0, ""))
        pairs = itertools.zip_longest(printed.splitlines(), self.reference.trades)
        for k, (found, expected) in enumerate(pairs):
            if found != expected:
                raise Fault(f"line {k + 1} of sef_replay\n  expected: {expected}\n  received: {found}")
        self.day.note(f"sef_replay prints the same {len(self.reference.trades)} trades")

    def expect_whole(self, most):
        """What a day of full size has to have had: each cause of a refusal, each limit, each way of a line."""
        missing = [cause for cause in " ".join(CAUSES.split("\n")).split(", ") if not self.reference.causes[cause]]
        expect("the causes that no refusal had", missing, [])
        expect("whether a withdrawal had 2,000 replies", most["Z"] >= 2_000, True)
        expect("whether an order had 200 fills", most["D"] >= 401, True)
        expect("whether sides that were held entered", most["tick"] >= 1_000, True)


def options_given():
    parser = argparse.ArgumentParser(usage=__doc__.split("\n\n")[1].removeprefix("usage: "))
    parser.add_argument("venue_main")
    parser.add_argument("sef_replay")
    parser.add_argument("--scale", type=float, default=1.0)
    parser.add_argument("--messages", type=int)
    parser.add_argument("--seed", default="1")
    parser.add_argument("--answer", type=float, default=Limits.answer)
    parser.add_argument("--spare", type=int, default=Memory.spare // 1_000_000)
    parser.add_argument("--folder", default="out/soak")
    options = parser.parse_args()
    options.messages = options.messages or round(MESSAGES * options.scale)
    Limits.answer, Memory.spare = options.answer, options.spare * 1_000_000
    return options


def figures(day, examiner, seconds, memory):
    """The last line."""
    parts = "/".join(str(memory.at_part(part)) for part in (0.25, 0.5, 0.75, 1))
    hub = day.hub
    return (
        f"soak: {examiner.messages} messages, {examiner.messages / seconds:.0f} a second; memory {parts} MB at 25/50/75/100 %; "
        f"greatest round trip {hub.greatest:.2f} s; {time.monotonic() - day.began:.0f} s"
    )


def main():
    options = options_given()
    # (what a soak keeps makes no cycles, and looking for them takes long)
    gc.disable()
    shutil.rmtree(options.folder, ignore_errors=True)
    os.makedirs(options.folder)
    day = Day(options, options.folder)
    try:
        run(day, Examiner(day, options.folder))
    except TooSlow as fault:
        print(f"not run to its end: {fault}")
    except Fault:
        if day.venue:
            print(f"the venue's standard error ends: {day.venue.log()[-LOG_SHOWN:]}", flush=True)
        raise
    finally:
        if day.venue:
            day.venue.stop()


def run(day, examiner):
    day.first_run()
    most = examiner.examine(day.end())
    memory, greatest = day.memory, (day.hub.greatest, day.hub.greatest_of)
    of_lines = {
        what: sum(getattr(session, what) for session in day.sessions)
        for what in ("breaks", "repeats", "recovered", "filled", "tests", "rejects")
    }
    day.note("of all lines: " + ", ".join(f"{count} {what}" for what, count in of_lines.items()))
    day.cut = ()
    day.second_run()
    examiner.examine(day.end())
    examiner.compare_trades()
    causes = sorted(examiner.reference.causes.items(), key=lambda each: -each[1])
    day.note("refusals: " + ", ".join(f"{count} {cause}" for cause, count in causes))
    if day.options.scale >= 1:
        examiner.expect_whole(most)
        expect("what no line had", [what for what, count in of_lines.items() if not count], [])
    day.hub.greatest, day.hub.greatest_of = max(greatest, (day.hub.greatest, day.hub.greatest_of))
    print(figures(day, examiner, day.seconds, memory))


if __name__ == "__main__":
    main()
