#!/usr/bin/env python3
"""A served venue is killed (SIGKILL) at random moments while two clients send orders; its trail is reopened each time.

usage: sigkill.py PORT VENUE_MAIN SEF_REPLAY [KILLS [SEED]]

VENUE_MAIN and SEF_REPLAY are the programs; PORT and the next four are the venue's ports. It is killed KILLS (100)
times at moments that come from SEED (1). Ten venues in succession use one file: the first is killed while it makes
the trail, each other while ALPHA and DELTA send orders and cancels, which trade, without waiting for the answers.

After each kill a copy of the file and its log has the rows of before, then of each client a prefix of what it sent,
row by row, with each message whose answer was received. sef_replay then reads the file itself, and prints each
trade that was received. The next venue begins from it.
"""

import os
import random
import re
import sys
import tempfile
import threading
import time

sys.path.insert(0, os.path.join(os.path.dirname(os.path.abspath(__file__)), "..", "lib"))
from checked_client import market  # noqa: E402
from fix import Client, Venue, expect, message, wait_until, wire  # noqa: E402
from trail import copied, replayed, rows_of  # noqa: E402

LIVES = 10  # venues over one file
WINDOW = 64  # messages of a client that wait for their answers
MAKING = 0.06  # seconds within which the first venue over a file is killed
LOADED = 300  # answers of both clients within which each other is killed
LATER = 0.01  # seconds after the last of these, within which it is
LONGEST = 120  # seconds for these answers
FIELD = re.compile(rb"\x01(11|17|35|150|880)=([^\x01]*)")


class Sender(threading.Thread):
    """A client that sends an order and its cancel by turns until its venue is gone."""

    def __init__(self, name, port, side, life):
        super().__init__(daemon=True)
        self.client = Client(name, port)
        self.side = side
        self.life = life
        self.sent = []  # as their rows have them
        self.answered = 0
        self.trades = set()
        self.fault = None

    def identifier(self, k):
        return f"{self.client.name}-{self.life}-{k}"

    def text(self, k):
        if k % 2:
            return f"35=F|11={self.identifier(k)}|41={self.identifier(k - 1)}|"
        quantity = 10 if self.side == 1 else 1 + k // 2 % 15
        return f"35=D|11={self.identifier(k)}|55=IRS5Y|54={self.side}|38={quantity}|40=2|44=2.5|"

    def fill_window(self):
        more = b""
        while len(self.sent) - self.answered < WINDOW:
            text = self.text(len(self.sent))
            self.sent.append(wire(text))
            self.client.number += 1
            more += message(text[3:4], self.client.name, self.client.number, text[5:])
        self.client.connection.sendall(more)

    def receive(self, received):
        fields = dict(FIELD.findall(received))
        if fields.get(b"150") == b"F":
            self.trades.add(fields[b"880"].decode("ascii"))
        elif fields[b"35"] in (b"8", b"9"):
            expect(f"{self.client.name}: the answer", fields[b"11"].decode("ascii"), self.identifier(self.answered))
            self.answered += 1

    def run(self):
        try:
            self.client.send("A", "98=0|108=0|1137=9|", quietly=True)
            self.client.next_message()
            while True:
                self.fill_window()
                self.receive(self.client.next_message())
                while self.client.has_whole_message():
                    self.receive(self.client.next_message())
        except OSError:
            return
        except SystemExit as fault:
            if "closed the line" not in str(fault):
                self.fault = str(fault)


class Kills:
    def __init__(self, port, venue_main, sef_replay, seed, folder):
        self.port = port
        self.venue_main = venue_main
        self.sef_replay = sef_replay
        self.dice = random.Random(seed)
        self.folder = folder
        self.files = market(folder)
        self.trail = None
        self.rows = []
        self.lives = 0
        self.unmade = self.answered = self.unanswered = self.trades = 0

    def begin_trail(self):
        self.trail = os.path.join(self.folder, f"trail{self.lives}")
        self.rows = []

    def killed(self):
        """A venue over the trail is begun and killed; the senders that it had."""
        with Venue(self.venue_main, self.files, self.port, "--trail", self.trail) as venue:
            if self.lives % LIVES == 0:
                time.sleep(self.dice.uniform(0, MAKING))
                senders = []
            else:
                venue.await_start()
                senders = [Sender("ALPHA", self.port, 1, self.lives), Sender("DELTA", self.port + 3, 2, self.lives)]
                for sender in senders:
                    sender.start()
                self.await_answers(senders, self.dice.randrange(LOADED))
                time.sleep(self.dice.uniform(0, LATER))
            if not venue.is_up():
                raise SystemExit(f"the venue ended by itself: {venue.log()}")
        for sender in senders:
            sender.join(30)
            expect("a client's fault", sender.fault, None)
        return senders

    def await_answers(self, senders, count):
        def have_come():
            return sum(sender.answered for sender in senders) >= count

        wait_until(have_come, LONGEST, f"{count} answers do not come", 0.0005)

    def compare_rows(self, senders):
        """Compares the rows of before, and of each sender a prefix of what it sent, with a row for each answer."""
        which = f"life {self.lives}"
        rows = rows_of(copied(self.trail, self.folder)) or []
        expect(f"{which}: the rows of before", rows[: len(self.rows)], self.rows)
        for sender, who in zip(senders, (1, 4)):
            kept = [text for by, text in rows[len(self.rows) :] if by == who]
            expect(f"{which}: the rows of {sender.client.name}", kept, sender.sent[: len(kept)])
            if len(kept) < sender.answered:
                found = f"{sender.answered} answers, and {len(kept)} rows"
                raise SystemExit(f"{which}: {sender.client.name} has {found}")
            self.answered += sender.answered
            self.unanswered += len(kept) - sender.answered
        expect(f"{which}: rows of others", [row for row in rows[len(self.rows) :] if row[0] not in (1, 4)], [])
        self.rows = rows

    def replay(self, senders):
        """Reads the file back, with the trades that were received; a file that is no trail yet is refused."""
        status, printed, fault = replayed(self.sef_replay, self.trail)
        if not senders and status == 3:
            expect("the refusal of a trail that was not made", (fault, self.rows), ("sef_replay: trail refused 1\n", []))
            self.unmade += 1
            return
        expect("sef_replay's status and fault", (status, fault), (0, ""))
        numbers = {line.split()[0] for line in printed.splitlines()}
        for sender in senders:
            expect("trades that were received and are not in the trail", sender.trades - numbers, set())
            self.trades += len(sender.trades)

    def life(self):
        if self.lives % LIVES == 0:
            self.begin_trail()
        senders = self.killed()
        self.compare_rows(senders)
        self.replay(senders)
        self.lives += 1


def main():
    if not 4 <= len(sys.argv) <= 6:
        raise SystemExit(__doc__)
    kills = int(sys.argv[4]) if len(sys.argv) > 4 else 100
    seed = sys.argv[5] if len(sys.argv) > 5 else "1"
    print(f"seed {seed}", flush=True)
    with tempfile.TemporaryDirectory() as folder:
        test = Kills(int(sys.argv[1]), sys.argv[2], sys.argv[3], seed, folder)
        while test.lives < kills:
            test.life()
    print(f"{test.answered} answers came, each with its row; {test.unanswered} rows had no answer yet")
    print(f"{test.trades} fills came; {test.unmade} venues were killed before there was a trail")
    print(f"killed {kills} times, and no row was lost")


if __name__ == "__main__":
    main()
