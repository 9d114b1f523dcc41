#!/usr/bin/env python3
"""A participant's orders, held side and quote are ended through its own port (pull_desk), while its engine hangs with
its connection open.

usage: pull.py VENUE_MAIN SEF_REPLAY

1. While the engine is heard, pull_desk is not let in, and nothing is ended.
2. Once nothing has come of it for ten seconds, all that it has is ended, and nothing of others. The trail's rows name
   the participant as their sender.
3. The engine comes back with its numbers, and with number 1, and is refused each time: nothing is requested of it, and
   nothing is entered. By 141=Y it is in.
"""

import os
import subprocess
import sys
import tempfile
import time

sys.dont_write_bytecode = True
from programs import DEPLOY, run  # noqa: E402

from fix import (  # noqa: E402
    PARTICIPANTS,
    Client,
    Files,
    Venue,
    expect,
    field,
    free_ports,
    limit_order,
    message,
    shown,
    timestamp,
)

# Its requests and its held sides outlive the test.
SLOW = '\n[[instrument]]\nsymbol = "SLOW"\ntick = 2500\nleast = 1\nrfq_life = 3600\ndelay_ms = 3600000\n'
CROSS = "548=x1|549=4|550=1|552=2|54=1|11=h1|38=10|54=2|11=h2|38=10|55=SLOW|40=2|44=2.4|"
REQUEST = "131=r1|146=1|55=SLOW|54=1|38=10|453=3|" + "".join(f"448={name}|447=D|452=35|" for name in ("BETA", "DELTA", "EPSILON"))


class Market:
    def __init__(self, venue_main, sef_replay, folder):
        self.files = Files(folder, SLOW)
        self.trail = os.path.join(folder, "day.trail")
        self.sef_replay = sef_replay
        self.port = free_ports(len(PARTICIPANTS), 31000)
        self.venue = Venue(venue_main, self.files, self.port, "--trail", self.trail)

    def client(self, name):
        return Client(name, self.port + PARTICIPANTS.index(name))

    def rests(self, name):
        return run(self.sef_replay, self.trail, "--rests", "--to", name).splitlines()[2:]

    def pull(self, wait, engine=None):
        """Runs pull_desk, while the engine, if one is given, is heard: its status and what it printed."""
        words = [self.trail, self.files.participants, "--name", "DELTA", "--port", str(self.port), "--wait", str(wait)]
        how = {"env": {**os.environ, "SEF_REPLAY": self.sef_replay}, "stdout": subprocess.PIPE, "text": True}
        with subprocess.Popen([os.path.join(DEPLOY, "pull_desk"), *words], **how) as pulling:
            while engine and pulling.poll() is None:
                engine.send("0", "", quietly=True)
                time.sleep(1)
            text = pulling.stdout.read()
        print(text, flush=True)
        return pulling.returncode, text

    def refused(self, number):
        """DELTA's engine logs on with this number: the one answer, and that the line ends."""
        engine = self.client("DELTA")
        engine.connection.sendall(message("A", "DELTA", number, "98=0|108=30|1137=9|", timestamp()))
        text = field(engine.next_message(), 58).decode()
        try:
            raise SystemExit(f"after the Logout comes {shown(engine.next_message())}")
        except SystemExit as end:
            expect("the end of the line", str(end), "DELTA: the venue closed the line")
        return text


def traded(market):
    """ALPHA has an order, and asks; DELTA, who is its engine's client, has two orders, a held side and a quote."""
    alpha, delta = market.client("ALPHA"), market.client("DELTA")
    alpha.log_on(heartbeat=0)
    delta.log_on(heartbeat=0)
    alpha.send("D", limit_order("a1", 1, 10, price="2.3"))
    alpha.await_field("11=a1")
    delta.send("D", limit_order("d1", 2, 10, price="2.6"))
    delta.await_field("11=d1")
    delta.send("s", CROSS)
    delta.await_field("11=h1")
    alpha.send("R", REQUEST)
    room = field(delta.await_field("35=R"), 131).decode()
    delta.send("S", f"117=q1|131={room}|55=SLOW|133=2.5|")
    quote = field(alpha.await_field("35=S"), 117).decode()
    return alpha, delta, quote


def main():
    venue_main, sef_replay = (os.path.abspath(path) for path in sys.argv[1:3])
    with tempfile.TemporaryDirectory() as folder:
        market = Market(venue_main, sef_replay, folder)
        with market.venue as venue:
            venue.await_start()
            alpha, delta, quote = traded(market)
            before = market.rests("DELTA")
            expect("what DELTA has", before[0], "DELTA: 2 orders rest, 1 side is held, 0 requests are open, 1 quote is live")
            expect("the status while the engine is heard", market.pull(0, delta)[0], 1)
            expect("what DELTA has then", market.rests("DELTA"), before)
            status, text = market.pull(60)
            expect("the status", status, 0)
            expect("cancels and their reports", (text.count("35=F|"), text.count("|150=4|"), text.count("|297=17|")), (3, 3, 1))
            expect("what is left", market.rests("DELTA"), ["DELTA: no order rests, no side is held, no request is open, no quote is live"])
            expect("what ALPHA has", market.rests("ALPHA")[0], "ALPHA: 1 order rests, 0 sides are held, 1 request is open, 0 quotes are live")
            alpha.send("AJ", f"693=j1|117={quote}|694=1|")
            expect("a hit of the quote", field(alpha.await_field("693=j1"), 297), b"17")
            rows = run(sef_replay, market.trail, "--answers").splitlines()
            expect("their rows", sum(" from DELTA," in row and "|11=PULL" in row for row in rows), 3)
            for number in (1, 20, 3000):
                expect("the answer", market.refused(number), f"MsgSeqNum too low, expecting 999999001 received {number}")
            expect("what DELTA has after its tries", len(market.rests("DELTA")), 1)
            engine = market.client("DELTA")
            engine.send("A", "98=0|108=30|1137=9|141=Y|")
            engine.await_field("141=Y")
            engine.send("D", limit_order("d1", 2, 10, price="2.6"))
            engine.await_field("103=6")
            engine.send("D", limit_order("d2", 2, 10, price="2.6"))
            engine.await_field("150=0")
            venue.end()
    print("what DELTA had was ended while its engine hung; its old numbers are refused")


main()
