"""Venues that serve, each in a process of its own: the one of this repository and one of stock parts; and the clients
that load them. For the benchmarks."""

import os
import statistics
import subprocess
import threading

PROGRAM = os.environ.get("VENUE_MAIN", "crates/venue_main/out/venue_main")
PARTICIPANTS, INSTRUMENTS = "examples/participants.toml", "examples/instruments.toml"
NAMES = ("ALPHA", "BETA", "GAMMA", "DELTA", "EPSILON")
SYMBOLS = ("IRS5Y", "BASIS1Y")
ENDLESS = "1000000000"  # turns
READY = "ready\n"  # what a client prints once it is logged on
TICKS = os.sysconf("SC_CLK_TCK")

SETTINGS = """[DEFAULT]
ConnectionType=acceptor
BeginString=FIXT.1.1
DefaultApplVerID=9
SenderCompID=SEF
StartTime=00:00:00
EndTime=00:00:00
CheckLatency=N
SocketNodelay=Y
HeartBtInt=3600
"""

# those of the venue of this repository; a message may have more fields than they name
DICTIONARIES = """UseDataDictionary=Y
TransportDataDictionary=dist/transport.xml
AppDataDictionary=dist/application.xml
AllowUnknownMsgFields=Y
"""


class Venue:
    """A venue that serves in a process of its own: its name, its first port, and its command line."""

    def __init__(self, name, port, words, ready, names=NAMES, **how):
        self.name, self.port, self.names, self.runs = name, port, names, 0
        self.process = subprocess.Popen(words, stdout=subprocess.PIPE, stderr=subprocess.STDOUT, text=True, **how)
        for line in self.process.stdout:
            if ready(line):
                threading.Thread(target=self.process.stdout.read, daemon=True).start()
                return
        raise SystemExit(f"{name} does not listen")

    def spent(self):
        """Processor seconds so far, of user and system."""
        with open(f"/proc/{self.process.pid}/stat", encoding="utf-8") as file:
            fields = file.read().rsplit(")", 1)[1].split()
        return (int(fields[11]) + int(fields[12])) / TICKS

    def on_processor(self):
        """Processor seconds so far of its threads, by the scheduler, which counts nanoseconds."""
        folder = f"/proc/{self.process.pid}/task"
        total = 0
        for thread in os.listdir(folder):
            with open(f"{folder}/{thread}/schedstat", encoding="utf-8") as file:
                total += int(file.read().split()[0])
        return total / 1e9

    def resident(self):
        """Bytes of memory that it has at present."""
        with open(f"/proc/{self.process.pid}/statm", encoding="utf-8") as file:
            return int(file.read().split()[1]) * os.sysconf("SC_PAGE_SIZE")

    def client(self, program, who, *words, begin=subprocess.DEVNULL):
        """A client as the participant of this index, which begins once this file ends."""
        self.runs += 1
        words = [program, str(self.port + who), self.names[who], *map(str, words)]
        return subprocess.Popen(words, stdin=begin, stdout=subprocess.PIPE, text=True)

    def loading(self, directory, symbol, messages, how, who, begin=subprocess.DEVNULL):
        """The load client, as the participant of this index, which begins once this file ends."""
        return self.client(f"{directory}/load", who, symbol, messages, how, self.runs + 1, begin=begin)

    def load(self, directory, symbol, messages, how, who=0):
        """What the load client prints, by its words, as the participant of this index."""
        return printed_by(self.loading(directory, symbol, messages, how, who))

    def load_all(self, directory, symbol, messages, how, count):
        """The same of this many participants, who begin together once all are logged on."""
        clients = together(lambda who, begin: self.loading(directory, symbol, messages, how, who, begin), count)
        return [printed_by(client) for client in clients]

    def end(self):
        self.process.terminate()
        self.process.wait()


def together(starting, count):
    """This many clients, who begin together once all are logged on."""
    begin, held = os.pipe()
    clients = [starting(who, begin) for who in range(count)]
    os.close(begin)
    logged_on = [client.stdout.readline() == READY for client in clients]
    os.close(held)
    if not all(logged_on):
        raise SystemExit("a client does not log on")
    return clients


def numbers_in(line):
    """The numbers of a line of words and numbers, by their words."""
    words = line.split()
    return dict(zip(words[::2], map(int, words[1::2])))


def printed_by(client):
    line = client.communicate()[0].removeprefix(READY)
    if client.returncode:
        raise SystemExit("a client of load ends before its last answer")
    return numbers_in(line)


def ours(port, *options, names=NAMES, participants=PARTICIPANTS, instruments=INSTRUMENTS, program=PROGRAM):
    """The venue of this repository, which is ready once it has printed the port of each participant."""
    listening = []

    def is_ready(line):
        listening.extend([line] if " at 127.0.0.1:" in line else [])
        return len(listening) == len(names)

    files = ("--participants", participants, "--instruments", instruments)
    words = [program, "serve", *files, "--port", str(port), "--turns", ENDLESS, *options]
    return Venue("dazhwiro" if program == PROGRAM else "before", port, words, is_ready, names)


def peer(directory, port, *trail, names=NAMES, symbols=SYMBOLS, with_groups=False):
    """QuickFIX's engine, with a book in a map; `with_groups` reads repeating groups, by dictionaries."""
    sessions = (f"\n[SESSION]\nTargetCompID={name}\nSocketAcceptPort={port + k}\n" for k, name in enumerate(names))
    with open(f"{directory}/quickfix.cfg", "w", encoding="utf-8") as file:
        file.write(SETTINGS + (DICTIONARIES if with_groups else "UseDataDictionary=N\n") + "".join(sessions))
    words = [f"{directory}/quickfix_venue", f"{directory}/quickfix.cfg", *trail]
    environment = {**os.environ, "SYMBOLS": ",".join(symbols)}
    return Venue("QuickFIX", port, words, lambda line: line.strip() == "ready", names, env=environment)


def write_market(directory, names, symbols, more=""):
    """The files of a market with these participants, unrelated, and these instruments, each with these lines more."""
    participants, instruments = (f"{directory}/{each}.toml" for each in ("participants", "instruments"))
    with open(participants, "w", encoding="utf-8") as file:
        file.write('venue = "SEF"\n' + "".join(f'[[participant]]\nname = "{name}"\n' for name in names))
    with open(instruments, "w", encoding="utf-8") as file:
        for symbol in symbols:
            file.write(f'[[instrument]]\nsymbol = "{symbol}"\ntick = 2500\nleast = 1\nrfq_life = 86400\n{more}')
    return {"participants": participants, "instruments": instruments}


def spread(figures, digits=0):
    """The median of the samples, and the least and the greatest."""
    least, middle, most = (
        f"{each:,.{digits}f}" for each in (min(figures), statistics.median(figures), max(figures))
    )
    return f"{middle} ({least} to {most})"


def fresh(path):
    """The path of a trail that is not there yet, nor its log."""
    for each in (path, path + "-wal", path + "-shm"):
        if os.path.exists(each):
            os.remove(each)
    return path
