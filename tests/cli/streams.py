"""Streams that come in reads of stated lengths, reads that fail after them, writers that take no more, and a stream
with one long answer."""
import os
import resource
import select
import socket
import subprocess
import sys

sys.path.insert(0, os.path.join(os.path.dirname(os.path.abspath(__file__)), "..", "lib"))
from fix import message, wait_until  # noqa: E402

LONGEST = 60  # seconds
ANSWER = 93  # the bytes of what a Logon is answered
READS = 12_000  # of a byte each
PIECE = 4_096  # the most bytes of a read
ORDERS = 13_000  # whose reports, sent again, are one answer of more than a million bytes
STOPPED = "venue_main: stopped: {}\n"


def wait_until_read(end, ran):
    """Waits until the program has read all that came to this end."""

    def is_read():
        if ran.poll() is not None:
            raise SystemExit("tests/cli: the program does not read what comes")
        return not select.select([end], [], [], 0)[0]

    wait_until(is_read, LONGEST, "tests/cli: the program does not read what comes", 0.0005)


def fed(words, folder, pieces, fails):
    """Output, standard error and status, where each piece is a read of its own; after them the input ends or fails."""
    ours, its = socket.socketpair(socket.AF_UNIX, socket.SOCK_SEQPACKET)
    ours.settimeout(LONGEST)
    with ours, its:
        ran = subprocess.Popen(words, cwd=folder, stdin=its, stdout=subprocess.PIPE, stderr=subprocess.PIPE)
        for piece in pieces:
            ours.send(piece)
        wait_until_read(its, ran)
        if fails:
            # (a socket that is closed over what it did not read fails at its other end)
            its.send(b"unread")
            ours.close()
        else:
            ours.shutdown(socket.SHUT_WR)
        printed, stderr = ran.communicate(timeout=LONGEST)
    return printed, stderr.decode(), ran.returncode


def bytes_of(stream):
    return [stream[place : place + 1] for place in range(len(stream))]


def sent_again(once, folder):
    """How many reports of ORDERS orders come, and how many of these come again as all are asked for at once; the bytes
    of the latter, whether these are more than a million, and the status."""
    asked = [("A", "98=0|108=30|1137=9|"), *(("D", f"11=a{k}|55=NOPE|54=1|38=10|40=2|44=2.5|") for k in range(ORDERS))]
    asked += [("2", "7=1|16=0|"), ("1", "112=after|")]
    stream = b"".join(message(kind, "ALPHA", number + 1, fields) for number, (kind, fields) in enumerate(asked))
    ran = subprocess.run(once, cwd=folder, input=stream, capture_output=True, timeout=LONGEST, check=False)
    first, _, again = ran.stdout.partition(b"\x0143=Y\x01")
    counts = first.count(b"\x0135=8\x01"), again.count(b"\x0143=Y\x01"), again.count(b"\x01112=after\x01")
    return (*counts, len(again) > 1_000_000, ran.stderr, ran.returncode)


def written(words, folder, stream, path, size):
    """The output in a file of at most this size, and the program's standard error and status."""

    def limit():
        resource.setrlimit(resource.RLIMIT_FSIZE, (size, size))

    with open(path, "wb") as output:
        # (Python ignores the signal of a file that would be too long; so the program's write fails)
        ran = subprocess.run(
            words, cwd=folder, input=stream, stdout=output, stderr=subprocess.PIPE, timeout=LONGEST, check=False, preexec_fn=limit, restore_signals=False
        )
    found = b"" if path == "/dev/full" else open(path, "rb").read()
    return found, ran.stderr.decode(), ran.returncode


def rows(program, folder, streams):
    """Each row: its name, what was found, and what is expected. `streams` are the cases', with their answers."""

    def files(participants, instruments):
        return ["--participants", participants, "--instruments", instruments]

    once = [program, "once", *files("participants.toml", "instruments.toml"), "--at", "20250303-14:30:00"]
    for name in ("other_types", "number_too_low"):
        stream, answers = streams[name]
        for fails, stderr, status in ((False, "", 0), (True, STOPPED.format("input") + "  standard input\n", 1)):
            yield f"{name}, byte by byte{', and a read that fails' if fails else ''}", fed(once, folder, bytes_of(stream), fails), (answers, stderr, status)
    stream, answers = streams["linked_orders"]
    orders = stream.index(b"8=FIXT", 1)
    noisy = [stream[:orders], *(b"x" for _ in range(READS)), stream[orders:]]
    yield f"{READS} reads at which no frame begins", fed(once, folder, noisy, False), (answers, "", 0)
    noisy = [stream[:orders], *(count * b"x" for count in range(1, PIECE + 1)), stream[orders:]]
    yield "a read of each length", fed(once, folder, noisy, False), (answers, "", 0)
    # (a gap fill for the Logon is sent again too)
    yield "all that was sent, sent again", sent_again(once, folder), (ORDERS, ORDERS, 1, True, b"", 0)
    stopped = STOPPED.format("output"), 1
    yield "a writer that is full", written(once, folder, stream, "/dev/full", 1_000), (b"", *stopped)
    output = os.path.join(folder, "output")
    for size in (ANSWER, 0):
        yield f"a writer that takes {size} bytes", written(once, folder, stream, output, size), (answers[:size], *stopped)
    check = [program, "check", *files("participants.toml", "instruments.toml")]
    yield "check, to a writer that is full", written(check, folder, b"", "/dev/full", 1_000), (b"", *stopped)
