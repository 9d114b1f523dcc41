"""Writes what a counterparty sends, and times test_scenarios, which feeds it to a session, and cksum over it,
alternately."""

import os
import subprocess
import sys
import time

PROGRAM = "crates/test_scenarios/out/test_scenarios"
SENT = "52=20250303-14:30:00|"
LOGON = ("A", "98=0|108=30|1137=9|")
OTHERS = (
    lambda n: ("0", ""),
    lambda n: ("1", f"112=test-{n}|"),
    lambda n: ("D", f"11=order-{n}|55=IRS5Y|54=1|38=100|40=2|44=2.5|"),
)
SAMPLES = 3


def frame(number, kind, fields):
    body = f"35={kind}|49=ALPHA|56=SEF|34={number}|{SENT}{fields}"
    text = f"8=FIXT.1.1|9={len(body)}|{body}".replace("|", "\x01").encode()
    return text + b"10=%03d\x01" % (sum(text) % 256)


def stream(frames):
    """A Logon, then Heartbeats, TestRequests and orders, cyclically, this many frames in all; and how many of them are
    orders."""
    kinds = [LOGON] + [OTHERS[(n - 2) % 3](n) for n in range(2, frames + 1)]
    orders = sum(kind == "D" for kind, _ in kinds)
    return b"".join(frame(n + 1, *kinds[n]) for n in range(frames)), orders


def timed(words, path):
    """The seconds that a program takes for the bytes of a file, and what it prints."""
    with open(path, "rb") as file:
        start = time.monotonic()
        output = subprocess.run(words, stdin=file, check=True, capture_output=True, text=True).stdout
        return time.monotonic() - start, output


def main():
    frames, directory = int(sys.argv[1]), sys.argv[2]
    path = os.path.join(directory, "session.fix")
    sent, orders = stream(frames)
    with open(path, "wb") as file:
        file.write(sent)
    best = {}
    for _ in range(SAMPLES):
        for name, words in (("session", [PROGRAM, "feed"]), ("cksum", ["cksum"])):
            seconds, output = timed(words, path)
            if name == "session" and not output.startswith(f"frames: {frames}, orders: {orders}, "):
                raise SystemExit(f"bench/session: the session received otherwise: {output}")
            best[name] = min(seconds, best.get(name, seconds))
            megabytes = len(sent) / 1e6
            print(f"{name}: {frames / seconds:.0f} frames a second, {megabytes / seconds:.1f} MB a second", flush=True)
    print(f"ratio of the best samples, time of the session to time of cksum: {best['session'] / best['cksum']:.1f}")
    os.remove(path)


if __name__ == "__main__":
    main()
