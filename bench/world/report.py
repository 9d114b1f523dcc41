"""Writes what participants send, and times test_scenarios over it: through the world, the sessions alone and the venue
alone."""

import os
import subprocess
import sys

PROGRAM = "crates/test_scenarios/out/test_scenarios"
SENT = "52=20250303-14:30:00|"
LOGON = ("A", "98=0|108=30|1137=9|")
# the participants, and those of them that send
CROWDS = ((2, 2), (5, 5), (32, 32), (32, 2))
# in RFQ rooms a request asks three others
ROOM_CROWDS = ((5, 5), (32, 32))
# the messages before those that are timed
BEFORE = (10, 1_000, 100_000)
# the messages that are timed: eleven batches of 100
TIMED = 1_100
SAMPLES = 3


def order(number, symbol, side):
    return "D", f"11=n{number}|55={symbol}|54={side}|38=100|40=2|44=2.5|"


def refused(number, senders):
    """An order in an instrument that is not listed."""
    return number % senders, order(number, "NONE", 1)


def rested_and_cancelled(number, senders):
    """An order that rests, or the cancel of the previous one."""
    who = number // 2 % senders
    if number % 2 == 0:
        return who, order(number, "IRS5Y", 1)
    return who, ("F", f"11=n{number}|41=n{number - 1}|")


def traded(number, senders):
    """An order that rests, or one of the next participant that fills it."""
    return number % senders, order(number, "IRS5Y", 1 + number % 2)


def quoted_and_hit(number, senders):
    """A request to the next three participants, a quote of the first of them, or the hit that ends the room."""
    room, step = divmod(number, 3)
    who = room % senders
    if step == 0:
        asked = "".join(f"448={name((who + k) % senders)}|447=D|452=35|" for k in (1, 2, 3))
        return who, ("R", f"131=n{number}|146=1|55=IRS5Y|54=1|38=100|453=3|{asked}")
    if step == 1:
        return (who + 1) % senders, ("S", f"117=n{number}|131=R{room + 1}|55=IRS5Y|133=2.5|")
    return who, ("AJ", f"693=n{number}|117=Q{room + 1}|694=1|")


KINDS = (
    ("refused", refused, CROWDS),
    ("rested and cancelled", rested_and_cancelled, CROWDS),
    ("traded", traded, CROWDS),
    ("a request, its quote or its hit", quoted_and_hit, ROOM_CROWDS),
)


def name(index):
    return f"P{index + 1:02}"


def frame(index, number, kind, fields):
    body = f"35={kind}|49={name(index)}|56=SEF|34={number}|{SENT}{fields}"
    text = f"8=FIXT.1.1|9={len(body)}|{body}".replace("|", "\x01").encode()
    return b"%d " % index + text + b"10=%03d\x01\n" % (sum(text) % 256)


def stream(participants, senders, messages, kind):
    """The participant file, and the frames: a Logon of each participant, and then the messages, this many in all."""
    entries = "\n".join(f'[[participant]]\nname = "{name(index)}"' for index in range(participants))
    lines = [f'venue = "SEF"\n{entries}\n\n'.encode()]
    lines += [frame(index, 1, *LOGON) for index in range(participants)]
    numbers = [2] * participants
    for number in range(messages - participants):
        index, message = kind(number, senders)
        lines.append(frame(index, numbers[index], *message))
        numbers[index] += 1
    return b"".join(lines)


def timings(path):
    """What test_scenarios prints of a message: nanoseconds through the world, the sessions and the venue."""
    with open(path, "rb") as file:
        output = subprocess.run([PROGRAM, "timed"], stdin=file, check=True, capture_output=True, text=True).stdout
    words = output.splitlines()[-1].split()
    return dict(zip(words[::2], map(int, words[1::2])))


def best(samples):
    """The best of the samples: each part by itself."""
    return {part: min(sample[part] for sample in samples) for part in samples[0]}


def measure(kind, crowds, before, directory):
    """For each crowd, what a message takes after this many others, the crowds alternately."""
    paths = [os.path.join(directory, f"world_{n}_{senders}.in") for n, senders in crowds]
    for path, crowd in zip(paths, crowds):
        with open(path, "wb") as file:
            file.write(stream(*crowd, before + TIMED, kind))
    samples = [[timings(path) for path in paths] for _ in range(SAMPLES)]
    for path in paths:
        os.remove(path)
    return [best(each) for each in zip(*samples)]


def main():
    most, directory = int(sys.argv[1]), sys.argv[2]
    for what, kind, crowds in KINDS:
        for before in (before for before in BEFORE if before <= most):
            print(f"{what}, {before} messages before:")
            found = measure(kind, crowds, before, directory)
            for (n, senders), it in zip(crowds, found):
                rest = it["world"] - it["sessions"] - it["venue"]
                print(
                    f"  {n} participants, {senders} send: {it['world']} ns "
                    f"(sessions {it['sessions']}, venue {it['venue']}, the world's own {rest}), "
                    f"ratio to {crowds[0][0]} participants {it['world'] / found[0]['world']:.2f}",
                    flush=True,
                )


if __name__ == "__main__":
    main()
