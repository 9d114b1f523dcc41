"""Messages of each size: identifiers, texts and types of each length, orders with more and more fields, requests with
each count of parties, bodies of each length; and many crosses. Each is answered as docs/PROTOCOL.md says."""
import os
import subprocess
import sys

sys.path.insert(0, os.path.join(os.path.dirname(os.path.abspath(__file__)), "..", "lib"))
from fix import frame, message, wire  # noqa: E402

LONGEST = 60  # seconds
AT = "20250303-14:30:00"
LOGON = "98=0|108=30|1137=9|"
ID, TEXT = 64, 200  # the most bytes of an identifier and of a text
RESTING = 190  # orders with more and more fields, of at most 200 that rest on a side
PARTIES = 64  # the most
BODIES = range(100, 8_193)  # each length of a body, up to the greatest
TESTS, CROSSES = 5_100, 20_100


def identifiers():
    return [length * "a" for length in range(1, ID + 1)]


def asked_and_owed():
    """Each message, and what it is answered, if anything: MsgType and fields."""
    reports = 0
    for count in range(RESTING):
        reports += 1
        unknown = "".join(f"{5_001 + k}=1|" for k in range(count))
        yield ("D", f"11=f{count}|55=IRS5Y|54=1|38={count + 1}|40=2|44=2.5|{unknown}"), ("8", f"37=O{reports}|17=E{reports}|150=0|39=0|55=IRS5Y|54=1|151={count + 1}|14=0|11=f{count}|")
    for name in identifiers():
        reports += 1
        yield ("D", f"11={name}|583={name}|55=NOPE|54=2|38=10|40=2|44=2.5|"), ("8", f"37=NONE|17=E{reports}|150=8|39=8|55=NOPE|54=2|151=0|14=0|11={name}|103=1|58=Unknown instrument|")
        yield ("F", f"11={name}|41={name}|"), ("9", f"37=NONE|11={name}|41={name}|39=8|434=1|102=1|58=Unknown order|")
        yield ("V", f"262={name}|263=0|264=0|267=1|269=0|146=1|55={name}|"), ("Y", f"262={name}|281=0|58=Unknown instrument|")
        yield ("S", f"117={name}|131={name}|55={name}|"), ("AI", f"117={name}|131={name}|297=5|300=99|58=Unknown request|")
        yield ("AJ", f"693={name}|117={name}|694=1|"), ("AI", f"117={name}|693={name}|297=9|")
        yield ("Z", f"117={name}|298=5|"), ("AI", f"117={name}|297=9|")
        yield ("1", f"112={name}|"), ("0", f"112={name}|")
    for _ in range(TESTS):
        yield ("1", "112=t|"), ("0", "112=t|")
    for length in range(1, TEXT + 1):
        yield ("3", f"45=1|58={'x' * length}|"), None
    for count in range(1, PARTIES + 1):
        why = "Too few recipients" if count == 1 else "Recipient twice"
        parties = count * "448=BETA|447=D|452=35|"
        yield ("R", f"131=p|146=1|55=IRS5Y|54=1|38=10|453={count}|{parties}"), ("AG", f"131=p|658=99|146=1|55=IRS5Y|58={why}|")
        strangers = count * f"448={ID * 'z'}|447=D|452=35|"
        yield ("R", f"131=p|146=1|55=IRS5Y|54=1|38=10|453={count}|{strangers}"), ("AG", "131=p|658=99|146=1|55=IRS5Y|58=Unknown participant|")


def types():
    """Types that nobody knows, of each length."""
    return [length * "u" for length in range(1, ID + 1)]


def crosses():
    """Crosses, of each of which both sides are cancelled, and what they are answered."""
    reports = 0
    for number in range(1, CROSSES + 1):
        sides = f"552=2|54=1|11=b{number}|38=10|54=2|11=s{number}|38=10|"
        reports += 3
        asked = [("s", f"548=c{number}|549=4|550=1|{sides}55=IRS5Y|40=2|44=2.5|"), ("F", f"11=x{number}|41=b{number}|"), ("F", f"11=y{number}|41=s{number}|")]
        first = f"37=O{number}|17=E{reports - 2}|150=0|39=0|55=IRS5Y|54=1|151=10|14=0|11=b{number}|"
        second = f"37=O{number}|17=E{reports - 1}|150=4|39=4|55=IRS5Y|54=1|151=0|14=0|11=x{number}|41=b{number}|"
        third = f"37=NONE|17=E{reports}|150=4|39=4|55=IRS5Y|54=2|151=0|14=0|11=y{number}|41=s{number}|"
        yield from zip(asked, [("8", first), ("8", second), ("8", third)])


def numbered(asked):
    return b"".join(message(kind, "ALPHA", number, fields) for number, (kind, fields) in enumerate(asked, 1))


def printed(owed):
    """What the venue sends: each answer under the next number."""
    head = "35={}|49=SEF|56=ALPHA|34={}|52=" + AT + ".000|{}"
    return b"".join(frame(wire(head.format(kind, number, fields))) for number, (kind, fields) in enumerate(owed, 1))


def found(once, folder, stream):
    ran = subprocess.run(once, cwd=folder, input=stream, capture_output=True, timeout=LONGEST, check=False)
    return ran.stdout, ran.stderr, ran.returncode


def summary(ran, owed):
    """The output where it is the answers that are owed; else the first that differs."""
    output, stderr, status = ran
    if output == owed:
        return "as owed", stderr, status
    answers = output.split(b"8=FIXT.1.1\x01")
    for place, expected in enumerate(owed.split(b"8=FIXT.1.1\x01")):
        if place >= len(answers) or answers[place] != expected:
            return f"answer {place} is {answers[place:place + 1]}, and not {expected}", stderr, status
    return f"{len(answers)} answers", stderr, status


def bodies():
    """A TestRequest of each length that a body may have, but for the shortest."""
    for number, length in enumerate(BODIES, 2):
        body = f"35=1|49=ALPHA|56=SEF|34={number}|52={AT}|112=t|5001="
        yield frame(wire(body + (length - len(body) - 1) * "x" + "|"))


def rows(program, folder):
    """Each row: its name, what was found, and what is expected."""
    once = [program, "once", "--participants", "participants.toml", "--instruments", "instruments.toml", "--at", AT]
    logon = (("A", LOGON), ("A", LOGON))
    pairs = [logon, *asked_and_owed()]
    stream, owed = numbered([it for it, _ in pairs]), printed([it for _, it in pairs if it])
    yield "messages of each size", summary(found(once, folder, stream), owed), ("as owed", b"", 0)
    refused = [("j", f"45={number}|372={kind}|380=3|58=Unsupported message type|") for number, kind in enumerate(types(), 2)]
    stream, owed = numbered([logon[0], *((kind, "") for kind in types())]), printed([logon[1], *refused])
    yield "types of each length", summary(found(once, folder, stream), owed), ("as owed", b"", 0)
    stream = numbered([logon[0]]) + b"".join(bodies())
    owed = printed([logon[1], *(len(BODIES) * [("0", "112=t|")])])
    yield "bodies of each length", summary(found(once, folder, stream), owed), ("as owed", b"", 0)
    pairs = [logon, *crosses()]
    stream, owed = numbered([it for it, _ in pairs]), printed([it for _, it in pairs])
    yield f"{CROSSES} crosses", summary(found(once, folder, stream), owed), ("as owed", b"", 0)
