"""Logs of frames, for check_explain."""
import sys


def frame(body, begins="8=FIXT.1.1|9=", length=None, total=None):
    """The frame of a body, | for SOH; with another length or sum, where they are given."""
    head = f"{begins}{len(body) if length is None else length}|{body}"
    right = sum(head.replace("|", chr(1)).encode()) % 256
    return f"{head}10={right if total is None else total:03}|"


def message(kind, number, rest, at="20250303-14:30:00.000", sender="ALPHA", target="SEF", **wrong):
    return frame(f"35={kind}|49={sender}|56={target}|34={number}|52={at}|{rest}", **wrong)


order = "55=IRS5Y|54=1|38=100|40=2|44=2.5|"
lines = [
    message("A", 1, "98=0|108=30|1137=9|"),
    message("D", 2, "11=a1|" + order),
    message("8", 2, "37=O1|17=E1|150=0|39=0|55=IRS5Y|54=1|151=100|14=0|11=a1|", sender="SEF", target="ALPHA"),
    message("D", 17, "11=b1|55=IRS5Y|54=2|38=40|40=2|44=2.5|", at="20250303-14:30:01", sender="BETA"),
    message("D", 3, "11=a2|" + order.replace("2.5", "2.501")),
    message("D", 4, "11=a3|" + order.replace("2.5", "two")),
    message("D", 5, "11=a4|55=IRS5Y|54=1|40=2|44=2.5|9999=1|"),
    message("D", 6, "11=a5|11=a6|" + order, at="soon"),
    message("D", 7, "11=a7|" + order, length=70),
    message("D", 7, "11=a8|" + order, total=0),
    message("D", 7, "11=a9|" + order)[:60],
    message("D", 7, "11=a9|" + order).replace("|35=D|49=ALPHA|", "|49=ALPHA|35=D|"),
    message("s", 7, "548=c1|549=4|550=1|552=2|54=1|11=a10|38=10|54=2|11=a11|38=10|55=BASIS1Y|40=2|44=1|", at="20250303-14:30:02"),
    message("D", 9, "11=a12|" + order, at="20250303-14:30:20"),
    message("D", 8, "11=a13|" + order, at="20250303-14:30:21", target="SEX"),
    message("D", 8, "11=a14|" + order, at="20250303-14:30:22"),
    message("A", 9, "98=0|108=30|1137=9|", at="20250303-14:30:23"),
    message("D", 10, "11=a15||" + order, at="20250303-14:30:24"),
]
logon = "98=0|108=30|1137=9|"
report = "37=O1|17=E1|150=0|39=0|55=IRS5Y|54=1|151=100|14=0|11=a1|"


def by_venue(kind, number, rest, target="ALPHA", **how):
    return message(kind, number, rest, sender="SEF", target=target, **how)


fallen = [
    message("A", 1, logon),
    by_venue("A", 1, logon),
    message("D", 2, "11=a1|18=o|1138=5|" + order),
    by_venue("8", 2, report),
    by_venue("8", 9, report),
    message("D", 3, "11=a2|1138=5|1138=6|453=1|" + order),
    message("D", 4, "11=a3|9999=x|1138=5|" + order),
    message("H", 5, "11=a1|37=O1|790=q|"),
    # neither a repeat, nor a SequenceReset, nor the venue's number to another is below its last one
    by_venue("8", 2, "43=Y|122=20250303-14:30:00|" + report),
    by_venue("4", 3, "123=Y|36=9|"),
    by_venue("A", 1, logon, target="BETA"),
    by_venue("0", 9, ""),
    # the venue was started again, and ALPHA resets
    by_venue("A", 1, logon),
    by_venue("2", 2, "7=1|16=0|"),
    message("5", 6, "58=too low|"),
    message("A", 1, logon + "141=Y|"),
    by_venue("A", 1, logon + "141=Y|"),
    by_venue("3", 2, "45=2|"),
]
logs = {
    "bars": "".join(f"20250303-14:30:00.000 : {line}\n" for line in lines),
    "alone": message("F", 57, "11=d2|41=d1|", sender="DELTA").replace("|", chr(1)),
    "other": message("F", 57, "11=z2|41=z1|", sender="ZETA").replace("|", chr(1)),
    "version": frame("35=A|49=ALPHA|56=SEF|34=1|52=20250303-14:30:00|98=0|108=30|1137=9|", "8=FIX.4.4|9=").replace("|", chr(1)),
    "nothing": "",
    # as QuickFIX writes its messages: a moment before each, and SOH
    "logon": f"20250303-14:30:00.000000000 : {message('A', 1, '98=0|108=30|1137=9|', target='SEX')}\n".replace("|", chr(1)),
    "faulty": message("A", 1, "98=1|108=30|1137=9|").replace("|", chr(1)),
    "first": message("D", 1, "11=a1|" + order).replace("|", chr(1)),
    "below": (lines[0] + lines[1] + message("D", 2, "11=a2|" + order)).replace("|", chr(1)),
    "long": (lines[0] + message("D", 2, f"11=a1|58={'x' * 8192}|{order}") + message("0", 2, "")).replace("|", chr(1)),
    # a venue that was started again, and resets: what numbers fall, and which fields are not read
    "fallen": "".join(fallen).replace("|", chr(1)),
    "large": "x" * 1_048_577,
}
for name, log in logs.items():
    with open(name, "w", encoding="latin-1", newline="") as file:
        file.write(log)
