"""A client whose answers are compared exactly, and the instrument in which nobody else trades."""

import os
import re
import sys

sys.path.insert(0, os.path.join(os.path.dirname(os.path.abspath(__file__)), "..", "lib"))
from fix import SOH, Client, Files, expect, frame, shown  # noqa: E402

SYMBOL = "STEADY"  # in which nobody trades but the clients of a test
MORE = f'\n[[instrument]]\nsymbol = "{SYMBOL}"\ntick = 2500\nleast = 1\nrfq_life = 30\n'


def market(folder):
    """The files of examples/, with this instrument more."""
    return Files(folder, MORE)


class CheckedClient(Client):
    """A client that trades in SYMBOL alone, and compares each answer to the last byte, but for the SendingTime."""

    def __init__(self, name, port):
        super().__init__(name, port)
        self.last = 0  # the last number received
        self.of_others = 0  # messages received about other instruments

    def begin(self):
        self.send("A", "98=0|108=0|1137=9|141=Y|", quietly=True)
        logon = self.next_numbered()
        self.fits(logon, "35=A|49=SEF|56=%s|34=1|52=*|98=0|108=0|1137=9|141=Y|" % self.name)
        return self

    def next_numbered(self):
        message = self.next_message()
        number = int(re.search(rb"\x0134=([0-9]+)\x01", message).group(1))
        expect(f"{self.name}: the number of {shown(message)}", number, self.last + 1)
        self.last = number
        return message

    def fits(self, message, template):
        """Compares the message with the frame of this body, in which * is any value, and returns those values."""
        pattern = re.escape(template).replace(r"\*", r"([^|]+)")
        body = re.fullmatch(rb"8=FIXT\.1\.1\x019=[0-9]+\x01(.*\x01)10=[0-9]{3}\x01", message, re.DOTALL)
        found = body and re.fullmatch(pattern, shown(body.group(1)))
        if not found or frame(body.group(1)) != message:
            raise SystemExit(f"{self.name}: {shown(message)}, and not the frame of {template}")
        return found.groups()

    def answer(self, kind, template):
        """Reads up to the next message about SYMBOL, which is to be this one after the header."""
        while True:
            message = self.next_numbered()
            if b"55=" + SYMBOL.encode("ascii") in message.split(SOH):
                head = f"35={kind}|49=SEF|56={self.name}|34={self.last}|52=*|"
                return self.fits(message, head + template)
            self.of_others += 1

    def order(self, name, side, quantity=10):
        self.send("D", f"11={name}|55={SYMBOL}|54={side}|38={quantity}|40=2|44=2.5|", quietly=True)
        new = f"37=*|17=*|150=0|39=0|55={SYMBOL}|54={side}|151={quantity}|14=0|11={name}|"
        return self.answer("8", new)[1]

    def fill(self, name, number, side, quantity=10):
        text = f"37={number}|17=*|150=F|39=2|55={SYMBOL}|54={side}|151=0|14={quantity}|11={name}|31=2.5|32={quantity}|880=*|"
        return self.answer("8", text)[2]

    def cancel(self, name, old, number, side):
        self.send("F", f"11={name}|41={old}|", quietly=True)
        self.answer("8", f"37={number}|17=*|150=4|39=4|55={SYMBOL}|54={side}|151=0|14=0|11={name}|41={old}|")

    def snapshot(self, name, entries="268=1|269=J|"):
        self.send("V", f"262={name}|263=0|264=0|267=2|269=0|269=1|146=1|55={SYMBOL}|", quietly=True)
        self.answer("W", f"262={name}|55={SYMBOL}|{entries}")


def trade(seller, buyer, name):
    """An order that rests, one that fills it, and the book snapshot that is empty again: seven answers."""
    sold = seller.order("s" + name, 2)
    bought = buyer.order("b" + name, 1)
    trade_of_buyer = buyer.fill("b" + name, bought, 1)
    expect("the number of the trade", seller.fill("s" + name, sold, 2), trade_of_buyer)
    rests = seller.order("r" + name, 2)
    seller.snapshot("v" + name, f"268=1|269=1|270=2.5|271=10|278={rests}|")
    seller.cancel("c" + name, "r" + name, rests, 2)
    seller.snapshot("w" + name)
