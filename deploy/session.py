"""A client's side of a FIX session with the venue, for the scripts of this folder.

    Session(name, venue, connection, within)    `name` with `venue` over a socket; each answer within that many seconds
        .send(kind, fields)     sends a message under the next number; fields as `98=0|108=30|`; returns its text
        .answer(is_it, what)    the fields of the next message of which is_it(fields) holds, by tag, as texts; others
                                are passed over. OSError where none comes
        .log_on(), .log_out()   in a new era
        .number                 of the last message sent
        .heard                  is called with the text of each message that comes
"""

import re
import time

FRAME = re.compile(rb"8=FIXT\.1\.1\x019=[0-9]+\x01(35=.*?\x01)10=[0-9]{3}\x01", re.DOTALL)


class Session:
    def __init__(self, name, venue, connection, within, heard=lambda text: None):
        self.name, self.venue, self.connection, self.within, self.heard = name, venue, connection, within, heard
        self.number = 0
        self.unread = b""

    def send(self, kind, fields):
        self.number += 1
        sent = time.strftime("%Y%m%d-%H:%M:%S", time.gmtime())
        text = f"35={kind}|49={self.name}|56={self.venue}|34={self.number}|52={sent}|{fields}"
        body = text.replace("|", "\x01").encode("ascii")
        head = b"8=FIXT.1.1\x019=%d\x01" % len(body) + body
        self.connection.sendall(head + b"10=%03d\x01" % (sum(head) % 256))
        return text

    def answer(self, is_it, what):
        deadline = time.monotonic() + self.within
        while True:
            found = FRAME.search(self.unread)
            if found:
                self.unread = self.unread[found.end() :]
                text = found[1].decode("ascii").replace("\x01", "|")
                self.heard(text)
                fields = dict(field.split("=", 1) for field in text.split("|")[:-1])
                if is_it(fields):
                    return fields
                continue
            self.connection.settimeout(max(deadline - time.monotonic(), 0.001))
            more = self.connection.recv(65536)
            if not more:
                raise OSError(f"the connection ended before the {what}")
            self.unread += more

    def log_on(self):
        self.send("A", "98=0|108=0|1137=9|141=Y|")
        self.answer(lambda fields: fields["35"] == "A", "Logon")

    def log_out(self):
        self.send("5", "")
        self.answer(lambda fields: fields["35"] == "5", "Logout")
