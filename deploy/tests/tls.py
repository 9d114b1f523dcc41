#!/usr/bin/env python3
"""Who passes the TLS in front of a venue, and what the venue hears of the others.

usage: tls.py VENUE_MAIN

The venue and stunnel live in a network namespace of their own, where one can be made, and stunnel has sockets of the
machine, passed as by systemd. Then
1. nobody outside reaches the venue's own ports;
2. each participant's certificate passes its own port, by TLS 1.2 and 1.3;
3. refused are, at each port, the certificates of the others, none, and plain FIX; at ALPHA's one that has expired
   (also where the venue was given it), one of another authority, one of the same authority and name with another key,
   TLS 1.1, and a handshake that is never ended. The venue's events name no connection of theirs;
4. two clients trade, one through stunnel on its own side; that one sends nothing to a false venue;
5. a key is replaced while sessions are up.
"""

import contextlib
import os
import shutil
import signal
import socket
import ssl
import sys
import tempfile
import time

sys.dont_write_bytecode = True
from programs import HOST, Namespace, Programs, TlsClient, content, listens, run, script, tls_context  # noqa: E402

from fix import (  # noqa: E402
    PARTICIPANTS,
    Client,
    Files,
    Venue,
    expect,
    free_ports,
    limit_order,
    message,
    timestamp,
    wait_until,
)

BOTH = (ssl.TLSVersion.TLSv1_2, ssl.TLSVersion.TLSv1_3)
HANDSHAKE_SECONDS = 10  # that stunnel gives a handshake
CONFIGURED = "Configuration successful"


class Front:
    """A venue with stunnel in front of it."""

    def __init__(self, programs, folder, venue_main):
        self.programs = programs
        self.folder = folder
        self.files = Files()
        self.namespace = Namespace(programs, folder) if Namespace.is_possible() else None
        self.prefix = self.namespace.prefix if self.namespace else []
        self.certificates = os.path.join(folder, "certificates")
        script("make_certificates", self.files.participants, HOST, self.certificates)
        self.port = free_ports(len(PARTICIPANTS), 27000)
        self.sockets = [socket.create_server(("127.0.0.1", 0)) for _ in PARTICIPANTS]
        self.at = {name: its.getsockname()[1] for name, its in zip(PARTICIPANTS, self.sockets)}
        wrapper = os.path.join(folder, "venue")
        with open(wrapper, "w", encoding="ascii") as file:
            file.write(f'#!/bin/sh\nexec {" ".join(self.prefix)} {venue_main} "$@"\n')
        os.chmod(wrapper, 0o755)
        self.venue = programs.enter_context(Venue(wrapper, self.files, self.port)).await_start()
        self.stunnel, self.log = self.started(self.certificates, "stunnel", self.sockets)
        self.accepted = 0  # connections that stunnel has to let pass

    def started(self, certificates, name, sockets=(), tls_port=1):
        """stunnel with these certificates, in the namespace of the venue, with these sockets as systemd passes them."""
        words = ["--port", str(self.port), "--tls-port", str(tls_port), "--address", "127.0.0.1"]
        path, log = (os.path.join(self.folder, name + end) for end in (".conf", ".log"))
        with open(path, "w", encoding="ascii") as file:
            file.write(script("make_stunnel", "venue", self.files.participants, "--certificates", certificates, *words))

        def pass_sockets():
            for k, its in enumerate(sockets):
                os.dup2(its.fileno(), 100 + k)
            for k in range(len(sockets)):
                os.dup2(100 + k, 3 + k)
            os.closerange(3 + len(sockets), 256)

        command = ["sh", "-c", f"LISTEN_FDS={len(sockets)} LISTEN_PID=$$ exec stunnel {path}"]
        process = self.programs.start([*self.prefix, *command], log, preexec_fn=pass_sockets, close_fds=False)
        wait_until(lambda: CONFIGURED in content(log) or process.poll() is not None, 20, lambda: content(log))
        expect(f"stunnel ended: {content(log)[-800:]}", process.poll(), None)
        return process, log

    def attempt(self, port, name, context):
        """Sends a Logon; what came back, or None where the connection was ended."""
        with socket.create_connection(("127.0.0.1", port), timeout=8) as plain:
            try:
                connection = context.wrap_socket(plain, server_hostname=HOST) if context else plain
                connection.sendall(message("A", name, 1, "98=0|108=30|1137=9|141=Y|", timestamp()))
                return connection.recv(400) or None
            except (ssl.SSLError, ConnectionError):
                return None

    def passes(self, name, context):
        answer = self.attempt(self.at[name], name, context) or b""
        expect(f"{name}: the answer {answer!r} has a Logon: {content(self.log)[-1500:]}", b"\x0135=A\x01" in answer, True)
        self.accepted += 1
        wait_until(lambda: self.connections()[1] == self.accepted, 10, "the connection does not end")

    def refuses(self, what, name, context, port=None):
        expect(f"{what}, at {name}'s port", self.attempt(port or self.at[name], name, context), None)

    def connections(self):
        """How many the venue's events name as opened, and as closed."""
        names = [event["event"] for event in self.venue.events()]
        return names.count("connected"), names.count("disconnected")


def expired(front):
    """A folder with a certificate of ALPHA's own key and the right authority, whose dates are past."""
    base = os.path.join(front.folder, "expired")
    shutil.copytree(front.certificates, base)
    conf = (
        f"[ca]\ndefault_ca=it\n[it]\ndatabase={base}/index\nnew_certs_dir={base}\nserial={base}/serial\ndefault_md=sha256\n"
        "policy=any\nx509_extensions=client\nunique_subject=no\n[any]\ncommonName=supplied\n[client]\nextendedKeyUsage=clientAuth\n"
    )
    for name, text in (("ca.cnf", conf), ("index", ""), ("serial", "4242\n")):
        with open(os.path.join(base, name), "w", encoding="ascii") as file:
            file.write(text)
    command = ["openssl", "ca", "-batch", "-notext", "-config", f"{base}/ca.cnf", "-cert", f"{base}/ca.pem"]
    command += ["-keyfile", f"{base}/ca.key", "-startdate", "20200101000000Z", "-enddate", "20200201000000Z"]
    run(*command, "-in", f"{base}/clients/ALPHA.csr", "-out", f"{base}/clients/ALPHA.pem")
    return base


def with_another_key(front):
    """A folder with a certificate of the same authority and name, whose key the venue was not given."""
    base = os.path.join(front.folder, "another_key")
    shutil.copytree(front.certificates, base)
    for end in (".pem", ".key", ".csr"):
        os.remove(os.path.join(base, "clients", "ALPHA" + end))
    script("make_certificates", front.files.participants, HOST, base)
    return base


def own_ports(front):
    if front.namespace is None:
        print("deploy/tests/tls: not run: a network namespace for the venue: no user may make one here", flush=True)
        return
    for k in range(len(PARTICIPANTS)):
        expect(f"port {front.port + k} is reached from outside", listens(front.port + k), False)
    print("nobody outside reaches the venue's own ports", flush=True)


def refusals(front):
    unending = socket.create_connection(("127.0.0.1", front.at["ALPHA"]))
    began = time.monotonic()
    for version in BOTH:
        for name in PARTICIPANTS:
            front.passes(name, tls_context(front.certificates, name, version, version))
    print("each certificate passes its own port", flush=True)
    for version in BOTH:
        for name in PARTICIPANTS:
            for other in PARTICIPANTS:
                if other != name:
                    context = tls_context(front.certificates, other, version, version)
                    front.refuses(f"the certificate of {other}", name, context)
            front.refuses("no certificate", name, tls_context(front.certificates, None, version, version))
    for name in PARTICIPANTS:
        front.refuses("plain FIX", name, None)
    past = expired(front)
    front.refuses("an expired certificate", "ALPHA", tls_context(front.certificates, "ALPHA", own=past))
    other = os.path.join(front.folder, "other")
    script("make_certificates", front.files.participants, HOST, other)
    front.refuses("another authority", "ALPHA", tls_context(front.certificates, "ALPHA", own=other))
    context = tls_context(front.certificates, "ALPHA", own=with_another_key(front))
    front.refuses("another key", "ALPHA", context)
    old = tls_context(front.certificates, "ALPHA", ssl.TLSVersion.TLSv1, ssl.TLSVersion.TLSv1_1)
    old.set_ciphers("ALL:@SECLEVEL=0")
    front.refuses("TLS 1.1", "ALPHA", old)
    given_expired(front, past)
    unending.settimeout(2 * HANDSHAKE_SECONDS)
    with contextlib.suppress(ConnectionResetError):
        expect("a handshake that is never ended", unending.recv(1), b"")
    print(f"an unending handshake is given up after {time.monotonic() - began:.0f} s", flush=True)
    expect("connections of which the venue heard, opened and closed", front.connections(), (front.accepted,) * 2)
    expect("events that name a fault", [event for event in front.venue.events() if event["event"] == "refused"], [])
    print(f"refused connections: the venue hears of none; it has {front.accepted} events of others", flush=True)


def given_expired(front, past):
    """The dates count also where the venue was given just this certificate."""
    server = socket.create_server(("127.0.0.1", 0))
    others = [socket.create_server(("127.0.0.1", 0)) for _ in PARTICIPANTS[1:]]
    stunnel, _ = front.started(past, "given_expired", [server, *others])
    context = tls_context(front.certificates, "ALPHA", own=past)
    front.refuses("an expired certificate that the venue was given", "ALPHA", context, server.getsockname()[1])
    front.programs.end(stunnel)


def client_stunnel(front, tls_port):
    """DELTA's own side: the port at which its stunnel takes plain FIX."""
    port = free_ports(len(PARTICIPANTS), 27500)
    words = ["--port", str(port), "--tls-port", str(tls_port - 3), "--name", "DELTA", "--host", HOST, "--connect", "127.0.0.1"]
    path, log = (os.path.join(front.folder, f"client_{tls_port}{end}") for end in (".conf", ".log"))
    with open(path, "w", encoding="ascii") as file:
        file.write(script("make_stunnel", "client", front.files.participants, "--certificates", front.certificates, *words))
    front.programs.start(["stunnel", path], log)
    wait_until(lambda: CONFIGURED in content(log), 20, lambda: content(log))
    return port + 3


def log_on(client):
    client.number = 0
    client.send("A", "98=0|108=30|1137=9|141=Y|", quietly=True)
    client.await_field("35=A", quietly=True)


def trade(front):
    alpha = TlsClient("ALPHA", front.at["ALPHA"], tls_context(front.certificates, "ALPHA"))
    delta = Client("DELTA", client_stunnel(front, front.at["DELTA"]))
    for client in (alpha, delta):
        log_on(client)
    alpha.send("D", limit_order("a1", 1, 40), quietly=True)
    alpha.await_field("150=0", quietly=True)
    delta.send("D", limit_order("d1", 2, 40), quietly=True)
    for client in (delta, alpha):
        client.await_field("150=F", quietly=True)
    print("two clients trade, one through stunnel on its own side", flush=True)
    delta.log_out()
    return alpha


def false_venue(front):
    """One that shows a certificate of the authority for another host: the client's stunnel sends it nothing."""
    base = os.path.join(front.folder, "another_host")
    shutil.copytree(front.certificates, base)
    for end in (".pem", ".key", ".csr"):
        os.remove(os.path.join(base, "venue" + end))
    script("make_certificates", front.files.participants, "elsewhere.example", base)
    server = socket.create_server(("127.0.0.1", 0))
    context = ssl.SSLContext(ssl.PROTOCOL_TLS_SERVER)
    context.load_cert_chain(*(os.path.join(base, "venue" + end) for end in (".pem", ".key")))
    client = Client("DELTA", client_stunnel(front, server.getsockname()[1]))
    client.send("A", "98=0|108=30|1137=9|", quietly=True)
    server.settimeout(8)
    heard = b""
    try:
        with context.wrap_socket(server.accept()[0], server_side=True) as connection:
            heard = connection.recv(400)
    except OSError:
        pass
    expect("what a false venue hears", heard, b"")
    print("a client's stunnel sends nothing to a false venue", flush=True)


def read_again(front):
    """Has stunnel read the certificates again, as by systemctl reload."""
    words = ["--port", str(front.port), "--tls-port", "1", "--certificates", front.certificates]
    script("make_stunnel", "venue", front.files.participants, *words)
    count = content(front.log).count(CONFIGURED)
    front.stunnel.send_signal(signal.SIGHUP)
    wait_until(lambda: content(front.log).count(CONFIGURED) > count, 10, "stunnel does not read its certificates again")


def replaced(front, alpha):
    """BETA's key is replaced while ALPHA is logged on: for a while both certificates pass."""
    own = os.path.join(front.certificates, "clients", "BETA")
    before = tls_context(front.certificates, "BETA")
    old = content(own + ".pem")
    for end in (".pem", ".key", ".csr"):
        os.remove(own + end)
    script("make_certificates", front.files.participants, HOST, front.certificates)
    after = tls_context(front.certificates, "BETA")
    new = content(own + ".pem")
    front.refuses("a new key of which the venue does not know", "BETA", after)
    for text, passing in ((old + new, (before, after)), (new, (after,))):
        with open(own + ".pem", "w", encoding="ascii") as file:
            file.write(text)
        read_again(front)
        for context in passing:
            expect("BETA's answer", b"\x0135=A\x01" in (front.attempt(front.at["BETA"], "BETA", context) or b""), True)
    front.refuses("the old key", "BETA", before)
    alpha.send("1", "112=still|", quietly=True)
    alpha.await_field("112=still", quietly=True)
    print("a key is replaced, and a session that is up stays", flush=True)
    alpha.log_out()


def main():
    if len(sys.argv) != 2:
        raise SystemExit(__doc__)
    os.environ.setdefault("KEY_BITS", "2048")
    with tempfile.TemporaryDirectory() as folder, Programs() as programs:
        front = Front(programs, folder, os.path.abspath(sys.argv[1]))
        own_ports(front)
        refusals(front)
        alpha = trade(front)
        false_venue(front)
        replaced(front, alpha)
        printed = front.venue.end()
        expect("what the venue printed", printed, "closed sessions 5 taken 2\n")
    print("each certificate passes its own port, and nothing else does")


if __name__ == "__main__":
    main()
