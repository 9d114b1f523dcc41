#!/usr/bin/env python3
"""ALPHA and DELTA trade through TLS, and log out.

usage: tls_trade.py TLS_PORT CERTIFICATES PREFIX

TLS_PORT is the first of the TLS ports; PREFIX begins the identifiers of the orders. Each session begins a new era.
"""

import sys

sys.dont_write_bytecode = True
from programs import TlsClient, tls_context  # noqa: E402

from fix import limit_order  # noqa: E402


def main():
    if len(sys.argv) != 4:
        raise SystemExit(__doc__)
    port, certificates, prefix = int(sys.argv[1]), *sys.argv[2:]
    clients = [TlsClient(name, port + place, tls_context(certificates, name)) for name, place in (("ALPHA", 0), ("DELTA", 3))]
    for client in clients:
        client.send("A", "98=0|108=30|1137=9|141=Y|", quietly=True)
        client.await_field("35=A", quietly=True)
    alpha, delta = clients
    alpha.send("D", limit_order(prefix + "a", 1, 40), quietly=True)
    alpha.await_field("150=0", quietly=True)
    delta.send("D", limit_order(prefix + "d", 2, 40), quietly=True)
    for client in clients:
        client.await_field("150=F", quietly=True)
    for client in clients:
        client.send("5", "", quietly=True)
        client.await_field("35=5", quietly=True)
        client.close()


if __name__ == "__main__":
    main()
