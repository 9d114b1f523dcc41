"""Programs around a venue, for the tests of this folder: network namespaces, stunnel, scripts of deploy/, TLS clients.

    run(*command), script(name, *words)     what a command, or a script of deploy/, prints; SystemExit where it fails
    fails(*command)                         its status and its output with standard error, where it must fail
    Programs()                              ends what it started: .start(command, log, **how)
    Namespace(programs, folder)             a network namespace: .prefix for a command line, if .is_possible()
    tls_context(folder, name)               of a client with the certificate of this name, or with none
    TlsClient(name, port, context)          a Client of tests/lib/fix.py over TLS
"""

import contextlib
import os
import socket
import ssl
import subprocess
import sys

DEPLOY = os.path.dirname(os.path.dirname(os.path.abspath(__file__)))
sys.path.insert(0, os.path.join(os.path.dirname(DEPLOY), "tests", "lib"))
from fix import ANSWER_SECONDS, Client, wait_until  # noqa: E402

HOST = "venue.example"


def run(*command, **how):
    ended = subprocess.run(command, capture_output=True, text=True, check=False, **how)
    if ended.returncode != 0:
        raise SystemExit(f"{' '.join(command)}: status {ended.returncode}: {ended.stdout[-500:]}{ended.stderr[-800:]}")
    return ended.stdout


def script(name, *words, **how):
    return run(os.path.join(DEPLOY, name), *words, **how)


def fails(*command, **how):
    ended = subprocess.run(command, capture_output=True, text=True, check=False, **how)
    if ended.returncode == 0:
        raise SystemExit(f"{' '.join(command)}: did not fail: {ended.stdout}")
    return ended.returncode, ended.stdout + ended.stderr


def content(path):
    with open(path, encoding="utf-8", errors="replace") as file:
        return file.read()


class Programs(contextlib.ExitStack):
    """Processes that are ended at the latest as the test ends."""

    def start(self, command, log, **how):
        with open(log, "ab") as file:
            process = subprocess.Popen(command, **{"stdin": subprocess.DEVNULL, "stdout": file, "stderr": file, **how})
        self.callback(self.end, process)
        return process

    @staticmethod
    def end(process):
        if process.poll() is None:
            process.terminate()
            try:
                process.wait(5)
            except subprocess.TimeoutExpired:
                process.kill()
        process.wait()


class Namespace:
    """A network namespace with a loopback of its own, where a user may make one."""

    COMMAND = ["unshare", "--map-root-user", "--net"]

    def __init__(self, programs, folder):
        log = os.path.join(folder, "namespace.log")
        command = [*self.COMMAND, "sh", "-c", "ip link set lo up && echo up && exec sleep 3600"]
        holder = programs.start(command, log)
        wait_until(lambda: content(log), ANSWER_SECONDS, "no network namespace")
        self.prefix = ["nsenter", "-t", str(holder.pid), "--user", "--preserve-credentials", "--net"]

    @classmethod
    def is_possible(cls):
        with contextlib.suppress(OSError):
            return subprocess.run([*cls.COMMAND, "ip", "link", "set", "lo", "up"], capture_output=True, check=False).returncode == 0
        return False


def tls_context(folder, name=None, oldest=ssl.TLSVersion.TLSv1_2, newest=ssl.TLSVersion.MAXIMUM_SUPPORTED, own=None):
    """`own`: the folder of the client's certificate and key, where another than `folder`."""
    made = ssl.SSLContext(ssl.PROTOCOL_TLS_CLIENT)
    made.load_verify_locations(os.path.join(folder, "ca.pem"))
    made.minimum_version, made.maximum_version = oldest, newest
    if name:
        made.load_cert_chain(*(os.path.join(own or folder, "clients", name + end) for end in (".pem", ".key")))
    return made


class TlsClient(Client):
    """A participant's side of its session, over TLS."""

    def __init__(self, name, port, context):
        super().__init__(name, port)
        self.connection = context.wrap_socket(self.connection, server_hostname=HOST)


def listens(port):
    with socket.socket() as probe:
        return probe.connect_ex(("127.0.0.1", port)) == 0
