#!/usr/bin/env python3
"""Copies of a trail while a venue writes it, a machine that is lost, and the restore on a second one.

usage: copies.py VENUE_MAIN [SEF_REPLAY]

1. Two clients send orders and cancels, 64 at a time. deploy/keep_copy keeps signed copies: each has every message that
   was answered before the copy began; the oldest is removed, and with rsync each is at a second place.
2. The venue is killed (SIGKILL) under load. On its disk each answered message has its row. The disk is lost with the
   machine: the newest copy is restored to another folder, a venue starts there, and deploy/probe is answered. Printed
   are the seconds that took, and how many answered messages are lost; none was answered before the copy began.
3. Refused are a copy with a changed byte, one whose digest was changed too, one without its log, an older copy under
   the moment of a newer one, and the signature of another key.
4. With SEF_REPLAY the trades of the day are kept and signed with its last copy.
5. A trail and its log, the trail alone, and its log alone are deleted under a venue that trades. The next copy fails,
   of a lost log by SEF_REPLAY and the heads. What the process has still is saved: with SEF_REPLAY its digest is that
   of the venue's last head, and a venue starts from it.
"""

import os
import re
import shutil
import socket
import subprocess
import sys
import tempfile
import time

sys.dont_write_bytecode = True
from programs import DEPLOY, content, fails, run, script  # noqa: E402

sys.path.insert(0, os.path.join(os.path.dirname(DEPLOY), "tests", "robustness"))
from fix import Files, Venue, expect, free_ports, wait_until  # noqa: E402
from sigkill import Sender  # noqa: E402
from trail import copied, order_ids  # noqa: E402

COPIES = 3
ANSWERS = 100  # messages of each client between two copies
LOAD_SECONDS = 60


def key_of(folder, name):
    """A key that signs, and the file of allowed signers that has it."""
    key = os.path.join(folder, name)
    run("ssh-keygen", "-q", "-t", "ed25519", "-N", "", "-f", key)
    with open(key + ".signers", "w", encoding="ascii") as file:
        file.write("venue " + " ".join(content(key + ".pub").split()[:2]) + "\n")
    return {"SIGN_KEY": key, "SIGNERS": key + ".signers"}


def answered(senders):
    """The identifiers of the messages that were answered."""
    return [sender.identifier(k) for sender in senders for k in range(sender.answered)]


def await_answers(senders):
    due = [sender.answered + ANSWERS for sender in senders]

    def have_come():
        return all(sender.answered >= count for sender, count in zip(senders, due))

    wait_until(have_come, LOAD_SECONDS, lambda: f"no answers: {[sender.fault for sender in senders]}")


def ids_in(copy, folder):
    """The identifiers in a copy, which is read elsewhere, since reading may write next to it."""
    return order_ids(copied(os.path.join(copy, "day.trail"), folder))


class Copies:
    def __init__(self, folder, venue_main, sef_replay):
        self.folder = folder
        self.venue_main = venue_main
        self.first, self.second, self.kept, self.standby = (os.path.join(folder, it) for it in ("first", "second", "kept", "standby"))
        for it in (self.first, self.standby):
            os.mkdir(it)
        self.env = {**os.environ, **key_of(folder, "key"), "KEEP": str(COPIES - 1), "SEF_REPLAY": sef_replay or "/nonexistent"}
        self.has_rsync = shutil.which("rsync") is not None
        if self.has_rsync:
            self.env["COPY_TO"] = self.standby
        else:
            print("deploy/tests/copies: not run: copies to a second place: there is no rsync", flush=True)
        self.port = free_ports(5, 28000)
        self.files = Files()

    def under_load(self, senders):
        """Takes the copies, and returns the newest, with what was answered before it began."""
        seconds, before, copy = [], [], ""
        for _ in range(COPIES):
            await_answers(senders)
            before = answered(senders)
            began = time.monotonic()
            copy = script("keep_copy", os.path.join(self.first, "day.trail"), self.kept, env=self.env).strip()
            seconds.append(time.monotonic() - began)
            missing = {*before} - ids_in(copy, self.folder)
            expect("answered before the copy began, and not in it", sorted(missing)[:5], [])
        expect("copies that stay", len(os.listdir(self.kept)), COPIES - 1)
        if self.has_rsync:
            expect("copies at the second place", len(os.listdir(self.standby)), COPIES)
        size = os.path.getsize(os.path.join(copy, "day.trail")) + os.path.getsize(os.path.join(copy, "day.trail-wal"))
        print(f"{COPIES} copies under load: {min(seconds):.2f} to {max(seconds):.2f} s each, the last of {size:,} bytes", flush=True)
        return copy, before

    def lose(self):
        """A venue under load is killed, and its disk is lost; what was answered, and the newest copy."""
        with Venue(self.venue_main, self.files, self.port, "--trail", os.path.join(self.first, "day.trail")) as venue:
            venue.await_start()
            senders = [Sender("ALPHA", self.port, 1, 0), Sender("DELTA", self.port + 3, 2, 0)]
            for sender in senders:
                sender.start()
            copy, before = self.under_load(senders)
            await_answers(senders)
            venue.stop()
        for sender in senders:
            sender.join(30)
            expect(f"{sender.client.name}: fault", sender.fault, None)
        missing = {*answered(senders)} - ids_in(self.first, self.folder)
        expect("answered, and not on the disk of the venue that was killed", sorted(missing)[:5], [])
        shutil.rmtree(self.first)
        return senders, copy, before

    def restore(self, senders, before):
        began = time.monotonic()
        source = self.standby if self.has_rsync else self.kept
        trail = os.path.join(self.second, "day.trail")
        restored = script("restore_copy", source, trail, env=self.env)
        print(restored.strip().replace(self.folder, ".."), flush=True)
        port = free_ports(5, 28100)
        with Venue(self.venue_main, self.files, port, "--trail", trail) as venue:
            venue.await_start()
            print(script("probe", self.files.participants, "--name", "EPSILON", "--port", str(port)).strip(), flush=True)
            seconds = time.monotonic() - began
            venue.end()
        found = ids_in(self.second, self.folder)
        expect("answered before the copy began, and lost", sorted({*before} - found)[:5], [])
        all_answered = answered(senders)
        lost = len({*all_answered} - found)
        print(f"restored and answering after {seconds:.1f} s; of {len(all_answered)} answered messages {lost} are lost,", flush=True)
        print("all of them answered after the newest copy began; on the disk of the killed venue none was missing", flush=True)

    def refuse(self, copy):
        trail = os.path.join(self.folder, "never.trail")
        older = sorted(os.listdir(self.kept))[0]
        for what, change, env in (
            ("a changed byte", change_byte, {}),
            ("a changed digest", change_digest, {}),
            ("no log", lambda changed: os.remove(os.path.join(changed, "day.trail-wal")), {}),
            ("a file more", lambda changed: shutil.copy(os.path.join(changed, "moment"), os.path.join(changed, "day.trail-shm")), {}),
            ("another key", lambda changed: None, {"SIGNERS": key_of(self.folder, "other")["SIGNERS"]}),
        ):
            changed = os.path.join(self.folder, "changed")
            shutil.rmtree(changed, ignore_errors=True)
            shutil.copytree(copy, changed)
            change(changed)
            fails(os.path.join(DEPLOY, "restore_copy"), changed, trail, env={**self.env, **env})
            expect(f"{what}: a trail is there", os.path.exists(trail), False)
        shutil.rmtree(copy)
        os.rename(os.path.join(self.kept, older), copy)
        _, output = fails(os.path.join(DEPLOY, "restore_copy"), self.kept, os.path.join(self.folder, "day.trail"), env=self.env)
        expect(f"an older copy under a newer moment: {output}", "another moment" in output, True)
        print("changed copies are refused", flush=True)

    def keep_trades(self):
        days = os.path.join(self.folder, "days")
        day = script("keep_copy", "--trades", os.path.join(self.second, "day.trail"), days, env=self.env).strip()
        script("sign", "--check", day, env=self.env)
        expect("the table of trades", content(os.path.join(day, "trades.csv")).startswith("trade,kind,instrument"), True)
        lines = content(os.path.join(day, "trades")).count("\n")
        print(f"the day's {lines} trades are signed with its last copy", flush=True)

    def save(self, *names):
        """A trail of which these files are deleted under its venue is saved from the process."""
        folder = tempfile.mkdtemp(dir=self.folder)
        gone, heads, kept, saved = (os.path.join(folder, name) for name in ("day.trail", "day.heads", "kept", "saved"))
        port = free_ports(5, 28200)
        with Venue(self.venue_main, self.files, port, "--trail", gone, "--heads", heads) as venue:
            venue.await_start()
            senders = [Sender("ALPHA", port, 1, 0), Sender("DELTA", port + 3, 2, 0)]
            for sender in senders:
                sender.start()
            await_answers(senders)
            wait_until(lambda: content(heads), LOAD_SECONDS, "no head")
            for name in names:
                os.remove(os.path.join(folder, name))
            await_answers(senders)
            self.refuse_lost(gone, kept, "there is no trail" if "day.trail" in names else f" rows, and {heads} ")
            for sender in senders:
                sender.client.connection.shutdown(socket.SHUT_RDWR)
                sender.join(30)
            time.sleep(3)  # (a line of the heads a second)
            before = answered(senders)
            copy = script("save_deleted", str(venue.process.pid), saved, env=self.env).strip()
            expect("answered, and not in what was saved", sorted({*before} - ids_in(copy, self.folder))[:5], [])
            venue.end()
        head = content(heads).splitlines()[-1].split()
        if os.path.exists(os.path.join(copy, "digest")):
            expect("the digest of the last head", content(os.path.join(copy, "digest")).split(), [head[0], head[-1]])
        for name in os.listdir(folder):
            if name.startswith("day.trail"):
                os.remove(os.path.join(folder, name))
        script("restore_copy", saved, gone, env=self.env)
        with Venue(self.venue_main, self.files, port, "--trail", gone) as venue:
            venue.await_start()
            found = dict(re.findall(r"(closed sessions \d+ taken) (\d+)", venue.end()))
        expect("rows in the venue that starts again", [*found.values()], [head[0]])
        print(f"deleted and saved from the process: {', '.join(names)}: {head[0]} rows", flush=True)

    def refuse_lost(self, trail, kept, why):
        """No copy of a trail is kept that lacks what was deleted: without sef_replay one that lacks its file alone."""
        if os.path.exists(trail) and not os.path.exists(self.env["SEF_REPLAY"]):
            return
        command = [os.path.join(DEPLOY, "keep_copy"), trail, kept]
        # (a file into which the log was copied right before has as many rows as the newest head, until the next one)
        deadline = time.monotonic() + LOAD_SECONDS
        while True:
            ran = subprocess.run(command, env=self.env, capture_output=True, text=True, check=False)
            if ran.returncode or time.monotonic() > deadline:
                break
            time.sleep(0.2)
        expect(f"a copy of a trail that was deleted: {ran.stderr}", (ran.returncode, why in ran.stderr), (1, True))

    def save_none(self):
        saved = os.path.join(self.folder, "saved")
        status, output = fails(os.path.join(DEPLOY, "save_deleted"), str(os.getpid()), saved, env=self.env)
        expect("a process without a trail", (status, "no deleted trail" in output), (1, True))


def change_byte(copy):
    path = os.path.join(copy, "day.trail")
    with open(path, "r+b") as file:
        file.seek(os.path.getsize(path) // 2)
        old = file.read(1)
        file.seek(-1, os.SEEK_CUR)
        file.write(bytes([old[0] ^ 1]))


def change_digest(copy):
    change_byte(copy)
    with open(os.path.join(copy, "SHA256SUMS"), "w", encoding="ascii") as file:
        subprocess.run("sha256sum day.trail day.trail-wal moment", shell=True, check=True, cwd=copy, stdout=file)


def main():
    if len(sys.argv) not in (2, 3):
        raise SystemExit(__doc__)
    with tempfile.TemporaryDirectory() as folder:
        copies = Copies(folder, *sys.argv[1:], *[None] * (3 - len(sys.argv)))
        senders, copy, before = copies.lose()
        copies.restore(senders, before)
        copies.refuse(copy)
        if len(sys.argv) == 3:
            copies.keep_trades()
        for names in (("day.trail", "day.trail-wal"), ("day.trail",), ("day.trail-wal",)):
            copies.save(*names)
        copies.save_none()
    print("what was answered before a copy began is in it")


if __name__ == "__main__":
    main()
