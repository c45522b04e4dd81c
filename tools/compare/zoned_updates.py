#!/usr/bin/env python3
"""tools/compare/zoned_updates.py [ZONED [UPDATES]]: has `zoned` take updates (RFC 2136), signed by the HMAC of Python (TSIG), in frames: what is
taken and refused, and the faults of rules; journals that are torn, don't fit or can't be written; and so many updates, 300 where it isn't said, while
it is killed (SIGKILL) at any moment, of which none may be lost that was answered. ZONED is the program; where none is named it is what
`tools/build/program path zoned` gives. No part of the gate, for the time that it takes. It ends what it starts."""
import fcntl
import os
import random
import resource
import struct
import subprocess
import sys
import tempfile
import time

sys.dont_write_bytecode = True
sys.path.append(os.path.dirname(os.path.dirname(os.path.realpath(__file__))))

import frames
import peers
from daemon_test import need
from keyed_transfers import KEY, KEYS, OTHER, judged, signed, wire
from updates import A, ANY, ANY_CLASS, IN, NOERROR, REFUSED, entry

ORIGIN = "example.com."
# OTHER may change all; KEY addresses below d, but for one.
RULES = f'# who may\nupdate Example.com deny {KEY} name fixed.d.{ORIGIN}\nupdate example.com. grant {KEY} subdomain "d.{ORIGIN}" a # no others\n\n update\texample.com grant {OTHER} subdomain {ORIGIN} ANY\r\n'
FAULTS = {
    "updat example.com": "1:1: `update` is wanted here",
    "\n update example.com grant": "2:2: this rule ends too early",
    f"update example.com gran {KEY} self": "1:20: `grant` or `deny` is wanted here",
    f"update example.com grant {KEY} selfs": "1:39: `name`, `subdomain`, `self` or `selfsub` is wanted here",
    f"update ex/ample.com grant {KEY} self": "1:8: no journal can be named after this origin",
    f"update example.com grant {KEY} name a..b": "1:44: this is no name",
    f"update example.com grant {KEY} self A BB": "1:46: this isn't a type of records",
    f'update example.com grant "{KEY} self': "1:26: this quote isn't closed",
    f"update example.org grant {KEY} self": "1:8: no zone of this origin is served",
    "update example.com grant nobody self": "1:26: there is no such key",
}


def update(changes):
    return struct.pack("!HHHHHH", random.randrange(65536), 5 << 11, 1, 0, len(changes), 0) + wire(ORIGIN) + struct.pack("!HH", 6, IN) + b"".join(changes)


def added(name, last):
    return entry(f"{name}.{ORIGIN}", A, IN, 60, bytes([192, 0, 2, last]))


class Zoned:
    """A folder with a zone, keys, rules and journals, and the program that serves them."""

    def __init__(self, path, room):
        self.path, self.room, self.process = path, tempfile.mkdtemp(dir=room), None
        self.write("keys", KEYS)
        self.write("rules", RULES)
        self.zone(1)
        os.mkdir(f"{self.room}/journals")
        self.journal = f"{self.room}/journals/example.com.journal"

    def write(self, name, text):
        with open(f"{self.room}/{name}", "w", encoding="ascii") as it:
            it.write(text)

    def zone(self, serial, more=""):
        self.write("zone", f"$TTL 60\n@ SOA ns h {serial} 1 1 1 1\n@ NS ns\nns A 192.0.2.53\n{more}")

    def __enter__(self):
        words = ["--keys", f"{self.room}/keys", "--update-rules", f"{self.room}/rules", "--journals", f"{self.room}/journals", f"{ORIGIN}={self.room}/zone"]
        with open(f"{self.room}/told", "ab") as told:
            # (so that a file that is too long is an error and no signal, as Python has it)
            self.process = subprocess.Popen([self.path, *words], stdin=subprocess.PIPE, stdout=subprocess.PIPE, stderr=told, restore_signals=False)
        return self

    def __exit__(self, *_):
        self.process.stdin.close()
        status = self.process.wait(60)
        self.process.stdout.close()
        return status and False

    def told(self):
        with open(f"{self.room}/told", encoding="utf-8") as it:
            return it.read()

    def ends(self):
        """The status of one that doesn't serve, or stops."""
        with self:
            pass
        return self.process.returncode

    def asked(self, message):
        self.process.stdin.write(peers.framed(message))
        self.process.stdin.flush()
        return peers.received(self.process.stdout.read)

    def code(self, changes, key=OTHER):
        octets, mac = signed(update(changes), key) if key else (update(changes), None)
        response = self.asked(octets)
        need(not key or judged([response], key, mac).right, f"a response isn't signed: {response.hex()}")
        return response[3] & 15

    def takes(self, name, last, key=OTHER):
        code = self.code([added(name, last)], key)
        need(code == NOERROR and self.stands(name, last), f"{name}: {code}, {self.told()}")

    def stands(self, name, last):
        response = self.asked(frames.query([f"{name}.{ORIGIN}", "A"]))
        return response[-4:] == bytes([192, 0, 2, last]) if last else response[3] & 15 == 3

    def serial(self):
        return struct.unpack_from("!I", self.asked(frames.query([ORIGIN, "SOA"])), -20)[0]

    def size(self, end=""):
        return os.stat(self.journal + end).st_size if os.path.exists(self.journal + end) else None


def updates_are_taken(it):
    with it:
        it.takes("one.d", 1, key=KEY)
        it.takes("two", 2)
        need(it.serial() == 3, "each has a serial")
        size = it.size()
        need(it.code([added("two", 2)]) == NOERROR and it.size() == size, "one that changes nothing")
        for name, key in {"two.d": None, "two.e": KEY, "fixed.d": KEY}.items():
            need(it.code([added(name, 3)], key) == REFUSED and it.stands(name, 0), f"{name} isn't permitted")
        need(it.size() == size, "what is refused is in no journal")
    with it:
        need(it.stands("one.d", 1) and it.stands("two", 2) and it.serial() == 3, "updates are there after the next start")


def journals_are_replayed(it):
    with it:
        it.takes("one", 1)
        whole = it.size()
        it.takes("two", 2)
    os.truncate(it.journal, it.size() - 3)
    with it:
        need(it.stands("one", 1) and it.stands("two", 0) and it.size() == whole and it.size(".old") > whole, f"a torn update is cut off: {it.told()}")
        it.takes("three", 3)
    it.zone(3, "one A 192.0.2.1\nthree A 192.0.2.3\n")
    with it:
        need(it.serial() == 3 and it.stands("three", 3) and it.size() == 0 and "has nothing that its zone file lacks, and is put aside" in it.told(), it.told())
        it.takes("four", 4)
    it.zone(9)
    with it:
        need(it.serial() == 9 and it.stands("four", 0) and it.size() == 0 and "doesn't fit its zone file, and is put aside" in it.told(), it.told())
    with open(it.journal, "wb") as journal:
        journal.write(b"no journal at all")
    with it:
        need(it.serial() == 9 and it.size() == 0 and it.size(".old") == 17, "what is no journal")


def what_cannot_be_written_stops(it):
    with it:
        it.takes("one", 1)
        size, limits = it.size(), resource.prlimit(it.process.pid, resource.RLIMIT_FSIZE)
        resource.prlimit(it.process.pid, resource.RLIMIT_FSIZE, (size + 9, limits[1]))
        it.process.stdin.write(peers.framed(signed(update([added("two", 2)]), OTHER)[0]))
        it.process.stdin.flush()
        need(it.process.wait(60) == 2 and not it.process.stdout.read(), "an update that can't be written has no answer")
    need(it.size() == size and "example.com.journal: an update isn't taken" in it.told(), f"it is taken back: {it.size()} of {size}, {it.told()}")
    with it:
        need(it.stands("one", 1) and it.stands("two", 0), "what was answered is there, and nothing else")
        it.takes("two", 2)
    folder = os.open(f"{it.room}/journals", os.O_RDONLY)
    fcntl.flock(folder, fcntl.LOCK_EX)
    need(it.ends() == 2 and "another server has its journals there" in it.told(), it.told())
    os.close(folder)
    os.rename(it.journal, f"{it.room}/kept")
    os.symlink("/dev/full", it.journal)
    need(it.ends() == 2 and f"{it.journal}: the file can't be read" in it.told(), it.told())
    os.remove(it.journal)
    os.rename(f"{it.room}/journals", f"{it.room}/other")
    need(it.ends() == 2 and f"{it.room}/journals: " in it.told(), it.told())


def faults_are_told(it):
    for text, fault in FAULTS.items():
        it.write("rules", text)
        need(it.ends() == 2 and it.told().endswith(f"/rules:{fault}\n"), f"{text!r}: {it.told()}")


def kills_lose_nothing(it, updates):
    """A name is there or isn't: each update adds one or deletes one."""
    known, kills, sent = {}, 0, 0
    while sent < updates:
        with it:
            for name, last in known.items():
                need(it.stands(name, last), f"after {sent} updates {name} isn't as it was answered: {it.told()}")
            for left in reversed(range(random.randrange(1, 9))):
                name, last, sent = f"k{random.randrange(30)}", random.randrange(250), sent + 1
                changes = [entry(f"{name}.{ORIGIN}", ANY, ANY_CLASS)] + ([added(name, last)] if last else [])
                if left:
                    need(it.code(changes) == NOERROR, "an update that is right")
                    known[name] = last
                    continue
                it.process.stdin.write(peers.framed(signed(update(changes), OTHER)[0]))
                it.process.stdin.flush()
                time.sleep(random.choice([0, 0.0003, 0.001, 0.003, 0.01]))
                it.process.kill()
                answered = it.process.stdout.read()
        kills += 1
        with it:
            if answered or it.stands(name, last):
                known[name] = last
    print(f"  {sent} updates, {kills} kills")


TESTS = [updates_are_taken, journals_are_replayed, what_cannot_be_written_stops, faults_are_told, kills_lose_nothing]


def main(path=None, updates="300"):
    path = path or peers.program("zoned")
    with tempfile.TemporaryDirectory(prefix="zoned-updates-") as room:
        for test in TESTS:
            test(Zoned(path, room), *([int(updates)] if test is kills_lose_nothing else []))
            print(test.__name__.replace("_", " "))
    return 0


if __name__ == "__main__":
    peers.called(main, __doc__)
