#!/usr/bin/env python3
"""tools/compare/keyed_transfers.py [FOLDER]: the server `server/` beside clients that ask for zones with keys (TSIG, RFC 8945), by the HMAC of
Python, which judges each message of each response; and beside dig and kdig where they are there; and zoned behind its front end. FOLDER is what
`./build ningkraet` made; where none is named it is what `tools/build/program path ningkraet` gives. No part of the gate: it needs cc, and opens
sockets on loopback. It ends what it starts."""
import base64
import hashlib
import hmac
import os
import shutil
import socket
import struct
import subprocess
import sys
import tempfile
import time
from typing import NamedTuple

sys.dont_write_bytecode = True
sys.path.append(os.path.dirname(os.path.dirname(os.path.realpath(__file__))))

import frames
import peers
from daemon_test import ZONE, Server, need

KEY, SECRET = "key.example.", b"a secret that two servers share."
OTHER = "other.example."
KEYS = "".join(f'key "{name}" {{\n\talgorithm hmac-sha256;\n\tsecret "{base64.b64encode(SECRET).decode()}";\n}};\n' for name in (KEY, OTHER))
LARGE = 20_000
SOA, AXFR, IXFR, TSIG = 6, 252, 251, 250
FORMERR, REFUSED, NOTAUTH, BADSIG, BADKEY, BADTIME, BADTRUNC = 1, 5, 9, 16, 17, 18, 22


class LeftOut(Exception):
    """A test that can't be made here; says why."""


def wire(name):
    return b"".join(bytes([len(it)]) + it.encode() for it in name.split(".") if it) + b"\0"


ALGORITHM = wire("hmac-sha256")


def timers(when):
    """The time and a fudge of 300 seconds."""
    return struct.pack("!HIH", when >> 32, when & 0xFFFFFFFF, 300)


def mac_of(prior, message, key, stamp, error=0, other=b"", is_first=True):
    """The MAC of a message, whose first one covers all variables (section 4.3)."""
    front, back = (wire(key) + struct.pack("!HI", 255, 0) + ALGORITHM, struct.pack("!HH", error, len(other)) + other) if is_first else (b"", b"")
    return hmac.new(SECRET, prior + message + front + stamp + back, hashlib.sha256).digest()


def signed(message, key=KEY, when=None, turned=0, octets=32):
    """A request with its TSIG, and the MAC."""
    stamp = timers(int(time.time()) if when is None else when)
    mac = bytearray(mac_of(b"", message, key, stamp)[:octets])
    mac[0] ^= turned
    data = ALGORITHM + stamp + struct.pack("!H", len(mac)) + mac + message[:2] + bytes(4)
    record = wire(key) + struct.pack("!HHIH", TSIG, 255, 0, len(data)) + data
    return message[:10] + struct.pack("!H", message[11] + 1) + message[12:] + record, bytes(mac)


def question(origin, kind, serial=None):
    """A query; IXFR with the SOA that the client has."""
    front = struct.pack("!HHHHHH", 0x4E4B, 0, 1, 0, serial is not None, 0) + wire(origin) + struct.pack("!HH", kind, 1)
    return front + (b"" if serial is None else b"\xc0\x0c" + struct.pack("!HHIH", SOA, 1, 0, 22) + bytes(2) + struct.pack("!5I", serial, 1, 1, 1, 1))


def behind_name(message, at):
    while 0 < message[at] < 64:
        at += 1 + message[at]
    return at + (2 if message[at] else 1)


def records_of(message):
    """Where each record begins, its type and data, and whether it is an answer. Nothing follows the last."""
    questions, answers, others = message[5], struct.unpack_from("!H", message, 6)[0], sum(struct.unpack_from("!HH", message, 8))
    at, records = 12, []
    for _ in range(questions):
        at = behind_name(message, at) + 4
    for number in range(answers + others):
        start, at = at, behind_name(message, at)
        kind, _, _, length = struct.unpack_from("!HHIH", message, at)
        records.append((start, kind, message[at + 10 : at + 10 + length], number < answers))
        at += 10 + length
    need(at == len(message), "octets behind a message")
    return records


class Told(NamedTuple):
    """What a response tells: its code, the error of its TSIG, how many messages and answers it has, and whether each MAC is right."""

    code: int
    error: int | None
    messages: int
    answers: int
    right: bool


def judged(messages, key, prior):
    """What messages tell, the first of which is signed over the MAC of the request."""
    count, answers, right, error, code = 0, 0, True, None, 0
    for message in messages:
        records = records_of(message)
        code, answers, error = message[3] & 15, answers + sum(it[3] for it in records), None
        start, kind, data, _ = records[-1] if records else (0, 0, b"", False)
        if prior is not None and kind == TSIG:
            at = behind_name(data, 0)
            length = struct.unpack_from("!H", data, at + 8)[0]
            stamp, mac, rest = data[at : at + 8], data[at + 10 : at + 10 + length], data[at + 10 + length :]
            error, other = struct.unpack_from("!H", rest, 2)[0], rest[6:]
            plain = rest[:2] + message[2:10] + struct.pack("!H", struct.unpack_from("!H", message, 10)[0] - 1) + message[12:start]
            right &= mac == mac_of(struct.pack("!H", len(prior)) + prior, plain, key, stamp, error, other, not count)
            prior = mac
        else:
            right = False
        count += 1
    return Told(code, error, count, answers, right)


def stream_of(port, request):
    """The messages of the response to a request over TCP, up to the second SOA, or the first that is no transfer's."""
    with socket.create_connection(("127.0.0.1", port), 20) as stream:
        stream.sendall(peers.framed(request))
        read, seen = stream.makefile("rb").read, 0
        while seen < 2:
            message = peers.received(read)
            yield message
            answers = [it for it in records_of(message) if it[3]]
            seen += sum(it[1] == SOA for it in answers)
            if message[3] & 15 or [it[1] for it in answers] == [SOA]:
                return


def asked(server, origin="example.com", kind=AXFR, serial=None, key=KEY, **how):
    """What a request with a key tells; without one where that is None."""
    request, mac = signed(question(origin, kind, serial), key, **how) if key else (question(origin, kind, serial), None)
    return judged(stream_of(server.port, request), key, mac)


def zones_go_to_their_keys(room):
    more = "".join(f"n{number} A 192.0.2.1\n" for number in range(LARGE))
    lines = [f"keys {room}/keys", f"transfer example.com {KEY}", "transfer open.example"]
    with Server(room, *lines, zones=("example.com", "open.example", "kept.example")) as server:
        server.write("example.com", more=more)
        server.control("reload")
        whole = asked(server)
        need(whole.right and not whole.code and not whole.error and whole.messages > 5 and whole.answers == LARGE + 8, whole)
        need(asked(server, kind=IXFR, serial=0) == whole, "IXFR with an older serial")
        current = asked(server, kind=IXFR, serial=1)
        need(current.right and (current.messages, current.answers) == (1, 1), current)
        free = asked(server, "open.example", key=None)
        need((free.code, free.answers) == (0, 8), free)
        now = int(time.time())
        for told, wanted in (
            (asked(server, key=None), (REFUSED, None, False)),
            (asked(server, key=OTHER), (REFUSED, 0, True)),
            (asked(server, "kept.example"), (REFUSED, 0, True)),
            (asked(server, "nowhere.example"), (NOTAUTH, 0, True)),
            (asked(server, turned=1), (NOTAUTH, BADSIG, False)),
            (asked(server, key="unknown.example."), (NOTAUTH, BADKEY, False)),
            (asked(server, when=now - 400), (NOTAUTH, BADTIME, True)),
            (asked(server, when=now + 400), (NOTAUTH, BADTIME, True)),
            (asked(server, octets=16), (NOTAUTH, BADTRUNC, True)),
            (asked(server, octets=9), (FORMERR, None, False)),
        ):
            need((told.code, told.error, told.right) == wanted and not told.answers, (told, wanted))
        need(server.counter("transfers that began") == 3, "transfers are counted")
        with server.udp() as stream:
            for kind, serial, answers in ((SOA, None, 1), (IXFR, 0, 1)):
                request, mac = signed(question("example.com", kind, serial))
                stream.send(request)
                told = judged([stream.recv(4096)], KEY, mac)
                need(told == Told(0, 0, 1, answers, True), told)
            stream.send(frames.query(["www.example.com.", "A"]))
            need(records_of(stream.recv(4096))[0][2] == bytes([192, 0, 2, 80]), "a message without a key")


def a_zone_stays_as_it_was(room):
    """A client that reads slowly has the zone of the beginning, whatever is loaded meanwhile; one that goes away costs nothing."""
    more = "".join(f"n{number} A 192.0.2.1\n" for number in range(10 * LARGE))
    with Server(room, f"keys {room}/keys", f"transfer example.com {KEY}") as server:
        server.write("example.com", more=more)
        server.control("reload")
        request, mac = signed(question("example.com", AXFR))
        messages = stream_of(server.port, request)
        first = next(messages)
        server.write("example.com", serial=2)
        server.control("reload")
        told = judged([first, *messages], KEY, mac)
        need(told.right and told.answers == 10 * LARGE + 8, told)
        need(asked(server).answers == 8, "the zone that came meanwhile")
        messages = stream_of(server.port, signed(question("example.com", AXFR))[0])
        next(messages)
        messages.close()
        need(asked(server, kind=SOA).right, "a client that went away")


def faults_are_told(room):
    for line, text, wanted in (
        ("transfer example.com key.example", None, "there is no such key"),
        ("transfer a..b", None, "isn't a domain name"),
        ("keys {room}/bad", "key a {\n algorithm hmac-sha256;\n secret ?;\n};\n", "bad:3:9:"),
        ("keys {room}/none", None, "No such file"),
    ):
        if text:
            with open(f"{room}/bad", "w", encoding="ascii") as it:
                it.write(text)
        with open(f"{room}/conf", "w", encoding="ascii") as it:
            it.write(f"zones {room}\n{line}\n".replace("{room}", room))
        done = subprocess.run([f"{room}/ningkraetd", "-t", "-c", f"{room}/conf"], capture_output=True, text=True)
        need(done.returncode == 2 and wanted in done.stderr, (line, done.returncode, done.stderr))


def other_clients_take_it(room):
    tools = [it for it in ("dig", "kdig") if shutil.which(it)]
    if not tools:
        raise LeftOut("neither dig nor kdig is on the path")
    secret = base64.b64encode(SECRET).decode()
    with Server(room, f"keys {room}/keys", f"transfer example.com {KEY}") as server:
        for tool in tools:
            words = [tool, "@127.0.0.1", "-p", str(server.port), "-y", f"hmac-sha256:{KEY}:{secret}", "example.com", "AXFR"]
            text = subprocess.run(words, capture_output=True, text=True).stdout
            need(sum("\tIN\t" in it or " IN " in it for it in text.splitlines() if not it.startswith(";")) == 8 and "BADSIG" not in text, text)


class Front(NamedTuple):
    """A front end, by its port."""

    port: int


def zoned_sends_them_too(room):
    """By its front end, which gives messages identifiers of its own. There is a key for all zones that are sent to those who sign."""
    front, path = Front(peers.free_port()), f"{room}/zoned.zone"
    with open(path, "w", encoding="ascii") as it:
        it.write(ZONE.format(origin="example.com.", serial=1, last=80) + "".join(f"n{number} A 192.0.2.1\n" for number in range(LARGE)))
    process = peers.begun(peers.front(peers.program("zoned"), front.port, {"example.com.": path}, "--keys", f"{room}/keys", "--signed"))
    try:
        peers.connected(front.port).close()
        whole, current = asked(front), asked(front, kind=IXFR, serial=1)
        need(whole.right and not whole.code and not whole.error and whole.messages > 5 and whole.answers == LARGE + 8, whole)
        need(current.right and (current.messages, current.answers) == (1, 1), current)
        for told, wanted in (
            (asked(front, key=OTHER), (0, 0, True)),
            (asked(front, kind=SOA), (0, 0, True)),
            (asked(front, key=None), (REFUSED, None, False)),
            (asked(front, "nowhere.example"), (NOTAUTH, 0, True)),
            (asked(front, turned=1), (NOTAUTH, BADSIG, False)),
            (asked(front, key="unknown.example."), (NOTAUTH, BADKEY, False)),
            (asked(front, when=int(time.time()) - 400), (NOTAUTH, BADTIME, True)),
        ):
            need((told.code, told.error, told.right) == wanted, (told, wanted))
    finally:
        peers.end(process)


TESTS = [faults_are_told, zones_go_to_their_keys, a_zone_stays_as_it_was, zoned_sends_them_too, other_clients_take_it]


def main(folder=None):
    folder, passed, failed = folder or peers.program("ningkraet"), 0, 0
    with tempfile.TemporaryDirectory(prefix="keys-") as room:
        peers.ningkraetd(folder, room, "-O1", "-fsanitize=address,undefined", "-fno-sanitize-recover=all")
        with open(f"{room}/keys", "w", encoding="ascii") as it:
            it.write(KEYS)
        for test in TESTS:
            try:
                test(room)
                passed += 1
                print(f"{test.__name__}: ok", flush=True)
            except LeftOut as why:
                print(f"{test.__name__}: left out: {why}", flush=True)
            except (AssertionError, OSError, struct.error) as wrong:
                failed += 1
                print(f"{test.__name__}: FAILED: {wrong}", flush=True)
    print(f"{passed} passed, {failed} failed")
    return 1 if failed else 0


if __name__ == "__main__":
    peers.called(main, __doc__, most=1)
