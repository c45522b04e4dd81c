#!/usr/bin/env python3
"""tools/compare/turned_transfers.py [COUNT [SEED [FOLDER]]]: requests and streams of transfers that were turned, beside a judge of their TSIG (RFC
8945) by the HMAC of Python, a million of either unless another count is given. Not part of the gate.

Requests are good ones of which octets were changed, or gone, or more, before they were signed, or after, or both. nk_transfer_begin of the C library has to
hand out a zone exactly where the judge finds the request rightly signed, with a key that may have it; and it refuses no rightly signed request by
a TSIG with an error.

Streams are responses to the questions of secondaryd: whole zones in several messages, of which some are gone, come twice, in another order, from an
earlier response, or are turned, before they were signed or after. What isn't signed as section 5.3.1 says is never taken as a zone; what is,
and wasn't turned, is always taken; and a zone that is taken has as many records as the messages.

FOLDER is what `./build ningkraet` made; where none is named it is what `tools/build/program path ningkraet` gives. Prints what was sent and how it was
judged; the status is 1 where the program and the judge differ.
"""
import base64
import collections
import ctypes
import os
import random
import struct
import subprocess
import sys
import tempfile
import time

sys.dont_write_bytecode = True
sys.path.append(os.path.dirname(os.path.dirname(os.path.realpath(__file__))))

import keyed_transfers
import peers
import tsig_judge
from keyed_transfers import AXFR, IXFR, KEY, KEYS, OTHER, SECRET, SOA, question, timers
from questions import turned
from tsig_judge import TSIG, wire

DONE, IGNORED, UNKEYED, TRANSFER = 0, 1, 34, 35
NOTAUTH = 9
NOW = 1_900_000_000
ZONE = """@ 300 IN SOA ns host 7 7200 600 86400 300
@ 300 IN NS ns
ns 300 IN A 192.0.2.1
www 300 IN TXT "a"
"""
# The keys that both sides have, and what is asked of a zone: it goes out for the first two.
SHARED, ASKED = (KEY, OTHER), ((AXFR, None), (IXFR, 6), (IXFR, 7), (SOA, None))
SECRETS = {wire(it): SECRET for it in SHARED}
# The zone that anybody may have, the one that nobody, and the one that who has KEY.
OPEN, KEPT, GIVEN = "open.example.", "kept.example.", "example.com."


def signed(message, key=KEY, when=NOW):
    """A message with its TSIG, whatever it is."""
    stamp = timers(when)
    mac = keyed_transfers.mac_of(b"", message, key, stamp)
    return with_tsig(message, key, stamp, mac)


def with_tsig(message, key, stamp, mac, error=0):
    data = keyed_transfers.ALGORITHM + stamp + struct.pack("!H", len(mac)) + mac + message[:2] + struct.pack("!HH", error, 0)
    record = wire(key) + struct.pack("!HHIH", TSIG, 255, 0, len(data)) + data
    return message[:10] + struct.pack("!H", struct.unpack_from("!H", message, 10)[0] + 1 & 0xFFFF) + message[12:] + record


class Faults:
    """What was judged, and the first cases in which the program and the judge differ."""

    def __init__(self):
        self.counts, self.faults = collections.Counter(), []

    def tell(self, what, octets):
        self.counts["WRONG"] += 1
        if len(self.faults) < 10:
            self.faults.append(f"{what}: {octets.hex()}")


# ---- requests


class Message(ctypes.Structure):
    _fields_ = [("octets", ctypes.c_char_p), ("octets_length", ctypes.c_size_t), ("address", ctypes.c_char_p), ("address_length", ctypes.c_size_t),
                ("moment", ctypes.c_uint64), ("limit", ctypes.c_size_t), ("transport", ctypes.c_uint32)]


class Library:
    """Three zones, and keys one of which may have one of them."""

    def __init__(self, folder):
        self.calls = ctypes.CDLL(f"{folder}/libningkraet.so")
        self.zones, self.access, self.transfer = ctypes.c_void_p(), ctypes.c_void_p(), ctypes.c_void_p()
        self.room, self.written = ctypes.create_string_buffer(65535), ctypes.c_size_t()
        self.expect(self.calls.nk_zones_new(ctypes.byref(self.zones)))
        for origin in (OPEN, KEPT, GIVEN):
            self.expect(self.calls.nk_zones_load(ctypes.byref(self.zones), *self.octets(origin), *self.octets(ZONE), *self.rest()))
        self.expect(self.calls.nk_zones_keys(ctypes.byref(self.access), *self.octets(KEYS), *self.rest()))
        self.expect(self.calls.nk_zones_allow(ctypes.byref(self.access), *self.octets(GIVEN), *self.octets(KEY)))
        self.expect(self.calls.nk_zones_allow(ctypes.byref(self.access), *self.octets(OPEN), None, ctypes.c_size_t(0)))

    def octets(self, text):
        return text.encode(), ctypes.c_size_t(len(text))

    def rest(self):
        return self.room, ctypes.c_size_t(65535), ctypes.byref(self.written)

    def expect(self, code):
        if code != DONE:
            sys.exit(f"turned_transfers.py: a call ended with {code}: {self.room.raw[:self.written.value].decode()}")

    def begin(self, octets):
        """The code of nk_transfer_begin, and the response."""
        message = Message(octets, len(octets), b"\x7f\0\0\1", 4, NOW, 1232, 1)
        code = self.calls.nk_transfer_begin(ctypes.byref(self.transfer), ctypes.byref(self.zones), ctypes.byref(self.access), ctypes.byref(message), *self.rest())
        return code, self.room.raw[: self.written.value]

    def end(self):
        self.calls.nk_transfer_free(ctypes.byref(self.transfer))


def zone_wanted(octets):
    """The origin whose zone a request asks for, if it is one for a whole zone."""
    try:
        name, at = tsig_judge.name_at(octets, 12)
        return {wire(it): it for it in (OPEN, KEPT, GIVEN)}.get(name)
    except tsig_judge.Malformed:
        return None


def requests(count, chance):
    """Requests, and whether a zone has to go out, which isn't known of those that are turned."""
    good = {(origin, number): question(origin, *it) for origin in (OPEN, KEPT, GIVEN, "www.example.com.") for number, it in enumerate(ASKED)}
    for _ in range(count):
        how, (origin, number), key = chance.randrange(8), chance.choice(list(good)), chance.choice((KEY, KEY, OTHER, "unknown.example.", None))
        message, late = good[origin, number], chance.choice((0, 0, 0, 300, -300, 301, -301))
        if how in (1, 2):
            message = turned(message, chance)
        if len(message) < 12:
            continue
        if key:
            message = signed(message, key, NOW + late)
        if 2 <= how < 6:
            message = turned(message, chance)
        is_known = key in SHARED and abs(late) <= 300
        goes = number < 2 and (origin == OPEN and (key is None or is_known) or origin == GIVEN and key == KEY and is_known)
        yield message, goes if how in (0, 6, 7) else None


def judge_request(library, faults, message, goes):
    code, response = library.begin(message)
    key = tsig_judge.request_key(message, SECRETS, NOW)
    try:
        has_tsig = len(message) >= 12 and tsig_judge.tsig_of(message)[0] is not None
    except tsig_judge.Malformed:
        has_tsig = True
    faults.counts["requests"] += 1
    origin = zone_wanted(message) if code == TRANSFER else None
    if goes is not None:
        faults.counts["not turned"] += 1
        if goes != (code == TRANSFER):
            faults.tell(f"{'no' if goes else 'a'} zone goes out", message)
    if code == TRANSFER:
        library.end()
        if not (origin == OPEN and (key or not has_tsig) or origin == GIVEN and key == wire(KEY)):
            faults.tell(f"{origin} goes to who may not have it", message)
        faults.counts[f"zones that go out, {'signed' if key else 'to anybody'}"] += 1
        return
    error = response_error(response) if code == DONE and response else None
    if key and not message[2] & 128:
        faults.counts["rightly signed"] += 1
        if code in (IGNORED, UNKEYED) or error:
            faults.tell(f"a rightly signed request gets {code}, {error}", message)
    elif key is None and has_tsig and code == DONE and error == 0 and response[3] & 15 in (0, 3):
        faults.tell("a request that isn't rightly signed is answered", message)


def response_error(response):
    """The error in the TSIG of a response, if it has one."""
    try:
        tsig, _ = tsig_judge.tsig_of(response)
    except tsig_judge.Malformed:
        return -1
    return tsig.error if tsig else None


def judge_requests(folder, count, seed):
    library, faults = Library(folder), Faults()
    for message, goes in requests(count, random.Random(seed)):
        judge_request(library, faults, message, goes)
    return faults


# ---- streams


class Secondary:
    """secondaryd, at moments that are told to it."""

    def __init__(self, room):
        with open(f"{room}/keys", "w", encoding="ascii") as it:
            it.write(f'key "{KEY}" {{ algorithm hmac-sha256; secret "{base64.b64encode(SECRET).decode()}"; }};\n')
        words = [peers.program("secondaryd"), GIVEN, "--keys", f"{room}/keys"]
        self.process, self.moment = subprocess.Popen(words, stdin=subprocess.PIPE, stdout=subprocess.PIPE), NOW

    def tell(self, kind, octets=b""):
        """What it says to what happened, by kinds."""
        self.process.stdin.write(kind + struct.pack("!QI", self.moment, len(octets)) + octets)
        self.process.stdin.flush()
        said = {}
        while True:
            head = self.process.stdout.read(5)
            if len(head) < 5:
                sys.exit(f"turned_transfers.py: secondaryd ended with {self.process.wait()}")
            said[head[:1]] = self.process.stdout.read(struct.unpack("!I", head[1:])[0])
            if head[:1] == b"d":
                return said

    def question(self, number, serial):
        """The next question for a zone, when it is due; one for the serial is answered with this one before."""
        while True:
            self.moment = max(self.moment, struct.unpack("!Q", self.tell(b"t")[b"d"])[0])
            query = self.tell(b"a", struct.pack("!H", number & 0xFFFF))[b"q"]
            if kind_of(query) != SOA:
                return query
            self.answer(sealed([message_of(query, [soa(serial)])], tsig_judge.tsig_of(query)[0].mac, self.moment, random))

    def answer(self, messages):
        """The zone that it takes from messages, or None."""
        for message in messages:
            said = self.tell(b"m", message)
            if b"z" in said:
                return said[b"z"]
            if b"e" in said:
                return None
        self.tell(b"f")
        return None


def kind_of(query):
    return struct.unpack_from("!H", query, 12 + len(wire(GIVEN)))[0]


def message_of(query, records):
    """A response with these answers, not signed."""
    return query[:2] + b"\x84\0" + struct.pack("!4H", 1, len(records), 0, 0) + wire(GIVEN) + struct.pack("!HH", kind_of(query), 1) + b"".join(records)


def soa(serial):
    data = b"\2ns\xc0\x0c\4host\xc0\x0c" + struct.pack("!5I", serial, 3600, 60, 2**31 - 1, 300)
    return b"\xc0\x0c" + struct.pack("!HHIH", SOA, 1, 300, len(data)) + data


def address(number):
    label = b"n%d" % number
    return bytes([len(label)]) + label + b"\xc0\x0c" + struct.pack("!HHIH", 1, 1, 300, 4) + struct.pack("!I", number)


def plain(query, serial, chance):
    """The messages of a zone of this serial, not signed, and how many records they have, the last SOA left out."""
    servers = [b"\xc0\x0c" + struct.pack("!HHIH", 2, 1, 300, 5) + b"\2ns\xc0\x0c", b"\2ns\xc0\x0c" + struct.pack("!HHIH", 1, 1, 300, 4) + b"\xc0\0\2\1"]
    records = [soa(serial), *servers, *(address(number) for number in range(chance.randrange(6))), soa(serial)]
    cuts = sorted(chance.randrange(1, len(records)) for _ in range(chance.randrange(4)))
    parts = [records[begin:end] for begin, end in zip([0, *cuts], [*cuts, len(records)]) if begin < end]
    return [message_of(query, it) for it in parts], len(records) - 1


def sealed(messages, mac, when, chance):
    """The same signed: each, or some of those between the first and the last not."""
    prior, since, out = struct.pack("!H", len(mac)) + mac, b"", []
    for number, message in enumerate(messages):
        if 0 < number < len(messages) - 1 and chance.random() < 0.3:
            since += message
            out.append(message)
            continue
        stamp = timers(when)
        own = keyed_transfers.mac_of(prior + since, message, KEY, stamp, is_first=not number)
        out.append(with_tsig(message, KEY, stamp, own))
        prior, since = struct.pack("!H", len(own)) + own, b""
    return out


def disturbed(messages, before, chance):
    """Messages of which one is gone, comes twice, later, from an earlier response, or is turned."""
    messages, at, how = list(messages), chance.randrange(len(messages)), chance.randrange(6)
    if how == 0:
        del messages[at]
    elif how == 1:
        messages.insert(at, messages[at])
    elif how == 2:
        messages.append(messages.pop(at))
    elif how == 3 and before:
        messages[at] = chance.choice(before)
    else:
        messages[at] = turned(messages[at], chance)
    return messages


def judge_streams(room, count, seed):
    secondary, faults, chance, before, serial = Secondary(room), Faults(), random.Random(seed), [], 0
    for number in range(count):
        serial = serial + 1 & 0x7FFFFFFF
        query = secondary.question(number, serial)
        mac = tsig_judge.tsig_of(query)[0].mac
        (messages, records), how = plain(query, serial, chance), chance.randrange(8)
        if how == 1:
            at = chance.randrange(len(messages))
            messages[at] = turned(messages[at], chance)
        if min(map(len, messages)) < 12:
            continue
        messages = sealed(messages, mac, secondary.moment + chance.choice((0, 0, 0, 300, -300, 301, -301)), chance)
        whole = how in (0, 7)
        sent = messages if how < 2 or whole else disturbed(messages, before, chance)
        before = messages
        right = tsig_judge.is_signed_response(sent, SECRETS, secondary.moment, mac)
        zone = secondary.answer(sent)
        faults.counts["streams"] += 1
        faults.counts["rightly signed" if right else "not rightly signed"] += 1
        if zone is None:
            if right and whole:
                faults.tell(f"{serial}: a stream that is right isn't taken", b"".join(map(peers.framed, sent)))
            continue
        faults.counts["taken"] += 1
        lines = [it for it in zone.split(b"\n") if it and not it.startswith((b";", b"$"))]
        if not is_taken_rightly(sent, mac, secondary.moment, lines, records if whole else None):
            faults.tell(f"{serial}: a stream is taken that isn't right", b"".join(map(peers.framed, sent)))
    return faults


def is_taken_rightly(sent, mac, moment, lines, records):
    """Whether messages up to one of them are rightly signed, and the zone that is taken has as many records as those have, if it wasn't turned."""
    rights = any(tsig_judge.is_signed_response(sent[: end + 1], SECRETS, moment, mac) for end in range(len(sent)))
    return rights and (records is None or len(lines) == records)


def main(count="1000000", seed="1", folder=None):
    folder, count, stands = folder or peers.program("ningkraet"), int(count), True
    with tempfile.TemporaryDirectory(prefix="turned-") as room:
        for judge, where in ((judge_requests, folder), (judge_streams, room)):
            began, faults = time.monotonic(), judge(where, count, int(seed))
            print(f"{', '.join(f'{key}: {value:,}' for key, value in sorted(faults.counts.items()))}; {time.monotonic() - began:.0f} s", flush=True)
            for fault in faults.faults:
                print(f"  {fault[:2000]}")
            stands &= not faults.faults
    return 0 if stands else 1


if __name__ == "__main__":
    peers.called(main, __doc__, most=3)
