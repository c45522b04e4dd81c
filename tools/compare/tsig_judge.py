"""A judge of TSIG (RFC 8945) by the HMAC of Python, which shares nothing with what it judges: whether a request, or each message of a response,
is signed as it has to be."""
import hashlib
import hmac
import struct
from typing import NamedTuple

TSIG, ANY = 250, 255
# Messages that may come without a TSIG behind one that has one (section 5.3.1).
UNSIGNED = 99


class Malformed(Exception):
    """The octets aren't those of a message with a TSIG in its place."""


class Tsig(NamedTuple):
    name: bytes
    algorithm: bytes
    stamp: bytes
    mac: bytes
    original: bytes
    error: int
    other: bytes


def wire(name):
    return b"".join(bytes([len(it)]) + it.encode() for it in name.split(".") if it) + b"\0"


def name_at(message, at):
    """The labels of a name in wire form and in lower case, with pointers followed, and the place behind it (RFC 1035 section 4.1.4)."""
    labels, behind, least = b"", None, at
    while True:
        if at >= len(message):
            raise Malformed("the message ends in a name")
        length = message[at]
        if length < 64:
            labels += message[at : at + 1 + length].lower()
            if at + length >= len(message) or len(labels) > 255:
                raise Malformed("a label is too long")
            at += 1 + length
            if not length:
                return labels, at if behind is None else behind
        elif length >= 192 and at + 1 < len(message):
            behind, target = at + 2 if behind is None else behind, (length & 63) << 8 | message[at + 1]
            if target >= least:
                raise Malformed("a pointer doesn't lead back")
            at = least = target
        else:
            raise Malformed("the form of a label isn't known")


def behind_name(message, at):
    """The place behind a name, whose pointer isn't followed: a record is passed over by its length."""
    while at < len(message) and 0 < message[at] < 64:
        at += 1 + message[at]
    if at >= len(message) or 64 <= message[at] < 192:
        raise Malformed("a name isn't whole")
    return at + (2 if message[at] else 1)


def parted(message):
    """Where each record begins, with its type, class, TTL, data and section (0 to 2), up to the end of the message."""
    if len(message) < 12:
        raise Malformed("there is no header")
    questions, *counts = struct.unpack_from("!4H", message, 4)
    at, records = 12, []
    for _ in range(questions):
        at = behind_name(message, at) + 4
    for section, count in enumerate(counts):
        for _ in range(count):
            start, at = at, behind_name(message, at)
            if at + 10 > len(message):
                raise Malformed("a record isn't whole")
            kind, family, ttl, length = struct.unpack_from("!HHIH", message, at)
            at += 10 + length
            if at > len(message):
                raise Malformed("data aren't whole")
            records.append((start, kind, family, ttl, message[at - length : at], section))
    if at != len(message):
        raise Malformed("octets follow")
    return records


def tsig_of(message):
    """The TSIG of a message, or None, and the message without it, with its original identifier (sections 4.2 and 5.2)."""
    records = parted(message)
    if TSIG not in [it[1] for it in records]:
        return None, message
    start, kind, family, ttl, data, section = records[-1]
    if kind != TSIG or section != 2 or family != ANY or ttl or [it[1] for it in records].count(TSIG) > 1:
        raise Malformed("a TSIG stands elsewhere, or isn't one")
    algorithm, at = name_at(data, 0)
    if at + 10 > len(data):
        raise Malformed("data of a TSIG aren't whole")
    length = struct.unpack_from("!H", data, at + 8)[0]
    rest = data[at + 10 + length :]
    if len(rest) < 6 or len(rest) != 6 + struct.unpack_from("!H", rest, 4)[0]:
        raise Malformed("data of a TSIG aren't whole")
    tsig = Tsig(name_at(message, start)[0], algorithm, data[at : at + 8], data[at + 10 : at + 10 + length], rest[:2], struct.unpack_from("!H", rest, 2)[0], rest[6:])
    return tsig, tsig.original + message[2:10] + struct.pack("!H", struct.unpack_from("!H", message, 10)[0] - 1) + message[12:start]


def variables(tsig):
    return tsig.name + struct.pack("!HI", ANY, 0) + tsig.algorithm + tsig.stamp + struct.pack("!HH", tsig.error, len(tsig.other)) + tsig.other


def is_right(tsig, keys, text, now):
    """Whether the key is there, the MAC whole and that of the text, and the moment within the fudge (section 5.2)."""
    secret = keys.get(tsig.name)
    high, low, fudge = struct.unpack("!HIH", tsig.stamp)
    right = secret is not None and tsig.algorithm == wire("hmac-sha256") and tsig.mac == hmac.new(secret, text, hashlib.sha256).digest()
    return right and abs(now - (high << 32 | low)) <= fudge


def request_key(message, keys, now):
    """The name of the key by which a request is rightly signed, or None."""
    try:
        tsig, rest = tsig_of(message)
    except Malformed:
        return None
    return tsig.name if tsig and is_right(tsig, keys, rest + variables(tsig), now) else None


def is_signed_response(messages, keys, now, mac):
    """Whether the messages of a response are signed over the MAC of its request as section 5.3.1 says, the last of them too."""
    prior, since, is_first = struct.pack("!H", len(mac)) + mac, [], True
    for message in messages:
        try:
            tsig, rest = tsig_of(message)
        except Malformed:
            return False
        if tsig is None:
            since.append(message)
            if is_first or len(since) > UNSIGNED:
                return False
            continue
        back = variables(tsig) if is_first else tsig.stamp
        if tsig.error or not is_right(tsig, keys, prior + b"".join(since) + rest + back, now):
            return False
        prior, since, is_first = struct.pack("!H", len(tsig.mac)) + tsig.mac, [], False
    return not is_first and not since
