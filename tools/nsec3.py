"""The digests of names that are the owners of NSEC3 records (RFC 5155 section 5). A name is text as in frames.py."""

import hashlib

import frames

# (RFC 4648 section 7)
BASE32HEX = "0123456789abcdefghijklmnopqrstuv"


def digest(name, salt=b"", iterations=0):
    """The digest of a name by SHA-1. Digests are in the order of the owners that they are of."""
    octets = frames.octets_of(name.lower())
    for _ in range(iterations + 1):
        octets = hashlib.sha1(octets + salt).digest()
    return octets


def label(octets):
    """The first label of the owner of a digest's NSEC3 record (RFC 5155 section 3)."""
    number = int.from_bytes(octets, "big")
    return "".join(BASE32HEX[number >> 5 * at & 31] for at in reversed(range(len(octets) * 8 // 5)))
