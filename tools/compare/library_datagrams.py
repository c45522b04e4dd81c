"""Datagrams that no client would send, for the server over the C library: every prefix of good queries, these with octets changed, inserted
and removed, and random octets. Each one that has a header and isn't a response has to be answered, once and with its own identifier."""
import random
import socket
import struct

import frames
from questions import is_answered, turned

# How many are open at once, and seconds that an answer is waited for.
OPEN, PATIENCE = 64, 60
# Octets of a datagram by chance, at most.
LONGEST = 600
# Octets of a response by UDP, at most.
LIMIT = 1232

WORDS = [
    "example.com. SOA", "WWW.example.COM. A", "www.example.com. A edns=4096 do rd cd", "nowhere.example.com. AAAA", "a.b.c.d.e.example.com. TXT edns=512",
    "example.com. MX edns=1232", "example.com. DS do edns=600", ". NS", "com. A", "example.com. SOA class=255", "example.com. SOA opcode=4", "example.com. SOA edns=4096 version=3",
    "example.com. 255", f"{'a' * 63}.{'b' * 63}.{'c' * 63}.{'d' * 47}.example.com. A edns=4096",
]


def good():
    """Good queries."""
    frames.TYPES.update({"255": 255})
    return [frames.query(it.split()) for it in WORDS]


def datagrams(count, seed):
    """So many datagrams, first each front of each good query."""
    chance, queries = random.Random(seed), good()
    fronts = [it[:length] for it in queries for length in range(len(it) + 1)]
    for number in range(count):
        if number < len(fronts):
            yield fronts[number]
        elif number % 3 == 0:
            yield chance.randbytes(chance.randrange(LONGEST))
        else:
            yield turned(chance.choice(queries), chance)


def ask(it, messages):
    """Sends these, each by an identifier of its own, and takes their answers. Gives how many had one."""
    left = {}
    for number, message in enumerate(messages):
        message = struct.pack("!H", number)[:len(message)] + message[2:]
        if is_answered(message):
            left[number] = message
        it.send(message)
    answered = len(left)
    while left:
        try:
            response = it.recv(65535)
        except TimeoutError:
            raise AssertionError(f"{len(left)} not answered, as {next(iter(left.values())).hex()}") from None
        (number,) = struct.unpack_from("!H", response)
        assert number in left and response[2] & 0x80 and 12 <= len(response) <= LIMIT, response.hex()
        del left[number]
    return answered


def flood(port, count, seed=1):
    """Sends so many datagrams to a port of 127.0.0.1, and gives how many were answered."""
    answered, some = 0, []
    with socket.socket(socket.AF_INET, socket.SOCK_DGRAM) as it:
        it.settimeout(PATIENCE)
        it.connect(("127.0.0.1", port))
        for message in datagrams(count, seed):
            some.append(message)
            if len(some) == OPEN:
                answered += ask(it, some)
                some = []
        return answered + ask(it, some)
