#!/usr/bin/env python3
"""tools/compare/daemon_hostile.py [COUNT [FOLDER]]: sends `ningkraetd`, under the sanitizers of the compiler, a million datagrams that no client
should send, or COUNT, half as many messages of that kind by TCP, on connections that are dropped at any place, lines of rubbish to the socket
for commands, and has it read configurations with octets changed; its zones are renewed all the while. Each message that has a header and isn't a
response has to be answered, by its identifier, and by TCP in order.

Prints what was sent, how long that took, and the memory. The status is 1 if an answer is missing or wrong, the sanitizers found something, or the
memory grew by more than a tenth and 8 megabytes. FOLDER is what `./build ningkraet` made; where none is named it is what `tools/build/program path ningkraet`
gives. It needs cc."""
import contextlib
import os
import random
import signal
import socket
import struct
import subprocess
import sys
import tempfile
import threading
import time

sys.dont_write_bytecode = True
sys.path.append(os.path.dirname(os.path.dirname(os.path.realpath(__file__))))

import library_datagrams
import peers
from daemon_test import SANITIZERS, Server, address, need
from questions import is_answered

# Messages on one connection, seconds that an answer is waited for, and between two renewals.
FRAMES, PATIENCE, TURN = 50, 60, 0.5
# Lines for commands, and configurations.
LINES, CONFIGURATIONS = 2000, 200


def stream(server, messages, chance):
    """Sends messages on a connection, reads their answers, and ends it in one of the ways that there are. Gives how many were answered."""
    open_here = [struct.pack("!H", number)[: len(it)] + it[2:] for number, it in enumerate(messages)]
    wanted = [number for number, it in enumerate(open_here) if is_answered(it)]
    octets = b"".join(map(peers.framed, open_here))
    with server.tcp(chance.choice(["127.0.0.1", "::1"])) as it:
        it.settimeout(PATIENCE)
        if chance.random() < 0.2:   # (it goes while its queries are answered, or in the midst of one)
            it.send(octets[: chance.randrange(len(octets))])
            if chance.random() < 0.5:
                it.setsockopt(socket.SOL_SOCKET, socket.SO_LINGER, struct.pack("ii", 1, 0))
            return 0
        while octets:
            size = chance.choice([1, 2, 3, 100, 5000, len(octets)])
            it.sendall(octets[:size])
            octets = octets[size:]
        if chance.random() < 0.5:
            it.shutdown(socket.SHUT_WR)
        with it.makefile("rb") as reader:
            for number in wanted:
                response = peers.received(reader.read)
                need(response[:2] == struct.pack("!H", number) and response[2] & 0x80, f"{response[:4].hex()} is answered to {open_here[number].hex()}")
    return len(wanted)


def streams(server, count):
    chance, answered, some = random.Random(2), 0, []
    for message in library_datagrams.datagrams(count, 2):
        some.append(message if chance.random() < 0.999 else message + chance.randbytes(chance.randrange(60_000)))
        if len(some) == FRAMES:
            answered += stream(server, some, chance)
            some = []
    return answered


def commands(server):
    chance, words = random.Random(3), [b"status", b"metrics", b"zones", b"add", b"drop", b"example.org", b"", b"\0", b"x" * 9000, b"\xff\xfe", b"%s%n"]
    for _ in range(LINES):
        with contextlib.suppress(OSError), socket.socket(socket.AF_UNIX) as it:
            it.settimeout(PATIENCE)
            it.connect(f"{server.folder}/control")
            it.sendall(b" ".join(chance.choices(words, k=chance.randrange(5))) + b"\n")
            if chance.random() < 0.7:
                while it.recv(1 << 16):
                    pass


def configurations(server):
    """Configurations with octets changed: each is read, or refused with its line."""
    chance = random.Random(4)
    with open(f"{server.folder}/conf", "rb") as it:
        right = it.read() + b"rate-limit 20\nrate-prefixes 24 56\nquery-log /none 5\nzone example.org \"/none at all\"\nlog /none\n"
    for _ in range(CONFIGURATIONS):
        octets = bytearray(right)
        for _ in range(chance.randrange(1, 6)):
            at = chance.randrange(len(octets))
            octets[at : at + chance.randrange(3)] = chance.randbytes(chance.randrange(3))
        with open(f"{server.folder}/turned", "wb") as it:
            it.write(octets)
        done = subprocess.run([server.words[0], "-t", "-c", f"{server.folder}/turned"], capture_output=True)
        need(done.returncode in (0, 1, 2) and b"Sanitizer" not in done.stderr and b"runtime error" not in done.stderr, done.stderr.decode(errors="replace"))


def tried(server, count):
    over, renewals = threading.Event(), [1]

    def renew():
        while not over.wait(TURN):
            renewals[0] += 1
            server.write("example.com", renewals[0])
            server.process.send_signal(signal.SIGHUP)

    renewing = threading.Thread(target=renew)
    renewing.start()
    try:
        began, answered = time.monotonic(), library_datagrams.flood(server.port, count // 10)
        before = server.resident()
        answered += library_datagrams.flood(server.port, count - count // 10, 5)
        print(f"{count} datagrams, {answered} answered: {time.monotonic() - began:.0f} s, resident {before} and then {server.resident()} kB", flush=True)
        began, answered = time.monotonic(), streams(server, count // 2)
        print(f"{count // 2} messages by TCP, {answered} answers read: {time.monotonic() - began:.0f} s, resident {server.resident()} kB", flush=True)
        commands(server)
        configurations(server)
        with server.udp() as by_udp, server.tcp() as by_tcp:
            need(address(by_udp) == address(by_tcp) == ["192.0.2.80"], "an honest client")
    finally:
        over.set()
        renewing.join()
    print(f"{LINES} lines for commands, {CONFIGURATIONS} configurations; {renewals[0] - 1} renewals, resident {server.resident()} kB")
    need(server.resident() <= 1.1 * before + 8000, "memory grew")


def main(count="1000000", folder=None):
    folder = folder or peers.program("ningkraet")
    with tempfile.TemporaryDirectory(prefix="daemon-") as room:
        peers.ningkraetd(folder, room, *SANITIZERS["sanitized"][0])
        try:
            with Server(room, "watch off", "tcp-connections 200", "query-log {folder}/queries 1000") as server:
                tried(server, int(count))
        except (AssertionError, OSError, struct.error) as wrong:
            print(f"daemon_hostile: {wrong}\n{server.text()[-3000:]}")
            return 1
    return 0


if __name__ == "__main__":
    peers.called(main, __doc__)
