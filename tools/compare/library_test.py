#!/usr/bin/env python3
"""tools/compare/library_test.py [FOLDER]: tries the C library from C: each refusal, each allocation failing in turn, threads that answer
from the same zones while these are reloaded, and ningkraetd, the server over it, with clients that are slow, rude or many, and with a
million datagrams that no client would send; then again with the compiler's sanitizers, and with valgrind. FOLDER is what `./build ningkraet`
made; by default what `tools/build/program path ningkraet` prints. Not part of the gate: it needs cc, opens sockets on loopback, and
leaves out, and says so, what a machine without valgrind can't do. It ends what it starts.
"""
import contextlib
import os
import shutil
import signal
import socket
import struct
import subprocess
import sys
import tempfile
import time
from typing import NamedTuple

sys.dont_write_bytecode = True
sys.path.append(os.path.dirname(os.path.dirname(os.path.realpath(__file__))))

import library
import peers
from library_datagrams import flood
from sources import TOP

# The port of the server, and how many connections it takes.
PORT, CONNECTIONS = 5390, 1000
# What a memory checker reports ends with this status.
VALGRIND = ["valgrind", "-q", "--error-exitcode=9", "--leak-check=full"]
# The zone that is updated signed, and a moment at which its signatures hold.
SIGNED, WITHIN = "a-name-of-more-than-thirty-three-octets.example.", 1500


class Way(NamedTuple):
    """A way to try the library: what is handed to the compiler, before what the program runs, and how much is tried."""

    name: str
    flags: list[str]
    before: list[str]
    datagrams: int
    renewals: int


WAYS = [
    Way("plain", [], [], 1_000_000, 2000),
    Way("sanitized", ["-fsanitize=address,undefined", "-fno-sanitize-recover=all"], [], 1_000_000, 300),
    Way("under valgrind", [], VALGRIND, 1_000_000, 50),
]
# A query for the SOA of example.com, and one without an answer: it is itself a response.
QUERY = bytes.fromhex("1234 0100 0001 0000 0000 0000 07") + b"example\3com" + bytes.fromhex("00 0006 0001")
RESPONSE = QUERY[:2] + b"\x81" + QUERY[3:]


def received(stream):
    """The next message of a stream; empty at its end."""
    octets = b""
    while len(octets) < 2 or len(octets) < 2 + struct.unpack("!H", octets[:2])[0]:
        more = stream.recv(2 + struct.unpack("!H", octets[:2])[0] - len(octets) if len(octets) >= 2 else 2 - len(octets))
        if not more:
            return b""
        octets += more
    return octets[2:]


def connected(family=socket.AF_INET):
    stream = socket.socket(family, socket.SOCK_STREAM)
    stream.settimeout(5)
    stream.connect(("::1" if family == socket.AF_INET6 else "127.0.0.1", PORT))
    return stream


def is_answer(message):
    return message[:2] == QUERY[:2] and len(message) > len(QUERY) and message[3] & 15 == 0 and message[7] == 1


def datagrams_are_answered():
    for family, host in ((socket.AF_INET, "127.0.0.1"), (socket.AF_INET6, "::1")):
        with socket.socket(family, socket.SOCK_DGRAM) as it:
            it.settimeout(5)
            for octets in (b"", b"x" * 3000, RESPONSE, QUERY):
                it.sendto(octets, (host, PORT))
            found = [it.recv(4096) for _ in range(2)]
            assert is_answer(found[-1]), found


def queries_of_one_write_are_answered():
    for family in (socket.AF_INET, socket.AF_INET6):
        with connected(family) as it:
            it.sendall(peers.framed(QUERY) + peers.framed(RESPONSE) + peers.framed(QUERY)[:9])
            assert is_answer(received(it))
            it.sendall(peers.framed(QUERY)[9:] + peers.framed(QUERY) * 500)
            assert all(is_answer(received(it)) for _ in range(501))


def half_closed_connections_are_answered():
    with connected() as it:
        it.sendall(peers.framed(QUERY) * 3)
        it.shutdown(socket.SHUT_WR)
        assert all(is_answer(received(it)) for _ in range(3)) and received(it) == b""


def others_dont_wait_for_one_octet_a_second():
    with connected() as slow:
        for octet in peers.framed(QUERY)[:3]:
            slow.sendall(bytes([octet]))
            began = time.monotonic()
            datagrams_are_answered()
            queries_of_one_write_are_answered()
            time.sleep(max(0, 1 - (time.monotonic() - began)))
        slow.sendall(peers.framed(QUERY)[3:])
        assert is_answer(received(slow))


def a_client_that_does_not_read_is_bounded(server):
    with connected() as it:
        it.setblocking(False)
        try:
            for _ in range(4000):
                it.send(peers.framed(QUERY) * 1000)
        except BlockingIOError:
            pass
        time.sleep(1)
        datagrams_are_answered()
        assert kilobytes(server) < 20_000, kilobytes(server)


def a_thousand_connections_are_served():
    streams = [connected() for _ in range(CONNECTIONS)]
    for it in streams:
        it.sendall(peers.framed(QUERY))
    assert all(is_answer(received(it)) for it in streams)
    # More than there may be: the first, whose queries are more than a second old, give way.
    time.sleep(1.5)
    more = [connected() for _ in range(100)]
    for it in more:
        it.sendall(peers.framed(QUERY))
    assert all(is_answer(received(it)) for it in more)
    for it in streams + more:
        it.close()


def a_changed_file_is_served(server, file):
    with open(file, encoding="utf-8") as it:
        text = it.read()
    for changed, serial in ((text.replace("192.0.2.80", "192.0.2"), 1), (text.replace(" 1 ", " 2 ", 1), 2)):
        with open(file, "w", encoding="utf-8") as it:
            it.write(changed)
        server.send_signal(signal.SIGHUP)
        time.sleep(0.5)
        with connected() as it:
            it.sendall(peers.framed(QUERY))
            found = received(it)
        assert struct.unpack("!I", found[-20:-16])[0] == serial, found


def tried(what, test, *words):
    test(*words)
    print(f"library_test: {what.__name__ if callable(what) else what}: ok", flush=True)


def compiled(way, folder, source, room, *more):
    """Compiles a program over the library, and gives its path."""
    path = f"{room}/{os.path.basename(source)[:-2]}"
    subprocess.run(["cc", "-O2", "-g", *way.flags, "-o", path, f"{TOP}/{source}", *library.flags(folder), *more], check=True)
    return path


def failing(way):
    """What has allocations fail; a sanitizer has an allocator of its own, whose allocations don't."""
    return ["-DNOT_WRAPPED"] if way.flags else ["-Wl,--wrap=malloc,--wrap=realloc"]


def try_calls(way, folder, room):
    """Refusals, and allocations that fail."""
    subprocess.run([*way.before, compiled(way, folder, "tools/compare/library_test.c", room, *failing(way)), str(way.datagrams)], check=True)


def try_signed(way, folder, room):
    """Updates of signed zones: the chain of each is closed afterwards, and all that has to be is signed."""
    subprocess.run([*way.before, compiled(way, folder, "tools/compare/library_signed.c", room, *failing(way)), room], check=True)
    check = peers.program("zone_check")
    for name in ("nsec", "nsec3", "opt-out"):
        words = [check, "--at", str(WITHIN), "--strict", f"{room}/{name}.zone", SIGNED]
        said = subprocess.run(words, stdout=subprocess.PIPE, text=True, check=True).stdout
        assert "a closed chain of NSEC" in said, said


def try_threads(way, folder, room):
    subprocess.run([*way.before, compiled(way, folder, "tools/compare/library_threads.c", room, "-pthread"), str(way.renewals)], check=True)


@contextlib.contextmanager
def server_of(way, folder, room):
    """The server over the library, and the file of its zone. It has to end well, with nothing reported."""
    file, path = f"{room}/example.zone", peers.ningkraetd(folder, room, "-O2", *way.flags)
    shutil.copyfile(f"{TOP}/examples/example.zone", file)
    lines = [f"listen ::1 {PORT}", "watch off", f"tcp-connections {CONNECTIONS}", f"tcp-client-connections {2 * CONNECTIONS}"]
    server = subprocess.Popen([*way.before, *peers.daemon(path, PORT, {"example.com.": file}, *lines)], stderr=subprocess.PIPE)
    try:
        said = b""
        while b"serving" not in said:
            said = server.stderr.readline()
            assert said, "it ended"
        yield server, file
        server.terminate()
        said = server.communicate(timeout=60)[1].decode()
        assert server.returncode == 0, said
    finally:
        server.kill()
        server.wait()


def kilobytes(process):
    with open(f"/proc/{process.pid}/statm", encoding="ascii") as held:
        return int(held.read().split()[1]) * os.sysconf("SC_PAGESIZE") // 1024


def try_datagrams(way, folder, room):
    with server_of(way, folder, room) as (server, _):
        flood(PORT, 10_000, seed=2)
        before = kilobytes(server)
        answered = flood(PORT, way.datagrams)
        # (a memory checker keeps what was given back for a while)
        assert way.flags or way.before or kilobytes(server) <= before + 100, (before, kilobytes(server))
    print(f"library_test: of {way.datagrams} datagrams {answered} were to be answered, and were", flush=True)


def try_server(folder, room):
    with server_of(WAYS[0], folder, room) as (server, file):
        for test in (datagrams_are_answered, queries_of_one_write_are_answered, half_closed_connections_are_answered):
            tried(test, test)
        tried("others_dont_wait", others_dont_wait_for_one_octet_a_second)
        tried("a_slow_reader_is_bounded", a_client_that_does_not_read_is_bounded, server)
        tried("a_thousand_connections", a_thousand_connections_are_served)
        tried("a_changed_file_is_served", a_changed_file_is_served, server, file)


def main(words):
    if not shutil.which("cc"):
        sys.exit("library_test: cc isn't there")
    folder = words[0] if words else peers.program("ningkraet")
    with tempfile.TemporaryDirectory(prefix="library-") as room:
        for way in WAYS:
            if way.before and not shutil.which(way.before[0]):
                print("library_test: left out: valgrind isn't there")
                continue
            for test in (try_calls, try_signed, try_threads, try_datagrams):
                tried(f"{test.__name__}, {way.name}", test, way, folder, room)
        try_server(folder, room)
    return 0


if __name__ == "__main__":
    sys.exit(main(sys.argv[1:]))
