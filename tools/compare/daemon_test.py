#!/usr/bin/env python3
"""tools/compare/daemon_test.py [FOLDER]: tries the server `server/` as an operator and as an attacker would: its configuration's faults, both
transports and families, the address that answers, reloads while clients ask, zones that come and go, limits for clients, clients that don't
read or say nothing, floods of datagrams and connections, and many zones; once as it is built and once under the sanitizers of the compiler.
FOLDER is what `./build ningkraet` made; where none is named it is what `tools/build/program path ningkraet` gives. No part of the gate: it
needs cc, and opens sockets on loopback. It ends what it starts."""
import contextlib
import ctypes
import json
import os
import random
import re
import resource
import signal
import socket
import struct
import subprocess
import sys
import tempfile
import threading
import time

sys.dont_write_bytecode = True
sys.path.append(os.path.dirname(os.path.dirname(os.path.realpath(__file__))))

import frames
import peers

# Flags of the compiler, and how many seconds stand between two datagrams of a flood: what overflows the kernel's buffers tries nothing here.
SANITIZERS = {"plain": (["-O2"], 0), "sanitized": (["-O1", "-fsanitize=address,undefined", "-fno-sanitize-recover=all"], 0.0003),
              "threads": (["-O1", "-fsanitize=thread"], 0.001)}
# (what was freed isn't kept for long, so that memory that grows is seen)
os.environ["ASAN_OPTIONS"] = "quarantine_size_mb=4"
ZONE = "$ORIGIN {origin}\n$TTL 60\n@ SOA ns host {serial} 2 3 4 5\n@ NS ns\nns A 192.0.2.53\nwww A 192.0.2.{last}\n* TXT any\nsub NS ns.sub\nns.sub A 192.0.2.54\n"
# Seconds that an answer may take, and a start and an end with many zones on a machine with much other work.
PATIENCE, STARTS, ENDS = 5, 600, 120
# How many descriptors a server has that has few; and two numbers of prctl(2) and capabilities(7).
DESCRIPTORS, PR_CAPBSET_DROP, CAP_SYS_RESOURCE = 60, 24, 24
FAULTS = {
    "listen 127.0.0.1 0\n": ":1: '0' isn't a number from 1 to 65535",
    "listen localhost\n": ":1: 'localhost' isn't an IPv4 or IPv6 address",
    "# one\nzone example.com\n": ":2: zone needs a value more",
    "workers 1 2\n": ":1: workers has a value too many",
    "color red\n": ":1: 'color' isn't a directive",
    'zones "/tmp\n': ":1: a quote isn't closed",
    "watch maybe\n": ":1: 'maybe' is neither on nor off",
    "cookie-secret 00112233445566778899aabbccddeefg\n": ":1: a secret has 32 hexadecimal digits",
    "cookie-secret 00112233445566778899aabbccddeeff 00\n": ":1: a secret has 32 hexadecimal digits",
    "listen 127.0.0.1 5300\n": ":1: there is neither a zone nor a folder of zones",
    "zone a b c d e\n": ":1: zone has a value too many",
    "update example.com grant key\n": ":1: update needs a value more",
    "update example.com grant key name\n": ":1: update needs a value more",
    "update example.com permit key self\n": ":1: 'permit' is neither grant nor deny",
    "update example.com grant key all\n": ":1: 'all' is none of name, subdomain, self and selfsub",
    "update example.com grant key self A TYPE65280 B\n": ":1: 'B' isn't a type of records",
    "update 0/25.example grant key self\n": ":1: '0/25.example' can't be the name of a journal: an origin of letters, digits, - and _ can",
    "zones /tmp\nupdate example.com grant key self\n": ":2: updates need journals: there is no folder of them",
}


def need(holds, what):
    if not holds:
        raise AssertionError(what)


class Server:
    """A running server in a folder of its own."""

    def __init__(self, room, *lines, zones=("example.com",), workers=2, hosts=("127.0.0.1", "::1"), **how):
        self.folder, self.room, self.port, self.how = tempfile.mkdtemp(dir=room), room, peers.free_port(), how
        self.words = [f"{room}/ningkraetd", "-c", f"{self.folder}/conf"]
        os.mkdir(f"{self.folder}/zones")
        for origin in zones:
            self.write(origin)
        with open(f"{self.folder}/conf", "w", encoding="ascii") as it:
            it.write("".join(f"listen {host} {self.port}\n" for host in hosts))
            it.write(f"zones {self.folder}/zones\nworkers {workers}\ncontrol {self.folder}/control\n")
            it.write("".join(f"{line}\n" for line in lines).format(folder=self.folder, port=self.port))

    def write(self, origin, serial=1, last=80, more=""):
        with open(f"{self.folder}/new", "w", encoding="ascii") as it:
            it.write(ZONE.format(origin="." if origin == "." else f"{origin}.", serial=serial, last=last) + more)
        os.rename(f"{self.folder}/new", f"{self.folder}/zones/{origin}.zone")

    def __enter__(self):
        self.log = open(f"{self.folder}/log", "w+", encoding="utf-8")
        self.process = subprocess.Popen(self.words, stderr=self.log, **self.how)
        ends = time.monotonic() + STARTS
        while "serving " not in self.text() and time.monotonic() < ends:
            need(self.process.poll() is None, f"it ended: {self.text()}")
            time.sleep(0.02)
        return self

    def text(self):
        with open(f"{self.folder}/log", encoding="utf-8", errors="replace") as it:
            return it.read()

    def __exit__(self, kind, *_):
        if self.process.poll() is None:
            self.process.send_signal(signal.SIGTERM)
        try:
            status = self.process.wait(ENDS)
        except subprocess.TimeoutExpired:
            self.process.kill()
            status = f"{self.process.wait()}, by force"
        self.log.close()
        need(kind or status == 0, f"it ended with {status}: {self.text()[-3000:]}")

    def control(self, *words):
        done = subprocess.run([f"{self.room}/ningkraetctl", "-s", f"{self.folder}/control", *words], capture_output=True, text=True)
        return done.returncode, done.stdout + done.stderr

    def counter(self, words):
        return sum(int(it.split()[0]) for it in self.control("status")[1].splitlines() if it.endswith(words))

    def resident(self):
        with open(f"/proc/{self.process.pid}/status", encoding="ascii") as it:
            return int(re.search(r"VmRSS:\s+(\d+)", it.read())[1])

    def seconds(self):
        """Seconds of a processor that it has had."""
        with open(f"/proc/{self.process.pid}/stat", encoding="ascii") as it:
            words = it.read().rpartition(")")[2].split()
        return (int(words[11]) + int(words[12])) / os.sysconf("SC_CLK_TCK")

    def udp(self, host="127.0.0.1", to=None):
        it = socket.socket(socket.AF_INET6 if ":" in host else socket.AF_INET, socket.SOCK_DGRAM)
        it.settimeout(PATIENCE)
        it.connect((to or host, self.port))
        return it

    def tcp(self, host="127.0.0.1"):
        it = socket.create_connection((host, self.port), PATIENCE)
        return it


def ask(stream, *words):
    """The lines of what is answered to a query."""
    message = frames.query([*words, "id=7"])
    if stream.type == socket.SOCK_STREAM:
        return list(frames.message_lines(peers.asked(stream, message)))
    stream.send(message)
    return list(frames.message_lines(stream.recv(65535)))


def address(stream, name="www.example.com.", tries=1):
    """The address of a name; a datagram may be lost in a flood, and is sent again then."""
    try:
        return [it.split()[-1] for it in ask(stream, name, "A") if " IN A " in it][:1]
    except TimeoutError:
        return address(stream, name, tries - 1) if tries > 1 else []


def faults_are_told(room):
    for text, told in FAULTS.items():
        with open(f"{room}/bad", "w", encoding="ascii") as it:
            it.write(text)
        done = subprocess.run([f"{room}/ningkraetd", "-t", "-c", f"{room}/bad"], capture_output=True, text=True)
        need(done.returncode == 2 and done.stderr == f"{room}/bad{told}\n", f"{text!r}: {done.stderr!r}")
    with Server(room) as server:
        words = [f"{room}/ningkraetd", "-t", "-c", f"{server.folder}/conf"]
        need(subprocess.run(words, capture_output=True).returncode == 0, "a right configuration")
        server.write("example.com", more="@ garbage\n")
        done = subprocess.run(words, capture_output=True, text=True)
        need(done.returncode == 1 and "example.com.zone:10:3:" in done.stderr, done.stderr)


def both_ways_are_answered(room):
    with Server(room, "listen 0.0.0.0 {other}".replace("{other}", str(peers.free_port()))) as server:
        for host in ("127.0.0.1", "::1"):
            for stream in (server.udp(host), server.tcp(host)):
                with stream:
                    need(address(stream) == ["192.0.2.80"], f"{host}: {stream.type}")
        with server.udp() as stream:
            need("NXDOMAIN" in ask(stream, "a.b.www.example.com.", "A")[0], "a name error")
            need("REFUSED" in ask(stream, "example.org.", "A")[0], "a name of no zone")
            need(any("ns.sub" in it for it in ask(stream, "x.sub.example.com.", "A")), "a referral")
        need(server.counter("queries by UDP") == 5 and server.counter("queries by TCP") == 2, server.control("status")[1])


def the_address_that_was_asked_answers(room):
    port = peers.free_port()
    with Server(room, f"listen 0.0.0.0 {port}") as server, socket.socket(socket.AF_INET, socket.SOCK_DGRAM) as it:
        it.settimeout(PATIENCE)
        it.sendto(frames.query(["www.example.com.", "A"]), ("127.0.0.7", port))
        need(it.recvfrom(4096)[1] == ("127.0.0.7", port), "another address answered")


def reloads_lose_nothing(room):
    wrong, over = [], threading.Event()

    def client(server, number):
        with (server.udp() if number % 2 else server.tcp()) as stream:
            while not over.is_set():
                try:
                    if len(address(stream)) != 1:
                        wrong.append("no answer")
                except OSError as error:
                    wrong.append(error)

    with Server(room) as server:
        clients = [threading.Thread(target=client, args=(server, it)) for it in range(4)]
        for it in clients:
            it.start()
        for serial in range(2, 26):
            server.write("example.com", serial, last=serial)
            if serial % 3 == 0:
                server.process.send_signal(signal.SIGHUP)
            elif serial % 3 == 1:
                need(server.control("reload")[0] == 0, "a reload by command")
            ends, stands = time.monotonic() + PATIENCE, []
            while stands != [f"192.0.2.{serial}"] and time.monotonic() < ends:
                time.sleep(0.02)
                with server.udp() as stream:
                    stands = address(stream)
            need(stands == [f"192.0.2.{serial}"], f"serial {serial} isn't served: {stands}")
        over.set()
        for it in clients:
            it.join()
    need(not wrong, f"{len(wrong)} answers were wrong or lost: {wrong[:3]}")


def zones_come_and_go(room):
    with Server(room) as server:
        server.write("example.org")
        need(server.control("reload")[0] == 0, "a zone more")
        with server.udp() as stream:
            need("NOERROR" in ask(stream, "www.example.org.", "A")[0], "a zone that came isn't served")
            server.write("example.org", more="@ garbage\n")
            need(server.control("reload")[0] == 1, "a bad file has to be told")
            need("NOERROR" in ask(stream, "www.example.org.", "A")[0], "a zone whose file is bad isn't served any more")
            need("example.org.zone:10:3: " in server.control("zones")[1], server.control("zones")[1])
            os.remove(f"{server.folder}/zones/example.org.zone")
            need(server.control("reload")[0] == 0 and "REFUSED" in ask(stream, "www.example.org.", "A")[0], "a zone that went is served")
            with open(f"{server.folder}/other", "w", encoding="ascii") as it:
                it.write(ZONE.format(origin="example.net.", serial=9, last=9))
            need(server.control("add", "Example.NET.", f"{server.folder}/other") == (0, ""), "a zone by command")
            need("NOERROR" in ask(stream, "www.example.net.", "A")[0] and "example.net 9 " in server.control("zones")[1], "it isn't served")
            need(server.control("add", "example.net", "x")[0] == 1 and server.control("drop", "example.com")[0] == 1, "what can't be done")
            need(server.control("drop", "example.net")[0] == 0 and "REFUSED" in ask(stream, "www.example.net.", "A")[0], "it is served still")
        need(server.control("sing")[0] == 1, "a command that isn't one")
        need('ningkraetd_responses_total{kind="refused"} 2' in server.control("metrics")[1], server.control("metrics")[1])


def until(holds, what):
    ends = time.monotonic() + PATIENCE
    while not holds():
        need(time.monotonic() < ends, what)
        time.sleep(0.05)


def zones_expire(room):
    with Server(room, "transfer example.com", zones=("example.com", "example.org")) as server, server.udp() as stream, server.tcp() as by_tcp:
        path = f"{server.folder}/zones/example.com.zone"

        def fails():
            return "SERVFAIL" in ask(stream, "www.example.com.", "A")[0]

        with open(f"{path}.expired", "w", encoding="ascii"):
            pass
        until(fails, "a zone that has expired fails")
        need(f"example.com - {path} EXPIRED\n" in server.control("zones")[1], server.control("zones")[1])
        need("SERVFAIL" in ask(by_tcp, "example.com.", "AXFR")[0], "a zone that has expired isn't sent")
        need(address(stream, "www.example.org.") == ["192.0.2.80"], "another zone is answered")
        server.write("example.com", 2, last=2)
        need(server.control("reload")[0] == 0 and fails(), "a new file doesn't bring it back while the mark is there")
        server.write("example.com", 3, more="@ garbage\n")
        os.remove(f"{path}.expired")
        need(server.control("reload")[0] == 1 and fails() and " - " in server.control("zones")[1], "nor does a bad one")
        server.write("example.com", 4, last=4)
        until(lambda: address(stream) == ["192.0.2.4"], "the next copy brings it back")
        need(f"example.com 4 {path}\n" in server.control("zones")[1], server.control("zones")[1])
    server = Server(room)
    with open(f"{server.folder}/zones/example.com.zone.expired", "w", encoding="ascii"):
        pass
    with server, server.udp() as stream:
        need("SERVFAIL" in ask(stream, "www.example.com.", "A")[0], "a zone has expired from the start on")


def changes_are_sent(room):
    # What stands between two versions, each with the last octet of an address; and what of a zone that goes out whole.
    def step(older, newer):
        return [f"SOA {older[0]}", f"192.0.2.{older[1]}", f"SOA {newer[0]}", f"192.0.2.{newer[1]}"]

    def whole(serial, last):
        return sorted([f"SOA {serial}", "192.0.2.53", "192.0.2.54", f"192.0.2.{last}", f"SOA {serial}"])

    # (watched, a file might be read twice, and a version without a new serial isn't a step)
    with Server(room, "transfer example.com", "watch off") as server:

        def since(serial):
            with server.tcp() as stream:
                lines = [it.split() for it in ask(stream, "example.com.", "IXFR", f"serial={serial}") if it[0] != ";"]
            return [f"SOA {it[6]}" if it[3] == "SOA" else it[-1] for it in lines if it[3] in ("SOA", "A")]

        def read(*version):
            server.write("example.com", *version)
            need(server.control("reload")[0] == 0, f"version {version} isn't read")

        need(since(1) == ["SOA 1"], f"to a client that has the zone goes {since(1)}")
        read(2, 2)
        read(3, 3)
        need(since(1) == ["SOA 3", *step((1, 80), (3, 3)), "SOA 3"], f"since the first version: {since(1)}")
        need(since(2) == ["SOA 3", *step((2, 2), (3, 3)), "SOA 3"], f"since the second: {since(2)}")
        need(sorted(since(0)) == whole(3, 3), f"since one that wasn't there: {since(0)}")
        read(3, 4)
        need(sorted(since(2)) == whole(3, 4), f"behind a change without a new serial: {since(2)}")
        read(4, 5)
        need(since(3) == ["SOA 4", *step((3, 4), (4, 5)), "SOA 4"], f"since that: {since(3)}")
        os.remove(f"{server.folder}/zones/example.com.zone")
        need(server.control("reload")[0] == 0 and since(3) == [], f"of a zone that went: {since(3)}")
        read(5, 6)
        need(sorted(since(4)) == whole(5, 6), f"of one that came back: {since(4)}")


def files_are_included(room):
    with Server(room) as server, server.udp() as stream:
        parts = f"{server.folder}/parts"

        def put(name, text):
            os.makedirs(parts, exist_ok=True)
            with open(f"{parts}/{name}", "w", encoding="ascii") as it:
                it.write(text)

        def stands(name, last):
            return lambda: address(stream, f"{name}.example.com.") == [f"192.0.2.{last}"]

        def reloaded_with(fault):
            need(server.control("reload")[0] == 1 and fault in server.control("zones")[1], f"{fault}: {server.control('zones')[1]}")

        server.write("example.com", 2, more="$INCLUDE ../parts/hosts\n$GENERATE 1-3 g$ A 192.0.2.$\n")
        reloaded_with("parts/hosts can't be read")
        need(stands("www", 80)() and not address(stream, "g1.example.com."), "a zone stays as it was where a file that it includes isn't there")
        put("hosts", "one A 192.0.2.1\n$INCLUDE more deep.example.com.\n")
        put("more", "two A 192.0.2.2\n")
        need(server.control("reload") == (0, ""), server.control("zones")[1])
        need(stands("one", 1)() and stands("two.deep", 2)() and stands("g3", 3)(), "what is included is served")
        put("more", "two A 192.0.2.22\n")
        until(stands("two.deep", 22), "a file that is included is watched")
        put("more", "$INCLUDE ./hosts\n")
        reloaded_with("is included within itself")
        os.remove(f"{parts}/more")
        os.mkfifo(f"{parts}/more")
        reloaded_with("is a pipe or a device")
        os.remove(f"{parts}/more")
        os.mkdir(f"{parts}/more")
        reloaded_with("is a folder")
        os.rmdir(f"{parts}/more")
        put("more", "two A\nthree A 192.0.2.256\n")
        reloaded_with("parts/more:1:")
        need(all(f"{server.folder}/zones/../parts/more:{line}:" in server.text() or f"{parts}/more:{line}:" in server.text() for line in (1, 2)), server.text())
        need(stands("two.deep", 22)(), "the zone stays as it was")
        put("more", "two A 192.0.2.2\n")
        until(stands("two.deep", 2), "a file that was bad is read again")


def clients_have_limits(room):
    with Server(room, "tcp-connections 40", "tcp-client-connections 30", "tcp-idle 8", workers=1) as server:
        streams = [server.tcp() for _ in range(35)]
        served = 0
        for it in streams:
            with contextlib.suppress(OSError, struct.error):
                served += address(it) == ["192.0.2.80"]
        need(served == 30, f"{served} of 30 connections were served")
        time.sleep(0.2)
        need(server.counter("the client has too many") == 5, server.control("status")[1])
        for _ in range(19):
            with contextlib.suppress(OSError):
                streams[0].send(bytes(2))   # (a message of no octets doesn't count)
            time.sleep(0.5)
        need(server.counter("for being idle") == 30, server.control("status")[1])
        others = [server.tcp("::1") for _ in range(25)] + [server.tcp() for _ in range(25)]
        time.sleep(0.3)
        with server.tcp() as late:
            need(address(late) == ["192.0.2.80"], "a late client")
        need(server.counter("closed for newer ones") >= 10, server.control("status")[1])
        for it in streams + others:
            it.close()


def few_descriptors():
    """Has a process that is to start have few descriptors, and no right to more (CAP_SYS_RESOURCE)."""
    ctypes.CDLL(None).prctl(PR_CAPBSET_DROP, CAP_SYS_RESOURCE, 0, 0, 0)
    resource.setrlimit(resource.RLIMIT_NOFILE, (DESCRIPTORS, DESCRIPTORS))


def descriptors_run_out(room):
    with Server(room, workers=2, preexec_fn=few_descriptors) as server:
        need(f"no more than {DESCRIPTORS} descriptors" in server.text(), server.text())
        streams = [server.tcp() for _ in range(2 * DESCRIPTORS)]
        time.sleep(0.5)
        before = server.seconds()
        time.sleep(1)
        need(server.seconds() < before + 0.5, "it doesn't wait")
        with server.udp() as stream:
            need(address(stream) == ["192.0.2.80"], "a client by UDP")
        for it in streams:
            it.close()
        time.sleep(0.2)
        with server.tcp() as late:
            need(address(late) == ["192.0.2.80"], "a late client by TCP")


def responses_have_a_rate(room):
    with Server(room, "rate-limit 20", "rate-slip 2") as server, server.udp() as stream:
        while time.time() % 1 > 0.1:
            time.sleep(0.01)
        stream.settimeout(0.3)
        for number in range(100):
            stream.send(frames.query([f"n{number}.sub.www.example.com.", "A"]))
        answers = cut = 0
        with contextlib.suppress(TimeoutError):
            while True:
                message = stream.recv(4096)
                answers, cut = answers + (not message[2] & 2), cut + (message[2] >> 1 & 1)
        need(20 <= answers <= 42 and 20 <= cut <= 42, f"{answers} answers and {cut} cut ones")
        while time.time() % 1 > 0.1:
            time.sleep(0.01)
        for _ in range(100):
            stream.send(frames.query(["www.example.com.", "A", "id=1"]))
        stream.send(frames.query(["xyz.example.com.", "TXT", "id=2"]))
        while (message := stream.recv(4096))[1] != 2:
            pass
        need(message[7] == 1 and not message[2] & 2, "a name has its own limit, also beside one with a first label as long")
        with server.tcp() as by_tcp:
            need(address(by_tcp) == ["192.0.2.80"], "by TCP nothing is limited")


def floods_are_survived(room, pause):
    """Datagrams that no client sends, connections that are dropped, and some that don't read; an honest client beside them."""
    with Server(room, "tcp-connections 200", "tcp-client-connections 150") as server:
        over, slowest, counted = threading.Event(), [0.0], [0]

        def flood():
            source = random.Random(1)
            with server.udp() as stream:
                right = frames.query(["www.example.com.", "A", "edns=1232", "do"])
                while not over.is_set():
                    octets = bytearray(right)
                    for _ in range(source.randrange(6)):
                        octets[source.randrange(len(octets))] = source.randrange(256)
                    with contextlib.suppress(OSError):
                        stream.send(octets[: source.randrange(len(octets) + 1)] if source.random() < 0.2 else octets)
                    counted[0] += 1
                    if pause:
                        time.sleep(pause)

        def rude():
            query = peers.framed(frames.query(["www.example.com.", "A"]))
            while not over.is_set():
                with contextlib.suppress(OSError):
                    with server.tcp("::1") as stream:
                        stream.setblocking(False)
                        stream.send(query * 200 if random.random() < 0.5 else query[:5])
                        time.sleep(0.001)

        def greedy():
            query = peers.framed(frames.query(["www.example.com.", "A"]))
            with contextlib.suppress(OSError), server.tcp("::1") as stream:
                stream.settimeout(0.2)
                while not over.is_set():
                    with contextlib.suppress(TimeoutError):
                        stream.send(query * 1000)

        threads = [threading.Thread(target=it) for it in [flood, flood, rude, rude, greedy, greedy]]
        for it in threads:
            it.start()
        began, before = time.monotonic(), None
        while time.monotonic() - began < 8:
            moment = time.monotonic()
            with server.udp() as stream:
                stream.settimeout(1)
                need(address(stream, tries=PATIENCE) == ["192.0.2.80"], "an honest client by UDP")
            with server.tcp() as stream:
                need(address(stream) == ["192.0.2.80"], "an honest client by TCP")
            slowest[0] = max(slowest[0], time.monotonic() - moment)
            if time.monotonic() - began > 2 and before is None:
                before = server.resident()
            time.sleep(0.02)
        over.set()
        for it in threads:
            it.join()
        after = server.resident()
        print(f"  {counted[0]} datagrams, the slowest honest answers in {1000 * slowest[0]:.0f} ms, resident {before} and then {after} kB")
        need(after < before + 20_000, "memory grows")


def many_zones_start_soon(room):
    zones = [f"z{number}.example" for number in range(10_000)]
    server = Server(room, zones=zones)
    began = time.monotonic()
    with server:
        print(f"  10,000 zones are served after {time.monotonic() - began:.1f} s, {server.seconds():.1f} of a processor, {server.resident()} kB")
        with server.udp() as stream:
            need(address(stream, "www.z7777.example.") == ["192.0.2.80"], "the last of many zones")
            server.write("z7777.example", 2, last=2)
            server.process.send_signal(signal.SIGHUP)
            began, before = time.monotonic(), server.seconds()
            while address(stream, "www.z7777.example.") != ["192.0.2.2"]:
                need(time.monotonic() < began + STARTS, "a change of one of many zones")
                time.sleep(0.01)
            print(f"  one of them is served anew after {time.monotonic() - began:.2f} s, {server.seconds() - before:.2f} of a processor")


def queries_are_logged(room):
    with Server(room, "query-log {folder}/queries 1") as server, server.udp() as stream:
        ask(stream, "w\\034\\092.example.com.", "TXT")
        ask(stream, "example.org.", "TXT")
        time.sleep(0.1)
        with open(f"{server.folder}/queries", encoding="ascii") as it:
            line, refused = map(json.loads, it)
        need(line["name"] == "w\\034\\092.example.com." and line["type"] == 16 and line["kind"] == "answer" and line["client"] == "127.0.0.1", line)
        need(line["zone"] == "example.com." and refused["zone"] is None and refused["kind"] == "refused", refused)


TESTS = [faults_are_told, both_ways_are_answered, the_address_that_was_asked_answers, reloads_lose_nothing, zones_come_and_go, zones_expire, changes_are_sent, files_are_included,
         clients_have_limits, descriptors_run_out, responses_have_a_rate, queries_are_logged, floods_are_survived, many_zones_start_soon]


def all_tried(tests, folder, given):
    """Tries tests of the server over the library of a folder: built once as it is, and once under each sanitizer. `given` is what a test gets besides
    the room, by the pause of that build. The status is 1 if one failed."""
    folder, failed = folder or peers.program("ningkraet"), 0
    for way, (flags, pause) in SANITIZERS.items():
        with tempfile.TemporaryDirectory(prefix="daemon-") as room:
            peers.ningkraetd(folder, room, *flags)
            for test in tests:
                try:
                    test(room, *given(test, pause))
                    print(f"{way}: {test.__name__}: ok", flush=True)
                except (AssertionError, OSError) as wrong:
                    failed += 1
                    print(f"{way}: {test.__name__}: FAILED: {wrong}", flush=True)
    print(f"{len(SANITIZERS) * len(tests) - failed} passed, {failed} failed")
    return 1 if failed else 0


def main(folder=None):
    return all_tried(TESTS, folder, lambda test, pause: [pause] if test is floods_are_survived else [])


if __name__ == "__main__":
    peers.called(main, __doc__, most=1)
