#!/usr/bin/env python3
"""tools/compare/daemon_floods.py [SECONDS [COUNT [FOLDER] [SERVER..]]]: how long an honest client waits while others flood a server: `ningkraetd`, and
NSD and Knot DNS under the same, one after the other; and how each renews a zone of 100,000 names 24 times while dnsperf asks.

Each server has a worker for each processor and a zone of a thousand hosts that is signed with NSEC3. The floods come from addresses other than
the honest client's, for SECONDS each (10 where none are named); that of datagrams that no client should send lasts until COUNT of them are sent
(a million). The honest client asks for an address a hundred times a second by UDP, and twenty times by a TCP connection of its own; an answer
that doesn't come within two seconds is lost. SERVER is one of ningkraetd, sanitized (the same under the compiler's sanitizers, which is left out
where no server is named), nsd and knotd. FOLDER, a word with a /, is what `./build ningkraet` made; where none is named it is what
`tools/build/program path ningkraet` gives.

Prints for each flood and server the median, the 99th percentile and the longest time in milliseconds, by UDP and by TCP, how many answers were
lost, how many messages or connections the flood had a second, the memory before and behind, and the ratios of ningkraetd to the others. The
status is 1 if ningkraetd lost an answer, gave a wrong one, or took more than 20 milliseconds for one, as it may where the machine has much other
work; if its memory grew by more than a tenth and a megabyte; or if it ended. It needs cc, and dnssec-signzone for the zone to be signed."""
import contextlib
import itertools
import multiprocessing
import os
import random
import resource
import selectors
import socket
import struct
import sys
import tempfile
import time

sys.dont_write_bytecode = True
sys.path.append(os.path.dirname(os.path.dirname(os.path.realpath(__file__))))

import frames
import library_datagrams
import peers
import signed_zones
from dear_queries import DEEPEST, ORIGIN, RECORDS, ZEROS, many
from peers import found
from sessions import Session

# Milliseconds that an answer may take; seconds until it is lost, and between two queries; of these, each so manyth goes by TCP too.
BOUND, PATIENCE, PAUSE, TCP_EACH = 20, 2, 0.01, 5
# Processes that flood; how many datagrams they send between two pauses, and these, in seconds: those of dear queries are to be fewer than any
# of the servers can answer.
FLOODING, TOGETHER, REST, DEAR_REST = 2, 16, 0.0008, 0.004
# Connections that a flood holds, in all, and those that pipeline, with as many queries open at each.
HELD, PIPELINING, OPEN = 800, 20, 100
HONEST = frames.query(["host7.example.", "A"])
ADDRESS = "192.0.2.6"
DEAR = frames.query([f"{many[ZEROS]}{ORIGIN}", "A", "edns=1232", "do"])

SETTINGS = {
    "nsd": lambda text: text.replace("server:\n", f"server:\n server-count: {os.cpu_count()}\n reuseport: yes\n tcp-count: 1000\n tcp-timeout: 10\n", 1),
    "knotd": lambda text: text.replace("server:\n", "server:\n tcp-max-clients: 1000\n tcp-idle-timeout: 10\n", 1),
}


# ---- the honest client


def is_right(message):
    return message[:2] == HONEST[:2] and message[3] & 15 == 0 and any(it.endswith(f" IN A {ADDRESS}") for it in frames.message_lines(message))


def by_tcp(port):
    with socket.create_connection(("127.0.0.1", port), PATIENCE) as it:
        it.settimeout(PATIENCE)
        return peers.asked(it, HONEST)


def by_udp(port):
    with socket.socket(socket.AF_INET, socket.SOCK_DGRAM) as it:
        it.settimeout(PATIENCE)
        it.connect(("127.0.0.1", port))
        it.send(HONEST)
        return it.recv(4096)


def honest(port, over, to):
    """Asks until it is over, and hands on the milliseconds of each answer by each way; None is an answer that was lost."""
    took, wrong = {"UDP": [], "TCP": []}, 0
    for number in itertools.count():
        if over.is_set():
            break
        for way, ask in (("UDP", by_udp), ("TCP", by_tcp))[: 1 + (number % TCP_EACH == 0)]:
            began = time.monotonic()
            try:
                wrong += not is_right(ask(port))
                took[way].append(1000 * (time.monotonic() - began))
            except (OSError, IndexError, struct.error):
                took[way].append(None)
        time.sleep(PAUSE)
    to.send((took, wrong))


# ---- floods, each in a process of its own: the port, a number of its own, when it is over, and what it counts


def source_of(number):
    """An address of this host that isn't the honest client's."""
    return f"127.{1 + number // 250 % 200}.{number // 50000 % 250}.{1 + number % 250}"


def datagrams(port, number, over, count, messages, rest=REST):
    with socket.socket(socket.AF_INET, socket.SOCK_DGRAM) as it:
        it.bind((source_of(number), 0))
        it.connect(("127.0.0.1", port))
        it.setsockopt(socket.SOL_SOCKET, socket.SO_RCVBUF, 4096)   # (nobody reads the answers)
        for at in itertools.count():
            with contextlib.suppress(OSError):
                it.send(messages[at % len(messages)])
            if at % TOGETHER == 0:
                count.value = at
                if over.is_set():
                    return
                time.sleep(rest)


def hostile_datagrams(port, number, over, count):
    datagrams(port, number, over, count, list(library_datagrams.datagrams(50_000, number)))


def dear_datagrams(port, number, over, count):
    datagrams(port, number, over, count, [DEAR], DEAR_REST)


def opened(port, number):
    it = socket.socket()
    it.setblocking(False)
    with contextlib.suppress(OSError):
        it.bind((source_of(number), 0))
    it.connect_ex(("127.0.0.1", port))
    return it


def new_connections(port, number, over, count):
    """Connections that ask, ask half, or send octets by chance, and end at once, some of them by a reset."""
    chance, whole = random.Random(number), peers.framed(HONEST)
    for at in itertools.count(number * 100_000):
        if over.is_set():
            return
        with contextlib.suppress(OSError), socket.socket() as it:
            it.settimeout(0.5)
            it.bind((source_of(at), 0))
            it.connect(("127.0.0.1", port))
            it.send(chance.choice([whole, whole[:9], b"\0\0", chance.randbytes(40)]))
            if at % 2:
                it.setsockopt(socket.SOL_SOCKET, socket.SO_LINGER, b"\1\0\0\0\0\0\0\0")
            count.value += 1


def silent_connections(port, number, over, count):
    """As many connections as it can hold, of which none asks; where one is closed, another is opened."""
    held, numbers = {}, itertools.count(number * 100_000)
    waiting = selectors.DefaultSelector()
    while not over.is_set():
        for _ in range(min(20, HELD // FLOODING - len(held))):
            it = opened(port, next(numbers))
            held[it] = waiting.register(it, selectors.EVENT_READ)
            count.value += 1
        for key, _ in waiting.select(0.02):
            with contextlib.suppress(OSError):
                if key.fileobj.recv(1):
                    continue
            waiting.unregister(key.fileobj)
            del held[key.fileobj]
            key.fileobj.close()


def pipelining(port, number, over, count, query, reads):
    """Connections that ask without end, and read what comes, or don't."""
    waiting, frame = selectors.DefaultSelector(), peers.framed(query) * OPEN
    numbers = itertools.count(number * 100_000)
    begin = lambda: waiting.register(opened(port, next(numbers)), selectors.EVENT_WRITE | (selectors.EVENT_READ if reads else 0), [b""])
    for _ in range(PIPELINING // FLOODING if reads else HELD // 4 // FLOODING):
        begin()
    while not over.is_set():
        for key, events in waiting.select(0.02):
            try:
                if events & selectors.EVENT_WRITE:
                    key.data[0] = key.data[0] or frame
                    sent = key.fileobj.send(key.data[0])
                    key.data[0] = key.data[0][sent:]
                    count.value += sent // len(query)
                if events & selectors.EVENT_READ and not key.fileobj.recv(1 << 18):
                    raise ConnectionResetError
            except BlockingIOError:
                continue
            except OSError:
                waiting.unregister(key.fileobj)
                key.fileobj.close()
                begin()
        if not reads:
            time.sleep(0.01)


def dear_pipelined(port, number, over, count):
    pipelining(port, number, over, count, DEAR, True)


def nothing_read(port, number, over, count):
    pipelining(port, number, over, count, DEAR, False)


def nothing(port, number, over, count):
    pass


FLOODS = {
    "nothing": nothing,
    "datagrams that no client sends": hostile_datagrams,
    "dear datagrams": dear_datagrams,
    "dear queries, pipelined": dear_pipelined,
    "clients that don't read": nothing_read,
    "new connections": new_connections,
    "connections that don't ask": silent_connections,
}


# ---- the servers


def folder_and_servers(words):
    """The folder of the library, and the servers, that words name; or those that there are."""
    folders, names = [it for it in words if "/" in it], [it for it in words if "/" not in it]
    return folders[0] if folders else peers.program("ningkraet"), names or ["ningkraetd", *(it for it in SETTINGS if found(it))]


def started(name, folder, room, port, files):
    """A server with these zones, and where its faults stand."""
    log = open(f"{room}/{name}.log", "a+", encoding="utf-8")
    if name in SETTINGS:
        words = peers.configured(name, tempfile.mkdtemp(dir=room) + "/its", port, peers.zones_text(name, files), SETTINGS[name])
    else:
        os.makedirs(f"{room}/{name}", exist_ok=True)
        flags = ["-O2"] if name == "ningkraetd" else ["-O1", "-fsanitize=address,undefined", "-fno-sanitize-recover=all"]
        path = f"{room}/{name}/ningkraetd"
        if not os.path.exists(path):
            peers.ningkraetd(folder, f"{room}/{name}", *flags)
        words = peers.daemon(path, port, files, "workers 0", "watch off")
    server = Session(name, words, port, log=log)
    server.wait(next(iter(files)))
    return server, log


def part(values, share):
    """The value that a share of these doesn't exceed."""
    return sorted(values)[min(len(values) - 1, int(share * len(values)))] if values else float("nan")


class Outcome:
    """What an honest client had of a server under a flood."""

    def __init__(self, took, wrong, floods, before, after):
        self.wrong, self.floods, self.before, self.after = wrong, floods, before, after
        self.lost = sum(it is None for way in took.values() for it in way)
        self.took = {way: [it for it in took[way] if it is not None] for way in took}

    def line(self, flood, name):
        times = [f"{part(self.took[way], share):.2f}" for way in ("UDP", "TCP") for share in (0.5, 0.99, 1)]
        asked = sum(map(len, self.took.values())) + self.lost
        return " | ".join([f"| {flood}", name, *times, f"{self.lost} of {asked}", f"{self.floods:,.0f}", f"{self.before:,}", f"{self.after:,} |"])

    def longest(self):
        return max(it for way in self.took.values() for it in [*way, 0])

    def is_well(self):
        return not self.lost and not self.wrong and self.longest() <= BOUND and self.after <= 1.1 * self.before + 1024


def flooded(server, flood, seconds, count):
    over, (here, there) = multiprocessing.Event(), multiprocessing.Pipe(False)
    counts = [multiprocessing.Value("Q", 0) for _ in range(FLOODING)]
    flooding = [multiprocessing.Process(target=flood, args=(server.port, number, over, it), daemon=True) for number, it in enumerate(counts)]
    client = multiprocessing.Process(target=honest, args=(server.port, over, there), daemon=True)
    sent = lambda: sum(it.value for it in counts)
    for it in flooding:
        it.start()
    time.sleep(0.5)
    before, began, begun = server.kilobytes(), time.monotonic(), sent()
    client.start()
    while time.monotonic() - began < seconds or (flood is hostile_datagrams and sent() < count and time.monotonic() - began < 60 * seconds):
        time.sleep(0.1)
    floods = (sent() - begun) / (time.monotonic() - began)
    after = server.kilobytes()
    over.set()
    took, wrong = here.recv()
    for it in [client, *flooding]:
        it.join()
    return Outcome(took, wrong, floods, before, after)


# ---- all of it


def told_ratios(outcomes):
    """Prints what the honest client's times and the flood's rates are, to those of the other servers."""
    for flood in FLOODS:
        ours = outcomes.get((flood, "ningkraetd"))
        for name in ("nsd", "knotd"):
            if ours and (theirs := outcomes.get((flood, name))):
                ratios = [f"{part(ours.took[way], share) / part(theirs.took[way], share):.2f}" for way in ("UDP", "TCP") for share in (0.5, 0.99, 1)]
                print(f"| {flood} | ningkraetd to {name} | {' | '.join(ratios)} |", flush=True)


def floods_are_measured(folder, room, names, seconds, count):
    zone = signed_zones.written(room, ORIGIN, RECORDS)
    path = signed_zones.signed(room, ORIGIN, zone, signed_zones.Way(kind="nsec3"))[0] if "dnssec-signzone" in signed_zones.signers() else zone
    outcomes, went = {}, True
    print("| Flood | Server | UDP: median | 99 of 100 | longest | TCP: median | 99 of 100 | longest | Lost | Flood, a second | Kilobytes before | behind |")
    print("|---|---|---|---|---|---|---|---|---|---|---|---|", flush=True)
    for flood, call in FLOODS.items():
        for name in names:
            server, log = started(name, folder, room, peers.free_port(), {ORIGIN: path})
            outcome = outcomes[flood, name] = flooded(server, call, seconds, count)
            print(outcome.line(flood, name), flush=True)
            is_up = server.process.poll() is None
            status = server.end()
            if name in ("ningkraetd", "sanitized"):
                is_well = is_up and status == 0 and (outcome.is_well() if name == "ningkraetd" else not outcome.wrong)
                if not is_well:
                    print(f"  {name}: {outcome.lost} lost, {outcome.wrong} wrong, the longest in {outcome.longest():.0f} ms, status {status}", flush=True)
                if status:
                    with open(log.name, encoding="utf-8", errors="replace") as it:
                        print(it.read()[-2000:], flush=True)
                went = went and is_well
            log.close()
    print("\n| Flood | Ratio | UDP: median | 99 of 100 | longest | TCP: median | 99 of 100 | longest |\n|---|---|---|---|---|---|---|---|")
    told_ratios(outcomes)
    return went


def main(seconds="10", count="1000000", *names):
    folder, names = folder_and_servers(names)
    descriptors = resource.getrlimit(resource.RLIMIT_NOFILE)[1]
    resource.setrlimit(resource.RLIMIT_NOFILE, (descriptors, descriptors))
    print(f"daemon_floods: {folder}; {os.cpu_count()} processors\n")
    with tempfile.TemporaryDirectory(prefix="floods-") as room:
        return 0 if floods_are_measured(folder, room, names, float(seconds), int(count)) else 1


if __name__ == "__main__":
    peers.called(main, __doc__, most=6)
