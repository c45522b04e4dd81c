"""Zones and queries with which servers are loaded by dnsperf, and what each run of it tells."""
import concurrent.futures
import os
import random
import re
import struct
import subprocess
import sys
import threading

sys.dont_write_bytecode = True
TOOLS = f"{os.path.dirname(os.path.realpath(__file__))}/../tools"
sys.path[:0] = [f"{TOOLS}/compare", TOOLS]

import frames
import peers
import sessions
from peers import SERVERS, found
from questions import sections
from sessions import asked

OPEN, CONNECTIONS = 100, 10
# A prime, so that queries go all over the zone.
STRIDE = 7919
# Queries of one run of dnsperf's file.
QUERIES = 200_000
# Seconds between two answers that are read whole.
PAUSE = 0.02
# How many zones there are where there are many.
MANY = 1000

HEAD = """{origin} 3600 IN SOA ns.{origin} host.{origin} {serial} 7200 600 86400 300
{origin} 3600 IN NS ns.{origin}
ns.{origin} 3600 IN A 192.0.2.1
"""

# What is asked for, and what a zone is like; the words for dnssec-signzone, none where it isn't signed.
MIXES = ["most", "absent", "referrals", "zones"]
ZONES = {"unsigned": None, "nsec": [], "nsec3": ["-3", "-", "-H", "0"], "opt-out": ["-3", "-", "-H", "0", "-A"]}

PROCESSORS = sorted(os.sched_getaffinity(0))

# So many workers each: words of the command, and how its configuration is turned.
WORKERS = {
    "nsd": ([], ("server:\n", "server:\n server-count: {workers}\n reuseport: yes\n")),
    "knotd": ([], ("server:\n", "server:\n udp-workers: {workers}\n tcp-workers: {workers}\n background-workers: 1\n")),
    "named": (["-n", "{workers}"], ("minimal-responses no", "minimal-responses yes")),
}


def address_of(number):
    return f"10.{number >> 16 & 255}.{number >> 8 & 255}.{number & 255}"


# ---- zones


def written(path, origin, names, has_cuts, serial=1):
    """A zone's file, in one step."""
    with open(f"{path}.new", "w", encoding="ascii") as it:
        it.write(HEAD.format(origin=origin, serial=serial))
        it.writelines(f"n{number}.{origin} 3600 IN A {address_of(number)}\n" for number in range(names))
        for number in range(names if has_cuts else 0):
            it.write(f"d{number}.{origin} 3600 IN NS ns.d{number}.{origin}\nns.d{number}.{origin} 3600 IN A {address_of(number)}\n")
    os.rename(f"{path}.new", path)


def signed(folder, origin, path, words):
    subprocess.run([found("dnssec-keygen"), "-q", "-a", "ECDSAP256SHA256", origin], cwd=folder, check=True, capture_output=True)
    subprocess.run([found("dnssec-signzone"), *words, "-P", "-z", "-S", "-K", ".", "-o", origin, path], cwd=folder, check=True, capture_output=True)
    return f"{path}.signed"


def zone_files(folder, names, kind, mix):
    """The files of the zones by their origins."""
    def made(number):
        room, origin = f"{folder}/{kind}-{mix}-{number}", f"z{number}.example." if mix == "zones" else "example."
        os.makedirs(room)
        written(f"{room}/zone", origin, names // MANY if mix == "zones" else names, mix == "referrals" or kind == "opt-out")
        return origin, f"{room}/zone" if ZONES[kind] is None else signed(room, origin, f"{room}/zone", ZONES[kind])

    with concurrent.futures.ThreadPoolExecutor(len(PROCESSORS)) as them:
        return dict(them.map(made, range(MANY if mix == "zones" else 1)))


# ---- queries


def question(number, names, mix):
    """The name that the query of a number asks for; and what is answered: AA, the code, and the records of the answer."""
    host = number * STRIDE % names
    origin = "example."
    if mix == "zones":
        origin, host = f"z{host % MANY}.example.", host // MANY
    if mix == "referrals":
        return f"www.d{host}.{origin}", (0, 0, [])
    if mix == "absent":
        return f"{random.Random(number).randrange(1 << 60):x}.{origin}", (4, 3, [])
    if number % 10 == 9:
        return f"n{host}x.{origin}", (4, 3, [])
    return f"n{host}.{origin}", (4, 0, [f"n{host}.{origin} 3600 in a {address_of(host)}"])


def query_file(path, names, mix):
    with open(path, "w", encoding="ascii") as it:
        it.writelines(f"{question(number, names, mix)[0]} A\n" for number in range(QUERIES))
    return path


# ---- servers


class Server(sessions.Session):
    """A server that runs on the first processors, and how it did."""

    def __init__(self, name, words, port, workers):
        super().__init__(name, words, port, PROCESSORS[:workers])
        self.begin()

    def begin(self):
        self.rates, self.completed, self.faults, self.times, self.before = [], 0, [], [0, 0], self.kilobytes()

    def rate(self):
        return sorted(self.rates)[len(self.rates) // 2]

    def microseconds(self):
        """Those of a processor for an answer, in the program and in the system."""
        return [1e6 * part / max(self.completed, 1) for part in self.times]


def started(folder, room, files, workers, names=None):
    """The servers, ningkraetd first, which is compiled over the library of a folder; only those of these names, if some are named."""
    found_here = [it for it in SERVERS if found(it) and (names is None or it in names)]
    words = peers.daemon(peers.ningkraetd(folder, room, "-O2"), (port := peers.free_port()), files, f"workers {workers}")
    servers = [Server("ningkraetd", words, port, workers)]
    for name in found_here:
        more, (old, new) = WORKERS[name]
        turned = lambda text: text.replace(old, new.replace("{workers}", str(workers)), 1)
        port = peers.free_port()
        server, *words = peers.configured(name, f"{room}/{name}", port, peers.zones_text(name, files), turned)
        servers.append(Server(name, [server, *(it.format(workers=workers) for it in more), *words], port, workers))
    return servers


class Reader(threading.Thread):
    """Asks a server now and then, and reads each answer whole."""

    def __init__(self, server, way, names, mix):
        super().__init__()
        self.server, self.way, self.names, self.mix, self.stopped = server, way, names, mix, threading.Event()

    def run(self):
        while not self.stopped.wait(PAUSE):
            name, wanted = question(random.randrange(QUERIES), self.names, self.mix)
            try:
                (flags, code), parts = sections(asked(self.server.port, self.way, frames.query([name, "A"]), 5))
            except (OSError, struct.error) as error:
                self.server.faults.append(f"{name} by {self.way}: {error or 'no answer'}")
                continue
            if (flags & 4, code, parts["ANSWER"]) != wanted:
                self.server.faults.append(f"{name} by {self.way}: {code} {parts['ANSWER']}")


def load(server, way, seconds, file, names, mix, is_signed, workers):
    """One run of dnsperf, on the processors that the server isn't on, or on all if there are no others."""
    reader, before = Reader(server, way, names, mix), server.seconds()
    reader.start()
    words = ["dnsperf", "-s", "127.0.0.1", "-p", str(server.port), "-m", way, "-d", file, "-l", str(seconds), "-q", str(OPEN * workers), "-c", str(CONNECTIONS * workers)]
    pin = lambda: os.sched_setaffinity(0, PROCESSORS[workers:] or PROCESSORS)
    said = subprocess.run(words + ["-D"] * is_signed, stdout=subprocess.PIPE, stderr=subprocess.STDOUT, text=True, preexec_fn=pin).stdout
    after = server.seconds()
    reader.stopped.set()
    reader.join()
    number = lambda what: float(re.search(rf"{what}:\s+([0-9.]+)", said)[1])
    server.rates.append(number("Queries per second"))
    server.completed += int(number("Queries completed"))
    server.times = [sum(it) for it in zip(server.times, after, (-it for it in before))]
    codes = re.search(r"Response codes:\s+(.*)", said)[1]
    if number("Queries lost") or set(re.findall(r"([A-Z]+) \d", codes)) - {"NOERROR", "NXDOMAIN"}:
        server.faults.append(f"{int(number('Queries lost'))} lost; {codes}")
