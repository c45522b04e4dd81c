#!/usr/bin/env python3
"""tools/compare/daemon_renewals.py [NAMES [FOLDER] [SERVER..]]: a zone of 100,000 names, or of NAMES, is renewed 24 times by SIGHUP while dnsperf asks as
fast as it can and another client reads answers whole, of `ningkraetd`, NSD and Knot DNS, one after the other, or of those named (ningkraetd,
nsd, knotd), with a worker for each processor. FOLDER, a word with a /, is what `./build ningkraet` made; where none is named it is what
`tools/build/program path ningkraet` gives.

Prints for each the answers a second, how many were lost, the median and the longest time of the other client's answers in milliseconds, the
seconds from the signal until the new zone is served, and the memory. The status is 1 if with ningkraetd an answer was lost or wrong, a new zone
didn't come, or the memory after the first third of the renewals grew by more than a tenth. It needs cc and dnsperf."""
import contextlib
import multiprocessing
import os
import re
import shutil
import signal
import socket
import statistics
import subprocess
import sys
import tempfile
import time

sys.dont_write_bytecode = True
sys.path.append(os.path.dirname(os.path.dirname(os.path.realpath(__file__))))

import frames
import peers
from daemon_floods import ADDRESS, PATIENCE, SETTINGS, Outcome, folder_and_servers, honest, part, started

# How many times the zone is renewed, how often at most in seconds, and for how long a new zone is waited for.
RENEWALS, TURN, COMES = 24, 1.0, 120
QUERIES, STRIDE = 100_000, 7919


def zone_text(serial, names):
    head = f"$ORIGIN example.\n$TTL 3600\n@ SOA ns host {serial} 7200 600 86400 300\n@ NS ns\nns A 192.0.2.1\nhost7 A {ADDRESS}\n"
    return head + "".join(f"n{number} A 10.{number >> 16}.{number >> 8 & 255}.{number & 255}\n" for number in range(names))


def write(path, serial, names):
    """The file of a zone of this serial, in one step."""
    with open(f"{path}.new", "w", encoding="ascii") as it:
        it.write(zone_text(serial, names))
    os.rename(f"{path}.new", path)


def serial_of(port):
    with contextlib.suppress(OSError, IndexError):
        with socket.socket(socket.AF_INET, socket.SOCK_DGRAM) as it:
            it.settimeout(PATIENCE)
            it.connect(("127.0.0.1", port))
            it.send(frames.query(["example.", "SOA"]))
            return next((int(line.split()[6]) for line in frames.message_lines(it.recv(4096)) if " IN SOA " in line), None)
    return None


def renewed(name, folder, room, names):
    """A zone is renewed so many times while dnsperf asks and an honest client does. Gives a line, and whether it went well."""
    path, queries = f"{room}/renewed", f"{room}/queries"
    write(path, 1, names)
    with open(queries, "w", encoding="ascii") as it:
        it.writelines(f"n{number * STRIDE % names}{'x' * (number % 10 == 9)}.example. A\n" for number in range(QUERIES))
    server, log = started(name, folder, room, peers.free_port(), {"example.": path})
    over, (here, there) = multiprocessing.Event(), multiprocessing.Pipe(False)
    client = multiprocessing.Process(target=honest, args=(server.port, over, there), daemon=True)
    words = ["dnsperf", "-s", "127.0.0.1", "-p", str(server.port), "-d", queries, "-l", str(RENEWALS * COMES), "-q", "100", "-c", "10"]
    asking = subprocess.Popen(words, stdout=subprocess.PIPE, stderr=subprocess.STDOUT, text=True)
    client.start()
    took, memory = [], []
    for serial in range(2, RENEWALS + 2):
        write(path, serial, names)
        began = time.monotonic()
        server.signal(signal.SIGHUP)
        while serial_of(server.port) != serial and time.monotonic() - began < COMES:
            time.sleep(0.02)
        took.append(time.monotonic() - began)
        time.sleep(max(0, TURN - took[-1]))
        memory.append(server.kilobytes())
    asking.send_signal(signal.SIGINT)   # (upon which it tells what it has)
    said = asking.communicate()[0]
    over.set()
    times, wrong = here.recv()
    outcome = Outcome(times, wrong, 0, 0, 0)
    number = lambda what: float(re.search(rf"{what}\s+([0-9.]+)", said)[1])
    lost, rate = int(number("Queries lost:")), number("Queries per second:")
    codes = set(re.findall(r"([A-Z]+) \d", re.search(r"Response codes:\s+(.*)", said)[1]))
    is_served = serial_of(server.port) == RENEWALS + 1
    status = server.end()
    log.close()
    line = (f"| {name} | {rate:,.0f} | {lost} | {outcome.lost} | {part(outcome.took['UDP'], 0.5):.2f} | {part(outcome.took['UDP'], 1):.1f} | {statistics.median(took):.2f} | "
            f"{max(memory[:RENEWALS // 3]):,} | {max(memory):,} |")
    is_flat = max(memory) <= 1.1 * max(memory[: RENEWALS // 3])
    return line, not lost and not outcome.lost and not wrong and is_served and is_flat and status == 0 and not codes - {"NOERROR", "NXDOMAIN"}


def main(names="100000", *servers):
    if not shutil.which("dnsperf"):
        sys.exit("daemon_renewals: dnsperf isn't there")
    (folder, servers), went = folder_and_servers(servers), True
    print(f"daemon_renewals: {folder}; {RENEWALS} renewals of a zone of {int(names):,} names; {os.cpu_count()} processors\n")
    print("| Server | Answers a second | Lost by dnsperf | by the other client | Its median, ms | its longest | Seconds until the new zone is served | "
          "Kilobytes in the first third | in all |\n|---|---|---|---|---|---|---|---|---|", flush=True)
    with tempfile.TemporaryDirectory(prefix="renewals-") as room:
        for name in servers:
            line, is_well = renewed(name, folder, room, int(names))
            print(line, flush=True)
            went = went and (is_well or name in SETTINGS)
    return 0 if went else 1


if __name__ == "__main__":
    peers.called(main, __doc__, most=4)
