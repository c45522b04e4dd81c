#!/usr/bin/env python3
"""tools/compare/update_scripts.py [FOLDER]: nsupdate carries out each script of update_scripts.txt on a zone of its own that the C library has, that
BIND has, and that Knot DNS has. It is told the same code by all, and their zones have the same records then, the SOA and TTLs among them; but for the
scripts that say which server does otherwise, and those have to show a difference. Both look whether names are of the zone before who may change what
(RFC 2136 has it the other way, sections 3.3 and 3.4.1), BIND before the prerequisites too (section 3.2); both leave the serial where changes undo each
other (section 3.6 allows that). Knot DNS keeps the TTL of a set (section 3.4.2.2 has it replaced). BIND passes over an NS of a wildcard, drops DS
records where there is no NS (section 3.4.2.2 has each added), and refuses an update that leaves a name server of the zone in it without an address.
If a server is missing, it is left out, and a line says so. Not part of the gate: it needs nsupdate, and opens sockets on loopback. It ends what it
starts. FOLDER is as for updates.py. The status is 1 if anything else differs.
"""
import base64
import os
import subprocess
import sys
import tempfile

sys.dont_write_bytecode = True
sys.path.append(os.path.dirname(os.path.dirname(os.path.realpath(__file__))))

import peers
from keyed_transfers import OTHER, SECRET
from updates import SERVERS, Held, Peer, all_by_other, serve, zone_of

TEXTS = os.path.join(os.path.dirname(os.path.realpath(__file__)), "update_scripts.txt")
TOLD = "server 127.0.0.1 {port}\nzone {z}\nkey hmac-sha256:{key} {secret}\n{lines}\nquit\n"
FAILED = "update failed: "


def scripts():
    """The lines of each script behind its name and the servers that do otherwise; the first are those of the zone."""
    found = []
    with open(TEXTS, encoding="ascii") as it:
        for line in it:
            if line.startswith(" "):
                found[-1][1].append(line.strip())
            elif line.strip() and not line.startswith("#"):
                found.append((line.split(), []))
    return [(words, "\n".join(lines)) for words, lines in found]


def code_of(port, zone, lines):
    """What nsupdate is told: the code of the last update that failed, or none."""
    text = TOLD.format(port=port, z=zone, key=OTHER, secret=base64.b64encode(SECRET).decode(), lines=lines.format(z=zone))
    ran = subprocess.run([peers.found("nsupdate"), "-v", "-t", "10"], input=text, stdout=subprocess.PIPE, stderr=subprocess.STDOUT, text=True, timeout=60)
    return " ".join(line.removeprefix(FAILED) for line in ran.stdout.splitlines() if line.strip())


def differing(words, lines, held, others):
    """Which server carries out a script otherwise than the library, and how."""
    zone = f"{words[0]}.example."
    told, mine = code_of(held.port, zone, lines), zone_of(held, zone)
    for it in others:
        code, theirs = code_of(it.port, zone, lines), zone_of(it, zone)
        if code != told or theirs != mine:
            yield it.server, f"{told or 'NOERROR'}, and there {code or 'NOERROR'}; only here {mine - theirs}, only there {theirs - mine}"


def main(folder=None):
    (_, text), *tried = scripts()
    zones = {f"{words[0]}.example.": text.format(z=f"{words[0]}.example.") + "\n" for words, _ in tried}
    held, others, wrong = Held(folder or peers.program("ningkraet")), [], []
    for zone, its in zones.items():
        held.take(zone, its, all_by_other(zone))
    held.port = peers.free_port()
    serve(held, held.port)
    with tempfile.TemporaryDirectory() as room:
        try:
            for server, name in SERVERS.items():
                if peers.found(server):
                    others.append(Peer(server, f"{room}/{server}", zones))
                else:
                    print(f"update_scripts: left out: {name} isn't there")
            for words, lines in tried:
                found = dict(differing(words, lines, held, others))
                expected = {it.server for it in others} & set(words[1:])
                wrong += [f"{words[0]}: {server}: {how}" for server, how in found.items() if server not in expected]
                wrong += [f"{words[0]}: {server} does as the library does" for server in expected - found.keys()]
        finally:
            for it in others:
                it.end()
    print(f"update_scripts: {len(tried)} scripts beside {', '.join(SERVERS[it.server] for it in others) or 'no server'}")
    print("\n".join(f"update_scripts: {it}" for it in wrong) or "update_scripts: nothing differs but what is said")
    return bool(wrong)


if __name__ == "__main__":
    peers.called(main, __doc__, 1)
