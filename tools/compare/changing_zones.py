#!/usr/bin/env python3
"""tools/compare/changing_zones.py [ROUNDS [FOLDER [UPDATES]]]: a zone of 10,000 names that BIND, and then Knot DNS, signs with NSEC3, and that changes every
second by dynamic updates (RFC 2136). secondaryd behind examples/serving/secondary.py follows it by IXFR under a key (TSIG); ningkraetd serves
that copy; and NSD, Knot DNS and BIND, told by examples/serving/notify.py, follow ningkraetd under the key. There are six rounds of ten seconds
unless another number is given; after each one every server's zone of the last serial is compared with the primary's, record by record, and
ningkraetd is asked what changed since the round before (IXFR): the zone that this makes of its older version is compared too.
Then ningkraetd takes the updates itself, 60 unless another number is given, of the same zone unsigned, and is killed (SIGKILL) every few of them,
while one is on its way, and started again: its zone has to be that after all updates that were answered, or after these and all of the last one. What
changed before goes out all the same, and the three follow it. With 0 rounds only that is tried. If a server is missing, it is left out, and a line
says so. Not part of the gate: it needs cc, dig and nsupdate, and opens sockets on loopback. It ends what it starts.

The servers are Debian's packages nsd, knot and bind9. FOLDER is what `./build ningkraet` made; where none is named it is what `tools/build/program
path ningkraet` gives. The status is 1 if a copy differs from its zone or doesn't arrive.
"""
import contextlib
import os
import random
import socket
import subprocess
import sys
import tempfile
import time

sys.dont_write_bytecode = True
sys.path.append(os.path.dirname(os.path.dirname(os.path.realpath(__file__))))

import peers
from daemon_updates import update
from keyed_secondaries import KEY, KEYS, TAKES, come, configuration, has_serial, key_file, running, secondary, text_of, SECRET
from keyed_transfers import signed
from peers import free_port
from sources import TOP
from updates import A, ANY_CLASS, IN, NOERROR, TXT, entry

ORIGIN, NAMES, CHANGES = "changing.test.", 10_000, 10
# How many updates ningkraetd takes before it is killed, at most; how many seconds after the last one was sent; and after how many updates the
# copies are compared.
MOST, MOMENTS, COMPARED = 16, (0, 0.003, 0.01, 0.03, 0.1), 50
# Seconds in which a primary has signed its zone, and in which a version has to come.
SIGNS, COMES = 120, 60
# What a primary's configuration says: it signs with NSEC3, takes updates under the key and gives the zone under it, and tells secondaryd.
SIGNED = {
    "named": (
        'dnssec-policy "changing" {{ keys {{ csk lifetime unlimited algorithm ecdsap256sha256; }}; nsec3param iterations 0 optout no salt-length 0; }};\n'
        'zone "{origin}" {{ type primary; file "{path}"; key-directory "{folder}"; dnssec-policy "changing"; allow-update {{ key "{key}"; }}; '
        'allow-transfer {{ key "{key}"; }}; notify explicit; also-notify {{ 127.0.0.1 port {notified}; }}; }};\n'
    ),
    "knotd": (
        "key:\n - id: {key}\n   algorithm: hmac-sha256\n   secret: {secret}\n"
        "remote:\n - id: follower\n   address: 127.0.0.1@{notified}\n"
        "acl:\n - id: keyed\n   address: 127.0.0.1\n   key: {key}\n   action: [transfer, update]\n"
        "policy:\n - id: changing\n   algorithm: ecdsap256sha256\n   nsec3: on\n   nsec3-iterations: 0\n   nsec3-salt-length: 0\n"
        'zone:\n - domain: "{origin}"\n   file: "{path}"\n   zonefile-sync: -1\n   dnssec-signing: on\n   dnssec-policy: changing\n   acl: keyed\n   notify: follower\n'
    ),
}


def dug(port, *words, keyed=True):
    """The lines that dig prints of an answer, in lower case, since NSD has names so, and sorted; none where there is none."""
    key = ["-y", f"hmac-sha256:{KEY}:{text_of(SECRET)}"] if keyed else []
    done = subprocess.run(["dig", "@127.0.0.1", "-p", str(port), *key, *words, "+noall", "+answer", "+onesoa", "+time=5", "+tries=1"], capture_output=True, text=True)
    lines = [" ".join(it.lower().split()) for it in done.stdout.splitlines()]
    return sorted(it for it in lines if it[:1] not in ("", ";") and " tsig " not in it)


def since(port, serial, older):
    """The lines of a zone by what a server says that changed in the older version since a serial (IXFR); none where it gives the whole zone."""
    words = ["dig", "@127.0.0.1", "-p", str(port), "-y", f"hmac-sha256:{KEY}:{text_of(SECRET)}", ORIGIN, f"IXFR={serial}", "+noall", "+answer", "+time=5", "+tries=1"]
    lines = [" ".join(it.lower().split()) for it in subprocess.run(words, capture_output=True, text=True).stdout.splitlines()]
    lines = [it for it in lines if it[:1] not in ("", ";") and " tsig " not in it]
    zone, is_added = set(older), True
    if not any(f" {serial} " in it for it in lines[1:2]):
        return []
    for line in lines[1:-1]:
        is_added ^= line.split()[3] == "soa"
        (zone.add if is_added else zone.discard)(line)
    return sorted(zone)


def serial_of(port):
    """The serial that a server has of the zone, or 0."""
    words = "".join(dug(port, ORIGIN, "SOA", keyed=False)[:1]).split()
    return int(words[6]) if len(words) == 11 else 0


def is_signed(port):
    return bool(dug(port, ORIGIN, "NSEC3PARAM", keyed=False)) and "rrsig" in " ".join(dug(port, f"host{NAMES - 1}.{ORIGIN}", "A", "+dnssec", keyed=False))


def zone_file(path):
    with open(path, "w", encoding="ascii") as it:
        it.write(f"$ORIGIN {ORIGIN}\n$TTL 300\n@ SOA ns h 1 7200 900 1209600 300\n@ NS ns\nns A 192.0.2.53\nchanges TXT none\n")
        it.write("".join(f"host{number} A 192.0.2.{number % 250}\n" for number in range(NAMES)))
    return path


def change(updates, number):
    """One update: a name more, one less, and other text at a third."""
    lines = [f"update add new{number}.{ORIGIN} 300 A 192.0.2.{number % 250}", f"update delete host{number}.{ORIGIN} A", f"update delete changes.{ORIGIN} TXT"]
    updates.stdin.write("\n".join([*lines, f'update add changes.{ORIGIN} 300 TXT "change {number}"', "send", ""]))
    updates.stdin.flush()


def followers(begun, room, served, library):
    """Starts the servers that follow ningkraetd, and who tells them; gives their ports by their names."""
    ports = {server: free_port() for server in TAKES if peers.found(server)}
    for server, port in ports.items():
        text = configuration(server, TAKES, {ORIGIN: ""}, served=served, folder=f"{room}/{server}-takes")
        begun.enter_context(running(peers.configured(server, f"{room}/{server}-takes", port, text)))
    words = [f"{TOP}/examples/serving/notify.py", "--control", f"{room}/control", "--every", "0.5", "--interval", "2", f"{library}/libningkraet.so"]
    begun.enter_context(running([*words, *(f"{ORIGIN}=127.0.0.1@{port}" for port in ports.values())]))
    return ports


def wrong_of(primary, program, library, daemon, room, rounds):
    """Which copies are wrong, each with its round."""
    os.mkdir(room)
    port, notified, served, copy, wrong = free_port(), free_port(), free_port(), f"{room}/copy", []
    keys, words = key_file(f"{room}/keys"), {"origin": ORIGIN, "path": zone_file(f"{room}/zone"), "folder": f"{room}/serves", "notified": notified}
    text = (KEYS["named"] if primary == "named" else "") + SIGNED[primary]
    with contextlib.ExitStack() as begun:
        begun.enter_context(running(peers.configured(primary, f"{room}/serves", port, text.format(**words, key=KEY, secret=text_of(SECRET)))))
        peers.connected(port).close()
        if not come(lambda: is_signed(port), seconds=SIGNS):
            return ["the primary doesn't sign the zone"]
        begun.enter_context(running(secondary(program, ORIGIN, port, copy, keys, "--notify", str(notified))))
        if not come(lambda: has_serial(copy, serial_of(port)), seconds=COMES):
            return ["no copy comes"]
        begun.enter_context(running(peers.daemon(daemon, served, {ORIGIN: copy}, f"keys {keys}", f"transfer {ORIGIN} {KEY}", f"control {room}/control")))
        peers.connected(served).close()
        ports = {"ningkraetd": served, **followers(begun, room, served, library)}
        updates = begun.enter_context(subprocess.Popen(["nsupdate", "-k", keys], stdin=subprocess.PIPE, text=True))
        updates.stdin.write(f"server 127.0.0.1 {port}\nzone {ORIGIN}\n")
        before, older = serial_of(served), dug(served, ORIGIN, "AXFR")
        for number in range(CHANGES * rounds):
            change(updates, number)
            time.sleep(1)
            if (number + 1) % CHANGES == 0:
                wrong += [f"{server}, after {number + 1} changes" for server in differing(port, number, ports)]
                newer = dug(served, ORIGIN, "AXFR")
                if since(served, before, older) != newer:
                    wrong.append(f"what ningkraetd says has changed, after {number + 1} changes")
                before, older = serial_of(served), newer
        updates.stdin.close()
    return wrong


# ---- ningkraetd is the primary


def message_of(number):
    """The same update as a message."""
    text = f"change {number}".encode()
    new = entry(f"new{number}.{ORIGIN}", A, IN, 300, bytes([192, 0, 2, number % 250])), entry(f"changes.{ORIGIN}", TXT, IN, 300, bytes([len(text)]) + text)
    return signed(update([new[0], entry(f"host{number}.{ORIGIN}", A, ANY_CLASS), entry(f"changes.{ORIGIN}", TXT, ANY_CLASS), new[1]], ORIGIN), KEY)[0]


def zone_after(number):
    """The lines of the zone after so many updates."""
    hosts = [f"host{it}.{ORIGIN} 300 in a 192.0.2.{it % 250}" for it in range(number, NAMES)]
    news = [f"new{it}.{ORIGIN} 300 in a 192.0.2.{it % 250}" for it in range(number)]
    text = f'"change {number - 1}"' if number else '"none"'
    apex = [f"{ORIGIN} 300 in soa ns.{ORIGIN} h.{ORIGIN} {number + 1} 7200 900 1209600 300", f"{ORIGIN} 300 in ns ns.{ORIGIN}", f"ns.{ORIGIN} 300 in a 192.0.2.53"]
    return sorted([*apex, f"changes.{ORIGIN} 300 in txt {text}", *hosts, *news])


def code_of(port, number, killed=None):
    """The code by which an update is answered, if it is; with a process that is killed meanwhile."""
    with socket.socket(socket.AF_INET, socket.SOCK_DGRAM) as stream:
        stream.settimeout(COMES)
        stream.connect(("127.0.0.1", port))
        stream.send(message_of(number))
        if killed:
            time.sleep(random.choice(MOMENTS))
            killed.kill()
            killed.wait()
            stream.setblocking(False)
        with contextlib.suppress(OSError):
            return stream.recv(65535)[3] & 15
    return None


def wrong_of_updated(library, daemon, room, updates):
    """What is wrong where ningkraetd takes so many updates, and is killed every few of them; how many it took; how often it was killed; and how many
    updates were there then without an answer."""
    os.mkdir(room)
    os.mkdir(f"{room}/journals")
    served, keys, path, wrong, done, kills, found = free_port(), key_file(f"{room}/keys"), zone_file(f"{room}/zone"), [], 0, 0, 0
    lines = [f"transfer {ORIGIN} {KEY}", f"update {ORIGIN} grant {KEY} subdomain {ORIGIN} ANY", f"journals {room}/journals", f"control {room}/control"]
    words = peers.daemon(daemon, served, {ORIGIN: path}, f"keys {keys}", *lines)
    with contextlib.ExitStack() as begun:
        server = peers.begun(words)
        begun.callback(lambda: peers.end(server))
        peers.connected(served).close()
        ports, before = followers(begun, room, served, library), 0
        while done < updates and not wrong:
            for _ in range(min(random.randrange(MOST), updates - done - 1)):
                if (code := code_of(served, done)) != NOERROR:
                    wrong.append(f"update {done} is answered with {code}")
                done += 1
            is_answered, kills = code_of(served, done, killed=server) == NOERROR, kills + 1
            server = peers.begun(words)
            peers.connected(served).close()
            zone = dug(served, ORIGIN, "AXFR")
            is_there = zone == zone_after(done + 1)
            found += is_there and not is_answered
            if not is_there and (is_answered or zone != zone_after(done)):
                wrong.append(f"after {done} updates and {'an answered' if is_answered else 'a doubtful'} one the zone is that after neither")
            done += is_there
            if not wrong and (done == updates or done // COMPARED > before // COMPARED):
                # (one more, since a secondary that was told of the last one before the kill asks again as late as its timers say)
                wrong += [] if code_of(served, done) == NOERROR else ["an update isn't taken after the start"]
                done, zone = done + 1, zone_after(done + 1)
                wrong += [f"{it}, after {done} updates" for it in differing(served, done - 1, ports)]
                if since(served, before + 1, zone_after(before)) != zone or dug(served, ORIGIN, "AXFR") != zone:
                    wrong.append(f"what ningkraetd says has changed, after {done} updates")
                before = done
    return wrong, done, kills, found


def differing(port, number, ports):
    """The servers of which the copy isn't the primary's zone, once that has this change and stands still."""
    come(lambda: f'"change {number}"' in " ".join(dug(port, f"changes.{ORIGIN}", "TXT", keyed=False)))
    while (serial := serial_of(port)) != (time.sleep(2), serial_of(port))[1]:
        pass
    zone = dug(port, ORIGIN, "AXFR")
    for server, there in ports.items():
        come(lambda: serial_of(there), lambda it: it == serial, seconds=COMES)
        if not zone or dug(there, ORIGIN, "AXFR", keyed=server == "ningkraetd") != zone:
            yield server


def main(rounds="6", folder=None, updates="60"):
    program, library = peers.program("secondaryd"), folder or peers.program("ningkraet")
    for server in TAKES.keys() - set(filter(peers.found, TAKES)):
        print(f"changing_zones: {server} isn't there, so it follows nothing, nor is it followed")
    with tempfile.TemporaryDirectory() as room:
        daemon, differs = peers.ningkraetd(library, room), False
        for primary in filter(peers.found, SIGNED if int(rounds) else ()):
            wrong = wrong_of(primary, program, library, daemon, f"{room}/{primary}", int(rounds))
            print(f"{primary} as primary: {CHANGES * int(rounds)} changes, {len(wrong)} copies wrong", *wrong, sep="\n    ", flush=True)
            differs = differs or bool(wrong)
        wrong, done, kills, found = wrong_of_updated(library, daemon, f"{room}/updated", int(updates))
        told = f"{kills} kills, after which {found} updates were there without an answer"
        print(f"ningkraetd as primary: {done} updates, {told}; {len(wrong)} copies wrong", *wrong, sep="\n    ", flush=True)
    return 1 if differs or wrong else 0


if __name__ == "__main__":
    peers.called(main, __doc__, 3)
