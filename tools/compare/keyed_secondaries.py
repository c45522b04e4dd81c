#!/usr/bin/env python3
"""tools/compare/keyed_secondaries.py [SEED [FOLDER]]: zones that go from server to server under a key (TSIG, RFC 8945), both ways. NSD, Knot DNS
and BIND are primaries of secondaryd behind examples/serving/secondary.py, and they are secondaries of ningkraetd beside examples/serving/notify.py. Either
side has a zone of its own, by AXFR, and after a NOTIFY its next version, which it asks for by IXFR. Each copy is compared, record by record, with what the same server
reads from the zone file; a line says which primaries sent differences. With another secret, with a key that the primary doesn't know, and with a
clock that is 400 seconds wrong no copy comes. A copy of which the primary is away for its expire interval is answered with SERVFAIL by ningkraetd until
the primary is back. If a server is missing, it is left out, and a line says so. Not part of the gate: it needs cc, and
opens sockets on loopback. It ends what it starts.

The servers are Debian's packages nsd, knot and bind9. FOLDER is what `./build ningkraet` made; where none is named it is what `tools/build/program
path ningkraet` gives. The status is 1 if a copy differs from its zone, doesn't arrive, or arrives though it may not.
"""
import base64
import contextlib
import os
import random
import signal
import subprocess
import sys
import tempfile
import time

sys.dont_write_bytecode = True
sys.path.append(os.path.dirname(os.path.dirname(os.path.realpath(__file__))))

import frames
import peers
import secondaries
import served_zones
from keyed_transfers import IXFR, KEY, SECRET, SOA, question, records_of, signed, stream_of
from peers import free_port
from random_zones import random_zone
from sources import TOP

# What each server's configuration says of the key; of zones that it gives those who have it; and of those that it has from another server, and
# gives anybody.
KEYS = {
    "nsd": 'key:\n name: "{key}"\n algorithm: hmac-sha256\n secret: "{secret}"\n',
    "knotd": (
        "key:\n - id: {key}\n   algorithm: hmac-sha256\n   secret: {secret}\n"
        "remote:\n - id: primary\n   address: 127.0.0.1@{served}\n   key: {key}\n"
        "acl:\n - id: keyed\n   address: 127.0.0.1\n   key: {key}\n   action: transfer\n - id: all\n   address: 127.0.0.1\n   action: [transfer, notify]\nzone:\n"
    ),
    "named": 'key "{key}" {{ algorithm hmac-sha256; secret "{secret}"; }};\n',
}
GIVES = {
    "nsd": 'zone:\n name: "{origin}"\n zonefile: "{path}"\n provide-xfr: 127.0.0.1 {key}\n store-ixfr: yes\n create-ixfr: yes\n',
    "knotd": ' - domain: "{origin}"\n   file: "{path}"\n   zonefile-load: difference\n   semantic-checks: off\n   acl: keyed\n',
    "named": 'zone "{origin}" {{ type primary; file "{path}"; check-integrity no; ixfr-from-differences yes; allow-transfer {{ key "{key}"; }}; }};\n',
}
TAKES = {
    "nsd": 'zone:\n name: "{origin}"\n request-xfr: 127.0.0.1@{served} {key}\n allow-notify: 127.0.0.1 NOKEY\n provide-xfr: 127.0.0.1 NOKEY\n',
    "knotd": ' - domain: "{origin}"\n   file: "{folder}/{origin}copy"\n   master: primary\n   acl: all\n',
    "named": (
        'zone "{origin}" {{ type secondary; file "{folder}/{origin}copy"; primaries {{ 127.0.0.1 port {served} key "{key}"; }}; '
        "allow-notify {{ 127.0.0.1; }}; allow-transfer {{ any; }}; }};\n"
    ),
}
# A server that reads zone files and gives them anybody, by which copies are read.
READS = secondaries.PRIMARY | {"named": 'zone "{origin}" {{ type primary; file "{path}"; check-integrity no; allow-transfer {{ any; }}; }};\n'}

# A zone that expires four seconds after its primary went.
EXPIRING, BRIEF = "expiring.test.", "$TTL 60\n@ SOA ns h {serial} 1 1 4 60\n@ NS ns\nns A 192.0.2.53\n"

OTHER_SECRET, OTHER_KEY = b"a secret that nobody else has...", "unknown.example."
# Seconds in which a copy has to come, in which none may, and in which a server has read a zone file; in which one that has expired has to come
# back, as a secondary that has no copy waits for a minute; and how wrong a clock is.
COMES, REFUSES, READ, RETURNS, LATE = 30, 5, 5, 150, 400
# secondary.py with that clock.
WRONG_CLOCK = f"import runpy, sys, time; now = time.time; time.time = lambda: now() + {LATE}; sys.argv = sys.argv[1:]; runpy.run_path(sys.argv[0], run_name='__main__')"


def text_of(secret):
    return base64.b64encode(secret).decode()


def key_file(path, key=KEY, secret=SECRET):
    with open(path, "w", encoding="ascii") as it:
        it.write(f'key "{key}" {{\n\talgorithm hmac-sha256;\n\tsecret "{text_of(secret)}";\n}};\n')
    return path


def configuration(server, forms, zones, key=KEY, secret=SECRET, **words):
    """What a server's configuration says of the key and of zones, by their origins and files."""
    words = {"served": 1, "folder": "", **words, "key": key, "secret": text_of(secret)}
    return KEYS[server].format(**words) + "".join(forms[server].format(origin=origin, path=path, **words) for origin, path in zones.items())


@contextlib.contextmanager
def running(words, **how):
    """A process, up to the end of the block."""
    process = peers.begun(words, **how)
    try:
        yield process
    finally:
        peers.end(process)


def read_by(server, folder, files):
    """What a server reads of zone files."""
    port = free_port()
    with running(peers.configured(server, folder, port, configuration(server, READS, files))):
        return {origin: come(lambda: secondaries.transferred(port, origin), seconds=READ) for origin in files}


def come(get, is_come=bool, seconds=COMES):
    """What comes, or what is there when the time is over."""
    until = time.monotonic() + seconds
    while not is_come(it := get()) and time.monotonic() < until:
        time.sleep(0.1)
    return it


def versions_of(folder, zones):
    """The files of two versions of zones."""
    versions = []
    for number, change in enumerate([lambda records: records, secondaries.later], 1):
        os.makedirs(f"{folder}/{number}")
        versions.append({origin: served_zones.made(f"{folder}/{number}", origin, change(records), None).path for origin, records in zones.items()})
    return versions


def loaded(server, folder, versions):
    """The versions of those zones that a server reads: BIND none with a host that has no address."""
    read = read_by(server, f"{folder}/{server}-reads", versions[0])
    return [{origin: path for origin, path in files.items() if read[origin]} for files in versions]


# ---- others are primaries


def secondary(program, origin, served, path, keys, *flags, front=()):
    """The words that start secondaryd behind its front."""
    front = front or [f"{TOP}/examples/serving/secondary.py"]
    return [sys.executable, *front, program, origin, "127.0.0.1", str(served), path, "--keys", keys, *flags]


def sends_differences(port, origin):
    """Whether a primary answers a question for the changes since version 1 by differences: its second record is the SOA of that version."""
    answers = [it for message in stream_of(port, signed(question(origin, IXFR, 1))[0]) for it in records_of(message) if it[3]]
    return len(answers) > 2 and answers[1][1] == SOA and answers[1][2] != answers[0][2]


def text_at(path):
    with contextlib.suppress(FileNotFoundError), open(path, encoding="ascii") as it:
        return it.read()
    return ""


def has_serial(path, serial):
    """Whether a copy is of a version: its first record is the SOA."""
    words = text_at(path).partition("\n")[0].split()
    return len(words) > 6 and words[6] == str(serial)


def put(path, source):
    """A zone file is another one from now on."""
    with open(source, encoding="ascii") as old, open(f"{path}.new", "w", encoding="ascii") as new:
        new.write(old.read())
    os.replace(f"{path}.new", path)


def wrong_of_primary(server, program, folder, versions):
    """What is wrong with copies of a primary, and how many answers were differences."""
    room, port, wrong, differences = f"{folder}/{server}-primary", free_port(), [], 0
    os.mkdir(room)
    served = {origin: f"{room}/{origin}zone" for origin in versions[0]}
    for origin, path in served.items():
        put(path, versions[0][origin])
    read = [read_by(server, f"{room}/reads{number}", files) for number, files in enumerate(versions, 1)]
    keys = key_file(f"{room}/keys")
    with contextlib.ExitStack() as begun:
        process = begun.enter_context(running(peers.configured(server, f"{room}/serves", port, configuration(server, GIVES, served))))
        peers.connected(port).close()
        notified, copies = {origin: free_port() for origin in served}, {origin: f"{room}/{origin}copy" for origin in served}
        for origin, path in copies.items():
            begun.enter_context(running(secondary(program, origin, port, path, keys, "--notify", str(notified[origin]))))
        for number, files in enumerate(versions, 1):
            if number > 1:
                renew(process, port, number, served, files, notified)
                differences = sum(sends_differences(port, origin) for origin in served)
            for origin, path in copies.items():
                come(lambda: has_serial(path, number), seconds=COMES)
            taken = read_by(server, f"{room}/copies{number}", copies)
            wrong += [f"{origin} {number}" for origin in served if not read[number - 1][origin] or taken[origin] != read[number - 1][origin]]
        wrong += [f"a copy by {how}" for how in kept_from(program, room, port, next(iter(served)))]
    return wrong, differences


def kept_from(program, room, port, origin):
    """The ways in which a copy came though it may not."""
    wrong = key_file(f"{room}/wrong", secret=OTHER_SECRET), key_file(f"{room}/unknown", key=OTHER_KEY)
    ways = {"another secret": (wrong[0], ()), "an unknown key": (wrong[1], ()), "a wrong clock": (key_file(f"{room}/keys"), ["-c", WRONG_CLOCK, f"{TOP}/examples/serving/secondary.py"])}
    with contextlib.ExitStack() as begun:
        for number, (keys, front) in enumerate(ways.values()):
            begun.enter_context(running(secondary(program, origin, port, f"{room}/kept{number}", keys, front=front)))
        time.sleep(REFUSES)
    return [how for number, how in enumerate(ways) if os.path.exists(f"{room}/kept{number}")]


def renew(process, port, number, paths, files, notified):
    """Has a primary at a port take the zones of this number, and tells those who are notified here of each once it has it."""
    for origin, path in paths.items():
        put(path, files[origin])
    process.send_signal(signal.SIGHUP)
    for origin in paths:
        come(lambda: soa_serial(port, origin), lambda it: it == number)
        if origin in notified:
            secondaries.notify(notified[origin], origin)


def soa_serial(port, origin):
    """The serial that a server has of a zone."""
    with peers.connected(port) as stream:
        lines = list(frames.message_lines(peers.asked(stream, frames.query([origin, "SOA"]))))
    return secondaries.serial([it.lower() for it in lines[lines.index(";; ANSWER SECTION:") + 1 :]] if ";; ANSWER SECTION:" in lines else [])


# ---- others are secondaries


def wrong_of_secondary(server, daemon, library, folder, versions):
    """What is wrong with the copies that a server has of the zones of ningkraetd."""
    room, served, port, wrong = f"{folder}/{server}-secondary", free_port(), free_port(), []
    os.mkdir(room)
    files = {origin: f"{room}/{origin}zone" for origin in versions[0]}
    for origin, path in files.items():
        put(path, versions[0][origin])
    read = [read_by(server, f"{room}/reads{number}", each) for number, each in enumerate(versions, 1)]
    lines = [f"keys {key_file(f'{room}/keys')}", f"control {room}/control", *(f"transfer {origin} {KEY}" for origin in files)]
    notify = [f"{TOP}/examples/serving/notify.py", "--control", f"{room}/control", "--every", "0.2", "--interval", "1"]
    with contextlib.ExitStack() as begun:
        process = begun.enter_context(running(peers.daemon(daemon, served, files, *lines)))
        peers.connected(served).close()
        refused = {"another secret": {"secret": OTHER_SECRET}, "an unknown key": {"key": OTHER_KEY}}
        others = {}
        for number, (how, words) in enumerate({"": {}, **refused}.items()):
            others[how] = port if not how else free_port()
            text = configuration(server, TAKES, files, served=served, folder=f"{room}/takes{number}", **words)
            begun.enter_context(running(peers.configured(server, f"{room}/takes{number}", others[how], text)))
            peers.connected(others[how]).close()
        told = begun.enter_context(open(f"{room}/told", "w+", encoding="utf-8"))
        begun.enter_context(running([*notify, f"{library}/libningkraet.so", *(f"{origin}=127.0.0.1@{port}" for origin in files)], stderr=told))
        for number, each in enumerate(versions, 1):
            if number > 1:
                renew(process, served, number, files, each, {})
            copies = {origin: come(lambda: secondaries.transferred(port, origin), lambda it: secondaries.serial(it) == number) for origin in files}
            wrong += [f"{origin} {number}" for origin in files if not read[number - 1][origin] or copies[origin] != read[number - 1][origin]]
            knows = {origin: f"{origin}=127.0.0.1@{port} knows" for origin in files}
            wrong += [f"{origin} {number} isn't told" for origin in files if not come(lambda: text_at(f"{room}/told").count(knows[origin]) >= number)]
        for how in refused:
            wrong += [f"{origin} by {how}" for origin in files if secondaries.transferred(others[how], origin)]
    return wrong


# ---- a zone expires


def code_of(port, origin):
    """The code with which a server answers for a zone."""
    with peers.connected(port) as stream:
        return peers.asked(stream, frames.query([origin, "SOA"]))[3] & 15


def wrong_of_expiry(program, daemon, folder):
    """What is wrong with a copy that expires: ningkraetd is the primary, and answers from the copy too."""
    room, served, port, wrong = f"{folder}/expiry", free_port(), free_port(), []
    os.mkdir(room)
    os.symlink(daemon, f"{room}/ningkraetd")
    keys, copy, path = key_file(f"{room}/keys"), f"{room}/copy", f"{room}/zone"

    def primary(serial):
        with open(path, "w", encoding="ascii") as it:
            it.write(BRIEF.format(serial=serial))
        return running(peers.daemon(daemon, served, {EXPIRING: path}, f"keys {keys}", f"transfer {EXPIRING} {KEY}"))

    with contextlib.ExitStack() as begun:
        with primary(1):
            begun.enter_context(running(secondary(program, EXPIRING, served, copy, keys)))
            come(lambda: has_serial(copy, 1))
            begun.enter_context(running(peers.daemon(f"{room}/ningkraetd", port, {EXPIRING: copy}, f"transfer {EXPIRING}")))
            time.sleep(8)
            wrong += ["it expires beside its primary"] if soa_serial(port, EXPIRING) != 1 or os.path.exists(f"{copy}.expired") else []
        wrong += ["it doesn't expire"] if come(lambda: code_of(port, EXPIRING), lambda it: it == 2) != 2 else []
        wrong += ["it is sent though it has expired"] if secondaries.transferred(port, EXPIRING) else []
        with primary(2):
            wrong += ["it doesn't come back"] if come(lambda: soa_serial(port, EXPIRING), lambda it: it == 2, RETURNS) != 2 or os.path.exists(f"{copy}.expired") else []
    return wrong


def main(seed="1", folder=None):
    servers = [server for server in KEYS if peers.found(server)]
    for server in KEYS.keys() - set(servers):
        print(f"keyed_secondaries: {server} isn't there, so it takes and gives nothing")
    program, library = peers.program("secondaryd"), folder or peers.program("ningkraet")
    random.seed(int(seed))
    zones = {f"z{number}.test.": random_zone(f"z{number}.test.", False) for number in range(3)}
    zones |= {"many.test.": [*secondaries.many_names("many.test."), ("ns.many.test.", "A", "192.0.2.53")]}
    with tempfile.TemporaryDirectory() as room:
        versions, daemon = versions_of(room, zones), peers.ningkraetd(library, room)
        wrong = wrong_of_expiry(program, daemon, room)
        print(f"a zone that expires: {len(wrong)} wrong", *wrong, sep="\n    ", flush=True)
        differs = bool(wrong)
        for server in servers:
            given = loaded(server, room, versions)
            wrong, differences = wrong_of_primary(server, program, room, given)
            print(f"{server} as primary: {len(given[0])} zones, {differences} of them by differences, {len(wrong)} wrong", *wrong[:5], sep="\n    ", flush=True)
            more = wrong_of_secondary(server, daemon, library, room, given)
            print(f"{server} as secondary: {len(given[0])} zones, {len(more)} wrong", *more[:5], sep="\n    ", flush=True)
            differs = differs or bool(wrong or more) or "many.test." not in given[0]
    return 1 if differs else 0


if __name__ == "__main__":
    peers.called(main, __doc__)
