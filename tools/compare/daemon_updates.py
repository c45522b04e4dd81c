#!/usr/bin/env python3
"""tools/compare/daemon_updates.py [FOLDER [UPDATES]]: has the server `server/` take updates (RFC 2136), signed by the HMAC of Python (TSIG) and by
nsupdate where it is there: what is taken and refused; journals that are cut off, don't fit or can't be written; updates while zones are read; and
so many updates, 200 where it isn't said, while the server is killed (SIGKILL) at any moment, of which none may be lost that was answered. It is
built once as it is, and once under each of two sanitizers. FOLDER is what `./build ningkraet` made; where none is named it is what
`tools/build/program path ningkraet` gives. No part of the gate: it needs cc, and opens sockets on loopback. It ends what it starts."""
import base64
import os
import random
import resource
import signal
import subprocess
import sys
import threading
import time

sys.dont_write_bytecode = True
sys.path.append(os.path.dirname(os.path.dirname(os.path.realpath(__file__))))

import frames
import peers
from daemon_test import Server, address, all_tried, ask, need, until
from keyed_transfers import KEY, KEYS, OTHER, SECRET, judged, signed, wire
from updates import A, ANY, ANY_CLASS, IN, NOERROR, REFUSED, entry, struct

ORIGIN, SERVFAIL, NOTAUTH = "example.com.", 2, 9
# OTHER may change all; KEY addresses below d, but for one.
RULES = ["keys {folder}/keys", "journals {folder}/journals", "transfer example.com", f"update example.com deny {KEY} name fixed.d.{ORIGIN}",
         f"update Example.COM. grant {KEY} subdomain d.{ORIGIN} a", f"update example.com grant {OTHER} subdomain {ORIGIN} ANY"]
TOLD = "server 127.0.0.1 {port}\nzone {origin}\nkey hmac-sha256:{key} {secret}\nupdate add {name} 60 A 192.0.2.7\nsend\nquit\n"


def server_in(room, *lines, **how):
    server = Server(room, *RULES, *lines, **how)
    os.mkdir(f"{server.folder}/journals")
    with open(f"{server.folder}/keys", "w", encoding="ascii") as it:
        it.write(KEYS)
    return server


def update(changes, origin=ORIGIN):
    return struct.pack("!HHHHHH", random.randrange(65536), 5 << 11, 1, 0, len(changes), 0) + wire(origin) + struct.pack("!HH", 6, IN) + b"".join(changes)


def added(name, last):
    return entry(f"{name}.{ORIGIN}", A, IN, 60, bytes([192, 0, 2, last]))


def code_of(server, message, key=OTHER, by_tcp=False):
    """The code by which a message is answered, signed; None where no response comes."""
    octets, mac = signed(message, key) if key else (message, None)
    with server.tcp() if by_tcp else server.udp() as stream:
        if by_tcp:
            response = peers.asked(stream, octets)
        else:
            stream.send(octets)
            response = stream.recv(65535)
    need(not key or judged([response], key, mac).right, f"a response isn't signed: {response.hex()}")
    return response[3] & 15


def takes(server, name, last, **how):
    code = code_of(server, update([added(name, last)]), **how)
    need(code == NOERROR, f"an update gets {code}: {server.text()}")


def stands(server, name, last):
    with server.udp() as stream:
        return address(stream, f"{name}.{ORIGIN}") == ([f"192.0.2.{last}"] if last else [])


def serial_of(server):
    return next(int(it.split()[1]) for it in server.control("zones")[1].splitlines() if it.startswith("example.com "))


def since(server, serial):
    with server.tcp() as stream:
        lines = [it.split() for it in ask(stream, ORIGIN, "IXFR", f"serial={serial}") if it[0] != ";"]
    return [f"SOA {it[6]}" if it[3] == "SOA" else it[-1] for it in lines if it[3] in ("SOA", "A")]


def journal(server, end=""):
    return f"{server.folder}/journals/example.com.journal{end}"


def killed(server):
    """Kills a server, and starts it again."""
    server.process.kill()
    server.process.wait()
    server.log.close()
    server.__enter__()


def updates_are_taken(room):
    with server_in(room) as server:
        takes(server, "one.d", 1, key=KEY)
        need(stands(server, "one.d", 1) and serial_of(server) == 2, "an update by UDP is served")
        takes(server, "two", 2, by_tcp=True)
        need(stands(server, "two", 2) and serial_of(server) == 3, "an update by TCP is served")
        need(since(server, 1) == ["SOA 3", "SOA 1", "SOA 3", "192.0.2.1", "192.0.2.2", "SOA 3"], f"what changed: {since(server, 1)}")
        size = os.stat(journal(server)).st_size
        need(code_of(server, update([added("two", 2)])) == NOERROR and os.stat(journal(server)).st_size == size, "one that changes nothing")
        for name, how in {"two.d": {"key": None}, "two.e": {"key": KEY}, "fixed.d": {"key": KEY}}.items():
            need(code_of(server, update([added(name, 3)]), **how) == REFUSED and stands(server, name, 0), f"{name} isn't permitted")
        need(code_of(server, update([], "example.org.")) == NOTAUTH, "an update of another zone")
        need(serial_of(server) == 3 and server.counter("updates taken") == 3 and server.counter("updates refused") == 4, server.control("status")[1])
        need("example.com is updated to serial 3 by 127.0.0.1\n" in server.text(), server.text())
        many = [added(f"m{number}", number % 250 + 1) for number in range(1500)]
        need(code_of(server, update(many), by_tcp=True) == NOERROR and stands(server, "m1499", 250), "an update of many names")
        killed(server)
        need(all(stands(server, *it) for it in (("one.d", 1), ("two", 2), ("m1499", 250))) and serial_of(server) == 4, "updates are there after the next start")
        changed = since(server, 2)
        need(changed[:3] == ["SOA 4", "SOA 2", "SOA 4"] and changed[-2:] == ["192.0.2.2", "SOA 4"] and since(server, 1)[1] == "SOA 1", f"and so is what changed: {changed[:9]}")
        takes(server, "three", 3)
        need(since(server, 3)[:2] == ["SOA 5", "SOA 3"] and since(server, 4) == ["SOA 5", "SOA 4", "SOA 5", "192.0.2.3", "SOA 5"], f"what changed since: {since(server, 4)}")
    with Server(room) as server:
        need(code_of(server, update([added("one.d", 1)]), key=None) in (4, REFUSED), "a server without lines `update`")


def tools_update(room):
    tool = peers.found("nsupdate")
    with server_in(room) as server:
        for way in ([], ["-v"]) if tool else []:
            words = TOLD.format(port=server.port, origin=ORIGIN, key=OTHER, secret=base64.b64encode(SECRET).decode(), name=f"tool{len(way)}.{ORIGIN}")
            ran = subprocess.run([tool, *way], input=words, capture_output=True, text=True, timeout=60)
            need(ran.returncode == 0 and stands(server, f"tool{len(way)}", 7), f"nsupdate {way}: {ran.stderr}")


def journals_are_replayed(room):
    with server_in(room) as server:
        takes(server, "one", 1)
        whole = os.stat(journal(server)).st_size
        takes(server, "two", 2)
        # the last update is torn
        os.truncate(journal(server), os.stat(journal(server)).st_size - 3)
        killed(server)
        need("are no whole update, and are cut off" in server.text() and stands(server, "one", 1) and stands(server, "two", 0), server.text())
        need(os.stat(journal(server)).st_size == whole and os.stat(journal(server, ".old")).st_size > whole, "where it is cut off")
        takes(server, "three", 3)
        # the same file is read again; then one that is printed anew, on the way and at the end, and one that doesn't fit
        need(server.control("reload")[0] == 0 and stands(server, "three", 3) and serial_of(server) == 3, "a file that is read again")
        server.write("example.com", 2, more="one A 192.0.2.1\n")
        need(server.control("reload")[0] == 0 and stands(server, "three", 3) and stands(server, "one", 1) and serial_of(server) == 3, "a file between two updates")
        server.write("example.com", 3, more="one A 192.0.2.1\nthree A 192.0.2.3\n")
        need(server.control("reload")[0] == 0 and not os.path.exists(journal(server)) and serial_of(server) == 3, "a file that has all updates")
        need("has nothing that its zone file lacks, and is put aside" in server.text(), server.text())
        takes(server, "four", 4)
        killed(server)
        need(stands(server, "four", 4) and stands(server, "three", 3) and serial_of(server) == 4, "a journal that was begun anew")
        server.write("example.com", 9, last=9)
        need(server.control("reload")[0] == 0 and stands(server, "four", 0) and serial_of(server) == 9 and os.path.exists(journal(server, ".old")), "a file that is newer")
        need("doesn't fit its zone file, and is put aside" in server.text() and not os.path.exists(journal(server)), server.text())
        with open(journal(server), "wb") as it:
            it.write(b"no journal at all")
        killed(server)
        need(serial_of(server) == 9 and os.stat(journal(server)).st_size == 0 and os.stat(journal(server, ".old")).st_size == 17, "what is no journal")


def files_are_written(room):
    with server_in(room, zones=("example.com", "example.org")) as server:
        path = f"{server.folder}/zones/example.com.zone"
        os.chmod(path, 0o640)
        takes(server, "one", 1)
        takes(server, "two", 2)
        need(server.control("write", "Example.COM.") == (0, "") and not os.path.exists(journal(server)), f"a zone is written: {server.text()}")
        with open(path, encoding="ascii") as it:
            text = it.read()
        need(text.startswith(f"{ORIGIN}") and f"one.{ORIGIN}" in text and os.stat(path).st_mode & 0o777 == 0o640, f"its file: {text}")
        need(stands(server, "one", 1) and serial_of(server) == 3 and since(server, 1)[0] == "SOA 3" and len(since(server, 1)) > 2, "what is served stays, with what changed")
        takes(server, "three", 3)
        killed(server)
        need(all(stands(server, *it) for it in (("one", 1), ("two", 2), ("three", 3))) and serial_of(server) == 4, "the file, and a journal that was begun anew")
        for origin, why in {"example.org": "it takes no updates: its file has all of it", "example.net": "there is no zone of this origin"}.items():
            need(server.control("write", origin) == (1, f"{why}\n"), f"{origin}: {server.control('write', origin)}")
        os.mkdir(f"{path}.new")
        need(server.control("write", "example.com") == (1, "Is a directory\n") and stands(server, "three", 3), "a file that can't be written")
        os.rmdir(f"{path}.new")
        with open(f"{path}.expired", "wb"):
            pass
        need(server.control("reload")[0] == 0 and server.control("write", "example.com") == (1, "it has expired\n"), server.control("zones")[1])
        with open(path, encoding="ascii") as it:
            need(it.read() == text, "the file of a zone that has expired stays")


def what_cannot_be_written_is_refused(room):
    # (so that a file that is too long is an error and no signal, as Python has it)
    with server_in(room, restore_signals=False) as server:

        def fails(by):
            code = code_of(server, update([added("two", 2)]))
            need(code == SERVFAIL and stands(server, "two", 0) and by in server.text(), f"{by}: {code}, {server.text()}")

        os.mkdir(journal(server))
        fails("example.com.journal: an update isn't taken: Is a directory")
        os.rmdir(journal(server))
        takes(server, "one", 1)
        # (as long as no log is here)
        need(code_of(server, update([added(f"m{number}", 1) for number in range(1500)]), by_tcp=True) == NOERROR, "an update of many names")
        size, limits = os.stat(journal(server)).st_size, resource.prlimit(server.process.pid, resource.RLIMIT_FSIZE)
        resource.prlimit(server.process.pid, resource.RLIMIT_FSIZE, (size + 9, limits[1]))
        fails("File too large")
        need(os.stat(journal(server)).st_size == size, "an update that isn't whole is taken back")
        resource.prlimit(server.process.pid, resource.RLIMIT_FSIZE, limits)
        takes(server, "three", 3)
        os.rename(journal(server), journal(server, ".kept"))
        os.symlink("/dev/full", journal(server))
        fails("No space left on device")
        need("no update is taken until the next start" in server.text(), server.text())
        os.rename(journal(server, ".kept"), journal(server))
        fails("the journal couldn't be cut")
        second = subprocess.run(server.words, capture_output=True, text=True, timeout=60)
        need(second.returncode == 2 and "another server has its journals there" in second.stderr, second.stderr)
        killed(server)
        need(stands(server, "one", 1) and stands(server, "three", 3) and stands(server, "two", 0), "what was answered is there")
        takes(server, "two", 2)
        os.remove(journal(server))
        os.symlink(journal(server), journal(server))
        server.write("example.com", 7)
        need(server.control("reload")[0] == 1 and "its journal can't be read" in server.control("zones")[1] and stands(server, "two", 2), server.control("zones")[1])


def updates_go_on_beside_reloads(room):
    over, taken = threading.Event(), []

    def client(server, first):
        for number in range(first, 250, 2):
            if over.is_set():
                return
            takes(server, f"u{number}", number, by_tcp=number % 4 < 2)
            need(stands(server, f"u{number}", number), f"update {number} isn't served once it is answered")
            taken.append(number)

    with server_in(room, zones=("example.com", "example.org")) as server:
        wrong, clients = [], []
        for first in (1, 2):

            def tried(it=first):
                try:
                    client(server, it)
                except (AssertionError, OSError) as error:
                    wrong.append(error)

            clients.append(threading.Thread(target=tried))
            clients[-1].start()
        for serial in range(2, 22):
            server.write("example.org", serial, last=serial, more="".join(f"h{number} A 192.0.2.1\n" for number in range(2000)))
            need(serial % 3 or server.control("reload")[0] == 0, "a reload")
            server.process.send_signal(signal.SIGHUP)
            time.sleep(0.1)
        over.set()
        for it in clients:
            it.join()
        need(not wrong and all(stands(server, f"u{it}", it) for it in taken), f"of {len(taken)} updates: {wrong[:2]}")
        need(serial_of(server) == 1 + len(taken), f"{len(taken)} updates, and serial {serial_of(server)}")
        killed(server)
        need(all(stands(server, f"u{it}", it) for it in taken), "updates are there after the next start")
        print(f"  {len(taken)} updates were taken beside reloads")


def kills_lose_nothing(room, updates):
    """A name is there or isn't: each update adds one or deletes one."""
    known, doubtful, kills, found, sent = {}, None, 0, 0, 0
    with server_in(room) as server:
        while sent < updates:
            for left in reversed(range(random.randrange(1, 9))):
                name, last, sent = f"k{random.randrange(30)}", random.randrange(1, 250), sent + 1
                changes = [entry(f"{name}.{ORIGIN}", ANY, ANY_CLASS)] + ([] if random.random() < 0.3 else [added(name, last)])
                octets, _ = signed(update(changes), OTHER)
                with server.udp() as stream:
                    stream.send(octets)
                    if left:
                        need(stream.recv(65535)[3] & 15 == NOERROR, "an update that is right")
                        known[name] = last if len(changes) > 1 else 0
                        continue
                    time.sleep(random.choice([0, 0.0003, 0.001, 0.003, 0.01]))
                    server.process.kill()
                    stream.setblocking(False)
                    try:
                        is_answered = stream.recv(65535)[3] & 15 == NOERROR
                    except OSError:
                        is_answered = False
                doubtful, kills = (name, last if len(changes) > 1 else 0), kills + 1
                killed(server)
                if is_answered or stands(server, *doubtful):
                    found += not is_answered and known.get(name, 0) != doubtful[1]
                    known[name] = doubtful[1]
                for it in known.items():
                    need(stands(server, *it), f"after {sent} updates {it} isn't as it was answered: {server.text()}")
    print(f"  {sent} updates; {kills} kills, after which {found} updates were there without an answer")


TESTS = [updates_are_taken, tools_update, journals_are_replayed, files_are_written, what_cannot_be_written_is_refused, updates_go_on_beside_reloads, kills_lose_nothing]


def main(folder=None, updates="200"):
    return all_tried(TESTS, folder, lambda test, _: [int(updates)] if test is kills_lose_nothing else [])


if __name__ == "__main__":
    peers.called(main, __doc__)
