#!/usr/bin/env python3
"""tools/compare/cookie_clients.py [FOLDER]: the server `server/` beside clients with cookies (RFC 7873, RFC 9018): what each cookie gets, for how
long and by which secrets; that a client with a valid one has no rate limit; and dig, kdig and BIND as a resolver, each of which learns its
cookie from BADCOOKIE. FOLDER is what `./build ningkraet` made; where none is named it is what `tools/build/program path ningkraet` gives. No
part of the gate: it needs cc, dig, kdig and named, and opens sockets on loopback. It ends what it starts."""
import contextlib
import json
import os
import re
import struct
import subprocess
import sys
import tempfile
import time

sys.dont_write_bytecode = True
sys.path.append(os.path.dirname(os.path.dirname(os.path.realpath(__file__))))

import frames
import peers
from daemon_test import Server, address, need

CLIENT = bytes(range(1, 9))
NEW, OLD = "00112233445566778899aabbccddeeff", "ffeeddccbbaa99887766554433221100"
BADCOOKIE, REFUSED, FORMERR = 23, 5, 1
NAMES = 20
RESOLVER = """options {{ directory "{folder}"; listen-on port {port} {{ 127.0.0.1; }}; listen-on-v6 {{ none; }}; recursion yes; dnssec-validation no;
  pid-file none; session-keyfile none; allow-query {{ any; }}; }};
controls {{}};
zone "example.com" {{ type forward; forward only; forwarders {{ 127.0.0.1 port {server}; }}; }};
"""


def options_of(message):
    """The options of a response that ends with an OPT record, by their codes."""
    at = max((it for it in range(len(message)) if message[it : it + 3] == b"\0\0\x29" and it + 11 + struct.unpack_from("!H", message + b"\0" * 11, it + 9)[0] == len(message)), default=None)
    options, rest = {}, b"" if at is None else message[at + 11 :]
    while rest:
        code, length = struct.unpack_from("!HH", rest)
        options[code], rest = rest[4 : 4 + length], rest[4 + length :]
    return options


def code_of(message):
    """The response code, of twelve bits."""
    found = re.search(rb"\0\0\x29..(.)", message[12:], re.S)
    return message[3] & 15 | (found[1][0] << 4 if found else 0)


def query(name, options):
    """A query for an address with these options."""
    data = b"".join(struct.pack("!HH", code, len(value)) + value for code, value in options.items())
    return frames.query([name, "A", "edns=1232"])[:-2] + struct.pack("!H", len(data)) + data


def ask(stream, cookie, name="www.example.com."):
    """The response to a query with a cookie."""
    stream.send(query(name, {10: cookie, 3: b""}))
    return stream.recv(4096)


def cookies_are_made_and_checked(room):
    with Server(room, f"cookie-secret {NEW} {OLD}", "nsid here") as server, server.udp() as stream:
        first = ask(stream, CLIENT)
        cookie = options_of(first)[10]
        need(code_of(first) == 0 and cookie[:8] == CLIENT and len(cookie) == 24 and options_of(first)[3] == b"here", first)
        again = ask(stream, cookie)
        need(code_of(again) == 0 and options_of(again)[10][:8] == CLIENT, again)
        refused = ask(stream, cookie, "www.example.org.")
        need(code_of(refused) == REFUSED and options_of(refused)[15] == bytes([0, 20]), refused)
        need(code_of(ask(stream, CLIENT[:7])) == FORMERR and len(ask(stream, CLIENT[:7])) == 12, "a malformed cookie")
        counted = [server.counter(f"whose cookie is {it}") for it in ("absent", "malformed", "unknown", "known")]
        need(counted == [0, 2, 1, 2], counted)
    for secrets, is_known in ((f"{OLD} {NEW}", 1), (NEW, 1), (OLD, 0), ("", 0)):
        with Server(room, *([f"cookie-secret {secrets}"] if secrets else [])) as server, server.udp() as stream:
            ask(stream, cookie)
            need(server.counter("whose cookie is known") == is_known, f"a cookie, and then the secrets {secrets}")
    with Server(room, "cookies off") as server, server.udp() as stream:
        need(10 not in options_of(ask(stream, cookie)), "cookies are off")


def required_cookies_are_asked_for(room):
    with Server(room, "cookies-required on") as server, server.udp() as stream, server.udp("::1") as other, server.tcp() as by_tcp:
        bad = ask(stream, CLIENT)
        cookie = options_of(bad)[10]
        need(code_of(bad) == BADCOOKIE and bad[7] == 0 and len(cookie) == 24, bad)
        need(code_of(ask(stream, cookie)) == 0, "the cookie that was given")
        need(code_of(ask(other, cookie)) == BADCOOKIE, "the cookie of another address")
        need(code_of(ask(stream, cookie[:-1] + bytes([cookie[-1] ^ 1]))) == BADCOOKIE, "a cookie that was changed")
        stale = cookie[:12] + struct.pack("!I", struct.unpack_from("!I", cookie, 12)[0] - 3700) + cookie[16:]
        need(code_of(ask(stream, stale)) == BADCOOKIE, "a cookie of another time")
        need(address(stream) == ["192.0.2.80"], "a client without cookies")
        need(code_of(peers.asked(by_tcp, query("www.example.com.", {10: CLIENT}))) == 0, "by TCP none is asked for")


def known_clients_have_no_limit(room):
    with Server(room, "rate-limit 5", "rate-slip 0") as server, server.udp() as stream:
        cookie = options_of(ask(stream, CLIENT))[10]
        stream.settimeout(0.5)
        for sent, least, most in ((cookie, 60, 60), (CLIENT, 4, 15)):
            while time.time() % 1 > 0.1:
                time.sleep(0.01)
            for _ in range(60):
                stream.send(query("www.example.com.", {10: sent}))
            answers = 0
            with contextlib.suppress(TimeoutError):
                while stream.recv(4096):
                    answers += 1
            need(least <= answers <= most, f"{answers} of 60 were answered with {len(sent)} octets of a cookie")


def logged(server):
    """Which cookies queries had, and which codes they got, in their order."""
    time.sleep(0.2)
    with open(f"{server.folder}/queries", encoding="ascii") as it:
        return [(line["cookie"], line["rcode"]) for line in map(json.loads, it)]


def tools_come_again(room):
    for words in (["dig", "+cookie", "+badcookie"], ["kdig", "+cookie", "+badcookie"]):
        with Server(room, "cookies-required on", "query-log {folder}/queries 1", hosts=("127.0.0.1",)) as server:
            done = subprocess.run([*words, "@127.0.0.1", "-p", str(server.port), "www.example.com.", "A"], capture_output=True, text=True)
            need("192.0.2.80" in done.stdout, done.stdout + done.stderr)
            need(logged(server) == [("unknown", BADCOOKIE), ("known", 0)], f"{words[0]}: {logged(server)}")


def a_resolver_comes_again(room):
    with Server(room, "cookies-required on", "query-log {folder}/queries 1", hosts=("127.0.0.1",)) as server:
        port = peers.free_port()
        with open(f"{room}/resolver", "w", encoding="ascii") as it:
            it.write(RESOLVER.format(folder=room, port=port, server=server.port))
        server.write("example.com", serial=2, more="".join(f"n{number} A 192.0.2.{number}\n" for number in range(NAMES)))
        need(server.control("reload")[0] == 0, "names for the resolver")
        resolver = peers.begun([peers.found("named"), "-g", "-c", f"{room}/resolver"])
        try:
            peers.connected(port).close()
            with server.udp() as stream:
                stream.connect(("127.0.0.1", port))
                for number in range(NAMES):
                    stream.send(frames.query([f"n{number}.example.com.", "A", "rd"]))
                    lines = list(frames.message_lines(stream.recv(4096)))
                    need(any(it.endswith(f" A 192.0.2.{number}") for it in lines), lines)
        finally:
            peers.end(resolver)
        found = logged(server)
        need(found.count(("known", 0)) >= NAMES - 2 and found.count(("unknown", BADCOOKIE)) == 1, found)
        print(f"  BIND asked {len(found)} times for {NAMES} names, once for its cookie")


TESTS = [cookies_are_made_and_checked, required_cookies_are_asked_for, known_clients_have_no_limit, tools_come_again, a_resolver_comes_again]


def main(folder=None):
    folder, failed = folder or peers.program("ningkraet"), 0
    with tempfile.TemporaryDirectory(prefix="cookies-") as room:
        peers.ningkraetd(folder, room, "-O1", "-fsanitize=address,undefined", "-fno-sanitize-recover=all")
        for test in TESTS:
            try:
                test(room)
                print(f"{test.__name__}: ok", flush=True)
            except (AssertionError, OSError) as wrong:
                failed += 1
                print(f"{test.__name__}: FAILED: {wrong}", flush=True)
    print(f"{len(TESTS) - failed} passed, {failed} failed")
    return 1 if failed else 0


if __name__ == "__main__":
    peers.called(main, __doc__, most=1)
