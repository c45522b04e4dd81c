#!/usr/bin/env python3
"""Tries the C library in the form in which its users get it.

  tools/gate/c_library.py program FOLDER    the program of the README, compiled with the commands of the documents, answers
  tools/gate/c_library.py calls FOLDER      each call reports each refusal, and each failing allocation (library_test.c, library_signed.c)
  tools/gate/c_library.py front.c FOLDER    a query for the zone of the README's tour is answered over UDP and TCP
  tools/gate/c_library.py signed.c FOLDER   the zone of the tour, signed by OpenSSL with new keys, is answered with signatures, which delv
                                            finds valid if it is installed, also after an update by nsupdate; says so
                                            where OpenSSL's header isn't
  tools/gate/c_library.py front.py PROGRAM  the same by zoned
  tools/gate/c_library.py server FOLDER     the same by ningkraetd, which says so where a configuration is wrong, and ends as it is told to

FOLDER is one that `./build ningkraet` or `tools/build/program path ningkraet` made; its header has to say which of the two. All but
the last need cc. Reports what goes wrong, and ends with status 1 if anything does.
"""
import os
import re
import shutil
import socket
import subprocess
import sys
import tempfile
import time

sys.dont_write_bytecode = True
TOOLS = os.path.dirname(os.path.dirname(os.path.realpath(__file__)))
sys.path[1:1] = [f"{TOOLS}/compare", TOOLS]

import frames
import library
import markdown
import peers
import sources
from sources import TOP

# What the README's program ends with: the address that its query asks for.
ADDRESS = "192.0.2.80"
# The lines of the documents that compile a program over the library; and the one that is a server.
LINE, SERVER = re.compile(r"^cc .*?(\S+\.c) \$\(pkg-config --cflags --libs ningkraet\) -o \w+", re.M), "examples/serving/front.c"
# The program that signs, the folder of the header that it needs, and what delv says of a response that is validated.
SIGNED, OPENSSL, VALIDATED = "examples/serving/signed.c", "openssl", "; fully validated\n"
# What it says where it is proved that a name isn't there; and the name of the key that may change the zone.
DENIED, KEY = "; negative response, fully validated", "admin.example.com"
# The sources of ningkraetd.
DAEMON = sorted(it for it in os.listdir(f"{TOP}/server") if it.endswith(".c") and it != "ningkraetctl.c")
# Datagrams with octets turned, as many as take a second, and the seconds that an answer may take.
DATAGRAMS, PATIENCE = 10_000, 10
# What is asked of the zone of the README's tour.
ORIGIN, ZONE, QUERY = "example.com.", "examples/example.zone", ["example.com.", "SOA", "id=4660"]


class Wrong(Exception):
    pass


def need(holds, what):
    if not holds:
        raise Wrong(what)


def documents():
    return sources.files_below(".", ".md")


def program_text():
    """The C program of the README."""
    texts = [text for _, language, text in markdown.blocks("README.md") if language == "c" and "int main" in text]
    need(texts, "README.md has no C program")
    return texts[0]


def compiling_lines():
    """The lines of the documents that compile programs, by these."""
    texts = [text for path in documents() for _, _, text in markdown.blocks(path)]
    lines = {it[1]: it[0] for text in texts for it in LINE.finditer(text)}
    need(SERVER in lines, f"no line of the documents compiles {SERVER}")
    return lines


def ran(words, **how):
    """What a command writes, which has to end well."""
    done = subprocess.run(words, stdout=subprocess.PIPE, stderr=subprocess.STDOUT, text=True, errors="replace", **how)
    need(done.returncode == 0, f"{words[0] if isinstance(words, list) else words}: status {done.returncode}: {done.stdout.strip()}")
    return done.stdout


def compiled(source, folder, room):
    """Compiles a program by its line of the documents, and gives its path; the README's own by the line of the server where it has none.
    Without pkg-config it does so by the words that this would give."""
    lines = compiling_lines()
    named = SERVER if source == SERVER else next((it for it in lines if it != SERVER), SERVER)
    line = re.sub(r"-o \w+$", f"-o {room}/made", lines[named].replace(f" {named} ", f" {source} "))
    if not shutil.which("pkg-config"):
        line = re.sub(r"\$\(pkg-config .*?\)", " ".join(library.flags(folder)), line)
    ran(line, shell=True, cwd=TOP, env={**os.environ, "PKG_CONFIG_PATH": f"{folder}/lib/pkgconfig"})
    return f"{room}/made"


def says_what_it_is(folder):
    """The header of the folder says that the library isn't proved, where it isn't."""
    with open(f"{folder}/{library.HEADER}", encoding="utf-8") as it:
        is_said = it.read().startswith(library.UNPROVED.split(":")[0])
    need(is_said == ("-proved-" not in os.path.basename(folder)), f"the header of {folder} says that it is the other of a proved and an unproved one")


def program(folder, room):
    says_what_it_is(folder)
    with open(f"{room}/program.c", "w", encoding="utf-8") as it:
        it.write(program_text())
    said = ran([compiled(f"{room}/program.c", folder, room)])
    need(said.endswith(f" {ADDRESS}\n"), f"the README's program says: {said}")


def calls(folder, room):
    for name, word, told in (("library_test", str(DATAGRAMS), r"^[1-9]\d* allocations refused"), ("library_signed", room, r"[1-9]\d* times no memory")):
        ran(["cc", "-O2", f"{TOP}/tools/compare/{name}.c", *library.flags(folder), "-Wl,--wrap=malloc,--wrap=realloc", "-o", f"{room}/{name}"])
        said = ran([f"{room}/{name}", word])
        need(re.search(told, said, re.M), f"no allocation was refused: {said}")


def front_c(folder, room):
    port = peers.free_port()
    asked_of(port, [compiled(SERVER, folder, room), str(port), f"{ORIGIN}={TOP}/{ZONE}"])


def front_py(path, room):
    port = peers.free_port()
    asked_of(port, peers.front(path, port, {ORIGIN: f"{TOP}/{ZONE}"}))


def signed(folder, room):
    if subprocess.run(["cc", "-E", "-"], input=f"#include <{OPENSSL}/evp.h>\n", text=True, capture_output=True).returncode:
        print(f"c_library: {SIGNED} isn't tried, since OpenSSL's headers aren't installed (libssl-dev)")
        return
    port = peers.free_port()
    ran(["cc", "-O2", "-Wall", "-Wextra", "-Werror", f"{TOP}/{SIGNED}", *library.flags(folder), "-lcrypto", "-o", f"{room}/signed"])
    with open(f"{room}/tsig", "w", encoding="utf-8") as it:
        it.write(f'key "{KEY}" {{ algorithm hmac-sha256; secret "c2VjcmV0IG9mIGEga2V5IHRoYXQgaXMgc2hhcmVkLi4="; }};\n')
    with open(f"{room}/anchors", "w", encoding="utf-8") as anchors:
        server = subprocess.Popen([f"{room}/signed", str(port), ORIGIN, f"{TOP}/{ZONE}", f"{room}/tsig", KEY], stdout=anchors)
    try:
        lines = list(frames.message_lines(answer_of(port, frames.query([ORIGIN, "DNSKEY", "edns=1232", "do"]))))
        need([sum(f" IN {it} \\#" in line for line in lines) for it in ("DNSKEY", "RRSIG")] == [2, 2], f"of its keys it says {lines}")
        asked = ["delv", "@127.0.0.1", "-p", str(port), "-a", f"{room}/anchors", f"+root={ORIGIN}"]
        if shutil.which("delv"):
            for name, told in (("www", VALIDATED), ("new", DENIED)):
                said = ran([*asked, f"{name}.{ORIGIN}", "A"])
                need(told in said, f"delv says of {name} {said}")
        if shutil.which("delv") and shutil.which("nsupdate"):
            ran(["nsupdate", "-k", f"{room}/tsig"], input=f"server 127.0.0.1 {port}\nzone {ORIGIN}\nupdate add new.{ORIGIN} 60 A {ADDRESS}\nupdate delete www.{ORIGIN}\nsend\n")
            for name, told in (("new", VALIDATED), ("www", DENIED)):
                said = ran([*asked, f"{name}.{ORIGIN}", "A"])
                need(told in said, f"after the update delv says of {name} {said}")
    finally:
        peers.end(server)


def answer_of(port, query):
    """The response to a query over UDP of a server that is being started."""
    ends = time.monotonic() + PATIENCE
    with socket.socket(socket.AF_INET, socket.SOCK_DGRAM) as it:
        it.connect(("127.0.0.1", port))
        it.settimeout(1)
        while time.monotonic() < ends:
            try:
                it.send(query)
                return it.recv(65535)
            except OSError:
                time.sleep(0.1)
    raise Wrong(f"nothing answers on port {port}")


def server(folder, room):
    flags = ["cc", "-std=gnu11", "-D_GNU_SOURCE", "-O2", "-Wall", "-Wextra", "-Werror", "-pthread"]
    for name, sources_of in (("ningkraetd", DAEMON), ("ningkraetctl", ["ningkraetctl.c"])):
        ran([*flags, *(f"{TOP}/server/{it}" for it in sources_of), *library.flags(folder), "-o", f"{room}/{name}"])
    port = peers.free_port()
    with open(f"{room}/conf", "w", encoding="utf-8") as it:
        it.write(f"listen 127.0.0.1 {port}\nzone {ORIGIN} {TOP}/{ZONE}\nworkers 2\ncontrol {room}/control\nlisten nowhere\n")
    tested = subprocess.run([f"{room}/ningkraetd", "-t", "-c", f"{room}/conf"], capture_output=True, text=True)
    need(tested.returncode != 0 and "conf:5: 'nowhere' isn't an IPv4 or IPv6 address" in tested.stderr, f"of a wrong configuration it says {tested}")
    ran(["sed", "-i", "$d", f"{room}/conf"])
    asked_of(port, [f"{room}/ningkraetd", "-c", f"{room}/conf"], lambda: zones_and_stop(room))


def zones_and_stop(room):
    """The zones that the running server says it has, and its end."""
    control = [f"{room}/ningkraetctl", "-s", f"{room}/control"]
    need(ran([*control, "zones"]).startswith(f"{ORIGIN.rstrip('.')}"), "ningkraetctl zones doesn't begin with the zone")
    ran([*control, "stop"])


def asked_of(port, words, at_last=lambda: None):
    """Starts a server, and asks it by either way."""
    server = peers.begun(words)
    try:
        with peers.connected(port) as stream:
            stream.settimeout(PATIENCE)
            by_tcp = peers.asked(stream, frames.query(QUERY))
        with socket.socket(socket.AF_INET, socket.SOCK_DGRAM) as it:
            it.settimeout(PATIENCE)
            it.connect(("127.0.0.1", port))
            it.send(frames.query(QUERY))
            by_udp = it.recv(65535)
        at_last()
    finally:
        peers.end(server)
    for way, message in (("TCP", by_tcp), ("UDP", by_udp)):
        lines = list(frames.message_lines(message))
        is_answer = "status: NOERROR, id: 4660" in lines[0] and " aa;" in lines[1] and lines[-1].startswith(f"{ORIGIN} 3600 IN SOA ")
        need(is_answer, f"by {way}: {lines}")


TRIES = {"program": program, "calls": calls, "front.c": front_c, "signed.c": signed, "front.py": front_py, "server": server}


def main(words):
    if len(words) != 2 or words[0] not in TRIES:
        print(__doc__, end="", file=sys.stderr)
        return 2
    try:
        with tempfile.TemporaryDirectory(prefix="library-") as room:
            need(os.path.exists(words[1]), f"there is no {words[1] or 'library or program'}")
            TRIES[words[0]](words[1], room)
    except (Wrong, OSError) as wrong:
        print(f"c_library: {words[0]}: {wrong}")
        return 1
    return 0


if __name__ == "__main__":
    sys.exit(main(sys.argv[1:]))
