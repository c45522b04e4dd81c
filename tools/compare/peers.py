"""What runs beside zoned and is asked the same: where a tool or a program is, how NSD, Knot DNS, BIND, ningkraetd and the front end of
zoned are started, and how one of them is queried over TCP."""
import os
import shutil
import socket
import struct
import subprocess
import sys
import time

import frames
import library
from sources import TOP

NSD = """server:
 username: ""
 zonesdir: "{folder}"
 database: ""
 pidfile: ""
 zonelistfile: "{folder}/list"
 xfrdfile: "{folder}/xfrd"
 xfrdir: "{folder}"
 port: {port}
 ip-address: 127.0.0.1
 rrl-ratelimit: 0
remote-control:
 control-enable: no
"""

KNOT = """server:
 listen: 127.0.0.1@{port}
 rundir: "{folder}"
 pidfile: "{folder}/pid"
database:
 storage: "{folder}"
log:
 - target: "{folder}/log"
   any: error
"""

BIND = """options {{
 directory "{folder}";
 listen-on port {port} {{ 127.0.0.1; }};
 listen-on-v6 {{ none; }};
 recursion no;
 pid-file none;
 session-keyfile "{folder}/key";
 notify no;
 check-names primary ignore;
 minimal-responses no;
}};
controls {{ }};
"""

# How each server is started, and what its configuration says of itself, before its zones, and of each zone.
SERVERS = {
    "nsd": (["-d", "-c"], NSD, "", 'zone:\n name: "{origin}"\n zonefile: "{path}"\n'),
    "knotd": (["-c"], KNOT, "zone:\n", ' - domain: "{origin}"\n   file: "{path}"\n   zonefile-load: whole\n   semantic-checks: off\n'),
    "named": (["-g", "-c"], BIND, "", 'zone "{origin}" {{ type primary; file "{path}"; check-integrity no; }};\n'),
}

# Seconds in which a server has to listen.
LISTENS = 10


def called(main, usage, most=2):
    """Calls main with the words of the command, at most so many, and ends with its status."""
    sys.exit(usage if len(sys.argv) > 1 + most else main(*sys.argv[1:]))


# ---- what is there


def found(tool):
    """Where a tool is, in the folders of the system's own tools too."""
    return shutil.which(tool, path=f"{os.environ.get('PATH', '')}:/usr/sbin:/sbin")


def program(name):
    """The path of a program, or of the folder of a library; where there is none, tools/build/program has said why, and all ends."""
    made = subprocess.run([f"{TOP}/tools/build/program", "path", name], stdout=subprocess.PIPE, text=True)
    if made.returncode:
        sys.exit(made.returncode)
    return made.stdout.strip()


# ---- how it is started


def free_port():
    with socket.socket() as it:
        it.bind(("127.0.0.1", 0))
        return it.getsockname()[1]


def zones_text(server, files):
    """What a server's configuration says of zones as their primary, by their origins and files."""
    _, _, head, form = SERVERS[server]
    return head + "".join(form.format(origin=origin, path=path) for origin, path in files.items())


def configured(server, folder, port, zones, turned=lambda text: text):
    """The words that start a server whose configuration stands in a new folder: what it says of itself, turned, and this of its zones."""
    flags, form, _, _ = SERVERS[server]
    os.mkdir(folder)
    with open(f"{folder}/conf", "w", encoding="ascii") as it:
        it.write(turned(form).format(folder=folder, port=port) + zones)
    return [found(server), *flags, f"{folder}/conf"]


def begun(words, stderr=subprocess.DEVNULL):
    """A process that says nothing here."""
    return subprocess.Popen(words, stdout=subprocess.DEVNULL, stderr=stderr)


def front(zoned, port, files, *flags):
    """The words that start zoned behind front.py."""
    zones = [f"{origin}={path}" for origin, path in files.items()]
    return [sys.executable, f"{TOP}/examples/serving/front.py", str(port), zoned, "--limits", *flags, *zones]


def ningkraetd(folder, room, *flags):
    """Compiles ningkraetd, and ningkraetctl, over the library of a folder, with flags for the compiler, and gives the path of the first."""
    words = ["cc", "-std=gnu11", "-D_GNU_SOURCE", "-g", "-Wall", "-Wextra", "-Werror", "-pthread", *flags]
    here = sorted(it for it in os.listdir(f"{TOP}/server") if it.endswith(".c") and it != "ningkraetctl.c")
    subprocess.run([*words, *(f"{TOP}/server/{it}" for it in here), *library.flags(folder), "-o", f"{room}/ningkraetd"], check=True)
    subprocess.run([*words, f"{TOP}/server/ningkraetctl.c", "-o", f"{room}/ningkraetctl"], check=True)
    return f"{room}/ningkraetd"


def daemon(path, port, files, *lines):
    """The words that start ningkraetd with one worker, by a configuration that stands beside it; `lines` are more of that."""
    zones = [f'zone {origin} "{file}"' for origin, file in files.items()]
    with open(f"{path}.conf", "w", encoding="utf-8") as it:
        it.write("\n".join(["workers 1", f"listen 127.0.0.1 {port}", *zones, *lines, ""]))
    return [path, "-c", f"{path}.conf"]


def end(*processes):
    """Ends what was begun."""
    for process in processes:
        process.terminate()
        process.wait()


# ---- how it is asked


def connected(port):
    """A connection to a server that begins to listen."""
    for _ in range(10 * LISTENS):
        try:
            return socket.create_connection(("127.0.0.1", port))
        except ConnectionRefusedError:
            time.sleep(0.1)
    sys.exit(f"peers: nothing listens on port {port}")


def framed(message):
    """A message behind its length (RFC 1035 section 4.2.2)."""
    return struct.pack("!H", len(message)) + message


def received(read):
    """The message that stands behind its length."""
    (length,) = struct.unpack("!H", read(2))
    return read(length)


def asked(stream, message):
    """The message that a server answers over a connection."""
    stream.sendall(framed(message))
    return received(stream.makefile("rb").read)


def await_zones(stream, origins):
    """Waits until a server that listens has its zones: BIND listens before it has read them."""
    ends = time.monotonic() + LISTENS
    for origin in origins:
        while time.monotonic() < ends and asked(stream, frames.query([origin, "SOA"]))[3] & 15:
            time.sleep(0.1)
