#!/usr/bin/env python3
"""tools/compare/daemon_host.py [FOLDER]: tries what the server `server/` takes from the host that it runs on, and gives back to it: sockets that
a service manager opened, the address of a host with several, memory that runs out, the rights of root, a folder to stay in, folders of zones
that are put in one another's place, and files beside them that change all the time.

FOLDER is what `./build ningkraet` made; where none is named it is what `tools/build/program path ningkraet` gives. No part of the gate: it
needs cc, and opens sockets on loopback; what needs root, or a network of its own (unshare, ip), is left out where that can't be had, and a line
says so. It ends what it starts."""
import contextlib
import ctypes
import fcntl
import os
import pwd
import re
import resource
import signal
import socket
import struct
import sys
import tempfile
import threading
import time

sys.dont_write_bytecode = True
sys.path.append(os.path.dirname(os.path.dirname(os.path.realpath(__file__))))

import frames
import peers
from daemon_test import PATIENCE, ZONE, Server, address, ask, need

# Descriptors of sockets that are to be handed over stand behind those that a shell can name by one digit.
FROM = 20
# Numbers of unshare(2): a network, and users, of its own.
NEW_NETWORK, NEW_USERS = 0x40000000, 0x10000000
# Octets that a process may have beyond those that it has; connections that each want 64 kilobytes of it; and names of a zone that wants more.
SPARE, GREEDY, LARGE = 1 << 20, 300, 100_000


class LeftOut(Exception):
    pass


def opened(family, kind, host, is_alone=True):
    """A socket as systemd opens one and hands it over: one that waits (systemd.exec's NonBlocking=no)."""
    it = socket.socket(family, kind)
    if family == socket.AF_INET6:
        it.setsockopt(socket.IPPROTO_IPV6, socket.IPV6_V6ONLY, is_alone)
    it.setsockopt(socket.SOL_SOCKET, socket.SO_REUSEADDR, 1)
    it.bind(host)
    if kind == socket.SOCK_STREAM:
        it.listen(64)
    return it


def sockets_are_handed_over(room):
    with Server(room) as other:
        port = other.port
    places = [(socket.AF_INET, ("127.0.0.1", port)), (socket.AF_INET6, ("::1", port))]
    sockets = [opened(family, kind, host) for family, host in places for kind in (socket.SOCK_DGRAM, socket.SOCK_STREAM)]
    handed = [fcntl.fcntl(it, fcntl.F_DUPFD, FROM) for it in sockets]
    server = Server(room, hosts=(), workers=3)
    server.port = port
    with socket.socket(socket.AF_UNIX, socket.SOCK_DGRAM) as manager:
        manager.bind(f"{server.folder}/notify")
        manager.settimeout(PATIENCE)
        places = " ".join(f"{number}<&{it}" for number, it in enumerate(handed, 3))
        server.words = ["bash", "-c", f'exec env LISTEN_PID=$$ LISTEN_FDS={len(handed)} "$@" {places}', "-", *server.words]
        server.how = {"pass_fds": handed, "env": {**os.environ, "NOTIFY_SOCKET": f"{server.folder}/notify"}}
        with server:
            need(b"READY=1" in (manager.recv(100), manager.recv(100)), "it doesn't say that it is ready")
            for number in range(24):
                host = ("127.0.0.1", "::1")[number % 2]
                for stream in (server.udp(host), server.tcp(host)):
                    with stream:
                        need(address(stream) == ["192.0.2.80"], f"client {number} from {host}, {stream.type}")
        told = []
        with contextlib.suppress(TimeoutError):
            while told[-1:] != [b"STOPPING=1"]:
                told.append(manager.recv(100))
        need(told, "it doesn't say that it ends")
    for it in sockets:
        it.close()
    for it in handed:
        os.close(it)


def other_sockets_are_refused(room):
    for told, it in (("0 sockets for UDP and 1 for TCP", opened(socket.AF_INET, socket.SOCK_STREAM, ("127.0.0.1", 0))),
                     ("takes IPv4 too", opened(socket.AF_INET6, socket.SOCK_STREAM, ("::", 0), is_alone=False)),
                     ("neither UDP nor TCP", socket.socket(socket.AF_UNIX))):
        handed = fcntl.fcntl(it, fcntl.F_DUPFD, FROM)
        server = Server(room, hosts=())
        server.words = ["bash", "-c", f'exec env LISTEN_PID=$$ LISTEN_FDS=1 "$@" 3<&{handed}', "-", *server.words]
        server.how = {"pass_fds": [handed]}
        try:
            with server:
                raise AssertionError("it starts")
        except AssertionError as wrong:
            need(told in str(wrong), wrong)
        need(server.process.wait(PATIENCE) == 2, "its status")
        os.close(handed)
        it.close()


def asked_from_each_address(room):
    """In a network of its own, whose loopback has three addresses of each family: a response has to come from the one that was asked."""
    hosts = ["192.0.2.7", "192.0.2.8", "2001:db8::7", "2001:db8::8"]
    os.system("ip link set lo up")
    for host in hosts:
        os.system(f"ip addr add {host} dev lo")
    time.sleep(2)   # (an address of IPv6 is looked for on the link before it is used)
    with Server(room, hosts=("0.0.0.0", "::")) as server:
        for host in ["127.0.0.1", "::1", *hosts]:
            family = socket.AF_INET6 if ":" in host else socket.AF_INET
            with socket.socket(family, socket.SOCK_DGRAM) as it:
                it.settimeout(PATIENCE)
                it.sendto(frames.query(["www.example.com.", "A"]), (host, server.port))
                need(it.recvfrom(4096)[1][0] == host, f"another address answers than {host}")


def the_address_that_was_asked_answers(room):
    if (child := os.fork()) == 0:
        status = 3
        with contextlib.suppress(BaseException):
            if ctypes.CDLL(None).unshare(NEW_NETWORK | (0 if os.getuid() == 0 else NEW_USERS)) == 0:
                status = 1
                asked_from_each_address(room)
                status = 0
        os._exit(status)
    status = os.waitstatus_to_exitcode(os.waitpid(child, 0)[1])
    if status == 3:
        raise LeftOut("no network of its own can be had")
    need(status == 0, "a response came from another address, or none")


def figure(server, name):
    """Kilobytes that the system says of a process."""
    with open(f"/proc/{server.process.pid}/status", encoding="ascii") as it:
        return int(re.search(rf"{name}:\s+(\d+)", it.read())[1])


def memory_runs_out(room):
    """Where no more can be had, queries are dropped and connections closed, a zone that needs more leaves the old one, and all goes on."""
    with Server(room, "tcp-connections 2000", "tcp-client-connections 2000") as server:
        limit = lambda octets: resource.prlimit(server.process.pid, resource.RLIMIT_DATA, (octets, -1))
        limit(figure(server, "VmData") * 1024 + SPARE)
        streams = [server.tcp() for _ in range(GREEDY)]
        for it in streams:
            with contextlib.suppress(OSError):
                it.sendall(struct.pack("!H", 65535) + bytes(600))
        time.sleep(0.5)
        closed = 0
        for it in streams:
            it.settimeout(0.01)
            with contextlib.suppress(TimeoutError):
                try:
                    closed += it.recv(1) == b""
                except ConnectionError:
                    closed += 1
            it.close()
        need(closed > GREEDY // 2, f"{closed} of {GREEDY} connections were closed for want of memory")
        server.write("example.com", 2, more="".join(f"n{number} A 192.0.2.1\n" for number in range(LARGE)))
        need(server.control("reload")[0] == 1 and "memory" in server.control("zones")[1], server.control("zones")[1])
        with server.udp() as by_udp, server.tcp() as by_tcp:
            need(address(by_udp) == ["192.0.2.80"] and address(by_tcp) == ["192.0.2.80"], "an honest client")
        limit(-1)
        need(server.control("reload")[0] == 0, server.control("zones")[1])
        with server.udp() as stream:
            need(any(" 2 2 3 4 5" in it for it in ask(stream, "example.com.", "SOA")), "the new zone isn't served")


def status_of(server):
    with open(f"/proc/{server.process.pid}/status", encoding="ascii") as it:
        return dict(line.split(":", 1) for line in it)


def rights_are_given_up(room):
    if os.getuid():
        raise LeftOut("only root has rights to give up")
    os.chmod(room, 0o755)
    server = Server(room, "user nobody", "chroot {folder}")
    # (the paths of zones are those within the folder; the socket for commands is opened before)
    with open(f"{server.folder}/conf", encoding="ascii") as it:
        text = it.read()
    with open(f"{server.folder}/conf", "w", encoding="ascii") as it:
        it.write(text.replace(f"zones {server.folder}/zones", "zones /zones"))
    os.chmod(server.folder, 0o755)
    with server:
        user, told = pwd.getpwnam("nobody"), status_of(server)
        need(told["Uid"].split() == [str(user.pw_uid)] * 4 and told["Gid"].split() == [str(user.pw_gid)] * 4 and not told["Groups"].split(), told)
        need(int(told["CapEff"], 16) == int(told["CapPrm"], 16) == 0 and told["NoNewPrivs"].strip() == "1", told)
        need(os.path.realpath(f"/proc/{server.process.pid}/root") == server.folder, "it stays in no folder")
        server.write("example.com", 2, last=2)
        server.process.send_signal(signal.SIGHUP)
        ends, stands = time.monotonic() + PATIENCE, []
        while stands != ["192.0.2.2"] and time.monotonic() < ends:
            with server.udp() as stream:
                stands = address(stream)
        need(stands == ["192.0.2.2"], "what it serves once it has given them up")
        need(server.control("zones")[1] == "example.com 2 /zones/example.com.zone\n", server.control("zones"))


def await_address(server, wanted, what):
    ends, stands = time.monotonic() + PATIENCE, []
    while stands != [wanted] and time.monotonic() < ends:
        with server.udp() as stream:
            stands = address(stream)
        time.sleep(0.05)
    need(stands == [wanted], f"{what}: {stands}")


def changes_are_seen(room):
    """With no command and no signal: a folder in the place of another, changes beside one that never ends, and a zone that a command added."""
    with Server(room) as server:
        os.mkdir(f"{server.folder}/other")
        with open(f"{server.folder}/other/example.com.zone", "w", encoding="ascii") as it:
            it.write(ZONE.format(origin="example.com.", serial=2, last=2))
        os.rename(f"{server.folder}/zones", f"{server.folder}/old")
        os.rename(f"{server.folder}/other", f"{server.folder}/zones")
        await_address(server, "192.0.2.2", "a folder in the place of another")
        server.write("example.com", 3, last=3)
        await_address(server, "192.0.2.3", "a change in the new folder")
        over = threading.Event()

        def noise():
            while not over.wait(0.05):
                with open(f"{server.folder}/zones/noise", "w", encoding="ascii") as it:
                    it.write("x")

        beside = threading.Thread(target=noise)
        beside.start()
        try:
            time.sleep(0.5)
            server.write("example.com", 4, last=4)
            await_address(server, "192.0.2.4", "a change beside others without end")
        finally:
            over.set()
            beside.join()
        os.mkdir(f"{server.folder}/single")
        path = f"{server.folder}/single/zone"
        for serial in (5, 6):
            with open(f"{path}.new", "w", encoding="ascii") as it:
                it.write(ZONE.format(origin="example.net.", serial=serial, last=serial))
            os.rename(f"{path}.new", path)
            if serial == 5:
                time.sleep(1)   # (what was noticed before is over)
                need(server.control("add", "example.net", path)[0] == 0, "a zone by command")
        ends = time.monotonic() + PATIENCE
        while "example.net 6" not in server.control("zones")[1] and time.monotonic() < ends:
            time.sleep(0.05)
        need("example.net 6" in server.control("zones")[1], "a change of a zone that a command added")


TESTS = [sockets_are_handed_over, other_sockets_are_refused, the_address_that_was_asked_answers, memory_runs_out, rights_are_given_up,
         changes_are_seen]


def main(folder=None):
    folder, failed, left_out = folder or peers.program("ningkraet"), 0, 0
    with tempfile.TemporaryDirectory(prefix="daemon-") as room:
        peers.ningkraetd(folder, room, "-O2")
        for test in TESTS:
            try:
                test(room)
                print(f"{test.__name__}: ok", flush=True)
            except LeftOut as why:
                left_out += 1
                print(f"{test.__name__}: left out: {why}", flush=True)
            except (AssertionError, OSError) as wrong:
                failed += 1
                print(f"{test.__name__}: FAILED: {wrong}", flush=True)
    print(f"{len(TESTS) - failed - left_out} passed, {failed} failed, {left_out} left out")
    return 1 if failed else 0


if __name__ == "__main__":
    peers.called(main, __doc__, most=1)
