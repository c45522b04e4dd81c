#!/usr/bin/env python3
"""tools/compare/package_test.py [ROOT [PACKAGE]]: installs the Debian package of `tools/build/package` on a fresh system and uses it: its user,
files and manual pages, a zone that is checked and served to queries by UDP and TCP, its commands, a reload, an upgrade that keeps the
configuration, and what removing and purging leave. What systemd would refuse of its units is looked for as far as that needs no systemd that
runs: their words, and the system calls of the server beside those that they allow.

ROOT is a folder with a fresh system as `debootstrap --variant=minbase bookworm ROOT` makes it, and is copied; where none is named, that is made
first, from the system's own mirror. PACKAGE is a file; where none is named, the package is made. No part of the gate: it needs root, dpkg, and
for a new system debootstrap and the network; systemd-analyze, strace and groff where they are there. It opens sockets on loopback."""
import contextlib
import gzip
import os
import re
import shutil
import socket
import subprocess
import sys
import tempfile
import time

sys.dont_write_bytecode = True
sys.path.append(os.path.dirname(os.path.dirname(os.path.realpath(__file__))))

import frames
import peers
from peers import found
from sources import TOP

SUITE, PATIENCE = "bookworm", 5
ZONE = "$TTL 60\n@ SOA ns host {serial} 2 3 4 5\n@ NS ns\nns A 192.0.2.53\nwww A 192.0.2.{serial}\n"
CONF = "listen 127.0.0.1 {port}\nlisten ::1 {port}\nzones /etc/ningkraet/zones\ncontrol /run/ningkraetd/control\nuser ningkraet\nwatch off\n"


def need(holds, what):
    if not holds:
        raise AssertionError(what)


def ran(words, is_well=True, **how):
    """What a command writes."""
    done = subprocess.run(words, stdout=subprocess.PIPE, stderr=subprocess.STDOUT, text=True, errors="replace", **how)
    need((done.returncode == 0) == is_well, f"{' '.join(words)}: status {done.returncode}: {done.stdout.strip()[-2000:]}")
    return done.stdout


class System:
    """A fresh system in a folder."""

    def __init__(self, folder):
        self.folder = folder

    def run(self, *words, is_well=True):
        return ran(["chroot", self.folder, *words], is_well, env={"PATH": "/usr/sbin:/usr/bin:/sbin:/bin", "LC_ALL": "C"})

    def install(self, package):
        shutil.copyfile(package, f"{self.folder}/root/package.deb")
        return self.run("dpkg", "-i", "/root/package.deb")

    def has(self, path):
        return os.path.lexists(self.folder + path)

    def write(self, path, text):
        os.makedirs(os.path.dirname(self.folder + path), exist_ok=True)
        with open(f"{self.folder}{path}.new", "w", encoding="ascii") as it:
            it.write(text)
        os.rename(f"{self.folder}{path}.new", self.folder + path)


def by_udp(port, host="127.0.0.1"):
    with socket.socket(socket.AF_INET6 if ":" in host else socket.AF_INET, socket.SOCK_DGRAM) as it:
        it.settimeout(PATIENCE)
        it.connect((host, port))
        it.send(frames.query(["www.example.com.", "A"]))
        return address(it.recv(4096))


def by_tcp(port, host="127.0.0.1"):
    with socket.create_connection((host, port), PATIENCE) as it:
        return address(peers.asked(it, frames.query(["www.example.com.", "A"])))


def address(message):
    return [it.split()[-1] for it in frames.message_lines(message) if " IN A " in it][:1]


@contextlib.contextmanager
def served(system, *before):
    """The server of the package, in the system."""
    log = open(f"{system.folder}/root/log", "w+", encoding="utf-8")
    process = subprocess.Popen([*before, "chroot", system.folder, "/usr/sbin/ningkraetd"], stderr=log)
    try:
        ends = time.monotonic() + 20
        while time.monotonic() < ends:
            with open(log.name, encoding="utf-8") as it:
                if "serving " in (text := it.read()):
                    break
            need(process.poll() is None, f"it ended: {text}")
            time.sleep(0.05)
        yield process
        system.run("ningkraetctl", "stop")
        need(process.wait(10) == 0, "it doesn't end well")
    finally:
        if process.poll() is None:
            process.kill()
            process.wait()
        log.close()


def tried(system, package):
    """All that is tried, as pairs of what it is and a call."""
    port = peers.free_port()
    at_home = [it.split()[-1].lstrip(".").rstrip("/") for it in ran(["dpkg-deb", "-c", package]).splitlines()]

    def is_installed():
        system.install(package)
        need("ningkraet" in system.run("getent", "passwd", "ningkraet"), "it has no user")
        need(system.run("dpkg", "--verify", "ningkraet") == "", "files that differ from the package's")
        need(all(map(system.has, at_home)), "files that aren't there")

    def pages_are_right():
        pages = [it for it in at_home if "/man/man" in it and it.endswith(".gz")]
        programs = [os.path.basename(it) for it in at_home if re.search(r"/s?bin/.", it)]
        need(sorted(os.path.basename(it).split(".")[0] for it in pages) == sorted(programs), f"{programs} have the manual pages {pages}")
        for page in pages if found("groff") else []:
            with gzip.open(system.folder + page) as it:
                told = subprocess.run(["groff", "-ww", "-z", "-mandoc"], input=it.read(), capture_output=True)
            need(not told.stderr, f"{page}: {told.stderr.decode()}")

    def zones_are_checked():
        system.write("/etc/ningkraet/zones/example.com.zone", ZONE.format(serial=1))
        system.write("/etc/ningkraet/ningkraetd.conf", CONF.format(port=port))
        os.makedirs(f"{system.folder}/run/ningkraetd", exist_ok=True)
        need("4 records" in system.run("zone_check", "/etc/ningkraet/zones/example.com.zone", "example.com."), "zone_check")
        need(system.run("ningkraetd", "-t") == "1 zones, of which 0 have a file that is bad\n", "ningkraetd -t")

    def clients_are_answered():
        with served(system) as process:
            for host in ("127.0.0.1", "::1"):
                need(by_udp(port, host) == by_tcp(port, host) == ["192.0.2.1"], f"an answer from {host}")
            if found("dig"):
                told = ran(["dig", "@127.0.0.1", "-p", str(port), "+short", "www.example.com."])
                need(told == "192.0.2.1\n", f"dig says {told}")
            with open(f"/proc/{process.pid}/status", encoding="ascii") as it:
                user = re.search(r"Uid:\s+(\d+)", it.read())[1]
            need(user == system.run("id", "-u", "ningkraet").strip(), "it runs as another user")
            system.write("/etc/ningkraet/zones/example.com.zone", ZONE.format(serial=2))
            system.run("ningkraetctl", "reload")
            need(by_udp(port) == ["192.0.2.2"] and system.run("ningkraetctl", "zones").startswith("example.com 2 "), "a reload")
            system.write("/etc/ningkraet/zones/example.com.zone", ZONE.format(serial=3) + "@ garbage\n")
            system.run("ningkraetctl", "reload", is_well=False)
            need(by_udp(port) == ["192.0.2.2"] and "FAULT" in system.run("ningkraetctl", "zones"), "a bad file")
            need("ningkraetd_udp_queries_total " in system.run("ningkraetctl", "metrics"), "metrics")

    def calls_are_allowed():
        if not found("strace") or not found("systemd-analyze"):
            return "left out: strace or systemd-analyze isn't there"
        system.write("/etc/ningkraet/zones/example.com.zone", ZONE.format(serial=2))
        # (what the start itself does as root, systemd does in its place)
        system.write("/etc/ningkraet/ningkraetd.conf", CONF.format(port=port).replace("user ningkraet\n", ""))
        with served(system, "strace", "-f", "-qq", "-o", f"{system.folder}/root/calls"):
            need(by_udp(port) == by_tcp(port) == ["192.0.2.2"], "an answer under strace")
            system.run("ningkraetctl", "reload")
        system.write("/etc/ningkraet/ningkraetd.conf", CONF.format(port=port))
        allowed = set()

        def take(group):
            for word in ran(["systemd-analyze", "syscall-filter", group]).splitlines()[2:]:
                if (word := word.strip()).startswith("@"):
                    take(word)
                elif word and not word.startswith("#"):
                    allowed.add(word)

        take("@system-service")
        with open(f"{system.folder}/root/calls", encoding="utf-8", errors="replace") as it:
            # (those of chroot, before it becomes the server, aren't its)
            text = it.read().partition('execve("/usr/sbin/ningkraetd"')[2]
        beyond = set(re.findall(r"^\d+ +(\w+)\(", text, re.M)) - allowed
        need(not beyond, f"the unit doesn't allow {beyond}")
        return None

    def units_are_right():
        if not found("systemd-analyze"):
            return "left out: systemd-analyze isn't there"
        # (a fresh system of this kind has neither systemd and its targets, nor kill and man)
        units = [f"{system.folder}/usr/lib/systemd/system/ningkraetd.{it}" for it in ("service", "socket")]
        told = subprocess.run(["systemd-analyze", "verify", f"--root={system.folder}", *units], capture_output=True, text=True)
        faults = [it for it in told.stderr.splitlines() if "ningkraetd" in it and not re.search("not found|/bin/kill|'man ", it)]
        need(not faults, faults)
        return None

    def an_upgrade_keeps_the_configuration():
        system.install(package)
        with open(f"{system.folder}/etc/ningkraet/ningkraetd.conf", encoding="ascii") as it:
            need(it.read() == CONF.format(port=port), "the configuration is another")
        with served(system):
            need(by_udp(port) == ["192.0.2.2"], "an answer after an upgrade")

    def removing_leaves_what_is_the_operators():
        system.run("dpkg", "-r", "ningkraet")
        need(not system.has("/usr/sbin/ningkraetd") and system.has("/etc/ningkraet/ningkraetd.conf"), "what removing leaves")
        system.run("dpkg", "-P", "ningkraet")
        need(not system.has("/etc/ningkraet/ningkraetd.conf") and system.has("/etc/ningkraet/zones/example.com.zone"), "what purging leaves")

    return [is_installed, pages_are_right, zones_are_checked, clients_are_answered, calls_are_allowed, units_are_right, an_upgrade_keeps_the_configuration,
            removing_leaves_what_is_the_operators]


def main(root=None, package=None):
    if os.getuid() or not found("dpkg-deb") or not (root or found("debootstrap")):
        sys.exit("package_test: it needs root, dpkg-deb, and a fresh system or debootstrap")
    failed = 0
    with tempfile.TemporaryDirectory(prefix="package-") as room:
        package = package or ran([f"{TOP}/tools/build/package", room]).splitlines()[-1]
        if root:
            ran(["cp", "-a", root, f"{room}/system"])
        else:
            ran(["debootstrap", "--variant=minbase", SUITE, f"{room}/system"])
        tests = tried(System(f"{room}/system"), package)
        for test in tests:
            try:
                print(f"{test.__name__}: {test() or 'ok'}", flush=True)
            except (AssertionError, OSError) as wrong:
                failed += 1
                print(f"{test.__name__}: FAILED: {wrong}", flush=True)
    print(f"{len(tests) - failed} passed, {failed} failed")
    return 1 if failed else 0


if __name__ == "__main__":
    peers.called(main, __doc__)
