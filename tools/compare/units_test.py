#!/usr/bin/env python3
"""tools/compare/units_test.py ROOT FOLDER: boots a system with systemd in a container, and tries the units of the server there: readiness, rights and
filter of system calls, queries by UDP and TCP, a reload, an end, and a start by sockets that systemd opened, upon the first query by TCP.

ROOT is a system with systemd, as `debootstrap --variant=minbase --include=systemd,systemd-sysv,procps bookworm ROOT` makes it; it is copied. FOLDER
is what `./build ningkraet` or `tools/build/program path ningkraet` made. No part of the gate: it needs root, systemd-nspawn, cc and make."""
import os
import subprocess
import sys
import tempfile

sys.dont_write_bytecode = True
sys.path.append(os.path.dirname(os.path.dirname(os.path.realpath(__file__))))

import library
import peers
from sources import TOP

# Seconds that all of it may take.
PATIENCE = 180
ZONE = "$TTL 60\n@ SOA ns host 1 2 3 4 5\n@ NS ns\nns A 192.0.2.53\nwww A 192.0.2.80\n"
UNIT = "[Unit]\nAfter=multi-user.target\n[Service]\nExecStart=/root/tried\n"
# What runs in the container: a line for each thing that is as it should be. The last four octets of an answer are the address.
TRIED = r"""#!/bin/bash
exec > /root/told 2>&1
query='\0\1\1\0\0\1\0\0\0\0\0\0\3www\7example\3com\0\0\1\0\1'
ask() {
    exec 3<> /dev/$1/127.0.0.1/53
    printf "${2}$query" >&3
    timeout 5 dd bs=600 count=1 <&3 2> /dev/null | tail -c 4 | od -An -tx1
    exec 3>&-
}
is() { [ "$2" = "$3" ] && echo "ok $1" || echo "FAILED $1: $2"; }
is 'it is ready' "$(systemctl is-active ningkraetd)" active
status=/proc/$(systemctl show -P MainPID ningkraetd)/status
is 'its user' "$(awk '/^Uid/ { print $2 }' $status)" "$(id -u ningkraet)"
is 'its one right: ports below 1024' "$(awk '/^CapEff|^CapBnd/ { print $2 }' $status | uniq)" 0000000000000400
is 'it gets no more rights' "$(awk '/^NoNewPrivs/ { print $2 }' $status)" 1
is 'its system calls are filtered' "$(awk '/^Seccomp:/ { print $2 }' $status)" 2
is 'UDP' "$(ask udp)" ' c0 00 02 50'
is 'TCP' "$(ask tcp '\0\x21')" ' c0 00 02 50'
sed -i 's/host 1/host 2/' /etc/ningkraet/zones/example.com.zone
systemctl reload ningkraetd
sleep 2
is 'a reload' "$(ningkraetctl zones)" 'example.com 2 /etc/ningkraet/zones/example.com.zone'
systemctl stop ningkraetd
is 'its end' "$(systemctl show -P Result ningkraetd)" success
sed -i '/^listen/d' /etc/ningkraet/ningkraetd.conf
systemctl start ningkraetd.socket
is 'sockets alone' "$(systemctl is-active ningkraetd)" inactive
for way in "tcp \\0\\x21" udp "tcp \\0\\x21" "tcp \\0\\x21"; do is "by systemd's sockets" "$(ask $way)" ' c0 00 02 50'; done
is 'a query starts it' "$(systemctl is-active ningkraetd)" active
echo over
poweroff
"""


def write(path, text, mode=0o644):
    with open(path, "w", encoding="ascii") as it:
        it.write(text)
    os.chmod(path, mode)


def main(root, folder):
    with tempfile.TemporaryDirectory(prefix="units-") as room:
        system = f"{room}/system"
        subprocess.run(["cp", "-a", root, system], check=True)
        words = [f"OUT={room}/made", f"LIBRARY={' '.join(library.flags(folder))}", f"DESTDIR={system}", "PREFIX=/usr"]
        subprocess.run(["make", "-s", "-C", f"{TOP}/server", "install", *words], check=True)
        subprocess.run(["chroot", system, "systemd-sysusers", "ningkraetd.conf"], check=True, stderr=subprocess.DEVNULL)
        write(f"{system}/etc/ningkraet/zones/example.com.zone", ZONE)
        write(f"{system}/root/tried", TRIED, 0o755)
        write(f"{system}/etc/systemd/system/tried.service", UNIT)
        wants = f"{system}/etc/systemd/system/multi-user.target.wants"
        os.makedirs(wants, exist_ok=True)
        os.symlink("/etc/systemd/system/tried.service", f"{wants}/tried.service")
        os.symlink("/usr/lib/systemd/system/ningkraetd.service", f"{wants}/ningkraetd.service")
        words = ["systemd-nspawn", "-q", "-D", system, "--boot", "--private-network", "--register=no", "--keep-unit", "--console=pipe"]
        subprocess.run(words, stdin=subprocess.DEVNULL, stdout=subprocess.DEVNULL, stderr=subprocess.DEVNULL, timeout=PATIENCE)
        with open(f"{system}/root/told", encoding="utf-8") as it:
            told = it.read()
    print(told, end="")
    return 0 if "\nover\n" in told and "FAILED" not in told else 1


if __name__ == "__main__":
    if len(sys.argv) != 3:
        sys.exit(__doc__)
    peers.called(main, __doc__)
