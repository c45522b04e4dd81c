"""Servers that run in a session of their own, so that what the system says of all processes of one can be summed up."""
import os
import signal
import socket
import subprocess
import time

import frames
import peers

# Seconds until a server of a large zone has to answer.
STARTS = 300


def asked(port, way, message, patience):
    """The response to a message."""
    with socket.socket(socket.AF_INET, socket.SOCK_DGRAM if way == "udp" else socket.SOCK_STREAM) as it:
        it.settimeout(patience)
        it.connect(("127.0.0.1", port))
        if way == "udp":
            it.send(message)
            return it.recv(65535)
        return peers.asked(it, message)


class Session:
    """A server that runs, on these processors if they are named. What it writes goes to a file, if one is named."""

    def __init__(self, name, words, port, processors=(), log=None):
        self.name, self.port = name, port
        pin = (lambda: os.sched_setaffinity(0, processors)) if processors else None
        self.process = subprocess.Popen(words, stdout=subprocess.DEVNULL, stderr=log or subprocess.DEVNULL, start_new_session=True, preexec_fn=pin)

    def stats(self):
        """What the system says of each of its processes, behind the name in proc(5)'s stat."""
        for pid in (it for it in os.listdir("/proc") if it.isdigit()):
            try:
                with open(f"/proc/{pid}/stat", encoding="ascii", errors="replace") as it:
                    words = it.read().rpartition(")")[2].split()
            except OSError:
                continue
            if int(words[3]) == self.process.pid:
                yield words

    def kilobytes(self):
        return sum(int(it[21]) for it in self.stats()) * os.sysconf("SC_PAGESIZE") // 1024

    def seconds(self):
        """Seconds of a processor, in the program and in the system."""
        return [sum(int(it[at]) for it in self.stats()) / os.sysconf("SC_CLK_TCK") for at in (11, 12)]

    def wait(self, origin="example."):
        """Waits until it answers for a zone."""
        ends = time.monotonic() + STARTS
        while self.process.poll() is None and time.monotonic() < ends:
            try:
                if (asked(self.port, "udp", frames.query([origin, "SOA"]), 0.2)[3] & 15) == 0:
                    return
            except OSError:
                time.sleep(0.2)
        raise SystemExit(f"{self.name} doesn't answer")

    def signal(self, number):
        os.killpg(self.process.pid, number)

    def end(self):
        """Ends it, and gives its status."""
        self.signal(signal.SIGTERM)
        try:
            return self.process.wait(20)
        except subprocess.TimeoutExpired:
            self.signal(signal.SIGKILL)
            return self.process.wait()
