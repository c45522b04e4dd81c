#!/usr/bin/env python3
"""secondary.py PROGRAM ORIGIN PRIMARY PORT FILE [--keys FILE] [--notify PORT] [--then COMMAND]: keeps FILE a copy of a zone of a primary.

PROGRAM is secondaryd, which says what to ask and when, and checks what comes; here are the sockets, the clock and the files. PRIMARY is the
address of the primary server. Questions go out over TCP. A new version of the zone is written beside FILE, which it then replaces, and COMMAND
is run, for example `ningkraetctl reload`; FILE.confirmed has the moment at which the zone was the primary's for the last time. When the zone
expires, FILE.expired comes beside FILE, by which ningkraetd answers SERVFAIL for it, and COMMAND is run too; it goes once there is the next copy.
With --notify, NOTIFY messages are taken on that port, by UDP and TCP, from the primary's address alone.
"""
import argparse
import contextlib
import os
import secrets
import select
import socket
import struct
import subprocess
import sys
import time

# Seconds: for a connection, for each message of an answer, and until the program is told at the latest that time passed.
CONNECTS, ANSWERS, TELLS = 10, 30, 30


def log(line):
    print(f"secondary: {line}", file=sys.stderr, flush=True)


class Program:
    """The program that leads the secondary."""

    def __init__(self, words):
        self.process = subprocess.Popen(words, stdin=subprocess.PIPE, stdout=subprocess.PIPE)

    def tell(self, kind, moment, octets):
        """Tells what happened, and when: what is to be done, and from when on a question is due. Ends with the program."""
        try:
            self.process.stdin.write(kind + struct.pack("!QI", moment, len(octets)) + octets)
            self.process.stdin.flush()
        except BrokenPipeError:
            sys.exit(self.process.wait() or 1)
        done = []
        while len(head := self.process.stdout.read(5)) == 5:
            answer = self.process.stdout.read(struct.unpack("!I", head[1:])[0])
            if head[:1] == b"d":
                return done, struct.unpack("!Q", answer)[0]
            done.append((head[:1], answer))
        sys.exit(self.process.wait() or 1)


class Copy:
    """The file that is a copy of the zone, and the one beside it that says that the zone has expired."""

    def __init__(self, path, command):
        self.path, self.expired, self.command = path, f"{path}.expired", command

    def confirmed(self):
        """The moment at which the zone was the primary's for the last time; none where there is no copy, or it has expired."""
        try:
            with open(f"{self.path}.confirmed", encoding="ascii") as file:
                return int(file.read()) if os.path.exists(self.path) and not os.path.exists(self.expired) else None
        except (OSError, ValueError):
            return None

    def put(self, path, octets):
        with open(f"{path}.new", "wb") as file:
            file.write(octets)
            file.flush()
            os.fsync(file.fileno())
        os.rename(f"{path}.new", path)

    def confirm(self, moment):
        self.put(f"{self.path}.confirmed", b"%d" % moment)

    def take(self, text, moment):
        self.put(self.path, text)
        self.confirm(moment)
        with contextlib.suppress(FileNotFoundError):
            os.remove(self.expired)
        self.run()

    def expire(self):
        self.put(self.expired, b"")
        self.run()

    def run(self):
        if self.command:
            subprocess.run(self.command, shell=True, check=False)


def read(stream, count, until):
    """So many octets of a connection, up to a moment of the monotonic clock; fewer at its end."""
    octets = b""
    while len(octets) < count:
        stream.settimeout(max(until - time.monotonic(), 0.001))
        if not (more := stream.recv(count - len(octets))):
            break
        octets += more
    return octets


def messages(stream):
    """The messages of an answer. Each comes whole within its time, so that a slow primary can't hide that the zone expires."""
    while True:
        until = time.monotonic() + ANSWERS
        head = read(stream, 2, until)
        if len(head) < 2:
            return
        message = read(stream, length := struct.unpack("!H", head)[0], until)
        if len(message) < length:
            return
        yield message


class Secondary:
    def __init__(self, program, copy, primary):
        self.program, self.copy, self.primary, self.due = program, copy, primary, 0

    def tell(self, kind, octets=b""):
        """Tells what happened and does what is to be done. Gives what is left: the question that goes out, the response to a NOTIFY, and whether
        the answer is over, by their kinds."""
        moment = int(time.time())
        done, self.due = self.program.tell(kind, moment, octets)
        left = {}
        for what, answer in done:
            if what == b"z":
                self.copy.take(answer, moment)
            elif what == b"k":
                self.copy.confirm(moment)
            elif what == b"x":
                log("the zone has expired")
                self.copy.expire()
            elif what == b"l":
                log(answer.decode())
            else:
                left[what] = answer
        return left

    def ask(self):
        """Asks what is due, and takes the answer."""
        query = self.tell(b"a", secrets.token_bytes(2)).get(b"q")
        if query is None:
            return
        try:
            with socket.create_connection(self.primary, CONNECTS) as stream:
                stream.sendall(struct.pack("!H", len(query)) + query)
                for message in messages(stream):
                    if b"e" in self.tell(b"m", message):
                        return
            log("the connection ended before the answer")
        except OSError as error:
            log(error)
        self.tell(b"f")

    def run(self, listeners):
        while True:
            if time.time() >= self.due:
                self.ask()
            wait = min(max(self.due - time.time(), 0.1), TELLS)
            ready, _, _ = select.select(listeners, [], [], wait)
            for listener in ready:
                try:
                    self.take_notify(listener)
                except OSError as error:
                    log(error)
            self.tell(b"t")   # (also where messages never end to come: the zone expires nevertheless)

    def take_notify(self, listener):
        """Takes what comes from the primary's address, and answers it if it is a NOTIFY for the zone."""
        if listener.type == socket.SOCK_DGRAM:
            message, sender = listener.recvfrom(65535)
            if sender[0] == self.primary[0] and (response := self.tell(b"n", message).get(b"r")):
                listener.sendto(response, sender)
            return
        stream, sender = listener.accept()
        with stream:
            if sender[0] == self.primary[0] and (message := next(messages(stream), None)) and (response := self.tell(b"n", message).get(b"r")):
                stream.sendall(struct.pack("!H", len(response)) + response)


def listening(primary, port):
    """The sockets for the NOTIFY messages of a primary at an address."""
    here = ("::" if ":" in primary else "0.0.0.0", port)
    family = socket.AF_INET6 if ":" in primary else socket.AF_INET
    datagrams = socket.socket(family, socket.SOCK_DGRAM)
    datagrams.bind(here)
    return [datagrams, socket.create_server(here, family=family)]


def main():
    words = argparse.ArgumentParser(description=__doc__, formatter_class=argparse.RawDescriptionHelpFormatter)
    for word in ("program", "origin", "primary", "port", "file"):
        words.add_argument(word)
    words.add_argument("--keys")
    words.add_argument("--notify", type=int)
    words.add_argument("--then")
    given = words.parse_args()
    copy = Copy(given.file, given.then)
    command = [given.program, given.origin] + (["--keys", given.keys] if given.keys else [])
    if (confirmed := copy.confirmed()) is not None:
        command += ["--zone", given.file, str(confirmed)]
    listeners = listening(given.primary, given.notify) if given.notify is not None else []
    Secondary(Program(command), copy, (given.primary, int(given.port))).run(listeners)


if __name__ == "__main__":
    try:
        main()
    except KeyboardInterrupt:
        pass
