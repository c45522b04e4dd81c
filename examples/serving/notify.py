#!/usr/bin/env python3
"""notify.py [--control PATH] [--every SECONDS] [--interval SECONDS] [--tries N] LIBRARY ORIGIN=ADDRESS[@PORT]..: tells secondaries by NOTIFY (RFC
1996) that a zone of ningkraetd has changed, so that they ask for it at once and not when their refresh timer runs out. LIBRARY is
libningkraet.so in the directory that `./build ningkraet` makes; it writes the messages and reads the responses.

Every second the serials of the zones are asked for at the server's control socket. A secondary of a zone with another serial than before, and
at the start each, gets a NOTIFY by UDP, at port 53 if no other is named, again every 60 seconds until it responds, six times at most (section
3.6). Its responses come from the address that was asked (section 4.8). A line on standard error says who has responded and who hasn't. Ctrl-C or
SIGTERM ends it."""
import argparse
import contextlib
import secrets
import select
import signal
import socket
import sys
import time
from ctypes import CDLL, byref, c_size_t, c_uint32, create_string_buffer

DONE, INTERFACE = 0, 1


class Secondary:
    """A secondary of a zone, and the NOTIFY that it hasn't responded to yet."""

    def __init__(self, word):
        origin, _, there = word.partition("=")
        address, _, port = there.partition("@")
        self.origin, self.name, self.sent, self.due = origin.rstrip(".").lower() or ".", word, 0, None
        try:
            family, _, _, _, self.peer = socket.getaddrinfo(address, int(port or 53), type=socket.SOCK_DGRAM, flags=socket.AI_NUMERICHOST)[0]
        except (OSError, ValueError, OverflowError) as error:
            raise argparse.ArgumentTypeError(f"{word} has no address that is one") from error
        self.stream = socket.socket(family, socket.SOCK_DGRAM)
        self.stream.connect(self.peer)

    def begin(self):
        self.id, self.sent, self.due = secrets.randbelow(1 << 16), 0, time.monotonic()

    def send(self, library, how):
        """Sends it once more, or gives up."""
        if self.sent == how.tries:
            say(self, "doesn't respond")
            self.due = None
            return
        room, written, origin = create_string_buffer(512), c_size_t(), self.origin.encode()
        code = library.nk_notify_write(c_uint32(self.id), origin, c_size_t(len(origin)), room, c_size_t(512), byref(written))
        if code != DONE:
            sys.exit(f"notify.py: {self.origin} isn't a domain name" if not self.sent else "notify.py: out of memory")
        with contextlib.suppress(OSError):   # (that nobody listens there may change)
            self.stream.send(room.raw[: written.value])
        self.sent, self.due = self.sent + 1, time.monotonic() + how.interval

    def receive(self, library):
        message, number, code = b"", c_uint32(), c_uint32()
        with contextlib.suppress(OSError):
            message = self.stream.recv(4096)
        is_response = library.nk_notify_read(message, c_size_t(len(message)), byref(number), byref(code)) == DONE
        if is_response and self.due is not None and number.value == self.id:
            say(self, f"responds with code {code.value}" if code.value else "knows")
            self.due = None


def say(secondary, what):
    print(f"notify.py: {secondary.name} {what}", file=sys.stderr, flush=True)


def serials(path):
    """The serials of the zones that the server has; none if it doesn't run."""
    text = b""
    try:
        with socket.socket(socket.AF_UNIX) as stream:
            stream.settimeout(2)
            stream.connect(path)
            stream.sendall(b"zones\n")
            while more := stream.recv(65536):
                text += more
    except OSError:   # (an answer that broke off could end within a serial)
        return {}
    return {words[0]: words[1] for words in map(str.split, text.decode(errors="replace").splitlines()[1:]) if words[1] != "-"}


def main():
    parser = argparse.ArgumentParser(usage=__doc__.partition(":")[0])
    parser.add_argument("--control", default="/run/ningkraetd/control")
    parser.add_argument("--every", type=float, default=1)
    parser.add_argument("--interval", type=float, default=60)
    parser.add_argument("--tries", type=int, default=6)
    parser.add_argument("library")
    parser.add_argument("secondaries", nargs="+", type=Secondary)
    how = parser.parse_args()
    library, known, looked = CDLL(how.library), {}, 0.0
    if library.nk_interface() != INTERFACE:
        sys.exit("notify.py: a library of another interface")
    signal.signal(signal.SIGTERM, signal.default_int_handler)
    while True:
        now = time.monotonic()
        if now >= looked + how.every:
            looked, there = now, serials(how.control)
            for it in how.secondaries:
                if it.origin in there and known.get(it.origin) != there[it.origin]:
                    it.begin()
            known.update(there)
        for it in how.secondaries:
            if it.due is not None and it.due <= now:
                it.send(library, how)
        ends = min([looked + how.every] + [it.due for it in how.secondaries if it.due is not None])
        for stream in select.select([it.stream for it in how.secondaries], [], [], max(0, ends - time.monotonic()))[0]:
            next(it for it in how.secondaries if it.stream is stream).receive(library)


if __name__ == "__main__":
    with contextlib.suppress(KeyboardInterrupt):
        main()
