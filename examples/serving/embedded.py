#!/usr/bin/env python3
"""embedded.py LIBRARY PORT ORIGIN=FILE..: answers DNS over UDP and TCP on 127.0.0.1 with the library ningkraet, for trying it out: one TCP
client after the other. LIBRARY is libningkraet.so in the directory that `./build ningkraet` makes."""
import contextlib
import pathlib
import socketserver
import struct
import sys
import threading
import time
from ctypes import CDLL, byref, c_size_t, c_uint32, c_uint64, c_void_p, create_string_buffer

DONE, INTERFACE, UDP, TCP = 0, 1, 0, 1


class Zones:
    def __init__(self):
        self.kept, self.room, self.written = c_void_p(), create_string_buffer(65535), c_size_t()

    def call(self, name, *words):
        """The code of a call, and what it wrote. Octets are handed on as a pointer and a length."""
        words = [it for word in words for it in ((word, c_size_t(len(word))) if isinstance(word, bytes) else (word,))]
        code = LIBRARY[name](byref(self.kept), *words, self.room, c_size_t(65535), byref(self.written))
        return code, self.room.raw[: self.written.value]

    def load(self, origin, path):
        code, told = self.call("nk_zones_load", origin.encode(), pathlib.Path(path).read_bytes())
        if code != DONE:
            sys.exit(f"embedded.py: {origin} isn't loaded: {code}: {told.decode()}")

    def answer(self, query, transport):
        return self.call("nk_zones_answer", c_uint64(int(time.time())), query, c_size_t(1232), c_uint32(transport))[1]


class Datagram(socketserver.BaseRequestHandler):
    def handle(self):
        if response := ZONES[UDP].answer(self.request[0], UDP):
            self.request[1].sendto(response, self.client_address)


class Stream(socketserver.StreamRequestHandler):
    timeout = 2

    def handle(self):
        with contextlib.suppress(OSError):
            while len(length := self.rfile.read(2)) == 2:
                if response := ZONES[TCP].answer(self.rfile.read(*struct.unpack("!H", length)), TCP):
                    self.wfile.write(struct.pack("!H", len(response)) + response)


class Streams(socketserver.TCPServer):
    # (it can be started again while connections of the last run are still being forgotten)
    allow_reuse_address = True


if __name__ == "__main__":
    LIBRARY, here = CDLL(sys.argv[1]), ("127.0.0.1", int(sys.argv[2]))
    ZONES = [Zones(), Zones()]
    if LIBRARY.nk_interface() != INTERFACE or LIBRARY.nk_zones_new(byref(ZONES[UDP].kept)) != DONE:
        sys.exit("embedded.py: no memory, or a library of another interface")
    for word in sys.argv[3:]:
        ZONES[UDP].load(*word.split("=", 1))
    if LIBRARY.nk_zones_copy(byref(ZONES[UDP].kept), byref(ZONES[TCP].kept)) == DONE:
        threading.Thread(target=Streams(here, Stream).serve_forever, daemon=True).start()
        socketserver.UDPServer(here, Datagram).serve_forever()
