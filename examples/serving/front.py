#!/usr/bin/env python3
"""front.py PORT PROGRAM WORD..: answers DNS over UDP and TCP on 127.0.0.1 and ::1, with a program that answers frames.

The program is started once, as `zoned --limits ZONE..`. Each query goes to its standard input, preceded by two octets that say how long
the response may be (65535 if it came over TCP) and two octets of length, with an identifier of the front end's own; responses come from
its standard output, preceded by two octets of length. The front end reads only the first three octets of a message's header. Over TCP
a query may have several answers, for example a whole zone; so a header alone is sent after each query, and once that is answered, all
answers have come.

The program answers in order, so a datagram waits for everything that is queued before it. So at most TURNS queries from TCP are queued at
a time, and connections take turns in the order in which they ask. Nobody waits for a client to read.
"""
import asyncio
import contextlib
import signal
import struct
import sys

# Octets: what a datagram on loopback may have, though the program sends fewer where the client takes fewer; and by TCP.
DATAGRAM, STREAM = 4096, 65535
# How many queries may wait for the program; where more come by UDP they are dropped, as a network drops them.
WAITING = 32768
# How many queries by TCP may wait for the program at a time, over all connections.
TURNS = 2
# Seconds: how long a TCP client may ask nothing (RFC 7766 section 6.2.3), and how long it may take to read what it asked for.
IDLE, READS = 10, 60
# Octets that a TCP client may leave unread: as many as a large zone has.
UNREAD = 1 << 28


class Program:
    """The program, and who waits for which of its responses."""

    def __init__(self):
        self.waiting, self.last, self.turns = {}, 0, asyncio.Semaphore(TURNS)

    async def start(self, words):
        pipe = asyncio.subprocess.PIPE
        # (a session of its own: Ctrl-C ends the front, and the end of its input then ends the program)
        self.process = await asyncio.create_subprocess_exec(*words, stdin=pipe, stdout=pipe, start_new_session=True)

    def ask(self, message, limit, give, end=None):
        """Hands a message on, if it is answered: what has no header, or is a response, isn't. `end` is called behind several answers."""
        if len(message) < 12 or message[2] & 0x80 or len(self.waiting) + bool(end) >= WAITING:
            return False
        number = self.last = next(it % 65536 for it in range(self.last + 1, self.last + 65537) if it % 65536 not in self.waiting)
        self.waiting[number] = (message[:2], give, end)
        self.process.stdin.write(struct.pack("!HHH", limit, len(message), number) + message[2:])
        return not end or self.ask(bytes(12), limit, lambda _: end(self.waiting.pop(number)))

    async def read(self):
        """Gives each response to its client, until the program ends."""
        with contextlib.suppress(asyncio.IncompleteReadError):
            while True:
                (length,) = struct.unpack("!H", await self.process.stdout.readexactly(2))
                response = await self.process.stdout.readexactly(length)
                (number,) = struct.unpack_from("!H", response)
                own, give, end = self.waiting[number]
                if not end:
                    del self.waiting[number]
                give(own + response[2:])
        return await self.process.wait()

    async def end(self):
        self.process.stdin.close()
        await self.process.wait()


class Datagrams(asyncio.DatagramProtocol):
    def __init__(self, program):
        self.program = program

    def connection_made(self, transport):
        self.transport = transport

    def datagram_received(self, message, client):
        self.program.ask(message, DATAGRAM, lambda response: self.transport.sendto(response, client))


class Connection:
    """A TCP connection, over which several queries may come before the first response (RFC 7766 section 6.2.1.1)."""

    def __init__(self, program, reader, writer):
        self.program, self.reader, self.writer, self.open, self.answered = program, reader, writer, 0, asyncio.Event()
        writer.transport.set_write_buffer_limits(0)

    def give(self, response):
        if not self.writer.is_closing():
            self.writer.write(struct.pack("!H", len(response)) + response)
        if self.writer.transport.get_write_buffer_size() > UNREAD:
            self.writer.transport.abort()

    async def ask(self, message):
        await self.program.turns.acquire()
        is_asked = self.program.ask(message, STREAM, self.give, self.end)
        self.open += is_asked
        if not is_asked:
            self.program.turns.release()
        return is_asked

    def end(self, _):
        self.program.turns.release()
        self.open -= 1
        self.answered.set()

    async def message(self):
        (length,) = struct.unpack("!H", await self.reader.readexactly(2))
        return await self.reader.readexactly(length)

    async def serve(self):
        with contextlib.suppress(asyncio.IncompleteReadError, asyncio.TimeoutError, ConnectionError):
            while await self.ask(await asyncio.wait_for(self.message(), IDLE)):
                await asyncio.wait_for(self.writer.drain(), READS)
        # What was asked before the client closed its half is still answered (RFC 7766 section 6.2.4).
        while self.open:
            self.answered.clear()
            await self.answered.wait()
        with contextlib.suppress(asyncio.TimeoutError, ConnectionError):
            await asyncio.wait_for(self.writer.drain(), READS)
        self.writer.transport.abort()


async def main(port, words):
    program, loop, stop = Program(), asyncio.get_running_loop(), asyncio.Event()
    for number in (signal.SIGINT, signal.SIGTERM):
        loop.add_signal_handler(number, stop.set)
    await program.start(words)
    listening = []
    for host in ("127.0.0.1", "::1"):
        try:
            await asyncio.start_server(lambda *streams: Connection(program, *streams).serve(), host, port)
            await loop.create_datagram_endpoint(lambda: Datagrams(program), (host, port))
            listening.append(host)
        except OSError as error:
            print(f"front.py: {host} port {port}: {error.strerror}", file=sys.stderr)
    reading, stopped = loop.create_task(program.read()), loop.create_task(stop.wait())
    if listening:
        print(f"front.py: listening on {' and '.join(listening)}, port {port}, UDP and TCP", file=sys.stderr, flush=True)
        await asyncio.wait((reading, stopped), return_when=asyncio.FIRST_COMPLETED)
    if reading.done():
        print(f"front.py: {words[0]} ended with the status {reading.result()}", file=sys.stderr)
    else:
        await program.end()
    return 0 if stopped.done() else 1


if __name__ == "__main__":
    if len(sys.argv) < 3 or not sys.argv[1].isdecimal() or int(sys.argv[1]) > 65535:
        sys.exit(__doc__)
    sys.exit(asyncio.run(main(int(sys.argv[1]), sys.argv[2:])))
