#!/usr/bin/env python3
"""tools/compare/journals.py [SEED [ROUNDS [FOLDER]]]: a process with the C library carries out random updates of a zone (RFC 2136) by nk_update_begin
and nk_update_commit, with the zone's journal in a file, and is killed (SIGKILL) every few updates, while one is on its way. The next process replays
the journal, and has the zone of all updates that were answered, or of these and the last one. A library without a journal has the zones that are
compared with. Not part of the gate. FOLDER is as for updates.py. The status is 1 if an update is lost that was answered, or one is half there.
"""
import os
import random
import struct
import subprocess
import sys
import tempfile
import time
from ctypes import byref, c_size_t, c_void_p, create_string_buffer

sys.dont_write_bytecode = True
sys.path.append(os.path.dirname(os.path.dirname(os.path.realpath(__file__))))

import peers
from keyed_transfers import KEY, OTHER, signed
from updates import AXFR, ORIGIN, Held, pair, query, random_update, records_in, zone_of

# How many octets a frame has at most here, by far, and how many updates a process is sent at most.
FRAME, MOST = 1 << 20, 12


class Journaled(Held):
    """The zone in the library, whose journal is in a file."""

    def __init__(self, folder, path):
        super().__init__(folder)
        self.update, self.frame, self.length = c_void_p(), create_string_buffer(FRAME), c_size_t()
        self.file, whole = os.open(path, os.O_RDWR | os.O_CREAT | os.O_APPEND, 0o600), c_size_t()
        with open(path, "rb") as it:
            self.done("nk_zones_replay", self.zones, *pair(ORIGIN.encode()), *pair(it.read()), byref(whole))
        os.ftruncate(self.file, whole.value)
        os.fsync(self.file)

    def updated(self, octets):
        rooms = (*self.whole, self.frame, c_size_t(FRAME), byref(self.length))
        self.done("nk_update_begin", self.update, byref(self.zones), byref(self.updates), self.message(octets, 0), *rooms)
        frame = self.frame.raw[: self.length.value]
        if frame:
            # (in two parts, so that some are torn)
            for part in (frame[: len(frame) // 2], frame[len(frame) // 2 :]):
                os.write(self.file, part)
            os.fsync(self.file)
            self.done("nk_update_commit", self.update, byref(self.zones))
        return self.room.raw[: self.written.value], bool(frame)


# ---- the process that is killed


def whole(stream, count):
    """So many octets of a stream, or None where it ends before."""
    octets = stream.read(count)
    return octets if len(octets) == count else None


def texts_of(stream):
    """The texts of a stream, each behind its length, in lists behind their lengths; one that isn't whole is left out."""
    while count := whole(stream, 4):
        texts = []
        for _ in range(struct.unpack("!I", count)[0]):
            length = whole(stream, 4)
            text = length and whole(stream, struct.unpack("!I", length)[0])
            if text is None:
                return
            texts.append(text)
        yield texts


def listed(texts):
    return struct.pack("!I", len(texts)) + b"".join(struct.pack("!I", len(it)) + it for it in texts)


def answer(folder, path):
    """Answers messages: an update by its response, and a question for the zone by all messages of its answer."""
    held = Journaled(folder, path)
    for texts in texts_of(sys.stdin.buffer):
        for text in texts:
            is_update = text[2] >> 3 & 15 == 5
            sys.stdout.buffer.write(listed([held.updated(text)[0]] if is_update else list(held.answers(text))))
            sys.stdout.buffer.flush()


# ---- what is compared


class Process:
    def __init__(self, folder, path):
        words = [sys.executable, os.path.realpath(__file__), "--answer", folder, path]
        self.process = subprocess.Popen(words, stdin=subprocess.PIPE, stdout=subprocess.PIPE)
        self.answers = texts_of(self.process.stdout)

    def send(self, octets):
        self.process.stdin.write(listed([octets]))
        self.process.stdin.flush()

    def asked(self, octets):
        self.send(octets)
        return next(self.answers)

    def killed(self):
        """Kills it, and gives the answer that it still gave, if it did."""
        self.process.kill()
        last = next(self.answers, None)
        self.process.wait()
        return last


def main(seed="1", rounds="500", folder=None):
    random.seed(int(seed))
    folder = folder or peers.program("ningkraet")
    model, sent, kills, found, wrong, doubtful = Held(folder), 0, 0, 0, [], None
    with tempfile.TemporaryDirectory() as room:
        while sent < int(rounds) and not wrong:
            process = Process(folder, f"{room}/journal")
            zone = records_in(process.asked(query(ORIGIN, AXFR)))
            if doubtful and zone != zone_of(model):
                model.updated(doubtful)
                found += 1
            if zone != zone_of(model):
                wrong.append(f"{sent}: only in the journal {zone - zone_of(model)}, only in what was answered {zone_of(model) - zone}")
            for left in reversed(range(random.randrange(1, MOST))):
                octets, sent = signed(random_update(), random.choice([KEY, OTHER, OTHER]))[0], sent + 1
                if left:
                    code = process.asked(octets)[0][3] & 15
                    if code != model.updated(octets)[0][3] & 15:
                        wrong.append(f"{sent}: {code}, and another code without a journal: {octets.hex()}")
                    continue
                process.send(octets)
                time.sleep(random.choice([0, 0.0002, 0.001, 0.003]))
                doubtful, kills = octets, kills + 1
                if process.killed():
                    model.updated(octets)
                    doubtful = None
    print(f"journals: {sent} updates; {kills} processes killed, and of the updates on their way then {found} were found in the journal without an answer")
    print("\n".join(f"journals: {it}" for it in wrong) or "journals: nothing is lost")
    return bool(wrong)


if __name__ == "__main__":
    if sys.argv[1:2] == ["--answer"]:
        answer(*sys.argv[2:])
    else:
        peers.called(main, __doc__, 3)
