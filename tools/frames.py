#!/usr/bin/env python3
"""Frames of messages as text, and text as frames: what the program zoned reads and writes (RFC 1035 section 4.2.2).

  tools/frames.py make [--limits] < TEXT  writes the frames of queries, one per line: `NAME TYPE` and words for what else a query has
                                          (id=, opcode=, class=, rd, ad, cd, edns= and the size, version=, do, serial= of an SOA in
                                          the authority section), or `hex` and its octets; with --limits the limit of the answer
                                          comes first. `# ` begins a comment. An octet of a label may be written as \\DDD
  tools/frames.py print < FRAMES          prints the messages of frames in the words of dig, with one space for each tab
"""
import ipaddress
import re
import struct
import sys

TYPES = {"A": 1, "NS": 2, "CNAME": 5, "SOA": 6, "MX": 15, "TXT": 16, "AAAA": 28, "SRV": 33, "DNAME": 39, "DS": 43, "RRSIG": 46, "NSEC": 47, "DNSKEY": 48, "NSEC3": 50, "IXFR": 251, "AXFR": 252, "ANY": 255}
WORDS = {number: word for word, number in TYPES.items()}
CLASSES = {1: "IN", 3: "CH"}
OPCODES = {0: "QUERY", 2: "STATUS", 4: "NOTIFY", 5: "UPDATE"}
# The code of a name that a DNAME makes too long (RFC 6672 section 2.2).
YXDOMAIN = 6
CODES = {0: "NOERROR", 1: "FORMERR", 2: "SERVFAIL", 3: "NXDOMAIN", 4: "NOTIMP", 5: "REFUSED", YXDOMAIN: "YXDOMAIN", 9: "NOTAUTH", 16: "BADVERS"}
FLAGS = [(1 << 15, "qr"), (1 << 10, "aa"), (1 << 9, "tc"), (1 << 8, "rd"), (1 << 7, "ra"), (1 << 6, "z"), (1 << 5, "ad"), (1 << 4, "cd")]


def octets_of(name):
    """The octets of a name. A dot within a label is \\046."""
    labels = [re.sub(rb"\\([0-9]{3})", lambda it: bytes([int(it[1])]), it.encode()) for it in name.split(".") if it]
    return b"".join(bytes([len(it)]) + it for it in labels) + b"\0"


def label_text(octets):
    """The text of a label, in which octets that are no letter, digit, `-`, `_` or `*` stand as \\DDD."""
    return "".join(chr(it) if it < 128 and chr(it).isalnum() or it in b"-_*" else f"\\{it:03}" for it in octets)


def start_of_authority(serial):
    """The octets of an SOA record of that serial whose owner is that of the question; both its names are the root."""
    return struct.pack("!HHHIHBBIIIII", 0xC00C, TYPES["SOA"], 1, 0, 22, 0, 0, serial, 0, 0, 0, 0)


def query(words):
    """The octets of a query by its words."""
    if words[0] == "hex":
        return bytes.fromhex("".join(words[1:]))
    name, query_type, *others = words
    numbers = {"id": 1, "opcode": 0, "class": 1, "version": 0}
    numbers |= {word.split("=")[0]: int(word.split("=")[1]) for word in others if "=" in word}
    flags = numbers["opcode"] << 11 | sum(bit for bit, word in FLAGS if word in others)
    octets = struct.pack("!HHHHHH", numbers["id"], flags, 1, 0, "serial" in numbers, "edns" in numbers) + octets_of(name)
    octets += struct.pack("!HH", TYPES[query_type], numbers["class"])
    if "serial" in numbers:
        octets += start_of_authority(numbers["serial"])
    if "edns" in numbers:
        octets += struct.pack("!BHHBBHH", 0, 41, numbers["edns"], 0, numbers["version"], ("do" in others) << 15, 0)
    return octets


def make(text, limits):
    """The frames of the queries of a text."""
    frames = b""
    for line in text.splitlines():
        words = line.split()
        if words and words[0] != "#":
            limit = struct.pack("!H", int(words.pop(0))) if limits else b""
            octets = query(words)
            frames += limit + struct.pack("!H", len(octets)) + octets
    return frames


def name_at(message, at):
    """The name at an offset as text, and the offset behind it."""
    labels, end = [], None
    while message[at]:
        if message[at] >= 192:
            end, at = end or at + 2, struct.unpack_from("!H", message, at)[0] & 0x3FFF
        else:
            labels.append(label_text(message[at + 1 : at + 1 + message[at]]))
            at += 1 + message[at]
    return "".join(f"{label}." for label in labels) or ".", end or at + 1


def data_text(message, record_type, at, end):
    """The data of a record as text; those of a type that isn't known here as RFC 3597 section 5 has them."""
    data = message[at:end]
    if record_type in (1, 28):
        return str(ipaddress.ip_address(data))
    if record_type in (2, 5, 39):
        return name_at(message, at)[0]
    if record_type in (15, 33):
        numbers = struct.unpack_from("!H" if record_type == 15 else "!HHH", data)
        return " ".join([*map(str, numbers), name_at(message, at + 2 * len(numbers))[0]])
    if record_type == 6:
        first, at = name_at(message, at)
        second, at = name_at(message, at)
        return " ".join([first, second, *map(str, struct.unpack_from("!5I", message, at))])
    return f"\\# {len(data)} {data.hex()}".rstrip()


def records_at(message, at, count):
    """So many records: the text of each and what an OPT record says, and the offset behind them."""
    lines, extension = [], None
    for _ in range(count):
        owner, at = name_at(message, at)
        record_type, record_class, ttl, length = struct.unpack_from("!HHIH", message, at)
        at += 10
        if record_type == 41:
            extension = record_class, ttl
        else:
            word = WORDS.get(record_type, f"TYPE{record_type}")
            data = data_text(message, record_type, at, at + length)
            lines.append(f"{owner} {ttl} {CLASSES.get(record_class, f'CLASS{record_class}')} {word} {data}")
        at += length
    return lines, extension, at


def message_lines(message):
    """The lines of a message, in the words of dig."""
    identifier, flags, *counts = struct.unpack_from("!HHHHHH", message)
    at, questions, sections, extension = 12, [], [], None
    for _ in range(counts[0]):
        name, at = name_at(message, at)
        query_type, query_class = struct.unpack_from("!HH", message, at)
        questions.append(f";{name} {CLASSES.get(query_class, f'CLASS{query_class}')} {WORDS.get(query_type, f'TYPE{query_type}')}")
        at += 4
    for title, count in zip(("ANSWER", "AUTHORITY", "ADDITIONAL"), counts[1:]):
        lines, found, at = records_at(message, at, count)
        extension = extension or found
        sections += [f";; {title} SECTION:", *lines] if lines else []
    code = (extension[1] >> 24 << 4 if extension else 0) | flags & 15
    opcode = flags >> 11 & 15
    yield f";; ->>HEADER<<- opcode: {OPCODES.get(opcode, f'OPCODE{opcode}')}, status: {CODES.get(code, f'RESERVED{code}')}, id: {identifier}"
    words = "".join(f" {word}" for bit, word in FLAGS if flags & bit)
    yield ";; flags:{}; QUERY: {}, ANSWER: {}, AUTHORITY: {}, ADDITIONAL: {}".format(words, *counts)
    if extension:
        size, ttl = extension
        yield ";; OPT PSEUDOSECTION:"
        yield f"; EDNS: version: {ttl >> 16 & 255}, flags:{' do' if ttl & 1 << 15 else ''}; udp: {size}"
    yield from [";; QUESTION SECTION:", *questions] if questions else []
    yield from sections
    if at != len(message):
        yield f";; WARNING: {len(message) - at} octets behind the last record"


def show(frames):
    """The text of the messages of frames."""
    at, texts = 0, []
    while at < len(frames):
        (length,) = struct.unpack_from("!H", frames, at)
        texts.append("\n".join(message_lines(frames[at + 2 : at + 2 + length])) + "\n")
        at += 2 + length
    return "\n".join(texts)


def main(words):
    if words in (["make"], ["make", "--limits"]):
        sys.stdout.buffer.write(make(sys.stdin.read(), len(words) > 1))
    elif words == ["print"]:
        sys.stdout.write(show(sys.stdin.buffer.read()))
    else:
        print(__doc__, end="", file=sys.stderr)
        return 2
    return 0


if __name__ == "__main__":
    sys.exit(main(sys.argv[1:]))
