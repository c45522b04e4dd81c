#!/usr/bin/env python3
"""Signs a zone file with the keys in a folder: K*.key and K*.private of dnssec-keygen, or a KASP database of Knot's keymgr.

  ./sign ZONE --keys FOLDER [-o FILE]                  writes the signed zone
  ./sign plan ZONE --keys FOLDER -o PLAN               writes what has to be signed; the public halves of the keys are enough
  ./sign answer PLAN --keys FOLDER -o SIGNATURES       signs that, for example on another machine, which has the private keys
  ./sign finish ZONE --keys FOLDER --plan PLAN --signatures SIGNATURES [-o FILE]
  ./sign ZONE --keys FOLDER --ds                       writes the DS records for the parent zone
  ./sign verify ZONE [--origin NAME]                   verifies each signature of a signed zone by the keys in it
  ./sign ZONE --digest [--keys FOLDER] [-o FILE]       writes the zone with its ZONEMD record made anew, and nothing else

  --origin NAME             the origin of the zone, if it isn't the owner of the first SOA in the file, or if the folder has keys of
                            several zones
  --from T, --until T       the validity period of the signatures: seconds since 1970, or YYYYMMDDHHMMSS in UTC. The default is from an
                            hour ago until 30 days from now; `finish` takes the period from the plan
  --jitter SECONDS          signatures expire up to so many seconds earlier, those at one name together. The default is 0
  --nsec3 SALT ITERATIONS   NSEC3 instead of NSEC: the salt in hex, or -. RFC 9276 recommends - 0
  --opt-out                 with NSEC3: delegations without DS have no NSEC3 record
  --key-ttl SECONDS         the TTL of the DNSKEY, CDS and CDNSKEY records. The default is 3600
  --cds                     adds CDS and CDNSKEY records for the keys that sign keys, so that the parent can update its DS records
  --zonemd                  adds a ZONEMD record with the digest of the signed zone, in place of the one that the file has
  --digest                  the zone, signed with --zonemd or not signed, stays as it is but for its ZONEMD record and that one's
                            signature; without --keys for a zone that isn't signed. After `finish --zonemd`, a second `plan --digest`,
                            `answer` and `finish --digest` put in the digest
  --again TIME              valid signatures that the zone file has stay, if they hold for so long from the first moment on, as 5d, 12h or
                            3600, and nothing that they are made of has changed; only the others are made
  --old FILE                with --again: the signatures of this earlier version of the signed zone, instead of those in the zone file

`finish` has to be given the same zone, keys and options as `plan`.

A key with the SEP flag signs DNSKEY, CDS and CDNSKEY, and one without it all other sets; a key does both if its algorithm has no key
of the other kind. zone_sign, which reads no private key, works out what is to be signed and makes the zone. Only this program reads the
private keys; Debian's python3-cryptography signs, with algorithms 8, 10, 13, 14, 15 and 16. DNSKEY, RRSIG, NSEC,
NSEC3 and NSEC3PARAM records in the file are replaced.
"""
import argparse
import calendar
import concurrent.futures
import os
import struct
import subprocess
import sys
import tempfile
import time

sys.dont_write_bytecode = True

import running
import signatures
from signing_keys import fail, names, public_of, publics, signers, tag_of, verifier_of

DAY = 86400

# What ends a plan: a frame without octets.
END = (0, 0)

# How many faults of signatures are told.
MOST_TOLD = 20

# How often signatures that would stay are verified, where some of them turn out to be wrong.
MOST_ROUNDS = 5


def moment(word):
    """Seconds since 1970, from such a number or from a moment as it is written in zone files."""
    if len(word) == 14 and word.isdigit():
        return calendar.timegm(time.strptime(word, "%Y%m%d%H%M%S"))
    return int(word)


def duration(word):
    """Seconds, from such a number or from one with a unit: s, m, h, d or w."""
    units = {"s": 1, "m": 60, "h": 3600, "d": DAY, "w": 7 * DAY}
    return int(word[:-1]) * units[word[-1]] if word[-1:] in units else int(word)


def options(words):
    shape = argparse.ArgumentParser(prog="sign", description=__doc__, formatter_class=argparse.RawDescriptionHelpFormatter, usage=argparse.SUPPRESS)
    shape.add_argument("zone")
    shape.add_argument("--keys")
    shape.add_argument("--origin")
    shape.add_argument("--from", dest="start", type=moment)
    shape.add_argument("--until", dest="end", type=moment)
    shape.add_argument("--jitter", type=int, default=0)
    shape.add_argument("--nsec3", nargs=2, metavar=("SALT", "ITERATIONS"))
    shape.add_argument("--opt-out", action="store_true")
    shape.add_argument("--key-ttl", type=int, default=3600)
    shape.add_argument("--cds", action="store_true")
    shape.add_argument("--zonemd", action="store_true")
    shape.add_argument("--digest", action="store_true")
    shape.add_argument("--ds", action="store_true")
    shape.add_argument("--again", type=duration)
    shape.add_argument("--old")
    shape.add_argument("--plan")
    shape.add_argument("--signatures")
    shape.add_argument("-o", dest="output")
    return shape.parse_args(words)


# ---- frames and signatures


def exactly(stream, count):
    octets = stream.read(count)
    if len(octets) != count:
        raise EOFError
    return octets


def frames(stream):
    """The key's number and the octets of each frame, until the end."""
    while True:
        number, length = struct.unpack("!BI", exactly(stream, 5))
        if (number, length) == END:
            return
        yield number, exactly(stream, length)


def standing(stream):
    """What each signature that stays is made of, and the signature, until the end."""
    while length := struct.unpack("!I", exactly(stream, 4))[0]:
        octets = exactly(stream, length)
        yield octets, exactly(stream, struct.unpack("!H", exactly(stream, 2))[0])


def framed(signature):
    return struct.pack("!H", len(signature)) + signature


def answers(keys, asked):
    """The signatures for frames, in their order, each preceded by its length. Reports its progress every two seconds."""
    made, reported = [], time.monotonic()
    with concurrent.futures.ThreadPoolExecutor() as pool:
        for signature in pool.map(lambda it: keys[it[0]](it[1]), asked):
            made.append(framed(signature))
            if time.monotonic() - reported > 2:
                reported = time.monotonic()
                running.say("sign", f"{len(made)} of {len(asked)} signatures")
    return b"".join(made)


# ---- files


class Output:
    """A file that appears once all of it is written, or the standard output."""

    def __init__(self, path):
        self.path = path
        self.file = tempfile.NamedTemporaryFile(dir=os.path.dirname(path) or ".", delete=False) if path else sys.stdout.buffer

    def keep(self):
        self.file.flush()
        if self.path:
            self.file.close()
            os.chmod(self.file.name, 0o644)
            os.replace(self.file.name, self.path)

    def drop(self):
        if self.path:
            self.file.close()
            os.unlink(self.file.name)


def copied(stream, output):
    while piece := stream.read(1 << 20):
        output.file.write(piece)


def written(path, octets):
    output = Output(path)
    output.file.write(octets)
    output.keep()


# ---- the program


def program():
    made = subprocess.run([sys.executable, "-S", f"{os.path.dirname(os.path.abspath(__file__))}/build/program", "path", "zone_sign"], stdout=subprocess.PIPE, text=True)
    return made.stdout.strip() if made.returncode == 0 else sys.exit(2)


def key_files(it):
    """The files of the public halves of the keys; none where no folder is given, of a zone that isn't signed."""
    return publics(it.keys, it.origin) if it.keys else []


def call(mode, it):
    words = [program(), mode, it.zone, "--from", str(it.start), "--until", str(it.end), "--jitter", str(it.jitter), "--key-ttl", str(it.key_ttl)]
    words += ["--origin", it.origin] if it.origin else []
    words += ["--nsec3", *it.nsec3] if it.nsec3 else []
    words += ["--opt-out"] if it.opt_out else []
    words += ["--cds"] if it.cds else []
    words += ["--digest"] if it.digest else ["--zonemd"] if it.zonemd else []
    words += ["--old", it.old or it.zone, "--again", str(it.again)] if it.again is not None else []
    words += ["--wrong", it.wrong.name] if it.again is not None and it.wrong else []
    for path in key_files(it):
        words += ["--key", path]
    return words


def passed_on(mode, it):
    """Runs the program, and keeps what it writes."""
    output = Output(it.output)
    with subprocess.Popen(call(mode, it), stdout=subprocess.PIPE, stdin=subprocess.DEVNULL) as ran:
        copied(ran.stdout, output)
    output.drop() if ran.returncode else output.keep()
    return ran.returncode


def standing_in(it, mode="standing"):
    """The signatures that would stay, or all those of the zone, each with what it is made of."""
    with subprocess.Popen(call(mode, it), stdout=subprocess.PIPE, stdin=subprocess.DEVNULL) as ran:
        try:
            found = list(standing(ran.stdout))
        except EOFError:
            # The program has reported why.
            found = []
    return found if ran.returncode == 0 else sys.exit(ran.returncode)


def only_valid(it):
    """Verifies the signatures that would stay, so that only valid ones do."""
    keys = {}
    for data in map(public_of, publics(it.keys, it.origin)):
        keys.setdefault((data[3], tag_of(data)), []).append(verifier_of(data))
    # The algorithm and the tag of the key are in what is signed (RFC 4034 section 3.1).
    is_valid = lambda one: any(verify(*one) for verify in keys.get((one[0][2], int.from_bytes(one[0][16:18], "big")), []))
    wrong = set()
    # Where a signature doesn't stay, another one may that wasn't verified yet.
    for _ in range(MOST_ROUNDS):
        found = standing_in(it)
        with concurrent.futures.ThreadPoolExecutor() as pool:
            more = {one[1] for one, valid in zip(found, pool.map(is_valid, found)) if not valid}
        if not more:
            running.say("sign", f"{len(found)} signatures stay" + (f", and {len(wrong)} aren't valid" if wrong else ""))
            return
        wrong |= more
        it.wrong = it.wrong or tempfile.NamedTemporaryFile()
        it.wrong.seek(0)
        it.wrong.write(b"".join(map(framed, sorted(wrong))))
        it.wrong.flush()
    running.say("sign", f"so many signatures in {it.old or it.zone} aren't valid that all are made anew")
    it.again = None


def signed(it, answer):
    """Runs the program, and passes it the signatures that `answer` gives for all its frames."""
    output = Output(it.output)
    with subprocess.Popen(call("sign", it), stdin=subprocess.PIPE, stdout=subprocess.PIPE) as ran:
        try:
            made = answer(list(frames(ran.stdout)))
            ran.stdin.write(made)
            ran.stdin.close()
            copied(ran.stdout, output)
        except (EOFError, BrokenPipeError):
            # The program has reported why.
            pass
        except SystemExit:
            ran.kill()
            output.drop()
            raise
    output.drop() if ran.returncode else output.keep()
    return ran.returncode


# ---- what is asked for


def plan_head(it):
    """The head of a plan: its validity period, and the names of its keys, in the order in which frames number them."""
    keys = [name.encode() for name in names(publics(it.keys, it.origin))]
    return struct.pack("!QQH", it.start, it.end, len(keys)) + b"".join(bytes([len(name)]) + name for name in keys)


def read_plan(path):
    """The validity period of a plan, the names of its keys, and its frames."""
    try:
        with open(path, "rb") as stream:
            start, end, count = struct.unpack("!QQH", exactly(stream, 18))
            keys = [exactly(stream, exactly(stream, 1)[0]).decode() for _ in range(count)]
            return start, end, keys, list(frames(stream))
    except (OSError, EOFError, ValueError) as error:
        fail(f"{path}: not a plan{': ' + str(error) if str(error) else ''}")


def plan(it):
    if it.again is not None:
        only_valid(it)
    ran = subprocess.run(call("plan", it), stdout=subprocess.PIPE, stdin=subprocess.DEVNULL)
    if ran.returncode:
        return ran.returncode
    written(it.output, plan_head(it) + ran.stdout)
    return 0


def answer(it):
    _, _, keys, asked = read_plan(it.zone)
    written(it.output, answers(signers(it.keys, keys), asked))
    return 0


def finish(it):
    if not it.plan or not it.signatures:
        fail("finish needs --plan and --signatures")
    it.start, it.end, keys, planned = read_plan(it.plan)
    if it.again is not None:
        only_valid(it)

    def kept(asked):
        if asked != planned or keys != names(publics(it.keys, it.origin)):
            fail("the zone, the keys or the options aren't those of the plan")
        with open(it.signatures, "rb") as stream:
            return stream.read()

    return signed(it, kept)


def verify(it):
    """Verifies each signature of a zone, by the keys in it."""
    count, faults = signatures.faults_of(standing_in(it, "signatures"))
    for why in faults[:MOST_TOLD]:
        running.say("sign", f"{it.zone}: {why}")
    if len(faults) > MOST_TOLD:
        running.say("sign", f"{it.zone}: {len(faults) - MOST_TOLD} faults more")
    if not count:
        running.say("sign", f"{it.zone}: there is no signature")
    if faults or not count:
        return 1
    print(f"{it.zone}: {count} signatures are valid")
    return 0


def with_digest(it, answer):
    """Signs the zone, and then puts its digest into it."""
    with tempfile.NamedTemporaryFile() as between:
        status = signed(argparse.Namespace(**{**vars(it), "output": between.name}), answer)
        return status or signed(argparse.Namespace(**{**vars(it), "zone": between.name, "digest": True, "again": None}), answer)


def main(words):
    mode = words[0] if words and words[0] in ("plan", "answer", "finish", "verify") else None
    it = options(words[1:] if mode else words)
    if not it.keys and mode != "verify" and (mode or it.ds or not it.digest):
        fail("--keys is missing, the folder with the keys")
    if it.digest and (it.zonemd or it.again is not None):
        fail("--digest goes with neither --zonemd nor --again")
    if it.opt_out and not it.nsec3:
        fail("--opt-out needs --nsec3")
    if it.old and it.again is None:
        fail("--old needs --again")
    it.wrong = None
    now = int(time.time())
    it.start = now - 3600 if it.start is None else it.start
    it.end = now + 30 * DAY if it.end is None else it.end
    if mode:
        return {"plan": plan, "answer": answer, "finish": finish, "verify": verify}[mode](it)
    if it.ds:
        return passed_on("ds", it)
    keys = signers(it.keys, names(key_files(it)))
    if it.again is not None:
        only_valid(it)
    return (with_digest if it.zonemd else signed)(it, lambda asked: answers(keys, asked))


if __name__ == "__main__":
    sys.exit(main(sys.argv[1:]))
