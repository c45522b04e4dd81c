#!/usr/bin/env python3
"""Signs random zones with ./sign, dnssec-signzone, ldns-signzone and kzonesign, and compares what they write. Not part of the gate.

  tools/compare/signers.py [--rounds N] [--seed N]

The zones have delegations with glue at and below the cut, wildcards, CNAME, DNAME, empty non-terminals and names in mixed case; they are
signed with NSEC, with NSEC3 and with opt-out. dnssec-verify, ldns-verify-zone, kzonecheck, zone_check and ./sign verify
have to accept what ./sign writes, and what it writes if it signs that again; and it has to have the same denials, record by record, as
that of each other signer, and the same signatures, by owner, type, key, labels and TTL, except for what CHOICES lists. Prints how many were compared. The status is 1 if any of that isn't so.

The tools are Debian's packages bind9-utils, ldnsutils and knot-dnssecutils.
"""
import argparse
import collections
import os
import random
import subprocess
import sys
import tempfile

sys.dont_write_bytecode = True
sys.path.append(os.path.dirname(os.path.dirname(os.path.realpath(__file__))))

import random_zones
import signed_zones

TOP = os.path.dirname(os.path.dirname(os.path.dirname(os.path.realpath(__file__))))

# What isn't compared, since signers differ in it by choice.
CHOICES = {
    "NSEC3PARAM": "its TTL: that of denials with ./sign, 0 with BIND, the SOA's with ldns",
    "DNSKEY": "its TTL: 3600 with ./sign, the SOA's with the others; and dnssec-signzone signs it with both keys",
    "NSEC": "its TTL: not all versions of the others take the lesser of the SOA's minimum and its TTL (RFC 9077)",
    "SOA": "its serial: ./sign adds one",
    "opt-out": "which delegations without DS have NSEC3 records: with ./sign those that own glue or another type besides NS, with "
    "dnssec-signzone none, with the two others some. So NSEC3 records with opt-out aren't compared, nor their signatures",
}
TTL_IS_CHOSEN = ("NSEC3PARAM", "NSEC", "NSEC3")

JUDGES = {
    "dnssec-verify": lambda path, origin: ["dnssec-verify", "-q", "-o", origin, path],
    "ldns-verify-zone": lambda path, origin: ["ldns-verify-zone", path],
    "kzonecheck": lambda path, origin: ["kzonecheck", "-o", origin, "-d", "on", path],
    "zone_check": lambda path, origin: [f"{TOP}/zone_check", path, origin],
    "sign verify": lambda path, origin: [f"{TOP}/sign", "verify", path, "--origin", origin],
}


class Wrong(Exception):
    pass


def run(*words):
    done = subprocess.run(words, capture_output=True, text=True, errors="replace", check=False)
    return done.returncode, done.stdout, done.stderr


def is_of_zone(judge, output):
    """Whether a checker reports only what random zones lack: kzonecheck requires glue for each server below a cut."""
    faults = [line for line in output.splitlines() if line.startswith("[")]
    return judge == "kzonecheck" and bool(faults) and all(line.endswith("] missing glue record") for line in faults)


def judged(path, origin):
    for judge, words in JUDGES.items():
        first, *others = words(path, origin)
        status, out, err = run(signed_zones.found(first) or first, *others)
        if status and not is_of_zone(judge, err + out):
            raise Wrong(f"{judge} doesn't accept it:\n{(err or out).strip()[-800:]}")


def by_sign(folder, origin, path, way, made, *more):
    """Has ./sign write a file."""
    hashed = ["--nsec3", way.salt or "-", str(way.iterations)] if way.kind != "nsec" else []
    signed_zones.keys(folder, origin)
    status, _, err = run(f"{TOP}/sign", path, "--origin", origin, "--keys", folder, *hashed, *(["--opt-out"] if way.opts_out else []), *more, "-o", made)
    if status:
        raise Wrong(f"./sign: {err.strip()[-800:]}")
    return made


def kept(lines):
    """The signatures that stay when a zone is signed again: all but those of the SOA."""
    return {tuple(words) for words in lines if words[3] == "RRSIG" and words[4] != "SOA"}


def again(folder, origin, path, way, lines, counts):
    """Signs a signed zone again."""
    more = by_sign(folder, origin, path, way, f"{path}.again", "--again", "5d")
    judged(more, origin)
    if kept(lines) != kept(printed(more, origin)):
        raise Wrong("./sign --again: other signatures than that of the SOA were made")
    counts["signatures that stay"] += len(kept(lines))


def printed(path, origin):
    """The words of each record in a file, as zone_check prints them."""
    status, out, err = run(f"{TOP}/zone_check", "--print", path, origin)
    if status:
        raise Wrong(f"zone_check --print {path}: {err.strip()[-800:]}")
    return [line.split() for line in out.splitlines()]


def denials(lines):
    """NSEC, NSEC3 and NSEC3PARAM: owner, type and data, in lower case."""
    return {tuple(it.lower() for it in [words[0], *words[3:]]) for words in lines if words[3] in ("NSEC", "NSEC3", "NSEC3PARAM")}


def signatures(lines):
    """Owner, type covered, algorithm, labels, original TTL unless signers choose that, key tag and signer of each signature."""
    for words in lines:
        if words[3] == "RRSIG" and words[4] != "DNSKEY":
            kind, algorithm, labels, ttl, _, _, tag, signer = words[4:12]
            yield words[0].lower(), kind, algorithm, labels, "" if kind in TTL_IS_CHOSEN else ttl, tag, signer.lower()


def compared(ours, theirs, way, counts):
    """Compares the denials and the signatures of two outputs."""
    pairs = [("signatures", set(signatures(ours)), set(signatures(theirs)))]
    if way.opts_out:
        pairs = [(what, *({it for it in side if it[1] != "NSEC3"} for side in sides)) for what, *sides in pairs]
    else:
        pairs.append(("denials", denials(ours), denials(theirs)))
    for what, one, other in pairs:
        if one != other:
            lines = [f"  only ./sign: {' '.join(it)}" for it in sorted(one - other)[:4]] + [f"  only {way.signer}: {' '.join(it)}" for it in sorted(other - one)[:4]]
            raise Wrong("\n".join([f"{what}: {len(one)} of ./sign and {len(other)} of {way.signer}", *lines]))
        counts[f"{what} beside {way.signer}"] += len(one)


def zone_of(origin, number):
    """The records of a zone, every third one with DNAME. None has names below a DNAME, which ./sign refuses and others sign differently."""
    made = random_zones.zone_with_dnames if number % 3 == 2 else random_zones.random_zone
    return made(origin, True)


def tried(folder, number, counts):
    origin = f"z{number}.example."
    path = signed_zones.written(folder, origin, zone_of(origin, number), mixes_case=True)
    for kind in signed_zones.KINDS:
        way = signed_zones.random_way("dnssec-signzone", kind)
        try:
            ours = by_sign(folder, origin, path, way, f"{path}.ours")
            judged(ours, origin)
            counts["zones accepted by all"] += 1
            lines = printed(ours, origin)
            again(folder, origin, ours, way, lines, counts)
        except Wrong as error:
            raise Wrong(f"{path}, {kind}: {error}") from error
        for signer in signed_zones.signers():
            # kzonesign uses a salt of its own.
            if signer == "kzonesign" and kind != "nsec" and way.salt:
                continue
            other = signed_zones.Way(signer, kind, way.salt, way.iterations)
            try:
                compared(lines, printed(signed_zones.signed(folder, origin, path, other)[0], origin), other, counts)
            except subprocess.CalledProcessError as error:
                counts[f"zones that {signer} refuses"] += 1
                print(f"{path}, {other}: {error.stderr.strip().splitlines()[-1:]}")
            except Wrong as error:
                raise Wrong(f"{path}, {other}: {error}") from error


def main(words):
    shape = argparse.ArgumentParser(description=__doc__, formatter_class=argparse.RawDescriptionHelpFormatter)
    shape.add_argument("--rounds", type=int, default=12)
    shape.add_argument("--seed", type=int, default=1)
    it = shape.parse_args(words)
    random.seed(it.seed)
    counts, wrong = collections.Counter(), 0
    folder = tempfile.mkdtemp(prefix="signers-")
    for number in range(it.rounds):
        try:
            tried(folder, number, counts)
        except Wrong as error:
            wrong += 1
            print(error)
    for what, count in sorted(counts.items()):
        print(f"{count} {what}")
    print(f"{wrong} of {it.rounds} zones differ; the files are in {folder}" if wrong else f"{it.rounds} zones")
    return 1 if wrong else 0


if __name__ == "__main__":
    sys.exit(main(sys.argv[1:]))
