#!/usr/bin/env python3
"""Has zone_check and dnssec-verify check zones that dnssec-signzone, ldns-signzone and kzonesign sign: random ones with delegations,
signed and not, glue and text at zone cuts and below, wildcards, empty non-terminals, DNAME with and without names below, names with
octets that aren't letters and in either case, one or several chains, and root zones. zone_check has to report a closed chain, without a
warning, exactly if dnssec-verify accepts the zone. Each zone is then spoiled in one place, which both have to notice. Not part of the
gate.

  tools/compare/closed_zones.py [SEED [COUNT [FOLDER]]]

Makes 300 zones, or COUNT. Prints the result for the zones of each signer and kind, and each zone on which the two disagree, with what
they say about it; with FOLDER, its file is kept there. The status is 1 if they disagree. The tools are Debian's packages bind9-utils,
ldnsutils and knot-dnssecutils; a signer that isn't installed is left out, and a line says so.

dnssec-verify checks the signatures too, which zone_check doesn't, so those of a zone that isn't spoiled are valid. It considers an NSEC
record a type that the lists of NSEC3 records have to name, although a chain of either kind may exist while it is being made or removed
(RFC 5155 sections 10.4 and 10.5). So if both exist, it is given the zone without NSEC records. And it rejects names below a DNAME in a
chain, which kzonesign puts there. They may be there or not, since nothing is found below a DNAME (RFC 6672 section 2.4); so these zones
are taken to be right as kzonesign writes them. If names have an octet 0, kzonesign now and then writes a chain in an order other than
that of RFC 4034 section 6.1, which both have to reject.
"""
import collections
import os
import random
import shutil
import subprocess
import sys
import tempfile

sys.dont_write_bytecode = True
sys.path.append(os.path.dirname(os.path.dirname(os.path.realpath(__file__))))

import peers
import random_zones
import signed_zones
from peers import found
from signed_zones import BESIDE, KINDS, SIGNERS

# How many examples of one fault are told.
TOLD = 10

# How zones are made: their origin, and the function.
MADE = [
    ("z.test.", random_zones.random_zone),
    ("y.test.", random_zones.random_zone),
    (".", random_zones.random_zone),
    ("d.test.", random_zones.zone_with_dnames),
    ("o.test.", random_zones.zone_with_occluded),
    ("a.test.", random_zones.zone_of_dname),
]

# A type that no zone here has.
ABSENT = "HINFO"


def verifies(origin, path, lines, way):
    """Whether dnssec-verify passes a zone of these lines."""
    signed_zones.keep(f"{path}.verified", signed_zones.without_types(lines, "NSEC") if way.beside == "nsec" else lines)
    return subprocess.run([found("dnssec-verify"), "-o", origin, f"{path}.verified"], capture_output=True).returncode == 0


def told(checker, origin, path):
    """The status of zone_check, and what it says on standard error."""
    done = subprocess.run([checker, path, origin], capture_output=True, text=True, errors="replace")
    return done.returncode, done.stderr.replace(f"{path}: ", "").replace(f"{path}:", "line ").splitlines()


# ---- spoiled zones


def parts_of(line, kind):
    """The words of a denial's line before its data, its data before the list of types, and that list."""
    words = line.split()
    at = words.index(kind, 1) + 1
    data = at + (1 if kind == "NSEC" else 5)
    return words[:at], words[at:data], words[data:]


def denials(lines, way):
    """The lines of the records of the chain that denies, and their kind: not those of a second chain or an old one."""
    kind = "NSEC" if way.kind == "nsec" else "NSEC3"
    of_kind = [it for it in lines if signed_zones.type_of(it)[0] == kind]
    if kind == "NSEC":
        return of_kind, kind
    # (of several chains the one denies that the first NSEC3PARAM announces)
    own = next(it for it in lines if signed_zones.type_of(it)[0] == "NSEC3PARAM").lower().split()[-2:]
    return [it for it in of_kind if parts_of(it.lower(), "nsec3")[1][2:4] == own], kind


def spoiled_list(kinds):
    """A list of types that isn't right, and how. At a cut that is one without NS, or one that says SOA, or DS where there is none."""
    if "NS" in kinds and "SOA" not in kinds:
        how = random.choice(["NS", "SOA", "DS"])
        return [*(it for it in kinds if it != how), *([] if how in kinds else [how])], f"{how} turned"
    data = [it for it in kinds if it not in ("RRSIG", "NSEC", "NSEC3PARAM", "DNSKEY")]
    if data and random.random() < 0.5:
        gone = random.choice(data)
        return [it for it in kinds if it != gone], f"without {gone}"
    return [*kinds, ABSENT], f"with {ABSENT}"


def spoiled(lines, way):
    """The lines of a zone with one fault in its chain, and what it is."""
    chain, kind = denials(lines, way)
    line = random.choice(chain)
    head, data, kinds = parts_of(line, kind)
    others = [it for it in chain if it != line]
    # (without the origin's record a chain counts for nothing, and another one denies)
    stays = way.beside in ("second", "nsec") and "SOA" in kinds
    how = random.choice(["without"] * (not stays) + ["leads"] * bool(others) + ["list", "list"])
    if how == "without":
        return [it for it in lines if it != line], f"without the {kind} of {head[0]}"
    if how == "leads":
        data[-1], what = parts_of(random.choice(others), kind)[1][-1], "leads elsewhere"
    else:
        kinds, what = spoiled_list(kinds)
    return [" ".join([*head, *data, *kinds]) if it == line else it for it in lines], f"the {kind} of {head[0]} {what}"


# ---- what is told


class Sums:
    """What came of the zones of each way, and those that the two differ on."""

    def __init__(self, folder):
        self.folder, self.differing, self.not_signed = folder, [], []
        self.counts = collections.defaultdict(collections.Counter)

    def add(self, zone, way, path, is_right, status, faults, what=""):
        """Counts a zone, spoiled where it says how."""
        is_closed = (status, faults) == (0, [])
        # (a wrong list is a fault, and no warning)
        is_same = is_closed if is_right else status == 1
        side = "spoiled" if what else "whole"
        self.counts[str(way)].update([side, f"{side} right"] if is_right else [side])
        self.counts[str(way)].update([f"{side} closed"] * is_closed + [f"{side} differs"] * (not is_same))
        if not is_same:
            verdict = f"{'right' if is_right else 'refused by dnssec-verify'}; zone_check: status {status}, {faults[0] if faults else 'no word'}"
            self.differing.append(f"zone {zone}, {way}{f', {what}' if what else ''}: {verdict}")
            if self.folder:
                shutil.copy(path, f"{self.folder}/{zone.split(',')[0]}{'-spoiled' if what else ''}.zone")

    def tell(self):
        print("| Zones of | Whole | passed by dnssec-verify | found closed | otherwise | Spoiled | passed | found closed | otherwise |")
        print("|---|---|---|---|---|---|---|---|---|")
        for way, counts in sorted(self.counts.items()):
            cells = [counts[f"{side}{what}"] for side in ("whole", "spoiled") for what in ("", " right", " closed", " differs")]
            print(f"| {way} | {' | '.join(map(str, cells))} |")
        total = sum((it for it in self.counts.values()), collections.Counter())
        print(f"{total['whole']} zones: {total['whole right']} pass, {total['whole closed']} are found closed without a word, "
              f"{total['whole differs']} otherwise than dnssec-verify says; {total['spoiled']} spoiled ones, {total['spoiled differs']} otherwise")
        print(*(f"not signed: {it}" for it in self.not_signed), sep="\n", end="\n" * bool(self.not_signed))
        shown = self.differing if self.folder else self.differing[:TOLD]
        print(*shown, *([f".. and {len(self.differing) - len(shown)} more"] if len(shown) < len(self.differing) else []), sep="\n")


def look_at(sums, number, way, checker):
    """Makes a zone, has both look at it, spoils it, and has both look again."""
    origin, make = random.choice(MADE)
    records = make(origin, True)
    with tempfile.TemporaryDirectory() as folder:
        path = signed_zones.written(folder, origin, records, random.random() < 0.3)
        try:
            path, lines = signed_zones.signed(folder, origin, path, way)
        except subprocess.CalledProcessError as error:
            sums.not_signed.append(f"zone {number}, {way}: {' '.join((error.stderr or '').split()[-20:])}")
            return
        is_right = way.signer == "kzonesign" and has_names_below_dnames(lines) or verifies(origin, path, lines, way)
        sums.add(f"{number}, {origin}", way, path, is_right, *told(checker, origin, path))
        lines, what = spoiled(lines, way)
        signed_zones.keep(path, lines)
        sums.add(f"{number}, {origin}", way, path, verifies(origin, path, lines, way), *told(checker, origin, path), what)


def has_names_below_dnames(lines):
    """Whether the zone as it was signed has these: kzonesign writes some names with an octet 0 as others."""
    owners = {it.split()[0].lower() for it in lines}
    dnames = {it.split()[0].lower() for it in lines if signed_zones.type_of(it)[0] == "DNAME"}
    return any(random_zones.is_below(name, owner) for owner in dnames for name in owners)


def main(seed="1", count="300", folder=None):
    signers = signed_zones.signers()
    for signer in SIGNERS.keys() - set(signers):
        print(f"closed_zones: {signer}, or what it needs, isn't there, so it signs no zone")
    if not signers or not found("dnssec-verify"):
        print("closed_zones: there is no signer, or no dnssec-verify, so nothing is looked at")
        return 0
    ways = [(signer, kind, beside) for kind in KINDS for signer in signers for beside in ("", *(BESIDE if kind != "nsec" else ("",)))]
    checker, sums = peers.program("zone_check"), Sums(folder)
    if folder:
        os.makedirs(folder, exist_ok=True)
    for number in range(int(count)):
        random.seed(f"{seed} {number}")
        look_at(sums, number, signed_zones.random_way(*ways[number % len(ways)]), checker)
    sums.tell()
    return 1 if sums.differing else 0


if __name__ == "__main__":
    peers.called(main, __doc__, 3)
