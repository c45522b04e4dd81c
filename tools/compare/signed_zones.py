"""Zone files as signers write them: dnssec-signzone of BIND, ldns-signzone and Knot's kzonesign, with NSEC, with NSEC3 and with opt-out;
and with what exists beside a chain while another replaces it: a second one, the rest of an old one, or NSEC records beside NSEC3.
Other tools make queries about them, and check them.

The signers are those of Debian's packages bind9-utils, ldnsutils and knot-dnssecutils; keys are made by dnssec-keygen of bind9-utils and
passed to kzonesign by keymgr of knot-dnssecutils.
"""
import dataclasses
import glob
import os
import random
import shutil
import subprocess

from peers import found

# What each signer needs.
SIGNERS = {
    "dnssec-signzone": ("dnssec-keygen", "dnssec-signzone"),
    "ldns-signzone": ("dnssec-keygen", "ldns-signzone"),
    "kzonesign": ("dnssec-keygen", "keymgr", "kzonesign"),
}
KINDS = ("nsec", "nsec3", "opt-out")

# What may stand beside a zone's own chain of NSEC3 records: another whole one, which a second NSEC3PARAM record names; a part of another
# one, which no such record names any more; and a chain of NSEC records (RFC 5155 sections 7.3, 8.2 and 10).
BESIDE = ("second", "leftovers", "nsec")

# The parameters of a second chain.
OTHER_SALT, OTHER_ITERATIONS = "ccdd", 1

KNOT = """server:
 rundir: "{folder}"
database:
 storage: "{folder}"
policy:
 - id: signing
   algorithm: ecdsap256sha256
   manual: on
   nsec3: {has_nsec3}
   nsec3-iterations: {iterations}
   nsec3-salt-length: {salt_length}
   nsec3-opt-out: {opts_out}
zone:
 - domain: "{origin}"
   file: "{path}"
   dnssec-signing: on
   dnssec-policy: signing
   zonefile-load: difference-no-serial
   journal-content: all
"""


@dataclasses.dataclass(frozen=True)
class Way:
    """How a zone is signed: by which signer, with which kind of denials, with which salt in hex and how many iterations, and what stands
    beside its chain. Knot takes a salt of its own, of that length."""

    signer: str = "dnssec-signzone"
    kind: str = "nsec"
    salt: str = ""
    iterations: int = 0
    beside: str = ""

    @property
    def opts_out(self):
        return self.kind == "opt-out"

    def __str__(self):
        return " ".join([self.signer, self.kind, *([f"with {self.beside}"] if self.beside else [])])


def signers():
    """The signers that are there."""
    return [signer for signer, tools in SIGNERS.items() if all(map(found, tools))]


def ran(folder, tool, *words):
    """What a tool writes, which runs in a folder."""
    done = subprocess.run([found(tool), *words], cwd=folder, capture_output=True, text=True, errors="replace")
    if done.returncode:
        raise subprocess.CalledProcessError(done.returncode, [tool, *words], done.stdout, done.stderr)
    return done.stdout


# ---- zones without signatures


def cased(name):
    """A name with letters of either case, without changing an escape."""
    return "".join(it.upper() if random.random() < 0.4 else it for it in name)


def written(folder, origin, records, mixes_case=False):
    """The name of the file of a zone without signatures. A name is written alike wherever it stands."""
    path, ttls, names = f"{folder}/{origin}zone", {}, {}

    def as_written(word):
        return names.setdefault(word, cased(word)) if mixes_case and word.endswith(".") else word

    with open(path, "w", encoding="ascii") as it:
        for owner, kind, data in records:
            ttl = ttls.setdefault((owner, kind), random.choice([300, 3600]))
            it.write(f"{as_written(owner)} {ttl} IN {kind} {' '.join(map(as_written, data.split(' ')))}\n")
    return path


# ---- signed ones


def keys(folder, origin):
    """The names of the files of a zone's two keys, without their ends; they are made where there are none."""
    stem = f"{folder}/K{origin}+013+"
    if not glob.glob(f"{glob.escape(stem)}*.key"):
        for flag in (["-f", "KSK"], []):
            ran(folder, "dnssec-keygen", "-q", "-a", "ECDSAP256SHA256", *flag, origin)
    return sorted(os.path.basename(it).removesuffix(".key") for it in glob.glob(f"{glob.escape(stem)}*.key"))


def anchor(folder, origin):
    """The file of the key that the zone's other key is signed by, as a validator trusts in it."""
    for key in keys(folder, origin):
        with open(f"{folder}/{key}.key", encoding="ascii") as it:
            if " DNSKEY 257 " in it.read():
                return f"{folder}/{key}.key"
    raise FileNotFoundError(f"no key of {origin}")


def delegation_signer(folder, origin):
    """The data of the DS record of a zone (RFC 4034 section 5)."""
    return ran(folder, "dnssec-dsfromkey", "-2", anchor(folder, origin)).split(" DS ")[1].strip()


def static_anchor(folder, origin):
    """The line of a zone's key in the file of trust anchors that delv reads."""
    tag, algorithm, kind, octets = delegation_signer(folder, origin).split(None, 3)
    return f'"{origin}" static-ds {tag} {algorithm} {kind} "{octets}";'


def keep_anchors(path, lines):
    """Writes the file of trust anchors that delv reads, and gives its path."""
    with open(path, "w", encoding="ascii") as it:
        it.write("trust-anchors {\n" + "".join(f" {line}\n" for line in lines) + "};\n")
    return path


def by_bind(folder, origin, path, way):
    hashed = ["-3", way.salt or "-", "-H", str(way.iterations)] if way.kind != "nsec" else []
    words = ["-O", "full", "-P", "-S", "-K", ".", *hashed, *(["-A"] if way.opts_out else []), "-o", origin, "-f", f"{path}.signed", path]
    ran(folder, "dnssec-signzone", *words)


def by_ldns(folder, origin, path, way):
    hashed = ["-n", "-t", str(way.iterations), *(["-s", way.salt] if way.salt else [])] if way.kind != "nsec" else []
    ran(folder, "ldns-signzone", *hashed, *(["-p"] if way.opts_out else []), "-o", origin, "-f", f"{path}.signed", path, *keys(folder, origin))


def by_knot(folder, origin, path, way):
    own = f"{path}.knot"
    shutil.rmtree(own, ignore_errors=True)
    os.mkdir(own)
    words = {"iterations": way.iterations, "salt_length": len(way.salt) // 2}
    words |= {"has_nsec3": "off" if way.kind == "nsec" else "on", "opts_out": "on" if way.opts_out else "off"}
    with open(f"{own}/conf", "w", encoding="ascii") as it:
        it.write(KNOT.format(folder=own, origin=origin, path=path, **words))
    for key in keys(folder, origin):
        ran(folder, "keymgr", "-c", f"{own}/conf", origin, "import-bind", f"{folder}/{key}.key")
    os.mkdir(f"{own}/signed")
    ran(folder, "kzonesign", "-c", f"{own}/conf", "-o", f"{own}/signed", origin)
    (made,) = os.listdir(f"{own}/signed")
    os.rename(f"{own}/signed/{made}", f"{path}.signed")


BY = {"dnssec-signzone": by_bind, "ldns-signzone": by_ldns, "kzonesign": by_knot}


def signed_once(folder, origin, path, way):
    """Signs a zone file with one chain, and gives the lines of what comes of it."""
    keys(folder, origin)
    BY[way.signer](folder, origin, path, way)
    with open(f"{path}.signed", encoding="ascii", errors="surrogateescape") as it:
        return [line for line in it.read().splitlines() if line.strip() and not line.startswith(";")]


def type_of(line):
    """The type of the record of a line, and of a signature the type that it covers too."""
    kind, first = [it for it in line.split()[1:] if it != "IN"][1:3]
    return kind, first if kind == "RRSIG" else ""


def of_types(lines, *types):
    """The records of these types, with their signatures."""
    return [it for it in lines if type_of(it)[0] in types or type_of(it)[1] in types]


def without_types(lines, *types):
    kept = set(of_types(lines, *types))
    return [it for it in lines if it not in kept]


def both_parameters(folder, origin, path, lines):
    """NSEC3PARAM of both chains at the origin, with one signature. ldns-signzone signs what stands there, beside NSEC records."""
    own = [it for it in lines if type_of(it)[0] == "NSEC3PARAM"]
    other = f"{origin} {own[0].split()[1]} IN NSEC3PARAM 1 0 {OTHER_ITERATIONS} {OTHER_SALT}"
    return of_types(lines_beside_nsec(folder, origin, path, [*own, other]), "NSEC3PARAM")


def lines_beside_nsec(folder, origin, path, parameters):
    """The lines of the zone as ldns-signzone signs it with NSEC records, with these records of NSEC3PARAM at its origin."""
    with open(path, encoding="ascii") as it:
        text = it.read()
    with open(f"{path}.beside", "w", encoding="ascii") as it:
        it.write(text + "".join(f"{line}\n" for line in parameters))
    return signed_once(folder, origin, f"{path}.beside", Way("ldns-signzone"))


def with_more(folder, origin, path, way, lines):
    """The lines of a signed zone with what is to stand beside its chain."""
    if way.beside == "nsec":
        parameters = [it for it in lines if type_of(it)[0] == "NSEC3PARAM"]
        return lines + of_types(lines_beside_nsec(folder, origin, path, parameters), "NSEC")
    other_signer = "dnssec-signzone" if way.signer == "kzonesign" else way.signer
    other = dataclasses.replace(way, signer=other_signer, salt=OTHER_SALT, iterations=OTHER_ITERATIONS, beside="")
    shutil.copy(path, f"{path}.other")
    others = of_types(signed_once(folder, origin, f"{path}.other", other), "NSEC3")
    if way.beside == "leftovers":
        left = {owner for owner in sorted({it.split()[0].lower() for it in others}) if random.random() < 0.5}
        return lines + [it for it in others if it.split()[0].lower() in left]
    return without_types(lines, "NSEC3PARAM") + both_parameters(folder, origin, path, lines) + others


def keep(path, lines):
    """Writes a file of these lines."""
    with open(path, "w", encoding="ascii", errors="surrogateescape") as it:
        it.writelines(f"{line}\n" for line in lines)


def signed(folder, origin, path, way):
    """The name of the file of a zone that is signed in this way, a record a line, and its lines; of the file of one without signatures."""
    lines = signed_once(folder, origin, path, way)
    lines = with_more(folder, origin, path, way, lines) if way.beside else lines
    keep(f"{path}.signed", lines)
    return f"{path}.signed", lines


def random_way(signer, kind, beside=""):
    """A way with parameters by chance."""
    salt, iterations = random.choice([("", 0), ("", 0), ("aabbccdd", 2), ("", 5)]) if kind != "nsec" else ("", 0)
    return Way(signer, kind, salt, iterations, beside if kind != "nsec" else "")


def some_way(those, least):
    """A way by chance, of those signers; none of them with so much probability, or where there is no signer."""
    if not those or random.random() < least:
        return None
    return random_way(random.choice(those), random.choice(KINDS), random.choice(("", "", "", *BESIDE)))
