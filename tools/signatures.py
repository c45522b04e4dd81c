"""The signatures of a signed zone, each verified by the keys at the apex (RFC 4035 section 5.3)."""
import concurrent.futures

from signing_keys import tag_of, verifier_of

# The type of the records that have the keys, and what ends the fixed part of a signature's data.
DNSKEY, FIXED = 48, 18

# The algorithms by which is verified: RSA with SHA-256 and SHA-512, ECDSA, and EdDSA.
ALGORITHMS = (8, 10, 13, 14, 15, 16)

TYPES = {1: "A", 2: "NS", 5: "CNAME", 6: "SOA", 12: "PTR", 15: "MX", 16: "TXT", 28: "AAAA", 33: "SRV", 39: "DNAME", 43: "DS", 47: "NSEC"}
TYPES |= {48: "DNSKEY", 50: "NSEC3", 51: "NSEC3PARAM", 52: "TLSA", 59: "CDS", 60: "CDNSKEY", 63: "ZONEMD", 64: "SVCB", 65: "HTTPS", 257: "CAA"}


def name_at(octets, at):
    """The text of the name in wire form at a place, and the place behind it."""
    labels = []
    while length := octets[at]:
        label = octets[at + 1 : at + 1 + length]
        labels.append("".join(chr(octet) if chr(octet).isalnum() and octet < 128 or octet in b"-_*/" else f"\\{octet:03d}" for octet in label))
        at += 1 + length
    return ".".join(labels) + ".", at + 1


def record_at(octets, at):
    """The owner and the data of the record at a place, and the place behind it."""
    owner, at = name_at(octets, at)
    end = at + 10 + int.from_bytes(octets[at + 8 : at + 10], "big")
    return owner, octets[at + 10 : end], end


class Signature:
    """A signature, and the octets that it is made of (RFC 4034 section 3.1.8.1)."""

    def __init__(self, octets, signature):
        self.octets, self.signature = octets, signature
        self.covered, self.algorithm, self.tag = int.from_bytes(octets[:2], "big"), octets[2], int.from_bytes(octets[16:18], "big")
        self.signer, self.start = name_at(octets, FIXED)
        self.owner = record_at(octets, self.start)[0]

    def data(self):
        at = self.start
        while at < len(self.octets):
            _, data, at = record_at(self.octets, at)
            yield data

    def text(self):
        return f"{self.owner} {TYPES.get(self.covered, f'TYPE{self.covered}')}: the signature by key {self.tag} of algorithm {self.algorithm}"


def is_zone_key(data):
    """Whether a key may verify signatures of a zone: its flag says so, and its protocol is 3 (RFC 4034 sections 2.1.1 and 2.1.2)."""
    return data[0] & 1 == 1 and data[2] == 3


def keys_of(signatures):
    """The zone keys by signer, algorithm and tag: those of the DNSKEY set of the signer."""
    found = {(it.signer, data) for it in signatures if it.covered == DNSKEY and it.owner == it.signer for data in it.data() if is_zone_key(data)}
    keys = {}
    for signer, data in sorted(found):
        keys.setdefault((signer, data[3], tag_of(data)), []).append(verifier_of(data))
    return keys


def fault_of(signature, keys):
    """What is wrong with a signature; none if it is valid."""
    if signature.algorithm not in ALGORITHMS:
        return f"{signature.text()} can't be verified: the algorithm isn't known here"
    able = keys.get((signature.signer, signature.algorithm, signature.tag))
    if not able:
        return f"{signature.text()}: {signature.signer} has no such zone key in a DNSKEY set that is signed"
    if not any(verify(signature.octets, signature.signature) for verify in able):
        return f"{signature.text()} isn't valid"
    return None


def faults_of(standing):
    """How many signatures there are, and what is wrong with them, in their order. Each comes with the octets that it is made of."""
    signatures = [Signature(*one) for one in standing]
    keys = keys_of(signatures)
    with concurrent.futures.ThreadPoolExecutor() as pool:
        return len(signatures), [why for why in pool.map(lambda it: fault_of(it, keys), signatures) if why]
