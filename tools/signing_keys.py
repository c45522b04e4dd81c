"""The keys in a folder: as dnssec-keygen makes them (K*.key and K*.private), or a KASP database of Knot's keymgr (data.mdb, and the
private keys in keys/*.pem)."""
import argparse
import base64
import glob
import json
import os
import struct
import subprocess
import sys
import tempfile

import running

# The folders with the public keys of KASP databases, which last as long as this program.
EXPORTED = {}

# The algorithms whose keys sign here: RSA with SHA-256 and SHA-512, ECDSA with P-256 and P-384, Ed25519 and Ed448.
SUPPORTED = (8, 10, 13, 14, 15, 16)


def fail(why):
    running.say("sign", why)
    sys.exit(2)


# ---- those of dnssec-keygen


def library():
    """The parts of python3-cryptography that sign and verify."""
    try:
        from cryptography.exceptions import InvalidSignature
        from cryptography.hazmat.primitives import hashes, serialization
        from cryptography.hazmat.primitives.asymmetric import ec, ed448, ed25519, padding, rsa, utils
    except ImportError:
        fail("python3-cryptography, which signs, isn't installed")
    parts = {"hashes": hashes, "serialization": serialization, "ec": ec, "ed448": ed448, "ed25519": ed25519, "padding": padding, "rsa": rsa, "utils": utils}
    return argparse.Namespace(InvalidSignature=InvalidSignature, **parts)


def curve_of(it, algorithm):
    """The curve of ECDSA keys, how long a number is, and the hash (RFC 6605 section 4)."""
    return (it.ec.SECP256R1(), 32, it.hashes.SHA256()) if algorithm == 13 else (it.ec.SECP384R1(), 48, it.hashes.SHA384())


def hash_of(it, algorithm):
    """The hash of RSA signatures (RFC 5702)."""
    return it.hashes.SHA256() if algorithm == 8 else it.hashes.SHA512()


def private_of(path):
    """The fields of a private key file."""
    try:
        with open(path, encoding="ascii") as it:
            return dict(line.rstrip("\n").split(": ", 1) for line in it if ": " in line)
    except (OSError, ValueError) as error:
        fail(f"{path}: {error}")


def signing_with(it, algorithm, key):
    """A function that signs octets by an algorithm with a private key."""
    if algorithm in (15, 16):
        return key.sign
    if algorithm in (13, 14):
        _, length, hashed = curve_of(it, algorithm)
        # The two numbers, one after the other (RFC 6605 section 4).
        numbers = lambda what: it.utils.decode_dss_signature(key.sign(what, it.ec.ECDSA(hashed)))
        return lambda what: b"".join(part.to_bytes(length, "big") for part in numbers(what))
    return lambda what: key.sign(what, it.padding.PKCS1v15(), hash_of(it, algorithm))


def private_key(it, algorithm, fields):
    """The private key of an algorithm in the fields of a file of dnssec-keygen."""
    octets = lambda name: base64.b64decode(fields[name])
    number = lambda name: int.from_bytes(octets(name), "big")
    if algorithm == 15:
        return it.ed25519.Ed25519PrivateKey.from_private_bytes(octets("PrivateKey"))
    if algorithm == 16:
        return it.ed448.Ed448PrivateKey.from_private_bytes(octets("PrivateKey"))
    if algorithm in (13, 14):
        return it.ec.derive_private_key(number("PrivateKey"), curve_of(it, algorithm)[0])
    public = it.rsa.RSAPublicNumbers(number("PublicExponent"), number("Modulus"))
    parts = [number(name) for name in ("Prime1", "Prime2", "PrivateExponent", "Exponent1", "Exponent2", "Coefficient")]
    return it.rsa.RSAPrivateNumbers(*parts, public).private_key()


def signer_of(path):
    """A function that signs octets with the private key in a file of dnssec-keygen."""
    it = library()
    fields = private_of(path)
    try:
        algorithm = int(fields["Algorithm"].split()[0])
        if algorithm in SUPPORTED:
            return signing_with(it, algorithm, private_key(it, algorithm, fields))
    except (KeyError, ValueError) as error:
        fail(f"{path}: not a private key: {error}")
    fail(f"{path}: algorithm {algorithm} isn't supported")


def der_parts(octets):
    """The contents of the parts of a DER sequence (X.690 section 8.1)."""
    parts = []
    while octets:
        length, start = octets[1], 2
        if length & 0x80:
            start += length & 0x7F
            length = int.from_bytes(octets[2:start], "big")
        parts.append(octets[start : start + length])
        octets = octets[start + length :]
    return parts


def pem_key(it, algorithm, text):
    """The private key of an algorithm in the text of a file of keymgr (PKCS #8)."""
    if algorithm not in (13, 14):
        return it.serialization.load_pem_private_key(text, None)
    # keymgr writes the number of the key as a DER integer, with or without a zero before it, which the library rejects.
    [outer] = der_parts(base64.b64decode(b"".join(text.split(b"\n")[1:-2])))
    [inner] = der_parts(der_parts(outer)[2])
    return it.ec.derive_private_key(int.from_bytes(der_parts(inner)[1], "big"), curve_of(it, algorithm)[0])


def pem_signer_of(path, algorithm):
    """A function that signs octets by an algorithm with the private key in a file of keymgr."""
    it = library()
    if algorithm not in SUPPORTED:
        fail(f"{path}: algorithm {algorithm} isn't supported")
    try:
        with open(path, "rb") as file:
            return signing_with(it, algorithm, pem_key(it, algorithm, file.read()))
    except (OSError, ValueError, TypeError, IndexError) as error:
        fail(f"{path}: not a private key: {error}")


def rsa_numbers(it, octets):
    """The numbers of a public RSA key (RFC 3110 section 2)."""
    start, length = (1, octets[0]) if octets[0] else (3, int.from_bytes(octets[1:3], "big"))
    exponent, modulus = octets[start : start + length], octets[start + length :]
    return it.rsa.RSAPublicNumbers(int.from_bytes(exponent, "big"), int.from_bytes(modulus, "big"))


def public_of(path):
    """The data of the DNSKEY record in a public key file."""
    try:
        with open(path, encoding="ascii") as it:
            words = [word for line in it for word in line.split(";")[0].split()]
        flags, protocol, algorithm, *key = words[words.index("DNSKEY") + 1 :]
        return struct.pack("!HBB", int(flags), int(protocol), int(algorithm)) + base64.b64decode("".join(key))
    except (OSError, ValueError, struct.error) as error:
        fail(f"{path}: not a public key: {error}")


def tag_of(data):
    """The tag of a key (RFC 4034 appendix B)."""
    total = sum(octet if place % 2 else octet << 8 for place, octet in enumerate(data))
    return (total + (total >> 16)) & 0xFFFF


def verifier_of(data):
    """A function that says whether a signature of octets is valid by the key with these DNSKEY data."""
    it, algorithm, key = library(), data[3], data[4:]

    def verify(what, signature):
        try:
            if algorithm in (15, 16):
                kind = it.ed25519.Ed25519PublicKey if algorithm == 15 else it.ed448.Ed448PublicKey
                kind.from_public_bytes(key).verify(signature, what)
            elif algorithm in (13, 14):
                curve, length, hashed = curve_of(it, algorithm)
                number = lambda octets: int.from_bytes(octets, "big")
                public = it.ec.EllipticCurvePublicNumbers(number(key[:length]), number(key[length:]), curve).public_key()
                public.verify(it.utils.encode_dss_signature(number(signature[:length]), number(signature[length:])), what, it.ec.ECDSA(hashed))
            elif algorithm in (8, 10):
                rsa_numbers(it, key).public_key().verify(signature, what, it.padding.PKCS1v15(), hash_of(it, algorithm))
            else:
                return False
        except (it.InvalidSignature, ValueError, IndexError):
            return False
        return True

    return verify


# ---- those of keymgr


def is_database(folder):
    """Whether a folder is a KASP database."""
    return os.path.exists(f"{folder}/data.mdb")


def keymgr(folder, *words):
    """What keymgr writes for a KASP database."""
    try:
        ran = subprocess.run(["keymgr", "-D", folder, *words], capture_output=True, text=True)
    except FileNotFoundError:
        fail(f"{folder}: a KASP database, and keymgr, which reads it, isn't on the path")
    return ran.stdout if ran.returncode == 0 else fail(f"{folder}: keymgr: {(ran.stderr or ran.stdout).strip()}")


def listed(folder, origin):
    """The keys of a zone in a KASP database, by the names that dnssec-keygen would give them."""
    found = json.loads(keymgr(folder, "-j", origin, "list") or "[]")
    return {f"K{origin.lower().rstrip('.')}.+{key['algorithm']:03}+{key['tag']:05}": key for key in found}


def exported(folder, origin):
    """A folder with the public keys of a zone in a KASP database, each in a file."""
    if not origin:
        zones = keymgr(folder, "-l").split()
        origin = zones[0] if len(zones) == 1 else fail(f"{folder}: keys of {len(zones)} zones, so --origin is needed")
    if (folder, origin) not in EXPORTED:
        made = tempfile.TemporaryDirectory(prefix="sign-")
        for name, key in listed(folder, origin).items():
            with open(f"{made.name}/{name}.key", "w", encoding="ascii") as it:
                it.write(keymgr(folder, origin, "dnskey", key["id"]))
        EXPORTED[folder, origin] = made
    return EXPORTED[folder, origin].name


# ---- the keys of a folder


def publics(folder, origin):
    """The files of the public halves of the keys, in the order in which frames number them: only those of the origin, if it is given."""
    holder = exported(folder, origin) if is_database(folder) else folder
    stem = f"{origin.lower().rstrip('.')}.+" if origin else ""
    found = sorted(glob.glob(f"{glob.escape(f'{holder}/K{stem}')}*.key"))
    return found or fail(f"{folder}: no key found" + ("" if is_database(folder) else f", K{stem}*.key"))


def names(paths):
    """The names of these files, without the folder and the extension."""
    return [os.path.basename(path).removesuffix(".key") for path in paths]


def signers(folder, keys):
    """For each of the keys with these names, a function that signs with it."""
    if not is_database(folder):
        return [signer_of(f"{folder}/{name}.private") for name in keys]
    made = []
    for name in keys:
        key = listed(folder, name[1:].split("+")[0]).get(name) or fail(f"{folder}: no key {name}")
        made.append(pem_signer_of(f"{folder}/keys/{key['id']}.pem", key["algorithm"]))
    return made
