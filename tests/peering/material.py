"""Certificates, requests, CRLs, PKCS#7 and keys in DER, made with openssl in a folder.

Names of one to three letters give signed things whose lengths leave each remainder modulo 3: no pad, one and two.
"""
import base64
import collections

import tools

CONFIGURATION = """
[req]
distinguished_name = name
prompt = no
[name]
CN = unused
[ca]
default_ca = authority
[authority]
database = index.txt
serial = serial
new_certs_dir = .
default_md = default
policy = policy
unique_subject = no
[policy]
commonName = supplied
[root]
basicConstraints = critical, CA:TRUE
"""
LARGE_SECTION = """
[large]
1.2.3.4 = DER:{octets}
"""
LARGE_EXTENSION = 49_000
# A line of openssl's database: revoked, with the days of expiry and of revocation, and a serial number.
REVOKED = "R\t351231235959Z\t260101000000Z\t{serial}\tunknown\t/CN=revoked\n"
FEW, MANY = 1, 5_000
SIGNING_KEYS = {
    "RSA": ["RSA", "-pkeyopt", "rsa_keygen_bits:2048"],
    "P-256": ["EC", "-pkeyopt", "ec_paramgen_curve:P-256"],
    "P-384": ["EC", "-pkeyopt", "ec_paramgen_curve:P-384"],
    "P-521": ["EC", "-pkeyopt", "ec_paramgen_curve:P-521"],
    "Ed25519": ["ED25519"],
    "Ed448": ["ED448"],
}
OTHER_KEYS = {"X25519": ["X25519"], "RSA 3072": ["RSA", "-pkeyopt", "rsa_keygen_bits:3072"]}
NAMES = ["a", "ab", "abc"]
DAYS = "3650"
PKCS8 = ["pkcs8", "-topk8", "-nocrypt"]
FIRST_DAY, LAST_DAY = "20260101000000Z", "20351231235959Z"
# PKCS#8 of an Ed25519 key up to its 32 bytes: the same key, and so the same certificate, in each run.
ED25519_START = bytes.fromhex("302e020100300506032b657004220420")

Thing = collections.namedtuple("Thing", "kind name data")


def octets_in_hex(count):
    """An OCTET STRING of a count of zeros that needs two octets of length."""
    return "0482" + f"{count:04x}" + "00" * count


class Maker:
    def __init__(self, folder):
        self.folder = folder
        self.openssl = tools.Openssl(folder)
        self.write("openssl.cnf", CONFIGURATION)
        self.revoke(FEW)

    def write(self, name, text):
        tools.stored(self.folder, name, text.encode())

    def revoke(self, count):
        """Serial numbers of 16 octets, as authorities give them."""
        self.write("index.txt", "".join(REVOKED.format(serial=f"{2**126 + i:032X}") for i in range(count)))

    def key(self, name, words):
        self.openssl.call("genpkey", "-algorithm", *words, "-out", name)
        return name

    def self_signed(self, key, name):
        return self.openssl.call("req", "-x509", "-new", "-key", key, "-subj", "/CN=" + name, "-days", DAYS,
                                 "-set_serial", "7", "-extensions", "root", "-outform", "DER")

    def request(self, key, name):
        return self.openssl.call("req", "-new", "-key", key, "-subj", "/CN=" + name, "-outform", "DER")

    def crl(self, key, certificate):
        """openssl ca has no DER form for a CRL, so openssl crl gives it."""
        tools.stored(self.folder, "issuer", certificate)
        text = self.openssl.call("ca", "-gencrl", "-keyfile", key, "-cert", "issuer", "-crldays", DAYS)
        return self.openssl.convert(tools.CRL, text, "PEM", "DER")

    def large_crl(self, key):
        self.revoke(MANY)
        data = self.crl(key, self.self_signed(key, "large"))
        self.revoke(FEW)
        return Thing(tools.CRL, f"{key}, {MANY} revoked", data)

    def pkcs7(self, certificates):
        tools.stored(self.folder, "chain", b"".join(map(plain_pem, certificates)))
        return self.openssl.call("crl2pkcs7", "-nocrl", "-certfile", "chain", "-outform", "DER")

    def signed_things(self, key, name):
        certificate = self.self_signed(key, name)
        return [
            Thing(tools.CERTIFICATE, f"{key}, name {name}", certificate),
            Thing(tools.REQUEST, f"{key}, name {name}", self.request(key, name)),
            Thing(tools.CRL, f"{key}, name {name}", self.crl(key, certificate)),
            Thing(tools.PKCS7, f"{key}, name {name}", self.pkcs7([certificate])),
        ]

    def key_things(self, key):
        things = [
            Thing(tools.PRIVATE_KEY, key, self.openssl.call(*PKCS8, "-in", key, "-outform", "DER")),
            Thing(tools.PUBLIC_KEY, key, self.openssl.call("pkey", "-in", key, "-pubout", "-outform", "DER")),
        ]
        if key.startswith("P-"):
            things.append(Thing(tools.EC_KEY, key, self.openssl.call("ec", "-in", key, "-outform", "DER")))
        if key.startswith("RSA"):
            old_form = self.openssl.call("rsa", "-in", key, "-traditional", "-outform", "DER")
            things.append(Thing(tools.RSA_KEY, key, old_form))
        return things

    def things(self):
        signing = [self.key(name, words) for name, words in SIGNING_KEYS.items()]
        others = [self.key(name, words) for name, words in OTHER_KEYS.items()]
        signed = [thing for key in signing for name in NAMES for thing in self.signed_things(key, name)]
        keys = [thing for key in signing + others for thing in self.key_things(key)]
        return signed + [self.large_crl("P-256")] + keys

    def chain(self, keys):
        """A root certificate and one below the other, of the keys given."""
        certificates, issuer = [self.self_signed(keys[0], "root")], keys[0]
        for level, key in enumerate(keys[1:], 1):
            tools.stored(self.folder, "issuer", certificates[-1])
            tools.stored(self.folder, "request", self.request(key, f"level {level}"))
            certificates.append(self.openssl.call(
                "x509", "-req", "-inform", "DER", "-in", "request", "-CA", "issuer", "-CAkey", issuer,
                "-set_serial", str(level), "-days", DAYS, "-extfile", "openssl.cnf", "-extensions", "root",
                "-outform", "DER"))
            issuer = key
        return certificates

    def settled(self, name, *options):
        """A certificate that is the same in each run: its key, serial number and days are fixed."""
        tools.stored(self.folder, "settled", ED25519_START + bytes(range(32)))
        tools.stored(self.folder, "request", self.request("settled", name))
        self.revoke(FEW)  # openssl ca gives a serial number once only
        self.write("serial", "07\n")
        text = self.openssl.call(
            "ca", "-batch", "-selfsign", "-keyfile", "settled", "-inform", "DER", "-in", "request", "-notext",
            "-startdate", FIRST_DAY, "-enddate", LAST_DAY, *(options or ["-extensions", "root"]))
        return self.openssl.convert(tools.CERTIFICATE, text, "PEM", "DER")

    def settled_large(self):
        """A settled certificate with an extension that makes its text longer than 65,536 bytes."""
        self.write("large.cnf", LARGE_SECTION.format(octets=octets_in_hex(LARGE_EXTENSION)))
        return self.settled("a", "-extfile", "large.cnf", "-extensions", "large")

    def settled_with_pads(self, pads):
        """A settled certificate whose base 64 ends in 0, 1 or 2 pads."""
        found = (self.settled("a" * length) for length in range(1, 4))
        return next(data for data in found if -len(data) % 3 == pads)


def lines_of(data, width=64):
    text = base64.b64encode(data)
    return [text[i:i + width] for i in range(0, len(text), width)]


def plain_pem(data, label=b"CERTIFICATE", width=64):
    """PEM made without our writer, so that what the peers are given to start from does not depend on it."""
    lines = [b"-----BEGIN " + label + b"-----", *lines_of(data, width), b"-----END " + label + b"-----"]
    return b"".join(line + b"\n" for line in lines)
