"""The peers: each turns a thing of some kind from PEM or DER into PEM or DER.

A tool refuses by raising Refused. Kinds that a tool writes anew from the numbers of a key, and so perhaps with other
bytes than it was given, are in its `anew`. `one` and `several` are the certificates that it sees in a text. `styles` are
the line ends in which it gets what we write.
"""
import base64
import os
import re
import shutil
import ssl
import subprocess
import sys

try:
    import cryptography
    from cryptography import x509
    from cryptography.exceptions import UnsupportedAlgorithm
    from cryptography.hazmat.primitives import serialization
    from cryptography.hazmat.primitives.serialization import pkcs7
except ImportError:
    cryptography = None

PEM, DER = "PEM", "DER"
CERTIFICATE, REQUEST, CRL, PKCS7 = "certificates", "certificate requests", "CRLs", "PKCS#7 structures"
PUBLIC_KEY, PRIVATE_KEY, EC_KEY, RSA_KEY = "public keys", "PKCS#8 private keys", "EC private keys", "RSA private keys"
PRIVATE_KEYS = {PRIVATE_KEY, EC_KEY, RSA_KEY}
LABELS = {
    CERTIFICATE: b"CERTIFICATE", REQUEST: b"CERTIFICATE REQUEST", CRL: b"X509 CRL", PKCS7: b"PKCS7",
    PUBLIC_KEY: b"PUBLIC KEY", PRIVATE_KEY: b"PRIVATE KEY", EC_KEY: b"EC PRIVATE KEY", RSA_KEY: b"RSA PRIVATE KEY",
}
# openssl knows no CR.
NO_CR = ["LF", "CRLF"]
ANY_STYLE = [*NO_CR, "CR"]
SECONDS = 60
# A tool's PEM is taken apart here without our calls: boundaries alone on their lines, and base 64 by Python.
OWN_MESSAGE = re.compile(rb"^-----BEGIN ([^\n]*)-----\n([^-]*)-----END \1-----$", re.MULTILINE)


class Refused(Exception):
    pass


def run(folder, *words):
    """What a program prints. It gets no terminal, so that none can wait for a pass phrase."""
    surroundings = {**os.environ, "LC_ALL": "C", "OPENSSL_CONF": os.path.join(folder, "openssl.cnf")}
    done = subprocess.run(words, cwd=folder, env=surroundings, stdin=subprocess.DEVNULL, capture_output=True,
                          timeout=SECONDS, start_new_session=True)
    if done.returncode:
        raise Refused(f"{' '.join(words)}: {done.stderr.decode(errors='replace').strip()}")
    return done.stdout


def stored(folder, name, content):
    path = os.path.join(folder, name)
    with open(path, "wb") as file:
        file.write(content)
    return path


def messages_of(text):
    """Labels and data of a tool's own output."""
    return [(label, base64.b64decode(body)) for label, body in OWN_MESSAGE.findall(text)]


def certificates_of(text):
    return [data for label, data in messages_of(text) if label == LABELS[CERTIFICATE]]


class OpensslProgram:
    styles = NO_CR
    anew = set()
    commands = {}

    def __init__(self, folder):
        self.folder = folder

    def version(self):
        return self.call("version").decode().split(" (")[0].strip() if shutil.which("openssl") else None

    def call(self, *words):
        return run(self.folder, "openssl", *words)


class Openssl(OpensslProgram):
    name = "openssl"
    writes = True
    commands = {
        CERTIFICATE: ["x509"], REQUEST: ["req"], CRL: ["crl"], PKCS7: ["pkcs7"], PUBLIC_KEY: ["pkey", "-pubin"],
        PRIVATE_KEY: ["pkcs8", "-topk8", "-nocrypt"], EC_KEY: ["ec"], RSA_KEY: ["rsa", "-traditional"],
    }

    def convert(self, kind, given, before, after):
        path = stored(self.folder, "given", given)
        return self.call(*self.commands[kind], "-inform", before, "-in", path, "-outform", after)

    def one(self, text):
        return [self.convert(CERTIFICATE, text, PEM, DER)]

    def several(self, text):
        """The certificates of a text, gathered into PKCS#7, which keeps their order, and printed from there."""
        stored(self.folder, "given", text)
        self.call("crl2pkcs7", "-nocrl", "-certfile", "given", "-outform", DER, "-out", "gathered")
        return certificates_of(self.call("pkcs7", "-inform", DER, "-in", "gathered", "-print_certs"))


class Asn1parse(OpensslProgram):
    """openssl's reader for any label: it gives the bytes of any DER as they came, and writes no PEM."""
    name = "openssl asn1parse"
    writes = False
    commands = Openssl.commands

    def convert(self, kind, given, before, after):
        path = stored(self.folder, "given", given)
        out = os.path.join(self.folder, "parsed")
        self.call("asn1parse", "-inform", before, "-in", path, "-noout", "-out", out)
        with open(out, "rb") as file:
            return file.read()


class Storeutl(OpensslProgram):
    name = "openssl storeutl"
    writes = False

    def several(self, text):
        return certificates_of(self.call("storeutl", "-certs", stored(self.folder, "given", text)))


class Certtool:
    name = "certtool"
    styles = NO_CR  # CR alone it gets as one of the variations only
    writes = True
    # A private key comes out in the form of its algorithm, whichever form it came in.
    anew = PRIVATE_KEYS
    commands = {
        CERTIFICATE: "--certificate-info", REQUEST: "--crq-info", CRL: "--crl-info", PKCS7: "--p7-info",
        PUBLIC_KEY: "--pubkey-info", **dict.fromkeys(PRIVATE_KEYS, "--key-info"),
    }

    def __init__(self, folder):
        self.folder = folder

    def version(self):
        found = shutil.which("certtool")
        return "GnuTLS " + run(self.folder, found, "--version").decode().splitlines()[0] if found else None

    def call(self, *words):
        return run(self.folder, "certtool", *words)

    def convert(self, kind, given, before, after):
        forms = (["--inder"] if before == DER else []) + (["--outder"] if after == DER else ["--no-text"])
        return self.call(self.commands[kind], "--infile", stored(self.folder, "given", given), *forms)

    def several(self, text):
        """Its DER form is for one certificate only, so the list is taken from its PEM."""
        return certificates_of(self.convert(CERTIFICATE, text, PEM, PEM))

    one = several  # it has no reader of one certificate alone


class PythonSsl:
    name = "Python ssl"
    styles = ANY_STYLE
    writes = True
    anew = set()
    commands = {CERTIFICATE: None}

    def __init__(self, folder):
        pass

    def version(self):
        return "Python " + ".".join(map(str, sys.version_info[:3])) + ", ssl"

    def convert(self, kind, given, before, after):
        if before == DER:
            return given if after == DER else ssl.DER_cert_to_PEM_cert(given).encode()
        try:
            return ssl.PEM_cert_to_DER_cert(given.decode("latin-1"))
        except ValueError as error:
            raise Refused(str(error)) from error

    def one(self, text):
        return [self.convert(CERTIFICATE, text, PEM, DER)]


class Cryptography:
    name = "cryptography"
    styles = ANY_STYLE
    writes = True
    anew = set()

    def __init__(self, folder):
        self.commands = cryptography_calls() if cryptography else {}

    def version(self):
        return f"cryptography {cryptography.__version__}" if cryptography else None

    def convert(self, kind, given, before, after):
        load_pem, load_der, dump = self.commands[kind]
        encoding = {PEM: serialization.Encoding.PEM, DER: serialization.Encoding.DER}[after]
        try:
            return dump((load_pem if before == PEM else load_der)(given), encoding)
        except (ValueError, UnsupportedAlgorithm) as error:
            raise Refused(str(error)) from error

    def one(self, text):
        return [self.convert(CERTIFICATE, text, PEM, DER)]

    def several(self, text):
        try:
            found = x509.load_pem_x509_certificates(text)
        except (ValueError, UnsupportedAlgorithm) as error:
            raise Refused(str(error)) from error
        return [each.public_bytes(serialization.Encoding.DER) for each in found]


def cryptography_calls():
    """For each kind: the reader of PEM, the reader of DER, and the writer of either."""
    signed = lambda thing, encoding: thing.public_bytes(encoding)
    public = lambda key, encoding: key.public_bytes(encoding, serialization.PublicFormat.SubjectPublicKeyInfo)
    private = lambda form: lambda key, encoding: key.private_bytes(encoding, form, serialization.NoEncryption())
    load_pem = lambda text: serialization.load_pem_private_key(text, None)
    load_der = lambda data: serialization.load_der_private_key(data, None)
    traditional = private(serialization.PrivateFormat.TraditionalOpenSSL)
    return {
        CERTIFICATE: (x509.load_pem_x509_certificate, x509.load_der_x509_certificate, signed),
        REQUEST: (x509.load_pem_x509_csr, x509.load_der_x509_csr, signed),
        CRL: (x509.load_pem_x509_crl, x509.load_der_x509_crl, signed),
        PKCS7: (pkcs7.load_pem_pkcs7_certificates, pkcs7.load_der_pkcs7_certificates, pkcs7.serialize_certificates),
        PUBLIC_KEY: (serialization.load_pem_public_key, serialization.load_der_public_key, public),
        PRIVATE_KEY: (load_pem, load_der, private(serialization.PrivateFormat.PKCS8)),
        EC_KEY: (load_pem, load_der, traditional),
        RSA_KEY: (load_pem, load_der, traditional),
    }


TOOLS = [Openssl, Asn1parse, Storeutl, Certtool, PythonSsl, Cryptography]


def present(folder):
    """The tools that can be called, and the names of those that are missing: a program once, whatever its commands."""
    tools = [tool(folder) for tool in TOOLS]
    missing = dict.fromkeys(tool.name.split()[0] for tool in tools if not tool.version())
    return [tool for tool in tools if tool.version()], list(missing)
