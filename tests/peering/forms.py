"""Other forms in which peers write PEM, and what we answer to each: some are strict, some not, some no text of ours."""
import collections

import material
import tools
from ours import GRAMMARS

KEY = "RSA"
PASS = "pass:none"
# The numbers that we answer under lax, standard and strict.
STRICT, LONG_LINES, BLANK_LINE_BETWEEN = (0, 0, 0), (0, 0, 4), (0, 3, 3)
TEXT_BEFORE, TEXT_AFTER, HEADERS = (3, 3, 3), (5, 5, 5), (5, 4, 4)

# messages: what the text holds by the tool's own account, which we give wherever we accept it.
Form = collections.namedtuple("Form", "name note numbers text messages")


def openssl_texts(maker, certificate):
    """Forms with something beside the message."""
    call, one = maker.openssl.call, [(b"CERTIFICATE", certificate)]
    call("pkcs12", "-export", "-nokeys", "-in", "certificate", "-passout", PASS, "-out", "p12")
    pkcs12 = call("pkcs12", "-in", "p12", "-nokeys", "-passin", PASS)
    pkcs7 = tools.stored(maker.folder, "p7", maker.pkcs7([certificate]))
    printed = call("pkcs7", "-inform", "DER", "-in", pkcs7, "-print_certs")
    old_form = call("rsa", "-in", KEY, "-traditional", "-aes128", "-passout", PASS)
    return [
        Form("openssl x509 -text", "text before", TEXT_BEFORE, call("x509", "-in", "certificate", "-text"), one),
        Form("openssl storeutl", "text before", TEXT_BEFORE, call("storeutl", "-certs", "certificate"), one),
        Form("openssl pkcs12 -nokeys", "text before", TEXT_BEFORE, pkcs12, one),
        Form("openssl pkcs7 -print_certs", "text before", TEXT_BEFORE, printed, one),
        Form("openssl pkey -text", "text after", TEXT_AFTER, call("pkey", "-in", KEY, "-text"), []),
        Form("openssl rsa -traditional -aes128", "RFC 1421 headers", HEADERS, old_form, []),
    ]


def openssl_labels(maker):
    """Strict forms with other labels, and one with two messages."""
    call = maker.openssl.call
    trusted = call("x509", "-in", "certificate", "-trustout", "-addtrust", "serverAuth")
    encrypted = call("pkcs8", "-topk8", "-in", KEY, "-passout", PASS)
    signed = call("cms", "-sign", "-in", "p12", "-binary", "-signer", "certificate", "-inkey", KEY, "-outform", "PEM")
    two = call("ecparam", "-name", "prime256v1", "-genkey")
    path = tools.stored(maker.folder, "two", two)
    parts = [(b"EC PARAMETERS", call("ecparam", "-in", path, "-outform", "DER")),
             (b"EC PRIVATE KEY", call("ec", "-in", path, "-outform", "DER"))]
    return [
        Form("openssl x509 -trustout", "strict, label TRUSTED CERTIFICATE", STRICT, trusted,
             tools.messages_of(trusted)),
        Form("openssl pkcs8 with a pass phrase", "strict, label ENCRYPTED PRIVATE KEY", STRICT, encrypted,
             tools.messages_of(encrypted)),
        Form("openssl cms -sign", "strict, label CMS", STRICT, signed, tools.messages_of(signed)),
        Form("openssl ecparam -genkey", "strict, two messages", STRICT, two, parts),
    ]


def certtool_forms(maker, certificate):
    certtool = tools.Certtool(maker.folder)
    chain = [certificate, maker.self_signed(KEY, "second")]
    joined = b"".join(map(material.plain_pem, chain))
    listed = certtool.convert(tools.CERTIFICATE, joined, tools.PEM, tools.PEM)
    return [
        Form("certtool --certificate-info", "text before", TEXT_BEFORE,
             certtool.call("--certificate-info", "--infile", "certificate"), [(b"CERTIFICATE", certificate)]),
        Form("certtool --key-info", "text before", TEXT_BEFORE, certtool.call("--key-info", "--infile", KEY), []),
        Form("certtool --certificate-info --no-text of a chain", "a blank line between messages", BLANK_LINE_BETWEEN,
             listed, [(b"CERTIFICATE", data) for data in chain]),
    ]


def cryptography_forms(maker):
    call = tools.serialization
    key = call.load_der_private_key(maker.openssl.call(*material.PKCS8, "-in", KEY, "-outform", "DER"), None)
    text = key.private_bytes(call.Encoding.PEM, call.PrivateFormat.OpenSSH, call.NoEncryption())
    return [Form("cryptography, OpenSSH private key", "lines over 64 characters", LONG_LINES, text,
                 tools.messages_of(text))]


def tried(tally, ours, peers, maker):
    certificate = maker.self_signed(KEY, "forms")
    tools.stored(maker.folder, "certificate", material.plain_pem(certificate))
    names = {peer.name for peer in peers}
    forms = openssl_texts(maker, certificate) + openssl_labels(maker)
    forms += certtool_forms(maker, certificate) if "certtool" in names else []
    forms += cryptography_forms(maker) if "cryptography" in names else []
    for form in forms:
        answered(tally, ours, form)


def answered(tally, ours, form):
    """We answer the form's number under each grammar, with its messages where it is accepted."""
    answers = ours.under_each(ours.index if len(form.messages) > 1 else ours.read, form.text)
    wanted = [(number, form.messages if number == 0 else []) for number in form.numbers]
    tally.check("we answered as foreseen", "other forms that peers write", [(a.number, a.messages) for a in answers],
                wanted, form.name)
    said = ", ".join(f"{name} {'reads it' if a.number == 0 else f'answers {a.number} at {a.place}'}"
                     for name, a in zip(GRAMMARS, answers))
    tally.note(f"{form.name}: {form.note}; {said}")
    if any(form.numbers) and form.messages:
        cut_out(tally, ours, form)


def cut_out(tally, ours, form):
    """The same text with all but its messages taken out is one that lax and standard read, and strict if lines are."""
    text = b"".join(match.group() + b"\n" for match in tools.OWN_MESSAGE.finditer(form.text))
    answers = ours.under_each(ours.index, text)
    known = len(answers) - (form.numbers == LONG_LINES)
    tally.check("we answered as foreseen", "such forms with their messages alone", answers[:known],
                [(0, 0, form.messages)] * known, form.name)
