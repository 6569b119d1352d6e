"""Labels that have a family, and labels near to one that has. What is near need not be a label, and may have a family too."""
import itertools

from oracle import FAMILIES, LABEL_LIMIT

KNOWN = tuple(FAMILIES)
# In no family, though they are much used, or look like one that is.
OTHERS = (
    b"", b"A", b"CRL", b"CERTIFICATE CHAIN", b"TRUSTED CERTIFICATE", b"RSA PRIVATE KEY", b"EC PRIVATE KEY", b"PKCS #7",
    b"X509", b"X.509 CRL", b"X509 CERTIFICATE REQUEST", b"NEW CERTIFICATE", b"KEY", b"REQUEST",
)
# Pairs of two that count as the same.
EQUIVALENT = tuple(pair for pair in itertools.permutations(KNOWN, 2) if FAMILIES[pair[0]] == FAMILIES[pair[1]])


def changed(label, at, byte):
    return label[:at] + bytes([byte]) + label[at + 1:]


def lengthened(label, length=LABEL_LIMIT):
    """So many bytes that begin with the label."""
    return label.ljust(length, b"S")


def ends(label):
    """What is cut off at one end, byte by byte, and what is longer by one byte at one end."""
    for length in range(len(label)):
        yield label[:length]
        yield label[len(label) - length:]
    for byte in b"\0\tAS !-.09~\x7f\xff":
        yield bytes([byte]) + label
        yield label + bytes([byte])


def forms(label):
    """In other cases, with other marks between words, twice, and up to the limit."""
    yield from (label.lower(), label.title(), label.swapcase(), label.replace(b" ", b"-"), label.replace(b" ", b""))
    yield from (label + b" " + label, label + b"-" + label, label + label)
    yield from (lengthened(label, length) for length in (24, 32, LABEL_LIMIT - 1, LABEL_LIMIT, LABEL_LIMIT + 1))


def near(label, bytes_of):
    """All of these, and each place of the label with other bytes: those that `bytes_of` gives for the one that stands there."""
    yield from ends(label)
    yield from forms(label)
    for at, old in enumerate(label):
        yield from (changed(label, at, byte) for byte in bytes_of(old) if byte != old)


def any_byte(_):
    return range(256)


def like(byte):
    """Bytes that differ in one bit: the lowest, that of the case, the highest."""
    return byte ^ 1, byte ^ 0x20, byte ^ 0x80
