"""One certificate in many variations of its text, each with the rule behind our answer.

The certificates are the same in each run. The first ends in two pads; `no_pads` has none.
"""
import collections
import itertools

import material
from oracle import ALPHABET, TEXT_LIMIT

LABEL = b"CERTIFICATE"
OPENING, CLOSING = b"-----BEGIN CERTIFICATE-----\n", b"-----END CERTIFICATE-----\n"
MIDDLE = 100  # a place within a line of the body
LINE_ENDS = [b"\n", b"\r\n", b"\r"]
SUBJECT = b"Subject: CN=a\nIssuer: CN=a\n"
ENCRYPTED = b"Proc-Type: 4,ENCRYPTED\nDEK-Info: AES-128-CBC,00000000000000000000000000000000\n\n"
OTHER_HEADER = b"Comment: none\n\n"
MANY = 200
FILLS, END_TO_END = "one message fills the text", "a bundle is messages end to end"
ONE_LINE_END = "standard: at most one line end at the end"

# data: the data of the messages that the text is meant to hold, in order. Where one is no certificate, it is given in
# `ours` alone, since the peers' readers of certificates are not asked for it. read_rule: a rule of read's own.
Variation = collections.namedtuple("Variation", "name text data rule ours read_rule", defaults=[None, None])


class Samples:
    """The certificates, and the text of the first as it is written."""

    def __init__(self, maker):
        self.data = maker.settled_with_pads(2)
        self.no_pads = maker.settled_with_pads(0)
        self.large = maker.settled_large()
        self.key = maker.openssl.call("pkey", "-in", "settled", "-pubout", "-outform", "DER")
        self.text, self.second = material.plain_pem(self.data), material.plain_pem(self.no_pads)
        self.lines = material.lines_of(self.data)

    def body(self, *lines):
        """The certificate's text with other lines."""
        return OPENING + b"".join(line + b"\n" for line in lines) + CLOSING

    def inserted(self, what):
        return self.text[:MIDDLE] + what + self.text[MIDDLE:]

    def last(self, line):
        return self.body(*self.lines[:-1], line)

    def one(self, name, text, rule):
        return Variation(name, text, [self.data], rule)


def line_ends(s):
    mixed = b"".join(line + end for line, end in zip(s.text.splitlines(), itertools.cycle(LINE_ENDS)))
    return [
        s.one("as written", s.text, "strict text"),
        s.one("CRLF", s.text.replace(b"\n", b"\r\n"), "a line end is CRLF, CR or LF"),
        s.one("CR alone", s.text.replace(b"\n", b"\r"), "a line end is CRLF, CR or LF"),
        s.one("LF, CRLF and CR mixed", mixed, "a line end is CRLF, CR or LF"),
        s.one("no last line end", s.text[:-1], "strict: line end behind the closing"),
        s.one("a blank line after", s.text + b"\n", ONE_LINE_END),
        s.one("spaces after the closing", s.text[:-1] + b"  \n", "strict: no blanks"),
    ]


def beside(s):
    return [
        s.one("a blank line before", b"\n" + s.text, "white before: lax only"),
        s.one("spaces before the opening", b"  " + s.text, "white before: lax only"),
        s.one("text before", SUBJECT + s.text, "explanatory text is not read"),
        s.one("text after", s.text + SUBJECT, "explanatory text is not read"),
        s.one("a byte order mark before", b"\xef\xbb\xbf" + s.text, "not white"),
        s.one("text before the opening on its line", b"Certificate: " + s.text, "explanatory text is not read"),
        s.one("text behind the opening on its line", s.text.replace(OPENING, OPENING[:-1] + b" a.b\n"),
              "body: white and alphabet only"),
        s.one("text behind the closing on its line", s.text[:-1] + b" the end\n", "white behind the closing only"),
    ]


def blanks(s):
    middle = len(s.lines) // 2
    return [
        s.one("blanks at the end of each line", s.text.replace(b"\n", b" \t\n"), "strict: no blanks"),
        s.one("blanks at the start of body lines", s.body(*(b" " + line for line in s.lines)),
              "standard: no blanks before data, but for the first line"),
        s.one("blank line at the start of the body", s.body(b"", *s.lines), "standard: blank lines before data"),
        s.one("blank line in the middle", s.body(*s.lines[:middle], b"", *s.lines[middle:]),
              "standard: a data line has a character"),
        s.one("blank line at the end, after pads", s.body(*s.lines, b""), "standard: pads end the final line"),
        Variation("blank line at the end, no pads", s.body(*material.lines_of(s.no_pads), b""), [s.no_pads],
                  "standard: the final line may be empty"),
        s.one("a space inside a line", s.inserted(b" "), "lax only: white among data"),
        s.one("a vertical tab inside a line", s.inserted(b"\x0b"), "lax only: white among data"),
    ]


def widths(s):
    whole = b"".join(s.lines)
    uneven = [whole[:64], whole[64:127], *(whole[i:i + 64] for i in range(127, len(whole), 64))]
    long = [whole[:64], whole[64:129], *(whole[i:i + 64] for i in range(129, len(whole), 64))]
    return [
        s.one("lines of 76 characters", material.plain_pem(s.data, width=76), "strict: lines of 64"),
        s.one("all on one line", s.body(whole), "strict: lines of 64"),
        s.one("a line of 63 characters inside", s.body(*uneven), "strict: lines of 64"),
        s.one("a line of 65 characters inside", s.body(*long), "strict: lines of 64"),
        s.one("no line end at all", OPENING[:-1] + whole + CLOSING[:-1], "standard: a line end behind the opening"),
        s.one("closing behind the last data", s.text.replace(b"\n" + CLOSING, CLOSING),
              "standard: a line end before the closing"),
    ]


def pads(s):
    end, full = s.lines[-1], material.lines_of(s.no_pads)
    spare = end[:-3] + bytes([ALPHABET[ALPHABET.index(end[-3:-2]) + 1]]) + b"=="
    rest = end[:-2]
    return [
        s.one("one pad of two missing", s.last(end[:-1]), "counts do not fit"),
        s.one("both pads missing", s.last(rest), "counts do not fit"),
        s.one("three pads", s.last(end + b"="), "at most two pads"),
        Variation("a pad too many on full groups", s.body(*full[:-1], full[-1] + b"="), [s.no_pads],
                  "counts do not fit"),
        s.one("pads split by a line end", s.last(rest + b"=\n="), "strict: pads together"),
        s.one("the same, a blank before the second", s.last(rest + b"=\n ="), "standard: no blank before the second pad"),
        s.one("the same, a blank line between them", s.last(rest + b"=\n\n="), "standard: one line end between pads"),
        s.one("pads on a line of their own", s.last(rest + b"\n=="), "strict: pads end a group"),
        s.one("spare bits not zero", s.last(spare), "standard: spare bits zero; lax drops them"),
        s.one("the same, pads split by a line end", s.last(spare[:-1] + b"\n="),
              "standard: spare bits zero; strict: pads together"),
        s.one("data after the pads, same line", s.last(end + b"AAAA"), "nothing but white behind a pad"),
        s.one("data after the pads, next line", s.last(end + b"\nAAAA"), "nothing but white behind a pad"),
    ]


def other_bytes(s):
    return [
        s.one("* inside a line", s.inserted(b"*"), "body: white and alphabet only"),
        s.one("NUL inside a line", s.inserted(b"\x00"), "body: white and alphabet only"),
        s.one("a hyphen inside a line", s.inserted(b"-"), "a hyphen starts the closing"),
        s.one("a byte over 127 inside a line", s.inserted(b"\xe9"), "body: white and alphabet only"),
        s.one("NUL after the message", s.text + b"\x00", "white behind the closing only"),
        s.one("RFC 1421 headers: Proc-Type and DEK-Info", s.text.replace(OPENING, OPENING + ENCRYPTED),
              "RFC 1421 headers are not read"),
        s.one("another header: Comment", s.text.replace(OPENING, OPENING + OTHER_HEADER),
              "RFC 1421 headers are not read"),
    ]


def boundaries(s):
    renamed = lambda new: s.text.replace(LABEL, new)
    return [
        s.one("lower-case begin and end", s.text.replace(b"BEGIN", b"begin").replace(b"END", b"end"),
              "BEGIN and END upper case only"),
        s.one("closing label X509 CERTIFICATE", s.text.replace(b"END ", b"END X509 "), "labels differ"),
        s.one("label X509 CERTIFICATE", renamed(b"X509 CERTIFICATE"), "any label is handed back"),
        s.one("label TRUSTED CERTIFICATE", renamed(b"TRUSTED CERTIFICATE"), "any label is handed back"),
        s.one("label certificate", renamed(b"certificate"), "any label is handed back; case counts"),
        s.one("label CERTIFICATE with a space behind", renamed(LABEL + b" "), "no space at a label's end"),
        s.one("two spaces before the label", renamed(b" " + LABEL), "no space at a label's start"),
        s.one("six hyphens behind the opening", s.text.replace(OPENING, OPENING[:-1] + b"-\n"),
              "a boundary ends with five hyphens"),
        s.one("six hyphens behind the closing", s.text[:-1] + b"-\n", "a boundary ends with five hyphens"),
        s.one("four hyphens behind the closing", s.text[:-2] + b"\n", "a boundary ends with five hyphens"),
        Variation("empty body", OPENING + CLOSING, [b""], "lax: empty data; else a final line"),
        s.one("no closing", s.text[:-len(CLOSING)], "cut short: place is the length"),
    ]


def several(s):
    """Two messages, each whole by itself."""
    first, second, both = s.text, s.second, [s.data, s.no_pads]
    cr_inside, one_line = first[:-1].replace(b"\n", b"\r") + b"\n", first[:-1].replace(b"\n", b"") + b"\n"
    two = lambda name, text, rule: Variation("two, " + name, text, both, rule, read_rule=FILLS)
    key, open_line = material.plain_pem(s.key, b"PUBLIC KEY"), "standard: a line end behind the opening"
    return [
        two("first with pads", first + second, END_TO_END),
        Variation("two, first without pads", second + first, both[::-1], END_TO_END, read_rule=FILLS),
        two("no line end between", first[:-1] + second, "strict: line end behind the closing"),
        two("a blank line between", first + b"\n" + second, "lax: white belongs to the earlier"),
        two("spaces before the second", first + b"  " + second, "lax: white belongs to the earlier"),
        two("the first with CR alone but for its end", cr_inside + second, "a line end is CRLF, CR or LF"),
        two("the second with CR alone", first + second.replace(b"\n", b"\r"), "a line end is CRLF, CR or LF"),
        Variation("two, the first all on one line", one_line + second, both, open_line, None, f"{FILLS}; {open_line}"),
        two("text between", first + SUBJECT + second, "explanatory text is not read"),
        two("text before the second on its line", first + b"x " + second, "explanatory text is not read"),
        two("labels differ in the first", first.replace(b"END ", b"END X509 ") + second, "labels differ"),
        two("* in the second", first + second[:MIDDLE] + b"*" + second[MIDDLE:], "body: white and alphabet only"),
        Variation("a public key before the certificate", key + first, [s.data], END_TO_END, [s.key, s.data], FILLS),
    ]


def run_together(s):
    """Two bodies with a boundary lacking between them, or an opening without a body."""
    full, both = material.lines_of(s.no_pads), [s.data, s.no_pads]
    rule = "a hyphen starts the closing"
    return [
        Variation("two, the first without closing", s.text[:-len(CLOSING)] + s.second, both, rule),
        Variation("one body, a hyphen, another body", s.body(*s.lines, b"-", *full), both, rule),
        Variation("the same, first without pads", s.body(*full, b"-", *s.lines), both[::-1], rule),
        s.one("an opening alone before", OPENING + s.text, rule),
    ]


def lengths(s):
    """Long texts, one at our limit and one over it."""
    white_behind = lambda length, rule: s.one(f"{length:,} bytes with white behind", s.text.ljust(length, b"\n"), rule)
    return [
        Variation("a certificate of over 65,536 bytes of text", material.plain_pem(s.large), [s.large], "strict text"),
        Variation("a bundle of over 65,536 bytes", s.text * MANY, [s.data] * MANY, END_TO_END, read_rule=FILLS),
        white_behind(65_537, ONE_LINE_END),
        white_behind(TEXT_LIMIT, ONE_LINE_END),
        white_behind(TEXT_LIMIT + 1, f"text over {TEXT_LIMIT:,} bytes"),
    ]


def all_of(maker):
    samples = Samples(maker)
    groups = [line_ends, beside, blanks, widths, pads, other_bytes, boundaries, several, run_together, lengths]
    return [variation for group in groups for variation in group(samples)]
