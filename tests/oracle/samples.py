"""Writes the samples of the calls that take a text: the first half of the standard input of the program samples.

    python3 samples.py DOCUMENT_001 > crates/samples/stdin
    python3 write_samples.py DOCUMENT_001 >> crates/samples/stdin
"""
import itertools
import random
import sys

import labels
from forms import BUFFER, TEXT_SAMPLES, Samples, examples, form, text_of

samples = Samples(TEXT_SAMPLES)
comment = samples.comment


def put(mode, name, text, room=128, count=1):
    assert room <= BUFFER and len(text_of(text, count)) <= BUFFER, name
    samples.put(mode, name, room, count, text)


def long(mode, name, before, unit, behind=b"", **more):
    """A sample with as many of a unit of one byte as make the text as long as the program's buffer."""
    count = BUFFER - len(before) - len(behind)
    put(mode, "%s-%d" % (name, BUFFER), form(before) + "{" + form(unit) + "}" + form(behind), count=count, **more)


def each(name, t, **more):
    put("each", name, form(t), **more)


def index(name, t, room=24, **more):
    put("index", name, form(t), room=room, **more)


def message(opened, body, closed=None):
    closed = opened if closed is None else closed
    return b"-----BEGIN " + opened + b"-----\n" + body + b"-----END " + closed + b"-----\n"


def body(b):
    return message(b"A", b)


M = body(b"Zg==\n")
FULL = b"ABCDEFGHIJKLMNOPQRSTUVWXYZabcdefghijklmnopqrstuvwxyz0123456789+/"

comment("Samples of the requirements, row by row. M is the first.")
each("M", M)
each("Zh==", body(b"Zh==\n"))
each("no-last-LF", M[:-1])
each("no-body", body(b""))
each("empty-line", body(b"\n"))
each("no-body-CRLF", b"-----BEGIN A-----\r\n-----END A-----\n")
each("Zg=", body(b"Zg=\n"))
each("Zm-SP-9v", body(b"Zm 9v\n"))
each("Zg=-LF-=", body(b"Zg=\n=\n"))
each("Zg-LF-==", body(b"Zg\n==\n"))
each("closing-B", message(b"A", b"Zg==\n", b"B"))
each("sixth-hyphen", M[:17] + b"-" + M[17:])
each("SP-before", b" " + M)
each("begin", M.replace(b"BEGIN", b"begin"))
each("empty-text", b"")

comment("Grammars that are not known.")
for g in (0, 4, 257, 4294967295):
    put(str(g), "M", form(M), room=8)
put("0", "empty-text", "", room=0)
long("0", "white-behind", M, b" ", room=8)

comment("The length of a line.")
each("line-65", body(FULL + b"A\n"))
each("line-64", body(FULL + b"\n"))
each("line-64-64", body(FULL + b"\n" + FULL + b"\n"))
each("line-64-4", body(FULL + b"\nZg==\n"))
each("line-64-65", body(FULL + b"\n" + FULL + b"A\n"))
each("line-68", body(FULL + b"Zm9v\n"))
each("line-68-pads", body(FULL + b"Zg==\n"))
each("line-60-64", body(FULL[:60] + b"\n" + FULL + b"\n"))
each("line-63-1", body(FULL[:63] + b"\n/\n"))
each("line-62-pads", body(FULL[:61] + b"w==\n"))
each("line-63-pad", body(FULL[:62] + b"8=\n"))
each("line-62-pads-more", body(FULL[:61] + b"w==\nZg==\n"))
each("line-64-empty", body(FULL + b"\n\n"))
each("line-64-pads", body(FULL + b"==\n"))
each("one-character", body(b"Z\n"))
each("two-characters", body(b"Zg\n"))
each("three-characters", body(b"Zm8\n"))
each("five-characters", body(b"Zm9vZ\n"))
each("three-and-pad", body(b"Zm8=\n"))
each("three-and-pad-spare", body(b"Zm9=\n"))
each("two-pads-after-three", body(b"Zm8==\n"))
each("one-pad-after-four", body(b"Zm9v=\n"))
each("pads-alone", body(b"==\n"))
each("three-pads", body(b"Zg===\n"))
each("data-behind-pads", body(b"Zg==Zg==\n"))
each("line-behind-pads", body(b"Zg==\nZg==\n"))
each("not-alphabet", body(b"Zg-_\n"))
each("dot", body(b"Zm9v.\n"))

comment("Pads on two lines.")
for name, pads in (
        ("CRLF", b"=\r\n=\n"), ("CR", b"=\r=\n"), ("CR-CR", b"=\r=\r"), ("CRLF-CRLF", b"=\r\n=\r\n"), ("LF-CR", b"=\n\r=\n"),
        ("CR-LF-LF", b"=\r\n\n=\n"), ("CR-SP-LF", b"=\r \n=\n"), ("blanks-behind-first", b"= \t\n=\n"),
        ("blanks-behind-second", b"=\n=\t \n"), ("blanks-behind-both", b"=\t\r\n= \r\n"), ("line-of-their-own", b"\n=\n=\n"),
        ("SP-before-second", b"=\n =\n"), ("HT-before-second", b"=\r\n\t=\n"), ("LF-before-second", b"=\n\n=\n"),
        ("VT-before-second", b"=\n\v=\n"), ("VT-behind-first", b"=\v\n=\n"), ("SP-before-first", b" =\n=\n"),
        ("no-line-end-behind", b"=\n="), ("LF-behind-second", b"=\n=\n\n"), ("SP-behind-line", b"=\n=\n "),
        ("third-pad", b"=\n==\n"), ("third-pad-behind-SP", b"=\n= =\n"), ("third-line", b"=\n=\n=\n"),
        ("third-pad-behind-two", b"==\n=\n"), ("A-behind-first", b"=\nA\n"), ("Zg==-behind-first", b"=\nZg==\n"),
        ("A-behind-second", b"=\n=A\n"), ("hyphen-behind-first", b"=\n-=\n"), ("blanks-alone-behind-first", b"= \n")):
    each("Zg-" + name, body(b"Zg" + pads))
for name, b in (
        ("Zh", b"Zh=\n=\n"), ("three-characters", b"Zm8=\n=\n"), ("four-characters", b"Zm9v=\n=\n"), ("pads-alone", b"=\n=\n"),
        ("line-62", FULL[:61] + b"w=\n=\n"), ("line-64-2", FULL + b"\nZg=\n=\n"), ("line-64", FULL + b"=\n=\n"),
        ("lines-behind-blank-line", b"\n\t\nZm9v\nZg=\r=\n")):
    each(name + "-split", body(b))
each("Zg=-LF-=", body(b"Zg=\n=\n"), room=0)
each("closing-B-split", message(b"A", b"Zg=\n=\n", b"B"))

comment("Spare bits: standard and strict refuse them at the last character, wherever the pads stand.")
for value in range(1, 16):
    each("four-bits-%d" % value, body(b"Z" + FULL[32 + value:33 + value] + b"==\n"))
for value in range(1, 4):
    each("two-bits-%d" % value, body(b"Zm" + FULL[60 + value:61 + value] + b"=\n"))
for name, b in (
        ("no-spare-bits", b"Zm9v\n"), ("counts", b"Zh=\n"), ("no-pads", b"Zh\n"), ("pads-below", b"Zh\n==\n"),
        ("pads-below-CR", b"Zh\r==\r"), ("pads-on-two-lines-below", b"Zh\n=\n=\n"), ("split-CRLF-blanks", b"Zh= \t\r\n=\t\r\n"),
        ("pad-below", b"Zm9\n=\n"), ("pad-below-blanks", b"Zm9 \t\r\n=\r\n"), ("last-alone", b"Z\nh==\n"),
        ("last-alone-split", b"Z\nh\n=\n=\n"), ("blank-before-pads", b"Zh ==\n"), ("white-around", b"Z h\v=\f="),
        ("line-62", FULL[:61] + b"x==\n"), ("line-63", FULL[:62] + b"9=\n"), ("line-62-pads-below", FULL[:62] + b"\n==\n"),
        ("line-64-2", FULL + b"\nZh==\n"), ("line-64-3", FULL + b"\nZm9=\n"), ("line-64-2-split", FULL + b"\nZh=\n=\n"),
        ("line-64-64-2-pads-below", FULL + b"\n" + FULL + b"\nZh\n==\n"), ("line-66", FULL + b"Zh==\n")):
    each(name + "-spare", body(b))
each("two-bits-1", body(b"Zm9=\n"), room=1)
each("Zm8=", body(b"Zm8=\n"), room=1)

comment("Labels.")
each("label-64", message(labels.lengthened(b"CERTIFICATE", 64), b"Zg==\n"))
each("label-65", message(labels.lengthened(b"CERTIFICATE", 65), b"Zg==\n"))
each("label-empty", message(b"", b"Zg==\n"))
each("label-A-B", message(b"A-B", b"Zg==\n"))
each("label-A-SP-B", message(b"A B", b"Zg==\n"))
each("label-A--B", message(b"A--B", b"Zg==\n"))
each("label-A-SP-SP-B", message(b"A  B", b"Zg==\n"))
each("label-A-SP-hyphen-B", message(b"A -B", b"Zg==\n"))
each("label-A-SP", message(b"A ", b"Zg==\n"))
each("label-SP-A", message(b" A", b"Zg==\n"))
each("label-hyphen-A", message(b"-A", b"Zg==\n"))
each("label-HT", message(b"A\tB", b"Zg==\n"))
each("label-DEL", message(b"A\x7f", b"Zg==\n"))
each("label-0xFF", message(b"A\xff", b"Zg==\n"))
each("label-edges", message(b"!,.~", b"Zg==\n"))
each("label-words", message(b"a-b c.d-e f", b"Zg==\n"))
each("label-lower", message(b"a", b"Zg==\n"))
each("label-case", message(b"a", b"Zg==\n", b"A"))
each("closing-65", message(b"A", b"Zg==\n", b"L" * 65))
each("opening-65", message(b"L" * 65, b"Zg==\n", b"A"))
each("closing-empty", message(b"A", b"Zg==\n", b""))
each("opening-empty", message(b"", b"Zg==\n", b"A"))
each("closing-longer", message(b"A", b"Zg==\n", b"AB"))
each("closing-shorter", message(b"AB", b"Zg==\n", b"A"))
each("closing-A--B", message(b"A", b"Zg==\n", b"A--B"))
each("closing-A-SP", message(b"A", b"Zg==\n", b"A "))
each("end", M.replace(b"END", b"end"))
each("END-for-BEGIN", M.replace(b"BEGIN", b"END"))
each("BEGIN-for-END", M.replace(b"END", b"BEGIN"))
each("four-hyphens", M[1:])
each("four-hyphens-closing", M.replace(b"\n-----E", b"\n----E"))
each("six-hyphens", b"-" + M)
each("sixth-hyphen-on-closing", M[:-1] + b"-\n")
each("begin-and-no-space", M.replace(b"BEGIN ", b"BEGIN"))

comment("The order of the checks: label, labels, counts, spare bits, room.")
each("long-label-and-counts", message(b"L" * 65, b"Zg=\n", b"A"), room=0)
each("labels-and-counts", message(b"A", b"Zg=\n", b"B"), room=0)
each("labels-and-spare-bits", message(b"A", b"Zh==\n", b"B"), room=0)
each("counts-and-room", body(b"Zg=\n"), room=0)
each("spare-bits-and-room", body(b"Zh==\n"), room=0)
each("M", M, room=0)
each("M", M, room=1)
each("no-body", body(b""), room=0)

comment("Line ends, blanks and white.")
each("CRLF", M.replace(b"\n", b"\r\n"))
each("CR", M.replace(b"\n", b"\r"))
each("CR-LF-CRLF", b"-----BEGIN A-----\rZg==\n-----END A-----\r\n")
each("LF-CR", b"-----BEGIN A-----\n\rZg==\n-----END A-----\n")
each("LF-CR-behind-data", body(b"Zg==\n\r"))
each("CRLF-CRLF-no-data", b"-----BEGIN A-----\r\n\r\n-----END A-----\r\n")
each("CR-CR-no-data", b"-----BEGIN A-----\r\r-----END A-----\r")
each("CRLF-CR-no-data", b"-----BEGIN A-----\r\n\r-----END A-----\n")
each("CR-CRLF-no-data", b"-----BEGIN A-----\r\r\n-----END A-----\n")
each("CRLF-LF-no-data", b"-----BEGIN A-----\r\n\n-----END A-----\n")
each("CR-SP-LF-no-data", b"-----BEGIN A-----\r \n-----END A-----\n")
each("CR-no-data", b"-----BEGIN A-----\r-----END A-----\n")
each("CRLF-between-lines", body(FULL + b"\r\nZg==\r\n"))
each("CR-between-lines", body(FULL + b"\rZg==\r"))
each("CRLF-CRLF-between-lines", body(FULL + b"\r\n\r\nZg==\n"))
each("two-LF-behind", M + b"\n")
each("CRLF-behind", M[:-1] + b"\r\n")
each("CR-behind", M[:-1] + b"\r")
each("LF-CR-behind", M + b"\r")
each("CRLF-LF-behind", M[:-1] + b"\r\n\n")
each("CR-CR-behind", M[:-1] + b"\r\r")
each("blanks-behind", M[:-1] + b" \t\n")
each("blanks-behind-no-LF", M[:-1] + b" \t")
each("blank-behind-LF", M + b" ")
each("blanks-behind-opening", b"-----BEGIN A----- \t\nZg==\n-----END A-----\n")
each("no-line-end-behind-opening", b"-----BEGIN A-----Zg==\n-----END A-----\n")
each("no-line-end-behind-data", b"-----BEGIN A-----\nZg==-----END A-----\n")
each("all-in-one-line", b"-----BEGIN A-----Zg==-----END A-----")
each("blanks-behind-data", body(b"Zg== \t\n"))
each("blanks-before-data", body(b" \tZg==\n"))
each("blanks-before-later-line", body(b"Zm9v\n Zg==\n"))
each("blanks-between-pads", body(b"Zg= =\n"))
each("blanks-before-pads", body(b"Zg ==\n"))
each("blanks-before-closing", body(b"Zg==\n "))
each("empty-lines-before-data", body(b"\n \n\r\n\tZg==\n"))
each("empty-line-in-data", body(b"Zm9v\n\nZm9v\n"))
each("empty-line-behind-data", body(b"Zm9v\n\n"))
each("blank-line-behind-data", body(b"Zm9v\n \t\n"))
each("two-empty-lines-behind-data", body(b"Zm9v\n\n\n"))
each("empty-line-behind-pads", body(b"Zg==\n\n"))
each("three-empty-lines", body(b"\n\n\n"))
each("VT-behind-data", body(b"Zg==\v\n"))
each("FF-behind-data", body(b"Zg==\f\n"))
each("VT-FF-in-data", body(b"Z\vm\f9v\n"))
each("VT-between-pads", body(b"Zg=\v=\n"))
each("VT-before", b"\v" + M)
each("FF-behind", M + b"\f")
each("white-all-over", b" \t\r\n\v\f" + b"-----BEGIN A----- \t\r\n\v\fZ g\t=\r=\n\v-----END A-----\f\v\n\r\t ")
each("white-alone", b" \n")
each("LF-before", b"\n" + M)
each("text-before", b"x" + M)
each("text-behind", M + b"x")
each("M-twice", M + M)
each("M-no-last-LF-then-M", M[:-1] + M)
each("DEL-in-data", body(b"Zm\x7f9v\n"))

comment("Styles: M with each of its line ends of each kind.")
ENDS = {"LF": b"\n", "CRLF": b"\r\n", "CR": b"\r"}
OPENING, GROUP, CLOSING = M.splitlines()
for first, second, third in itertools.product(ENDS, repeat=3):
    t = OPENING + ENDS[first] + GROUP + ENDS[second] + CLOSING + ENDS[third]
    each("ends-%s-%s-%s" % (first, second, third), t, room=1)
for name in ("CRLF", "CR"):
    t = M.replace(b"\n", ENDS[name])
    each("no-last-" + name, t.removesuffix(ENDS[name]), room=1)
    each("no-room-" + name, t, room=0)

comment("Styles of a message with line ends in one place only, and with white that is none.")
BARE = OPENING + GROUP + CLOSING
PLACES = {"before": 0, "in-body": 18, "behind": len(BARE), "behind-opening": 17, "between-pads": 20, "behind-pads": 21}
WHITES = {"LF-CR": b"\n\r", "CR-LF-CR": b"\r\n\r", "CR-CRLF": b"\r\r\n", "CR-VT-LF": b"\r\v\n", "SP-CR": b" \r", "VT-FF": b"\v\f"}
for place, at in PLACES.items():
    for name, white in (ENDS | WHITES if place in ("before", "in-body", "behind") else ENDS).items():
        each("%s-%s-only" % (name, place), BARE[:at] + white + BARE[at:], room=1)
each("CR-before-LF-behind-only", b"\r" + BARE + b"\n", room=1)
each("blanks-only", b" " + OPENING + b"\t" + GROUP + b" \t" + CLOSING + b" ", room=1)
each("VT-FF-for-line-ends", OPENING + b"\v" + GROUP + b"\f" + CLOSING + b"\v", room=1)
each("LF-before-CRLF", b"\n" + M.replace(b"\n", b"\r\n"), room=1)
for name, white in (("CR-LF-CR", b"\r\n\r"), ("CR-CR", b"\r\r"), ("CRLF-CRLF", b"\r\n\r\n"), ("CR-CRLF", b"\r\r\n")):
    each(name + "-behind-opening", OPENING + white + GROUP + b"\r\n" + CLOSING + b"\r\n", room=1)
each("split-pads-CR-only", OPENING + b"\rZg=\r=\r" + CLOSING + b"\r", room=1)
each("split-pads-CRLF-only", OPENING + b"\r\nZg= \r\n=\r\n" + CLOSING, room=1)

comment("Styles of full lines, and one line end of another kind before them, among them and behind them.")


def full_lines(name, *parts):
    put("each", "lines-" + name, "".join(parts), room=1024, count=20)


for usual, odd in itertools.product(ENDS, ENDS):
    name, e, o = usual + "-" + odd, form(ENDS[usual]), form(ENDS[odd])
    start, full, group, end = form(OPENING), form(FULL), form(GROUP) + e, form(CLOSING)
    many = "{" + full + e + "}"
    if usual == odd:
        full_lines(usual, start, e, many, group, end, e)
        continue
    full_lines(name + "-opening", start, o, many, group, end, e)
    full_lines(name + "-among", start, e, many, full, o, full, e, group, end, e)
    full_lines(name + "-closing", start, e, many, group, end, o)
    if (usual, odd) in (("LF", "CRLF"), ("CRLF", "CR"), ("CR", "LF")):
        full_lines(name + "-last-full", start, e, many, full, o, group, end, e)
        full_lines(name + "-last", start, e, many, form(GROUP), o, end, e)

comment("Families with no room, and refusals of a label that has one. Near ones are in the second half.")
for k, label in enumerate(labels.KNOWN, 1):
    put(str(1 + k % 3), "known-%d" % k, form(message(label, b"Zg==\n")), room=0)
CMS = message(b"CMS", b"Zg==\n")
put("0", "CMS", form(CMS), room=8)
each("CMS-four-hyphens", CMS[1:], room=8)
each("CMS-dot", message(b"CMS", b"Zg.\n"), room=8)
each("CMS-cut", CMS[:-2], room=8)
each("CMS-closing", message(b"CMS", b"Zg==\n", b"CMs"), room=8)
each("CMS-counts", message(b"CMS", b"Zg=\n"), room=8)
each("CMS-spare-bits", message(b"CMS", b"Zh==\n"), room=8)
each("CMS-white-before", b"\t\n" + CMS, room=8)
each("closing-of-the-family", message(b"CERTIFICATE", b"Zg==\n", b"X509 CERTIFICATE"), room=8)

comment("Texts of 65,536 bytes, and of one less.")
long("each", "white-before", b"", b" ", M)
long("each", "white-behind", M, b" ")
long("each", "blanks-behind", M[:-1], b"\t", b"\n")
long("each", "blanks-behind-opening", M[:17], b" ", M[17:])
long("each", "LF-behind", M, b"\n")
long("each", "CR-behind", BARE, b"\r")
long("each", "CR-before-LF", b"", b"\r", b"\n" + BARE)
LONG = "-----BEGIN AB-----${" + FULL.decode() + "$}" + FULL[:44].decode() + "$-----END AB-----"
put("each", "lines-65536", LONG + "$", room=49152, count=1007)
put("each", "lines-65536", LONG + "$", room=48368, count=1007)
put("each", "lines-65535", LONG, room=49152, count=1007)

comment("Data of 1 to 49, of 32,768, and of 48,367 to 48,369 bytes, the most that fit.")
LAST = {0: "", 1: "/w==", 2: "//8=", 47: FULL[:60].decode() + "//8="}
for n in (1, 2, 3, 47, 48, 49, 32768, 48367, 48368, 48369):
    lines, rest = divmod(n, 48)
    if rest in LAST:
        last = LAST[rest]
    else:
        group = {0: "", 1: "/w==", 2: "//8="}[rest % 3]
        last = FULL[:rest // 3 * 4].decode() + group
    t = "-----BEGIN A-----$" + ("{" + FULL.decode() + "$}" if lines else "") + (last + "$" if last else "")
    t += "-----END A-----$"
    for room in (n + 1, n, n - 1, 0) if n > 1 else (2, 1, 0):
        put("each", "data-%d" % n, t, room=room, count=max(lines, 1))

comment("Every start of M, of M with CRLF line ends, and of M with pads on two lines from its body on.")
for k in range(len(M)):
    each("M-%d-bytes" % k, M[:k], room=8)
C = M.replace(b"\n", b"\r\n")
for k in range(len(C)):
    each("CRLF-%d-bytes" % k, C[:k], room=8)

S = body(b"Zg= \r\n=\t\r\n")
for k in range(18, len(S)):
    each("split-%d-bytes" % k, S[:k], room=8)

comment("Every start of a text with a longer label, and of one with a full line, from the end of that line on.")
L = message(b"A-B C", b"Zg==\n")
for k in range(len(L)):
    each("A-B-C-%d-bytes" % k, L[:k], room=8)
T = body(FULL + b"\nZg==\n")
for k in range(80, len(T)):
    each("line-64-4-%d-bytes" % k, T[:k], room=8)

comment("M with one byte left out, put twice, or made 0xFF.")
for k in range(len(M)):
    each("M-without-%d" % k, M[:k] + M[k + 1:], room=8)
for k in range(len(M)):
    each("M-twice-%d" % k, M[:k + 1] + M[k:], room=8)
for k in range(len(M)):
    each("M-0xFF-at-%d" % k, M[:k] + b"\xff" + M[k + 1:], room=8)

comment("Texts cut and joined at random.")
random.seed(7468)
BASES = [M, C, body(b""), body(b"\n"), body(b"Zm9v\n\n"), body(b"Zg\n==\n"), message(b"A-B", b"Zg==\n"),
         message(b"", b"\r\n"), body(b"Zm8= \n")]
PIECES = [b"-", b"-----", b" ", b"\t", b"\r", b"\n", b"\r\n", b"\v", b"\f", b"=", b"==", b"A", b"Zm9v", b"\xff", b"~", b""]
for k in range(100):
    t = random.choice(BASES)
    for _ in range(random.randint(1, 3)):
        i = random.randint(0, len(t))
        j = min(len(t), i + random.choice((0, 0, 1, 1, 2, 5)))
        t = t[:i] + random.choice(PIECES) + t[j:]
    each("random-%d" % k, t, room=8)

comment("The examples of draft-josefsson-pkix-textual-00, in their order.")
drafts = list(examples(sys.argv[1]))
for name, example in drafts:
    put("each", name, "\n" + example, room=1024)

comment("The index: samples of the requirements.")
NO_LF = M[:-1]
index("M-twice", M + M)
index("M-no-last-LF-then-M", NO_LF + M)
index("empty-text", b"")
index("two-spaces", b"  ")
index("M", M)

comment("The room of the table.")
for room in (13, 12, 7, 1, 0):
    index("M-twice", M + M, room=room)
for room in (1, 0):
    index("empty-text", b"", room=room)
index("M", M, room=7)
index("M", M, room=6)
index("closing-B-and-room", message(b"A", b"Zg==\n", b"B"), room=0)
index("x-behind-and-room", M + b"x", room=0)

comment("Grammars that are not known, and texts of 65,536 bytes.")
for g in (0, 4, 257, 4294967295):
    put("table%d" % g, "M-twice", form(M + M), room=13)
put("table0", "empty-text", "", room=0)
long("table4", "white-behind", M, b" ", room=8)
long("index", "white-before", b"", b" ", M + M, room=13)
long("index", "white-between", M, b" ", M, room=13)
long("index", "blanks-behind", M + NO_LF, b"\t", b"\n", room=13)

comment("Messages of all lengths, and who owns what stands between them.")
CRLF, CR = M.replace(b"\n", b"\r\n"), M.replace(b"\n", b"\r")
index("LF-CRLF-CR", M + CRLF + CR)
index("CR-LF-CRLF", CR + M + CRLF)
index("CR-CR", CR + CR)
index("no-line-end-three-times", NO_LF * 3)
index("CR-then-LF", NO_LF + b"\r\n" + M)
index("CRLF-then-LF", NO_LF + b"\r\n\n" + M)
index("CR-then-CR", NO_LF + b"\r\r" + M)
index("LF-then-CR", M + b"\r" + M)
index("LF-then-LF", M + b"\n" + M)
index("LF-behind-all", M + M + b"\n")
index("CR-behind-all", M + NO_LF + b"\r")
index("CR-LF-behind-all", M + CR + b"\n")
index("CR-LF-LF-behind-all", M + CR + b"\n\n")
index("blanks-between", NO_LF + b" \t" + M)
index("blanks-and-line-end-between", NO_LF + b" \t\r\n" + M)
index("SP-behind-LF", M + b" " + M)
index("VT-between", NO_LF + b"\v" + M)
index("FF-behind-LF", M + b"\f" + M)
index("white-all-over", b" \t\r\n" + M + b"\n\n \v\f\r" + M + b"\t\n")
index("SP-before", b" " + M + M)
index("VT-before", b"\v" + M)
index("SP-behind-all", M + M + b" ")
index("white-behind-all", M + NO_LF + b"\t\r\n\v")
index("SP-alone", b" ")
index("LF-alone", b"\n")
index("no-line-ends", b"-----BEGIN A-----Zm9v-----END A----------BEGIN B-----Zg==-----END B-----")
index("empty-labels", message(b"", b"Zg==\n") * 2)
index("empty-labels-no-data", b"-----BEGIN ----------END -----" * 3)
index("empty-line-no-data", message(b"", b"\n") + body(b"\n"))
index("no-data-between", M + body(b"") + M)
index("labels-and-sizes", message(b"A-B C", b"Zm9v\n") + message(b"", FULL + b"\nZm8=\n") + message(b"x.y", FULL + b"\n"))

comment("What the second message is refused for, or the first before it.")
index("label-64", M + message(labels.lengthened(b"CMS", 64), b"Zg==\n"))
index("label-65", M + message(labels.lengthened(b"CMS", 65), b"Zg==\n") + M)
index("label-A--B", M + message(b"A--B", b"Zg==\n") + M)
index("label-A-SP", M + message(b"A ", b"Zg==\n") + M)
index("labels-differ", M + message(b"A", b"Zg==\n", b"B") + M)
index("closing-of-the-first", M + message(b"B", b"Zg==\n", b"A") + M)
index("closing-65", M + message(b"A", b"Zg==\n", b"L" * 65))
index("counts", M + body(b"Zg=\n") + M)
index("spare-bits", M + body(b"Zh==\n") + M)
index("spare-bits-in-the-third", M + M + body(b"Zm9=\n"))
index("spare-bits-split-pads", M + body(b"Zh=\n=\n") + M)
index("spare-bits-pads-below", body(b"Zm9v\nZh\n==\n") + M)
index("begin", M + M.replace(b"BEGIN", b"begin"))
index("pads", M + body(b"Zg===\n"))
index("split-pads", M + body(b"Zg=\n=\n") + M)
index("split-pads-at-the-end", M + body(b"Zg= \r=\r"))
index("SP-before-the-second-pad", M + body(b"Zg=\n =\n"))
index("cut-behind-the-first-pad", M + body(b"Zg=\n")[:22])
index("sixth-hyphen", M + M[:17] + b"-" + M[17:])
index("line-65", M + body(FULL + b"A\n"))
index("labels-then-begin", message(b"A", b"Zg==\n", b"B") + M.replace(b"BEGIN", b"begin"))
index("counts-then-x", body(b"Zg=\n") + b"x")
index("spare-bits-then-labels", body(b"Zh==\n") + message(b"A", b"Zg==\n", b"B"))
index("begin-then-labels", M.replace(b"BEGIN", b"begin") + message(b"A", b"Zg==\n", b"B"))
index("long-label-then-labels", message(b"L" * 65, b"Zg==\n") + message(b"A", b"Zg==\n", b"B"))
index("x-behind", M + b"x" + M)
index("x-behind-no-LF", NO_LF + b"x")
index("x-behind-all", M + M + b"x")
index("0xFF-behind", M + b"\xff")
index("sixth-hyphen-on-closing", NO_LF + b"-\n" + M)
index("six-hyphens", M + b"-" + M)
index("text-between", M + b"subject=A\n" + M)
index("x-before", b"x" + M)

comment("Families of several messages: those that the examples lack, ones near to them, and three by turns.")


def families(name, *found, **more):
    """Messages with these labels."""
    index("families-" + name, b"".join(message(label, b"Zg==\n") for label in found), **more)


families("others", b"CMS", b"PRIVATE KEY", b"", b"ENCRYPTED PRIVATE KEY", b"CRL", b"PUBLIC KEY", room=48)
families("near", b"CMS", b"CMs", b"CM", b"CMSS", b"CMS", b"PKCS7", b"CMS-A", room=48)
families("no-room", b"CMS", b"A", room=12)
index("families-closing", CMS + message(b"NEW CERTIFICATE REQUEST", b"Zg==\n", b"CERTIFICATE REQUEST"))
put("index", "families-by-turns", "{" + form(CMS + M + message(b"PUBLIC KEY", b"Zg==\n")) + "}", room=400, count=20)

comment("Every start of bundles of two.")
put("starts", "M-M", form(M + M), room=19)
put("starts", "CRLF-no-LF", form(CRLF + NO_LF), room=13)
put("starts", "VT-A-B-M", form(b"\v" + message(b"A-B", b"\nZm8=\n\n") + b" \r\n" + M), room=19)

comment("Texts of 65,536 bytes full of messages.")
SMALL = form(b"-----BEGIN ----------END -----")
put("table1", "full-30", "{" + SMALL + "}" + "$" * 16, room=13105, count=2184)
put("table1", "full-30", "{" + SMALL + "}" + "$" * 16, room=13104, count=2184)
put("table1", "full-30-x", "{" + SMALL + "}" + "$" * 15 + "x", room=13105, count=2184)
put("table1", "full-30-cut", "{" + SMALL + "}" + SMALL[:16], room=13105, count=2184)
LINES = "-----BEGIN FULL-----$" + (FULL.decode() + "$\n") * 7 + "AQIDBAUGBwgJCgsM$-----END FULL-----$"
put("index", "full-512", "{" + LINES + "}", room=770, count=128)

comment("Bundles of the examples.")
put("index", "draft-all", "\n" + "".join(example for _, example in drafts), room=55)
for i, k in ((3, 4), (4, 8), (9, 3)):
    put("index", "draft-%d-%d" % (i, k), "\n" + drafts[i - 1][1] + drafts[k - 1][1], room=14)

sys.stdout.write(samples.text())
