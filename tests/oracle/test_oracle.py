"""The oracle on the paper's samples, then against derivatives of the same grammars over whole line ends, and against a
search of every way to cut a text into messages. The writer against the paper's size and against the reader."""
import itertools
import random
from functools import lru_cache

import labels
import leaps
import oracle
from oracle import index, read, write

M = b"-----BEGIN A-----\nZg==\n-----END A-----\n"
UNKNOWN = (0, 4, 257, 4294967295)


def body(b):
    return b"-----BEGIN A-----\n" + b + b"-----END A-----\n"


def labelled(opened, closed=None):
    """M with another label, or with two."""
    return M[:11] + opened + M[12:32] + (opened if closed is None else closed) + M[33:]


F = b"\x66"
TABLE = [
    ("M", M, F, F, F),
    ("Zh==", body(b"Zh==\n"), F, (9, 19), (9, 19)),
    ("no last LF", M[:-1], F, F, (5, 38)),
    ("no body", body(b""), b"", (4, 18), (4, 18)),
    ("empty line", body(b"\n"), b"", b"", (4, 18)),
    ("no body, CRLF", b"-----BEGIN A-----\r\n-----END A-----\n", b"", (4, 19), (4, 19)),
    ("Zg=", body(b"Zg=\n"), (8, 22), (8, 22), (4, 21)),
    ("Zm 9v", body(b"Zm 9v\n"), b"foo", (4, 21), (4, 20)),
    ("Zg=,=", body(b"Zg=\n=\n"), F, F, (4, 21)),
    ("Zg,==", body(b"Zg\n==\n"), F, F, (4, 20)),
    ("closing B", M[:32] + b"B" + M[33:], (7, 32), (7, 32), (7, 32)),
    ("sixth hyphen", M[:17] + b"-" + M[17:], (5, 18), (4, 17), (4, 17)),
    ("SP before", b" " + M, F, (3, 0), (3, 0)),
    ("begin", M.replace(b"BEGIN", b"begin"), (3, 5), (3, 5), (3, 5)),
    ("empty", b"", (3, 0), (3, 0), (3, 0)),
]
# Change request K9: pads on two lines, by its words. The place under standard is the first byte that the words rule out.
SPLIT = [
    ("CRLF between", b"Zg=\r\n=\n", F, F, (4, 21)),
    ("CR between", b"Zg=\r=\n", F, F, (4, 21)),
    ("blanks behind both", b"Zg= \t\n= \n", F, F, (4, 21)),
    ("no characters", b"Zg\n=\n=\n", F, F, (4, 20)),
    ("SP before the second", b"Zg=\n =\n", F, (4, 22), (4, 21)),
    ("LF before the second", b"Zg=\n\n=\n", F, (4, 22), (4, 21)),
    ("CRLF LF between", b"Zg=\r\n\n=\n", F, (4, 23), (4, 21)),
    ("CR SP LF between", b"Zg=\r \n=\n", F, (4, 22), (4, 21)),
    ("VT before the second", b"Zg=\n\v=\n", F, (4, 22), (4, 21)),
    ("VT behind the first", b"Zg=\v\n=\n", F, (4, 21), (4, 21)),
    ("no line end", b"Zg=\n=", F, (4, 23), (4, 21)),
    ("LF behind the second", b"Zg=\n=\n\n", F, (4, 24), (4, 21)),
    ("third pad", b"Zg=\n==\n", (4, 23), (4, 23), (4, 21)),
    ("third line", b"Zg=\n=\n=\n", (4, 24), (4, 24), (4, 21)),
    ("third pad behind two", b"Zg==\n=\n", (4, 23), (4, 23), (4, 23)),
    ("characters behind", b"Zg=\nZg==\n", (4, 22), (4, 22), (4, 21)),
    ("one pad", b"Zm8=\n", b"fo", b"fo", b"fo"),
    ("counts", b"Zm8=\n=\n", (8, 25), (8, 25), (4, 23)),
]
# Change request K8: spare bits, by its words and 01's, whose place is the last alphabet character.
SPARE = [
    ("the first of four bits", b"Zo==\n", F, (9, 19), (9, 19)),
    ("one of two bits", b"Zm9=\n", b"fo", (9, 20), (9, 20)),
    ("the other of two bits", b"Zm+=\n", b"fo", (9, 20), (9, 20)),
    ("no spare bits", b"Zm9v\n", b"foo", b"foo", b"foo"),
    ("counts before spare bits", b"Zh=\n", (8, 22), (8, 22), (4, 21)),
    ("pads on two lines", b"Zh=\n=\n", F, (9, 19), (4, 21)),
    ("pads on the next line", b"Zh\n==\n", F, (9, 19), (4, 20)),
    ("pads on the next two lines", b"Zh\r\n= \r=\n", F, (9, 19), (4, 20)),
    ("the pad on the next line", b"Zm9 \r\n=\n", b"fo", (9, 20), (4, 21)),
    ("the last character on a line of its own", b"Z\nh==\n", F, (9, 20), (4, 19)),
    ("white around it", b"Z h\v=\f=", F, (4, 20), (4, 19)),
]
TABLE += [(name, body(b), *wants) for name, b, *wants in SPLIT + SPARE]
assert len(M) == 39
for row in TABLE:
    for g in (1, 2, 3):
        want = row[1 + g]
        a = read(row[1], g, 8)
        if isinstance(want, bytes):
            at = 12 if row[0] == "SP before" else 11
            assert a.row() == (0, 0, len(want), at, 1), (row[0], g, a)
            assert a.out == want + bytes(8 - len(want))
        else:
            assert a.row() == want + (0, 0, 0), (row[0], g, a)
            assert a.out == bytes(8)

line65 = body(b"A" * 65 + b"\n")
assert read(line65, 3, 99).row()[:2] == (4, 82)
for g in (1, 2, 3):
    for n, want in ((64, 0), (65, 6)):
        l = b"L" * n
        t = b"-----BEGIN " + l + b"-----\nZg==\n-----END " + l + b"-----\n"
        a = read(t, g, 1)
        assert (a.number, a.place) == (want, 11 if want else 0)
assert read(b"  ", 1, 1).row()[:2] == (3, 2)


def ended(*ends):
    """M with these line ends, or with what else may stand in their places."""
    return b"".join(line + end for line, end in zip((b"-----BEGIN A-----", b"Zg==", b"-----END A-----"), ends))


# Change request K7: for each grammar the style of a text that it accepts, or None.
ENDS = (b"\n", b"\r\n", b"\r")
BARE = ended(b"", b"", b"")
STYLES = [
    ("LF", M, 1, 1, 1),
    ("CRLF", M.replace(b"\n", b"\r\n"), 2, 2, 2),
    ("CR", M.replace(b"\n", b"\r"), 3, 3, 3),
    ("LF, CRLF, CR", ended(*ENDS), 4, 4, 4),
    ("no line end at all", BARE, 0, None, None),
    ("VT and FF only", ended(b"\v", b"\f", b"\v\f"), 0, None, None),
    ("blanks only", ended(b" ", b"\t", b" \t"), 0, None, None),
    ("LF, VT and FF", ended(b"\v\n\f", b"\n\v", b"\f\n"), 1, None, None),
    ("CR before, LF behind", b"\r" + BARE + b"\n", 4, None, None),
    ("LF before CRLF", b"\n" + M.replace(b"\n", b"\r\n"), 4, None, None),
    ("CR as the last byte of each white", b" \r" + ended(b"\v\r", b"\f\r", b"\t\r"), 3, None, None),
    ("LF, and CR as the last byte", M + b"\r", 4, None, None),
    ("CR then LF in each white", b"\v\r\n" + ended(b" \r\n ", b"\r\n\v", b"\f\r\n"), 2, None, None),
    ("CR LF CR behind the opening", ended(b"\r\n\r", b"\r\n", b"\r\n"), 4, 4, None),
    ("CR LF CR LF behind the opening", ended(b"\r\n\r\n", b"\r\n", b"\r\n"), 2, 2, None),
    ("CR CR LF behind the opening", ended(b"\r\r\n", b"\r", b"\r"), 4, 4, None),
    ("CR CR behind the opening", ended(b"\r\r", b"\r", b"\r"), 3, 3, None),
    ("no last line end", ended(b"\r\n", b"\r\n", b""), 2, 2, None),
    ("blanks before CRLF", ended(b" \r\n", b"\t\r\n", b" \t\r\n"), 2, 2, None),
    ("CR between the pads", M.replace(b"==", b"=\r="), 4, 4, None),
    ("CR between the characters", M.replace(b"Zg", b"Z\rg"), 4, 4, None),
    ("labels differ", M.replace(b"END A", b"END B"), None, None, None),
    ("counts", M.replace(b"==", b"="), None, None, None),
    ("spare bits", M.replace(b"Zg", b"Zh"), 1, None, None),
]
# White, and the style of a message that has no line ends but those of that white, wherever lax lets it stand.
WHITES = [
    (b"\n", 1), (b"\r\n", 2), (b"\r", 3), (b"\n\n", 1), (b"\r\n\r\n", 2), (b"\r\r", 3), (b"\n\r", 4), (b"\r\n\n", 4),
    (b"\r\n\r", 4), (b"\r\r\n", 4), (b"\n\r\n", 4), (b"\r \n", 4), (b"\r\v\n", 4), (b"\r\t\r", 3), (b"\v\f \t", 0),
    (b" \r\n\v", 2), (b"\f\r", 3), (b"\v\n\f", 1),
]
for at in (0, 17, 18, 19, 20, 21, len(BARE)):
    STYLES += [("%r at %d" % (white, at), BARE[:at] + white + BARE[at:], style, None, None) for white, style in WHITES]
# Each of the three line ends of M in each style.
for kinds in itertools.product((1, 2, 3), repeat=3):
    style = kinds[0] if len(set(kinds)) == 1 else 4
    STYLES.append(("%d %d %d" % kinds, ended(*(ENDS[kind - 1] for kind in kinds)), style, style, style))
for name, t, *wants in STYLES:
    for g, want in zip((1, 2, 3), wants):
        a, short = read(t, g, 1), read(t, g, 0)
        assert a.style == (want or 0) and (a.number == 0) == (want is not None), (name, g, a)
        assert short.style == 0 and (short.number == 10) == (want is not None), (name, g, short)
for g in UNKNOWN:
    assert read(M, g, 8).report() == [1, 0, 0, 0, 0, 0, 0, 0]
assert read(M.replace(b"\n", b"\r\n"), 2, 8).report() == [0, 0, 1, 11, 1, 0, 2, 0]

# Change request K6: the family of each label that has one, by its words and figure 4 of RFC 7468.
FAMILIES = {
    b"CERTIFICATE": 1, b"X509 CERTIFICATE": 1, b"X.509 CERTIFICATE": 1, b"X509 CRL": 2, b"CERTIFICATE REQUEST": 3,
    b"NEW CERTIFICATE REQUEST": 3, b"PKCS7": 4, b"CMS": 5, b"PRIVATE KEY": 6, b"ENCRYPTED PRIVATE KEY": 7,
    b"ATTRIBUTE CERTIFICATE": 8, b"PUBLIC KEY": 9,
}


def check_family(label):
    """The reader tells the family of a label with room and without, and the index that of each message."""
    family, t = FAMILIES.get(label, 0), labelled(label)
    for g in (1, 2, 3):
        assert read(t, g, 1).report() == [0, 0, 1, 11, len(label), family, 1, 0], (label, g)
        assert read(t, g, 0).report() == [10, 0, 1, 11, len(label), family, 0, 0], (label, g)
        a = index(labelled(b"CMS") + t + M + t, g, 30)
        assert a.number == 0 and a.out[6:25:6] == [5, family, 0, family] and not any(a.out[25:]), (label, g)


def check_no_family(number, t, grammars=(1, 2, 3)):
    """A refusal tells no family."""
    for g, call in itertools.product(grammars, (read, index)):
        a = call(t, g, 8)
        assert a.number == number and not any(a.report()[2:]) and not any(a.out), (number, t[:80], g, a)


def check_refusals(label):
    """Each refusal of a message with the label, but 2."""
    t = labelled(label)
    check_no_family(1, t, UNKNOWN)
    check_no_family(3, t[1:])
    check_no_family(3, t.replace(b"-----\n", b"----\n", 1))
    check_no_family(4, t.replace(b"Z", b"."))
    check_no_family(5, t[:-2])
    check_no_family(6, labelled(labels.lengthened(label, 65)))
    check_no_family(7, labelled(label, b"A"))
    check_no_family(7, labelled(b"A", label))
    check_no_family(8, t.replace(b"==", b"="), (1, 2))
    check_no_family(9, t.replace(b"Zg", b"Zh"), (2, 3))
    assert read(t.replace(b"Zg", b"Zh"), 1, 1).family == FAMILIES[label]


assert oracle.FAMILIES == FAMILIES and len(FAMILIES) == 12 and max(map(len, FAMILIES)) == 23
for label in FAMILIES:
    check_family(label)
    check_refusals(label)
    for other in labels.near(label, labels.any_byte):
        assert oracle.family_of(other) == FAMILIES.get(other, 0), other
    for other in labels.near(label, labels.like):
        if len(other) < 65 and oracle.LABEL.fullmatch(other):
            check_family(other)
for label in labels.OTHERS:
    assert label not in FAMILIES
    check_family(label)
# Labels of one family differ, by their bytes.
assert len(labels.EQUIVALENT) == 8
for opened, closed in labels.EQUIVALENT:
    check_no_family(7, labelled(opened, closed))
    assert read(labelled(opened, closed), 1, 8).place == 31 + len(opened)

# Rows of the index: a text, and for each grammar the numbers of the table or a number and a place.
ONCE = [1, 0, 39, 11, 1, 1, 0]
TWO = [2, 0, 39, 11, 1, 1, 0, 39, 39, 50, 1, 1, 0]
JOINED = [2, 0, 38, 11, 1, 1, 0, 38, 39, 49, 1, 1, 0]
SPACED = [2, 0, 40, 11, 1, 1, 0, 40, 39, 51, 1, 1, 0]
FOUR = [4, 0, 43, 11, 3, 1, 5, 43, 39, 54, 1, 1, 0, 82, 53, 93, 8, 1, 2, 135, 43, 146, 3, 1, 5]
R = M[:-1] + b"\r"
BUNDLES = [
    ("M twice", M + M, TWO, TWO, TWO),
    ("M without its LF, then M", M[:-1] + M, JOINED, JOINED, (5, 38)),
    ("empty", b"", [0], [0], [0]),
    ("two spaces", b"  ", (3, 2), (3, 0), (3, 0)),
    ("M", M, ONCE, ONCE, ONCE),
    ("SP before", b" " + M + M, [2, 0, 40, 12, 1, 1, 0, 40, 39, 51, 1, 1, 0], (3, 0), (3, 0)),
    ("SP between", M + b" " + M, SPACED, (3, 39), (3, 39)),
    ("HT for the LF", M[:-1] + b"\t" + M, TWO, TWO, (5, 38)),
    ("VT for the LF", M[:-1] + b"\v" + M, TWO, (3, 38), (5, 38)),
    ("LF LF between", M + b"\n" + M, SPACED, (3, 39), (3, 39)),
    ("CRLF between", R + b"\n" + M, SPACED, SPACED, SPACED),
    ("CR between", R + M, TWO, TWO, TWO),
    ("CR CRLF between", R + b"\r\n" + M, [2, 0, 41, 11, 1, 1, 0, 41, 39, 52, 1, 1, 0], (3, 39), (3, 39)),
    ("CRLF LF between", R + b"\n\n" + M, [2, 0, 41, 11, 1, 1, 0, 41, 39, 52, 1, 1, 0], (3, 40), (3, 40)),
    ("white behind", M + M + b" \n", [2, 0, 39, 11, 1, 1, 0, 39, 41, 50, 1, 1, 0], (3, 78), (3, 78)),
    ("x behind", M + b"x", (3, 39), (3, 39), (3, 39)),
    ("x behind no LF", M[:-1] + b"x", (3, 38), (3, 38), (5, 38)),
    ("x before", b"x" + M, (3, 0), (3, 0), (3, 0)),
    ("hyphens behind", M + b"------", (3, 44), (3, 44), (3, 44)),
    ("sixth hyphen on closing", M[:-1] + b"-\n", (3, 39), (3, 39), (5, 38)),
    ("opening behind", M + M[:17], (4, 56), (4, 56), (4, 56)),
    ("opening without its last hyphen behind", M + M[:16], (3, 55), (3, 55), (3, 55)),
    ("body behind", M + M[:23], (4, 62), (4, 62), (4, 62)),
    ("hyphen of a closing behind", M + M[:24], (5, 63), (5, 63), (5, 63)),
    ("Zh== in the second", M + body(b"Zh==\n") + M, [3] + TWO[1:] + [78, 39, 89, 1, 1, 0], (9, 58), (9, 58)),
    ("Zh== in the first, closing B in the second", body(b"Zh==\n") + M[:32] + b"B" + M[33:], (7, 71), (9, 19), (9, 19)),
    ("Zg= in the second", M + body(b"Zg=\n"), (8, 61), (8, 61), (4, 60)),
    ("closing B in the second", M + M[:32] + b"B" + M[33:], (7, 71), (7, 71), (7, 71)),
    ("closing B, then x", M[:32] + b"B" + M[33:] + b"x", (7, 32), (7, 32), (7, 32)),
    ("label of 65 in the second", M + M.replace(b"A", b"L" * 65), (6, 50), (6, 50), (6, 50)),
    ("label with two hyphens in the second", M + M.replace(b"A", b"A--B"), (3, 53), (3, 53), (3, 53)),
    ("empty labels and data", b"-----BEGIN -----\n\n-----END -----" * 2, [2, 0, 32, 11, 0, 0, 0, 32, 32, 43, 0, 0, 0],
     [2, 0, 32, 11, 0, 0, 0, 32, 32, 43, 0, 0, 0], (4, 17)),
    ("CMS, A, X509 CRL, CMS", labelled(b"CMS") + M + labelled(b"X509 CRL") + labelled(b"CMS"), FOUR, FOUR, FOUR),
    ("SP before CMS", b" " + labelled(b"CMS") + M, [2, 0, 44, 12, 3, 1, 5, 44, 39, 55, 1, 1, 0], (3, 0), (3, 0)),
    ("CMS, then closing B", labelled(b"CMS") + M[:32] + b"B" + M[33:], (7, 75), (7, 75), (7, 75)),
]
for row in BUNDLES:
    for g in (1, 2, 3):
        want = row[1 + g]
        if isinstance(want, tuple):
            a = index(row[1], g, 20)
            assert a.report() == [*want, 0, 0, 0, 0, 0, 0] and a.out == [0] * 20, (row[0], g, a)
            continue
        n = len(want)
        for room in (0, 1, n - 1, n, n + 7):
            a = index(row[1], g, room)
            assert a.report() == [0 if n <= room else 10, 0, n, 0, 0, 0, 0, 0], (row[0], g, room, a)
            assert a.out == (want + [0] * (room - n) if n <= room else [0] * room), (row[0], g, room)
for g in UNKNOWN:
    for t in (b"", M):
        assert index(t, g, 0).row() == (1, 0, 0, 0, 0)
SHORTEST = b"-----BEGIN ----------END -----"
assert index(SHORTEST * 2184 + b"x", 1, 0).row() == (3, 65520, 0, 0, 0)


# A second method: derivatives. The text is cut into marks, a CRLF being one mark, and the grammar is derived by each. An
# expression is a tuple; `none` has no text, so "not none" is "can be completed" once empty cases are pruned.
NONE, NIL = ("none",), ("nil",)


def seq(a, b):
    if a == NONE or b == NONE:
        return NONE
    if a == NIL:
        return b
    return a if b == NIL else ("seq", a, b)


def alt(a, b):
    parts = set()
    for x in (a, b):
        parts |= set(x[1]) if x[0] == "alt" else {x}
    parts.discard(NONE)
    if not parts:
        return NONE
    return parts.pop() if len(parts) == 1 else ("alt", frozenset(parts))


def rep(a, low, high):
    if high == 0 or a in (NIL, NONE) and low == 0:
        return NIL
    return ("rep", a, low, high)


@lru_cache(None)
def nullable(e):
    k = e[0]
    if k == "nil":
        return True
    if k in ("none", "set"):
        return False
    if k == "seq":
        return nullable(e[1]) and nullable(e[2])
    if k == "alt":
        return any(nullable(x) for x in e[1])
    return e[2] == 0 or nullable(e[1])


@lru_cache(None)
def derive(e, mark):
    k = e[0]
    if k in ("nil", "none"):
        return NONE
    if k == "set":
        return NIL if mark in e[1] else NONE
    if k == "seq":
        d = seq(derive(e[1], mark), e[2])
        return alt(d, derive(e[2], mark)) if nullable(e[1]) else d
    if k == "alt":
        d = NONE
        for x in e[1]:
            d = alt(d, derive(x, mark))
        return d
    _, a, low, high = e
    rest = rep(a, max(low - 1, 0), None if high is None else high - 1)
    return seq(derive(a, mark), rest)


def marks(s):
    return ("set", frozenset(bytes([c]) for c in s))


def chain(*parts):
    e = NIL
    for p in reversed(parts):
        e = seq(p, e)
    return e


def word(s):
    return chain(*[marks([c]) for c in s])


A = marks(oracle.ALPHABET)
PAD = marks(b"=")
BL = marks(b"\t ")
CRLF = ("set", frozenset([b"\r\n"]))
E = ("set", frozenset([b"\r\n", b"\r", b"\n"]))
W = ("set", frozenset([b"\t", b" ", b"\r", b"\n", b"\v", b"\f", b"\r\n"]))
AW = ("set", A[1] | W[1])
LC = marks([c for c in range(33, 127) if c != 45])
LABEL = rep(seq(LC, rep(seq(rep(marks(b"- "), 0, 1), LC), 0, None)), 0, 1)
OPEN = chain(word(b"-----BEGIN "), LABEL, word(b"-----"))
CLOSE = chain(word(b"-----END "), LABEL, word(b"-----"))


def many(a):
    return rep(a, 0, None)


LINE = chain(rep(A, 1, None), many(BL), E)
PADS = alt(rep(PAD, 0, 2), chain(PAD, many(BL), E, PAD))
FINAL = chain(many(A), PADS, many(BL), E)
GROUP = rep(A, 4, 4)
LAST = alt(GROUP, alt(seq(rep(A, 3, 3), PAD), chain(rep(A, 2, 2), PAD, PAD)))
LATER = {
    1: chain(OPEN, many(AW), rep(seq(PAD, many(W)), 0, 2), CLOSE, many(W)),
    2: chain(OPEN, many(BL), E, many(alt(BL, E)), many(LINE), FINAL, CLOSE, many(BL), rep(E, 0, 1)),
    3: chain(OPEN, E, many(seq(rep(A, 64, 64), E)), rep(GROUP, 0, 15), LAST, E, CLOSE, E),
}
ONE = {1: seq(many(W), LATER[1]), 2: LATER[2], 3: LATER[3]}
ALL = {g: rep(seq(ONE[g], many(LATER[g])), 0, 1) for g in ONE}


def cut(t):
    out, i = [], 0
    while i < len(t):
        n = 2 if t[i:i + 2] == b"\r\n" else 1
        out.append(t[i:i + n])
        i += n
    return out


def by_derivatives(t, e):
    """(accepted, longest start)."""
    done = 0
    for mark in cut(t):
        d = derive(e, mark)
        if d == NONE:
            # The first byte of a CRLF may stand alone, at the end of a start.
            if mark == b"\r\n" and derive(e, b"\r") != NONE:
                return False, done + 1
            return False, done
        e, done = d, done + len(mark)
    return nullable(e), done


def style_of_marks(t):
    """The style that the marks of a text have."""
    kinds = set(cut(t)) & set(ENDS)
    return 4 if len(kinds) > 1 else sum(1 + ENDS.index(kind) for kind in kinds)


def check_starts(t, k, pattern):
    """The starts up to k are good, and no other start of the text is."""
    assert k == oracle.longest_start(t, pattern), (t, k, oracle.longest_start(t, pattern))
    if len(t) < 60:
        for i in range(len(t) + 1):
            assert (pattern.fullmatch(t[:i]) is not None) == (i <= k), (t, i)


def check(t):
    for g in (1, 2, 3):
        ok, k = by_derivatives(t, ONE[g])
        assert ok == (oracle.WHOLE[g].fullmatch(t) is not None), (t, g)
        check_starts(t, k, oracle.START[g])
        a = read(t, g, len(t))
        assert a.style == (style_of_marks(t) if a.number == 0 else 0), (t, g, a)
        assert a.family == FAMILIES.get(t[a.label_at:a.label_at + a.label_len], 0), (t, g, a)


def entries(table):
    """The six numbers of each message."""
    return [table[k:k + 6] for k in range(1, 1 + 6 * table[0], 6)]


def cuts(t, g, pattern):
    """Every way to cut t into messages, as lists of their ends. CR and LF of one CRLF are not cut apart."""
    if t == b"":
        return [[]]
    ways = []
    for n in range(30, len(t) + 1):
        if t[n - 1:n + 1] != b"\r\n" and pattern.fullmatch(t[:n]):
            ways += [[n] + [n + i for i in way] for way in cuts(t[n:], g, oracle.LATER_WHOLE[g])]
    return ways


def check_bundle(t, search):
    """The bundle that the oracle sees is the one that derivatives accept and, of short texts, the only one."""
    for g in (1, 2, 3):
        ok, k = by_derivatives(t, ALL[g])
        ends = [m.end() for m in oracle.messages(t, g)]
        assert ok == ((ends or [0])[-1] == len(t)), (t, g)
        check_starts(t, k, oracle.BUNDLE_START[g])
        assert all(i <= k for i in ends), (t, g)
        if search:
            assert cuts(t, g, oracle.WHOLE[g]) == ([ends] if ok else []), (t, g)
        a = index(t, g, 99)
        assert a.report()[5:] == [0, 0, 0], (t, g, a)
        for start, length, at, size, _, family in entries(a.out):
            assert family == FAMILIES.get(t[at:at + size], 0), (t, g, start)
        if not ok:
            assert a.number in (3, 4, 5) and a.place == k or a.number in (6, 7, 8, 9), (t, g, a)
        # One message is a bundle with the reader's label and size; what one message refuses by 6 to 9 a bundle does too.
        b = read(t, g, len(t))
        if b.number == 0:
            assert a.out[:7] == [1, 0, len(t), b.label_at, b.label_len, b.size, b.family], (t, g)
        elif b.number > 5:
            assert a.row() == b.row(), (t, g)


random.seed(7468)
BASES = [row[1] for row in TABLE] + [
    line65, body(b"A" * 64 + b"\n"), body(b"A" * 64 + b"\n" + b"B" * 64 + b"\n"),
    body(b"A" * 64 + b"\nQQ==\n"), M.replace(b"\n", b"\r\n"), M.replace(b"\n", b"\r"),
    b"-----BEGIN -----\r\n\r\n-----END -----", b"-----BEGIN A-B C-----\nZm9v\n\n-----END A-B C-----\n",
    labelled(b"CMS"), labelled(b"X509 CRL"), labelled(b"X509 CERTIFICATE"),
]
PIECES = [b"-", b"-----", b" ", b"\t", b"\r", b"\n", b"\r\n", b"\v", b"\f", b"=", b"==", b"A", b"Zm9v", b"A" * 63,
          b"\xff", b"\x00", b"~", b"-----BEGIN ", b"-----END ", b"BEGIN", b"a-b", b"*"]


def damaged(t, edits):
    for _ in range(edits):
        i = random.randint(0, len(t))
        j = min(len(t), i + random.choice((0, 0, 0, 1, 1, 2, 5)))
        t = t[:i] + random.choice(PIECES + [b""]) + t[j:]
    return t


for t in BASES:
    check(t)
    for i in range(len(t) + 1):
        check(t[:i])
for row in STYLES:
    check(row[1])
for _ in range(6000):
    check(damaged(random.choice(BASES), random.randint(1, 3)))

# What may stand between a character and the closing: all of it, up to six bytes.
for n in range(7):
    for tail in itertools.product(b"= \n\rA", repeat=n):
        check(body(b"Zg" + bytes(tail)))

# Texts long enough to leap: one in 301 of them, and there are 64 edits at a place, so that each edit comes about.
for t in itertools.islice(leaps.damaged(random.Random(7468)), 0, None, 301):
    check(t)
    check_bundle(t, False)
for t in itertools.islice(leaps.odd_ended(random.Random(7468)), 0, None, 17):
    check(t)

BETWEEN = [b"", b"", b"", b" ", b"\t", b"\n", b"\r", b"\r\n", b"\n\n", b"\v", b"x", b"-"]
for row in BUNDLES:
    check_bundle(row[1], True)
    for i in range(len(row[1])):
        check_bundle(row[1][:i], i < 90)
for _ in range(6000):
    t = b"".join(random.choice(BASES) + random.choice(BETWEEN) for _ in range(random.randint(0, 4)))
    check_bundle(damaged(t, random.choice((0, 0, 1, 2))), len(t) < 130)


def size(label, data, style):
    """The length that the paper gives the written text, and under CRLF one byte more for each of its line ends."""
    lines = -(-len(data) // 48)
    return 32 + 2 * len(label) + 4 * -(-len(data) // 3) + lines + (lines + 2 if style == 2 else 0)


def check_write(label, data, style):
    """Label and data are written in the paper's size, given that room, and read back alike under each grammar."""
    n = size(label, data, style)
    for room in (0, n - 1):
        a = write(label, data, style, room)
        assert a.report() == [10, 0, n, 0, 0, 0, 0, 0] and a.out == bytes(room), (label, n, style, room, a)
    a = write(label, data, style, n)
    assert a.report() == [0, 0, n, 0, 0, 0, 0, 0] and len(a.out) == n, (label, n, style, a)
    assert write(label, data, style, n + 9).out == a.out + bytes(9)
    for g in (1, 2, 3):
        b = read(a.out, g, len(data))
        family = FAMILIES.get(label, 0)
        assert b.report() == [0, 0, len(data), 11, len(label), family, style, 0] and b.out == data, (label, n, style, g, b)
        assert a.out[11:11 + len(label)] == label


def check_each_style(label, data):
    """The texts of the three styles differ in their line ends alone."""
    for style in (1, 2, 3):
        check_write(label, data, style)
        assert oracle.written(label, data, style) == oracle.written(label, data).replace(b"\n", ENDS[style - 1])


def check_restored(t):
    """What a strict text reads as is written as that text in its own style, and with LF for each of its line ends. Mixed
    line ends have no style to write in."""
    a = read(t, 3, len(t))
    if a.number == 0:
        given, mixed = (t[a.label_at:a.label_at + a.label_len], a.out[:a.size]), style_of_marks(t) == 4
        b = write(*given, a.style, len(t))
        assert (b.number, b.out) == ((20, bytes(len(t))) if mixed else (0, t)), t
        restored = b"\n".join(t.splitlines()) + b"\n"
        assert write(*given, 1, len(t)).out[:len(restored)] == restored, t


def check_joined(items):
    """Texts of labels and data, each in a style of its own, are joined a bundle with that list under each grammar."""
    t = b"".join(write(*item, size(*item)).out for item in items)
    for g in (1, 2, 3):
        a, found = index(t, g, 99), []
        for start, length, _, _, _, family in entries(a.out):
            part = t[start:start + length]
            b = read(part, g, len(part))
            assert b.family == family, (items, g, start)
            found.append((part[b.label_at:b.label_at + b.label_len], b.out[:b.size], b.style))
        assert a.number == 0 and a.out[0] == len(items) and found == items, (items, g, a)


def check_label(label):
    """The writer takes what derivatives of the label accept."""
    ok = by_derivatives(label, LABEL)[0]
    assert write(label, F, 1, 200).number == (0 if ok else 12), label


assert write(b"A", F, 1, 39).out == M
assert write(b"A", F, 2, 42).out == b"-----BEGIN A-----\r\nZg==\r\n-----END A-----\r\n"
assert write(b"A", F, 3, 39).out == b"-----BEGIN A-----\rZg==\r-----END A-----\r"
for n, lf, crlf in ((1, 39, 42), (48, 99, 102), (49, 104, 108)):
    for style, want in ((1, lf), (2, crlf), (3, lf)):
        assert size(b"A", bytes(n), style) == want == write(b"A", bytes(n), style, 0).size, (n, style)
for n in (32767, 32768, 32769):
    check_each_style(b"A", random.randbytes(n))
for n in range(1, 150):
    for label in (b"", b"A", b"PUBLIC KEY", b"L" * 63, b"L" * 64):
        check_each_style(label, random.randbytes(n))
LABELS, LENGTHS = (b"", b"A-B", b"CMS", b"X509 CERTIFICATE"), (1, 2, 3, 48, 49)
ITEMS = [(label, random.randbytes(n), style) for label in LABELS for n in LENGTHS for style in (1, 2, 3)]
for _ in range(1000):
    check_joined(random.choices(ITEMS, k=random.randint(0, 4)))

for label in (b" ", b"-", b" A", b"-A", b"A ", b"A-", b"A--B", b"A  B", b"A- B", b"A -B", b"A\tB", b"A\n", b"\r", b"\0",
              b"A\0", b"\x7f", b"A\x80", b"\xff"):
    assert write(label, F, 1, 200).row() == (12, 0, 0, 0, 0), label
for label in (b"", b"A-B", b"A B", b"A-B C-D", b"a", b"!", b",", b".", b"~", b"!,.~"):
    assert write(label, F, 1, 200).number == 0, label
for k in range(256):
    for label in (bytes([k]), bytes([65, k]), bytes([k, 65]), bytes([65, k, 66])):
        check_label(label)
for n in range(7):
    for label in itertools.product(b"A- ~", repeat=n):
        check_label(bytes(label))

# The first of 11, 12, 13, 14, 20 and 10 that applies, of all at once.
for label, number in ((b"A" * 64 + b"-", 11), (b"A" * 65, 11), (b"A" * 63 + b"-", 12), (b"A", None)):
    for data, later in ((b"", 13), (bytes(8388609), 14), (bytes(8388608), None), (F, None)):
        for style, room in itertools.product((1, 2, 3, *UNKNOWN), (0, 20, 38)):
            a, want = write(label, data, style, room), number or later or (20 if style in UNKNOWN else 10)
            needed = size(label, data, style) if want == 10 else 0
            given = label, len(data), style, room
            assert a.report() == [want, 0, needed, 0, 0, 0, 0, 0] and a.out == bytes(room), (given, a)
for style in UNKNOWN:
    assert write(b"A", F, style, 99).number == 20 and write(b"A", F, style, 0).size == 0, style

for t in BASES:
    for end in ENDS:
        check_restored(t.replace(b"\n", end))
        check_restored(damaged(t, 1).replace(b"\n", end))
    for _ in range(9):
        check_restored(b"".join(line.rstrip(b"\n") + random.choice(ENDS) for line in t.splitlines(keepends=True)))


def check_over(t):
    """A text that is one byte too long is refused with 2, and under an unknown grammar with 1."""
    assert len(t) == 16777217
    for call in (read, index):
        assert all(call(t, g, 9).row() == (2, 0, 0, 0, 0) for g in (1, 2, 3))
        assert all(call(t, g, 9).row() == (1, 0, 0, 0, 0) for g in UNKNOWN)


def check_longest(label, data):
    """A message that fills the limit is read under each grammar."""
    t = oracle.written(label, data)
    assert len(t) == 16777216
    for g in (1, 2, 3):
        a = read(t, g, len(data))
        assert a.row() == (0, 0, len(data), 11, len(label)) and a.out == data, (g, a)
        assert index(t, g, 7).out == [1, 0, 16777216, 11, len(label), len(data), 0], g
    check_over(t[:-1] + b"\r\n")


def check_fullest(full):
    """As many messages as the limit has room for, and white behind them up to the limit."""
    assert len(full) == 16777200
    assert index(full, 1, 3355440).row() == (10, 0, 3355441, 0, 0)
    assert index(full + b" " * 16, 1, 3355441).out[-6:] == [16777170, 46, 16777181, 0, 0, 0]


# The limits. A fault at the end of such a text is left to the tests in Rust: `re` takes 4 to 28 seconds for the 24 starts
# that are tried.
white_behind = M.ljust(16777216)
assert read(white_behind, 1, 1).out == F and index(white_behind, 1, 7).out == [1, 0, 16777216, 11, 1, 1, 0]
check_over(white_behind + b" ")
check_no_family(2, labelled(b"CMS").ljust(16777217))
assert read(labelled(b"CMS").ljust(16777216), 1, 0).report() == [10, 0, 1, 11, 3, 5, 0, 0]
assert [read(M.ljust(16777216, end), 1, 1).style for end in (b" ", b"\n", b"\r")] == [1, 1, 4]
check_longest(b"L" * 17, random.randbytes(258110 * 48))  # full lines, and more data than is written
check_fullest(SHORTEST * 559240)
LARGEST = b"L" * 64, random.randbytes(8388608)
assert [size(*LARGEST, style) for style in (1, 2, 3)] == [11359735, 11534500, 11359735]
check_each_style(*LARGEST)
print("ok")
