"""The inputs that the calls are counted on, in series. The inputs of a series are alike but for their length, and are given
as parts: a part in brackets is repeated as often as fits, and DUE is the place where a refusal is due.

Most are made to be bad for code that goes many bytes at once and else byte by byte: runs that end just before or behind a
block, so that blocks are tried in vain; pieces that are too short for any block; long runs, which must not be looked at anew
for each of their bytes; refusals that come last; and length where there is usually little.
"""
import typing

import labels
import oracle
from oracle import ALPHABET, DATA_LIMIT, LABEL_LIMIT

LAX, STANDARD, STRICT = 1, 2, 3
# An empty part.
DUE = b""

LF, CRLF, CR = b"\n", b"\r\n", b"\r"
TURNS = [LF, CRLF, CR]
# Styles to write in beside LF.
OTHERS = [("CRLF", oracle.CRLF), ("CR", oracle.CR)]
BLANKS = b" \t"
WHITE = [b" ", b"\t", b"\r", b"\n", b"\v", b"\f"]
MIXED = b"".join(WHITE)
OPENING, CLOSING = b"-----BEGIN A-----", b"-----END A-----"
BEGIN, END = OPENING + LF, CLOSING + LF
LINE, LINE_DATA = ALPHABET + LF, bytes(range(48))
GROUP, PADDED = b"Zm9v", b"Zg==\n"
# Around groups of 4 characters and blocks of 16 and 64.
WIDTHS = [1, 2, 3, 4, 5, 15, 16, 17, 31, 63, 64, 65]
LONG_LINE = 76

EMPTY, EMPTY_STANDARD = b"-----BEGIN ----------END -----", b"-----BEGIN -----\n\n-----END -----"
SHORT = BEGIN + PADDED + END
LONG = b"-----BEGIN FULL-----\n" + 7 * LINE + b"AQIDBAUGBwgJCgsM\n-----END FULL-----\n"
# The longest labels: of characters alone, and with a hyphen or a space between each two of them.
LABEL, HYPHENS, SPACES = b"A" * LABEL_LIMIT, b"A-" * (LABEL_LIMIT // 2 - 1) + b"A", b"A " * (LABEL_LIMIT // 2 - 1) + b"A"
LABELLED = b"-----BEGIN " + LABEL + b"-----\n"
# Numbers of a table for each message.
ENTRY = 6
# Of the labels that the library knows the longest, one that begins with it, and one that differs from it in its last byte alone.
KNOWN = max(labels.KNOWN, key=len)
LIKE_KNOWN, UNLIKE_KNOWN = labels.lengthened(KNOWN), KNOWN[:-1] + b"S"
LIKE_KNOWN_BEGIN, LIKE_KNOWN_END = b"-----BEGIN " + LIKE_KNOWN + b"-----\n", b"-----END " + LIKE_KNOWN + b"-----\n"
# Bytes of a label that look like a boundary's.
HALVES = b"A-BEGIN A-END "
# Messages in which hardly two neighbours are of one kind.
MOTLEY_LAX = b"-----BEGIN A-A A-----\rZ \tm\v9 v\fZ\n g\r\n=\t= \n-----END A-A A-----\v"
MOTLEY_STANDARD = b"-----BEGIN A-A A-----\t\r \n\rZm \r9\t\nvZ\r\ng \r=\t\r=\t\r-----END A-A A----- \r"


class Series(typing.NamedTuple):
    """`number` is the answer that is due; where it is a refusal the label call hands back an empty label. `label` is the one
    to write, as parts, and `style` that of its line ends. `room` is how much is lent by the length that is asked for, where it
    is not what any result fits."""
    name: str
    parts: tuple
    number: int = 0
    label: tuple = (b"A",)
    style: int = oracle.LF
    room: typing.Callable = None


def runs(width, *ends):
    """Runs of so many characters, in whole groups of four, each run with one of the ends by turns."""
    count = 4 * len(ends)
    characters = ALPHABET * (width * count // len(ALPHABET) + 1)
    return b"".join(characters[i * width:(i + 1) * width] + ends[i % len(ends)] for i in range(count))


def labelled(label, end=LF):
    """A short strict message."""
    return b"-----BEGIN " + label + b"-----" + end + b"Zg==" + end + b"-----END " + label + b"-----" + end


def bare(width, label=b""):
    """A lax message with nothing but so many characters between its boundaries."""
    return b"-----BEGIN " + label + b"-----" + ALPHABET[:width] + b"-----END " + label + b"-----"


def long_label(unit):
    """A message with two equal labels, each as many units as fit and one character more."""
    return b"-----BEGIN ", DUE, [unit], b"A-----\nZg==\n-----END ", [unit], b"A-----\n"


def pieces(parts, n):
    """The parts with at most n bytes together. Repeated ones get equal shares of what the others leave."""
    fixed = sum(len(part) for part in parts if isinstance(part, bytes))
    share = (n - fixed) // max(1, sum(isinstance(part, list) for part in parts))
    return [part if isinstance(part, bytes) else part[0] * (share // len(part[0])) for part in parts]


def made(parts, n):
    return b"".join(pieces(parts, n))


def due_at(parts, n):
    """How many bytes stand before DUE; 0 where it is none of the parts."""
    return len(b"".join(pieces(parts, n)[:parts.index(DUE)])) if DUE in parts else 0


def lines_in(n):
    """How many full lines a message of at most n bytes has."""
    return (n - len(BEGIN + END)) // len(LINE)


def written_lines(n):
    """How many of them may be written."""
    return min(lines_in(n), DATA_LIMIT // len(LINE_DATA))


def written_in(n, end=LF):
    """How many bytes the text of as many full lines has, with another line end than LF perhaps."""
    return len(OPENING + end + CLOSING + end) + written_lines(n) * len(ALPHABET + end)


def given(call, series, n):
    """The label to write, and the text or the data of a text of at most n bytes."""
    if call == "write":
        return made(series.label, n), made(series.parts, written_lines(n) * len(LINE_DATA))
    return b"", made(series.parts, n)


READ_STRICT = [
    Series("one message", (BEGIN, [LINE], END)),
    Series("CRLF", (BEGIN, [runs(64, CRLF)], END)),
    Series("CR", (BEGIN, [runs(64, CR)], END)),
    Series("CRLF behind the boundaries too", (OPENING + CRLF, [runs(64, CRLF)], CLOSING + CRLF)),
    Series("one CR among LF", (BEGIN, [LINE], ALPHABET + CR, [LINE], END)),
    Series("LF, CRLF and CR by turns", (BEGIN, [runs(64, *TURNS)], END)),
    Series("no line end", (BEGIN, ALPHABET, DUE, [GROUP], LF, END), 4),
    Series("unfinished", (BEGIN, [LINE], DUE), 4),
    Series("63 characters on the last line", (BEGIN, [LINE], ALPHABET[:-1], DUE, LF, END), 4),
    Series("65 characters on the last line", (BEGIN, [LINE], ALPHABET, DUE, b"A\n", END), 4),
    Series("cut at the end", (BEGIN, [LINE], CLOSING, DUE), 5),
    Series("wrong last byte", (BEGIN, [LINE], CLOSING, DUE, b"A"), 5),
    Series("labels differ", (BEGIN, [LINE], b"-----END ", DUE, b"B-----\n"), 7),
    Series("labels of 64 differ at the end", (LABELLED, [LINE], b"-----END ", DUE, LABEL[1:], b"B-----\n"), 7),
    Series("spare bits at the end", (BEGIN, [LINE], b"Z", DUE, b"h==\n", END), 9),
    Series("long label", long_label(b"A"), 6),
    Series("long label, hyphens", long_label(b"A-"), 6),
    Series("long label, spaces", long_label(b"A "), 6),
    Series("long label, halves of boundaries", long_label(HALVES), 6),
    Series("long label, a known one again and again", long_label(KNOWN + b" "), 6),
    Series("long closing label", (BEGIN, PADDED, b"-----END ", DUE, [b"A"], b"-----\n"), 7),
    Series("unfinished label", (b"-----BEGIN ", [b"A"], DUE), 3),
    Series("unfinished label, hyphens", (b"-----BEGIN ", [b"A-"], DUE), 3),
    Series("unfinished label, spaces", (b"-----BEGIN ", [b"A "], DUE), 3),
    Series("label of 64 that begins like a known one", (LIKE_KNOWN_BEGIN, [LINE], LIKE_KNOWN_END)),
    Series("output one byte too small", (BEGIN, [LINE], END), 10, room=lambda n: lines_in(n) * len(LINE_DATA) - 1),
    Series("short text, long output", (SHORT,), room=lambda n: n),
]

READ_STANDARD = [
    *[Series(f"lines of {width}", (BEGIN, [runs(width, LF)], END)) for width in [*WIDTHS, LONG_LINE]],
    *[Series(f"a full line, then lines of {width}", (BEGIN, LINE, [runs(width, LF)], END)) for width in [1, 4, 5, 60]],
    Series("a short line, then full lines", (BEGIN, b"Zm9v\n", [LINE], END)),
    Series("lines of 31 and 32", (BEGIN, [4 * (ALPHABET[:31] + LF + ALPHABET[:32] + LF)], END)),
    Series("lines of 1, CR", (BEGIN, [runs(1, CR)], END)),
    Series("lines of 1, CRLF", (BEGIN, [runs(1, CRLF)], END)),
    Series("lines of 1, CRLF and LF by turns", (BEGIN, [runs(1, CRLF, LF)], END)),
    Series("lines of 1, LF, CRLF and CR by turns", (BEGIN, [runs(1, *TURNS)], END)),
    Series("lines of 63, LF, CRLF and CR by turns", (BEGIN, [runs(63, *TURNS)], END)),
    Series("lines of 1 and a blank", (BEGIN, [runs(1, b" \n")], END)),
    Series("lines of 63 and a blank", (BEGIN, [runs(63, b" \n")], END)),
    Series("lines of 64 and a blank", (BEGIN, [runs(64, b" \n")], END)),
    Series("lines of 4 and 60 blanks", (BEGIN, [GROUP + 60 * b" " + LF], END)),
    Series("one line", (BEGIN, [GROUP], LF, END)),
    Series("blanks behind the opening", (OPENING, [BLANKS], LF, PADDED, END)),
    Series("empty lines behind the opening", (BEGIN, [LF], PADDED, END)),
    Series("empty lines, CR", (BEGIN, [CR], PADDED, END)),
    Series("empty lines, CRLF and LF by turns", (BEGIN, [CRLF + LF], PADDED, END)),
    Series("lines of a blank", (BEGIN, [b" \n"], PADDED, END)),
    Series("nothing but empty lines", (BEGIN, [LF], END)),
    Series("blanks before the characters", (BEGIN, [BLANKS], PADDED, END)),
    Series("blanks behind the pads", (BEGIN, b"Zg==", [BLANKS], LF, END)),
    Series("blanks behind each of two pads", (BEGIN, b"Zg=", [BLANKS], LF, b"=", [BLANKS], LF, END)),
    Series("blanks before the second pad", (BEGIN, [LINE], b"Zg=\n", DUE, b" =\n", END), 4),
    Series("blanks behind the closing", (BEGIN, PADDED, CLOSING, [BLANKS], LF)),
    Series("blanks and no line end", (OPENING, [BLANKS], DUE), 4),
    Series("unfinished", (BEGIN, [LINE], DUE), 4),
    Series("unfinished line", (BEGIN, [GROUP], DUE), 4),
    Series("one line and a wrong byte", (BEGIN, [GROUP], DUE, b"\v", LF, END), 4),
    Series("blanks and a character behind them", (BEGIN, GROUP, [BLANKS], DUE, b"A\n", END), 4),
    Series("cut at the end", (BEGIN, [LINE], CLOSING[:-1], DUE), 5),
    Series("wrong last byte", (BEGIN, [LINE], END, DUE, b"A"), 5),
    Series("one character too many", (BEGIN, [LINE], b"A\n", DUE, END), 8),
    Series("spare bits at the end", (BEGIN, [LINE], b"Z", DUE, b"h==\n", END), 9),
    Series("spare bits, blanks before the pads", (BEGIN, b"Z", DUE, b"h", [BLANKS], b"\n=\n=\n", END), 9),
]

READ_LAX = [
    Series("one message", (BEGIN, [LINE], END)),
    *[Series(f"a blank behind each {width}", (BEGIN, [runs(width, b" ")], END)) for width in WIDTHS],
    *[Series(f"a full line, then a blank behind each {width}", (BEGIN, LINE, [runs(width, b" ")], END)) for width in [1, 4]],
    Series("a blank before each line", (BEGIN, [b" " + LINE], END)),
    Series("a white of each kind behind each 1", (BEGIN, [runs(1, *WHITE)], END)),
    Series("a white of each kind behind each 17", (BEGIN, [runs(17, *WHITE)], END)),
    Series("VT and FF behind each 1", (BEGIN, [runs(1, b"\v", b"\f")], END)),
    Series("CR behind each 1", (BEGIN, [runs(1, CR)], END)),
    Series("CR CR CR behind each 1", (BEGIN, [runs(1, 3 * CR)], END)),
    Series("CRLF and LF behind each 1", (BEGIN, [runs(1, CRLF, LF)], END)),
    Series("63 blanks behind each 1", (BEGIN, [runs(1, 63 * b" ")], END)),
    Series("60 of 64 bytes white", (BEGIN, [GROUP + 10 * MIXED], END)),
    Series("runs of 1 to 70", (BEGIN, [b"".join(runs(width, b" ") for width in range(1, 71))], END)),
    Series("one line", (BEGIN, [GROUP], LF, END)),
    Series("no white at all", (OPENING, [GROUP], CLOSING)),
    Series("nothing but white in the body", (BEGIN, [MIXED], END)),
    Series("blanks behind a group", (BEGIN, GROUP, [b" "], END)),
    Series("blanks before the opening", ([b" "], SHORT)),
    Series("white before the opening", ([MIXED], SHORT)),
    Series("white between the pads and behind", (BEGIN, b"Zg=", [MIXED], b"=", [MIXED], END)),
    Series("white behind the closing", (SHORT, [MIXED])),
    Series("nothing but white", ([MIXED], DUE), 3),
    Series("unfinished", (BEGIN, [GROUP], DUE), 4),
    Series("three pads at the end", (BEGIN, [GROUP], b"==", DUE, b"=", END), 4),
    Series("cut at the end", (BEGIN, [LINE], CLOSING[:-1], DUE), 5),
    Series("wrong last byte", (BEGIN, [LINE], END, DUE, b"A"), 5),
    Series("one character too many", (BEGIN, [runs(1, b" ")], b"A ", DUE, END), 8),
]

LABEL_STRICT = [
    Series("one message", (BEGIN, [LINE], END)),
    Series("LF, CRLF and CR by turns", (BEGIN, [runs(64, *TURNS)], END)),
    Series("cut at the end", (BEGIN, [LINE], CLOSING, DUE), 5),
    Series("long label, hyphens", long_label(b"A-"), 6),
]

LABEL_STANDARD = [
    Series("lines of 1", (BEGIN, [runs(1, LF)], END)),
    Series("lines of 63", (BEGIN, [runs(63, LF)], END)),
    Series("lines of a blank", (BEGIN, [b" \n"], PADDED, END)),
]

LABEL_LAX = [
    Series("a blank behind each 1", (BEGIN, [runs(1, b" ")], END)),
    Series("a blank behind each 3", (BEGIN, [runs(3, b" ")], END)),
    Series("a blank behind each 63", (BEGIN, [runs(63, b" ")], END)),
    Series("one line", (BEGIN, [GROUP], LF, END)),
    Series("nothing but white in the body", (BEGIN, [MIXED], END)),
    Series("white before the opening", ([MIXED], SHORT)),
    Series("long label", long_label(b"A"), 6),
]

INDEX_STRICT = [
    Series("messages of 39 bytes", ([SHORT],)),
    Series("messages of 512 bytes", ([LONG],)),
    Series("messages of 39 bytes, CR", ([labelled(b"A", CR)],)),
    Series("messages with empty labels", ([labelled(b"")],)),
    Series("labels of 64", ([labelled(LABEL)],)),
    Series("labels of 63, hyphens", ([labelled(HYPHENS)],)),
    Series("labels of 63, spaces", ([labelled(SPACES)],)),
    Series("each known label by turns", ([b"".join(map(labelled, labels.KNOWN))],)),
    Series("labels CERTIFICATE", ([labelled(b"CERTIFICATE")],)),
    Series("labels unlike the longest known in one byte", ([labelled(UNLIKE_KNOWN)],)),
    Series("labels of 64 that begin like a known one", ([labelled(LIKE_KNOWN)],)),
    Series("one message", (BEGIN, [LINE], END)),
    Series("wrong last byte", ([SHORT], DUE, b"A"), 3),
    Series("last message cut in its opening", ([SHORT], b"-----BEGIN", DUE), 3),
    Series("last message long and unfinished", (SHORT, BEGIN, [LINE], DUE), 4),
    Series("cut at the end", ([SHORT], SHORT[:-1], DUE), 5),
    Series("last label of 65", ([labelled(LABEL)], b"-----BEGIN ", DUE, labelled(LABEL + b"A")[11:]), 6),
    Series("last labels differ at the end", ([labelled(LABEL)], LABELLED, PADDED, b"-----END ", DUE, LABEL[1:], b"B-----\n"), 7),
    Series("spare bits at the end", ([SHORT], BEGIN, b"Z", DUE, b"h==\n", END), 9),
    Series("long label, hyphens", (SHORT, *long_label(b"A-")), 6),
    Series("unfinished label, spaces", (SHORT, b"-----BEGIN ", [b"A "], DUE), 3),
    Series("table one number too small", ([SHORT],), 10, room=lambda n: n // len(SHORT) * ENTRY),
    Series("no table", ([SHORT],), 10, room=lambda n: 0),
    Series("short text, long table", (SHORT,), room=lambda n: n // 4),
]

INDEX_STANDARD = [
    Series("empty messages", ([EMPTY_STANDARD],)),
    Series("motley messages", ([MOTLEY_STANDARD],)),
    Series("lines of 1", (BEGIN, [runs(1, LF)], END)),
    Series("lines of 63", (BEGIN, [runs(63, LF)], END)),
    Series("lines of a blank", (BEGIN, [b" \n"], PADDED, END)),
    Series("last message unfinished", ([SHORT], BEGIN, b"Zg", DUE), 4),
    Series("last message with a character too many", ([SHORT], BEGIN, b"Zg=\n", DUE, END), 8),
    Series("spare bits at the end", ([SHORT], BEGIN, b"Z", DUE, b"h=\n=\n", END), 9),
]

INDEX_LAX = [
    Series("empty messages", ([EMPTY],)),
    Series("empty messages, a white of each kind between", ([b"".join(EMPTY + white for white in WHITE)],)),
    Series("motley messages", ([MOTLEY_LAX],)),
    Series("empty messages, each known label by turns", ([b"".join(bare(0, label) for label in labels.KNOWN)],)),
    Series("empty messages, labels CMS", ([bare(0, b"CMS")],)),
    *[Series(f"messages of {width} characters", ([bare(width)],)) for width in [4, 12, 16, 60, 64]],
    Series("a blank behind each 1", (BEGIN, [runs(1, b" ")], END)),
    Series("a blank behind each 3", (BEGIN, [runs(3, b" ")], END)),
    Series("a blank behind each 63", (BEGIN, [runs(63, b" ")], END)),
    Series("one line", (BEGIN, [GROUP], LF, END)),
    Series("nothing but white in the body", (BEGIN, [MIXED], END)),
    Series("white before the first", ([MIXED], SHORT)),
    Series("blanks between two", (SHORT, [b" "], SHORT)),
    Series("nothing but white", ([MIXED], DUE), 3),
    Series("last message unfinished", ([EMPTY], b"-----BEGIN -----", DUE), 4),
    Series("last message long and unfinished", (SHORT, OPENING, [GROUP], DUE), 4),
    Series("last labels differ", ([EMPTY], EMPTY[:-5], DUE, b"A-----"), 7),
    Series("last labels differ and count as the same",
           ([EMPTY], b"-----BEGIN X509 CERTIFICATE----------END ", DUE, b"CERTIFICATE-----"), 7),
]

WRITE = [
    Series("full lines", ([LINE_DATA],)),
    Series("one byte on the last line", ([LINE_DATA], b"f")),
    Series("label of 64", ([LINE_DATA],), label=(LABEL,)),
    Series("label of 63, hyphens", ([LINE_DATA],), label=(HYPHENS,)),
    *[Series(f"full lines, {name}", ([LINE_DATA],), style=style) for name, style in OTHERS],
    *[Series(f"one byte on the last line, {name}", ([LINE_DATA], b"f"), style=style) for name, style in OTHERS],
    Series("output one byte too small", ([LINE_DATA],), 10, room=lambda n: written_in(n) - 1),
    Series("output one byte too small, CRLF", ([LINE_DATA],), 10, style=oracle.CRLF, room=lambda n: written_in(n, CRLF) - 1),
    Series("no output", ([LINE_DATA],), 10, room=lambda n: 0),
    Series("short data, long output", (b"f",), room=lambda n: n),
    Series("long label", (b"f",), 11, label=([b"A"],)),
    Series("no label", ([LINE_DATA],), 12, label=(LABEL[1:] + b"-",)),
    Series("no data, long output", (), 13, room=lambda n: n),
    Series("no style, long output", ([LINE_DATA],), 20, style=oracle.MIXED, room=lambda n: n),
]

SERIES = {
    ("read", STRICT): READ_STRICT,
    ("read", STANDARD): READ_STANDARD,
    ("read", LAX): READ_LAX,
    ("label", STRICT): LABEL_STRICT,
    ("label", STANDARD): LABEL_STANDARD,
    ("label", LAX): LABEL_LAX,
    ("index", STRICT): INDEX_STRICT,
    ("index", STANDARD): INDEX_STANDARD,
    ("index", LAX): INDEX_LAX,
    ("write", STRICT): WRITE,
}
