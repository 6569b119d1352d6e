"""The answers of the reader and of the index, worked out from the requirements paper by regular expressions, and those of
the writer.

A grammar is an expression tree. From it two patterns for `re` are made: the pattern of its whole texts, and the pattern
of their starts, by the rules
    start(RS) = start(R) | R start(S)    start(R*) = R* start(R)    start(c) = c or nothing
The longest good start is found by trying prefixes of the text against the second pattern. No state is kept from byte to
byte: `re` backtracks.
"""
import base64
import re

# The longest text, label and data to write, in bytes. Change request K4 gives the first and the last, which were 65,536
# and 32,768 before it.
TEXT_LIMIT = 16_777_216
LABEL_LIMIT = 64
DATA_LIMIT = 8_388_608

# Styles of line ends, by change request K7: the writer takes the first three, the reader also reports none and mixed.
NONE, LF, CRLF, CR, MIXED = range(5)
LINE_ENDS = {LF: b"\n", CRLF: b"\r\n", CR: b"\r"}
# CR before LF is one line end with it, wherever the two stand.
STYLES = {LF: re.compile(rb"(?<!\r)\n"), CRLF: re.compile(rb"\r\n"), CR: re.compile(rb"\r(?!\n)")}

# Families of labels, by change request K6: figure 4 of RFC 7468 in its order, from 1 on, and what counts as one of these.
# All other labels are in none, whose number is 0.
FIGURE_4 = (
    b"CERTIFICATE", b"X509 CRL", b"CERTIFICATE REQUEST", b"PKCS7", b"CMS", b"PRIVATE KEY", b"ENCRYPTED PRIVATE KEY",
    b"ATTRIBUTE CERTIFICATE", b"PUBLIC KEY",
)
FAMILIES = {label: number for number, label in enumerate(FIGURE_4, 1)}
FAMILIES |= {b"X509 CERTIFICATE": 1, b"X.509 CERTIFICATE": 1, b"NEW CERTIFICATE REQUEST": 3}


class Node:
    def __add__(self, other):
        return Seq(self, other)


class Set(Node):
    """One byte of a set, given as the inside of a bracket expression."""

    def __init__(self, inside):
        self.inside = inside

    def whole(self):
        return "[" + self.inside + "]"

    def start(self):
        return "[" + self.inside + "]?"


class LineEnd(Node):
    """CRLF, CR or LF; CR before LF is never a line end by itself."""

    def whole(self):
        return r"(?:\r\n|\r(?!\n)|\n)"

    def start(self):
        return r"(?:\r\n|\r|\n)?"


class Seq(Node):
    def __init__(self, *parts):
        self.parts = parts

    def whole(self):
        return "".join(p.whole() for p in self.parts)

    def start(self):
        last = self.parts[-1].start()
        for p in reversed(self.parts[:-1]):
            last = "(?:" + p.whole() + last + "|" + p.start() + ")"
        return last


class Alt(Node):
    def __init__(self, *cases):
        self.cases = cases

    def whole(self):
        return "(?:" + "|".join(c.whole() for c in self.cases) + ")"

    def start(self):
        return "(?:" + "|".join(c.start() for c in self.cases) + ")"


class Rep(Node):
    """From `low` to `high` times; `high` None is no bound."""

    def __init__(self, node, low=0, high=None):
        self.node, self.low, self.high = node, low, high

    def whole(self):
        high = "" if self.high is None else str(self.high)
        return "(?:" + self.node.whole() + "){" + str(self.low) + "," + high + "}"

    def start(self):
        high = "" if self.high is None else str(self.high - 1)
        return "(?:" + self.node.whole() + "){0," + high + "}" + self.node.start()


class Name(Node):
    """A part that a whole match hands back."""

    def __init__(self, name, node):
        self.name, self.node = name, node

    def whole(self):
        return "(?P<" + self.name + ">" + self.node.whole() + ")"

    def start(self):
        # A name may stand once in a pattern, so a start has none.
        return self.node.start()


def text(s):
    return Seq(*[Set("\\x%02x" % ord(c)) for c in s])


def unnamed(pattern):
    return re.sub(r"\(\?P<\w+>", "(?:", pattern)


ALPHABET = b"ABCDEFGHIJKLMNOPQRSTUVWXYZabcdefghijklmnopqrstuvwxyz0123456789+/"
NOT_ALPHABET = bytes(set(range(256)) - set(ALPHABET))
# The value of a character is two octal digits.
HIGH_DIGIT = bytes.maketrans(ALPHABET, b"".join(b"%d" % (value // 8) for value in range(64)))
LOW_DIGIT = bytes.maketrans(ALPHABET, b"".join(b"%d" % (value % 8) for value in range(64)))

alpha = Set(r"A-Za-z0-9+/")
pad = Set("=")
blank = Set(r"\x09\x20")
white = Set(r"\x09\x20\x0d\x0a\x0b\x0c")
blanks = Rep(blank)
end = LineEnd()

label_char = Set(r"\x21-\x2c\x2e-\x7e")
label = Rep(Seq(label_char, Rep(Seq(Rep(Set(r"\x2d\x20"), 0, 1), label_char))), 0, 1)
opening = Seq(text("-----BEGIN "), Name("opened", label), text("-----"))
closing = Seq(Name("dashes", text("-----")), text("END "), Name("closed", label), text("-----"))

lax_body = Seq(
    Rep(Set(r"A-Za-z0-9+/\x09\x20\x0d\x0a\x0b\x0c")),
    Rep(Seq(pad, Rep(white)), 0, 2),
)
data_line = Seq(Rep(alpha, 1), blanks, end)
# Change request K9: the second pad may stand on the line behind the first. Before it, pads stood together.
final_pads = Alt(Seq(pad, blanks, end, pad), Rep(pad, 0, 2))
final_line = Seq(Rep(alpha), final_pads, blanks, end)
standard_body = Seq(blanks, end, Rep(Alt(blank, end)), Rep(data_line), final_line)
full_line = Seq(Rep(alpha, 64, 64), end)
group = Rep(alpha, 4, 4)
last_group = Alt(
    group,
    Seq(Rep(alpha, 3, 3), pad),
    Seq(Rep(alpha, 2, 2), pad, pad),
)
# 1 to 16 groups of four, of which only the last may be short.
strict_body = Seq(end, Rep(full_line), Rep(group, 0, 15), last_group, end)

# A message of a bundle with others before it: the white before its opening belongs to the earlier one.
LATER = {
    1: Seq(opening, Name("body", lax_body), closing, Rep(white)),
    2: Seq(opening, Name("body", standard_body), closing, blanks, Rep(end, 0, 1)),
    3: Seq(opening, Name("body", strict_body), closing, end),
}
# A message by itself, or the first of a bundle.
GRAMMARS = {1: Seq(Rep(white), LATER[1]), 2: LATER[2], 3: LATER[3]}
BUNDLES = {g: Rep(Seq(t, Rep(LATER[g])), 0, 1) for g, t in GRAMMARS.items()}


def wholes(trees):
    return {g: re.compile(t.whole().encode()) for g, t in trees.items()}


def starts(trees):
    return {g: re.compile(unnamed(t.start()).encode()) for g, t in trees.items()}


LABEL = re.compile(label.whole().encode())
WHOLE, LATER_WHOLE = wholes(GRAMMARS), wholes(LATER)
START, BUNDLE_START = starts(GRAMMARS), starts(BUNDLES)
OPENED = {
    1: re.compile(unnamed(Seq(Rep(white), opening).whole()).encode()),
    2: re.compile(unnamed(opening.whole()).encode()),
    3: re.compile(unnamed(opening.whole()).encode()),
}


def longest_start(t, pattern, low=0):
    """The length of the longest start of t that the pattern has, where `low` bytes are known to be one. A start of a
    start is one, so the lengths can be halved."""
    high = len(t)
    while low < high:
        middle = (low + high + 1) // 2
        if pattern.fullmatch(t[:middle]) is not None:
            low = middle
        else:
            high = middle - 1
    return low


def kind(start, g):
    """3, 4 or 5, by what the longest good start has."""
    opened = OPENED[g].match(start)
    if opened is None:
        return 3
    return 5 if b"-" in start[opened.end():] else 4


def decoded(chars):
    """RFC 4648, high bits first; spare bits dropped. With the spare bits as a number."""
    digits = bytearray(2 * len(chars))
    digits[::2], digits[1::2] = chars.translate(HIGH_DIGIT), chars.translate(LOW_DIGIT)
    size, spare = divmod(6 * len(chars), 8)
    bits = int(digits or b"0", 8)
    return (bits >> spare).to_bytes(size, "big"), bits & (1 << spare) - 1


def style_of(t):
    """The style of all line ends of a text."""
    found = [style for style, pattern in STYLES.items() if pattern.search(t)]
    if len(found) > 1:
        return MIXED
    return found[0] if found else NONE


def family_of(label):
    """By all bytes of the label: case counts, and it is not enough to begin or end like one that is known."""
    return FAMILIES.get(label, 0)


class Answer:
    def __init__(self, number, place=0, size=0, label_at=0, label_len=0, out=b"", family=0, style=NONE):
        self.number, self.place, self.size = number, place, size
        self.label_at, self.label_len, self.out = label_at, label_len, out
        self.family, self.style = family, style

    def row(self):
        return (self.number, self.place, self.size, self.label_at, self.label_len)

    def report(self):
        """The eight numbers of a report. No call fills the last."""
        return [*self.row(), self.family, self.style, 0]

    def __repr__(self):
        return "%d at %d size %d label %d+%d family %d style %d" % (*self.row(), self.family, self.style)


def judged(m, g):
    """The checks 6 to 9 of a message that the match m has found: the refusal's number and place, or zeros, and the
    data."""
    if len(m["opened"]) > LABEL_LIMIT:
        return 6, m.start("opened"), b""
    if m["opened"] != m["closed"]:
        return 7, m.start("closed"), b""
    chars = m["body"].translate(None, NOT_ALPHABET)
    n, p = len(chars), m["body"].count(b"=")
    if (n % 4, p) not in ((0, 0), (2, 2), (3, 1)):
        return 8, m.start("dashes"), b""
    data, spare = decoded(chars)
    assert data == base64.b64decode(chars + b"=" * p)
    # Change request K8: grammar 2 refuses them too, lax still drops them.
    if g in (2, 3) and spare != 0:
        return 9, m.start("body") + len(m["body"].rstrip(NOT_ALPHABET)) - 1, b""
    return 0, 0, data


def read(t, g, room):
    """The answer of the read call for the text t, the grammar number g and a lent output of `room` bytes."""
    zeros = bytes(room)
    if g not in GRAMMARS:
        return Answer(1, out=zeros)
    if len(t) > TEXT_LIMIT:
        return Answer(2, out=zeros)
    m = WHOLE[g].fullmatch(t)
    if m is None:
        k = longest_start(t, START[g])
        return Answer(kind(t[:k], g), k, out=zeros)
    number, place, data = judged(m, g)
    if number != 0:
        return Answer(number, place, out=zeros)
    at, length, family = m.start("opened"), len(m["opened"]), family_of(m["opened"])
    if len(data) > room:
        return Answer(10, 0, len(data), at, length, zeros, family)
    return Answer(0, 0, len(data), at, length, data + bytes(room - len(data)), family, style_of(t))


def label_part(t, g):
    """The label call: offset and length, or None where checks 1 to 9 refuse."""
    a = read(t, g, len(t))
    return (a.label_at, a.label_len) if a.number == 0 else None


def messages(t, g):
    """The whole messages from the left, each as long as it can be. Only the white, or the blanks and the line end,
    behind the closing can be longer or shorter; `re` takes as much of them as there is."""
    m = WHOLE[g].match(t)
    while m is not None:
        yield m
        m = LATER_WHOLE[g].match(t, m.end())


def index(t, g, room):
    """The answer of the index call for a lent table of `room` numbers; `out` is the table."""
    zeros = [0] * room
    if g not in GRAMMARS:
        return Answer(1, out=zeros)
    if len(t) > TEXT_LIMIT:
        return Answer(2, out=zeros)
    table, done = [0], 0
    for m in messages(t, g):
        number, place, data = judged(m, g)
        if number != 0:
            return Answer(number, place, out=zeros)
        table[0] += 1
        label_at, label_len = m.start("opened"), len(m["opened"])
        table += [m.start(), m.end() - m.start(), label_at, label_len, len(data), family_of(m["opened"])]
        done = m.end()
    if done < len(t):
        # Over bundles; what the start has of opening and closing is asked of the message behind the whole ones.
        k = longest_start(t, BUNDLE_START[g], done)
        return Answer(kind(t[done:k], g), k, out=zeros)
    if len(table) > room:
        return Answer(10, 0, len(table), out=zeros)
    return Answer(0, 0, len(table), out=table + [0] * (room - len(table)))


def written(label, data, style=LF):
    """The strict text of a label and data, with line ends of the style."""
    chars = base64.b64encode(data)
    lines = [chars[i:i + 64] for i in range(0, len(chars), 64)]
    return LINE_ENDS[style].join([b"-----BEGIN " + label + b"-----", *lines, b"-----END " + label + b"-----", b""])


def write(label, data, style, room):
    """The answer of the write call for a label, data, a style and a lent output of `room` bytes."""
    zeros = bytes(room)
    if len(label) > LABEL_LIMIT:
        return Answer(11, out=zeros)
    if LABEL.fullmatch(label) is None:
        return Answer(12, out=zeros)
    if len(data) == 0:
        return Answer(13, out=zeros)
    if len(data) > DATA_LIMIT:
        return Answer(14, out=zeros)
    if style not in LINE_ENDS:
        return Answer(20, out=zeros)
    text = written(label, data, style)
    if len(text) > room:
        return Answer(10, 0, len(text), out=zeros)
    return Answer(0, 0, len(text), out=text + bytes(room - len(text)))
