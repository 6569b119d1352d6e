"""The samples that the programs take: their printable form, how they are written, and how they are read."""
import re
import zlib

MARKS = {"$": 10, "%": 13, "&": 9, "(": 11, ")": 12, "*": 0, "?": 127, "`": 193, "^": 255}
LETTERS = {byte: mark for mark, byte in MARKS.items()}
RESERVED = set(MARKS) | set("@{}")
# The most that each script may write: together what the program has room for.
TEXT_SAMPLES, WRITE_SAMPLES = 87296, 43776
# What the program has for a text, a label, data or an output.
BUFFER = 65536
GRAMMARS = {1: "lax", 2: "standard", 3: "strict"}
STYLES = {1: "LF", 2: "CRLF", 3: "CR"}


def form(t):
    """The printable form of a text."""
    s = ""
    for c in t:
        assert c in LETTERS or 32 <= c < 127 and chr(c) not in RESERVED, t
        s += LETTERS.get(c, chr(c))
    return s


def text_of(form, count):
    """The text of a printable form. What stands in braces is there `count` times."""
    form = form.replace("\n", "")
    if "{" in form:
        before, rest = form.split("{")
        unit, behind = rest.split("}")
        form = before + unit * count + behind
    return bytes(MARKS.get(c, ord(c)) for c in form)


class Samples:
    """Samples on their way to a program's standard input."""

    def __init__(self, most):
        self.most, self.lines, self.seen = most, [], set()

    def comment(self, s):
        assert "@" not in s and "}" not in s
        self.lines.append("@# " + s + "\n")

    def put(self, mode, name, room, *fields):
        assert (mode, name, room) not in self.seen and not set(name) & set(": @\n"), name
        self.seen.add((mode, name, room))
        self.lines.append("@" + ":".join(str(f) for f in (mode, name, room, *fields)) + "\n")

    def text(self):
        text = "".join(self.lines)
        assert len(text) <= self.most, len(text)
        return text


def samples(path, fields):
    """The fields of each sample of a file; ':' stands between them."""
    for sample in open(path).read().split("@")[1:]:
        if not sample.startswith("#"):
            yield sample.split(":", fields - 1)


def numbers(values):
    return " ".join(str(v) for v in values)


def checksum(data):
    return "adler32=%08x" % zlib.adler32(data)


def draft_examples(path):
    """The lines of each example of the document: the margin of three spaces and the page breaks removed."""
    lines = [l.rstrip("\n") for l in open(path)]
    footer, header = re.compile(r"^Josefsson .*\[Page \d+\]$"), re.compile(r"^Internet-Draft .* 20\d\d$")
    example = None
    for l in lines:
        if l.startswith("   -----BEGIN ") and l.endswith("-----"):
            example = []
        if example is None:
            continue
        if l.strip("\f ") == "" or footer.match(l) or header.match(l):
            continue
        assert l.startswith("   ") and not l.startswith("    "), l
        example.append(l[3:])
        if l.startswith("   -----END "):
            yield example
            example = None
    assert example is None


def examples(path):
    """A name and the printable form of each example of the document."""
    for k, lines in enumerate(draft_examples(path), 1):
        label = lines[0][11:-5]
        yield "draft-%d-%s" % (k, label.replace(" ", "-")), "".join(l + "$\n" for l in lines)
