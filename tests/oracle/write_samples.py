"""Writes the samples of the write call: the second half of the standard input of the program samples.

    python3 write_samples.py DOCUMENT_001 >> crates/samples/stdin
"""
import itertools
import random
import sys

import labels
import oracle
from forms import BUFFER, RESERVED, WRITE_SAMPLES, Samples, examples, form, text_of

samples = Samples(WRITE_SAMPLES)
comment = samples.comment


def put(mode, name, room, head, data, length=0, count=1, style=oracle.LF):
    assert ":" not in head and max(room, len(text_of(head, count)), len(text_of(data, count)) + length) <= BUFFER, name
    samples.put(mode, name, room, count, length, style, head, data)


def write(name, label, data=b"f", room=300, length=0, style=oracle.LF):
    put("write", name, room, form(label), form(data), length, style=style)


def back(name, label, data=b"f", room=300, length=0, style=oracle.LF):
    put("back", name, room, form(label), form(data), length, style=style)


def restore(name, text, room=1200, count=1):
    """The style is the one that is found in the text."""
    put("restore", name, room, text if isinstance(text, str) else form(text), "", count=count, style=oracle.NONE)


def needed(label, n, style=oracle.LF):
    """The room that a label and n bytes need."""
    return len(oracle.written(label, bytes(n), style))


M = oracle.written(b"A", b"f")

comment("M of the requirements, and its room.")
back("M", b"A", room=39)
for room in (39, 38, 40, 300, 1, 0):
    write("M", b"A", room=room)

comment("Labels of 0 to 66 bytes.")
for n in (0, 1, 2, 63, 64):
    back("label-%d" % n, b"L" * n)
back("label-64-words", b"A-B C.D " * 7 + b"A-B C.DE")
write("label-65", b"L" * 65)
write("label-66", b"L" * 66)
write("label-65-words", b"A-B C.D " * 8 + b"A")

comment("What a label may be.")
for name, label in (
    ("A-B", b"A-B"), ("A-SP-B", b"A B"), ("A-B-SP-C-D", b"A-B C-D"), ("words", b"a-b c.d-e f"),
    ("exclamation", b"!"), ("comma", b","), ("dot", b"."), ("tilde", b"~"), ("edges", b"!,.~"), ("slash", b"/"), ("equals", b"="),
    ("digits", b"0-9 0"), ("BEGIN", b"BEGIN A"), ("END", b"END"),
):
    back("label-" + name, label)
for name, label in (
    ("SP", b" "), ("hyphen", b"-"), ("SP-A", b" A"), ("hyphen-A", b"-A"), ("A-SP", b"A "), ("A-hyphen", b"A-"),
    ("A--B", b"A--B"), ("A-SP-SP-B", b"A  B"), ("A-SP-hyphen-B", b"A -B"), ("A-hyphen-SP-B", b"A- B"), ("five-hyphens", b"-----"),
    ("HT", b"\t"), ("A-HT-B", b"A\tB"), ("LF", b"\n"), ("A-LF", b"A\n"), ("A-LF-B", b"A\nB"), ("A-CR-B", b"A\rB"),
    ("A-VT-B", b"A\vB"), ("A-FF-B", b"A\fB"), ("DEL", b"\x7f"), ("A-DEL", b"A\x7f"), ("A-DEL-B", b"A\x7fB"), ("0xC1", b"\xc1"),
    ("A-0xC1", b"A\xc1"), ("0xFF", b"\xff"), ("A-0xFF", b"A\xff"), ("0", b"\0"), ("A-0", b"A\0"), ("0-A", b"\0A"),
    ("64-hyphen", b"L" * 63 + b"-"), ("64-SP", b"L" * 63 + b" "), ("hyphen-64", b"-" + b"L" * 63), ("SP-64", b" " + b"L" * 63),
):
    write("no-label-" + name, label)

comment("Families: labels that have one; a byte less or more at the end, at the front of some, and lower case.")
for k, label in enumerate(labels.KNOWN, 1):
    for name, near in (("known", label), ("less", label[:-1]), ("more", label + b"S"), ("lower", label.lower())):
        back("%s-%d" % (name, k), near, room=99)
    if k % 2:
        back("front-%d" % k, label[1:] if k % 4 == 1 else b"S" + label, room=99)
back("CRL", b"CRL")

comment("Another byte in each place. Each label has it in one place or more.")
for place in range(max(map(len, labels.KNOWN))):
    longer = [label for label in sorted(labels.KNOWN, key=len) if place < len(label)]
    back("place-%d" % place, labels.changed(longer[place % len(longer)], place, ord("Z")), room=99)

comment("Data of 0 to 48,369 bytes, and their room: exact, one less, one more, many more, none.")
for n in (*range(7), 46, 47, 48, 49, 50, 95, 96, 97, 143, 144, 145, 256, 512, 513, *range(32767, 32770), *range(48367, 48370)):
    exact = needed(b"A", n)
    back("data-%d" % n, b"A", b"", exact, n)
    for room in (exact - 1, exact + 1, BUFFER if n > 1000 else 1000, 0):
        write("data-%d" % n, b"A", b"", room, n)
for text in (b"\0", b"\xff", b"\0\0", b"\xff\xff", b"\0\0\0", b"\xff\xff\xff", b"f", b"fo", b"foo", b"foob", b"fooba", b"foobar"):
    back("bytes-" + text.hex(), b"A", text)
put("back", "zeros-48", 300, "A", "{*}", count=48)
put("back", "ones-49", 300, "A", "{^}", count=49)
put("back", "zeros-48369", BUFFER, "A", "{*}", count=48369)

comment("The most data whose text fits, and their room: exact, one less, none; and one byte more.")
for label, n in ((b"", 48372), (b"AB", 48369), (b"L" * 63, 48279), (b"L" * 64, 48276)):
    name, exact = "label-%d-data" % len(label), needed(label, n)
    assert exact <= BUFFER < needed(label, n + 1)
    back("%s-%d" % (name, n), label, b"", exact, n)
    for room in (exact - 1, 0):
        write("%s-%d" % (name, n), label, b"", room, n)
    write("%s-%d" % (name, n + 1), label, b"", BUFFER, n + 1)

comment("The order of the checks: label's length, label, no data, room. Data over the limit do not fit here.")
for name, label in (("long", b"L" * 64 + b"-"), ("no-label", b"A-"), ("label", b"A")):
    for n in (0, 1, BUFFER):
        for room in (0, 39, BUFFER):
            write("order-%s-%d" % (name, n), label, b"", room, n)
write("order-long-label-room", b"L" * 65, room=0)
write("order-label-64-no-data", b"L" * 64, b"", room=0)
write("order-empty-label-no-data", b"", b"", room=0)
write("order-empty-label-no-data", b"", b"")

comment("Styles: data of 1, 48 and 49 bytes and more, and their room: exact, one less, one more, none.")
OTHERS = {"CRLF": oracle.CRLF, "CR": oracle.CR}
for (name, style), n in itertools.product(OTHERS.items(), (1, 2, 3, 47, 48, 49, 96, 97, 513)):
    exact = needed(b"A", n, style)
    back("%s-%d" % (name, n), b"A", b"", exact, n, style)
    for room in (exact - 1, exact + 1, 0) if n in (1, 48, 49) else ():
        write("%s-%d" % (name, n), b"A", b"", room, n, style)
for name, style in OTHERS.items():
    back(name + "-M", b"A", style=style)
    back(name + "-empty-label", b"", style=style)
    back(name + "-label-64", b"L" * 64, style=style)
for style in (0, 4, 257, 4294967295):
    for room in (39, 300, 0):
        write("style-%d" % style, b"A", room=room, style=style)
    back("style-%d-back" % style, b"A", style=style)

comment("Styles: the most data whose text fits with CRLF.")
for label, n in ((b"", 47637), (b"L" * 64, 47544)):
    name, exact = "CRLF-label-%d-data" % len(label), needed(label, n, oracle.CRLF)
    assert exact <= BUFFER < needed(label, n + 1, oracle.CRLF)
    back("%s-%d" % (name, n), label, b"", exact, n, oracle.CRLF)
    write("%s-%d" % (name, n), label, b"", exact - 1, n, oracle.CRLF)
    write("%s-%d" % (name, n + 1), label, b"", BUFFER, n + 1, oracle.CRLF)

comment("Styles in the order of the checks: behind label and data, before room.")
for name, label in (("long", b"L" * 65), ("no-label", b"A-"), ("label", b"A")):
    for n, room, style in ((0, 0, 0), (0, 300, 4), (1, 0, 257), (1, 38, 4294967295)):
        write("order-%s-%d-style-%d" % (name, n, style), label, b"", room, n, style)

comment("Round trips of texts: strict ones of one style are restored.")
FULL = "ABCDEFGHIJKLMNOPQRSTUVWXYZabcdefghijklmnopqrstuvwxyz0123456789+/"
for room in (39, 38, 1200, 0):
    restore("M", M, room)
restore("CRLF", M.replace(b"\n", b"\r\n"))
restore("CR", M.replace(b"\n", b"\r"))
for name, style in OTHERS.items():
    exact = needed(b"A", 1, style)
    for room in (exact, exact - 1):
        restore(name, oracle.written(b"A", b"f", style), room)
    for n in (48, 49, 97):
        restore("%s-lines-%d" % (name, n), oracle.written(b"A", bytes(range(n)), style))
    restore(name + "-label-64", oracle.written(b"L" * 64, b"foo", style))
for name, text in (
    ("CRLF-first", M.replace(b"\n", b"\r\n", 1)), ("CR-last", M[:-1] + b"\r"), ("LF-last", M.replace(b"\n", b"\r\n", 2)),
    ("CR-among-lines", oracle.written(b"A", bytes(49)).replace(b"A\n", b"A\r", 1)),
):
    restore("mixed-" + name, text)
restore("empty-label", oracle.written(b"", b"f"))
restore("label-64", oracle.written(b"L" * 64, b"foo"))
restore("label-A-B-SP-C", oracle.written(b"A-B C", b"fo"))
for n in (47, 48, 49, 96, 97):
    restore("lines-%d" % n, oracle.written(b"A", bytes(range(n))))
restore("spare-bits", M.replace(b"Zg", b"Zh"))
restore("no-last-LF", M[:-1])
restore("no-data", oracle.written(b"A", b""))
restore("label-65", oracle.written(b"L" * 65, b"f"))
LONGEST = "-----BEGIN {0}-----$\n{{{1}$}}{2}//8=$\n-----END {0}-----$".format("L" * 63, FULL, FULL[:48])
for room in (65536, 65535):
    restore("longest", LONGEST, room, 1005)
LONGEST_CRLF = "-----BEGIN {0}-----%$\n{{{1}%$}}{2}//8=%$\n-----END {0}-----%$".format("L" * 62, FULL, FULL[:32])
assert len(text_of(LONGEST_CRLF, 990)) == BUFFER
restore("longest-CRLF", LONGEST_CRLF, 65536, 990)

comment("Round trips of the examples of draft-josefsson-pkix-textual-00, in their order.")
for name, example in examples(sys.argv[1]):
    restore(name, "\n" + example, 1024)

comment("Labels and data at random.")
random.seed(7468)
LABEL_BYTES = [c for c in range(33, 127) if c != 45 and chr(c) not in RESERVED | {":"}]
DATA_BYTES = [c for c in range(32, 127) if chr(c) not in RESERVED] + [0, 9, 10, 13, 127, 193, 255] * 4


def random_label():
    label = b""
    for _ in range(random.choice((0, 1, 1, 2, 3, 4))):
        word = bytes(random.choices(LABEL_BYTES, k=random.randint(1, 6)))
        label += (random.choice((b"-", b" ", b"")) if label else b"") + word
    return label


def damaged(label):
    i = random.randint(0, len(label))
    return label[:i] + random.choice((b"-", b" ", b"\t", b"\n", b"\0", b"\x7f", b"\xff", b"--", b" -")) + label[i:]


for k in range(300):
    label = random_label()
    if k % 6 == 5:
        label = damaged(label)
    data = bytes(random.choices(DATA_BYTES, k=random.randint(0, 20)))
    length = random.choice((0, 0, random.randint(0, 100)))
    exact = needed(label, len(data) + length)
    back("random-%d" % k, label, data, exact + random.choice((0, 0, 0, 1, 50, -1)), length)

comment("The same in styles at random, known and not.")
for k in range(20):
    label, data = random_label(), bytes(random.choices(DATA_BYTES, k=random.randint(0, 20)))
    if k % 6 == 5:
        label = damaged(label)
    length, style = random.choice((0, random.randint(0, 100))), random.choice((1, 2, 2, 2, 3, 3, 3, random.getrandbits(32)))
    exact = needed(label, len(data) + length, min(style, oracle.CR))
    back("random-style-%d" % k, label, data, exact + random.choice((0, 0, 0, 1, -1)), length, style)

sys.stdout.write(samples.text())
