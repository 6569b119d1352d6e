"""Compares the linked archive with the oracle on random texts and bundles: valid, damaged by up to three edits, and soups
of marks; some of them in lines long enough to leap, damaged where a leap begins or ends; the write call on random labels,
valid and damaged, data of many lengths, and styles, known and unknown. Many labels have a family or are near to one that
has. A few texts have white behind them up to the limit or one byte over it, and a few data are as long as may be written or
one byte longer. With `leaps` it goes through all that `leaps.py` makes, which takes minutes; with `labels` through all that
`labels.py` makes, with any other byte in each place, and through each two labels of families in one message.

    bin/archive
    python3 compare.py target/staticlib/libzullifern.a SEED COUNT
    python3 compare.py target/staticlib/libzullifern.a leaps
    python3 compare.py target/staticlib/libzullifern.a labels

The lent output, table and report are filled with old values first; output and table are guarded at both ends. What was
written is read back, and what was read of a strict text is written in the style that was found.
"""
import collections
import itertools
import random
import re
import sys

import labels
import leaps
import oracle
from archive import called, indexed, loaded, written

# How often a message is in lines long enough to leap, how often data are long, and how often a text or data are at a limit.
LINED, LONG, LIMIT = 0.25, 0.005, 0.0005
# How often a label of a text, and one to write, has a family or is near to one that has.
FAMILIAR, FAMILIAR_WRITTEN = 0.5, 0.25
NEAR = {label: list(labels.near(label, labels.like)) for label in labels.KNOWN}
# How much of each part a disagreement shows.
SHOWN = 5000
WHITE = [b" ", b"\t", b"\r", b"\n", b"\x0b", b"\x0c"]
SOUP = [b"-----BEGIN ", b"-----END ", b"-----", b"A", b"=", b"==", b"\r", b"\n", b"\r\n", b" ", b"\t", b"Zg==", b"-", b"\x0b", b"A-B", b"\xff", b"!"]
LABEL_BYTES = [c for c in range(33, 127) if c != 45]
UNKNOWN_STYLES = [0, 4, 257, 4294967295]
LINE_END = re.compile(rb"\r\n|\r|\n")


class Texts:
    def __init__(self, seed):
        self.random = random.Random(seed)

    def some(self, parts, counts):
        return b"".join(self.random.choice(parts) for _ in range(self.random.choice(counts)))

    def characters(self, n):
        return bytes(self.random.choice(oracle.ALPHABET) for _ in range(n))

    def ending(self, n):
        """So many characters; the last mostly has no spare bits but zeros."""
        characters = self.characters(n)
        return characters if self.random.random() < 0.25 else characters[:-1] + self.some([b"A", b"Q", b"g", b"w"], [min(n, 1)])

    def line_end(self):
        return self.random.choice([b"\n", b"\n", b"\r\n", b"\r"])

    def familiar(self):
        """A label that has a family, or what is near to it."""
        label = self.random.choice(labels.KNOWN)
        return label if self.random.random() < 0.5 else self.random.choice(NEAR[label])

    def label(self):
        if self.random.random() < FAMILIAR:
            return self.familiar()
        return self.random.choice([b"A", b"", b"A-B", b"A B", b"CRL", b"A" * self.random.choice([1, 63, 64, 65]), b"a!~"])

    def lax_body(self):
        body = b"".join(self.random.choice([self.random.choice(WHITE), self.characters(2)]) for _ in range(self.random.randint(0, 8)))
        for _ in range(self.random.choice([0, 0, 1, 2])):
            body += b"=" + self.some(WHITE, [0, 1, 2])
        return body

    def standard_body(self):
        blanks = lambda: self.some([b" ", b"\t"], [0, 0, 1, 2])
        body = blanks() + self.line_end()
        for _ in range(self.random.choice([0, 0, 1, 2])):
            body += self.random.choice([blanks(), self.line_end()])
        for _ in range(self.random.choice([0, 1, 2])):
            body += self.characters(self.random.randint(1, 6)) + blanks() + self.line_end()
        pads = self.random.choice([b"", b"", b"=", b"==", b"=" + blanks() + self.line_end() + b"="])
        return body + self.ending(self.random.randint(0, 6)) + pads + blanks() + self.line_end()

    def strict_body(self):
        body = self.line_end()
        for _ in range(self.random.choice([0, 0, 0, 1])):
            body += self.characters(64) + self.line_end()
        last = self.random.choice([self.characters(4), self.characters(3) + b"=", self.characters(2) + b"==", self.characters(1) + self.random.choice([b"A==", b"Q==", b"w=="])])
        return body + self.characters(4 * self.random.randint(0, 15)) + last + self.line_end()

    def message(self, grammar):
        opened = self.label()
        closed = opened if self.random.random() < 0.9 else self.label()
        body = [self.lax_body, self.standard_body, self.strict_body][grammar - 1]()
        before = self.some(WHITE, [0, 0, 1, 2]) if grammar == 1 else b""
        after = [lambda: self.some(WHITE, [0, 0, 1, 2]), lambda: self.some([b" ", b"\t"], [0, 1]) + self.random.choice([b"", self.line_end()]), self.line_end][grammar - 1]()
        text = before + b"-----BEGIN " + opened + b"-----" + body + b"-----END " + closed + b"-----" + after
        return text if self.random.random() < 0.4 else LINE_END.sub(self.line_end(), text)

    def line_ends(self, count):
        """Ends for so many lines: by turns, or all of one kind but for one."""
        if self.random.random() < 0.5:
            return self.random.choice(leaps.ENDS)
        return self.random.choice(list(leaps.but_one(self.random.choice(leaps.USUAL), self.random.choice(leaps.ODD), count)))

    def lined(self):
        """A message in lines of one width or of many, after no edit to three where a leap may begin or end."""
        width = self.random.choice([64, 64, *leaps.WIDTHS])
        widths = [self.random.choice([width, width, self.random.randint(1, 140)]) for _ in range(self.random.choice([0, 1, 2, 3, 5]))]
        chars = leaps.characters(self.random, widths, self.random.randint(1, 16), self.random.choice([0, 1, 2]))
        blanks = self.some([b" ", b"\t"], [0, 0, 0, 1, 2, 17])
        text, starts = leaps.lined(self.label(), chars, widths, self.line_ends(len(widths) + 3), blanks)
        for _ in range(self.random.choice([0, 1, 1, 2, 3])):
            at = self.random.choice(leaps.places(text, starts))
            text = self.random.choice(list(leaps.edited(text, at)))
        return text

    def damaged(self, text):
        text = bytearray(text)
        for _ in range(self.random.choice([0, 1, 1, 2, 3])):
            at = self.random.randint(0, len(text))
            byte = self.random.choice([self.random.randrange(256), self.random.choice(b"-=\r\n \tA/+")])
            edit = self.random.randrange(4)
            if edit == 0:
                text[at:at + 1] = bytes([byte])
            elif edit == 1:
                text[at:at] = bytes([byte])
            elif edit == 2:
                del text[at:at + 1]
            else:
                del text[at:]
        return bytes(text)

    def at_the_limit(self):
        """A message with white behind it, up to the limit or one byte over it."""
        message, length = self.message(self.random.choice([1, 2, 3])), oracle.TEXT_LIMIT + self.random.choice([0, 1])
        return message.ljust(length, self.random.choice(WHITE))

    def text(self):
        if self.random.random() < LIMIT:
            return self.at_the_limit()
        if self.random.random() < LINED:
            return self.lined()
        if self.random.random() < 0.85:
            return self.damaged(self.message(self.random.choice([1, 2, 3])))
        return self.some(SOUP, range(15))

    def mostly_sound(self, grammar):
        """A message of the grammar; one that is refused is thrown away up to nine times."""
        for _ in range(self.random.choice([1, 10, 10, 10, 10])):
            text = self.lined() if self.random.random() < LINED else self.message(grammar)
            if oracle.read(text, grammar, len(text)).number == 0:
                break
        return text

    def bundle(self):
        grammars = self.random.choice([[1], [2], [3], [3], [1, 2, 3]])
        text = b"".join(self.mostly_sound(self.random.choice(grammars)) for _ in range(self.random.randint(0, 4)))
        return text if self.random.random() < 0.5 else self.damaged(text)

    def grammar(self):
        return self.random.choice([1, 2, 3] * 4 + [0, 4, 257])

    def any_label(self):
        """Words with a hyphen, a space or nothing between them, of 64 bytes at most or not, and then damaged or not."""
        if self.random.random() < FAMILIAR_WRITTEN:
            return self.familiar()
        label = b""
        for _ in range(self.random.choice([0, 1, 2, 3, 4, 20])):
            word = bytes(self.random.choices(LABEL_BYTES, k=self.random.randint(1, 8)))
            label += (self.random.choice([b"-", b" ", b""]) if label else b"") + word
        label = label[:self.random.choice([63, 64, 65, 200])]
        return label if self.random.random() < 0.7 else self.damaged(label)

    def data(self):
        full = 48 * self.random.randint(1, 40)
        length = self.random.choice([self.random.randint(0, 8), self.random.randint(0, 200), full + self.random.choice([-1, 0, 1])])
        if self.random.random() < LONG:
            length = self.random.choice([32767, 32768, 32769, self.random.randint(0, 33000)])
        if self.random.random() < LIMIT:
            length = oracle.DATA_LIMIT + self.random.choice([0, 1])
        return self.random.randbytes(length)

    def style(self):
        return self.random.choice([1, 2, 3] * 6 + UNKNOWN_STYLES + [self.random.getrandbits(32)])

    def read_room(self, text):
        """Some room, or about as much as the data need."""
        if self.random.random() < 0.5:
            return self.random.choice([3, 10, 60, 200, *leaps.ROOMS])
        return max(0, data_size(text) + self.random.choice([-1, 0, 0, 1]))

    def write_room(self, label, data, style):
        """About as much as the text needs, or would need in a known style."""
        needed = len(oracle.written(label, data, style if style in oracle.LINE_ENDS else oracle.LF))
        return max(0, needed + self.random.choice([0, 0, 0, -1, 1, 7, 100, -needed, -self.random.randint(0, 40)]))


def data_size(text):
    """The size of a text's data, if it is accepted: then it is the same under each grammar that accepts it."""
    return oracle.read(text, 1, 0).size


def agree(got, want, *given):
    assert got == want, "\n".join(repr(part)[:SHOWN] for part in (*given, got, want))


def compare_restored(library, text, a):
    """What was read of a strict text is written as that text, in the style that was found; there is none of mixed ends."""
    label, data, room = text[a.label_at:a.label_at + a.label_len], a.out[:a.size], len(text)
    number, _, out = written(library, label, data, a.style, room)
    agree((number, out), (20, bytes(room)) if a.style == oracle.MIXED else (0, text), text, a.style)


def compare_read(library, text, grammar, room):
    """The answer that oracle and library agree on."""
    a = oracle.read(text, grammar, room)
    passed = a.number in (0, 10)
    label = [0, 0, 0, a.label_at if passed else 0, a.label_len if passed else 0, 0, 0, 0]
    want = (a.number, a.report(), a.out, 0, label)
    agree(called(library, text, grammar, room), want, text, grammar, room)
    if a.number == 0 and grammar == 3:
        compare_restored(library, text, a)
    return a


def compare_index(library, text, grammar, room):
    """The number that oracle and library agree on."""
    a = oracle.index(text, grammar, room)
    want = (a.number, a.report(), a.out)
    agree(indexed(library, text, grammar, room), want, text, grammar, room)
    return a.number


def compare_write(library, label, data, style, room):
    """The number that oracle and library agree on. What was written is read back alike under each grammar, with its style."""
    a = oracle.write(label, data, style, room)
    want = (a.number, a.report(), a.out)
    agree(written(library, label, data, style, room), want, label, data, style, room)
    family = oracle.family_of(label)
    for grammar in (1, 2, 3) if a.number == 0 else ():
        number, report, out, *_ = called(library, a.out[:a.size], grammar, len(data))
        agree((number, report[2:], out), (0, [len(data), 11, len(label), family, style, 0], data), label, style, grammar)
    return a.number


def compare_order(library):
    """The numbers of writes in which each of 11 to 14, 20 and 10 stands against each that comes behind it."""
    labels, data = (b"L" * 64 + b"-", b"A-", b"A"), (b"", bytes(oracle.DATA_LIMIT + 1), b"f")
    for given in itertools.product(labels, data, [1, 2, 3, *UNKNOWN_STYLES], (0, 38, 39, 41, 42, 100)):
        yield compare_write(library, *given)


def shown(counts):
    return dict(sorted(counts.items()))


class Answers:
    """How often each number was read, each style where the text was accepted, and each family where one may be told."""

    def __init__(self):
        self.numbers, self.styles, self.families = collections.Counter(), collections.Counter(), collections.Counter()

    def add(self, a):
        self.numbers[a.number] += 1
        if a.number == 0:
            self.styles[a.style] += 1
        if a.number in (0, 10):
            self.families[a.family] += 1

    def __str__(self):
        return "by number: %s, accepted by style: %s, with 0 or 10 by family: %s" % (
            shown(self.numbers), shown(self.styles), shown(self.families))


def compare_random(library, seed, count):
    texts, sound, pairs = Texts(seed), Texts(seed), Texts(seed)
    read, index, write = Answers(), collections.Counter(), collections.Counter(compare_order(library))
    for _ in range(count):
        text, bundle = texts.text(), texts.bundle()
        read.add(compare_read(library, text, texts.grammar(), texts.read_room(text)))
        index[compare_index(library, text, texts.grammar(), texts.random.choice([0, 1, 6, 7, 8]))] += 1
        index[compare_index(library, bundle, texts.grammar(), texts.random.choice([0, 1, 7, 12, 13, 19, 25, 30]))] += 1
        grammar = sound.random.choice([1, 2, 3])
        text = sound.mostly_sound(grammar)
        read.add(compare_read(library, text, grammar, sound.read_room(text)))
        label, data, style = pairs.any_label(), pairs.data(), pairs.style()
        write[compare_write(library, label, data, style, pairs.write_room(label, data, style))] += 1
    print(2 * count, "texts read,", read)
    print(2 * count, "texts indexed, by number:", shown(index))
    print(sum(write.values()), "labels and data written, by number:", shown(write))


def compare_leaps(library):
    """Each text of `leaps.py` under each grammar, with about as much room as its data need and with another room."""
    read = {grammar: Answers() for grammar in (1, 2, 3)}
    index = {grammar: collections.Counter() for grammar in (1, 2, 3)}
    rooms, around = itertools.cycle(leaps.ROOMS), itertools.cycle((-1, 0, 0, 1, 0))
    for text in itertools.chain(leaps.odd_ended(random.Random(7468)), leaps.damaged(random.Random(7468))):
        size = data_size(text)
        for grammar in (1, 2, 3):
            for room in (next(rooms), max(0, size + next(around))):
                read[grammar].add(compare_read(library, text, grammar, room))
            index[grammar][compare_index(library, text, grammar, 7)] += 1
    for grammar in (1, 2, 3):
        print("grammar", grammar, "read,", read[grammar], "indexed:", shown(index[grammar]))
        assert {0, 3, 4, 5, 10} <= set(read[grammar].numbers) and {0, 3, 4, 5} <= set(index[grammar])
        assert {1, 2, 3, 4} <= set(read[grammar].styles)


def labelled(opened, closed):
    return b"-----BEGIN " + opened + b"-----\nZg==\n-----END " + closed + b"-----\n"


def compare_labels(library):
    """Labels that have a family and others under each grammar, and labels near to one that has under each by turns: a message by
    itself, with room and without, and among others. Then each two of families, opening and closing the same message."""
    read, index, grammars = Answers(), collections.Counter(), itertools.cycle((1, 2, 3))
    known = (label for label in labels.KNOWN + labels.OTHERS for _ in range(3))
    near = (other for label in labels.KNOWN for other in labels.near(label, labels.any_byte))
    same = ((label, label) for label in itertools.chain(known, near))
    for opened, closed in itertools.chain(same, itertools.product(labels.KNOWN, repeat=2)):
        text, grammar = labelled(opened, closed), next(grammars)
        bundle = labelled(b"CMS", b"CMS") + text + labelled(b"PUBLIC KEY", b"PUBLIC KEY") + text
        for room in (0, 1):
            read.add(compare_read(library, text, grammar, room))
        index[compare_index(library, bundle, grammar, 25)] += 1
    print("labels read,", read, "indexed:", shown(index))
    assert set(read.families) == set(range(10)) and {0, 3, 6, 7, 10} <= set(read.numbers)


def main():
    library, arguments = loaded(sys.argv[1]), sys.argv[2:]
    if arguments == ["leaps"]:
        compare_leaps(library)
    elif arguments == ["labels"]:
        compare_labels(library)
    else:
        seed, count = map(int, arguments)
        compare_random(library, seed, count)


if __name__ == "__main__":
    main()
