"""Our calls on bytes: what read and index see in a text, as labels and data, and what write makes."""
import collections

from archive import called, indexed, written

GRAMMARS = {"lax": 1, "standard": 2, "strict": 3}
STYLES = {"LF": 1, "CRLF": 2, "CR": 3}
SHORTEST_MESSAGE = 30  # the two boundaries of an empty label
NUMBERS_PER_MESSAGE = 6

# Number and place as answered; messages are pairs of label and data, empty on a refusal.
Answer = collections.namedtuple("Answer", "number place messages")


def written_size(label, data, style):
    """Each line end has one byte more under CRLF."""
    lines = -(-len(data) // 48)
    return 32 + 2 * len(label) + 4 * -(-len(data) // 3) + lines + (lines + 2 if style == "CRLF" else 0)


class Ours:
    def __init__(self, library):
        self.library = library

    def write(self, label, data, style):
        number, report, out = written(self.library, label, data, STYLES[style], written_size(label, data, style))
        if number or report[2] != len(out):
            raise AssertionError(f"write answered {number}, size {report[2]}, for {label}, {len(data)} bytes and {style}")
        return bytes(out)

    def style(self, text):
        """The number of the style that strict finds in a text."""
        return called(self.library, text, GRAMMARS["strict"], len(text))[1][6]

    def family(self, text, grammar):
        """The number of the family that a text's label has."""
        return called(self.library, text, grammar, len(text))[1][5]

    def under_each(self, call, text):
        return [call(text, grammar) for grammar in GRAMMARS.values()]

    def read(self, text, grammar):
        number, report, out, _, label_report = called(self.library, text, grammar, len(text))
        _, place, size, at, length = report[:5]
        if label_report[3:5] != [at, length]:
            raise AssertionError(f"read and label differ: {report}, {label_report}")
        return Answer(number, place, [(text[at:at + length], bytes(out[:size]))] if number == 0 else [])

    def index(self, text, grammar):
        """The messages that the index lists, each read by itself."""
        room = 1 + NUMBERS_PER_MESSAGE * (len(text) // SHORTEST_MESSAGE)
        number, report, table = indexed(self.library, text, grammar, room)
        if number:
            return Answer(number, report[1], [])
        entries = range(1, report[2], NUMBERS_PER_MESSAGE)
        messages = [self.entry(text, grammar, table[i:i + NUMBERS_PER_MESSAGE]) for i in entries]
        if len(messages) != table[0]:
            raise AssertionError(f"index counts {table[0]} messages and lists {len(messages)}")
        return Answer(0, 0, messages)

    def entry(self, text, grammar, numbers):
        """The message of an entry, which read has to see alike."""
        start, length, label_at, label_length, size, family = numbers
        part = text[start:start + length]
        (label, data), = self.read(part, grammar).messages
        if label != text[label_at:label_at + label_length] or len(data) != size or family != self.family(part, grammar):
            raise AssertionError(f"index and read differ in the message at {start}")
        return label, data
