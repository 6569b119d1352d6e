"""Texts long enough to leap, and damage where a leap begins or ends. A leap is what may be taken at once: a group of
characters, a block of 16 or of 64, a line with its line end, many such lines; so one line end of another kind stands
where such a leap begins, goes on and ends."""
import base64
import itertools

WIDTHS = range(60, 69)
# The line ends of a message, by turns.
ENDS = ((b"\n",), (b"\r\n",), (b"\r",), (b"\n", b"\r\n"), (b"\r", b"\n"))
# What stands behind all lines but one, and behind that one: line ends, two of them, white that is none, or nothing.
USUAL = (b"\n", b"\r\n", b"\r", b" ")
ODD = (b"\n", b"\r\n", b"\r", b"\n\r", b"\r\r\n", b"\v", b" ", b"")
ODD_WIDTHS, ODD_LINES = (16, 63, 64, 65), (1, 2, 3, 4, 5, 8, 9, 17)
# Places of a line: the ends of blocks, and those beside them.
PLACES = (0, 1, 14, 15, 16, 17, 30, 31, 32, 33, 47, 48, 49, 62, 63, 64, 65, 66)
# Bytes that mean something somewhere, or stand just beside one that does.
TELLING = b"\0\t\n\v\f\r !*+,-./09:=@AZ[`az{~\x7f\x80\xab\xff"
# Rooms around the data of a line and around its characters. They are ten, so that by turns each grammar has all of them.
ROOMS = (0, 1, 2, 47, 48, 49, 63, 64, 65, 1000)


def characters(random, widths, groups, pads):
    """The characters and pads of random data, which fill lines of these widths and some groups behind them."""
    whole = -(-sum(widths) // 4) + groups
    return base64.b64encode(random.randbytes(3 * whole - pads))


def lined(label, chars, widths, ends, blanks=b""):
    """A message with its characters in lines of these widths and what is left over in a last one, and where its lines
    start, those of the boundaries among them. The blanks stand before each line end."""
    lines, at = [b"-----BEGIN " + label + b"-----"], 0
    for width in widths:
        lines.append(chars[at:at + width])
        at += width
    lines += [chars[at:]] * (at < len(chars)) + [b"-----END " + label + b"-----"]
    lines = [line + blanks + end for line, end in zip(lines, itertools.cycle(ends))]
    return b"".join(lines), list(itertools.accumulate(map(len, lines[:-1]), initial=0))


def but_one(usual, odd, count):
    """So many ends, all usual but the odd one in each place."""
    for at in range(count):
        yield (*[usual] * at, odd, *[usual] * (count - at - 1))


def places(text, starts):
    return sorted({start + place for start in starts for place in PLACES if start + place <= len(text)})


def edited(text, at):
    """The text with each edit at a place: telling bytes instead of its byte and before it, without it, and cut there."""
    for byte in TELLING:
        yield text[:at] + bytes([byte]) + text[at + 1:]
        yield text[:at] + bytes([byte]) + text[at:]
    yield text[:at] + text[at + 1:]
    yield text[:at]


def damaged(random):
    """Two lines of each width and a last one, with each line end: as they are, and with each edit at each place."""
    for width, ends in itertools.product(WIDTHS, ENDS):
        widths = [width] * 2
        text, starts = lined(b"A", characters(random, widths, 4, 2), widths, ends)
        yield text
        for at in places(text, starts):
            yield from edited(text, at)


def odd_ended(random):
    """Many lines of one width with ends of one kind but for one, the first and the last among its places."""
    for width, lines in itertools.product(ODD_WIDTHS, ODD_LINES):
        widths = [width] * lines
        chars = characters(random, widths, 4, 2)
        for usual, odd in itertools.product(USUAL, ODD):
            # A last line and the boundaries have line ends too.
            for ends in dict.fromkeys(but_one(usual, odd, lines + 3)):
                yield lined(b"A", chars, widths, ends)[0]
