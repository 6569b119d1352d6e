"""Writes what the program samples has to print, from its samples and the oracle alone.

    python3 expected.py crates/samples/stdin > crates/samples/stdout
"""
import sys

import oracle
from forms import GRAMMARS, STYLES, checksum, numbers, samples, text_of


def made(n):
    """The first n triangular numbers, modulo 256."""
    return bytes(i * (i + 1) // 2 % 256 for i in range(n))


def result(a, room):
    """What an accepted answer has filled; all behind it is zero."""
    size = a.size if a.number == 0 else 0
    assert len(a.out) == room and not any(a.out[size:])
    return a.out[:size]


def shown_data(data):
    return "data=" + data.hex() if len(data) <= 48 else checksum(data)


def shown_text(text):
    return "text=" + text.decode().replace("\n", "$").replace("\r", "%") if len(text) <= 200 else checksum(text)


def print_read(name, t, g, room):
    a, part = oracle.read(t, g, room), oracle.label_part(t, g)
    assert part == ((a.label_at, a.label_len) if a.number in (0, 10) else None)
    at, length = part or (0, 0)
    print(name + ":", GRAMMARS.get(g, g), room, "read", numbers((a.number, *a.report())), shown_data(result(a, room)), "clean",
          "label", numbers((0, 0, 0, 0, at, length, 0, 0, 0)), shown_text(t[at:at + length]))


def print_index(name, t, g, room):
    a = oracle.index(t, g, room)
    print(name + ":", GRAMMARS.get(g, g), room, "index", numbers((a.number, *a.report())), numbers(("table", *result(a, room))), "clean")


def print_written(name, label, data, style, room):
    """Answers the text that was written."""
    a = oracle.write(label, data, style, room)
    text = result(a, room)
    print(name + ": write", STYLES.get(style, style), room, numbers((a.number, *a.report())), shown_text(text), "clean")
    return text


def found(text, g):
    """The label, the data and the style that the read call finds, given room."""
    room = len(text)
    a = oracle.read(text, g, room)
    return text[a.label_at:a.label_at + a.label_len], result(a, room), a.style


def write_sample(mode, name, room, head, data, style):
    given = found(head, 3) if mode == "restore" else (head, data, style)
    text = print_written(name, *given, room)
    assert mode != "restore" or text in (b"", head)
    if mode != "write":
        for g in GRAMMARS:
            assert not text or found(text, g) == given
            print_read(name, text, g, room)


def text_sample(mode, name, room, t):
    show = print_index if mode.startswith(("index", "table", "starts")) else print_read
    grammars = GRAMMARS if mode in ("each", "index", "starts") else (int(mode.removeprefix("table")),)
    for start in (t[:k] for k in range(len(t) + 1)) if mode == "starts" else (t,):
        if mode == "starts":
            print(name + ":", len(start))
        for g in grammars:
            show(name, start, g, room)


for mode, name, room, count, rest in samples(sys.argv[1], 5):
    if mode in ("write", "back", "restore"):
        length, style, head, form = rest.split(":", 3)
        write_sample(mode, name, int(room), text_of(head, int(count)), text_of(form, int(count)) + made(int(length)), int(style))
    else:
        text_sample(mode, name, int(room), text_of(rest, int(count)))
