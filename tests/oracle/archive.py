"""The linked archive as a library that Python can call, and its calls with lent output, table and report.

These are filled with old values first, and output and table are guarded at both ends, so that a call that leaves an
item as it was, or writes beyond what it was lent, is seen.
"""
import ctypes
import os
import subprocess
import tempfile

GUARD = 32  # bytes, so that a table behind them is aligned
OLD = b"\xaa"
NUMBER = 4  # bytes of a table's number


def loaded(archive):
    """The archive as a library that Python can call."""
    path = os.path.join(tempfile.mkdtemp(), "libzullifern.so")
    subprocess.run(["gcc", "-shared", "-o", path, "-Wl,--whole-archive", archive, "-Wl,--no-whole-archive"], check=True)
    return ctypes.CDLL(path)


def old_report():
    return (ctypes.c_uint64 * 8)(*([7] * 8))


def lent(call, *given, room, width=1):
    """What a call answers that is lent `room` items of `width` bytes and a report: number, report and items in bytes."""
    guard, length = OLD * GUARD, room * width
    space, report = ctypes.create_string_buffer(guard + OLD * length + guard, length + 2 * GUARD), old_report()
    answer = call(*given, ctypes.byref(space, GUARD), ctypes.c_size_t(room), report)
    held = space.raw
    assert held[:GUARD] == held[GUARD + length:] == guard, room
    return answer, list(report), held[GUARD:GUARD + length]


def called(library, text, grammar, room):
    """What read and label answer: number, report and output of read, number and report of label."""
    given = text, ctypes.c_size_t(len(text)), ctypes.c_uint32(grammar)
    report = old_report()
    label = library.zullifern_label(*given, report)
    return *lent(library.zullifern_read, *given, room=room), label, list(report)


def indexed(library, text, grammar, room):
    """What index answers: number, report and table."""
    given = text, ctypes.c_size_t(len(text)), ctypes.c_uint32(grammar)
    number, report, table = lent(library.zullifern_index, *given, room=room, width=NUMBER)
    return number, report, memoryview(table).cast("I").tolist()


def written(library, label, data, style, room):
    """What write answers: number, report and output."""
    given = label, ctypes.c_size_t(len(label)), data, ctypes.c_size_t(len(data)), ctypes.c_uint32(style)
    return lent(library.zullifern_write, *given, room=room)
