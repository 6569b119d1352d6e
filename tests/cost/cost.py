"""Counts what each call costs by the length of its text: instructions, by valgrind's callgrind, and the bytes of stack that it
touches. Instructions should grow with the length and no faster, whatever the text is made of, and the stack not at all.
Run by hand: it passes or fails nothing by what it counts. That a text is what its series says is asserted: by the oracle for
the shortest, and by the number and the place of the answer for each.

    bin/archive
    python3 tests/cost/cost.py target/staticlib/libzullifern.a [LONGEST]

LONGEST is the longest length that is tried, 1048576 where it is not given: that takes one to two minutes on two cores, and all
lengths, with 16777216, some fifteen times as long. As many calls run at once as there are cores.

Each series has a row: the number that a read, index or write answers, the instructions for each byte at each length, their
growth from the shortest to the longest, and the stack. The bytes are those of the text or of what is lent, whichever are more.
Clearing may count as one instruction for each byte, since valgrind counts each turn of a repeated one.
"""
import concurrent.futures
import math
import os
import re
import shutil
import subprocess
import sys
import tempfile
import typing

HERE = os.path.dirname(os.path.abspath(__file__))
TESTS = os.path.dirname(HERE)
INCLUDE = os.path.join(os.path.dirname(TESTS), "include")
sys.path.insert(0, os.path.join(TESTS, "oracle"))
import oracle
from texts import SERIES, Series, due_at, given

LENGTHS = [65536, 1048576, oracle.TEXT_LIMIT]
USUAL_LONGEST = 1048576
TABLE_NUMBER = 4
# Which number of a report it is.
LABEL_LENGTH = 4
# How many times the instructions for a byte may be at the longest what they are at the shortest.
GROWS = 1.1
# How many seconds a count may take for each MiB, many times what it should: a quadratic text would take hours.
PATIENCE, MIB = 60, 1048576
TOOLS = ["valgrind", "gcc", "nm"]


class Case(typing.NamedTuple):
    call: str
    grammar: int
    series: Series


class Count(typing.NamedTuple):
    """Instructions for each byte, and bytes of stack."""
    figure: float
    stack: int


class Row(typing.NamedTuple):
    case: Case
    counts: list

    def growth(self):
        shortest, longest = self.counts[0].figure, self.counts[-1].figure
        return longest / shortest if longest < math.inf else longest

    def grows(self):
        return self.growth() > GROWS


def symbols(archive):
    """The names that the archive uses and does not have, and those of what it has that can be written to."""
    lines = subprocess.run(["nm", "--format=posix", archive], capture_output=True, check=True, text=True).stdout.splitlines()
    named = [line.split()[:2] for line in lines if len(line.split()) > 1]
    had = {name for name, kind in named if kind != "U"}
    return sorted({name for name, kind in named if kind == "U"} - had), sorted(name for name, kind in named if kind in "bBcCdD")


def built(archive, folder):
    """The program that makes one call. It is static: looking a function up would be part of its first call, and valgrind would
    take most of its time for loading."""
    program = os.path.join(folder, "call")
    options = ["-std=gnu11", "-O2", "-Wall", "-Wextra", "-Werror", "-static", "-I", INCLUDE]
    subprocess.run(["gcc", *options, os.path.join(HERE, "call.c"), archive, "-o", program], check=True)
    return program


def instructions(words, call, content, seconds):
    """How many instructions a call takes; infinite where counting them takes too long."""
    valgrind = ["valgrind", "--tool=callgrind", "--toggle-collect=zullifern_" + call, "--callgrind-out-file=/dev/null"]
    try:
        run = subprocess.run([*valgrind, *words, "plain"], input=content, capture_output=True, check=True, timeout=seconds)
    except subprocess.TimeoutExpired:
        return math.inf
    return int(re.search(rb"Collected : (\d+)", run.stderr).group(1))


def answered(case, label, content, lent):
    """The oracle's answer; for the label call that of a read with enough room."""
    if case.call == "write":
        return oracle.write(label, content, case.series.style, lent)
    if case.call == "index":
        return oracle.index(content, case.grammar, lent // TABLE_NUMBER)
    return oracle.read(content, case.grammar, lent if case.call == "read" else len(content))


def told(case, answer):
    """What a call is to report for an answer. The label call tells the label alone."""
    return [0, 0, 0, answer.label_at, answer.label_len, 0, 0, 0] if case.call == "label" else answer.report()


def check(case, n, label, content, lent, report):
    """That the input is what its series says, and the report what the oracle says where that is asked."""
    due = [case.series.number, due_at(case.series.parts, n)]
    if case.call == "label":
        assert (report[LABEL_LENGTH] > 0) == (case.series.number == 0), (case, n, report)
    else:
        assert report[:2] == due, (case, n, report)
    if n == LENGTHS[0]:
        answer = answered(case, label, content, lent)
        assert [answer.number, answer.place] == due, (case, n, answer)
        assert report == told(case, answer), (case, n, report)


def count(program, case, n):
    label, content = given(case.call, case.series, n)
    room = "bound" if case.series.room is None else case.series.room(n)
    words = [program, *map(str, [case.call, case.grammar, case.series.style, len(label), len(content), room])]
    painted = subprocess.run([*words, "painted"], input=label + content, capture_output=True, check=True)
    *report, lent, stack = map(int, painted.stdout.split())
    check(case, n, label, content, lent, report)
    taken = instructions(words, case.call, label + content, PATIENCE * math.ceil(n / MIB))
    return Count(taken / max(len(label + content), lent), stack)


def shown(values):
    """One value where they are all the same, else the least and the largest."""
    low, high = min(values), max(values)
    return str(low) if low == high else f"{low} to {high}"


def line(call, name, grammar, number, figures, growth, stack, note=""):
    columns = ["%-5s  %-44s  %7s  %6s" % (call, name, grammar, number), *("%10s" % figure for figure in figures)]
    return "  ".join([*columns, "%6s  %5s  %s" % (growth, stack, note)]).rstrip()


def row_line(row):
    call, grammar, series = row.case
    figures = ["%.2f" % one.figure for one in row.counts]
    stack = shown([one.stack for one in row.counts])
    return line(call, series.name, grammar, series.number, figures, "%.2f" % row.growth(), stack, "grows" if row.grows() else "")


def named(row):
    call, grammar, series = row.case
    return "%s, %s (grammar %d)" % (call, series.name, grammar)


def worst_of(rows, call):
    return max((row for row in rows if row.case.call == call), key=lambda row: row.counts[-1].figure)


def summary(rows):
    worst = [worst_of(rows, call) for call in dict.fromkeys(row.case.call for row in rows)]
    most = max(rows, key=Row.growth)
    return [
        "",
        *["Worst: %s, %.2f." % (named(row), row.counts[-1].figure) for row in worst],
        "Largest growth: %s, %.2f." % (named(most), most.growth()),
        "Series: %d, of which %d grow." % (len(rows), sum(map(Row.grows, rows))),
    ]


def main():
    for tool in TOOLS:
        if not shutil.which(tool):
            sys.exit(tool + " is not installed")
    archive, longest = sys.argv[1], int(sys.argv[2]) if len(sys.argv) > 2 else USUAL_LONGEST
    used, written_to = (", ".join(names) or "none" for names in symbols(archive))
    print("Symbols that the archive leaves undefined: %s. Symbols that it has of data that can be written: %s." % (used, written_to))
    lengths = [n for n in LENGTHS if n <= longest]
    print(line("call", "text", "grammar", "number", [f"{n:,}" for n in lengths], "growth", "stack"))
    rows = []
    with tempfile.TemporaryDirectory() as folder, concurrent.futures.ThreadPoolExecutor(os.cpu_count()) as pool:
        program = built(archive, folder)
        cases = [Case(*key, series) for key, listed in SERIES.items() for series in listed]
        counts = [(case, [pool.submit(count, program, case, n) for n in lengths]) for case in cases]
        for case, ones in counts:
            rows.append(Row(case, [one.result() for one in ones]))
            print(row_line(rows[-1]), flush=True)
    print(*summary(rows), sep="\n")


main()
