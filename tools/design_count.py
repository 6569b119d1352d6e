#!/usr/bin/env python3
"""Counts, in the src/ of every crate, the places that docs/DESIGN-PASS.md speaks of. The counts are candidates: the page says which
of them are places, and what became of each.

    python3 tools/design_count.py [POINT ..] [--list]     in the checkout, or at the top of any other tree
"""
import difflib
import glob
import itertools
import re
import sys

FUNCTION = re.compile(r'^(?P<indent> *)(?:pub(?:\([a-z]+\))? )?(?:extern "C" )?fn (?P<name>\w+)(?P<head>.*?)^(?P=indent)\{\n(?P<body>.*?)^(?P=indent)\}\n', re.S | re.M)


def sources():
    for path in sorted(glob.glob('crates/*/src/**/*.rt', recursive=True)):
        with open(path, encoding='utf-8') as f:
            yield path, re.sub(r'^ *//.*\n', '', f.read(), flags=re.M)


def functions():
    for path, text in sources():
        for m in FUNCTION.finditer(text):
            yield path, m['name'], m['head'], m['body']


def enums():
    """1. Enums with a case that holds something beside a case that holds something else or nothing, and enums with a case that says none."""
    for path, text in sources():
        for m in re.finditer(r'^ *(?:pub )?enum (\w+)(?:<.*?>)? \{\n(.*?)^\}', text, re.S | re.M):
            cases = re.findall(r'^    (\w+)(\(.*\))?,$', m[2], re.M)
            none = any(re.fullmatch('Elsewhere|Unknown|Outside|None|Refused|Failed|Unreadable', c) for c, _ in cases)
            if len(cases) > 1 and (none or any(d for _, d in cases)):
                yield path, m[1]


def numbers():
    """1. Parameters and results that are a number for a kind, a grammar, a style, a refusal or "none"."""
    for path, name, head, _ in functions():
        sign = head.split('\n    requires')[0].split('\n    ensures')[0]
        if re.search(r'\b(grammar|style|number|family|width|kind)\w*: u(8|32|64|size)', sign) or re.search(r'number|width|line_end_at', name) and re.search(r'-> u(8|32|64|size)', sign):
            yield path, name


def shape(body):
    """A body with its names, numbers and types in the order of their first use."""
    names = {}
    return [names.setdefault(t, f'x{len(names)}') if re.match(r'\w', t) else t for t in re.findall(r"\w+|b'.'|[^\s\w]", body)]


def twins():
    """2. Pairs of functions whose bodies differ in names, numbers and types alone, or nearly so."""
    bodies = [(p, n, shape(b)) for p, n, _, b in functions()]
    for (p, n, a), (q, o, b) in itertools.combinations(bodies, 2):
        if min(len(a), len(b)) >= 18 and abs(len(a) - len(b)) <= 12:
            match = difflib.SequenceMatcher(None, a, b, autojunk=False)
            if match.quick_ratio() > 0.78 and match.ratio() > 0.78:
                yield p, f'{n} ~ {q}: {o}'


def loops():
    """3. Loops by `while`: all of them, whether an index is counted or a cursor moved."""
    for path, text in sources():
        for line in re.findall(r'^ *while .*$', text, re.M):
            yield path, line.strip()


def casts():
    """4. Conversions by `as`."""
    for path, text in sources():
        for line in re.findall(r'^.* as (?:u8|u32|u64|usize)\b.*$', text, re.M):
            yield path, line.strip()


def derives():
    """4. Plain types without a derived equality."""
    for path, text in sources():
        for d, name in re.findall(r'^#\[derive\((.*?)\)\]\n(?:pub )?(?:struct|enum) (\w+)', text, re.M):
            if 'PartialEq' not in d:
                yield path, name


def by_hand():
    """4. Functions that compare, copy, convert or print by hand, by their names."""
    words = 'equal|same|copy|clear|wide|unset|zero_from|put_bytes|put_four|put_number|hex|word|letter|letters|either|refusal_number|refusal_place|answer_number|from_number|number'
    for path, name, _, _ in functions():
        if re.fullmatch(words, name):
            yield path, name


def facts():
    """5. Facts that the `requires` of three functions of a crate or more have."""
    count = {}
    for path, name, head, _ in functions():
        for clause in re.findall(r'requires(?: \w+)? \{ (.*?) \}\n', head):
            for part in clause.split(' × '):
                count.setdefault((path.split('/')[1], part.strip('() ')), []).append(name)
    for (crate, fact), names in sorted(count.items()):
        if len(names) > 2:
            yield crate, f'{fact}: {len(names)}'


def groups():
    """5. Three parameters or more that stand together in three signatures of a crate or more: the largest such sets."""
    sets = {}
    for path, name, head, _ in functions():
        sign = head.split(') ->')[0].split('\n    requires')[0]
        params = frozenset(re.findall(r'(\w+): (?:&?(?:mut )?[\w<\[\]>:; ]+)', sign))
        sets.setdefault(path.split('/')[1], []).append(params)
    for crate, all_params in sorted(sets.items()):
        found = {a & b for a, b in itertools.combinations(all_params, 2)}
        found = {g for g in found if len(g) > 2 and sum(g <= p for p in all_params) > 2}
        for g in sorted(found, key=sorted):
            if not any(g < h for h in found):
                yield crate, f"{', '.join(sorted(g))}: {sum(g <= p for p in all_params)}"


def buffers():
    """6. Arrays made to be filled, and functions that answer how much of one is filled."""
    for path, text in sources():
        for line in re.findall(r'^.*\[0(?:u\d+)?; .*$', text, re.M):
            yield path, line.strip()


def switches():
    """7. A `match` on a letter or a number."""
    for path, text in sources():
        for line, arm in re.findall(r"^( *match .*) \{\n *(.*?)(?: =>|$)", text, re.M):
            if re.match(r"b'|\d", arm):
                yield path, line.strip()


def proofs():
    """8. Files with answers, and their lines."""
    for path in sorted(glob.glob('crates/*/proofs/*/**/*.antt', recursive=True)):
        with open(path, encoding='utf-8') as f:
            yield path, sum(1 for _ in f)


def main():
    points = [enums, numbers, twins, loops, casts, derives, by_hand, facts, groups, buffers, switches, proofs]
    asked = [a for a in sys.argv[1:] if a != '--list']
    for point in points:
        if asked and point.__name__ not in asked:
            continue
        places = list(point())
        lines = f', {sum(n for _, n in places)} lines' if point is proofs else ''
        print(f'{point.__name__}: {len(places)}{lines}')
        if '--list' in sys.argv:
            for path, what in places:
                print(f'    {path}: {what}')


if __name__ == '__main__':
    main()
