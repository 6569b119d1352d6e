#!/usr/bin/env python3
"""Brings the repository's own names to the spelling of today's Rattle: definitions, lemmas, fields and constructors in snake case.

usage: python3 tools/port_names.py [ROOT]

Run once, behind port.py. Rattle has a library named base64, so the crate base64 is renamed base_64. Functions of src/, exported names,
strings, inputs and outputs keep their names. It stops, with nothing written, where two names would fall together.
"""
import os
import re
import subprocess
import sys

CRATE = ("base64", "base_64")
TOKEN = re.compile(r"[^\s(){}\[\],;.]+")
DECLARED = re.compile(r"^(?:\s*)(?:(?:abbrev|unfoldable|pub|pattern) )*([^\s(){}.,;]+) :(?: |$)")
BINDERS = [re.compile(r"\blet ([^\s(){}=:,]+)\s*[=:]"), re.compile(r"λ ([^.()]+)\.")]
TYPED = re.compile(r"[({]([^(){}:]+?) : ")
# Lemmas that have the spelling of their definition already, each in the one file that speaks of it.
LEMMAS = {"crates/reading/proofs/Meaning.antt": {"found_in"}, "crates/writing/proofs/Meaning.antt": {"too_small"}}


def files(root):
    for folder, dirs, names in os.walk(os.path.join(root, "crates")):
        dirs[:] = sorted(d for d in dirs if d not in ("out", "must-fail"))
        for name in sorted(names):
            if name.endswith((".antt", ".rt")):
                yield os.path.join(folder, name)


def read(path):
    with open(path, encoding="utf-8") as f:
        return f.read()


def of_function(path):
    """A proof of one function of src/: proofs/F/Proof.antt."""
    return "/proofs/" in path and os.path.basename(os.path.dirname(path)) != "proofs"


def turns(name):
    first = name[0]
    return (first.islower() or re.match(r"[A-Z][a-z]?-", name)) and re.search(r"-[^\W]|[a-z0-9₀-₉][A-Z]", name) and "≢" not in name


def snake(name):
    name = re.sub(r"([a-z0-9])([A-Z])", lambda m: m.group(1) + "_" + m.group(2).lower(), name.replace("-", "_"))
    return name[0].lower() + name[1:]


def declared(root):
    names, bound, fields, words = set(), set(), set(), set()
    for path in files(root):
        if not path.endswith(".antt") or of_function(path):
            continue
        for line in read(path).split("\n"):
            if line.lstrip().startswith("--") or line.startswith("use "):
                continue
            m = DECLARED.match(line)
            if m:
                names.add(m.group(1))
            if m and re.match(r"\s+pub ", line):
                fields.add(m.group(1))
            elif m and "-" not in m.group(1):
                words.add(m.group(1))
            for pattern in BINDERS:
                for m in pattern.finditer(line):
                    bound.update(m.group(1).split())
            for m in TYPED.finditer(line):
                bound.update(m.group(1).split())
    return names, bound, fields - words


def imported(root):
    """The names that are imported from elsewhere than the repository's crates."""
    crates = {c for c in os.listdir(os.path.join(root, "crates"))}
    found = set()
    for path in files(root):
        for m in re.finditer(r"^(?:ghost )?use ([^{}\n]+)\.\{([^}]*)\}", read(path), re.M):
            parts = m.group(1).split(".")
            if parts[0] == "Rattle" and parts[1] in crates:
                continue
            for item in m.group(2).split(","):
                found.add(item.strip().split(" as ")[0])
    return found


def renames(root):
    names, bound, fields = declared(root)
    outside = imported(root)
    taken = {n for n in (names - fields) | bound if not turns(n)} | outside
    taken -= set().union(*LEMMAS.values())
    table, problems = {}, []
    for name in sorted(names | bound):
        if not turns(name):
            continue
        if name in outside:
            problems.append(f"{name}: is imported from a library too")
            continue
        table[name] = snake(name)
    # A field is named behind a dot or in its record, so that a lemma may have its name; a lemma that would have the name of its
    # definition ends in _lem.
    words = {snake(n): n for n in table if "-" not in n and n not in fields}
    for name, new in table.items():
        if "-" in name and new in words:
            table[name] = new = new + "_lem"
        if new in taken and name not in fields:
            problems.append(f"{name}: {new} is taken")
        others = [n for n, v in table.items() if v == new and n != name and n not in fields]
        if others and name not in fields:
            problems.append(f"{name}: {new} stands for {others}")
    return table, problems


def turned_code(text, table):
    return TOKEN.sub(lambda m: table.get(m.group(0), m.group(0)), text)


def turned_comment(text, table):
    return re.sub(r"`([^`]*)`", lambda m: "`" + turned_code(m.group(1), table) + "`", text)


def turned_antt(text, table):
    lines = []
    for line in text.split("\n"):
        at = 0 if line.lstrip().startswith("--") else line.find(" -- ")
        if at < 0:
            lines.append(turned_code(line, table))
        else:
            lines.append(turned_code(line[:at], table) + turned_comment(line[at:], table))
    return "\n".join(lines)


CLAUSE = re.compile(r"^\s*(?:ghost use |requires|ensures|ghost )")


def turned_rt(text, table):
    """Ghost lines and clauses alone; a clause ends where its braces do."""
    lines, depth = [], 0
    for line in text.split("\n"):
        if line.lstrip().startswith("//"):
            lines.append(turned_comment(line, table))
            continue
        if depth > 0 or CLAUSE.match(line):
            depth += line.count("{") - line.count("}")
            line = turned_code(line, table)
        lines.append(line)
    return "\n".join(lines)


def turned_crate(text):
    old, new = CRATE
    text = re.sub(rf"\bRattle\.{old}\b", f"Rattle.{new}", text)
    text = re.sub(rf"\b{old}::", f"{new}::", text)
    return re.sub(rf"^use {old}\b", f"use {new}", text, flags=re.M)


def main(root):
    table, problems = renames(root)
    if problems:
        print("\n".join(problems), file=sys.stderr)
        return 1
    old, new = CRATE
    subprocess.run(["git", "mv", f"crates/{old}", f"crates/{new}"], cwd=root, check=True)
    with open(os.path.join(root, "crates.txt"), encoding="utf-8") as f:
        lines = f.read().split("\n")
    with open(os.path.join(root, "crates.txt"), "w", encoding="utf-8") as f:
        f.write("\n".join(line if line.startswith("#") else re.sub(rf"\b{old}\b", new, line) for line in lines))
    for path in files(root):
        text = turned_crate(read(path))
        lemmas = LEMMAS.get(os.path.relpath(path, root), ())
        here = table | {name: name + "_lem" for name in lemmas}
        text = turned_rt(text, here) if path.endswith(".rt") else turned_antt(text, here)
        with open(path, "w", encoding="utf-8") as f:
            f.write(text)
    print(f"{len(table)} names turned")
    return 0


if __name__ == "__main__":
    raise SystemExit(main(sys.argv[1] if len(sys.argv) > 1 else "."))
