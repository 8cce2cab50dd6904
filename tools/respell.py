#!/usr/bin/env python3
"""Brings the repository's own definitions, lemmas and record fields to today's spelling: snake case, and upper camel
case for types and facts. A dash stays only before an operator's sign, as in `added-++`, and in the names that the
check makes (goals and invariants in proofs/F/). Run once, at the top of the repository: `python3 tools/respell.py`.
It prints each name that it turns, and stops before it writes anything if two names of one file would fall together; with
`--anyway` it goes on (a definition may have the name of the function of src/ that computes it)."""
import glob
import re
import sys

# a name of the logic: letters, digits, dashes, primes, and an operator's sign at the end
NAME = r"[A-Za-z_][A-Za-z0-9_'ℕℤ]*(?:-[A-Za-z0-9_'ℕℤ+]+)*"
DEFINED = re.compile(r"^(?:(?:abbrev|unfoldable|pub|data|record|ruleset) )*(%s)(?= [:({])" % NAME)
FIELD = re.compile(r"^ +(?:pub )?(%s) :" % NAME)
# what the check names in a function's own folder
MADE = re.compile(r"^(?:returns|loop|invariant|decreases|overflow|bounds|give-requires)-")


def new_name(name):
    if "-" not in name:
        return name
    if name[0].isupper():
        return "".join(part[0].upper() + part[1:] for part in name.split("-"))
    return re.sub(r"-(?=[A-Za-z0-9_])", "_", name)


def logic_files():
    return sorted(glob.glob("crates/*/specs/**/*.antt", recursive=True) + glob.glob("crates/*/proofs/**/*.antt", recursive=True))


def own_names():
    names = set()
    for path in logic_files():
        for line in open(path):
            for pattern in (DEFINED, FIELD):
                found = pattern.match(line)
                if found and not MADE.match(found.group(1)):
                    names.add(found.group(1))
    return {name: new_name(name) for name in names if new_name(name) != name}


def turned(text, names):
    return re.sub(r"(?<![A-Za-z0-9_'ℕℤ◌-])%s" % NAME, lambda m: names.get(m.group(0), m.group(0)), text)


def turned_source(text, names):
    """In a .rt file and in an edit comments and texts keep their words."""
    out = []
    for line in text.split("\n"):
        parts = re.split(r'("(?:[^"\\]|\\.)*"|//.*$)', line)
        out.append("".join(part if i % 2 else turned(part, names) for i, part in enumerate(parts)))
    return "\n".join(out)


def turned_logic(text, names):
    out = []
    for line in text.split("\n"):
        at = line.find("--")
        code, rest = (line, "") if at < 0 else (line[:at], line[at:])
        out.append(turned(code, names) + rest)
    return "\n".join(out)


def main():
    names = own_names()
    written = []
    fallen = False
    for path in logic_files() + sorted(glob.glob("crates/*/src/**/*.rt", recursive=True) + glob.glob("crates/*/must-fail/*.edit")):
        old = open(path).read()
        new = (turned_logic if path.endswith(".antt") else turned_source)(old, names)
        before = set(re.findall(NAME, old))
        for name in before & set(names):
            if names[name] in before:
                print(f"{path}: {name} would fall together with {names[name]}")
                fallen = True
        if new != old:
            written.append((path, new))
    if fallen and "--anyway" not in sys.argv:
        sys.exit(1)
    for name in sorted(names):
        print(f"{name} -> {names[name]}")
    for path, text in written:
        open(path, "w").write(text)
    print(f"{len(names)} names, {len(written)} files")


main()
