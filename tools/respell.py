#!/usr/bin/env python3
"""Brings the repository's own definitions and lemmas to the spelling of the installed Rattle.

Run once, at the top, after /opt/rattle/port/port.py: types and records in camel case, all else in snake case.
Names are those declared in specs/ and proofs/; functions of src/, strings, inputs and outputs keep theirs.
"""
import collections
import glob
import re
import sys

MODIFIERS = r"(?:(?:abbrev|unfoldable|opaque|ruleset|pub) )*"
TYPE = re.compile(rf"^\s*{MODIFIERS}(?:record|data) ([^\s({{:]+)")
VALUE = re.compile(rf"^\s*{MODIFIERS}([^\s:({{]+(?: [^\s:({{]+)*) : (.*)$")
ALIAS = re.compile(r" as ([A-Za-z][^\s,}]*)")
GOAL = re.compile(r"^goal\.\S+$")
SPLIT = re.compile(r"([\s.(){},;:\[\]\"`]+)")


def declared(path):
    """Each name that a file of antt declares, and whether it names a type."""
    for line in open(path):
        if line.strip().startswith("--"):
            continue
        if re.match(r"(ghost )?use ", line):
            for name in ALIAS.findall(line):
                yield name, name[0].isupper()
        elif found := TYPE.match(line):
            yield found.group(1), True
        elif path.endswith(".antt") and (found := VALUE.match(line)) and not GOAL.match(found.group(2).strip()):
            for name in found.group(1).split():
                yield name, bool(re.search(r"Type 0\s*$", found.group(2)))


def respelled(name, is_type):
    if is_type:
        return "".join(part[:1].upper() + part[1:] for part in name.split("-"))
    return name.replace("-", "_")


def table(files):
    kinds = collections.defaultdict(bool)
    for path in files:
        for name, is_type in declared(path):
            kinds[name] |= is_type
    spelling = {name: respelled(name, is_type) for name, is_type in kinds.items()}
    taken = collections.defaultdict(set)
    for old, new in spelling.items():
        taken[new].add(old)
    together = [(new, sorted(olds)) for new, olds in taken.items() if len(olds) > 1]
    if together:
        sys.exit(f"these would fall together: {together}")
    return {old: new for old, new in spelling.items() if old != new}


def turned(text, spelling):
    return "".join(spelling.get(word, word) for word in SPLIT.split(text))


def in_ticks(text, spelling):
    return re.sub(r"`[^`\n]+`", lambda found: turned(found.group(0), spelling), text)


def comment(text, spelling):
    """A comment keeps its words; port.py took one of them for a name."""
    return in_ticks(re.sub(r"(?<!`)\btake_back\b(?!`)", "take-back", text), spelling)


def code(text, mark, spelling):
    lines = []
    for line in text.split("\n"):
        at = line.find(mark)
        head, tail = (line, "") if at < 0 else (line[:at], line[at:])
        parts = re.split(r'("(?:[^"\\]|\\.)*")', head)
        lines.append("".join(p if p.startswith('"') else turned(p, spelling) for p in parts) + comment(tail, spelling))
    return "\n".join(lines)


def main():
    proofs = sorted(glob.glob("crates/*/specs/**/*.antt", recursive=True) + glob.glob("crates/*/proofs/**/*.antt", recursive=True))
    sources = sorted(glob.glob("crates/*/src/**/*.rt", recursive=True))
    edits = sorted(glob.glob("crates/*/must-fail/*.edit"))
    pages = sorted(glob.glob("docs/*.md") + ["README.md"])
    spelling = table(proofs + sources)
    for files, turn in [
        (proofs, lambda text: code(text, "--", spelling)),
        (sources, lambda text: code(text, "//", spelling)),
        (edits, lambda text: turned(text, spelling)),
        (pages, lambda text: in_ticks(text, spelling)),
    ]:
        for path in files:
            text = open(path).read()
            new = turn(text)
            if new != text:
                open(path, "w").write(new)
    for old, new in sorted(spelling.items()):
        print(old, new)


main()
