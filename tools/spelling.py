#!/usr/bin/env python3
"""Spells this repository's own definitions, lemmas and fields in snake case, as today's Rattle spells its words.

usage: tools/spelling.py [--list]      at the top, once, after port.py: rewrites crates/, README.md and docs/ in place
--list prints the old and the new names, and those that would fall together with another name, and writes nothing.

A name is respelled if it begins in lower case and has a capital further on: `storedRow` becomes `stored_row`. A dash joins two
names, and each is spelled by itself. Names of src/ are in snake case already, strings and inputs are left alone. The texts of
must-fail edits also get the forms of today's clauses: `(x .f)` is `x.f`, operators in imports are `◌+◌`.
"""

import glob
import os
import re
import sys

WORD = re.compile(r"(?<![A-Za-z0-9_'.\u2260\u2261-])(?:[A-Za-z0-9_'\u2124\u2260\u2261]+-)*[A-Za-z0-9_'\u2124\u2260\u2261]+|(?<=\.)[A-Za-z0-9_']+")
CAMEL = re.compile(r"^[a-z][A-Za-z0-9_']*$")
LIBRARY = {"leZ": "le_z", "getD": "get_or", "toZ": "to_z", "ofZ": "of_z"}
# lemmas that would fall together with the definition that they are about
LEMMAS = re.compile(r"(?<![A-Za-z0-9_'.:-])(is_state|last_line|left_by|no_record|refused_as|stored_row)(?![A-Za-z0-9_'.:-])")


def snake(part):
    if part in LIBRARY:
        return LIBRARY[part]
    if not CAMEL.match(part) or not re.search(r"[a-z0-9][A-Z]", part):
        return part
    return re.sub(r"(?<=[a-z0-9'])([A-Z])", lambda m: "_" + m.group(1).lower(), part).replace("_-", "-")


def respell(word):
    return "-".join(snake(part) for part in word.split("-"))


def files(*patterns):
    return sorted(f for p in patterns for f in glob.glob(p, recursive=True) if "/out/" not in f)


def sources():
    return files("crates/*/specs/**/*.antt", "crates/*/proofs/**/*.antt", "crates/*/src/**/*.rt")


def strings_apart(text):
    """The text in pieces, each with whether it is a string or a character of the code."""
    return [(bool(i % 2), piece) for i, piece in enumerate(re.split(r"(\"(?:[^\"\\\n]|\\.)*\"|b'(?:[^'\\\n]|\\.)')", text))]


def turned(text):
    return "".join(piece if apart else WORD.sub(lambda m: respell(m.group(0)), piece) for apart, piece in strings_apart(text))


def turned_edit(line):
    """A line of an edit of specs/ or of a clause, in today's forms."""
    head, text = line.split(" ", 1) if " " in line else (line, "")
    if head not in ("old:", "new:"):
        return line
    text = re.sub(r"now \((\w+) \.entry\)", r"\1.old", text)
    text = re.sub(r"now \((\w+) \.exit\)", r"\1.new", text)
    text = text.replace("\u2032", "'")
    for _ in range(4):
        text = re.sub(r"\((\w+(?:\.\w+)*) ((?:\.\w+ ?)+)\)", lambda m: m.group(1) + m.group(2).replace(" ", ""), text)
    text = re.sub(r"(?<=[\w)]) ((?:\.\w+ ?)+)", lambda m: m.group(1).replace(" ", "") + (" " if m.group(1).endswith(" ") else ""), text)
    if "use " in text or text.startswith("{"):
        text = re.sub(r"(?<=[{ ])_([^\s\w,}]+)_(?=[,}])", "\u25cc\\1\u25cc", text)
    text = text.replace("Rattle\u00b7", "Rattle.")
    return head + " " + text


def names():
    found = {}
    taken = set()
    for f in sources():
        with open(f) as it:
            for apart, piece in strings_apart(it.read()):
                if apart:
                    continue
                for word in WORD.findall(piece):
                    taken.update(word.split("-"))
                    for part in word.split("-"):
                        if snake(part) != part:
                            found[part] = snake(part)
    return found, taken


def main(argv):
    found, taken = names()
    if argv == ["--list"]:
        for old, new in sorted(found.items()):
            print(old, new, "TAKEN" if new in taken else "")
        twice = sorted(n for n in set(found.values()) if list(found.values()).count(n) > 1)
        print("twice:", *twice)
        return 0
    if argv:
        print(__doc__)
        return 2
    for f in sources() + files("README.md", "docs/**/*.md"):
        with open(f) as it:
            text = it.read()
        new = text
        if "/proofs/" in f:
            new = "".join(piece if apart else LEMMAS.sub(r"\1_lem", piece) for apart, piece in strings_apart(new))
        new = turned(new)
        if new != text:
            with open(f, "w") as it:
                it.write(new)
    for f in files("crates/*/must-fail/*.edit"):
        with open(f) as it:
            lines = it.read().split("\n")
        spec = any(l.startswith("file: specs/") for l in lines)
        clause = any(re.search(r"\.(entry|exit)\b", l) for l in lines)
        lines = [turned(turned_edit(l) if spec or clause else l) for l in lines]
        with open(f, "w") as it:
            it.write("\n".join(lines))
    return 0


if __name__ == "__main__":
    raise SystemExit(main(sys.argv[1:]))
