#!/usr/bin/env python3
"""Brings the repository's own definitions and lemmas to today's spelling, once, after port.py: run at the top of the repository.

Words in camel case that begin with a small letter become snake case (`recordBytes` becomes `record_bytes`), and a prime becomes an
apostrophe, and a record's field in specs/ has underscores for its hyphens, in specs/, proofs/, the clauses and comments of src/, the must-fail edits and the names that docs/ and README quote. Types
and modules keep their camel case; functions, fields and constants of src/ are not touched. A lemma that would get the name of a
definition beside it is renamed first (FIRST).
"""

import os
import re

TOKEN = re.compile(r"(?<![\w'])[a-z][\w]*(?:-[\w]+)*'*")
CAMEL = re.compile(r"[a-z0-9][A-Z]")
HEX = re.compile(r"x[0-9A-F]+$")

# file: (old name, new name) of lemmas whose names would fall together with a definition's
FIRST = {
    "crates/droplet/proofs/CardFields.antt": [("laid_out", "card-laid_out")],
    "crates/marks/proofs/PackedMarks.antt": [("same_bytes", "same_packed")],
    "crates/marks/proofs/LentBuffers.antt": [("same_bytes", "same_packed")],
}


def snake(word):
    word = re.sub(r"([a-z0-9])([A-Z])", r"\1_\2", word)
    return re.sub(r"([A-Z])([A-Z][a-z])", r"\1_\2", word).lower()


def files():
    for folder, dirs, names in os.walk("crates"):
        dirs[:] = sorted(d for d in dirs if d != "out")
        for name in sorted(names):
            if name.endswith((".antt", ".rt", ".edit")):
                yield os.path.join(folder, name)


def read(path):
    with open(path, encoding="utf-8") as f:
        return f.read()


def write(path, text):
    with open(path, "w", encoding="utf-8") as f:
        f.write(text)


def own_names():
    """The words in camel case that the repository's proof language uses, and what they become."""
    found = set()
    for path in files():
        if path.endswith(".antt"):
            for word in TOKEN.findall(read(path)):
                for part in word.split("-"):
                    part = part.rstrip("'")
                    if CAMEL.search(part) and not HEX.match(part):
                        found.add(part)
    return {word: snake(word) for word in found}


def hyphened_fields():
    """The fields of records in specs/ that still have hyphens: a field is a word, and no lemma."""
    field = re.compile(r"^ +(?:pub )?([a-z]\w*(?:-\w+)+) :", re.M)
    return {word for path in files() if "/specs/" in path for word in field.findall(read(path))}


def renamed(text, names, fields):
    def turn(match):
        word = match[0]
        if word in fields:
            return word.replace("-", "_")
        return "-".join(names.get(p.rstrip("'"), p.rstrip("'")) + "'" * (len(p) - len(p.rstrip("'"))) for p in word.split("-"))

    return TOKEN.sub(turn, text.replace("\u2032", "'"))


def main():
    for path, pairs in FIRST.items():
        if not os.path.exists(path):
            continue
        text = read(path)
        for old, new in pairs:
            text = re.sub(r"(?<![\w'-])" + old + r"(?![\w'-])", new, text)
        write(path, text)
    names, fields = own_names(), hyphened_fields()
    for path in files():
        write(path, renamed(read(path), names, fields))
    quoted = re.compile(r"`[^`\n]+`")
    for path in ["README.md", "docs/CLAIMS.md", "docs/DECISIONS.md", "docs/GLOSSARY.md"]:
        write(path, quoted.sub(lambda m: renamed(m[0], names, fields), read(path)))
    print(len(names), "names,", len(fields), "fields")


if __name__ == "__main__":
    main()
