#!/usr/bin/env python3
"""Respells the definitions, lemmas and fields of specs/ and proofs/: words in snake case, modules in camel case.

usage: tools/respell.py          at the top of the repository, once, after the toolchain's port.py

`respelled.tsv`, beside this file, has a row for each name: what it is, how it was spelled, how it is.
'name': a definition or a lemma, also as a part of a name that dashes join. 'field': a field of a record.
'lemma': a lemma whose name a respelled definition now has; the definition keeps it, as the toolchain's rule for names says.
Functions of src/, exported names, strings, inputs and outputs keep their names. The folders specs/inner become specs/Inner.
"""
import os
import re
import sys

HERE = os.path.dirname(os.path.realpath(__file__))
NAMES, LEMMAS, FIELDS = {}, {}, {}
with open(os.path.join(HERE, "respelled.tsv"), encoding="utf-8") as rows:
    for row in rows:
        kind, old, new = row.rstrip("\n").split("\t")
        {"name": NAMES, "lemma": LEMMAS, "field": FIELDS}[kind][old] = new

# A string is left as it is; any other token may be a name.
TOKEN = re.compile(r"\"(?:[^\"\\\n]|\\.)*\"|(\.?)([A-Za-z_][\w'ᴰ-]*)")
INNER = re.compile(r"\binner(?=\.[A-Z])|(?<=specs/)inner\b|(?<=^pub mod )inner$", re.M)


def parts(word):
    return "-".join(NAMES.get(it, it) for it in word.split("-"))


def in_antt(match):
    dot, word = match[1], match[2]
    if word is None:
        return match[0]
    if word in FIELDS:
        return dot + FIELDS[word]
    if not dot and word in LEMMAS:
        return LEMMAS[word]
    return dot + parts(word)


def in_source(match):
    dot, word = match[1], match[2]
    if word is None:
        return match[0]
    if dot and word in FIELDS:
        return dot + FIELDS[word]
    return dot + parts(word)


def comments_apart(text, turn):
    """Lines of comments have names too, but no lemmas that are named as a definition."""
    return "".join(
        TOKEN.sub(in_source if line.lstrip().startswith("--") else turn, line)
        for line in text.splitlines(keepends=True)
    )


def turned(path, text):
    text = INNER.sub("Inner", text)
    if path.endswith(".antt"):
        return comments_apart(text, in_antt)
    return TOKEN.sub(in_source, text)


def main():
    if not os.path.isdir("crates") or len(sys.argv) > 1:
        print(__doc__.split("\n\n")[1], file=sys.stderr)
        return 2
    for crate in sorted(os.listdir("crates")):
        for part in ("src", "specs", "proofs"):
            for folder, folders, files in os.walk(os.path.join("crates", crate, part)):
                folders.sort()
                for file in sorted(files):
                    path = os.path.join(folder, file)
                    if path.endswith((".rt", ".antt")):
                        with open(path, encoding="utf-8") as it:
                            old = it.read()
                        new = turned(path, old)
                        if new != old:
                            with open(path, "w", encoding="utf-8") as it:
                                it.write(new)
        specs = os.path.join("crates", crate, "specs")
        for old, new in (("inner", "Inner"), ("inner.antt", "Inner.antt")):
            if os.path.exists(os.path.join(specs, old)):
                os.rename(os.path.join(specs, old), os.path.join(specs, new))
    return 0


if __name__ == "__main__":
    sys.exit(main())
