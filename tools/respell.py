#!/usr/bin/env python3
"""Brings the definitions and lemmas of this repository to today's spelling: words in snake case, fields of records without dashes.

usage: python3 tools/respell.py      at the top of the repository, once, after port.py and before any edit by hand

port.py turns the names that the library has too; this script turns the rest. Only antt names change: functions of src/, exported
names, strings, inputs and outputs stay. It stops, and writes nothing, where two names would fall together.
"""

import os
import re
import sys

# a character that an antt name may have
NAME = r"[^\s(){}\[\];,.:\"`=→←×·λ]"
TOKEN = re.compile(NAME + "+")
HUMP = re.compile(r"([a-z0-9])([A-Z])")

# Names that would fall together with another of the same file: a lemma that would have its definition's name.
LEMMAS = {"from_parts": "from_parts_lem", "held_word": "held_word_lem"}
# A field that would hide a definition in the fields below it.
FIELDS = {"cell-count": "cell_count_fits"}
# Fields of two records in one file, which stand apart.
APART = {"clock_rises", "clock_last", "length_fits"}
LEMMA_FILES = {"from_parts": ("crates/ways/",), "held_word": ("crates/crocktendril/",)}


def files(root):
    for folder, dirs, names in os.walk(os.path.join(root, "crates")):
        dirs[:] = sorted(d for d in dirs if d not in ("out", ".git"))
        for name in sorted(names):
            if name.endswith((".antt", ".rt", ".edit")):
                yield os.path.relpath(os.path.join(folder, name), root)
    for folder in (".", "docs", "docs/notes"):
        for name in sorted(os.listdir(os.path.join(root, folder))):
            if name.endswith(".md") and not name.startswith("PORT"):
                yield os.path.normpath(os.path.join(folder, name))


def bare(text):
    return re.sub(r"--[^\n]*", "", text)


def snake(part):
    return HUMP.sub(lambda m: m.group(1) + "_" + m.group(2).lower(), part) if part[:1].islower() else part


def respelled(name):
    name = name.replace("getD", "get_or")
    return "-".join(snake(part) for part in name.split("-"))


def fields(text):
    """The fields that the records of a file declare."""
    for m in re.finditer(r"(?m)^( *)(?:pub )?record (?:pub )?\S+.*? where\n((?:\1 +.*\n|\n| *--.*\n)+)", text):
        for line in m.group(2).split("\n"):
            field = re.match(r" +(?:pub )?([^\s():]+) :", line)
            if field:
                yield field.group(1)


def table(texts):
    names, dashed = set(), set()
    for path, text in texts.items():
        if path.endswith(".antt"):
            names |= set(TOKEN.findall(bare(text)))
            dashed |= {f for f in fields(text) if "-" in f}
    new = {n: respelled(n) for n in names if respelled(n) != n and n[:1].isalpha()}
    for f in dashed:
        new[f] = FIELDS.get(f) or re.sub(r"([a-z0-9])-([a-zA-Z0-9])", r"\1_\2", respelled(f))
    merged = {}
    for old, to in new.items():
        merged.setdefault(to, []).append(old)
    # fields of two records may share a name; two names of one file may not
    both = {to: olds for to, olds in merged.items() if len(olds) > 1 and to not in APART and any(all(o in TOKEN.findall(bare(t)) for o in olds) for t in texts.values())}
    if both:
        sys.exit(f"names fall together: {both}")
    return new


def turned(path, text, new):
    lemmas = {old: to for old, to in LEMMAS.items() if path.startswith(LEMMA_FILES[old])}

    def one(m):
        word = m.group()
        # what a proof file cites of its own goals and steps is generated, not ours
        if path.endswith("/Proof.antt") and re.search(r"(?:^|[^\w])(?:c|tie|Tie)(?:\.before)*\.$", text[max(0, m.start() - 40) : m.start()]):
            return word
        return new.get(word) or lemmas.get(word) or word

    if path.endswith(".md"):
        return re.sub(TOKEN, lambda m: new.get(m.group(), m.group()) if "getD" not in m.group() or m.group() in new else m.group(), text)
    return TOKEN.sub(one, text)


def main():
    root = "."
    texts = {}
    for path in files(root):
        with open(os.path.join(root, path), encoding="utf-8") as f:
            texts[path] = f.read()
    new = table(texts)
    changed = 0
    for path, text in texts.items():
        to = turned(path, text, new)
        if to != text:
            with open(os.path.join(root, path), "w", encoding="utf-8") as f:
                f.write(to)
            changed += 1
    print(f"{len(new)} names respelled in {changed} files")


if __name__ == "__main__":
    main()
