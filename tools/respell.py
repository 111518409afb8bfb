#!/usr/bin/env python3
"""Writes the repository's own definitions and lemmas in snake case, as blockMax becomes block_max.

usage: tools/respell.py     at the top of the repository, once, after Rattle's port.py

It rewrites the names in specs/, proofs/, must-fail/ and the clauses of src/, and where the papers and .ci/ cite one.
Functions of src/, strings and what programs read or write keep their names. It stops, before it writes, where two names
would fall together, or where a parameter would hide a name that its clauses cite.
"""

import collections
import os
import re
import sys

TOKEN = re.compile(r"[^\s(){}\[\].,;:\"«»`|]+")
HUMP = re.compile(r"[a-z0-9][A-Z]")
# Names that are not the repository's ghost names, though they look like one.
KEPT = set("roundTiesToEven maxNum isFinite convertFromInt compareQuietLess compareQuietLessEqual compareQuietEqual getD".split())
# A lemma whose name a definition takes.
MOVED = {"header_of": ("header_of_lem", ("crates/beginning/",))}
WORDS = {"VInt": "Vint"}


def snake(name):
    def one(word):
        for old, new in WORDS.items():
            word = word.replace(old, new)
        word = re.sub(r"([a-z0-9])([A-Z])", r"\1_\2", word)
        word = re.sub(r"([A-Z])([A-Z][a-z])", r"\1_\2", word)
        return word.lower() if word[:1].islower() else word

    return "-".join(one(word) for word in name.split("-"))


def read(path):
    with open(path, encoding="utf-8", newline="") as f:
        return f.read()


def sources():
    for folder, inner, files in os.walk("crates"):
        inner[:] = sorted(d for d in inner if d not in ("out", "data"))
        for f in sorted(files):
            if f.endswith((".antt", ".rt", ".edit")):
                yield os.path.join(folder, f)


def papers():
    for folder in ("docs", ".ci", "crates"):
        for above, inner, files in os.walk(folder):
            inner[:] = sorted(d for d in inner if d not in ("out", "data", "src", "specs", "proofs", "must-fail"))
            yield from (os.path.join(above, f) for f in sorted(files) if f.endswith(".md") or folder == ".ci" or f == "cited")
    yield from ("README.md", "crates.txt")


def ghost(path, text):
    """The text without its strings and comments."""
    if path.endswith(".antt"):
        return re.sub(r"(?m)(^|\s)--(\s.*)?$", r"\1", text)
    return re.sub(r'"(\\.|[^"\\\n])*"', '""', re.sub(r"//.*", "", text))


def names():
    """Each name in humps that a specs/ or proofs/ file of the repository writes, with the files."""
    found, seen = collections.defaultdict(set), {}
    for path in sources():
        if path.endswith(".edit"):
            continue
        tokens = set(TOKEN.findall(ghost(path, read(path))))
        seen[path] = tokens
        for it in tokens:
            if HUMP.search(it) and it[:1].islower() and it not in KEPT:
                found[it].add(path)
    return found, seen


def heads(text):
    """Each function's parameters, with its clauses."""
    for m in re.finditer(r"\bfn \w+", text):
        rest = text[m.start():]
        end = re.search(r"\n\s*\{\n", rest)
        head = rest[:end.start()] if end else rest[:600]
        yield set(re.findall(r"(\w+)\s*:", head.split("->")[0])), set(TOKEN.findall(head))


def clashes(found, seen):
    turned = {}
    for old in sorted(found):
        new = snake(old)
        if new in turned:
            yield f"{old} and {turned[new]} would both be {new}"
        turned[new] = old
        for path in sorted(found[old]):
            if path.endswith(".rt"):
                for params, tokens in heads(ghost(path, read(path))):
                    if old in tokens and new in params:
                        yield f"{path}: a parameter hides {new}"


def respell(text, table, strings, everywhere):
    """With everywhere, of a paper or an edit, names that port.py has respelled in the sources are turned too."""

    def put(m):
        it = m.group(0)
        if everywhere and HUMP.search(it) and it[:1].islower() and it not in KEPT:
            return table.get(it, snake(it))
        return table.get(it, it)

    if not strings:
        return TOKEN.sub(put, text)
    parts = re.split(r'("(?:\\.|[^"\\\n])*")', text)
    return "".join(p if i % 2 else TOKEN.sub(put, p) for i, p in enumerate(parts))


def main():
    if not os.path.isdir("crates"):
        sys.exit("respell: run it at the top of the repository")
    found, seen = names()
    bad = list(clashes(found, seen))
    if bad:
        sys.exit("\n".join(bad))
    table = {old: snake(old) for old in found}
    changed = 0
    for path in list(sources()) + list(papers()):
        here = dict(table)
        for old, (new, folders) in MOVED.items():
            if path.startswith(folders):
                here[old] = new
        text = read(path)
        new = respell(text, here, path.endswith(".rt"), not path.endswith((".rt", ".antt")))
        if new != text:
            changed += 1
            with open(path, "w", encoding="utf-8", newline="") as f:
                f.write(new)
    print(f"respell: {len(table)} names, {changed} files")


if __name__ == "__main__":
    main()
