#!/usr/bin/env python3
"""Gives the repository's own definitions and lemmas the spelling of today's Rattle: words in snake case, joined by underscores.

usage: python3 tools/spelling.py [ROOT]     once, after the kit's port.py, in a repository that has the old names

It turns the names that files of specs/ and proofs/ declare, wherever they stand in those files, in the ghost items and clauses of src/,
and in must-fail edits. Functions, types and variants of src/, strings, inputs and outputs keep their names, and so do the labels that the
check itself makes (NAME-spec, invariant-.., decreases-..).
"""
import os
import re
import sys

# names that would fall together with another, or that read badly letter by letter
CHOSEN = {
    "bytes-of": "headed_bytes",
    "ordinate-size": "ordinate_size_is",
    "isNaN": "is_nan",
    "allNaN": "all_nan",
    "all-nan": "all_are_nan",
    "nan-by-bits": "nan_by_bits",
    "same-words": "same_words_equal",
    "third-is-M": "third_is_m",
}
# an import under another name, which today's Rattle does not need: a function and a definition may share a name
ALIAS = re.compile(r"\b(\w+) as (\w+)·\1\b")
DOTTED = re.compile(r"\b[A-Z]\w*·(\w+)")
DECLARED = re.compile(r"^\s*(?:(?:abbrev|pub|unfoldable)\s+)*([^\s(){}:,;.]+) :(?=\s|$)")
MADE = re.compile(r"^(\+.*|.*-spec|invariant-.*|decreases-.*|returns-.*|μ-.*|\W.*)$")
TOKEN = re.compile(r"[^\s(){}\[\],;.:«»\"]+")
CLAUSE = re.compile(r"^\s*(?:ghost use\b|requires\b|ensures\b)")


def files(root, ends):
    for folder, dirs, names in os.walk(os.path.join(root, "crates")):
        dirs[:] = sorted(d for d in dirs if d != "out")
        for n in sorted(names):
            if n.endswith(ends):
                yield os.path.join(folder, n)


def read(path):
    with open(path, encoding="utf-8") as f:
        return f.read()


def snake(name):
    if name in CHOSEN:
        return CHOSEN[name]
    name = re.sub(r"(?<=[a-z0-9])(?=[A-Z])", "_", name.replace("-", "_"))
    return name.lower()


def old_names(root):
    """Each declared name, and whether it is a record's field, which stands behind a dot."""
    found = {}
    for path in files(root, ".antt"):
        inside = False
        for line in read(path).splitlines():
            m = DECLARED.match(line)
            if re.match(r"^\s*pub record\b", line):
                inside = True
            elif line.strip() == "" or not line.startswith(" "):
                inside = False
            if m:
                found[m.group(1)] = found.get(m.group(1), False) or inside
    return found


def renamed(root):
    names = old_names(root)
    turned = {}
    for n, field in sorted(names.items()):
        odd = "-" in n or (n[0].islower() and re.search("[a-z0-9][A-Z]", n))
        if odd and not MADE.match(n):
            turned[n] = (snake(n), field)
    news = {}
    for n, (to, _) in turned.items():
        if to in names and n not in CHOSEN:
            raise SystemExit(f"{n} would be {to}, which is another name")
        if to in news:
            raise SystemExit(f"{n} and {news[to]} would both be {to}")
        news[to] = n
    return turned


def turn(text, names):
    def one(m):
        word = m.group(0)
        if word not in names:
            return word
        to, field = names[word]
        if m.start() and text[m.start() - 1] == "." and not field:
            return word
        return to

    return TOKEN.sub(one, text)


def turn_source(text, names):
    lines = []
    for line in text.split("\n"):
        if CLAUSE.match(line):
            line = DOTTED.sub(r"\1", ALIAS.sub(r"\1", line))
            line = turn(line, names)
        lines.append(line)
    return "\n".join(lines)


def turn_edit(text, names):
    """An edit of a definition. It still has the names and the spaced projections of before port.py, which turns no edits."""
    at = re.search(r"^file: (.*)$", text, re.M)
    if not at.group(1).startswith("specs/"):
        return text
    return re.sub(r"(?<=\S) (?=\.[a-z0-9])", "", turn(text, names | {"rowsOf": ("rows_of", False)}))


def main():
    root = sys.argv[1] if len(sys.argv) > 1 else "."
    names = renamed(root)
    for path in files(root, (".antt", ".rt", ".edit")):
        old = read(path)
        how = turn_source if path.endswith(".rt") else turn_edit if path.endswith(".edit") else turn
        new = how(old, names)
        if new != old:
            with open(path, "w", encoding="utf-8") as f:
                f.write(new)
    for n, (to, _) in sorted(names.items()):
        print(f"{n} {to}")


if __name__ == "__main__":
    main()
