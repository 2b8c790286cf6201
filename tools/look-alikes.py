#!/usr/bin/env python3
"""Lists the functions of src/ whose bodies are the same once their names and numbers are left out.

usage: tools/look-alikes.py [FOLDER]    FOLDER holds crates/, by default the repository itself

A body of fewer than five words is left out: accessors and plain constructors are all alike. What it lists
are candidates: whether two of them are one function is for a reader to say.
"""
import collections
import pathlib
import re
import sys

KEYWORDS = {"if", "else", "match", "for", "in", "let", "mut", "return", "while", "Ok", "Err", "Some", "None", "self"}


def bodies(text):
    """Name, first line and body of each function."""
    for found in re.finditer(r"\bfn (\w+)", text):
        start = text.find("\n{\n", found.end())
        inner = re.search(r"\n( *)\{\n", text[found.end():])
        if inner is None:
            continue
        start = found.end() + inner.end()
        end = text.find("\n" + inner.group(1) + "}", start)
        following = re.search(r"\bfn (\w+)", text[found.end():])
        if following is not None and found.end() + following.start() < start:
            continue
        yield found.group(1), text.count("\n", 0, found.start()) + 1, text[start:end]


def shape(body):
    body = re.sub(r"//[^\n]*", "", body)
    words = re.findall(r"\w+|[^\s\w]", body)
    return " ".join(w if w in KEYWORDS or not w[0].isalnum() else "_" for w in words)


def main():
    top = pathlib.Path(sys.argv[1] if len(sys.argv) > 1 else pathlib.Path(__file__).resolve().parent.parent)
    groups = collections.defaultdict(list)
    for path in sorted(top.glob("crates/*/src/*.rt")):
        if path.name == "tests.rt":
            continue
        for name, line, body in bodies(path.read_text()):
            form = shape(body)
            if len(form.split()) >= 8:
                groups[form].append(f"{path.relative_to(top)}:{line} {name}")
    alike = sorted((g for g in groups.values() if len(g) > 1), key=lambda g: g[0])
    for group in alike:
        print("; ".join(group))
    print(f"{len(alike)} groups, {sum(map(len, alike))} functions")


if __name__ == "__main__":
    main()
