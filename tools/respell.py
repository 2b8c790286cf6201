#!/usr/bin/env python3
"""Spells this repository's own definitions, lemmas and fields in snake case: own-tick becomes own_tick.

Run once at the top of the repository, after the kit's script. A name is our own where a file of specs/ or proofs/
declares it; the goals that the prover names, and the library's names, keep their dashes. Names of src/ have none.
Stops, and changes nothing, where two names of one crate would fall together.
"""
import collections
import glob
import re
import sys

NAME = r"[A-Za-z][A-Za-z0-9_']*(?:-[A-Za-z0-9_']+)+"
DECLARED = re.compile(r"\s*(?:(?:pub|abbrev|unfoldable|ruleset)\s+)*(" + NAME + r")\s*:\s*(\S*)")
TOKEN = re.compile(r"(?<![A-Za-z0-9_'-])" + NAME + r"(?![A-Za-z0-9_'-])")


def sources(*kinds):
    for kind in kinds:
        for path in sorted(glob.glob("crates/*/" + kind, recursive=True)):
            if "/out/" not in path:
                yield path


def declared():
    names = collections.defaultdict(set)
    for path in sources("specs/**/*.antt", "proofs/**/*.antt"):
        for line in open(path):
            found = DECLARED.match(line)
            # a signature of the form goal.NAME is the prover's own
            if found and not found.group(2).startswith(("goal.", "goal ", "needs.")):
                names[found.group(1)].add(path.split("/")[1])
    return names


def together(names):
    """The new names that a crate's definitions have already, or that two old names would share."""
    old = re.compile(r"\s*(?:(?:pub|abbrev|unfoldable)\s+)+([A-Za-z][A-Za-z0-9_']*)\s*:")
    have = collections.defaultdict(set)
    for path in sources("specs/**/*.antt", "proofs/*.antt"):
        for line in open(path):
            found = old.match(line)
            if found:
                have[path.split("/")[1]].add(found.group(1))
    clashes = []
    for name, crates in names.items():
        for crate in crates:
            if name.replace("-", "_") in have[crate]:
                clashes.append((name, crate))
    spelled = collections.Counter(name.replace("-", "_") for name in names)
    clashes += [(name, "two old names") for name in names if spelled[name.replace("-", "_")] > 1]
    return clashes


def main():
    names = declared()
    clashes = together(names)
    if clashes:
        sys.exit(f"these would fall together with others: {clashes}")
    paths = list(sources("specs/**/*.antt", "proofs/**/*.antt", "src/**/*.rt", "must-fail/*.edit"))
    paths += sorted(glob.glob("docs/*.md")) + ["README.md"]
    for path in paths:
        old = open(path, newline="").read()
        new = TOKEN.sub(lambda m: m.group().replace("-", "_") if m.group() in names else m.group(), old)
        if new != old:
            open(path, "w", newline="").write(new)
    print(f"{len(names)} names respelled")


main()
