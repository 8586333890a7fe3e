"""Counts for docs/DESIGN-PASS.md, in the checkout it is run in: clauses of requires that stand in three functions
or more, and any three parameters (rt and out aside) that three functions or more take. -v names them."""
import collections
import glob
import itertools
import re
import sys

clauses = collections.Counter()
triples = collections.Counter()
for path in glob.glob("crates/*/src/**/*.rt", recursive=True):
    text = open(path).read()
    for found in re.finditer(r"fn (\w+)(?:<[^>]*>)?\(([^)]*)\)", text):
        parts = [re.sub(r"\s", "", part) for part in found.group(2).split(",")]
        names = [part for part in parts if ":" in part and not part.startswith(("self", "rt:", "out:"))]
        triples.update(itertools.combinations(names, 3))
    for found in re.finditer(r"requires (?:\w+ )?\{([^}]*)\}", text):
        clauses[" ".join(found.group(1).split())] += 1
for name, counter in (("clauses", clauses), ("triples", triples)):
    often = [(n, what) for what, n in counter.items() if n >= 3]
    print(name, len(often))
    if "-v" in sys.argv:
        for n, what in sorted(often, key=str, reverse=True):
            print("  ", n, what)
