#!/usr/bin/env python3
"""Calls the repository's own choice `when a then b else c`, in place of `if a then b else c`.

usage: python3 tools/respell_choice.py [TOP]

It ran once, after tools/respell.py: the gate keeps the operator `if◌then◌else◌` for the library's own, which
unfolds by itself, while this one is shut, so that laws can be found by the shape of a choice. It rewrites .antt
files, clauses of .rt files, must-fail edits and, between backquotes, the pages.
"""
import glob
import re
import sys

NAME = "if◌then◌else◌"
WORD = r"(?<![\w.◌·-])if(?![\w◌·-])"


def turn(text, comment):
    out = []
    for line in text.split("\n"):
        at = re.search(comment, line)
        code, rest = (line[: at.start()], line[at.start() :]) if at else (line, "")
        out.append(re.sub(WORD, "when", code.replace(NAME, "when◌then◌else◌")) + rest.replace(NAME, "when◌then◌else◌"))
    return "\n".join(out)


def clauses(text):
    """What stands in the braces of a function's clauses, turned; the code stays."""
    out, i = [], 0
    for m in re.finditer(r"\b(?:requires|ensures)\b[^{\n]*\{", text):
        if m.start() < i:
            continue
        depth, j = 1, m.end()
        while depth:
            depth += {"{": 1, "}": -1}.get(text[j], 0)
            j += 1
        out += [text[i : m.end()], turn(text[m.end() : j], r"//")]
        i = j
    return ("".join(out) + text[i:]).replace(NAME, "when◌then◌else◌")


def rewrite(path, how):
    with open(path, encoding="utf-8") as f:
        text = f.read()
    new = how(text)
    if new != text:
        with open(path, "w", encoding="utf-8") as f:
            f.write(new)


def edit(text):
    """An edit's lines that are of specs/, or of a clause, which chooses by then and else."""
    out, of_specs = [], False
    for l in text.split("\n"):
        if l.startswith("file: "):
            of_specs = l.endswith(".antt")
        is_text = l.startswith(("old: ", "new: "))
        out.append(turn(l, r"$^") if is_text and (of_specs or re.search(r"\bif\b.*\bthen\b", l)) else l)
    return "\n".join(out)


def main(top="."):
    for p in sorted(glob.glob(top + "/crates/*/specs/**/*.antt", recursive=True) + glob.glob(top + "/crates/*/proofs/**/*.antt", recursive=True)):
        rewrite(p, lambda t: turn(t, r"(^|\s)--\s"))
    for p in sorted(glob.glob(top + "/crates/*/src/**/*.rt", recursive=True)):
        rewrite(p, clauses)
    for p in sorted(glob.glob(top + "/crates/*/must-fail/*.edit")):
        rewrite(p, edit)
    for p in sorted(glob.glob(top + "/*.md") + glob.glob(top + "/docs/**/*.md", recursive=True)):
        rewrite(p, lambda t: re.sub(r"`[^`\n]+`", lambda m: m[0].replace(NAME, "when◌then◌else◌"), t))


main(*sys.argv[1:])
