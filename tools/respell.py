#!/usr/bin/env python3
"""Brings the repository's own definitions, lemmas, fields and constructors to snake case.

usage: python3 tools/respell.py [--list] [TOP]

It ran once, right after port.py. A name that is declared in specs/ or proofs/ and is written in mixed case, or with
dashes, gets plain underscores, in .antt and .rt files, in must-fail edits and, between backquotes, in the pages.
Names of src/, strings, file names and names that Rattle makes stay. MEET below says what stands for a name that
would fall together with another. --list prints the names and changes nothing.
"""
import glob, os, re, sys

# Names that would fall together with another name, and what they are called.
LEM = """as-digits component-read cursor-from digit-cells digit-more drawn-picture field-by first-line has-field head-by
in-visit levels-fit list-refusal mode-fits numbers-at open-refusal part-after refusal-of refused-with session-from
shape-fits sized-refusal title-by work-fits year-days part-at moved-to is-refused"""
MEET = {n: n.replace("-", "_") + "_lem" for n in LEM.split()}
# The same of names that are in snake case already, in one crate's proofs.
BESIDE = {
    "marker": {"fields_read": "fields_read_lem"},
    "promises": {"moved_on": "moved_on_lem", "in-range": "is_in_range"},
    "protected": {"moved_on": "moved_on_lem"},
    "record": {"goes_on": "goes_on_lem"},
}
WORD = r'[^\s(){}.;,@"«»`\[\]]+'
DECL = re.compile(r'(?m)^( *)((?:(?:abbrev|unfoldable|pub|data|record) +)*)(' + WORD + r')((?: \{[^{}\n]*\}| \([^()\n]*\))*) :(?= |$)')
LET = re.compile(r"\blet (" + WORD + r")(?= [:=])")
MADE = re.compile(r"(?m)^(" + WORD + r") : (?:\{[^{}]*\} → )?(?:tie|goal)\.")
PLAIN = re.compile(r"[a-z][A-Za-z0-9'₀-₉_-]*$")


def snake(name):
    s = re.sub(r"(?<=[a-z0-9'])([A-Z])", lambda m: "_" + m[1].lower(), name.replace("getD", "get_or"))
    return s.replace("-", "_").lower() if s != name or "-" in name else name


def read(p):
    with open(p, encoding="utf-8") as f:
        return f.read()


def antt(top):
    return sorted(glob.glob(top + "/crates/*/specs/**/*.antt", recursive=True) + glob.glob(top + "/crates/*/proofs/**/*.antt", recursive=True))


def made(path, text):
    """Names of a proof file that Rattle makes: they go another way."""
    if not path.endswith("/Proof.antt"):
        return set()
    names = set(MADE.findall(text))
    return names | {m[3] for m in DECL.finditer(text) if m[3].endswith("-spec")}


def names(top):
    found = {}
    for p in antt(top):
        t = read(p)
        skip = made(p, t)
        for m in list(DECL.finditer(t)):
            n = m[3]
            if n in skip or not PLAIN.match(n) or n.startswith(("invariant-", "decreases-")):
                continue
            if re.search(r"[a-z0-9][A-Z]", n) or "-" in n:
                found.setdefault(n, set()).add(p)
        for m in LET.finditer(t):
            n = m[1]
            if PLAIN.match(n) and (re.search(r"[a-z0-9][A-Z]", n) or "-" in n):
                found.setdefault(n, set()).add(p)
    return {n: MEET.get(n, snake(n)) for n in found}, found


def library(text):
    """The names that a file takes from a library, which stay."""
    out = set()
    for m in re.finditer(r"\buse (\S+?)\.\{([^}]*)\}", text):
        own = m[1].startswith("Rattle.") and not re.match(r"Rattle\.(std|core|io|os|libc)\b", m[1])
        if not own:
            out |= {w.strip().split(" as ")[0] for w in m[2].split(",")}
    return out


def turn(text, table, stay, comment):
    """The words of text that table has, but for stay; of comments only words in mixed case."""
    word = re.compile(WORD)
    out = []
    for line in text.split("\n"):
        at = re.search(comment, line)
        code, rest = (line[: at.start()], line[at.start() :]) if at else (line, "")
        code = word.sub(lambda m: spelled(m, code, table, stay), code)
        rest = re.sub(r"[A-Za-z][A-Za-z0-9]*(?:-[A-Za-z0-9]+)*", lambda m: table[m[0]] if m[0] in table and re.search(r"[a-z][A-Z]", m[0]) else m[0], rest)
        out.append(code + rest)
    return "\n".join(out)


def spelled(m, code, table, stay):
    w = m[0]
    # behind a dot a name that meets another is one that Rattle made
    if w not in table or w in stay or (w in MEET and code[: m.start()].endswith(".")):
        return w
    return table[w]


def main(argv):
    listing = "--list" in argv
    argv = [a for a in argv if a != "--list"]
    top = argv[0] if argv else "."
    table, found = names(top)
    if listing:
        for n in sorted(table):
            print(n, table[n])
        return 0
    for p in antt(top):
        t = read(p)
        crate = p[len(top) :].strip("/").split("/")[1]
        new = turn(t, table | BESIDE.get(crate, {}), library(t) | made(p, t), r"(^|\s)--\s")
        if new != t:
            open(p, "w", encoding="utf-8").write(new)
    mixed = {n: v for n, v in table.items() if "/specs/" in "".join(found[n]) or re.search(r"[a-z0-9][A-Z]", n)}
    for p in sorted(glob.glob(top + "/crates/*/src/**/*.rt", recursive=True)):
        t = read(p)
        new = turn(t, mixed, library(t), r"//")
        if new != t:
            open(p, "w", encoding="utf-8").write(new)
    for p in sorted(glob.glob(top + "/crates/*/must-fail/*.edit")):
        t = read(p)
        new = turn(t, mixed, set(), r"^#")
        if new != t:
            open(p, "w", encoding="utf-8").write(new)
    for p in sorted(glob.glob(top + "/*.md") + glob.glob(top + "/docs/**/*.md", recursive=True) + glob.glob(top + "/reference/*.md")):
        t = read(p)
        new = re.sub(r"`[^`\n]+`", lambda m: turn(m[0], table, set(), r"$^"), t)
        if new != t:
            open(p, "w", encoding="utf-8").write(new)
    return 0


if __name__ == "__main__":
    raise SystemExit(main(sys.argv[1:]))
