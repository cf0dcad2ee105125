#!/usr/bin/env python3
"""Spells this repository's own definitions, lemmas, fields and constructors as today's Rattle does: words in snake case, types in camel case.

usage: python3 tools/respell.py            at the top, once, after the kit's port.py, with everything committed
       python3 tools/respell.py --look     tells the renamings and names that fall together, and writes nothing

A name is this repository's own where an .antt file of crates/ declares it; a name that a file imports from a library of the kit keeps its
spelling there. Names of src/, strings, and what Rattle itself makes keep theirs. Files: .antt, clauses of .rt, must-fail edits, and names
between back quotes in pages.
"""

import os
import re
import sys

TOKEN = re.compile(r"[^\s(){}\[\];,.⌜⌝«»|\"`:=]+")
DECLARED = re.compile(r"^(\s*)(?:abbrev |unfoldable |pub |mutual )*(?:(data|record|ruleset|module) )?(?:pub )?([^\s(){}\[\];,.\"]+)(?: [^:=\"]*)? (?::|=|where)(?: |$)")
SEVERAL = re.compile(r"^\s+(?:pub )?((?:[^\s(){}\[\];,.\":]+ )+): [A-Z]")
CAMEL = re.compile(r"^[a-z][a-z0-9_]*[A-Z]")
# Names that would have a lemma's and a definition's in one, or a parameter's of a contract that cites it.
APART = {
    "isTrue": "comes_true",
    "isFalse": "comes_false",
    "isUnknown": "comes_unknown",
    "no-row": "no_further_row",
}
# Lemmas that would have the name of what they speak of.
LEMMAS = {
    "children-at", "fields-at", "asks-first", "forever-at", "in-range", "repeats-first", "field-length", "with-tables", "part-at", "record-fits",
    "is-kind", "line-text", "place-numbers", "row-tree", "stays-written", "falls-written", "held-facts", "vetted-effect", "in-turn", "is-absent",
    "one-picked", "same-events", "same-run", "first-true", "head-here", "name-text", "after-lines", "unless-one-read", "unless-read",
    "all-labels", "no-arm", "nonblocking-holds", "row-holds", "or-not", "through-one", "byte-at", "is-letter",
}
# The same, where port.py had spelled them already: not where a path goes through a function's folder.
TURNED = {"put_whole", "takes_first", "has_room", "in_order", "all_among", "is_among", "read_back"}
# What the kit's port.py does to sources and not to edits.
OLD = [
    (r"\bRattle·(\w+)\.", r"Rattle.\1."),
    (r"\bgetD\b", "get_or"),
    (r"\bnth (\S+) (\d+) (\w+) \.(?=[a-z])", r"(nth \1 \2 \3)."),
    (r"\b(sheet_?[oO]f s) \.(?=[a-z])", r"(\1)."),
    (r"(?<=[\w']) \.(?=[a-z])", "."),
    (r"\(([a-z]\w*\.[\w-]+)\)", r"\1"),
    (r"\((\((?:nth|sheet)[^()]*\)\.\w+)\)", r"\1"),
]


def files(top, *ends):
    for folder, dirs, names in os.walk(top):
        dirs[:] = sorted(d for d in dirs if d not in ("out", "target", ".git"))
        for name in sorted(names):
            if name.endswith(ends):
                yield os.path.join(folder, name)


def read(path):
    with open(path, encoding="utf-8") as f:
        return f.read()


def declared(text):
    found = set()
    for line in text.split("\n"):
        if line.lstrip().startswith(("--", "use ", "pub use", "λ", "let ", "in ")):
            continue
        m = DECLARED.match(line)
        if m:
            found.add(m.group(3))
        m = SEVERAL.match(line)
        if m:
            found.update(m.group(1).split())
    return found


def imported(text):
    """Names that the file takes from a library of the kit."""
    found = set()
    own = {c for c in os.listdir("crates")}
    for m in re.finditer(r"^(?:ghost |pub )*use ([^\s{]+?)\.?(?:\{([^}]*)\}|(?: as (\S+)))?;?$", text, re.M):
        path = m.group(1).split(".")
        if path[0] == "Rattle" and len(path) > 1 and path[1] in own:
            continue
        for part in (m.group(2) or "").split(","):
            found.add(part.split(" as ")[-1].strip())
    return found


def snake(name):
    parts = name.split("-")
    out = ""
    for i, part in enumerate(parts):
        fact = part[:1].isupper()
        if not fact:
            part = re.sub(r"(?<=[a-z0-9])([A-Z])", lambda m: "_" + m.group(1).lower(), part)
        if i:
            out += "-" if fact or parts[i - 1][:1].isupper() else "_"
        out += part
    return out


def spelled(name, own):
    if name in APART:
        return APART[name]
    if name in LEMMAS:
        return snake(name) + "_lem"
    if name in own and ("-" in name or CAMEL.match(name)):
        return snake(name)
    if CAMEL.match(name) and "-" not in name:
        return snake(name)
    return name


def turn(line, own, kept, prose):
    """One line, strings apart; of prose only what stands between back quotes or is in camel case."""
    pieces = re.split(r'("(?:[^"\\]|\\.)*")', line)
    for i in range(0, len(pieces), 2):
        def one(m):
            t = m.group(0)
            if t in kept:
                return t
            if t in TURNED and not prose and not (m.start() and m.string[m.start() - 1] == ".") and m.string[m.end():m.end() + 1] != ".":
                return t + "_lem"
            if prose and not CAMEL.match(t):
                return t
            if prose and t not in own:
                return t
            return spelled(t, own)
        pieces[i] = TOKEN.sub(one, pieces[i])
    return "".join(pieces)


def turn_antt(text, own, kept):
    lines = text.split("\n")
    for i, line in enumerate(lines):
        code, dash, comment = (line, "", "") if not line.lstrip().startswith("--") else ("", "", line)
        lines[i] = turn(code, own, kept, False) + (turn_page(turn(comment, own, kept, True), own) if comment else "")
    return "\n".join(lines)


def turn_rt(text, own, kept):
    lines = text.split("\n")
    clause = False
    for i, line in enumerate(lines):
        s = line.lstrip()
        if s.startswith("//"):
            lines[i] = turn_page(turn(line, own, kept, True), own)
            continue
        if s.startswith(("ghost use", "requires", "ensures", "ghost ")):
            clause = True
        if clause:
            lines[i] = turn(line, own, kept | TURNED, False)
            if s.endswith(("}", "};", "},", ";")):
                clause = False
    return "\n".join(lines)


def turn_edit(text, own):
    lines = text.split("\n")
    file = ""
    for i, line in enumerate(lines):
        if line.startswith("file: "):
            file = line
        elif line.startswith(("old:", "new:")):
            if file.endswith(".antt") or re.search(r"ensures|requires|⌜", line):
                for a, b in OLD:
                    line = re.sub(a, b, line)
                head, body = line[:4], line[4:]
                lines[i] = head + TOKEN.sub(lambda m: turned(m.group(0), own, True), body)
    return "\n".join(lines)


def turned(t, own, local=False):
    """A name outside the sources, also one that port.py has spelled already in them."""
    if not t[:1].isalpha():  # a sign
        return t
    return spelled(t, own) if t in own else snake(t) if ("-" in t or CAMEL.match(t)) and (snake(t) in own or local and CAMEL.match(t)) else t


def turn_page(text, own):
    """Names between back quotes."""
    def one(m):
        return turned(m.group(0), own)

    def quoted(m):
        return "`" + TOKEN.sub(one, m.group(1)) + "`"
    return re.sub(r"`([^`\n]+)`", quoted, text)


def main():
    look = "--look" in sys.argv
    own = set()
    texts = {p: read(p) for p in files("crates", ".antt", ".rt", ".edit")}
    for p, t in texts.items():
        if p.endswith("/Proof.antt"):  # what stands there but the proof itself is named by Rattle
            own |= {n for n in declared(t) if n.endswith("-spec")}
        elif p.endswith(".antt"):
            own |= declared(t)
    if look:
        into = {}
        for n in sorted(own):
            into.setdefault(spelled(n, own), set()).add(n)
        for new, old in sorted(into.items()):
            if len(old) > 1:
                print("fall together:", new, sorted(old))
        for p, t in sorted(texts.items()):
            if p.endswith(".edit"):
                continue
            kept = imported(t)
            seen = {}
            body = "\n".join(l for l in t.split("\n") if not l.lstrip().startswith(("--", "//")))
            for tok in set(TOKEN.findall(re.sub(r'"[^"\n]*"', "", body))):
                new = tok if tok in kept else spelled(tok, own)
                seen.setdefault(new, set()).add(tok)
            for new, old in sorted(seen.items()):
                if len(old) > 1:
                    print("in one file:", p, new, sorted(old))
        return
    for p, t in texts.items():
        kept = imported(t)
        new = turn_antt(t, own, kept) if p.endswith(".antt") else turn_rt(t, own, kept) if p.endswith(".rt") else turn_edit(t, own)
        if new != t:
            with open(p, "w", encoding="utf-8") as f:
                f.write(new)
    for p in files(".", ".md"):
        t = read(p)
        new = turn_page(t, own)
        if new != t:
            with open(p, "w", encoding="utf-8") as f:
                f.write(new)


if __name__ == "__main__":
    main()
