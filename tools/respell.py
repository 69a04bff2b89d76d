#!/usr/bin/env python3
"""Brings this repository's own names of specs/ and proofs/ to one spelling: words in snake case, types as they are.

usage: python3 tools/respell.py [ROOT]     after port.py, once

A name is this repository's if a file of specs/ or proofs/ of a crate declares it: a definition, lemma, constructor, field or local fact.
A camel hump becomes an underscore, a dash between words becomes an underscore, and a prime an apostrophe. Names of Rust (functions, types,
fields, exported C names), of the library, and those that Rattle makes for a function's goals keep their spelling. Where two names of one file
would fall together, the one that changes gets `_lem` after it. It prints those.
"""

import os
import re
import sys

ROOT = os.path.abspath(sys.argv[1] if len(sys.argv) > 1 else ".")
CRATES = os.path.join(ROOT, "crates")
# what ends a name in antt
TOKEN = re.compile(r"[^\s(){}.;,\"@]+")
DECLARED = re.compile(r"^\s*(?:(?:abbrev|unfoldable|pub|private)\s+)*([^\s(){}.;,\"]+)(?:\s*\{[^}]*\})?\s*(?:\([^)]*\)\s*)*(?:\{[^}]*\}\s*)*:(?!=)(?:\s|$)")
HEAD = re.compile(r"^\s*(?:pub\s+)?(data|record|ruleset)\s+(?:pub\s+)?(\S+)")
INLINE = re.compile(r"[({]([^(){}:]+?)\s:\s")


def files(kinds):
    for folder, dirs, names in os.walk(CRATES):
        dirs[:] = sorted(d for d in dirs if d != "out")
        for name in sorted(names):
            path = os.path.join(folder, name)
            if name.endswith(kinds):
                yield path


def read(path):
    with open(path, encoding="utf-8") as f:
        return f.read()


def is_walk(path):
    name = os.path.basename(path)
    return name == "Proof.antt" or (name in ("Answers.antt", "Invariants.antt") and os.path.basename(os.path.dirname(path)) not in ("proofs", "specs"))


def snake(name):
    out = re.sub(r"(?<=[a-z0-9₀-₉])([A-Z])", lambda m: "_" + m[1].lower(), name)
    out = re.sub(r"(?<=[^\W_])-(?=[^\W_])", "_", out)
    return out.replace("′", "'")


def declared():
    found = set()
    for path in files(".antt"):
        # a function's own proof file declares names that Rattle asks for, and those stay
        if is_walk(path):
            continue
        for line in read(path).splitlines():
            if line.lstrip().startswith("--") or line.lstrip().startswith(("use ", "pub use ")):
                continue
            m = DECLARED.match(line)
            if m:
                found.add(m[1])
            m = HEAD.match(line)
            if m:
                found.add(m[2])
            for group in INLINE.findall(line):
                found.update(group.split())
    return found


def library():
    """The names that a file brings in from the library: they keep their spelling, and so does a name of ours that is the same."""
    found = set()
    crates = set(os.listdir(CRATES))
    for path in list(files(".antt")) + list(files(".rt")):
        for m in re.finditer(r"(?m)^\s*(?:pub |ghost )*use ([^\s{};]+?)\.?(?:\{([^}]*)\})?;?$", read(path)):
            parts = m[1].split(".")
            if parts[0] == "Rattle" and parts[1] in crates:
                continue
            found.update(w.strip().split(" as ")[0] for w in (m[2] or "").split(","))
    return found


def table():
    out = {}
    keep = library()
    for name in declared() - keep:
        if not re.match(r"[^\W\d_]", name) or (name[0].isupper() and "-" not in name and "′" not in name):
            continue
        new = snake(name)
        if new != name:
            out[name] = new
    return out


def tokens(path):
    text = read(path)
    found = set()
    for line in text.splitlines():
        body = line.split("--")[0] if path.endswith(".antt") else line.split("//")[0]
        found.update(TOKEN.findall(body))
    return found


def settle(names, ours):
    """Where two names of one file would fall together, a lemma's gives way to a definition's. A name of Rust may be a definition's too."""
    clash = {}
    for path in list(files(".antt")) + list(files(".rt")):
        to = {}
        for t in tokens(path):
            if t in names or (t in ours and path.endswith(".antt")):
                to.setdefault(names.get(t, t), set()).add(t)
        for new, olds in to.items():
            if len(olds) > 1:
                clash.setdefault(new, {})[os.path.relpath(path, ROOT)] = sorted(olds)
    for new, where in sorted(clash.items()):
        olds = sorted({o for it in where.values() for o in it})
        humps = [o for o in olds if "-" not in o and names.get(o) == new]
        movable = [o for o in olds if "-" in o] or [o for o in olds if o not in humps]
        for old in movable:
            names[old] = new + "_lem"
        print(f"{new}: {', '.join(olds)} in {len(where)} files, as {next(iter(where))}; {', '.join(movable)} -> {new}_lem")
    return bool(clash)


def turn(path, names):
    text = read(path)

    def one(m):
        word = m[0]
        # a name that Rattle makes stands behind a point in a function's own proof file
        return names.get(word, word)

    # what stands in quotes stays
    parts = re.split(r'("(?:[^"\\\n]|\\.)*")', text)
    new = "".join(p if i % 2 else TOKEN.sub(one, p) for i, p in enumerate(parts))
    if new != text:
        with open(path, "w", encoding="utf-8") as f:
            f.write(new)
        return 1
    return 0


def main():
    names, ours = table(), declared()
    for _ in range(5):
        if not settle(names, ours):
            break
    changed = sum(turn(p, names) for p in list(files(".antt")) + list(files(".rt")))
    print(f"respell: {len(names)} names in {changed} files")


main()
