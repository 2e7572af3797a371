#!/usr/bin/env python3
"""Brings the repository's own definitions and lemmas to the spelling of today's Rattle: words in snake case.

usage: python3 tools/respell.py before     on the older text, before the kit's port/port.py (in the folder of the page that `rt doc` names)
       python3 tools/respell.py after      on what port.py made

`before` sets apart the names that fall together in snake case: of a definition `entryAt` and a lemma `entry-at` the lemma becomes `entry-at-lem`.
`after` spells each name that a file of specs/ or proofs/ defines in snake case: `entryAt` is `entry_at`, `note-fits` is `note_fits`. Names that begin
with a capital stay (types, modules, and lemmas named for a fact, as `Each-here`), and so do the names inside a function's own proof (Proof.antt), what a
file brings in from elsewhere than this repository, strings, and all names of src/. The pages' names in back quotes follow.
"""

import collections
import os
import re
import sys

TOP = os.path.dirname(os.path.dirname(os.path.abspath(__file__)))
WORD = re.compile(r"[^\s(){}\[\].,;:=\"`]+")
HEAD = re.compile(r"^\s*(?:(?:pub|abbrev|unfoldable|private|ruleset)\s+)*([^\s(){}.,;:=]+(?:\s+[^\s(){}.,;:=]+)*)\s+:(?:\s|$)")
TYPE = re.compile(r"^\s*(?:pub\s+)?(?:abbrev\s+)?(?:pub\s+)?(?:data|record|module)\s+([^\s(){}.,;:=]+)")
IMPORT = re.compile(r"use\s+([^\s;{]+?)\.?\{([^}]*)\}")


def snake(name):
    if name[:1].isupper():
        return name
    return re.sub(r"(?<=[a-z0-9])([A-Z])", lambda m: "_" + m.group(1).lower(), name).replace("-", "_") if any(c.isalpha() for c in name) else name


def files():
    for folder, dirs, names in os.walk(os.path.join(TOP, "crates")):
        dirs[:] = sorted(d for d in dirs if d not in ("out", "must-fail"))
        for name in sorted(names):
            if name.endswith((".antt", ".rt")):
                yield os.path.join(folder, name)


def read(path):
    with open(path, encoding="utf-8") as f:
        return f.read()


def defined():
    """Each name that a file of specs/ or proofs/ defines, with the files that define it."""
    found = collections.defaultdict(set)
    for path in files():
        if path.endswith(".antt"):
            for line in read(path).split("\n"):
                if line.lstrip().startswith("--"):
                    continue
                m = HEAD.match(line)
                for name in m.group(1).split() if m else ():
                    found[name].add(path)
                m = TYPE.match(line)
                if m:
                    found[m.group(1)].add(path)
    return found


def own_proof(path):
    return os.path.basename(path) == "Proof.antt"


def foreign(text):
    """The names that a file brings in from elsewhere than this repository."""
    names = set()
    for module, items in IMPORT.findall(text):
        if not module.startswith(("Rattle", "proofs", "specs")) or module.startswith("Rattle.std"):
            for item in items.split(","):
                names.update(item.split())
    return names - {"as"}


def functions():
    """The functions of src/, spelled as an older proof names a call of one."""
    found = set()
    for path in files():
        if path.endswith(".rt"):
            found.update(n.replace("_", "-") for n in re.findall(r"\bfn\s+(\w+)", read(path)))
    return found


def turn(path, names, calls):
    text = read(path)
    kept = foreign(text)

    def word(m):
        w = m.group(0)
        # a step of the walk through a function, as `c.is-note.ensures`, and no name of ours
        if own_proof(path) and w in calls and re.search(r"(?:\s|[\w'-])\.$", m.string[: m.start()]):
            return w
        lead = len(w) - len(w.lstrip("«λ¬"))
        tail = len(w.rstrip("»"))
        core = w[lead:tail]
        return w[:lead] + names[core] + w[tail:] if core in names and core not in kept else w

    if path.endswith(".rt"):
        parts = re.split(r'(b?"(?:[^"\\]|\\.)*")', text)
        new = "".join(p if i % 2 else WORD.sub(word, p) for i, p in enumerate(parts))
    else:
        new = WORD.sub(word, text)
    if new != text:
        with open(path, "w", encoding="utf-8") as f:
            f.write(new)
        return 1
    return 0


def pages(spelled):
    """The names in back quotes of the pages."""
    changed = 0
    for path in [os.path.join(TOP, n) for n in ("README.md", "CONTRIBUTING.md")] + [os.path.join(TOP, "docs", n) for n in os.listdir(os.path.join(TOP, "docs"))]:
        if path.endswith(".md") and os.path.exists(path):
            text = read(path)
            new = re.sub(r"`([^`\n]+)`", lambda m: "`" + WORD.sub(lambda w: snake(w.group(0)) if snake(w.group(0)) in spelled else w.group(0), m.group(1)) + "`", text)
            if new != text:
                with open(path, "w", encoding="utf-8") as f:
                    f.write(new)
                changed += 1
    return changed


def before():
    found = {n: p for n, p in defined().items() if any(not own_proof(q) for q in p)}
    by = collections.defaultdict(set)
    for name in found:
        by[snake(name)].add(name)
    apart = {}
    for name, group in sorted(by.items()):
        camel = [n for n in group if "-" not in n]
        for n in sorted(group):
            if "-" in n and camel:
                apart[n] = n + "-lem"
    for n in sorted(apart):
        print("set apart:", n, "->", apart[n])
    calls = functions()
    changed = sum(turn(path, apart, calls) for path in files() if path.endswith(".antt"))
    print(changed, "files")


def after():
    found = defined()
    names = {n: snake(n) for n in found if snake(n) != n and any(not own_proof(p) for p in found[n])}
    taken = collections.defaultdict(set)
    for n in found:
        if any(not own_proof(p) for p in found[n]):
            taken[snake(n)].add(n)
    for new, group in sorted(taken.items()):
        if len(group) > 1:
            print("falls together:", new, "<-", ", ".join(sorted(group)))
    for path in files():
        words = set(WORD.findall(read(path)))
        for n, t in names.items():
            if n in words and t in words and t not in found:
                print("already a word:", t, "in", os.path.relpath(path, TOP))
    calls = functions()
    changed = sum(turn(path, names, calls) for path in files()) + pages({snake(n) for n in found})
    print(len(names), "names,", changed, "files")


if __name__ == "__main__":
    if sys.argv[1:] == ["before"]:
        before()
    elif sys.argv[1:] == ["after"]:
        after()
    else:
        sys.exit(__doc__)
