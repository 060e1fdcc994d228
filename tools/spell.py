#!/usr/bin/env python3
"""Brings this repository's own names to Rattle's spelling: words in snake case, a dash only between two names.

usage: python3 tools/spell.py          at the top of the repository, once, right after port.py
       python3 tools/spell.py --list   only prints each name and what it becomes

A name in mixed case becomes snake case (`roundNumber`: `round_number`). In a name with dashes a dash stays where it
joins two names that are defined somewhere; before or after a plain word it becomes `_` (`any-in`: `any_in`). Types,
modules, functions of src/, exported names, strings, inputs and outputs keep their names. Of two names that would fall
together the later kind (function of src/, definition, lemma) gets `_lem`; it stops where that isn't enough. In pages
only what stands in backquotes is turned.
"""
import collections
import os
import re
import sys

WORD = r"[^\s(){}\[\].,;:`\"«»]+"
DEFINED = re.compile(r"(?m)^\s*((?:abbrev |unfoldable |pub |data |record |module )*)(" + WORD + r") :(?=\s)")
FUNCTION = re.compile(r"\b(?:fn|struct|enum|const|let|mut)\s+([a-z_][a-z0-9_]*)")
IMPORTED = re.compile(r"(?m)^(?:ghost )?use [\w.]+\.\{([^}]*)\}")
# what the rules above don't reach: an infix name that port.py takes for std's, names of variables
FURTHER = {
    "◌orElse◌": "◌or_else◌",
    "orElse": "or_else",
    "getD-in": "get_or_in",
    "known-notMet": "known_not_met",
    "so-notMet": "so_not_met",
    "rulesFrom": "rules_from",
}
TOKEN = re.compile(r"[A-Za-z_◌][\w'₀-₉→≡≤<≢⊎◌-]*")


def paths(*ends):
    for top in ("crates", "docs"):
        for folder, dirs, files in os.walk(top):
            dirs[:] = sorted(d for d in dirs if d != "out")
            for f in sorted(files):
                if f.endswith(ends):
                    yield os.path.join(folder, f)


def text_of(path):
    with open(path, encoding="utf-8") as f:
        return f.read()


def snake(name):
    return re.sub(r"(?<=[a-z0-9])([A-Z]+)", lambda m: "_" + m.group(1).lower(), name)


def main():
    own, plain, tokens = {}, set(), set()
    for p in paths(".antt"):
        t = text_of(p)
        if "/Proof" in p:
            continue  # the names of a walk are Rattle's, and the walk's own
        for m in DEFINED.finditer(t):
            own.setdefault(m.group(2), set()).add(m.group(1).strip())
        for m in IMPORTED.finditer(t):
            plain.update(n.strip() for n in m.group(1).split(","))
    for p in paths(".rt"):
        plain.update(FUNCTION.findall(text_of(p)))
    for p in paths(".antt", ".rt"):
        tokens.update(TOKEN.findall(text_of(p)))
    names = {n for n in plain | set(own) if "-" not in n}
    turned = {}
    for n in own:
        if n.startswith("◌"):
            to = "◌".join(snake(x) for x in n.split("◌"))
        elif not n[0].islower():
            if "-" not in n:
                continue
            to = n
        else:
            to = n
        if n[0].islower():
            to = "-".join(snake(x) if x[:1].islower() else x for x in to.split("-"))
        if "-" in to:
            parts = n.split("-")
            fitted = to.split("-")
            out = fitted[0]
            for i in range(1, len(parts)):
                both = parts[i - 1] in names and parts[i] in names
                out += ("-" if both else "_") + fitted[i]
            to = out
        if to != n:
            turned[n] = to
            if n.startswith("◌"):
                turned[n.strip("◌")] = to.strip("◌")
    turned.update(FURTHER)
    # where a definition and a lemma or a function of src/ would have one name, the latter of them ends in _lem
    back = collections.defaultdict(list)
    for n, to in turned.items():
        back[to].append(n)
    for to, ns in list(back.items()):
        for n in sorted(ns, key=lambda n: "-" in n)[0 if to in tokens else 1:]:
            turned[n] = to + "_lem"
    back = collections.defaultdict(list)
    for n, to in turned.items():
        back[to].append(n)
    bad = [(to, ns) for to, ns in back.items() if len(ns) > 1 or to in tokens]
    if "--list" in sys.argv:
        for n in sorted(turned):
            print(n, turned[n])
    if bad:
        for to, ns in bad:
            print("falls together:", to, ns, to in tokens, file=sys.stderr)
        if "--list" in sys.argv:
            return 1
        raise SystemExit("nothing was changed")
    if "--list" in sys.argv:
        return 0

    def word(m):
        return turned.get(m.group(), m.group())

    changed = 0
    for p in paths(".antt", ".rt", ".edit", ".md"):
        t = text_of(p)
        if p.endswith(".md"):
            to = re.sub(r"`[^`\n]+`", lambda m: TOKEN.sub(word, m.group()), t)
        else:
            to = TOKEN.sub(word, t)
        if to != t:
            with open(p, "w", encoding="utf-8") as f:
                f.write(to)
            changed += 1
    # Rattle makes a module specs.contracts of its own, and no file of specs/ may have that name.
    if os.path.exists("crates/records/specs/Contracts.antt"):
        os.rename("crates/records/specs/Contracts.antt", "crates/records/specs/Marking.antt")
        for p in paths(".antt", ".rt", ".edit"):
            t = text_of(p)
            to = t.replace("Rattle.records.specs.Contracts", "Rattle.records.specs.Marking")
            if p == "crates/records/specs/Lib.antt":
                to = to.replace("pub mod Contracts", "pub mod Marking")
            if to != t:
                with open(p, "w", encoding="utf-8") as f:
                    f.write(to)
    print(f"{len(turned)} names, {changed} files")


if __name__ == "__main__":
    raise SystemExit(main())
