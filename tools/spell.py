#!/usr/bin/env python3
"""Brings this repository's own definitions, lemmas, fields and constructors to snake case.

usage: tools/spell.py [--list]      at the top of the repository, once, on what port.py has made

A name that specs/ or proofs/*.antt declares and that begins with a small letter is written in snake case: `addLabel` and `run-apart`
become `add_label` and `run_apart`. Types, modules, what Rattle makes (goals and steps in proofs/FUNCTION/), strings and the names of src/ keep
theirs. A lemma that would then have a definition's name gets `_lem`. With --list the names are printed, and nothing is written.
"""
import os
import re
import sys

TOKEN = re.compile(r"[^\s(){}\[\],;.«»\"`:]+")
HEAD = re.compile(r"^\s*(?:abbrev |unfoldable )?(?:pub )?((?:[^\s:(){}=]+ )+):(?: |$)")
NOT = {"let", "where", "in", "open", "module", "use", "record", "data", "cases", "and", "with", "pub"}
# Lemmas whose name would fall together with a definition's.
LEMMAS = {
    "bases-of", "colors-from", "edge-at", "grown-table", "key-at", "least-to", "letter-of", "no-list", "put-key", "sorted-rows",
    "sorted-spots", "stray-bits", "valid-bits", "valid-packed", "with-k", "words-fit",
}
# The same where port.py has turned the lemma already.
TURNED = {"in_order", "on_list", "one_more", "step_in", "two_bytes"}
# A field of one record, which may have the name of a definition elsewhere.
FIELDS = {"keys_in"}
PAGES = ["README.md", "docs/ARCHITECTURE.md", "docs/DECISIONS.md", "docs/DIFFERENCES.md", "docs/PROOFS.md"]


def crates():
    return sorted(c for c in os.listdir("crates") if os.path.isdir(f"crates/{c}/src"))


def files(ends):
    for c in crates():
        for folder, dirs, names in os.walk(f"crates/{c}"):
            dirs[:] = sorted(d for d in dirs if d not in ("out", "data"))
            for n in sorted(names):
                if n.endswith(ends):
                    yield os.path.join(folder, n)


def of_function(p):
    parts = p.split("/")
    return parts[2] == "proofs" and len(parts) > 4


def declared():
    """Each own name with the files that declare it, and each name that own files import from elsewhere with those files."""
    own, foreign = {}, {}
    for p in files((".antt", ".rt")):
        text = open(p).read()
        for m in re.finditer(r"(?m)^\s*(?:ghost )?use ([^\s{]+)\.\{([^}]*)\}", text):
            mine = m[1].startswith("Rattle.") and m[1].split(".")[1] in crates()
            for n in m[2].split(","):
                n = n.strip().split(" as ")[0]
                if n and not mine:
                    foreign.setdefault(n, set()).add(p)
        if p.endswith(".rt") or of_function(p):
            continue
        for line in text.split("\n"):
            m = HEAD.match(line) if not line.lstrip().startswith("--") else None
            if m and not NOT & set(m[1].split()):
                for n in m[1].split():
                    own.setdefault(n, set()).add(p)
    return own, foreign


def snake(name):
    name = name.replace("-", "_")
    return re.sub(r"(?<=[a-z0-9])([A-Z])", lambda m: "_" + m[1].lower(), name)


def table(own):
    turn = {n: snake(n) for n in own if n[0].islower() and "◌" not in n and snake(n) != n}
    for n in LEMMAS | TURNED:
        if n in own:
            turn[n] = snake(n) + "_lem"
    return turn


def together(own, turn):
    back = {}
    for n in own:
        back.setdefault(turn.get(n, n), []).append(n)
    return {v: ns for v, ns in back.items() if len(ns) > 1 and v not in FIELDS}


def turned(text, turn):
    """The text with its names turned; behind a dot a lemma's name is a step's of a function's proof, and stays."""
    def word(m):
        if m[0] in LEMMAS | TURNED and text[m.start() - 1 : m.start()] == ".":
            return m[0]
        return turn.get(m[0], m[0])

    return TOKEN.sub(word, text)


def in_source(text, turn):
    return "".join(w if w.startswith(('"', 'b"')) else turned(w, turn) for w in re.split(r'(b?"(?:[^"\\]|\\.)*")', text))


def in_page(text, turn, own):
    """A page's names stand in backticks; what port.py has turned already is turned there too."""
    named = set(own) | set(turn.values())
    words = {w for m in re.finditer(r"`([^`\n]*)`", text) for w in TOKEN.findall(m[1])}
    more = {w: snake(w) for w in words if w[:1].islower() and w not in named and "/" not in w and snake(w) in named}
    return re.sub(r"`[^`\n]*`", lambda m: turned(m[0], turn | more), text)


def main():
    own, foreign = declared()
    turn = table(own)
    fallen = together(own, turn)
    for v, ns in sorted(fallen.items()):
        print("together:", v, {n: sorted(own[n]) for n in ns})
    print(f"{len(own)} own names, {len(turn)} to turn")
    print("imported from elsewhere, and kept there:", {n: sorted(foreign[n]) for n in sorted(turn) if n in foreign})
    print("turned to a name that is imported from elsewhere:", {v: sorted(foreign[v]) for v in sorted(set(turn.values())) if v in foreign})
    if "--list" in sys.argv:
        print("\n".join(f"{n}\t{turn[n]}" for n in sorted(turn)))
        return 0
    if fallen:
        return 1
    for p in list(files((".antt", ".rt", ".edit"))) + [p for p in PAGES if os.path.exists(p)]:
        with open(p) as f:
            text = f.read()
        here = {n: v for n, v in turn.items() if p not in foreign.get(n, ())}
        new = in_page(text, here, own) if p.endswith(".md") else in_source(text, here) if p.endswith(".rt") else turned(text, here)
        if new != text:
            with open(p, "w") as f:
                f.write(new)
    return 0


if __name__ == "__main__":
    raise SystemExit(main())
