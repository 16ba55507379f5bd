#!/usr/bin/env python3
"""check-proofs.py: every name that docs/PROOFS.md gives with a file stands in that file, every must-fail edit it names is there, every edit that
is there is named, every public function of a library has its line of wrong programs, and the definitions that docs/ARCHITECTURE.md lists have so
many lines as it says.

Reads the tables of docs/PROOFS.md: in a cell, the names in backquotes belong to the next path behind them. Exits 1 where one is missing.
"""
import glob, os, re, sys

root = os.path.dirname(os.path.dirname(os.path.abspath(__file__)))
missing = checked = 0


def complain(text):
    global missing
    missing += 1
    print(text)


def public_functions():
    for path in glob.glob(os.path.join(root, "crates", "*", "src", "*.rt")):
        if not os.path.exists(os.path.join(os.path.dirname(path), "main.rt")):
            yield from re.findall(r"^ *pub (?:extern \"C\" )?fn (\w+)", open(path, encoding="utf-8").read(), re.M)


edits = {os.path.basename(path)[:-5] for path in glob.glob(os.path.join(root, "crates", "*", "must-fail", "*.edit"))}
named, covered = set(), {"read_input", "read_from"}
wrong_programs = False
for line in open(os.path.join(root, "docs", "PROOFS.md"), encoding="utf-8"):
    if line.startswith("## "):
        wrong_programs = "wrong programs" in line
    if wrong_programs:
        for name in re.findall(r"\(`[^)]*`\)", line):
            named.update(re.findall(r"`(\w+)`", name))
        covered.update(re.findall(r"(?:`|::)(\w+)`", line.split("|")[1] if line.startswith("| ") else ""))
        continue
    if not line.startswith("| "):
        continue
    cells = line.strip().strip("|").split("|")
    for cell in cells[1:]:
        names = []
        for name, path in re.findall(r"`([^`]+)`|\b([a-z_]+/[\w/]+\.(?:antt|rt))\b", cell):
            if name:
                names.append(name)
                continue
            full = os.path.join(root, "crates", path)
            text = open(full, encoding="utf-8").read() if os.path.exists(full) else None
            if text is None:
                complain("no file " + path)
                names = []
                continue
            for name in names:
                checked += 1
                last = name.split("::")[-1]
                if not re.search(r"(?<![\w-])" + re.escape(last) + r"(?![\w-])", text):
                    complain(name + " is not in " + path)
            names = []
checked += len(named)
for edit in sorted(named ^ edits):
    complain(("no edit " if edit in named else "not named: the edit ") + edit)
for function in sorted(set(public_functions()) - covered):
    complain("no wrong programs for " + function)


def lines_in(path):
    lines = [line.strip() for line in open(path, encoding="utf-8")]
    return sum(1 for line in lines if line and not line.startswith(("--", "use ")))


for line in open(os.path.join(root, "docs", "ARCHITECTURE.md"), encoding="utf-8"):
    row = re.match(r"\| ([a-z_]+/specs): ([\w, ]+) \| (\d+) \|", line)
    if row:
        checked += 1
        lines = sum(lines_in(os.path.join(root, "crates", row[1], name + ".antt")) for name in row[2].split(", "))
        if lines != int(row[3]):
            complain("%s: %s have %d lines" % (row[1], row[2], lines))
print("%d names checked, %d missing" % (checked, missing))
sys.exit(1 if missing else 0)
