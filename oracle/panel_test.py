#!/usr/bin/env python3
"""panel_test.py: writes crates/panel_test/stdout, what a panel answers by document 02's rules, counted anew at each start.

The text, its index and the questions are those of crates/panel_test/src/main.rt, from which they are read."""
import os, re

NONE, FREE = 2**32 - 1, 0xEEEEEEEE
LARGEST = {"u32::MAX": 2**32 - 1, "usize::MAX": 2**64 - 1}


def answer(k, cutoff, probe, least, most, count, out):
    """What is said; the starts go into out."""
    if k % 2 == 0 or not 15 <= k <= 31 or not 2 <= cutoff <= 15 or not k <= probe <= 63:
        return "R26"
    if least > most or most > probe:
        return "R27"
    if count > len(STARTS) or any(start + length > len(TEXT) for start, length in zip(STARTS[:count], LENGTHS[:count])):
        return "R12"
    if count > len(out):
        return "R28"
    for i in range(count):
        label = TEXT[STARTS[i] : STARTS[i] + LENGTHS[i]]
        parts = [label[j : j + probe] for j in range(len(label) - probe + 1)]
        good = [j for j, part in enumerate(parts) if least <= part.count(b"G") + part.count(b"C") <= most]
        out[i] = good[0] if good else NONE
    return str(count)


def numbers(name):
    return [int(x) for x in re.search(name + r": \[u32; 8\] = \[(.*?)\]", source)[1].split(",")]


crate = os.path.join(os.path.dirname(os.path.abspath(__file__)), "..", "crates", "panel_test")
source = open(os.path.join(crate, "src", "main.rt")).read()
TEXT = re.search(r'const LABELS.*?b"(.*?)"', source, re.S)[1].replace("\\\n", "").encode()
STARTS, LENGTHS = numbers("STARTS"), numbers("LENGTHS")
lines = []
for words, cells in re.findall(r"\n    ask\(&rt, (.*), &mut \[FREE; (\d)\]\)", source):
    question = [LARGEST[word] if word in LARGEST else int(word) for word in words.split(", ")]
    out = [FREE] * int(cells)
    said = answer(*question, out)
    lines.append(" ".join(map(str, ["panel", *question, len(out)])) + f": {said};" + "".join(f" {x}" for x in out))
open(os.path.join(crate, "stdout"), "w").write("\n".join(lines) + "\n")
