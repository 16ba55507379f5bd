#!/usr/bin/env python3
"""Writes crates/kmer_test/stdout: what the k-mer calls answer, computed with whole numbers and strings alone.

usage: python3 oracle/kmer_test.py
"""
import os

CODE = {c: i for i, c in enumerate("ACGT")} | {c: i for i, c in enumerate("acgt")} | {"U": 3, "u": 3}
PAIR = {"A": "T", "C": "G", "G": "C", "T": "A"}
out = []


def words(x):
    return " %016x:%016x" % (x >> 64, x & (1 << 64) - 1)


def refused(*numbers):
    return " R" + "".join(" %d" % n for n in numbers)


# The refusals 1 and 14 of a k-mer, or none.
def bad(k, x):
    if not 1 <= k <= 63:
        return refused(1, k)
    if x >= 4 ** k:
        return refused(14)
    return ""


def spelt(k, x):
    return "".join("ACGT"[x >> 2 * (k - 1 - i) & 3] for i in range(k))


def number(s):
    x = 0
    for c in s:
        x = 4 * x + CODE[c]
    return x


def turned(k, x):
    return number("".join(PAIR[c] for c in reversed(spelt(k, x))))


def kmer(k, x, value):
    r = bad(k, x)
    return r + words(0) if r else words(value())


def letters(k, x, room):
    r = bad(k, x)
    if r:
        return r + " " + "." * room
    if room < k:
        return refused(9) + " " + "." * room
    return " %d %s" % (k, spelt(k, x) + "." * (room - k))


def test(k, xs, value):
    for x in xs:
        r = bad(k, x)
        if r:
            return r
    return " yes" if value() else " no"


def base(k, x, i):
    r = bad(k, x)
    if r:
        return r
    return " " + spelt(k, x)[i] if i < k else refused(10)


def roll(k, x, letter, value):
    r = bad(k, x)
    if not r and letter not in "ACGT":
        r = refused(10)
    return r + words(0) if r else words(number(value(spelt(k, x), letter)))


def lines(k, x):
    out.append(words(x) + "\n")
    out.append("  letters" + letters(k, x, 66) + letters(k, x, 32) + "\n")
    out.append("  turned" + kmer(k, x, lambda: turned(k, x)) + kmer(k, x, lambda: min(x, turned(k, x))))
    out.append(test(k, [x], lambda: x <= turned(k, x)) + "\n")
    out.append("  forward" + "".join(roll(k, x, c, lambda s, c: s[1:] + c) for c in "ACGTN") + "\n")
    out.append("  backward" + "".join(roll(k, x, c, lambda s, c: c + s[:-1]) for c in "ACGTE") + "\n")
    out.append("  places" + "".join(base(k, x, i) for i in (0, k // 2, max(k - 1, 0), k)) + "\n")


def from_text(k, s):
    r = ""
    if not 1 <= k <= 63:
        r = refused(1, k)
    elif len(s) < k:
        r = refused(2, len(s))
    else:
        for i, c in enumerate(s[:k]):
            if c not in CODE:
                r = refused(3, i, ord(c))
                break
    x = 0 if r else number(s[:k])
    out.append("text %d" % k + r + words(x))
    lines(k, x)


def from_words(k, low, high):
    x = low + (high << 64)
    out.append("words %d" % k + kmer(k, x, lambda: x))
    lines(k, x)


def compare(k, low, high):
    x, border = low + (high << 64), (1 << 64) - 1
    out.append("less %d" % k)
    for a, b in ((x, border), (border, x), (x, x), (0, x)):
        out.append(test(k, [a, b], lambda: a < b))
    out.append("\n")


TOP = (1 << 64) - 1
for k in (0, 64):
    from_text(k, "ACGN")
    from_words(k, 0, 1 << 62)
    compare(k, 0, 1)
for k in (1, 2, 31, 32, 33, 62, 63):
    for s in ("A" * 64, "T" * 64, "AT" * 32, "ACGT" * 16,
              "gattacaUCGGCTAAGTCCATTGACGTTACCGGATATCGCAATGCTTGGACCTTAAGCGCTATGACC",
              "ACGT" * 7 + "ACGN" + "ACGT" * 7 + "ACNT", "TGCA" * 7 + "TG"):
        from_text(k, s)
    for low, high in ((3, 0), (4, 0), ((1 << 62) - 1, 0), (1 << 62, 0), (1 << 63, 0), (TOP, 0), (0, 1), (0, 3), (0, 4),
                      (TOP, (1 << 62) - 1), (0, 1 << 62)):
        from_words(k, low, high)
    compare(k, 0, 1)
    compare(k, 1 << 63, 0)
    compare(k, TOP - 1, 3)

here = os.path.dirname(os.path.abspath(__file__))
with open(os.path.join(here, "..", "crates", "kmer_test", "stdout"), "w") as f:
    f.write("".join(out))
