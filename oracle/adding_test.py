#!/usr/bin/env python3
"""adding_test.py: writes crates/adding_test/stdout, what adding answers to each kind of table and in each mode by the rules of document 01 and of Q-1
and Q-3, in Python's own numbers and sets.

A vertex is a number in a dict from k-mers to lists of eight counts; a table is put into words only to be shown. A presence bit says that an edge was
counted at all."""
import os

FREE_KEY, FREE_COUNT = 0xEEEEEEEEEEEEEEEE, 0xDDDDDDDD
CODE = {letter: code for code, letters in enumerate(("Aa", "Cc", "Gg", "TtUu")) for letter in letters.encode()}
# The bits of a word that keeps presence bits: Front A, C, G, T and then Back.
BITS = [1 << place for place in range(3, 11)]
lines = []


def value(codes):
    n = 0
    for code in codes:
        n = 4 * n + code
    return n


def both_strands(codes):
    return value(codes), value([3 - code for code in reversed(codes)])


def letters_of(x, k):
    return [x // 4 ** (k - 1 - i) % 4 for i in range(k)]


def is_canonical(x, k):
    here, there = both_strands(letters_of(x, k))
    return here <= there


def skips(mode, before, window):
    """The window's predecessor is left uncounted. A window is its number and its reverse complement's."""
    here, there = window
    if mode == "reversed":
        return before == (there, here) and there != here
    return min(before) == min(window)


class Lent:
    """Two lent slices, what the words of the second keep, and the number stored."""

    def __init__(self, kind, words, cells, n=0):
        self.kind, self.words, self.cells, self.n = kind, list(words), list(cells), n

    def counts_of(self, cell):
        if self.kind == "presence":
            return [1 if cell & bit else 0 for bit in BITS]
        return [cell >> 4 * j & 15 for j in range(8)]

    def cell_of(self, counts):
        if self.kind == "presence":
            return sum(bit for bit, count in zip(BITS, counts) if count > 0)
        return sum(count << 4 * j for j, count in enumerate(counts))

    def keys(self):
        return [self.words[2 * i] + (self.words[2 * i + 1] << 64) for i in range(self.n)]

    def capacity(self):
        return min(len(self.words) // 2, len(self.cells), 65536)

    def is_fit(self, k):
        if self.n > self.capacity():
            return False
        keys = self.keys()
        if self.kind == "presence" and any(cell - (cell & sum(BITS)) for cell in self.cells[: self.n]):
            return False
        return all(x < 4**k and is_canonical(x, k) for x in keys) and all(x < y for x, y in zip(keys, keys[1:]))

    def add(self, mode, k, label):
        text = label.decode() if len(label) < 100 else str(len(label))
        lines.append(f"K {k} {text}: {self.answer(mode, k, label)}")

    def answer(self, mode, k, label):
        if not 1 <= k <= 63:
            return f"R1 {k}"
        if not self.is_fit(k):
            return "R5"
        if len(label) > 4096:
            return f"R4 {len(label)}"
        if len(label) < k:
            return f"edges 0 stored {self.n}"
        for place, byte in enumerate(label):
            if byte not in CODE:
                return f"R3 {place} {byte}"
        codes = [CODE[byte] for byte in label]
        windows = [both_strands(codes[i : i + k]) for i in range(len(codes) - k + 1)]
        graph = {x: self.counts_of(self.cells[i]) for i, x in enumerate(self.keys())}
        if len(set(graph) | {min(w) for w in windows}) > self.capacity():
            return "R6"
        for i, (here, there) in enumerate(windows):
            counters = graph.setdefault(min(here, there), [0] * 8)
            before = codes[i - 1] if i > 0 and not skips(mode, windows[i - 1], (here, there)) else None
            after = codes[i + k] if i + k < len(codes) else None
            if here > there:
                before, after = (None if b is None else 3 - b for b in (after, before))
            for side, base in ((0, before), (4, after)):
                if base is not None:
                    counters[side + base] = min(15, counters[side + base] + 1)
        for i, x in enumerate(sorted(graph)):
            self.words[2 * i], self.words[2 * i + 1] = x % 2**64, x >> 64
            self.cells[i] = self.cell_of(graph[x])
        self.n = len(graph)
        return f"edges {len(codes) - k} stored {self.n}"

    def show(self):
        lines.append("keys" + "".join(f" {word:016x}" for word in self.words))
        lines.append("counts" + "".join(f" {cell:08x}" for cell in self.cells))


def three(kind, mode, k, *labels):
    table = Lent(kind, [FREE_KEY] * 24, [FREE_COUNT] * 12)
    for label in labels:
        table.add(mode, k, label)
    table.show()


def few(kind, mode, k, *labels):
    table = Lent(kind, [FREE_KEY] * 5, [FREE_COUNT] * 3)
    for label in labels:
        table.add(mode, k, label)
    table.show()


def often(kind, mode, k, label, times):
    table = Lent(kind, [FREE_KEY] * 8, [FREE_COUNT] * 4)
    for _ in range(times):
        table.add(mode, k, label)
    table.show()


def by_words(kind, mode, k, n, keys, cells, label):
    (first, second), (one, two) = keys, cells
    table = Lent(kind, [first, 0, second, 0, FREE_KEY, FREE_KEY], [one, two, FREE_COUNT], n)
    table.add(mode, k, label)
    table.show()


def by_hand(kind, mode, k, n, first, second, label):
    by_words(kind, mode, k, n, (first, second), (8, 0x410) if kind == "presence" else (1, 2), label)


def all_cases(kind, mode):
    three(kind, mode, 3, b"ACCCC", b"", b"")
    three(kind, mode, 3, b"GGGGT", b"", b"")
    often(kind, mode, 3, b"ACGG", 16)
    three(kind, mode, 3, b"ACCN", b"", b"")
    three(kind, mode, 3, b"AN", b"", b"")
    three(kind, mode, 1, b"AT", b"", b"")
    three(kind, mode, 0, b"ACGT", b"", b"N")
    three(kind, mode, 64, b"ACGT", b"", b"N")
    three(kind, mode, 1, b"ACGTTGCA", b"NA", b"acgu")
    three(kind, mode, 2, b"CAT", b"ATG", b"AAAA")
    three(kind, mode, 2, b"ATATAT", b"CGCG", b"GC")
    three(kind, mode, 3, b"ATCATC", b"GATGAT", b"ATATATA")
    three(kind, mode, 3, b"CAAAA", b"TTTTG", b"UuTtacGg")
    three(kind, mode, 3, b"ACGTACGTAAGGCC", b"TTTAGATTACA", b"ACG")
    three(kind, mode, 4, b"ACGTACGT", b"AACCGGTTR", b"CCCCC")
    three(kind, mode, 31, b"ACGTTGCAACGTACCAGTTGACCATGACCATGAC", b"GTCATGGTCATGGTCAACTGGTACGTTGCAACGT", b"TTTTTTTTTTTTTTTTTTTTTTTTTTTTTTTTTT")
    three(kind, mode, 32, b"ACGTTGCAACGTACCAGTTGACCATGACCATGACA", b"ACGTACGTACGTACGTACGTACGTACGTACGTACG", b"GTCATGGTCATGGTCAACTGGTACGTTGCAACGT")
    three(kind, mode, 33, b"ACGTTGCAACGTACCAGTTGACCATGACCATGACAG", b"AAAAAAAAAAAAAAAAAAAAAAAAAAAAAAAAA", b"CTGTCATGGTCATGGTCAACTGGTACGTTGCAACGT")
    three(
        kind, mode, 63,
        b"ACGTTGCAACGTACCAGTTGACCATGACCATGACAGACGTTGCAACGTACCAGTTGACCATGACC",
        b"TTTTTTTTTTTTTTTTTTTTTTTTTTTTTTTTTTTTTTTTTTTTTTTTTTTTTTTTTTTTTTTTTA",
        b"GGTCATGGTCAACTGGTACGTTGCAACGTCTGTCATGGTCATGGTCAACTGGTACGTTGCAACGT",
    )
    few(kind, mode, 2, b"ACC", b"ACCG")
    few(kind, mode, 3, b"AACTT", b"AAC")
    few(kind, mode, 3, b"ACGG", b"TTT")
    by_hand(kind, mode, 3, 0, 5, 3, b"ACG")
    by_hand(kind, mode, 3, 1, 5, 3, b"ACG")
    by_hand(kind, mode, 3, 2, 3, 5, b"AAT")
    by_hand(kind, mode, 3, 2, 3, 5, b"ACC")
    by_hand(kind, mode, 3, 2, 5, 3, b"ACG")
    by_hand(kind, mode, 3, 2, 5, 5, b"ACG")
    by_hand(kind, mode, 3, 1, 63, 0, b"ACG")
    by_hand(kind, mode, 3, 1, 64, 0, b"ACG")
    by_hand(kind, mode, 3, 4, 3, 5, b"ACG")
    by_hand(kind, mode, 0, 2, 5, 3, b"ACG")
    by_hand(kind, mode, 3, 2, 5, 3, b"")
    by_hand(kind, mode, 3, 2, 3, 5, b"N")
    three(kind, mode, 5, b"A" * 4096, b"AAAAA", b"N" * 4097)
    by_hand(kind, mode, 3, 2, 5, 3, b"N" * 4097)


def words_with_bits(mode):
    """Full words, words with a stray bit among the first n, which are unfit, and words with one behind them, which nobody reads."""

    def bits(k, n, one, two, label):
        by_words("presence", mode, k, n, (3, 5), (one, two), label)

    bits(3, 2, 0x7F8, 0x7F8, b"AATT")
    bits(3, 2, 0x7F8, 0x7F8, b"ACCG")
    bits(3, 2, 0x7F8, 0, b"CGGT")
    for stray in (0x1, 0x2, 0x4, 0x800, 0x80000000, 0xFFFFF807):
        bits(3, 2, 0x8 | stray, 0x8, b"ACG")
    bits(3, 2, 0x8, 0x409, b"ACC")
    bits(3, 2, 0x8, 0xC08, b"")
    bits(0, 2, 0x8, 0x409, b"ACG")
    bits(3, 2, 0x8, 0x409, b"ACN")
    bits(3, 2, 0x8, 0x409, b"N" * 4097)
    bits(3, 1, 0x8, 0x409, b"AATT")
    bits(3, 1, 0x8, 0xFFFFFFFF, b"ACGG")
    bits(3, 0, 0x9, 0x800, b"ACC")


MODES = ("same canonical", "reversed")
for each in MODES:
    lines.append(f"mode {each}")
    all_cases("counted", each)
for each in MODES:
    lines.append(f"presence bits, mode {each}")
    all_cases("presence", each)
    words_with_bits(each)


here = os.path.dirname(os.path.abspath(__file__))
with open(os.path.join(here, "..", "crates", "adding_test", "stdout"), "w") as expected:
    expected.write("\n".join(lines) + "\n")
print(f"adding_test: {len(lines)} lines")
