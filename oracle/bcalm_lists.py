#!/usr/bin/env python3
"""Makes what oracle/bcalm has judged.

usage: python3 oracle/bcalm_lists.py edges GIVEN K
       python3 oracle/bcalm_lists.py lists GIVEN K UNITIGS FOLDER

`edges` prints the sequences of the FASTA file GIVEN, and behind them every text of K + 1 bases that stands in none of them although both
its k-mers do. `lists` writes BCALM's unitigs into FOLDER as a list, and the list with one thing changed, and prints for each its file, the
sequences (`given`, or `whole` with those texts) and the K to judge it with, what it is, and the verdict that it should get at cutoff 1, which
follows from what was changed.
"""
import random
import sys

PAIR = str.maketrans("ACGT", "TGCA")
TRIES = 10


def turned(text):
    return text.translate(PAIR)[::-1]


def canonical(text):
    return min(text, turned(text))


# Headers and sequences.
def records(name):
    with open(name) as file:
        parts = file.read().split(">")[1:]
    return [(head, "".join(lines)) for head, *lines in (part.split("\n") for part in parts)]


# The parts of n bases on both strands.
def windows(texts, n):
    one = {text[i:i + n] for text in texts for i in range(len(text) - n + 1)}
    return one | {turned(text) for text in one}


# Joins that the texts do not show.
def unseen(texts, k):
    kmers, edges = windows(texts, k), windows(texts, k + 1)
    joins = (kmer + base for kmer in sorted(kmers) for base in "ACGT")
    return [edge for edge in joins if edge not in edges and edge[1:] in kmers and edge == canonical(edge)]


# Rule 1: the first label out of order.
def disordered(labels):
    wrong = (i for i, label in enumerate(labels) if label != canonical(label) or i and labels[i - 1] >= label)
    return next(("no 1 %d" % i for i in wrong), "yes")


# Rule 2 of a list that breaks it: the first label with a k-mer that stands a second time or is not stored, else one is missing.
def not_once(labels, kmers, k):
    seen = set()
    for i, label in enumerate(labels):
        for kmer in (canonical(label[j:j + k]) for j in range(len(label) - k + 1)):
            if kmer in seen or kmer not in kmers:
                return "no 2 %d" % i
            seen.add(kmer)
    return "no 2 %d" % len(labels)


# Rules 3 and 4 of a list that keeps the first two, where the texts alone show the edges.
def by_edges(labels, texts, k):
    edges = windows(texts, k + 1)
    places = {canonical(label[j:j + k]): (i, j) for i, label in enumerate(labels) for j in range(len(label) - k + 1)}
    last = [len(label) - k for label in labels]

    def leaves(edge):
        return [base for base in "ACGT" if edge[:k] + base in edges] == [edge[k]]

    joins = {edge for edge in edges if leaves(edge) and leaves(turned(edge))}
    bad = [i for i, label in enumerate(labels) if any(label[j:j + k + 1] not in joins for j in range(len(label) - k))]
    if bad:
        return "no 3 %d" % bad[0]
    lower = []
    for edge in joins:
        one, two = canonical(edge[:k]), canonical(edge[1:])
        (i, j), (there, place) = places[one], places[two]
        if one != two and len(set(one)) > 1 and len(set(two)) > 1:
            if i != there or abs(j - place) != 1 and {j, place} != {0, last[i]}:
                lower.append(min(i, there))
    return "no 4 %d" % min(lower) if lower else "yes"


def changed_lists(labels, kmers, k, dice):
    def others(*without):
        return [label for label in labels if label not in without]

    some = [dice.sample(labels, min(TRIES, len(labels))) for _ in range(4)]
    for _ in range(TRIES):
        label = dice.choice(labels)
        i = dice.randrange(len(label))
        other = label[:i] + dice.choice("ACGT".replace(label[i], "")) + label[i + 1:]
        new = sorted(set(others(label) + [canonical(other)]))
        yield "a base changed", new, not_once(new, kmers, k)
    longer = [label for label in labels if len(label) > k]
    for label in (dice.choice(longer) for _ in range(TRIES if longer else 0)):
        i = dice.randrange(len(label) - k)
        two = [canonical(label[:i + k]), canonical(label[i + 1:])]
        if all(len(set(label[i + j:i + j + k])) > 1 for j in (0, 1)):
            new = sorted(others(label) + two)
            yield "a unitig split", new, "no 4 %d" % min(map(new.index, two))
    strands = sorted({text for label in labels for text in (label, turned(label))})
    dice.shuffle(strands)
    starts = {text[:k - 1]: text for text in strands}
    pairs = [(one, starts[one[1 - k:]]) for one in strands if one[1 - k:] in starts]
    pairs = [(one, two) for one, two in pairs if canonical(one) != canonical(two)]
    for one, two in pairs[:TRIES]:
        whole = canonical(one + two[k - 1:])
        new = sorted(others(canonical(one), canonical(two)) + [whole])
        yield "two unitigs joined", new, "no 3 %d" % new.index(whole)
    for label in some[0]:
        yield "a unitig left out", others(label), "no 2 %d" % (len(labels) - 1)
    for i in map(labels.index, some[1]):
        yield "a unitig doubled", labels[:i] + labels[i:i + 1] + labels[i:], "no 1 %d" % (i + 1)
    for label in some[2]:
        kmer = canonical(label[-k:])
        if kmer != label:
            new = sorted(labels + [kmer])
            yield "a k-mer twice", new, "no 2 %d" % max(new.index(kmer), new.index(label))
    for i in map(labels.index, some[3]):
        if labels[i] != turned(labels[i]):
            yield "a unitig on the other strand", labels[:i] + [turned(labels[i])] + labels[i + 1:], "no 1 %d" % i
    for kmer in (canonical("".join(dice.choices("ACGT", k=k))) for _ in range(TRIES)):
        if kmer not in kmers:
            new = sorted(labels + [kmer])
            yield "a k-mer that is not stored", new, "no 2 %d" % new.index(kmer)


def write_lists(texts, k, unitigs, folder):
    heads = {canonical(text): head for head, text in unitigs}
    labels, written = sorted(heads), [text for _, text in unitigs]
    lists = [("in order", labels, "yes", "whole", k), ("as BCALM wrote them", written, disordered(written), "whole", k)]
    lists += [change + ("whole", k) for change in changed_lists(labels, windows(texts, k), k, random.Random(k))]
    lists += [("in order, at K - 1", labels, "R 16", "whole", k - 1)]
    lists += [("in order, over the sequences alone", labels, by_edges(labels, texts, k), "given", k)]
    for number, (name, new, wanted, over, at) in enumerate(lists):
        with open("%s/%d" % (folder, number), "w") as out:
            out.writelines(">%s\n%s\n" % (heads.get(canonical(label), ""), label) for label in new)
        print(number, over, at, name, wanted, sep="\t")


if __name__ == "__main__":
    sequences, length = [text for _, text in records(sys.argv[2])], int(sys.argv[3])
    if sys.argv[1] == "edges":
        print("".join(">\n%s\n" % text for text in sequences + unseen(sequences, length)), end="")
    else:
        write_lists(sequences, length, records(sys.argv[4]), sys.argv[5])
