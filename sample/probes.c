/* probes K CUTOFF LENGTH LEAST MOST: reads a list as FASTA, as `unitigs` prints it, from standard input, and prints a line
 * for each label, parted by tabs: the label's number and, where it has a probe, the start of the first one, its bases, and
 * how many of them are G or C; else `none`. A refusal is `R` and its number, with status 1; what is no list, as a refusal of
 * `unitigs`, ends with a message and status 2.
 * ./library lash.o && cc -Iinclude sample/probes.c lash.o -o probes */
#include "lashgranary.h"
#include <stdio.h>
#include <stdlib.h>

#define BYTES (1 << 24)
#define LABELS (1 << 16)

static uint8_t text[BYTES];
static uint32_t starts[LABELS], lengths[LABELS], out[LABELS];

/* Where the labels stand in the text: a label is a line that does not begin with `>`. */
static size_t listed(size_t size) {
    size_t count = 0;
    for (size_t at = 0, end; at < size && count < LABELS; at = end + 1) {
        for (end = at; end < size && text[end] != '\n';) end++;
        if (text[at] == '>' || end == at) continue;
        starts[count] = (uint32_t)at;
        lengths[count++] = (uint32_t)(end - at);
    }
    return count;
}

static void print(size_t label, size_t probe) {
    if (out[label] == LASH_NO_PROBE) {
        printf("%zu\tnone\n", label);
        return;
    }
    const uint8_t *bases = text + starts[label] + out[label];
    int gc = 0;
    for (size_t i = 0; i < probe; i++) gc += bases[i] == 'G' || bases[i] == 'C';
    printf("%zu\t%u\t%.*s\t%d\n", label, (unsigned)out[label], (int)probe, (const char *)bases, gc);
}

int main(int words, char **word) {
    if (words != 6) {
        fprintf(stderr, "usage: probes K CUTOFF LENGTH LEAST MOST < list\n");
        return 2;
    }
    size_t number[5];
    for (int i = 0; i < 5; i++) number[i] = strtoull(word[i + 1], NULL, 10);
    size_t size = fread(text, 1, BYTES, stdin), count = listed(size);
    if (size == BYTES || count == LABELS || (size > 0 && text[0] != '>')) {
        fprintf(stderr, "probes: %s\n", size > 0 && text[0] != '>' ? "this is no list" : "the list is too long");
        return 2;
    }
    uint64_t figure;
    uint32_t cutoff = number[1] < UINT32_MAX ? (uint32_t)number[1] : UINT32_MAX;
    uint32_t refused = lash_panel(number[0], cutoff, number[2], number[3], number[4], text, size, starts, LABELS, lengths,
                                  LABELS, count, out, LABELS, &figure, 1);
    if (refused) {
        printf("R %u\n", (unsigned)refused);
        return 1;
    }
    for (size_t i = 0; i < figure; i++) print(i, number[2]);
}
