/* judge_list FASTA K CUTOFF LIST: grows a table of counts from the sequences of FASTA, in the mode for reads from both strands, and judges
 * the file LIST over it. Prints `yes`, `no` with the rule and the label, or `R` with the refusal, of adding too. A sequence is added in parts
 * of up to 4,096 bases, each of which begins with the last K bases of the one before, so that every step is counted once. */
#include "lashgranary.h"
#include <stdio.h>
#include <stdlib.h>

#define VERTICES 65536
#define PART 4096

static uint64_t keys[2 * VERTICES];
static uint32_t counts[VERTICES];
static uint8_t marks[VERTICES];

static void *checked(void *got, const char *what) {
    if (got == NULL) {
        perror(what);
        exit(2);
    }
    return got;
}

/* The bytes of a file; there is a byte more than its length. */
static uint8_t *whole(const char *name, size_t *length) {
    FILE *file = checked(fopen(name, "rb"), name);
    size_t room = 1 << 16;
    uint8_t *bytes = checked(malloc(room), "malloc");
    *length = 0;
    for (size_t got; (got = fread(bytes + *length, 1, room - *length, file)) > 0;) {
        *length += got;
        if (*length == room) bytes = checked(realloc(bytes, room *= 2), "realloc");
    }
    fclose(file);
    return bytes;
}

/* Takes headers and line ends out, and lists the parts of each sequence. */
static size_t parts(uint8_t *text, size_t length, size_t k, uint32_t *starts, uint32_t *lengths) {
    size_t count = 0, end = 0;
    for (size_t at = 0; at < length;) {
        if (text[at] == '>') {
            while (at < length && text[at] != '\n') at++;
        }
        size_t begin = end;
        for (; at < length && text[at] != '>'; at++) {
            if (text[at] != '\n' && text[at] != '\r') text[end++] = text[at];
        }
        for (size_t from = begin; from < end; from += PART - k) {
            starts[count] = (uint32_t)from;
            lengths[count++] = (uint32_t)(end - from < PART ? end - from : PART);
            if (end - from <= PART) break;
        }
    }
    return count;
}

int main(int words, char **word) {
    if (words != 5) {
        fprintf(stderr, "usage: judge_list FASTA K CUTOFF LIST\n");
        return 2;
    }
    size_t k = strtoul(word[2], NULL, 10), length, list_length;
    uint8_t *text = whole(word[1], &length), *list = whole(word[4], &list_length);
    uint32_t *starts = checked(calloc(length + 1, sizeof *starts), "calloc");
    uint32_t *lengths = checked(calloc(length + 1, sizeof *lengths), "calloc");
    size_t count = parts(text, length, k < PART ? k : 0, starts, lengths);
    uint64_t totals[2], figures[2];
    uint32_t cutoff = (uint32_t)strtoul(word[3], NULL, 10);
    uint32_t refusal = lash_add_labels(0, 1, k, 0, keys, 2 * VERTICES, counts, VERTICES, text, length, starts, count, lengths, count, count,
                                       totals, 2, figures, 2);
    if (refusal == 0) {
        refusal = lash_judge(0, k, cutoff, totals[1], keys, 2 * VERTICES, counts, VERTICES, list, list_length, marks, VERTICES, figures, 2);
    }
    if (refusal != 0) printf("R %u\n", (unsigned)refusal);
    else if (figures[0] == 0) printf("yes\n");
    else printf("no %llu %llu\n", (unsigned long long)figures[0], (unsigned long long)figures[1]);
    return 0;
}
