/* colours KMERS: reads the runs of a label with so many k-mers, up to 65,536, from standard input, a line for each run: its
 * offset, its worker and its index. Prints a line for each k-mer, parted by tabs: its number, the worker and the index of
 * its colour. A refusal is `R` and its number, with status 1 (9 for more k-mers); what is no list of runs ends with a
 * message and status 2.
 * ./library lash.o && cc -Iinclude sample/colours.c lash.o -o colours */
#include "lashgranary.h"
#include <inttypes.h>
#include <stdio.h>
#include <stdlib.h>

#define RUNS (1 << 16)
#define KMERS (1 << 16)

static uint64_t runs[RUNS], colors[KMERS];

static int refused(uint32_t number) {
    printf("R %u\n", (unsigned)number);
    return 1;
}

int main(int words, char **word) {
    char *rest = "";
    size_t kmers = words == 2 ? strtoull(word[1], &rest, 10) : 0, count = 0;
    if (words != 2 || rest == word[1] || *rest) {
        fprintf(stderr, "usage: colours KMERS < runs\n");
        return 2;
    }
    uint64_t offset, worker, index, figures[2];
    uint32_t number;
    int read;
    while ((read = scanf("%" SCNu64 " %" SCNu64 " %" SCNu64, &offset, &worker, &index)) == 3 && count < RUNS) {
        uint32_t at = offset < UINT32_MAX ? (uint32_t)offset : UINT32_MAX;
        if ((number = lash_pack_coordinate(worker, index, figures, 1))) return refused(number);
        if ((number = lash_pack_run(at, figures[0], &runs[count++], 1))) return refused(number);
    }
    if (read != EOF) {
        fprintf(stderr, "colours: behind %zu runs there are not three numbers, or too many runs\n", count);
        return 2;
    }
    if ((number = lash_write_colors(runs, count, kmers, colors, KMERS, figures, 1))) return refused(number);
    for (size_t vertex = 0; vertex < kmers; vertex++) {
        if ((number = lash_unpack_coordinate(colors[vertex], figures, 2))) return refused(number);
        printf("%zu\t%" PRIu64 "\t%" PRIu64 "\n", vertex, figures[0], figures[1]);
    }
}
