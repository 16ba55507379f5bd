/* Calls the C interface on examples of documents 01 and 02 and prints "check: ok", or what differs.
 * cc -Iinclude bench/check.c OBJECT -o check, where OBJECT has the functions of crate capi. */
#include "lashgranary.h"
#include <stdio.h>
#include <string.h>

#define LEN(a) (sizeof(a) / sizeof((a)[0]))
#define UNTOUCHED 77

static int differences = 0;

static void same(const char *what, uint64_t got, uint64_t wanted) {
    if (got != wanted) {
        printf("check: %s is %llu, not %llu\n", what, (unsigned long long)got, (unsigned long long)wanted);
        differences++;
    }
}

static void same_bytes(const char *what, const void *got, const void *wanted, size_t n) {
    if (memcmp(got, wanted, n) != 0) {
        printf("check: %s differs\n", what);
        differences++;
    }
}

/* A table of presence bits with room for four vertices, and what its contraction is lent. */
static uint64_t bit_keys[8], bit_figures[2];
static uint32_t bits[4], bit_starts[4], bit_lengths[4];
static uint8_t bit_labels[12], bit_marks[4];

static const uint8_t acccc[] = {'A', 'C', 'C', 'C', 'C'};

/* Contracts its first two vertices. */
static uint32_t contract_bits(uint32_t kind, size_t k, uint32_t cutoff, size_t marks_len) {
    memset(bit_labels, UNTOUCHED, sizeof bit_labels);
    memset(bit_starts, UNTOUCHED, sizeof bit_starts);
    memset(bit_lengths, UNTOUCHED, sizeof bit_lengths);
    memset(bit_marks, UNTOUCHED, sizeof bit_marks);
    memset(bit_figures, UNTOUCHED, sizeof bit_figures);
    return lash_contract(kind, k, cutoff, 2, bit_keys, LEN(bit_keys), bits, LEN(bits), bit_labels, LEN(bit_labels), bit_starts,
                         LEN(bit_starts), bit_lengths, LEN(bit_lengths), bit_marks, marks_len, bit_figures, LEN(bit_figures));
}

/* It is refused, and nothing lent is touched; refusal 1 notes its K. */
static void refuses(const char *what, uint32_t kind, size_t k, uint32_t cutoff, size_t marks_len, uint32_t wanted) {
    uint8_t untouched[sizeof bit_starts];
    memset(untouched, UNTOUCHED, sizeof untouched);
    same(what, contract_bits(kind, k, cutoff, marks_len), wanted);
    same_bytes("a refused contraction's labels", bit_labels, untouched, sizeof bit_labels);
    same_bytes("its starts", bit_starts, untouched, sizeof bit_starts);
    same_bytes("its lengths", bit_lengths, untouched, sizeof bit_lengths);
    same_bytes("its marks", bit_marks, untouched, sizeof bit_marks);
    if (wanted != 1) same_bytes("its figures", bit_figures, untouched, sizeof bit_figures);
}

/* The list is ACCC alone. */
static void gives_accc(const char *what, uint32_t kind) {
    same(what, contract_bits(kind, 3, 1, LEN(bit_marks)), 0);
    same("its number of labels", bit_figures[0], 1);
    same("their bases", bit_figures[1], 4);
    same_bytes("its label", bit_labels, "ACCC", 4);
    same("its start", bit_starts[0], 0);
    same("its length", bit_lengths[0], 4);
    same_bytes("its marks", bit_marks, (const uint8_t[]){1, 1, UNTOUCHED, UNTOUCHED}, sizeof bit_marks);
}

/* Adds ACCCC to an empty table whose slices are full of ones. */
static void add_acccc(const char *what, uint32_t kind, uint32_t mode, uint32_t second) {
    memset(bit_keys, 0xff, sizeof bit_keys);
    memset(bits, 0xff, sizeof bits);
    same(what, lash_add_label(kind, mode, 3, 0, bit_keys, LEN(bit_keys), bits, LEN(bits), acccc, LEN(acccc), bit_figures, 2), 0);
    same("its edges", bit_figures[0], 2);
    same("the number stored", bit_figures[1], 2);
    same_bytes("its keys", bit_keys, (const uint64_t[]){5, 0, 21, 0, UINT64_MAX, UINT64_MAX, UINT64_MAX, UINT64_MAX}, sizeof bit_keys);
    same_bytes("its words", bits, (const uint32_t[]){0x100, second, UINT32_MAX, UINT32_MAX}, sizeof bits);
}

/* A stray bit in a word makes the table unfit for every call, which is said before a wrong cutoff. */
static void stray_bit(size_t word, uint32_t bit) {
    const uint32_t start[] = {0}, length[] = {5};
    uint64_t keys_before[8], totals[2] = {UNTOUCHED, UNTOUCHED};
    uint32_t bits_before[4];
    add_acccc("adding ACCCC before a stray bit", 1, 0, 0x108);
    bits[word] |= bit;
    memcpy(keys_before, bit_keys, sizeof bit_keys);
    memcpy(bits_before, bits, sizeof bits);
    refuses("contracting with a stray bit", 1, 3, 1, LEN(bit_marks), 5);
    refuses("contracting with a stray bit at cutoff 2", 1, 3, 2, 1, 5);
    refuses("contracting with a stray bit at K = 64", 1, 64, 2, 1, 1);
    same("adding to a stray bit",
         lash_add_label(1, 0, 3, 2, bit_keys, LEN(bit_keys), bits, LEN(bits), acccc, LEN(acccc), bit_figures, 2), 5);
    same("adding to a stray bit by the other call",
         lash_add_labels(1, 0, 3, 2, bit_keys, LEN(bit_keys), bits, LEN(bits), acccc, LEN(acccc), start, 1, length, 1, 1, totals, 2,
                         bit_figures, 2), 5);
    same("the labels added then", totals[0], 0);
    same("the number stored then", totals[1], 2);
    same_bytes("the keys then", bit_keys, keys_before, sizeof bit_keys);
    same_bytes("the words then", bits, bits_before, sizeof bits);
    same("adding to it as counts",
         lash_add_label(0, 0, 3, 2, bit_keys, LEN(bit_keys), bits, LEN(bits), acccc, LEN(acccc), bit_figures, 2), 0);
}

/* Labels added one by one, and by one call: the same table. */
static void one_call(uint32_t kind, uint32_t mode) {
    const uint8_t text[] = {'A', 'C', 'C', 'C', 'C', 'g', 'g', 'g', 'u', 'A', 'A', 'C', 'C', 'A'};
    const uint32_t starts[] = {0, 5, 9, 2}, lengths[] = {5, 4, 5, 2};
    uint64_t keys[16], all_keys[16], figures[2] = {0, 0}, all_figures[2], totals[2];
    uint32_t words[8], all_words[8];
    memset(keys, 0xff, sizeof keys);
    memset(words, 0xff, sizeof words);
    memset(all_keys, 0xff, sizeof all_keys);
    memset(all_words, 0xff, sizeof all_words);
    for (size_t i = 0; i < LEN(starts); i++) {
        same("adding a label",
             lash_add_label(kind, mode, 3, figures[1], keys, LEN(keys), words, LEN(words), text + starts[i], lengths[i], figures, 2), 0);
    }
    same("adding all",
         lash_add_labels(kind, mode, 3, 0, all_keys, LEN(all_keys), all_words, LEN(all_words), text, LEN(text), starts, LEN(starts),
                         lengths, LEN(lengths), LEN(starts), totals, 2, all_figures, 2), 0);
    same("the labels added", totals[0], LEN(starts));
    same("the number stored after them", totals[1], figures[1]);
    same_bytes("the last label's figures", all_figures, figures, sizeof figures);
    same_bytes("the keys of all", all_keys, keys, sizeof keys);
    same_bytes("the words of all", all_words, words, sizeof words);
}

/* Q-1 of document 02: ACCCC gives ACC 100, CCC 108 and the list of the counts, at cutoff 1 alone. Every number but 0 names the kind. */
static void presence_bits(void) {
    add_acccc("adding ACCCC as presence bits", 1, 0, 0x108);
    add_acccc("adding ACCCC as kind 7", 7, 0, 0x108);
    add_acccc("adding ACCCC as the last kind", UINT32_MAX, 0, 0x108);
    same("adding ACCCC again",
         lash_add_label(1, 0, 3, 2, bit_keys, LEN(bit_keys), bits, LEN(bits), acccc, LEN(acccc), bit_figures, 2), 0);
    same_bytes("the words then", bits, (const uint32_t[]){0x100, 0x108, UINT32_MAX, UINT32_MAX}, sizeof bits);
    gives_accc("contracting presence bits", 1);
    gives_accc("contracting kind 7", 7);
    gives_accc("contracting the last kind", UINT32_MAX);
    refuses("contracting presence bits at cutoff 0", 1, 3, 0, LEN(bit_marks), 15);
    refuses("contracting presence bits at cutoff 2", 1, 3, 2, LEN(bit_marks), 15);
    refuses("contracting kind 7 at cutoff 2", 7, 3, 2, LEN(bit_marks), 15);
    refuses("contracting the last kind at cutoff 0", UINT32_MAX, 3, 0, LEN(bit_marks), 15);
    refuses("contracting presence bits at the last cutoff with one mark", 1, 3, UINT32_MAX, 1, 15);
    refuses("contracting presence bits with one mark", 1, 3, 1, 1, 7);
    refuses("contracting presence bits at K = 64", 1, 64, 2, 1, 1);
    same("its K", bit_figures[0], 64);
    stray_bit(0, 1);
    stray_bit(1, 1);
    stray_bit(0, 1 << 11);
    stray_bit(1, 1 << 11);
    one_call(0, 0);
    one_call(0, 1);
    one_call(1, 0);
    one_call(1, 1);

    /* In the mode for reads from both strands: ACC and CCC. */
    add_acccc("adding ACCCC as presence bits in mode 1", 1, 1, 0x118);
    same("contracting them", contract_bits(1, 3, 1, LEN(bit_marks)), 0);
    same("their labels", bit_figures[0], 2);
    same_bytes("their bases", bit_labels, "ACCCCC", 6);
    same_bytes("their lengths", bit_lengths, (const uint32_t[]){3, 3}, 2 * sizeof bit_lengths[0]);
}

/* A table of up to four vertices. */
struct table {
    uint32_t kind;
    size_t n;
    uint64_t keys[8];
    uint32_t words[4];
};

/* What a judgement is lent beside a table and a text. */
static uint8_t judged_marks[5];
static uint64_t judged_figures[3];

static uint32_t judge(const struct table *t, size_t k, uint32_t cutoff, const char *text, size_t marks_len, size_t figures_len) {
    memset(judged_marks, UNTOUCHED, sizeof judged_marks);
    for (size_t i = 0; i < LEN(judged_figures); i++) judged_figures[i] = UNTOUCHED;
    return lash_judge(t->kind, k, cutoff, t->n, t->keys, LEN(t->keys), t->words, LEN(t->words), (const uint8_t *)text, strlen(text),
                      judged_marks, marks_len, judged_figures, figures_len);
}

/* At K = 3 the verdict is that rule and label, 0 and 0 for yes; the marks of the vertices are cleared and no others. */
static void gets(const char *what, const struct table *t, uint32_t cutoff, const char *text, uint64_t rule, uint64_t label) {
    uint8_t marks[sizeof judged_marks];
    memset(marks, UNTOUCHED, sizeof marks);
    memset(marks, 0, t->n);
    same(what, judge(t, 3, cutoff, text, LEN(judged_marks), LEN(judged_figures)), 0);
    same("its rule", judged_figures[0], rule);
    same("its label", judged_figures[1], label);
    same("the cell past the label", judged_figures[2], UNTOUCHED);
    same_bytes("the marks after a verdict", judged_marks, marks, sizeof marks);
}

/* It is refused, and nothing lent is touched; refusal 1 notes its K. */
static void not_judged(const char *what, const struct table *t, size_t k, uint32_t cutoff, const char *text, size_t marks_len,
                       uint32_t wanted) {
    uint8_t untouched[sizeof judged_marks];
    memset(untouched, UNTOUCHED, sizeof untouched);
    same(what, judge(t, k, cutoff, text, marks_len, LEN(judged_figures)), wanted);
    same_bytes("a refused judgement's marks", judged_marks, untouched, sizeof untouched);
    same("the first figure of a refused judgement", judged_figures[0], wanted == 1 ? k : UNTOUCHED);
    same("its second figure", judged_figures[1], UNTOUCHED);
}

/* Q-4 of document 02: P1's table of both kinds, that of ACGG, one in which CCG leads on to GCC and to GGA, and P7's cycle. */
static void judging(void) {
    const struct table counted = {0, 2, {5, 0, 21, 0}, {0x00100000, 0x00100001}};
    const struct table present = {7, 2, {5, 0, 21, 0}, {0x100, 0x108}};
    const struct table stray = {1, 2, {5, 0, 21, 0}, {0x100, 0x908}};
    const struct table falling = {0, 2, {21, 0, 5, 0}, {0x00100001, 0x00100000}};
    const struct table acgg = {0, 2, {6, 0, 22, 0}, {0x01000000, 0x10000000}};
    const struct table forked = {0, 4, {6, 0, 22, 0, 37, 0, 40, 0}, {0x02000000, 0x20001100, 0x01000000, 0x00000010}};
    const struct table *both[] = {&counted, &present};
    for (size_t i = 0; i < LEN(both); i++) {
        const struct table *t = both[i];
        gets("judging ACCC", t, 1, ">0\nACCC\n", 0, 0);
        gets("judging ACC and CCC, which is of one base", t, 1, ">\nACC\n>any text\r\nCCC\n", 0, 0);
        gets("judging the empty list", t, 1, "", 2, 0);
        gets("judging ACC alone", t, 1, ">0\nACC\n", 2, 1);
        gets("judging CCC before ACC", t, 1, ">0\nCCC\n>0\nACC\n", 1, 1);
        gets("judging the other strand", t, 1, ">0\nGGGT\n", 1, 0);
        gets("judging ACCC twice", t, 1, ">0\nACCC\n>0\nACCC\n", 1, 1);
        gets("judging ACCCC", t, 1, ">0\nACCCC\n", 2, 0);
        gets("judging a k-mer that is not stored", t, 1, ">0\nACCC\n>0\nCAC\n", 2, 1);
        not_judged("judging at K = 64", t, 64, 2, "A", 1, 1);
        not_judged("judging at K = 0", t, 0, 1, "", LEN(judged_marks), 1);
        not_judged("judging with one mark", t, 3, 1, ">0\nACCC\n", 1, 7);
        not_judged("judging at K = 4 with one mark", t, 4, 1, "A", 1, 7);
        not_judged("judging at K = 4", t, 4, 1, "A", LEN(judged_marks), 16);
        not_judged("judging a list without its last newline", t, 3, 1, ">0\nACCC", LEN(judged_marks), 17);
        not_judged("judging an empty line", t, 3, 1, ">0\nACCC\n\n", LEN(judged_marks), 17);
        not_judged("judging small letters", t, 3, 1, ">0\nAcCC\n", LEN(judged_marks), 17);
        not_judged("judging the other line ending", t, 3, 1, ">0\r\nACCC\r\n", LEN(judged_marks), 17);
        not_judged("judging a label of two letters", t, 3, 1, ">0\nAC\n", LEN(judged_marks), 17);
        not_judged("judging a label without a header", t, 3, 1, "ACCC\n", LEN(judged_marks), 17);
    }
    gets("judging at cutoff 2 the empty list", &counted, 2, "", 0, 0);
    gets("judging at cutoff 2 a k-mer that is isolated", &counted, 2, ">0\nACC\n", 2, 0);
    gets("judging at cutoff 0", &counted, 0, ">0\nACC\n>0\nCCC\n", 0, 0);
    not_judged("judging presence bits at cutoff 2 with one mark", &present, 3, 2, "A", 1, 15);
    not_judged("judging a stray bit at cutoff 2", &stray, 3, 2, "A", 1, 5);
    not_judged("judging keys out of order", &falling, 4, 1, "A", 1, 5);
    gets("judging ACGG", &acgg, 1, ">0\nACGG\n", 0, 0);
    gets("judging ACG and CCG", &acgg, 1, ">0\nACG\n>0\nCCG\n", 4, 0);
    gets("judging ACGG, GCC and GGA", &forked, 1, ">0\nACGG\n>0\nGCC\n>0\nGGA\n", 0, 0);
    gets("judging ACGGA and GCC", &forked, 1, ">0\nACGGA\n>0\nGCC\n", 3, 0);
    same("judging with room for one figure", judge(&forked, 3, 1, ">0\nACGGA\n>0\nGCC\n", 4, 1), 0);
    same("its rule", judged_figures[0], 3);
    same("the cell past it", judged_figures[1], UNTOUCHED);

    const uint8_t atcatc[] = {'A', 'T', 'C', 'A', 'T', 'C'};
    struct table cycle = {0, 0, {0}, {0}};
    same("adding ATCATC", lash_add_label(0, 1, 3, 0, cycle.keys, 8, cycle.words, 4, atcatc, LEN(atcatc), judged_figures, 2), 0);
    cycle.n = judged_figures[1];
    gets("judging ATCAT", &cycle, 1, ">0\nATCAT\n", 0, 0);
    gets("judging it begun elsewhere", &cycle, 1, ">0\nCATCA\n", 0, 0);
    gets("judging it begun elsewhere on the other strand", &cycle, 1, ">0\nGATGA\n", 0, 0);
    gets("judging it closed once more", &cycle, 1, ">0\nATCATC\n", 2, 0);
}

/* The labels of a panel, an index of four entries, of which the last ends past them, and what is lent beside. */
static const char panel_text[] = "AAAAAAAAAAAAAGCGCCAcgcAAAAAAAAAAAAAAAAAAAAAAAAA";
static const uint32_t panel_starts[] = {0, 18, 33, 33}, panel_lengths[] = {18, 15, 14, 15};
static uint32_t panel_out[4];
static uint64_t panel_figures[2];

static uint32_t panel(size_t k, uint32_t cutoff, size_t probe, size_t least, size_t most, size_t count, size_t room) {
    for (size_t i = 0; i < LEN(panel_out); i++) panel_out[i] = UNTOUCHED;
    for (size_t i = 0; i < LEN(panel_figures); i++) panel_figures[i] = UNTOUCHED;
    return lash_panel(k, cutoff, probe, least, most, (const uint8_t *)panel_text, strlen(panel_text), panel_starts, LEN(panel_starts),
                      panel_lengths, LEN(panel_lengths), count, panel_out, room, panel_figures, LEN(panel_figures));
}

/* It is refused, and nothing lent is touched. */
static void no_panel(const char *what, uint32_t got, uint32_t wanted) {
    same(what, got, wanted);
    for (size_t i = 0; i < LEN(panel_out); i++) same("a cell of a refused panel", panel_out[i], UNTOUCHED);
    same("the figure of a refused panel", panel_figures[0], UNTOUCHED);
}

/* Q-13 of document 02: each refusal in its order, and labels by hand. */
static void panels(void) {
    same("a panel of three labels", panel(15, 2, 15, 3, 4, 3, 4), 0);
    same("its labels", panel_figures[0], 3);
    same("the cell past the figure", panel_figures[1], UNTOUCHED);
    same("the first start, where three of 15 are G or C", panel_out[0], 1);
    same("small letters, which do not count", panel_out[1], LASH_NO_PROBE);
    same("a label shorter than the probe", panel_out[2], LASH_NO_PROBE);
    same("the cell past the answers", panel_out[3], UNTOUCHED);
    same("a panel at the last start", panel(15, 15, 15, 5, 5, 1, 1), 0);
    same("its start", panel_out[0], 3);
    same("a panel of no labels", panel(31, 2, 63, 0, 63, 0, 0), 0);
    same("its labels", panel_figures[0], 0);
    no_panel("a panel at K = 13", panel(13, 2, 15, 5, 4, 9, 1), 26);
    no_panel("a panel at K = 16", panel(16, 2, 16, 5, 4, 9, 1), 26);
    no_panel("a panel at K = 33", panel(33, 2, 33, 5, 4, 9, 1), 26);
    no_panel("a panel at the last K", panel(SIZE_MAX, 2, 33, 5, 4, 9, 1), 26);
    no_panel("a panel at cutoff 1", panel(15, 1, 15, 5, 4, 9, 1), 26);
    no_panel("a panel at cutoff 16", panel(15, 16, 15, 5, 4, 9, 1), 26);
    no_panel("a probe shorter than K", panel(17, 2, 16, 5, 4, 9, 1), 26);
    no_panel("a probe of 64", panel(31, 2, 64, 5, 4, 9, 1), 26);
    no_panel("least above most", panel(15, 2, 15, 5, 4, 9, 1), 27);
    no_panel("most above the probe", panel(15, 2, 15, 5, 16, 9, 1), 27);
    no_panel("a panel past the labels", panel(15, 2, 15, 3, 4, 4, 1), 12);
    no_panel("a panel past the index", panel(15, 2, 15, 3, 4, SIZE_MAX, 1), 12);
    no_panel("a panel without room", panel(15, 2, 15, 3, 4, 3, 2), 28);
    same("a panel without figures",
         lash_panel(15, 2, 15, 3, 4, (const uint8_t *)panel_text, strlen(panel_text), panel_starts, 4, panel_lengths, 4, 1, panel_out, 4,
                    panel_figures, 0), 0);
}

/* The README's reads of two strains, of which the last has a base misread: their list at K = 15 and cutoff 2, and probes of 20 bases of
 * which 9 to 11 are G or C. */
static void strains(void) {
    const char *reads = "CGGATCCTTACTACACTAACTTGAACGCCTAGTGG" "CCACTAGGCGTTCAAGTTAGTGTAGTAAGGATCCG"
                        "CGGATCCTTACTACACTGACTTGAACGCCTAGTGG" "CCACTAGGCGTTCAAGTCAGTGTAGTAAGGATCCG"
                        "CGGATCCTAACTACACTAACTTGAACGCCTAGTGG";
    const char *list[] = {"ACTTGAACGCCTAGTGG", "AGTGTAGTAAGGATCCG", "ATCCTTACTACACTAACTTGAACGCCTAG", "ATCCTTACTACACTGACTTGAACGCCTAG"};
    const uint32_t from[] = {0, 35, 70, 105, 140}, size[] = {35, 35, 35, 35, 35}, wanted[] = {LASH_NO_PROBE, LASH_NO_PROBE, 6, 5};
    uint64_t keys[2 * 64], totals[2], figures[2];
    uint32_t counts[64], starts[64], lengths[64], out[4];
    uint8_t labels[64 * 15], marks[64];
    same("adding the strains",
         lash_add_labels(0, 0, 15, 0, keys, LEN(keys), counts, LEN(counts), (const uint8_t *)reads, strlen(reads), from, LEN(from), size,
                         LEN(size), LEN(from), totals, 2, figures, 2), 0);
    same("their k-mers", totals[1], 45);
    same("contracting the strains",
         lash_contract(0, 15, 2, totals[1], keys, LEN(keys), counts, LEN(counts), labels, LEN(labels), starts, LEN(starts), lengths,
                       LEN(lengths), marks, LEN(marks), figures, 2), 0);
    same("their labels", figures[0], LEN(list));
    for (size_t i = 0; i < LEN(list); i++) {
        same("the length of a strain's label", lengths[i], strlen(list[i]));
        same_bytes("a strain's label", labels + starts[i], list[i], strlen(list[i]));
    }
    same("a panel of the strains",
         lash_panel(15, 2, 20, 9, 11, labels, LEN(labels), starts, LEN(starts), lengths, LEN(lengths), figures[0], out, LEN(out), figures, 1), 0);
    same("its labels", figures[0], LEN(list));
    same_bytes("the strains' starts", out, wanted, sizeof out);
    same_bytes("the probe of strain A", labels + starts[2] + out[2], "ACTACACTAACTTGAACGCC", 20);
    same_bytes("the probe of strain B", labels + starts[3] + out[3], "TACTACACTGACTTGAACGC", 20);
}

/* Two runs of a label with five k-mers, the README's: worker 7's index 3 from vertex 0 on, worker 0's index 1 from
 * vertex 2 on. */
static const uint64_t two_runs[] = {13002342400, 4294967298}, one_in_process = (UINT64_C(1) << 63) + 775;
static uint64_t color_figures[3], colors[7];

/* The figures and the colours before a call. */
static void clear_colors(void) {
    for (size_t i = 0; i < LEN(color_figures); i++) color_figures[i] = UNTOUCHED;
    for (size_t i = 0; i < LEN(colors); i++) colors[i] = UNTOUCHED;
}

/* A call was refused, and nothing was touched. */
static void no_color(const char *what, uint32_t got, uint32_t wanted) {
    same(what, got, wanted);
    for (size_t i = 0; i < LEN(color_figures); i++) same("a figure after a colour's refusal", color_figures[i], UNTOUCHED);
    for (size_t i = 0; i < LEN(colors); i++) same("a colour after a refusal", colors[i], UNTOUCHED);
}

static void packed_colors(void) {
    clear_colors();
    no_color("worker 256", lash_pack_coordinate(256, 0, color_figures, 3), 22);
    no_color("index 2^32", lash_pack_coordinate(0, UINT64_C(1) << 32, color_figures, 3), 22);
    no_color("the parts of 2^40", lash_unpack_coordinate(UINT64_C(1) << 40, color_figures, 3), 22);
    no_color("the parts of one in process", lash_unpack_coordinate(one_in_process, color_figures, 3), 22);
    no_color("offset 2^24", lash_pack_run(1 << 24, 775, color_figures, 3), 22);
    no_color("a run of 2^40", lash_pack_run(0, UINT64_C(1) << 40, color_figures, 3), 22);
    no_color("a run of one in process", lash_pack_run(0, one_in_process, color_figures, 3), 22);
    same("worker 7, index 3", lash_pack_coordinate(7, 3, color_figures, 3), 0);
    same("its coordinate", color_figures[0], 775);
    same("the cell past the coordinate", color_figures[1], UNTOUCHED);
    same("the last coordinate", lash_pack_coordinate(255, UINT32_MAX, color_figures, 3), 0);
    same("its word", color_figures[0], (UINT64_C(1) << 40) - 1);
    same("the parts of 775", lash_unpack_coordinate(775, color_figures, 3), 0);
    same("its worker", color_figures[0], 7);
    same("its index", color_figures[1], 3);
    same("the cell past the parts", color_figures[2], UNTOUCHED);
    same("a run of 775 at 5", lash_pack_run(5, 775, color_figures, 3), 0);
    same("its word", color_figures[0], 13002342405);
    same("the last run", lash_pack_run((1 << 24) - 1, (UINT64_C(1) << 40) - 1, color_figures, 3), 0);
    same("its word", color_figures[0], UINT64_MAX);
    same("its parts", lash_unpack_run(13002342405, color_figures, 3), 0);
    same("its offset", color_figures[0], 5);
    same("its coordinate", color_figures[1], 775);
    same("the parts of a run in one cell", lash_unpack_run(UINT64_MAX, color_figures, 1), 0);
    same("the offset there", color_figures[0], (1 << 24) - 1);
    same("the cell past it", color_figures[1], 775);
}

static void run_lists(void) {
    const uint64_t late[] = {13002342401}, equal[] = {13002342400, 4294967296};
    const uint64_t wanted[] = {775, 775, 256, 256, 256, UNTOUCHED, UNTOUCHED};
    same("two runs of five k-mers", lash_check_runs(two_runs, 2, 5), 0);
    same("two runs of three", lash_check_runs(two_runs, 2, 3), 0);
    same("two runs of two", lash_check_runs(two_runs, 2, 2), 23);
    same("no run", lash_check_runs(two_runs, 0, 5), 23);
    same("one run of no k-mer", lash_check_runs(two_runs, 1, 0), 23);
    same("a first run at 1", lash_check_runs(late, 1, 5), 23);
    same("two runs at 0", lash_check_runs(equal, 2, 5), 23);
    clear_colors();
    no_color("the colour at vertex 5", lash_color_at(two_runs, 2, 5, 5, color_figures, 3), 24);
    no_color("the colour at vertex 5 of a list that ends too late", lash_color_at(two_runs, 2, 2, 5, color_figures, 3), 23);
    no_color("colours in too few cells", lash_write_colors(two_runs, 2, 5, colors, 4, color_figures, 3), 9);
    no_color("colours of no list", lash_write_colors(two_runs, 0, 5, colors, 4, color_figures, 3), 23);
    for (uint32_t vertex = 0; vertex < 5; vertex++) {
        same("the colour at a vertex", lash_color_at(two_runs, 2, 5, vertex, color_figures, 3), 0);
        same("its coordinate", color_figures[0], wanted[vertex]);
    }
    same("the colours of five vertices", lash_write_colors(two_runs, 2, 5, colors, LEN(colors), color_figures, 3), 0);
    same("their number", color_figures[0], 5);
    same("the cell past it", color_figures[1], UNTOUCHED);
    same_bytes("the colours", colors, wanted, sizeof colors);
}

int main(void) {
    uint64_t keys[32], keys_before[32], figures[3];
    uint32_t counts[16], counts_before[16], starts[16], lengths[16];
    uint8_t labels[48], marks[16], out[64];
    const uint8_t accn[] = {'A', 'C', 'C', 'N'};
    memset(keys, 0, sizeof keys);
    memset(counts, 0, sizeof counts);
    memset(marks, UNTOUCHED, sizeof marks);
    memset(out, UNTOUCHED, sizeof out);
    for (size_t i = 0; i < LEN(figures); i++) figures[i] = UNTOUCHED;

    /* P1: 2 edges; ACC 00100000, CCC 00100001; output ACCC. */
    same("adding ACCCC", lash_add_label(0, 0, 3, 0, keys, LEN(keys), counts, LEN(counts), acccc, LEN(acccc), figures, LEN(figures)), 0);
    same("its edges", figures[0], 2);
    same("the number stored", figures[1], 2);
    same("the cell past the figures", figures[2], UNTOUCHED);
    same("the first key", keys[0], 5);
    same("the second key", keys[2], 21);
    same("the first count", counts[0], 0x00100000);
    same("the second count", counts[1], 0x00100001);
    size_t n = figures[1];
    same("contracting",
         lash_contract(0, 3, 1, n, keys, LEN(keys), counts, LEN(counts), labels, LEN(labels), starts, LEN(starts), lengths, LEN(lengths),
                       marks, LEN(marks), figures, LEN(figures)), 0);
    same("the number of labels", figures[0], 1);
    same("their bases", figures[1], 4);
    same("the first mark", marks[0], 1);
    same("the second mark", marks[1], 1);
    same("the mark past them", marks[2], UNTOUCHED);
    same("FASTA",
         lash_write_fasta(labels, LEN(labels), starts, LEN(starts), lengths, LEN(lengths), figures[0], out, LEN(out), figures,
                          LEN(figures)), 0);
    same("its size", figures[0], 8);
    same_bytes("its text", out, ">0\nACCC\n", 8);
    same("the byte past it", out[8], UNTOUCHED);

    /* P11 and P8: refusals, which leave the table as it is. */
    memcpy(keys_before, keys, sizeof keys);
    memcpy(counts_before, counts, sizeof counts);
    same("adding at K = 64", lash_add_label(0, 0, 64, n, keys, LEN(keys), counts, LEN(counts), acccc, LEN(acccc), figures, LEN(figures)), 1);
    same("its K", figures[0], 64);
    same("adding ACCN", lash_add_label(0, 0, 3, n, keys, LEN(keys), counts, LEN(counts), accn, LEN(accn), figures, LEN(figures)), 3);
    same("its place", figures[0], 3);
    same("its byte", figures[1], 78);
    same_bytes("the keys after refusals", keys, keys_before, sizeof keys);
    same_bytes("the counts after refusals", counts, counts_before, sizeof counts);

    /* Both labels of P11's kind by one call: the first is added, the second refused, and the third not tried. */
    const uint8_t text[] = {'A', 'C', 'C', 'C', 'C', 'A', 'C', 'C', 'N', 'A', 'C', 'C'};
    const uint32_t from[] = {0, 5, 9}, size[] = {5, 4, 3};
    uint64_t many_keys[32], totals[3] = {UNTOUCHED, UNTOUCHED, UNTOUCHED};
    uint32_t many_counts[16];
    memset(many_keys, 0, sizeof many_keys);
    memset(many_counts, 0, sizeof many_counts);
    same("adding three labels",
         lash_add_labels(0, 0, 3, 0, many_keys, LEN(many_keys), many_counts, LEN(many_counts), text, LEN(text), from, LEN(from), size, LEN(size),
                         3, totals, LEN(totals), figures, LEN(figures)), 3);
    same("the labels added", totals[0], 1);
    same("the number stored after them", totals[1], 2);
    same("the cell past the totals", totals[2], UNTOUCHED);
    same("the refused label's place", figures[0], 3);
    same("its byte", figures[1], 78);
    same_bytes("the keys after one label", many_keys, keys, sizeof keys);
    same_bytes("the counts after one label", many_counts, counts, sizeof counts);
    same("adding past the text",
         lash_add_labels(0, 0, 3, 2, many_keys, LEN(many_keys), many_counts, LEN(many_counts), text, LEN(text) - 1, from, LEN(from), size, LEN(size),
                         3, totals, LEN(totals), figures, LEN(figures)), 12);
    same("the labels added then", totals[0], 0);
    same("the number stored then", totals[1], 2);
    same("adding past the index",
         lash_add_labels(0, 0, 3, 2, many_keys, LEN(many_keys), many_counts, LEN(many_counts), text, LEN(text), from, LEN(from), size, LEN(size),
                         4, totals, LEN(totals), figures, LEN(figures)), 12);
    same_bytes("the keys after 12", many_keys, keys, sizeof keys);
    same_bytes("the counts after 12", many_counts, counts, sizeof counts);

    /* P1's table in room for two vertices is full for AAA; copied to room for three it takes it. AAA has no edge, and stands in no label; room
     * for n times K bases and n entries is enough. */
    const uint8_t aaa[] = {'A', 'A', 'A'};
    uint64_t three_keys[6];
    uint32_t three_counts[3];
    same("adding AAA where there is no room", lash_add_label(0, 0, 3, n, keys, 2 * n, counts, n, aaa, LEN(aaa), figures, LEN(figures)), 6);
    memcpy(three_keys, keys, 2 * n * sizeof *keys);
    memcpy(three_counts, counts, n * sizeof *counts);
    same("adding AAA where there is",
         lash_add_label(0, 0, 3, n, three_keys, LEN(three_keys), three_counts, LEN(three_counts), aaa, LEN(aaa), figures, LEN(figures)), 0);
    same("the number stored then", figures[1], 3);
    same_bytes("the keys then", three_keys, (const uint64_t[]){0, 0, 5, 0, 21, 0}, sizeof three_keys);
    same_bytes("the counts then", three_counts, (const uint32_t[]){0, 0x00100000, 0x00100001}, sizeof three_counts);
    same("contracting three vertices",
         lash_contract(0, 3, 1, 3, three_keys, LEN(three_keys), three_counts, LEN(three_counts), labels, 9, starts, 3, lengths, 3, marks, 3, figures,
                       LEN(figures)), 0);
    same("the number of labels then", figures[0], 1);
    same_bytes("their bases then", labels, "ACCC", 4);
    same_bytes("the marks then", marks, (const uint8_t[]){0, 1, 1}, 3);

    /* The mode for reads from both strands: ACCCC, and its reverse complement in small letters by the other call, leave the same table, and
     * both together give ACC and CCC. Every number but 0 names it. */
    const uint8_t ggggt[] = {'g', 'g', 'g', 'g', 'u'};
    const uint32_t one_start[] = {0}, one_length[] = {5};
    const uint32_t loop_counts[] = {0x00100000, 0x00100011}, both_counts[] = {0x00200000, 0x00200022};
    uint64_t loop_keys[4], other_keys[4];
    uint32_t loops[2], others[2], list_starts[2], list_lengths[2];
    uint8_t list[6], list_marks[2];
    same("adding ACCCC in mode 1", lash_add_label(0, 1, 3, 0, loop_keys, 4, loops, 2, acccc, LEN(acccc), figures, LEN(figures)), 0);
    same("its edges", figures[0], 2);
    same_bytes("its keys", loop_keys, keys, sizeof loop_keys);
    same_bytes("its counts", loops, loop_counts, sizeof loops);
    same("adding ggggu in mode 7",
         lash_add_labels(0, 7, 3, 0, other_keys, 4, others, 2, ggggt, LEN(ggggt), one_start, 1, one_length, 1, 1, totals, LEN(totals),
                         figures, LEN(figures)), 0);
    same_bytes("its keys", other_keys, loop_keys, sizeof other_keys);
    same_bytes("its counts", others, loops, sizeof others);
    same("adding ggggu to ACCCC", lash_add_label(0, UINT32_MAX, 3, 2, loop_keys, 4, loops, 2, ggggt, LEN(ggggt), figures, LEN(figures)), 0);
    same_bytes("the counts of both", loops, both_counts, sizeof loops);
    same("contracting them",
         lash_contract(0, 3, 1, 2, loop_keys, 4, loops, 2, list, 6, list_starts, 2, list_lengths, 2, list_marks, 2, figures, LEN(figures)), 0);
    same("their labels", figures[0], 2);
    same_bytes("their bases", list, "ACCCCC", 6);
    same_bytes("their lengths", list_lengths, (const uint32_t[]){3, 3}, sizeof list_lengths);

    /* Other refusals, and figures without room. */
    same("contracting at K = 64",
         lash_contract(0, 64, 1, n, keys, LEN(keys), counts, LEN(counts), labels, LEN(labels), starts, LEN(starts), lengths, LEN(lengths),
                       marks, LEN(marks), figures, LEN(figures)), 1);
    same("its K", figures[0], 64);
    same("contracting with one mark",
         lash_contract(0, 3, 1, n, keys, LEN(keys), counts, LEN(counts), labels, LEN(labels), starts, LEN(starts), lengths, LEN(lengths),
                       marks, 1, figures, LEN(figures)), 7);
    same("contracting without room",
         lash_contract(0, 3, 1, n, keys, LEN(keys), counts, LEN(counts), labels, 3, starts, LEN(starts), lengths, LEN(lengths),
                       marks, LEN(marks), figures, LEN(figures)), 9);
    same("the first mark then", marks[0], 0);
    same("FASTA without room",
         lash_write_fasta(labels, LEN(labels), starts, LEN(starts), lengths, LEN(lengths), 1, out, 7, figures, LEN(figures)), 11);
    same("FASTA past the index",
         lash_write_fasta(labels, LEN(labels), starts, LEN(starts), lengths, LEN(lengths), 17, out, LEN(out), figures, LEN(figures)), 12);
    figures[0] = figures[1] = UNTOUCHED;
    same("adding ACCN", lash_add_label(0, 0, 3, n, keys, LEN(keys), counts, LEN(counts), accn, LEN(accn), figures, 1), 3);
    same("its place in one cell", figures[0], 3);
    same("the cell past it", figures[1], UNTOUCHED);

    presence_bits();
    judging();
    panels();
    strains();
    packed_colors();
    run_lists();

    if (differences == 0) printf("check: ok\n");
    return differences != 0;
}
