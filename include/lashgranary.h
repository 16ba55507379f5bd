/* Lashgranary for C: the calls of a pipeline over memory that the caller lends. The functions are those of the proved crate
 * capi, and their contracts are in crates/capi/src; crates/capi_c exports them.
 *
 * Each slice is a pointer and its length in elements. A pointer must be aligned, not null (for a length of 0 too) and good for
 * its length, and a slice that is not const must overlap no other slice of the call.
 *
 * Each call returns 0, or the number of the first refusal that applies (lash_add_labels: to the last label that was tried). It
 * writes its figures into the first cells of the slice figures, as many as have room (two are always enough), and leaves the rest
 * as it was: where it returns 0 the figures named at the call, else what is returned beside the refusal, which is nothing where
 * none is named. A refusal changes no other lent memory, except that 8 and 9 of lash_contract set the first n marks to 0, and
 * that lash_add_labels writes its totals and keeps the labels that it added before.
 *
 * The calls keep local arrays on the stack, adding up to 153 KiB, contraction 193 KiB and judging 65 KiB: a stack of 256 KiB is
 * enough.
 *
 * A table of n vertices is keys, two words a vertex, low word first, and counts, one word a vertex. The kind says what such a
 * word keeps of the edges to A, C, G and T. 0: four-bit counts, those in front from bit 0 on and those at the back from bit 16
 * on. Any other number: presence bits, those in front at bits 3 to 6 and those at the back at bits 7 to 10; an edge is counted
 * there by setting its bit. Presence bits are contracted at cutoff 1 alone, where the same labels give the same list as with
 * counts.
 * Its capacity is the least of half the keys' length, the counts' length and 65,536. An empty table is n = 0, whatever the
 * slices hold. It is fit if n is at most the capacity, the keys strictly ascend, are canonical and below 4 to the K, and, with
 * presence bits, no other bit is set in the first n words. A table is to be grown in one kind and one mode from empty on; it
 * does not tell in which. A table too full for a label goes on in larger slices, up to 65,536 vertices: copy the first 2 n words
 * of keys and n of counts.
 */
#ifndef LASHGRANARY_H
#define LASHGRANARY_H

#include <stddef.h>
#include <stdint.h>

#ifdef __cplusplus
extern "C" {
#endif

/* Adds a label to a table of n vertices of that kind. Bases are the letters ACGTU in either case.
 * Mode 0 is the Rust's: where a part of K bases has the same canonical k-mer as the one before it, the step between them counts
 * on one side only. Any other number: that is so only where it is the reverse complement of the one before and differs from it.
 * Then, for odd K, a label and its reverse complement leave the same table: this is the mode for reads from both strands.
 * Figures: the edges, which is length minus K (0 for a label shorter than K, which changes nothing), and the number stored
 * afterwards, the n of the next call.
 * Refusals, in the order in which they are tried:
 *   1  K outside 1..63; figure: K
 *   5  table not fit
 *   4  label over 4,096 bytes; figure: the length
 *   3  a byte of a label of K bytes or more is no base; figures: the first such place, from 0, and its byte
 *   6  stored plus new distinct k-mers exceed the capacity
 */
uint32_t lash_add_label(uint32_t kind, uint32_t mode, size_t k, size_t n,
                        uint64_t *keys, size_t keys_len,
                        uint32_t *counts, size_t counts_len,
                        const uint8_t *label, size_t label_len,
                        uint64_t *figures, size_t figures_len);

/* Adds many labels to a table of n vertices of that kind: label i is the bytes of text from starts[i] on, lengths[i] of them,
 * and the first count entries are added in order, as by lash_add_label in that mode, until one is refused. The table is tested
 * for fitness for the first label alone, so that many short labels cost less than a call for each.
 * Totals, as many as have room: the labels added, and the number stored after them, the n of the next call; they are written
 * whatever is returned. Where a label is refused, it is entry totals[0].
 * Returned, and in figures: what lash_add_label returns and notes for the last label that was tried; the labels before one that
 * is refused stay added. With a count of 0 nothing is tested, 0 is returned, and the figures are 0 and n.
 * Refusal before the first label, and before all others:
 *   12  count past starts or lengths, or an entry past the text
 */
uint32_t lash_add_labels(uint32_t kind, uint32_t mode, size_t k, size_t n,
                         uint64_t *keys, size_t keys_len,
                         uint32_t *counts, size_t counts_len,
                         const uint8_t *text, size_t text_len,
                         const uint32_t *starts, size_t starts_len,
                         const uint32_t *lengths, size_t lengths_len,
                         size_t count,
                         uint64_t *totals, size_t totals_len,
                         uint64_t *figures, size_t figures_len);

/* Contracts a table of n vertices of that kind; an edge is retained if its count is at least the cutoff, or if its presence bit
 * is set. The labels' bases stand end to end from the first byte of labels; starts and lengths list them in ascending byte
 * order. The first n marks are 1 for a visited vertex and 0 for another; their content before does not matter. There are at most
 * n labels, and they hold at most n times K bases together, so that this much room is never refused with 9.
 * Figures: the number of labels and the total of their bases.
 * Refusals, in the order in which they are tried:
 *   1   K outside 1..63; figure: K
 *   5   table not fit
 *   15  presence bits, and the cutoff is not 1
 *   7   marks shorter than n
 *   8   a walk's next vertex is not stored (hand-made tables)
 *   9   the labels exceed the slice labels, or their number exceeds starts or lengths
 */
uint32_t lash_contract(uint32_t kind, size_t k, uint32_t cutoff, size_t n,
                       const uint64_t *keys, size_t keys_len,
                       const uint32_t *counts, size_t counts_len,
                       uint8_t *labels, size_t labels_len,
                       uint32_t *starts, size_t starts_len,
                       uint32_t *lengths, size_t lengths_len,
                       uint8_t *marks, size_t marks_len,
                       uint64_t *figures, size_t figures_len);

/* Writes ">0", newline, label, newline for each of the first count entries of starts and lengths, in order.
 * Figure: the number of bytes written, which is the labels' bases and 4 bytes a label.
 * Refusals, in the order in which they are tried:
 *   12  count past starts or lengths, or an entry past the labels
 *   11  the FASTA exceeds the slice out
 */
uint32_t lash_write_fasta(const uint8_t *labels, size_t labels_len,
                          const uint32_t *starts, size_t starts_len,
                          const uint32_t *lengths, size_t lengths_len,
                          size_t count,
                          uint8_t *out, size_t out_len,
                          uint64_t *figures, size_t figures_len);

/* Judges a list of labels, given as FASTA text, over a table of n vertices of that kind at a cutoff, for odd K. A record is ">",
 * any bytes but a newline, a newline, a label of at least K letters A, C, G, T, and a newline; an empty text holds the empty list.
 * The list passes if it keeps four rules: 1, its labels strictly ascend in byte order, none above its reverse complement; 2, every
 * k-mer with a retained edge occurs exactly once in the labels, on either strand, and no other k-mer at all; 3, neighbouring k-mers
 * of a label are joined by an edge that is the only retained one on its side at both ends; 4, no two different k-mers, neither of
 * one repeated base, are so joined except as neighbours or as the two ends of one label. What lash_contract lists of a table that
 * was grown by adding always passes; so does a cycle that begins elsewhere. At a k-mer of one repeated base rule 4 leaves the join
 * free, so that two lists may pass that are not the same.
 * After a verdict the first n marks are 0; their content before does not matter.
 * Figures: 0 and 0 if the list passes; else the first broken rule, 1 to 4, and the lowest label concerned, from 0. Of rule 1 that is
 * the later of two out of order, of rule 2 the one where a k-mer stands that may not or stands again, of rule 3 the one with the
 * step, of rule 4 the lower of the two; where a k-mer is only missing (rule 2), the number of labels.
 * Refusals, in the order in which they are tried:
 *   1   K outside 1..63; figure: K
 *   5   table not fit
 *   15  presence bits, and the cutoff is not 1
 *   7   marks shorter than n
 *   16  K even
 *   17  the text is no such list
 */
uint32_t lash_judge(uint32_t kind, size_t k, uint32_t cutoff, size_t n,
                    const uint64_t *keys, size_t keys_len,
                    const uint32_t *counts, size_t counts_len,
                    const uint8_t *text, size_t text_len,
                    uint8_t *marks, size_t marks_len,
                    uint64_t *figures, size_t figures_len);

/* The answer of lash_panel for a label without a probe; no start is so large. */
#define LASH_NO_PROBE 4294967295u

/* Answers a probe for each label of a list. Label i is the bytes of labels from starts[i] on, lengths[i] of them; for each
 * of the first count entries, out[i] is the first start, counted from 0 within the label, at which a part of probe bases has
 * between least and most bytes G or C (capitals alone count), and LASH_NO_PROBE exactly where no start of the label has one.
 * Cells of out past count stay as they were. The time is linear in the bases; no table is needed, and the cutoff is only
 * tested.
 * For a list that lash_contract made with this K, and returned 0 for, two answers use no common k-mer, on either strand, and
 * no answer uses one twice; so it is for every list in which no k-mer stands twice, among them each that lash_judge has
 * passed with this K.
 * Figure: the number of labels answered, which is count.
 * Refusals, in the order in which they are tried:
 *   26  K even or outside 15..31, cutoff outside 2..15, or probe outside K..63
 *   27  least above most, or most above probe
 *   12  count past starts or lengths, or an entry past the labels
 *   28  count past the slice out
 */
uint32_t lash_panel(size_t k, uint32_t cutoff, size_t probe, size_t least, size_t most,
                    const uint8_t *labels, size_t labels_len,
                    const uint32_t *starts, size_t starts_len,
                    const uint32_t *lengths, size_t lengths_len,
                    size_t count,
                    uint32_t *out, size_t out_len,
                    uint64_t *figures, size_t figures_len);

/* Colours: which sources, such as cultures, a stretch of a label came from. Each set of sources is kept at a coordinate: a worker below
 * 256 in the lowest 8 bits, and an index below 2 to the 32 in the 32 bits above them, 40 bits in all. The highest bit of a
 * coordinate's word marks one that is still in process, which is never packed.
 * A run is a stretch of one colour: the offset of its first vertex (k-mer, counted from 0 within the label) in the lowest 24 bits of
 * a word, and the coordinate in the 40 bits above them. Every word is a run. The words are those of Cuttlefish's UnitigColor.
 */

/* Packs a coordinate. Figure: the coordinate.
 * Refusal:
 *   22  the worker from 256 on, or the index from 2 to the 32 on
 */
uint32_t lash_pack_coordinate(uint64_t worker, uint64_t index,
                              uint64_t *figures, size_t figures_len);

/* Takes a coordinate apart. Figures: the worker and the index; packed again they give the coordinate.
 * Refusal:
 *   22  the coordinate from 2 to the 40 on, so also one in process
 */
uint32_t lash_unpack_coordinate(uint64_t coordinate,
                                uint64_t *figures, size_t figures_len);

/* Packs a run that begins at an offset. Figure: the run.
 * Refusal:
 *   22  the offset from 2 to the 24 on, or the coordinate from 2 to the 40 on, so also one in process
 */
uint32_t lash_pack_run(uint32_t offset, uint64_t coordinate,
                       uint64_t *figures, size_t figures_len);

/* Takes a run apart. Figures: the offset and the coordinate; packed again they give the run. There is no refusal. */
uint32_t lash_unpack_run(uint64_t run,
                         uint64_t *figures, size_t figures_len);

/* Checks the run list of a label with so many k-mers, which are its bases less K - 1: at least one run, the offsets strictly
 * ascending, the first 0, all below the number of k-mers. There are no figures.
 * Refusal:
 *   23  the list breaks one of these rules
 */
uint32_t lash_check_runs(const uint64_t *runs, size_t runs_len,
                         size_t kmers);

/* Answers the colour at a vertex of a label with so many k-mers: that of the last run at or before it. The whole list is checked at
 * each call; for many vertices of one label there is lash_write_colors.
 * Figure: the coordinate of the colour.
 * Refusals, in the order in which they are tried:
 *   23  the list breaks a rule of lash_check_runs
 *   24  the vertex is not below the number of k-mers
 */
uint32_t lash_color_at(const uint64_t *runs, size_t runs_len,
                       size_t kmers, uint32_t vertex,
                       uint64_t *figures, size_t figures_len);

/* Writes the colours of all vertices of a label with so many k-mers: out[v] is the coordinate of the colour at vertex v, what
 * lash_color_at answers. Cells of out past the number of k-mers stay as they were.
 * Figure: the number of colours written, which is that of the k-mers.
 * Refusals, in the order in which they are tried:
 *   23  the list breaks a rule of lash_check_runs
 *   9   the number of k-mers exceeds the slice out
 */
uint32_t lash_write_colors(const uint64_t *runs, size_t runs_len,
                           size_t kmers,
                           uint64_t *out, size_t out_len,
                           uint64_t *figures, size_t figures_len);

#ifdef __cplusplus
}
#endif

#endif
