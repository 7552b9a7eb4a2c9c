/* Poddreshi: service windows, their distance tree and tags of ten bytes, or of eight for even plans. The C interface (C99).
 *
 * Link libpoddreshi.a, which `./poddreshi build` makes in the folder that it names. It holds two objects, and a program that calls
 * on tags alone has nothing on plans in it. Beside it is needed only the C library's memset. It keeps no state, allocates nothing
 * and may be called from any thread. poddreshi_tags, poddreshi_short_tags, poddreshi_add and poddreshi_withdraw use at most 38 kB of
 * stack, the calls that take no plan file some bytes, and all others at most 17 kB.
 *
 * THE ANSWER of every call is one number of 64 bits: four fields of 16 bits, the lowest first. The first field is the kind.
 * A refusal has kind PODDRESHI_REFUSED in every call, and then the question's number (1 to 16), the input at fault (0 the
 * first, 1 the second) and the position of the window being read, or 0. What the other kinds hold is said at each call;
 * fields that are not named are 0. The functions at the end take an answer apart.
 *
 * THE PROMISES below are proved for every input, for the machine that the language defines; the compiler behind it and this
 * header are tested (tests/). They hold where a caller keeps C's side:
 *   - a pointer leads to as many elements as the length behind it says, also where that is 0 (it is then not read, but give
 *     any pointer that is not null), and to one where no length stands behind it (`offset`, `margin`);
 *   - what a call writes to (a pointer with no const) shares no memory with anything else that is passed to it.
 *
 * A REFUSAL ALTERS NOTHING that is lent. Where a call writes, what lies past the written entries stays.
 *
 * A PLAN FILE begins with 8 bytes, each number with its lowest byte first: the plan number (2), the number of windows n (2) and the
 * minimum handover (4). Offsets, lengths and the minimum count one unit of time, a minute or a second for example, which no byte tells:
 * it is agreed outside the file. Two different windows OVERLAP when they share at least the plan's minimum of units, and parents, lasts,
 * chains, neighbours, sameness and tags all go by that. A file that was accepted before version 2.0.0 is always refused; one that was
 * accepted from then on is accepted still.
 *
 * SHORT TAGS are for even plans: those in which no window ends before the one ahead of it in the file (equal ends pass). Two short
 * tags of such a plan give the least number of handovers, as its long ones do; of another plan they may not, and none are written.
 * No byte tells a file of short tags from one of long ones: where its length is a multiple of 40, the caller must know which it is.
 *
 * THE QUESTIONS, in the order in which they are asked, down the left and then down the right; a call asks those named with it. THE
 * PLAN'S QUESTIONS are 1, 2, 14 and 3, and then 4, 5 and 6 window after window.
 *    1  Has the file at least 8 bytes?                    7  Is each position below the number of windows?
 *    2  Is n at most 2,048?                               8  Does each table hold what is to be written?
 *   14  Is the minimum handover 1 to 86,400?              9  Has the tag 10 bytes, the tag file a multiple of 10?
 *    3  Has the file exactly 8 + 8 n bytes?                  (A short tag 8, a file of them a multiple of 8.)
 *    4  Is the length at least the minimum handover?     10  Is each field after the plan number at most 2,047?
 *    5  Is offset + length at most 4,294,967,295?        11  Have both tags one plan number?
 *    6  Is the offset at least that of the one before?   12  Do tags of equal component and rank agree in all fields?
 *   13  Does no window end before the one ahead of it?
 *       (Asked where short tags are wanted.)
 *   15  Has the plan fewer than 2,048 windows?
 *       (Asked where one is to be added.)
 *   16  Is the new plan number another than the old?
 *       (Then 4 and 5 are asked of an added window.)
 */
#ifndef PODDRESHI_H
#define PODDRESHI_H

/* The version of the library that this header belongs to. */
#define PODDRESHI_VERSION "4.0.1"

#include <stddef.h>
#include <stdint.h>

#ifdef __cplusplus
extern "C" {
#endif

/* The kinds. Each belongs to one answer in the whole interface, but that a pair of tags and a chain share "no chain". */
enum {
    PODDRESHI_REFUSED = 0,
    PODDRESHI_ACCEPTED = 1,
    PODDRESHI_BUILT = 2,
    PODDRESHI_REACH = 3,
    PODDRESHI_CHAIN = 4,
    PODDRESHI_NO_CHAIN = 5,
    PODDRESHI_NEIGHBOURS = 6,
    PODDRESHI_SAME = 7,
    PODDRESHI_DIFFERENT = 8,
    PODDRESHI_HANDOVERS = 9,
    PODDRESHI_FOUND = 10,
    PODDRESHI_WRITTEN = 11,
    PODDRESHI_FILLED = 12,
    PODDRESHI_MARGIN = 13
};

enum {
    PODDRESHI_TAG_LENGTH = 10,       /* bytes of a tag */
    PODDRESHI_SHORT_TAG_LENGTH = 8,  /* bytes of a short tag */
    PODDRESHI_FIELD_LIMIT = 2047,    /* the greatest number in a tag's field after the plan number */
    PODDRESHI_WINDOWS_LIMIT = 2048,  /* the greatest number of windows of a plan */
    PODDRESHI_FILE_LIMIT = 16392     /* bytes of the longest plan file */
};

/* Is the file that of an accepted plan? The plan's questions.
 * ACCEPTED: plan number, number of windows. */
uint64_t poddreshi_validate(const uint8_t *file, size_t file_length);

/* The five tables and the tag file of a plan. The plan's questions and 8: each table has room for n entries, the tag file for
 * 10 n bytes.
 * BUILT: plan number, number of windows n, number of components. Then the first n entries of each table, by position, are
 * the window's parent (a root's is its own position), component, depth, rank in post-order within the component, and the
 * rank of its last; the first 10 n bytes of tags are the tags in order of position. */
uint64_t poddreshi_build(const uint8_t *file, size_t file_length,
                         uint16_t *parents, size_t parents_length,
                         uint16_t *components, size_t components_length,
                         uint16_t *depths, size_t depths_length,
                         uint16_t *ranks, size_t ranks_length,
                         uint16_t *last_ranks, size_t last_ranks_length,
                         uint8_t *tags, size_t tags_length);

/* The tag file of a plan alone. The plan's questions and 8: it has room for 10 n bytes.
 * BUILT, as build answers. The first 10 n bytes of tags are the tags in order of position. */
uint64_t poddreshi_tags(const uint8_t *file, size_t file_length, uint8_t *tags, size_t tags_length);

/* The short tag file of an even plan. The plan's questions; 13, at the first window that ends before the one ahead of it; and 8: it
 * has room for 8 n bytes.
 * BUILT, as build answers. The first 8 n bytes of tags are the short tags in order of position. */
uint64_t poddreshi_short_tags(const uint8_t *file, size_t file_length, uint8_t *tags, size_t tags_length);

/* A plan with one window more, and its tag file. The plan's questions; 15; 16; 4 and 5 of the added window, with position 0; and 8:
 * changed has room for 8 + 8 n bytes and tags for 10 n, where n is the number of windows with the added one.
 * BUILT, as build answers of the changed plan. The first 8 + 8 n bytes of changed are its file: the number that is given, the minimum
 *     handover of the plan, and its windows with the added one behind all that have the same or a smaller offset. The first 10 n
 *     bytes of tags are what poddreshi_tags writes for that file. Tags of components that lie wholly before the added window and have no
 *     overlap with it keep all but the plan number. */
uint64_t poddreshi_add(const uint8_t *file, size_t file_length, uint16_t plan, uint32_t offset, uint32_t length,
                       uint8_t *changed, size_t changed_length, uint8_t *tags, size_t tags_length);

/* A plan with one window less, and its tag file. The plan's questions; 16; 7; and 8: changed has room for 8 + 8 n bytes and tags for
 * 10 n, where n is the number of windows without the withdrawn one.
 * BUILT, as build answers of the changed plan, which is written as by poddreshi_add. Each window behind the withdrawn one stands one
 *     position earlier. Tags of components with smaller numbers than the withdrawn window's keep all but the plan number. */
uint64_t poddreshi_withdraw(const uint8_t *file, size_t file_length, uint16_t plan, size_t at,
                            uint8_t *changed, size_t changed_length, uint8_t *tags, size_t tags_length);

/* How far apart two windows of a position's component are at most. The plan's questions and 7.
 * REACH: the greatest number of handovers between two windows of the component, each two counted by their shortest chain; and then
 *     the smaller and the larger position of the first two that are so far apart, by smaller position and then by larger. The
 *     component's first window need not be one of them. Of a window alone it is 0, and that window twice. Before version 3.0.0
 *     the number was a bound, and the other two fields were 0. */
uint64_t poddreshi_reach(const uint8_t *file, size_t file_length, size_t at);

/* The chain between two windows. The plan's questions, 7 for the first position and then the second, and 8 where there is a
 * chain.
 * CHAIN: its number of entries, of which the handovers are one less. The entries are written from the later window to the
 *     earlier: a chain with the fewest handovers, and of those the one with the earliest window at each step. Of one window
 *     named twice the chain is that window.
 * NO_CHAIN: nothing is written. */
uint64_t poddreshi_chain(const uint8_t *file, size_t file_length, size_t first, size_t second,
                         uint16_t *out, size_t out_length);

/* The windows that overlap one window. The plan's questions, 7 and 8.
 * NEIGHBOURS: how many; their positions are written, rising, without the window itself. */
uint64_t poddreshi_neighbours(const uint8_t *file, size_t file_length, size_t at, uint16_t *out, size_t out_length);

/* The margin between two windows. The plan's questions, and 7 for the first position and then the second.
 * MARGIN: *margin is set to the smaller of their two ends less the greater of their two offsets. Above 0 it is the number of units
 *     that both cover; it is 0 where one ends just as the other begins; and below 0 it is, with its sign turned, the number of
 *     units between them. Of one window named twice it is the window's length. The order of the two makes no difference. It lies
 *     from -4,294,967,293 to 4,294,967,295, which takes more than 32 bits. Two different windows overlap exactly where it is at
 *     least the plan's minimum handover: those with a margin above 0 and below the minimum share time and do not overlap. */
uint64_t poddreshi_margin(const uint8_t *file, size_t file_length, size_t first, size_t second, int64_t *margin);

/* Are two plans the same: equal numbers of windows, and the same pairs of positions overlap, in each by its own minimum? The plan's
 * questions for the first file, and then for the second.
 * SAME, or DIFFERENT. */
uint64_t poddreshi_same(const uint8_t *first, size_t first_length, const uint8_t *second, size_t second_length);

/* The answer from two tags alone. Questions 9 and 10 for the first tag, then for the second, then 11 and 12.
 * HANDOVERS: the least number of handovers between the two windows, for the tags that build writes.
 * NO_CHAIN: no chain joins the two windows. */
uint64_t poddreshi_pair(const uint8_t *first, size_t first_length, const uint8_t *second, size_t second_length);

/* The answer from the tags at two positions of a tag file. Question 9, 7 for the first position and then the second (the number of
 * windows is the number of tags), and then those of the pair.
 * HANDOVERS or NO_CHAIN, as a pair answers. */
uint64_t poddreshi_pair_at(const uint8_t *tags, size_t tags_length, size_t first, size_t second);

/* One pair of a page: two positions, and the place for its answer. */
struct poddreshi_query {
    size_t first;
    size_t second;
    uint64_t answer;
};

/* Fills every record of a page from a tag file. Question 9 of the tag file; where it is refused, no record is touched.
 * FILLED: each record's answer is what poddreshi_pair_at says of its two positions, whatever stood there before: HANDOVERS,
 *     NO_CHAIN or a refusal, by 7 for the first position and then the second, or by those of the pair. Its positions stay. A
 *     record that is refused is no refusal of the page and spoils no other. */
uint64_t poddreshi_page(const uint8_t *tags, size_t tags_length, struct poddreshi_query *queries, size_t queries_length);

/* The answer from two short tags alone. Questions 9 and 10 for the first tag, then for the second, then 11 and 12.
 * HANDOVERS: the least number of handovers between the two windows, for the tags that poddreshi_short_tags writes.
 * NO_CHAIN: no chain joins the two windows. */
uint64_t poddreshi_short_pair(const uint8_t *first, size_t first_length, const uint8_t *second, size_t second_length);

/* The answer from the short tags at two positions of a short tag file. Question 9, 7 for the first position and then the second (the
 * number of windows is the number of tags), and then those of the short pair.
 * HANDOVERS or NO_CHAIN, as a short pair answers. */
uint64_t poddreshi_short_pair_at(const uint8_t *tags, size_t tags_length, size_t first, size_t second);

/* Where in a tag file the tag at a position begins. Questions 9 and 7; the number of windows is the number of tags.
 * FOUND: *offset is set, and the tag is the ten bytes from tags + *offset on. */
uint64_t poddreshi_lookup(const uint8_t *tags, size_t tags_length, size_t at, size_t *offset);

/* Writes one tag. Questions 8 and 10.
 * WRITTEN: the first ten bytes of out are the five numbers, two bytes each, the lowest first. */
uint64_t poddreshi_write(uint16_t plan, uint16_t component, uint16_t depth, uint16_t rank, uint16_t last,
                         uint8_t *out, size_t out_length);

/* Writes one short tag. Questions 8 and 10.
 * WRITTEN: the first eight bytes of out are the four numbers, two bytes each, the lowest first. */
uint64_t poddreshi_short_write(uint16_t plan, uint16_t component, uint16_t depth, uint16_t rank, uint8_t *out, size_t out_length);

/* An answer taken apart, that of a call or of a record. */
static inline unsigned poddreshi_field(uint64_t answer, unsigned field) {
    return (unsigned)(answer >> (16 * field) & 0xffff);
}

static inline unsigned poddreshi_kind(uint64_t answer) { return poddreshi_field(answer, 0); }

/* Of a refusal. */
static inline int poddreshi_is_refused(uint64_t answer) { return poddreshi_kind(answer) == PODDRESHI_REFUSED; }
static inline unsigned poddreshi_refusal_number(uint64_t answer) { return poddreshi_field(answer, 1); }
static inline unsigned poddreshi_refusal_input(uint64_t answer) { return poddreshi_field(answer, 2); }
static inline unsigned poddreshi_refusal_position(uint64_t answer) { return poddreshi_field(answer, 3); }

/* Of ACCEPTED and BUILT; the components of BUILT alone. */
static inline unsigned poddreshi_plan(uint64_t answer) { return poddreshi_field(answer, 1); }
static inline unsigned poddreshi_windows(uint64_t answer) { return poddreshi_field(answer, 2); }
static inline unsigned poddreshi_components(uint64_t answer) { return poddreshi_field(answer, 3); }

/* Of HANDOVERS, REACH, CHAIN (entries) and NEIGHBOURS. */
static inline unsigned poddreshi_count(uint64_t answer) { return poddreshi_field(answer, 1); }

/* Of REACH: the positions of its two windows. */
static inline unsigned poddreshi_smaller(uint64_t answer) { return poddreshi_field(answer, 2); }
static inline unsigned poddreshi_larger(uint64_t answer) { return poddreshi_field(answer, 3); }

#ifdef __cplusplus
}
#endif

#endif
