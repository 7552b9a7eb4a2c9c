/* Every call through include/poddreshi.h, on plan 12, the figures that it names and the latest ends: nothing else holds the
 * header's declarations to the library. */
#include <stdio.h>
#include <stdlib.h>
#include <string.h>

#include "poddreshi.h"

static void check(int holds, const char *what) {
    if (holds) return;
    fprintf(stderr, "header: %s\n", what);
    exit(1);
}

/* One kind of answer, with its numbers. */
static int is(uint64_t answer, unsigned kind, unsigned first, unsigned second, unsigned third) {
    return poddreshi_kind(answer) == kind && poddreshi_field(answer, 1) == first && poddreshi_field(answer, 2) == second &&
           poddreshi_field(answer, 3) == third;
}

static int refused(uint64_t answer, unsigned number, unsigned input, unsigned position) {
    return poddreshi_is_refused(answer) && poddreshi_refusal_number(answer) == number &&
           poddreshi_refusal_input(answer) == input && poddreshi_refusal_position(answer) == position;
}

static const uint8_t windows[7][2] = {{0, 10}, {2, 3}, {4, 12}, {9, 2}, {12, 6}, {17, 1}, {18, 4}};
static const uint16_t numbers[7][5] = {{0, 0, 0, 5, 4}, {0, 0, 1, 0, 3}, {0, 0, 1, 3, 2}, {0, 0, 1, 4, 4},
                                       {2, 0, 2, 2, 1}, {4, 0, 3, 1, 1}, {6, 1, 0, 0, 0}};

static uint8_t file[64];
static uint16_t parents[7], components[7], depths[7], ranks[7], last_ranks[7], out[7];
static uint8_t tags[70], alone[70], tag[10];

static void check_plan(void) {
    static const uint16_t chain[] = {5, 4, 2, 3}, near[] = {0, 1, 3, 4};
    static const uint8_t empty[] = {0, 0, 0, 0, 1, 0, 0, 0};
    uint64_t answer = poddreshi_validate(file, sizeof file);

    check(is(answer, PODDRESHI_ACCEPTED, 12, 7, 0) && poddreshi_plan(answer) == 12 && poddreshi_windows(answer) == 7, "validate");
    answer = poddreshi_reach(file, sizeof file, 1);
    check(is(answer, PODDRESHI_REACH, 3, 0, 5) && poddreshi_count(answer) == 3, "reach");
    check(poddreshi_smaller(answer) == 0 && poddreshi_larger(answer) == 5, "the pair of a reach");
    check(is(poddreshi_reach(file, sizeof file, 6), PODDRESHI_REACH, 0, 6, 6), "reach of a window alone");
    check(refused(poddreshi_reach(file, sizeof file, 7), 7, 0, 0), "reach of a position past the last");
    check(is(poddreshi_chain(file, sizeof file, 3, 5, out, 7), PODDRESHI_CHAIN, 4, 0, 0), "chain");
    check(memcmp(out, chain, sizeof chain) == 0, "entries of the chain");
    check(is(poddreshi_chain(file, sizeof file, 5, 6, out, 7), PODDRESHI_NO_CHAIN, 0, 0, 0), "no chain");
    check(refused(poddreshi_chain(file, sizeof file, 0, 7, out, 7), 7, 1, 0), "a second position past the last");
    answer = poddreshi_neighbours(file, sizeof file, 2, out, 7);
    check(is(answer, PODDRESHI_NEIGHBOURS, 4, 0, 0) && poddreshi_count(answer) == 4, "neighbours");
    check(memcmp(out, near, sizeof near) == 0, "positions of the neighbours");
    check(is(poddreshi_same(file, sizeof file, file, sizeof file), PODDRESHI_SAME, 0, 0, 0), "same");
    check(is(poddreshi_same(file, sizeof file, empty, sizeof empty), PODDRESHI_DIFFERENT, 0, 0, 0), "different");
    check(refused(poddreshi_same(file, sizeof file, file, 7), 1, 1, 0), "a short second file");
}

static void check_build(void) {
    uint64_t answer = poddreshi_build(file, sizeof file, parents, 7, components, 7, depths, 7, ranks, 7, last_ranks, 7, tags, 70);
    int i;

    check(is(answer, PODDRESHI_BUILT, 12, 7, 2) && poddreshi_components(answer) == 2, "build");
    for (i = 0; i < 7; i++) {
        const uint16_t row[5] = {parents[i], components[i], depths[i], ranks[i], last_ranks[i]};
        size_t offset = 1;

        check(memcmp(row, numbers[i], sizeof row) == 0, "the tables");
        check(is(poddreshi_write(12, row[1], row[2], row[3], row[4], tag, 10), PODDRESHI_WRITTEN, 0, 0, 0), "write");
        check(is(poddreshi_lookup(tags, 70, (size_t)i, &offset), PODDRESHI_FOUND, 0, 0, 0), "lookup");
        check(offset == 10 * (size_t)i && memcmp(tags + offset, tag, 10) == 0, "the tag that is looked up");
    }
    check(is(poddreshi_tags(file, sizeof file, alone, 70), PODDRESHI_BUILT, 12, 7, 2), "tags");
    check(memcmp(alone, tags, sizeof tags) == 0, "the tag file alone");
    check(refused(poddreshi_tags(file, sizeof file, alone, 69), 8, 0, 0), "a short tag file");
    check(is(poddreshi_pair(tags + 10, 10, tags + 50, 10), PODDRESHI_HANDOVERS, 3, 0, 0), "pair");
    check(refused(poddreshi_pair(tags, 10, tags, 9), 9, 1, 0), "a short second tag");
    check(is(poddreshi_pair_at(tags, 70, 1, 5), PODDRESHI_HANDOVERS, 3, 0, 0), "pair at two positions");
    check(is(poddreshi_pair_at(tags, 70, 6, 5), PODDRESHI_NO_CHAIN, 0, 0, 0), "no chain of two positions");
    check(refused(poddreshi_pair_at(tags, 70, 0, 7), 7, 1, 0), "a second position past the last tag");
}

/* A page on the tags of plan 12, its records laid out as the library reads them: two have a position past the last tag, and the
 * last is not lent. */
static void check_page(void) {
    static const struct poddreshi_query asked[6] = {{1, 5, 40}, {6, 5, 41}, {7, 0, 42}, {0, 7, 43}, {6, 6, 44}, {2, 3, 45}};
    struct poddreshi_query page[6];
    int i;

    check(sizeof page[0] == 24 && sizeof page[0].first == 8 && sizeof page[0].answer == 8, "the size of a record");
    check(offsetof(struct poddreshi_query, first) == 0 && offsetof(struct poddreshi_query, second) == 8 &&
              offsetof(struct poddreshi_query, answer) == 16,
          "where the numbers of a record lie");
    memcpy(page, asked, sizeof page);
    check(refused(poddreshi_page(tags, 69, page, 5), 9, 0, 0), "a page and a short tag file");
    check(memcmp(page, asked, sizeof page) == 0, "a page that is refused");
    check(is(poddreshi_page(tags, 70, page, 5), PODDRESHI_FILLED, 0, 0, 0), "page");
    check(is(page[0].answer, PODDRESHI_HANDOVERS, 3, 0, 0), "a record of a page");
    check(is(page[1].answer, PODDRESHI_NO_CHAIN, 0, 0, 0), "no chain in a record");
    check(refused(page[2].answer, 7, 0, 0), "a first position past the last tag in a record");
    check(refused(page[3].answer, 7, 1, 0), "a second position past the last tag in a record");
    check(is(page[4].answer, PODDRESHI_HANDOVERS, 0, 0, 0), "the last record of a page");
    check(memcmp(page + 5, asked + 5, sizeof page[0]) == 0, "a record behind a page");
    for (i = 0; i < 5; i++) check(page[i].first == asked[i].first && page[i].second == asked[i].second, "the positions of a record");
    check(is(poddreshi_page(tags, 0, page, 0), PODDRESHI_FILLED, 0, 0, 0), "a page of no records");
}

/* Plan 12 with windows 1 and 3 longer is even and has the tree of plan 12; windows 3 and 4 overlap in it. */
static void check_short(void) {
    static uint8_t even[64], tags_of_even[56], short_tag[8];
    int i;

    check(refused(poddreshi_short_tags(file, sizeof file, tags_of_even, 56), 13, 0, 1), "an end that falls");
    memcpy(even, file, sizeof file);
    even[12 + 8 * 1] = 9;
    even[12 + 8 * 3] = 8;
    check(is(poddreshi_short_tags(even, sizeof even, tags_of_even, 56), PODDRESHI_BUILT, 12, 7, 2), "short tags");
    for (i = 0; i < 7; i++) {
        const uint16_t *row = numbers[i];

        check(is(poddreshi_short_write(12, row[1], row[2], row[3], short_tag, 8), PODDRESHI_WRITTEN, 0, 0, 0), "short write");
        check(memcmp(tags_of_even + 8 * i, short_tag, 8) == 0, "the short tags");
    }
    check(refused(poddreshi_short_tags(even, sizeof even, tags_of_even, 55), 8, 0, 0), "a short tag file too short");
    check(is(poddreshi_short_pair(tags_of_even + 24, 8, tags_of_even + 40, 8), PODDRESHI_HANDOVERS, 2, 0, 0), "short pair");
    check(refused(poddreshi_short_pair(tags_of_even, 8, tags, 10), 9, 1, 0), "a second tag that is not short");
    check(is(poddreshi_short_pair_at(tags_of_even, 56, 3, 5), PODDRESHI_HANDOVERS, 2, 0, 0), "short pair at two positions");
    check(is(poddreshi_short_pair_at(tags_of_even, 56, 6, 5), PODDRESHI_NO_CHAIN, 0, 0, 0), "no chain of two short tags");
    check(refused(poddreshi_short_pair_at(tags_of_even, 56, 0, 7), 7, 1, 0), "a second position past the last short tag");
}

/* What stands in a buffer before a call. */
enum { PAINT = 40 };

/* Whether so many bytes stand as they did. */
static int painted(const uint8_t *bytes, size_t length) {
    while (length > 0 && bytes[length - 1] == PAINT) length--;
    return length == 0;
}

/* Minutes that two windows of plan 12 share, a window inside another, a gap, two that touch, and a window with itself, the first position
 * before the second and behind it. What stands in the number beforehand is no margin in any of its bytes. */
static void check_margin(void) {
    static const struct { size_t first, second; int64_t margin; } due[] = {
        {0, 2, 6}, {2, 0, 6}, {0, 1, 3}, {1, 0, 3}, {0, 6, -8}, {6, 0, -8}, {4, 6, 0}, {6, 5, 0}, {0, 0, 10}, {5, 5, 1}};
    int64_t number[3];
    size_t i;

    memset(number, PAINT, sizeof number);
    check(refused(poddreshi_margin(file, sizeof file, 7, 0, number + 1), 7, 0, 0), "margin of a first position past the last");
    check(refused(poddreshi_margin(file, sizeof file, 0, 7, number + 1), 7, 1, 0), "margin of a second position past the last");
    check(refused(poddreshi_margin(file, sizeof file, 7, 7, number + 1), 7, 0, 0), "margin of two positions past the last");
    check(refused(poddreshi_margin(file, sizeof file - 1, 7, 7, number + 1), 3, 0, 0), "margin in a short file");
    check(painted((const uint8_t *)number, sizeof number), "what a refused margin leaves");
    for (i = 0; i < sizeof due / sizeof due[0]; i++) {
        memset(number, PAINT, sizeof number);
        check(is(poddreshi_margin(file, sizeof file, due[i].first, due[i].second, number + 1), PODDRESHI_MARGIN, 0, 0, 0), "margin");
        check(number[1] == due[i].margin, "the number of a margin");
        check(number[0] == number[2] && painted((const uint8_t *)number, sizeof number[0]), "what lies beside a margin");
    }
}

/* Plan 12 with a window (17, 3), which goes behind the one that begins with it, and the same withdrawn again. */
static void check_changes(void) {
    static const uint16_t joined[8][4] = {{0, 0, 7, 6}, {0, 1, 0, 5}, {0, 1, 5, 4}, {0, 1, 6, 6},
                                          {0, 2, 4, 3}, {0, 3, 1, 3}, {0, 3, 3, 2}, {0, 4, 2, 2}};
    static const uint8_t empty[] = {0, 0, 0, 0, 1, 0, 0, 0}, window[] = {17, 0, 0, 0, 3, 0, 0, 0};
    uint8_t due[72], more[80], more_tags[90], less[80], less_tags[90];
    int i;

    memset(more, PAINT, sizeof more);
    memset(more_tags, PAINT, sizeof more_tags);
    memset(less, PAINT, sizeof less);
    memset(less_tags, PAINT, sizeof less_tags);
    check(refused(poddreshi_add(file, sizeof file, 12, 17, 3, more, 72, more_tags, 80), 16, 0, 0), "add with the old plan number");
    check(refused(poddreshi_add(file, sizeof file, 13, 17, 0, more, 72, more_tags, 80), 4, 0, 0), "a short window to add");
    check(refused(poddreshi_add(file, sizeof file, 13, 4294967295u, 6, more, 72, more_tags, 80), 5, 0, 0), "a late window to add");
    check(refused(poddreshi_add(file, sizeof file, 13, 17, 3, more, 71, more_tags, 80), 8, 0, 0), "a short buffer for the plan");
    check(refused(poddreshi_add(file, sizeof file, 13, 17, 3, more, 72, more_tags, 79), 8, 0, 0), "a short buffer for its tags");
    check(refused(poddreshi_withdraw(file, sizeof file, 12, 6, less, 56, less_tags, 60), 16, 0, 0), "withdraw with the old number");
    check(refused(poddreshi_withdraw(file, sizeof file, 13, 7, less, 56, less_tags, 60), 7, 0, 0), "a position that is not there");
    check(refused(poddreshi_withdraw(file, sizeof file, 13, 6, less, 55, less_tags, 60), 8, 0, 0), "a short buffer for less");
    check(refused(poddreshi_withdraw(file, sizeof file, 13, 6, less, 56, less_tags, 59), 8, 0, 0), "a short buffer for fewer tags");
    check(painted(more, sizeof more) && painted(more_tags, sizeof more_tags), "what a refused addition leaves");
    check(painted(less, sizeof less) && painted(less_tags, sizeof less_tags), "what a refused withdrawal leaves");

    memcpy(due, file, 56);
    memcpy(due + 56, window, 8);
    memcpy(due + 64, file + 56, 8);
    due[0] = 13;
    due[2] = 8;
    check(is(poddreshi_add(file, sizeof file, 13, 17, 3, more, sizeof more, more_tags, sizeof more_tags), PODDRESHI_BUILT, 13, 8, 1),
          "add");
    check(memcmp(more, due, sizeof due) == 0 && painted(more + 72, sizeof more - 72), "the plan with a window more");
    for (i = 0; i < 8; i++) {
        const uint16_t *row = joined[i];

        check(is(poddreshi_write(13, row[0], row[1], row[2], row[3], tag, 10), PODDRESHI_WRITTEN, 0, 0, 0), "write");
        check(memcmp(more_tags + 10 * i, tag, 10) == 0, "the tags of the plan with a window more");
    }
    check(painted(more_tags + 80, sizeof more_tags - 80), "what lies past the tags");
    check(is(poddreshi_withdraw(more, 72, 12, 6, less, sizeof less, less_tags, sizeof less_tags), PODDRESHI_BUILT, 12, 7, 2),
          "withdraw");
    check(memcmp(less, file, sizeof file) == 0 && painted(less + 64, sizeof less - 64), "the plan with a window less");
    check(memcmp(less_tags, tags, sizeof tags) == 0 && painted(less_tags + 70, sizeof less_tags - 70), "the tags with a window less");
    check(is(poddreshi_add(empty, sizeof empty, 12, 5, 5, more, 16, more_tags, 10), PODDRESHI_BUILT, 12, 1, 1), "add to no window");
    check(is(poddreshi_withdraw(more, 16, 0, 0, less, 8, less_tags, 0), PODDRESHI_BUILT, 0, 0, 0), "withdraw the only window");
    check(memcmp(less, empty, sizeof empty) == 0, "the plan with no window");
}

/* A plan of minimum 1 with two windows, each number in four bytes with the lowest first. */
static void put_two(uint8_t plan[24], uint32_t offset, uint32_t length, uint32_t second_offset, uint32_t second_length) {
    const uint32_t put[6] = {12 + 65536 * 2, 1, offset, length, second_offset, second_length};
    int i;

    for (i = 0; i < 24; i++) plan[i] = (uint8_t)(put[i / 4] >> (8 * (i % 4)));
}

/* Ends up to 4,294,967,295: the greatest of before and one more, the greatest now and one more, the extreme margins, and windows
 * to add with the greatest sum and one more. */
static void check_latest(void) {
    static const uint8_t last[] = {254, 255, 255, 255, 1, 0, 0, 0};
    uint8_t two[24], more[32], more_tags[30], short_tags[16];
    int64_t number[3];

    put_two(two, 0, 10000000, 10000000, 1);
    check(is(poddreshi_validate(two, sizeof two), PODDRESHI_ACCEPTED, 12, 2, 0), "an end at 10,000,001");
    check(is(poddreshi_neighbours(two, sizeof two, 0, out, 7), PODDRESHI_NEIGHBOURS, 0, 0, 0), "two that touch at 10,000,000");
    put_two(two, 0, 10000001, 10000000, 1);
    check(is(poddreshi_neighbours(two, sizeof two, 0, out, 7), PODDRESHI_NEIGHBOURS, 1, 0, 0), "two that share 10,000,000");

    memset(more, PAINT, sizeof more);
    memset(more_tags, PAINT, sizeof more_tags);
    memset(short_tags, PAINT, sizeof short_tags);
    memset(number, PAINT, sizeof number);
    put_two(two, 0, 1, 4294967295u, 1);
    check(refused(poddreshi_validate(two, sizeof two), 5, 0, 1), "the sum 4,294,967,296");
    check(refused(poddreshi_margin(two, sizeof two, 0, 1, number), 5, 0, 1), "margin, the sum 4,294,967,296");
    check(refused(poddreshi_tags(two, sizeof two, more_tags, 20), 5, 0, 1), "tags, the sum 4,294,967,296");
    check(refused(poddreshi_short_tags(two, sizeof two, short_tags, 16), 5, 0, 1), "short tags, the sum 4,294,967,296");
    put_two(two, 1, 4294967295u, 4294967295u, 4294967295u);
    check(refused(poddreshi_validate(two, sizeof two), 5, 0, 0), "a long window, the sum 4,294,967,296");
    put_two(two, 0, 4294967295u, 4294967294u, 0);
    check(refused(poddreshi_validate(two, sizeof two), 4, 0, 1), "no length at the end of the line");
    put_two(two, 0, 4294967295u, 1, 4294967293u);
    check(refused(poddreshi_short_tags(two, sizeof two, short_tags, 16), 13, 0, 1), "an end that falls to 4,294,967,294");

    put_two(two, 0, 1, 4294967294u, 1);
    check(refused(poddreshi_add(two, sizeof two, 13, 4294967295u, 1, more, 32, more_tags, 30), 5, 0, 0), "add a window too late");
    check(refused(poddreshi_add(two, sizeof two, 13, 1, 4294967295u, more, 32, more_tags, 30), 5, 0, 0), "add a window too long");
    check(refused(poddreshi_add(two, sizeof two, 12, 4294967295u, 1, more, 32, more_tags, 30), 16, 0, 0), "16 before 5");
    check(painted(more, sizeof more) && painted(more_tags, sizeof more_tags), "what an addition refused by its sum leaves");
    check(painted((const uint8_t *)number, sizeof number) && painted(short_tags, sizeof short_tags), "what a late end leaves");
    check(is(poddreshi_margin(two, sizeof two, 0, 1, number), PODDRESHI_MARGIN, 0, 0, 0), "the least margin");
    check(is(poddreshi_add(two, sizeof two, 13, 4294967294u, 1, more, 32, more_tags, 30), PODDRESHI_BUILT, 13, 3, 2),
          "add, the sum 4,294,967,295");
    check(memcmp(more + 16, last, 8) == 0 && memcmp(more + 24, last, 8) == 0, "the last minute twice");
    put_two(two, 0, 4294967295u, 4294967294u, 1);
    check(is(poddreshi_short_tags(two, sizeof two, short_tags, 16), PODDRESHI_BUILT, 12, 2, 1), "ends that are equal");
    check(is(poddreshi_margin(two, sizeof two, 0, 0, number + 1), PODDRESHI_MARGIN, 0, 0, 0), "the greatest margin");
    check(is(poddreshi_margin(two, sizeof two, 1, 0, number + 2), PODDRESHI_MARGIN, 0, 0, 0), "the margin of the last minute");
    check(number[0] == -4294967293 && number[1] == 4294967295 && number[2] == 1, "margins at the end of the line");
}

/* The figures are where the library's answers change. */
static void check_figures(void) {
    static uint8_t longest[PODDRESHI_FILE_LIMIT], changed[PODDRESHI_FILE_LIMIT];
    static uint8_t changed_tags[PODDRESHI_TAG_LENGTH * PODDRESHI_WINDOWS_LIMIT];
    unsigned n = PODDRESHI_WINDOWS_LIMIT, i;

    check(is(poddreshi_write(12, PODDRESHI_FIELD_LIMIT, 0, 0, 0, tag, PODDRESHI_TAG_LENGTH), PODDRESHI_WRITTEN, 0, 0, 0), "a tag");
    check(refused(poddreshi_write(12, 0, 0, 0, 0, tag, PODDRESHI_TAG_LENGTH - 1), 8, 0, 0), "the tag's length");
    check(refused(poddreshi_write(12, PODDRESHI_FIELD_LIMIT + 1, 0, 0, 0, tag, 10), 10, 0, 0), "the field's limit");
    check(is(poddreshi_short_write(12, 0, 0, PODDRESHI_FIELD_LIMIT, tag, PODDRESHI_SHORT_TAG_LENGTH), PODDRESHI_WRITTEN, 0, 0, 0),
          "a short tag");
    check(refused(poddreshi_short_write(12, 0, 0, 0, tag, PODDRESHI_SHORT_TAG_LENGTH - 1), 8, 0, 0), "the short tag's length");
    check(refused(poddreshi_short_write(12, 0, 0, PODDRESHI_FIELD_LIMIT + 1, tag, 8), 10, 0, 0), "the short field's limit");
    longest[2] = n % 256;
    longest[3] = n / 256;
    longest[4] = 1;
    for (i = 0; i < n; i++) longest[12 + 8 * i] = 1;
    check(is(poddreshi_validate(longest, sizeof longest), PODDRESHI_ACCEPTED, 0, n, 0), "the longest file");
    check(refused(poddreshi_add(longest, sizeof longest, 12, 0, 1, changed, sizeof changed, changed_tags, sizeof changed_tags), 15, 0, 0),
          "a window more than the limit");
    check(is(poddreshi_withdraw(longest, sizeof longest, 12, 0, changed, sizeof changed, changed_tags, sizeof changed_tags),
             PODDRESHI_BUILT, 12, n - 1, 1),
          "a window less than the limit");
    check(is(poddreshi_add(changed, sizeof changed - 8, 0, 0, 1, longest, sizeof longest, changed_tags, sizeof changed_tags),
             PODDRESHI_BUILT, 0, n, 1),
          "a window more, up to the limit");
    longest[2] = (n + 1) % 256;
    check(refused(poddreshi_validate(longest, sizeof longest), 2, 0, 0), "the limit of windows");
}

/* Two windows that share 5 minutes overlap by a minimum of 5 and not by 6, and their margin is 5 by either; by 11 both are too short. */
static void check_minimum(void) {
    static const uint8_t by_5[] = {12, 0, 2, 0, 5, 0, 0, 0, 0, 0, 0, 0, 10, 0, 0, 0, 5, 0, 0, 0, 10, 0, 0, 0};
    uint8_t by_another[sizeof by_5];
    int64_t margins[3] = {PAINT, PAINT, PAINT};

    memcpy(by_another, by_5, sizeof by_5);
    by_another[4] = 6;
    check(is(poddreshi_tags(by_5, sizeof by_5, alone, 20), PODDRESHI_BUILT, 12, 2, 1), "the minimum that is shared");
    check(is(poddreshi_tags(by_another, sizeof by_another, alone, 20), PODDRESHI_BUILT, 12, 2, 2), "a minute less than the minimum");
    check(is(poddreshi_same(by_5, sizeof by_5, by_another, sizeof by_another), PODDRESHI_DIFFERENT, 0, 0, 0), "two minimums");
    check(is(poddreshi_margin(by_5, sizeof by_5, 0, 1, margins), PODDRESHI_MARGIN, 0, 0, 0), "margin, minimum 5");
    check(is(poddreshi_margin(by_another, sizeof by_another, 1, 0, margins + 1), PODDRESHI_MARGIN, 0, 0, 0), "margin, minimum 6");
    by_another[4] = 11;
    check(refused(poddreshi_validate(by_another, sizeof by_another), 4, 0, 0), "a window shorter than the minimum");
    check(refused(poddreshi_margin(by_another, sizeof by_another, 2, 2, margins + 2), 4, 0, 0), "margin, minimum 11");
    check(margins[0] == 5 && margins[1] == 5 && margins[2] == PAINT, "margins by three minimums");
    by_another[4] = 0;
    check(refused(poddreshi_validate(by_another, sizeof by_another), 14, 0, 0), "no minimum");
    check(refused(poddreshi_same(by_5, sizeof by_5, by_another, sizeof by_another), 14, 1, 0), "no minimum in the second file");
}

int main(void) {
    int i;

    file[0] = 12;
    file[2] = 7;
    file[4] = 1;
    for (i = 0; i < 7; i++) {
        file[8 + 8 * i] = windows[i][0];
        file[12 + 8 * i] = windows[i][1];
    }
    check_plan();
    check_build();
    check_page();
    check_margin();
    check_changes();
    check_short();
    check_figures();
    check_minimum();
    check_latest();
    file[8 + 8 * 3] = 1;
    check(refused(poddreshi_validate(file, sizeof file), 6, 0, 3), "a falling offset");
    puts("header: every call on plan 12, every figure, the minimum and the latest ends as they should be");
    return 0;
}
