/* Counts for many pairs of windows of one plan, from its tag file, in one call.
 *
 *   page TAGS [FIRST SECOND]...    a tag file, and pairs of positions
 *
 * Compiled as reader.c is:
 *
 *   cc -O2 -Iinclude examples/page.c "$(./poddreshi build)/libpoddreshi.a" -o page
 *
 * Prints a line for each pair: its positions and the count, or that no chain joins the windows, or the refusal with its number.
 * Exit status 0, also where single pairs are refused; 1 where the tag file is, 2 where the command is mistaken or a file cannot
 * be read. */
#include <stdio.h>
#include <stdlib.h>

#include "poddreshi.h"

enum { TAGS = 65535, PAIRS = 1024 };

static uint8_t tags[PODDRESHI_TAG_LENGTH * TAGS + 1]; /* one byte more, so that a longer file is seen to be longer */
static struct poddreshi_query page[PAIRS];

static int read_tags(const char *name, size_t *length) {
    FILE *file = fopen(name, "rb");
    int failed;

    if (file == NULL) {
        perror(name);
        return 0;
    }
    *length = fread(tags, 1, sizeof tags, file);
    failed = ferror(file);
    fclose(file);
    failed = failed || *length == sizeof tags;
    if (failed) fprintf(stderr, "%s: cannot be read, or has more than %d tags\n", name, TAGS);
    return !failed;
}

/* A number that a position cannot hold becomes the greatest, which no tag file has. */
static int read_position(const char *word, size_t *at) {
    char *end;

    *at = strtoul(word, &end, 10);
    return word[0] >= '0' && word[0] <= '9' && *end == '\0';
}

static void print(const struct poddreshi_query *query) {
    printf("%zu %zu ", query->first, query->second);
    switch (poddreshi_kind(query->answer)) {
    case PODDRESHI_HANDOVERS:
        printf("%u\n", poddreshi_count(query->answer));
        break;
    case PODDRESHI_NO_CHAIN:
        printf("no chain\n");
        break;
    default:
        printf("refused %u: the %s window\n", poddreshi_refusal_number(query->answer),
               poddreshi_refusal_input(query->answer) == 0 ? "first" : "second");
    }
}

int main(int count, char **words) {
    size_t length, pairs = count < 2 ? 0 : (size_t)(count - 2) / 2, i;
    int fits = count >= 2 && count % 2 == 0 && pairs <= PAIRS;
    uint64_t answer;

    for (i = 0; fits && i < pairs; i++)
        fits = read_position(words[2 + 2 * i], &page[i].first) && read_position(words[3 + 2 * i], &page[i].second);
    if (!fits) {
        fprintf(stderr, "usage: page TAGS [FIRST SECOND]...    positions from 0, at most %d pairs\n", PAIRS);
        return 2;
    }
    if (!read_tags(words[1], &length)) return 2;
    answer = poddreshi_page(tags, length, page, pairs);
    if (poddreshi_is_refused(answer)) {
        printf("refused %u: the tag file\n", poddreshi_refusal_number(answer));
        return 1;
    }
    for (i = 0; i < pairs; i++) print(&page[i]);
    return 0;
}
