/* A fitter's reader: the least number of handovers between two windows, from their tags alone.
 *
 *   reader FIRST SECOND            two files of ten bytes each
 *   reader --short FIRST SECOND    two files of eight, the short tags of an even plan
 *
 * Compiled in a checkout, or against an installed tree:
 *
 *   cc -O2 -Iinclude examples/reader.c "$(./poddreshi build)/libpoddreshi.a" -o reader
 *   cc -O2 reader.c $(pkg-config --cflags --libs poddreshi) -o reader
 *
 * Prints the count, or that no chain joins the windows, or the refusal with its number. Exit status 0 for an answer, 1 for
 * a refusal, 2 where a file cannot be read. */
#include <stdio.h>
#include <string.h>

#include "poddreshi.h"

/* One byte more than a tag, so that a longer file is seen to be longer. */
enum { ROOM = PODDRESHI_TAG_LENGTH + 1 };

static int read_tag(const char *name, uint8_t tag[ROOM], size_t *length) {
    FILE *file = fopen(name, "rb");
    int failed;

    if (file == NULL) {
        perror(name);
        return 0;
    }
    *length = fread(tag, 1, ROOM, file);
    failed = ferror(file);
    fclose(file);
    if (failed) fprintf(stderr, "%s: cannot be read\n", name);
    return !failed;
}

int main(int count, char **words) {
    uint8_t first[ROOM], second[ROOM];
    size_t first_length, second_length;
    uint64_t answer;
    int is_short = count == 4 && strcmp(words[1], "--short") == 0;

    if (count != 3 && !is_short) {
        fprintf(stderr, "usage: reader [--short] FIRST SECOND\n");
        return 2;
    }
    words += is_short;
    if (!read_tag(words[1], first, &first_length) || !read_tag(words[2], second, &second_length)) return 2;
    answer = is_short ? poddreshi_short_pair(first, first_length, second, second_length)
                      : poddreshi_pair(first, first_length, second, second_length);
    switch (poddreshi_kind(answer)) {
    case PODDRESHI_HANDOVERS:
        printf("%u\n", poddreshi_count(answer));
        return 0;
    case PODDRESHI_NO_CHAIN:
        printf("no chain\n");
        return 0;
    default:
        printf("refused %u: the %s tag\n", poddreshi_refusal_number(answer),
               poddreshi_refusal_input(answer) == 0 ? "first" : "second");
        return 1;
    }
}
