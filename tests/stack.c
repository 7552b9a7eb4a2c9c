/* How much stack each call of the library uses on a plan of 2,048 windows, held to what include/poddreshi.h says: a thread runs the call
 * on memory that was painted beforehand, and what is no longer as it was painted has been used. */
#define _POSIX_C_SOURCE 200809L
#include "poddreshi.h"
#include <pthread.h>
#include <stdio.h>
#include <stdlib.h>
#include <string.h>

enum { WINDOWS = 2048, RECORDS = 300, STACK = 1 << 20, PAINT = 0xA5 };

static unsigned char plan[8 + 8 * WINDOWS], tags[10 * WINDOWS], short_tags[8 * WINDOWS];
static unsigned char fewer[8 + 8 * (WINDOWS - 1)], changed[8 + 8 * WINDOWS], changed_tags[10 * WINDOWS];
static uint16_t tables[5][WINDOWS];
static struct poddreshi_query queries[RECORDS];

static void nothing(void) {}
static void validate(void) { poddreshi_validate(plan, sizeof plan); }
static void build(void) {
    poddreshi_build(plan, sizeof plan, tables[0], WINDOWS, tables[1], WINDOWS, tables[2], WINDOWS, tables[3], WINDOWS, tables[4],
                    WINDOWS, tags, sizeof tags);
}
static void tag_file(void) { poddreshi_tags(plan, sizeof plan, tags, sizeof tags); }
static void short_tag_file(void) { poddreshi_short_tags(plan, sizeof plan, short_tags, sizeof short_tags); }
/* A call that is refused would use less, and say nothing of the stack. */
static void is_done(uint64_t answer) {
    if (!poddreshi_is_refused(answer)) return;
    printf("stack: a call is refused by %u\n", poddreshi_refusal_number(answer));
    exit(2);
}
static void add(void) {
    is_done(poddreshi_add(fewer, sizeof fewer, 13, 700, 9, changed, sizeof changed, changed_tags, sizeof changed_tags));
}
static void withdraw(void) {
    is_done(poddreshi_withdraw(plan, sizeof plan, 13, 700, changed, sizeof changed, changed_tags, sizeof changed_tags));
}
static void reach(void) { poddreshi_reach(plan, sizeof plan, 5); }
static void chain(void) { poddreshi_chain(plan, sizeof plan, 0, WINDOWS - 1, tables[0], WINDOWS); }
static void neighbours(void) { poddreshi_neighbours(plan, sizeof plan, 5, tables[0], WINDOWS); }
static void margin(void) {
    int64_t number;
    is_done(poddreshi_margin(plan, sizeof plan, 0, WINDOWS - 1, &number));
}
static void same(void) { poddreshi_same(plan, sizeof plan, plan, sizeof plan); }
static void pair(void) { poddreshi_pair(tags, 10, tags + 10, 10); }
static void pair_at(void) { poddreshi_pair_at(tags, sizeof tags, 3, 700); }
static void page(void) { poddreshi_page(tags, sizeof tags, queries, RECORDS); }
static void write_tag(void) { poddreshi_write(12, 0, 2, 2, 1, tags, sizeof tags); }
static void lookup(void) {
    size_t offset;
    poddreshi_lookup(tags, sizeof tags, 700, &offset);
}
static void short_pair(void) { poddreshi_short_pair(short_tags, 8, short_tags + 8, 8); }
static void short_pair_at(void) { poddreshi_short_pair_at(short_tags, sizeof short_tags, 3, 700); }
static void write_short(void) { poddreshi_short_write(12, 0, 2, 2, short_tags, sizeof short_tags); }

/* The calls on tags stand behind those that write them, and those that write over a tag behind the calls on it. Reach and chain are
 * held to less than the header says: to the one table of parents, 4,096 bytes, that each of them fills; and margin, which fills none, to
 * less than any table. */
static const struct { const char *name; void (*call)(void); long most; } calls[] = {
    {"nothing", nothing, 0},           {"validate", validate, 17000},         {"build", build, 17000},
    {"tags", tag_file, 38000},         {"short_tags", short_tag_file, 38000}, {"reach", reach, 5000},
    {"chain", chain, 5000},            {"neighbours", neighbours, 17000},     {"same", same, 17000},
    {"pair", pair, 100},               {"pair_at", pair_at, 100},             {"page", page, 100},
    {"lookup", lookup, 100},           {"short_pair_at", short_pair_at, 100}, {"short_pair", short_pair, 100},
    {"write", write_tag, 100},         {"short_write", write_short, 100},     {"add", add, 38000},
    {"withdraw", withdraw, 38000},     {"margin", margin, 1000},
};

static void *run(void *call) {
    (*(void (**)(void))call)();
    return NULL;
}

/* The bytes of a painted stack that a thread has used for a call. */
static long used(void (*call)(void)) {
    unsigned char *stack = aligned_alloc(4096, STACK);
    pthread_attr_t attributes;
    pthread_t thread;
    long left = 0;
    memset(stack, PAINT, STACK);
    if (pthread_attr_init(&attributes) || pthread_attr_setstack(&attributes, stack, STACK) ||
        pthread_create(&thread, &attributes, run, &call) || pthread_join(thread, NULL))
        exit(2);
    while (stack[left] == PAINT) left++;
    free(stack);
    return STACK - left;
}

int main(void) {
    int bad = 0;
    long thread = 0;
    plan[0] = 12;
    plan[2] = WINDOWS & 255;
    plan[3] = WINDOWS >> 8;
    plan[4] = 3;
    for (unsigned v = 0; v < WINDOWS; v++) { /* a staircase: each window overlaps the next two, with which it shares 5 and 3 minutes */
        plan[8 + 8 * v] = 2 * v & 255;
        plan[9 + 8 * v] = 2 * v >> 8;
        plan[12 + 8 * v] = 7;
    }
    memcpy(fewer, plan, sizeof fewer); /* the same without the last, to which one can be added */
    fewer[2] = (WINDOWS - 1) & 255;
    fewer[3] = (WINDOWS - 1) >> 8;
    for (unsigned i = 0; i < RECORDS; i++) { /* pairs of windows, and behind them such as have a position past the last */
        queries[i].first = 7 * i;
        queries[i].second = WINDOWS - 100 + i / 2;
    }
    for (size_t i = 0; i < sizeof calls / sizeof calls[0]; i++) {
        long bytes = used(calls[i].call);
        if (i == 0) thread = bytes; /* what the thread takes for itself */
        if (bytes - thread > calls[i].most) {
            printf("stack: %s uses %ld bytes, more than %ld\n", calls[i].name, bytes - thread, calls[i].most);
            bad = 1;
        }
    }
    if (!bad) printf("stack: every call within what the header says\n");
    return bad;
}
