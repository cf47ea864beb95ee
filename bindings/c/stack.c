/* How much of its caller's stack each call takes, in bytes. Each call is made on a stack that was painted before; what is paint no longer was used.
 * The sets grow to 500 regions, in trees of up to four levels: side by side, opened and closed at random, and 255 each inside the one before. */
#define _XOPEN_SOURCE 700
#include <stdio.h>
#include <stdlib.h>
#include <string.h>
#include <ucontext.h>

#include "sasnuvarth.h"

enum { STACK_BYTES = 65536, PAINT = 0xA5, REGIONS = 500, DEEPEST = 255, LEVELS = 4, WORDS = SASNUVARTH_IMAGE_WORDS };

struct region {
    uint32_t start, end, level;
};

static uint32_t image[WORDS], out[4 * REGIONS], buffer[SASNUVARTH_BUFFER_WORDS];
static uint32_t items[SASNUVARTH_ITEM_WORDS * REGIONS], places[REGIONS];
static size_t item_words;
static const uint32_t shares[SASNUVARTH_ACCOUNTS] = {REGIONS};
static struct sasnuvarth_desk desk;

/* THE PAINTED STACK */
static unsigned char stack[STACK_BYTES];
static ucontext_t here, there;
static uintptr_t top;      /* the caller's stack pointer before the call */
static struct region what; /* what the call is about */
static uint32_t number;    /* what it answered */

#define CALL(name, call)                                      \
    static void name(void) {                                  \
        __asm__ volatile("mov %%rsp, %0" : "=r"(top) : : "memory"); \
        number = (call);                                      \
        __asm__ volatile("" : : : "memory");                  \
    }

CALL(open_set, sasnuvarth_open_set(image, WORDS, shares))
CALL(save, sasnuvarth_save(image, WORDS, 0, what.start, what.end, what.level, 1))
CALL(delete, sasnuvarth_delete(image, WORDS, 0, what.start))
CALL(batch, sasnuvarth_batch(image, WORDS, items, item_words, places, REGIONS))
CALL(ancestors, sasnuvarth_ancestors(image, WORDS, 0, what.start, SASNUVARTH_STRICT, out, 4 * REGIONS).number)
CALL(parent, sasnuvarth_parent(image, WORDS, 0, what.start, what.level).number)
CALL(descendants, sasnuvarth_descendants(image, WORDS, 0, what.start, what.end, 0, out, 4 * REGIONS).number)
CALL(children, sasnuvarth_children(image, WORDS, 0, what.start, what.end, what.level, 0, out, 4 * REGIONS).number)
CALL(join, sasnuvarth_join(image, WORDS, image, WORDS, 0, SASNUVARTH_BY_ANCESTOR, out, 4 * REGIONS).number)
CALL(open_desk, (desk = sasnuvarth_open_desk(), SASNUVARTH_DONE))
CALL(open_seat, sasnuvarth_open_seat(desk, 0, 0, 0, 0).number)
CALL(close_seat, sasnuvarth_close_seat(desk, 0).number)
CALL(round_of_seats, sasnuvarth_round(image, WORDS, image, WORDS, desk, buffer, SASNUVARTH_BUFFER_WORDS).number)
CALL(part, sasnuvarth_part(desk, buffer, SASNUVARTH_BUFFER_WORDS, 0, 1).number)

static size_t used_by(void (*call)(void)) {
    size_t unused = 0;
    memset(stack, PAINT, STACK_BYTES);
    getcontext(&there);
    there.uc_stack.ss_sp = stack;
    there.uc_stack.ss_size = STACK_BYTES;
    there.uc_link = &here;
    makecontext(&there, call, 0);
    swapcontext(&here, &there);
    while (stack[unused] == PAINT)
        unused++;
    return top - (uintptr_t)(stack + unused);
}

/* THE ROWS: the most that was seen of each kind of call, by the levels of the tree before it */
enum row {
    OPEN_SET, TEST, LEAF, OWNER, SPLIT, DELETE_TEST, DELETE, BATCH_TEST, BATCH_SAVE, BATCH_DELETE, BATCH_SAVES, BATCH_DELETES,
    ANCESTORS, PARENT, DESCENDANTS, CHILDREN, JOIN, OPEN_DESK, OPEN_SEAT, CLOSE_SEAT, ROUND, PART, ROWS
};

static const char *names[ROWS] = {
    "open_set", "save, refused behind the test", "save into a leaf with room", "the same, and into a list", "save with a split",
    "delete, refused behind the test", "delete", "batch, refused behind the test", "batch of a save", "batch of a delete", "batch of 500 saves",
    "batch of 500 deletes", "ancestors", "parent", "descendants", "children", "join", "open_desk", "open_seat", "close_seat", "round", "part",
};
static size_t most[ROWS][LEVELS + 1];

static void measure(enum row row, void (*call)(void), uint32_t right) {
    uint32_t levels = row == OPEN_SET ? LEVELS : image[1];
    size_t used = used_by(call);
    if (number != right) {
        printf("%s: %u, not %u\n", names[row], (unsigned)number, (unsigned)right);
        exit(1);
    }
    if (used > most[row][levels])
        most[row][levels] = used;
}

/* A batch of which every item has to be done. */
static void measure_batch(enum row row, uint32_t first, const struct region *r, size_t n) {
    for (size_t i = 0; i < n; i++) {
        const uint32_t item[] = {first, 0, r[i].start, r[i].end, r[i].level, 1};
        memcpy(items + i * SASNUVARTH_ITEM_WORDS, item, sizeof item);
        places[i] = SASNUVARTH_FORM;
    }
    item_words = n * SASNUVARTH_ITEM_WORDS;
    measure(row, batch, SASNUVARTH_DONE);
    for (size_t i = 0; i < n; i++)
        if (places[i] != SASNUVARTH_DONE) {
            printf("%s: item %lu: %u\n", names[row], (unsigned long)i, (unsigned)places[i]);
            exit(1);
        }
}

/* SETS */
static uint32_t chance = 1;

static uint32_t below(uint32_t n) {
    chance = chance * 1664525u + 1013904223u;
    return (chance >> 8) % n;
}

static void side_by_side(struct region *r, size_t from) {
    for (size_t i = from; i < REGIONS; i++)
        r[i] = (struct region){2000 + 3 * (uint32_t)i, 2001 + 3 * (uint32_t)i, 1};
}

static void nested(struct region *r) {
    for (uint32_t i = 0; i < DEEPEST; i++)
        r[i] = (struct region){1 + i, 1000 - i, 1 + i};
    side_by_side(r, DEEPEST);
}

static void at_random(struct region *r) {
    size_t opened = 0, depth = 0, open[DEEPEST];
    for (uint32_t at = 1; opened < REGIONS || depth > 0; at++) {
        if (opened < REGIONS && (depth == 0 || (depth < DEEPEST && below(2)))) {
            r[opened] = (struct region){at, 0, 1 + (uint32_t)depth};
            open[depth++] = opened++;
        } else {
            r[open[--depth]].end = at;
        }
    }
}

static void shuffle(struct region *r) {
    for (uint32_t i = REGIONS - 1; i > 0; i--) {
        uint32_t j = below(i + 1);
        struct region x = r[i];
        r[i] = r[j];
        r[j] = x;
    }
}

/* HISTORIES: what a save did shows in the pages and stab records in use (docs/LAYOUT.md) */
static unsigned in_use(size_t first, size_t width, size_t places) {
    unsigned n = 0;
    for (size_t p = 1; p <= places; p++)
        n += image[first + width * p] != 0;
    return n;
}

static unsigned pages(void) { return in_use(0, 57, 160); }

static unsigned records(void) { return in_use(9177 + 1, 6, 500); }

static uint32_t before[WORDS];

static void keep(void) { memcpy(before, image, sizeof image); }

static void take_back(void) { memcpy(image, before, sizeof image); }

/* The save is made once for its kind and taken back, then measured: alone, and as a batch. */
static void measure_save(struct region r) {
    unsigned p = pages(), q = records();
    what = (struct region){5, 5, 1};
    measure(TEST, save, SASNUVARTH_REGION);
    item_words = 1;
    measure(BATCH_TEST, batch, SASNUVARTH_FORM);
    keep();
    what = r;
    save();
    enum row row = pages() > p ? SPLIT : records() > q ? OWNER : LEAF;
    take_back();
    measure(row, save, SASNUVARTH_DONE);
    take_back();
    measure_batch(BATCH_SAVE, SASNUVARTH_ITEM_SAVE, &r, 1);
}

static void measure_delete(struct region r) {
    what = (struct region){0xffffffff, 0, 0}; /* of another account */
    measure(DELETE_TEST, delete, SASNUVARTH_ACCOUNT);
    keep();
    what = r;
    measure(DELETE, delete, SASNUVARTH_DONE);
    take_back();
    measure_batch(BATCH_DELETE, SASNUVARTH_ITEM_DELETE, &r, 1);
}

static void measure_queries(struct region r) {
    what = r;
    measure(ANCESTORS, ancestors, SASNUVARTH_DONE);
    measure(PARENT, parent, SASNUVARTH_DONE);
    measure(DESCENDANTS, descendants, SASNUVARTH_DONE);
    measure(CHILDREN, children, SASNUVARTH_DONE);
}

static void measure_desk(void) {
    measure(JOIN, join, SASNUVARTH_DONE);
    measure(OPEN_DESK, open_desk, SASNUVARTH_DONE);
    measure(OPEN_SEAT, open_seat, SASNUVARTH_DONE);
    for (uint32_t seat = 0; seat < SASNUVARTH_SEATS; seat++)
        desk.seats[seat] = (struct sasnuvarth_seat){1, 0, 0, SASNUVARTH_MOST_A_ROUND, seat % 2, 700, 700};
    measure(CLOSE_SEAT, close_seat, SASNUVARTH_DONE);
    measure(ROUND, round_of_seats, SASNUVARTH_DONE);
    measure(PART, part, SASNUVARTH_DONE);
}

static void play(struct region *r) {
    measure(OPEN_SET, open_set, SASNUVARTH_DONE);
    keep();
    measure_batch(BATCH_SAVES, SASNUVARTH_ITEM_SAVE, r, REGIONS);
    take_back();
    for (size_t i = 0; i < REGIONS; i++)
        measure_save(r[i]);
    for (size_t i = 0; i < REGIONS; i++)
        measure_queries(r[i]);
    measure_desk();
    shuffle(r);
    keep();
    measure_batch(BATCH_DELETES, SASNUVARTH_ITEM_DELETE, r, REGIONS);
    take_back();
    for (size_t i = 0; i < REGIONS; i++)
        measure_delete(r[i]);
}

int main(void) {
    static struct region r[3][REGIONS];
    side_by_side(r[0], 0);
    at_random(r[1]);
    nested(r[2]);
    for (int shape = 0; shape < 3; shape++) {
        play(r[shape]); /* ascending */
        play(r[shape]); /* in some other order */
    }
    printf("bytes of the caller's stack, by the levels of the tree\n%-32s%8d%8d%8d%8d\n", "", 1, 2, 3, 4);
    for (int row = 0; row < ROWS; row++) {
        printf("%-32s", names[row]);
        for (int levels = 1; levels <= LEVELS; levels++)
            if (most[row][levels] > 0)
                printf("%8lu", (unsigned long)most[row][levels]);
            else
                printf("%8s", "");
        printf("\n");
    }
    return 0;
}
