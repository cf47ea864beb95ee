/* The public calls of Sasnuvarth, for C. Link with libcapi.a (bindings/README.md).
 *
 * What each call answers and writes is proved, for every input, of the functions in crates/capi. The proofs take the
 * words as this header says they are lent, so the caller has to see to it that
 *   - every pointer is to memory of the stated number of words, is aligned, and is not NULL, even for 0 words;
 *   - words that a call may write (not const) overlap no other words lent to the same call. Words that it only reads
 *     may overlap: one image may be lent as both sets of a join;
 *   - no other thread writes the lent words during the call.
 * The calls keep nothing between them and allocate nothing.
 */
#ifndef SASNUVARTH_H
#define SASNUVARTH_H

#include <stdbool.h>
#include <stddef.h>
#include <stdint.h>

#ifdef __cplusplus
extern "C" {
#endif

enum {
    SASNUVARTH_IMAGE_WORDS = 12288,
    SASNUVARTH_ACCOUNTS = 16,
    SASNUVARTH_REGION_WORDS = 4, /* start, end, level, reference */
    SASNUVARTH_PAIR_WORDS = 4,   /* a start, a reference, d start, d reference */
    SASNUVARTH_ITEM_WORDS = 6,   /* save or delete, account, start, end, level, reference */
    SASNUVARTH_SEATS = 8,
    SASNUVARTH_HOUSE_LIMIT = 8,   /* pairs a round of a seat opened with limit 0 */
    SASNUVARTH_MOST_A_ROUND = 32, /* pairs a round that a seat may ask for at most */
    SASNUVARTH_BUFFER_WORDS = 1024 /* 128 for each seat */
};

/* A call's number: 0, or the first test that it failed. A refusal changes no lent word. Each item of a batch has such a number of its own. */
enum {
    SASNUVARTH_DONE = 0,
    SASNUVARTH_IMAGE = 1,   /* not 12,288 words, or not valid */
    SASNUVARTH_REGION = 2,  /* region or bounds not well formed */
    SASNUVARTH_ACCOUNT = 3, /* account above 15, or a position of another account */
    SASNUVARTH_HELD = 4,    /* the set has a region that starts there */
    SASNUVARTH_CROSS = 5,   /* it crosses a held region */
    SASNUVARTH_SHARE = 6,   /* the account holds its share */
    SASNUVARTH_ABSENT = 7,  /* no region with that start */
    SASNUVARTH_SHARES = 8,  /* shares sum to more than 500 */
    SASNUVARTH_SEAT = 9,    /* seat above 7, opened twice, or closed */
    SASNUVARTH_LIMIT = 10,  /* limit above 32, or a count above the seat's limit */
    SASNUVARTH_DESK = 11,   /* an open seat out of its ranges, or not 1,024 words of buffer */
    SASNUVARTH_FORM = 12,   /* a batch's words are not whole items; of an item: its first word is neither of the two */
    SASNUVARTH_ROOM = 13,   /* fewer places than items */
    SASNUVARTH_LEVEL = 14   /* its level contradicts one around it or inside it (those around have smaller levels, those inside greater); asked behind CROSS */
};

/* The first word of an item. */
enum {
    SASNUVARTH_ITEM_SAVE = 0,
    SASNUVARTH_ITEM_DELETE = 1 /* behind its start no word is read */
};

/* Whether a region that starts at a position holds it: any number but 0 is with self. One that ends there never does. */
enum {
    SASNUVARTH_STRICT = 0,   /* start < p < end */
    SASNUVARTH_WITH_SELF = 1 /* start <= p < end */
};

/* A join's kind: 0 by ancestor, 2 by ancestor or self, any other number by parent. By ancestor and by parent are strict. */
enum {
    SASNUVARTH_BY_ANCESTOR = 0,
    SASNUVARTH_BY_PARENT = 1,
    SASNUVARTH_BY_ANCESTOR_OR_SELF = 2 /* with self, by position alone: across two sets any a that starts where d does, whatever the levels */
};

struct sasnuvarth_ancestors_answer {
    uint32_t number;
    size_t total; /* ancestors there are; as many as fit are written */
    size_t steps; /* pages and stab records looked at */
};

struct sasnuvarth_parent_answer {
    uint32_t number;
    bool found; /* where false, the four below are 0 */
    uint32_t start;
    uint32_t end;
    uint32_t level;
    uint32_t reference;
};

struct sasnuvarth_list_answer {
    uint32_t number;
    bool more;    /* whether some lie past those written */
    size_t count; /* regions written */
};

struct sasnuvarth_join_answer {
    uint32_t number;
    size_t total; /* pairs there are; as many as fit are written */
};

/* Makes an image an empty set. The old words are not read. */
uint32_t sasnuvarth_open_set(uint32_t *image, size_t image_words, const uint32_t shares[16]);

uint32_t sasnuvarth_save(uint32_t *image, size_t image_words, uint32_t account,
                         uint32_t start, uint32_t end, uint32_t level, uint32_t reference);

uint32_t sasnuvarth_delete(uint32_t *image, size_t image_words, uint32_t account, uint32_t start);

/* Saves and deletes in the items' order, with one test of the image for all of them. Place i gets item i's number: what the single call would
   answer on what the items before it left. A refused item changes nothing and does not stop the others. Further places stay. */
uint32_t sasnuvarth_batch(uint32_t *image, size_t image_words, const uint32_t *items, size_t item_words,
                          uint32_t *places, size_t place_words);

/* The regions that hold p, by the choice, outermost first; with self the one that starts at p is the last. */
struct sasnuvarth_ancestors_answer
sasnuvarth_ancestors(const uint32_t *image, size_t image_words, uint32_t account, uint32_t p, uint32_t choice,
                     uint32_t *out, size_t out_words);

/* The one that strictly holds p and whose level is one less, if there is one: no two that hold p have the same level. */
struct sasnuvarth_parent_answer
sasnuvarth_parent(const uint32_t *image, size_t image_words, uint32_t account, uint32_t p, uint32_t level);

/* The regions that start strictly inside (start, end) and behind `after`, ascending. */
struct sasnuvarth_list_answer
sasnuvarth_descendants(const uint32_t *image, size_t image_words, uint32_t account,
                       uint32_t start, uint32_t end, uint32_t after, uint32_t *out, size_t out_words);

/* Those of them whose level is one more. */
struct sasnuvarth_list_answer
sasnuvarth_children(const uint32_t *image, size_t image_words, uint32_t account,
                    uint32_t start, uint32_t end, uint32_t level, uint32_t after,
                    uint32_t *out, size_t out_words);

/* An account's pairs of a region a in outer that holds the start of a region d in inner, by d's start, then a's. By parent each d stands
   in one pair at most. By ancestor or self, where both are one set, each d's last pair is with itself. */
struct sasnuvarth_join_answer
sasnuvarth_join(const uint32_t *outer, size_t outer_words, const uint32_t *inner, size_t inner_words,
                uint32_t account, uint32_t kind, uint32_t *out, size_t out_words);

/* The desk goes over by value: a call takes it and hands it back, and where it is refused, as it was. */
struct sasnuvarth_seat {
    uint32_t opened; /* 0: the seat is closed, and the others mean nothing */
    uint32_t account;
    uint32_t kind; /* by a call that was done handed back as 0, 1 or 2 */
    uint32_t limit;
    uint32_t marked; /* 0: the mark is fresh, and a and d mean nothing */
    uint32_t a;      /* the last pair handed: a's start and d's start */
    uint32_t d;
};

struct sasnuvarth_desk {
    struct sasnuvarth_seat seats[8];
};

struct sasnuvarth_desk_answer {
    uint32_t number;
    struct sasnuvarth_desk desk;
};

struct sasnuvarth_round_answer {
    uint32_t number;
    uint32_t counts[8]; /* pairs handed to each seat */
    struct sasnuvarth_desk desk;
};

struct sasnuvarth_part_answer {
    uint32_t number;
    size_t first; /* the part is buffer[first] .. buffer[first + words - 1] */
    size_t words;
};

/* Eight closed seats. */
struct sasnuvarth_desk sasnuvarth_open_desk(void);

/* A limit of 0 asks for as many pairs a round as the house gives, 8; by number up to 32 may be asked for. */
struct sasnuvarth_desk_answer
sasnuvarth_open_seat(struct sasnuvarth_desk desk, uint32_t seat, uint32_t account, uint32_t kind, uint32_t limit);

struct sasnuvarth_desk_answer sasnuvarth_close_seat(struct sasnuvarth_desk desk, uint32_t seat);

/* Hands each open seat its next pairs, from word 128 times the seat on. */
struct sasnuvarth_round_answer
sasnuvarth_round(const uint32_t *outer, size_t outer_words, const uint32_t *inner, size_t inner_words,
                 struct sasnuvarth_desk desk, uint32_t *buffer, size_t buffer_words);

/* Where the part of a seat lies that was handed `count` pairs. */
struct sasnuvarth_part_answer
sasnuvarth_part(struct sasnuvarth_desk desk, const uint32_t *buffer, size_t buffer_words,
                uint32_t seat, uint32_t count);

#ifdef __cplusplus
}
#endif

#endif
