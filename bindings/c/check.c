/* The scope paper's example and a batch through the C header: a check that the header names the archive's functions as they are. */
#include <stdio.h>
#include <string.h>

#include "sasnuvarth.h"

static uint32_t outer[SASNUVARTH_IMAGE_WORDS], inner[SASNUVARTH_IMAGE_WORDS];
static int wrong;

static void expect(const char *what, unsigned long told, unsigned long right) {
    if (told != right) {
        printf("%s: %lu, not %lu\n", what, told, right);
        wrong = 1;
    }
}

static void save(uint32_t *image, uint32_t start, uint32_t end, uint32_t level, uint32_t reference) {
    expect("save", sasnuvarth_save(image, SASNUVARTH_IMAGE_WORDS, 0, start, end, level, reference), SASNUVARTH_DONE);
}

static void expect_words(const char *what, const uint32_t *told, const uint32_t *right, size_t words) {
    expect(what, memcmp(told, right, words * sizeof *told) != 0, 0);
}

static void check_searches(void) {
    uint32_t out[24];
    const uint32_t holding[] = {10, 90, 1, 101, 20, 50, 2, 102, 30, 40, 3, 103};
    const uint32_t held[] = {20, 50, 2, 102, 30, 40, 3, 103};
    const uint32_t below[] = {20, 50, 2, 102, 60, 80, 2, 104};
    struct sasnuvarth_ancestors_answer a = sasnuvarth_ancestors(outer, SASNUVARTH_IMAGE_WORDS, 0, 35, SASNUVARTH_STRICT, out, 24);
    expect("ancestors", a.number, SASNUVARTH_DONE);
    expect("ancestors' total", a.total, 3);
    expect("ancestors' steps", a.steps, 1);
    expect_words("ancestors' words", out, holding, 12);
    expect("strictly at a start", sasnuvarth_ancestors(outer, SASNUVARTH_IMAGE_WORDS, 0, 30, SASNUVARTH_STRICT, out, 24).total, 2);
    memset(out, 0, sizeof out);
    a = sasnuvarth_ancestors(outer, SASNUVARTH_IMAGE_WORDS, 0, 30, SASNUVARTH_WITH_SELF, out, 24);
    expect("with self", a.number, SASNUVARTH_DONE);
    expect("with self at a start", a.total, 3);
    expect("its steps", a.steps, 1);
    expect_words("its words", out, holding, 12);
    expect("with self at an end", sasnuvarth_ancestors(outer, SASNUVARTH_IMAGE_WORDS, 0, 40, SASNUVARTH_WITH_SELF, out, 24).total, 2);
    struct sasnuvarth_parent_answer p = sasnuvarth_parent(outer, SASNUVARTH_IMAGE_WORDS, 0, 35, 4);
    expect("parent", p.number, SASNUVARTH_DONE);
    expect("parent found", p.found, true);
    expect("parent's start", p.start, 30);
    expect("parent's end", p.end, 40);
    expect("parent's level", p.level, 3);
    expect("parent's reference", p.reference, 103);
    struct sasnuvarth_list_answer d = sasnuvarth_descendants(outer, SASNUVARTH_IMAGE_WORDS, 0, 10, 90, 0, out, 8);
    expect("descendants", d.number, SASNUVARTH_DONE);
    expect("descendants' count", d.count, 2);
    expect("more descendants", d.more, true);
    expect_words("descendants' words", out, held, 8);
    struct sasnuvarth_list_answer c = sasnuvarth_children(outer, SASNUVARTH_IMAGE_WORDS, 0, 10, 90, 1, 0, out, 24);
    expect("children", c.number, SASNUVARTH_DONE);
    expect("children's count", c.count, 2);
    expect("more children", c.more, false);
    expect_words("children's words", out, below, 8);
}

static void check_join(void) {
    uint32_t out[32];
    const uint32_t pairs[] = {10, 101, 35, 201, 20, 102, 35, 201, 30, 103, 35, 201, 10, 101, 70, 202, 60, 104, 70, 202};
    const uint32_t parents[] = {30, 103, 35, 201, 60, 104, 70, 202};
    const uint32_t own[] = {10, 101, 10, 101, 10, 101, 20, 102, 20, 102, 20, 102, 10, 101, 30, 103,
                            20, 102, 30, 103, 30, 103, 30, 103, 10, 101, 60, 104, 60, 104, 60, 104};
    const size_t n = SASNUVARTH_IMAGE_WORDS;
    struct sasnuvarth_join_answer j = sasnuvarth_join(outer, n, inner, n, 0, SASNUVARTH_BY_ANCESTOR, out, 20);
    expect("join", j.number, SASNUVARTH_DONE);
    expect("join's total", j.total, 5);
    expect_words("join's words", out, pairs, 20);
    j = sasnuvarth_join(outer, n, inner, n, 0, SASNUVARTH_BY_PARENT, out, 20);
    expect("join by parent", j.number, SASNUVARTH_DONE);
    expect("its total, one pair for each d", j.total, 2);
    expect_words("its words", out, parents, 8);
    j = sasnuvarth_join(outer, n, outer, n, 0, SASNUVARTH_BY_ANCESTOR_OR_SELF, out, 32);
    expect("join with itself by ancestor or self", j.number, SASNUVARTH_DONE);
    expect("its total, one more for each d", j.total, 8);
    expect_words("its words", out, own, 32);
    expect("join of account 16", sasnuvarth_join(outer, n, inner, n, 16, 0, out, 20).number, SASNUVARTH_ACCOUNT);
}

static void check_desk(void) {
    static uint32_t buffer[SASNUVARTH_BUFFER_WORDS];
    const size_t n = SASNUVARTH_IMAGE_WORDS;
    struct sasnuvarth_desk_answer s = sasnuvarth_open_seat(sasnuvarth_open_desk(), 1, 0, SASNUVARTH_BY_ANCESTOR, 3);
    expect("open seat", s.number, SASNUVARTH_DONE);
    struct sasnuvarth_round_answer r = sasnuvarth_round(outer, n, inner, n, s.desk, buffer, SASNUVARTH_BUFFER_WORDS);
    expect("round", r.number, SASNUVARTH_DONE);
    expect("first count", r.counts[1], 3);
    expect("mark's a", r.desk.seats[1].a, 30);
    expect("mark's d", r.desk.seats[1].d, 35);
    struct sasnuvarth_part_answer p = sasnuvarth_part(r.desk, buffer, SASNUVARTH_BUFFER_WORDS, 1, r.counts[1]);
    expect("part", p.number, SASNUVARTH_DONE);
    expect("part's first", p.first, 128);
    expect("part's words", p.words, 12);
    expect("part's last", buffer[p.first + p.words - 1], 201);
    r = sasnuvarth_round(outer, n, inner, n, r.desk, buffer, SASNUVARTH_BUFFER_WORDS);
    expect("second count", r.counts[1], 2);
    s = sasnuvarth_open_seat(r.desk, 2, 0, SASNUVARTH_BY_ANCESTOR, 0);
    expect("open at the house limit", s.number, SASNUVARTH_DONE);
    expect("house limit", s.desk.seats[2].limit, SASNUVARTH_HOUSE_LIMIT);
    s = sasnuvarth_open_seat(r.desk, 2, 0, SASNUVARTH_BY_ANCESTOR, SASNUVARTH_MOST_A_ROUND);
    expect("open at the most", s.number, SASNUVARTH_DONE);
    expect("the most", s.desk.seats[2].limit, 32);
    s = sasnuvarth_open_seat(r.desk, 2, 0, SASNUVARTH_BY_ANCESTOR, SASNUVARTH_MOST_A_ROUND + 1);
    expect("open above the most", s.number, SASNUVARTH_LIMIT);
    s = sasnuvarth_close_seat(r.desk, 1);
    expect("close seat", s.number, SASNUVARTH_DONE);
    expect("closed", s.desk.seats[1].opened, 0);
    expect("close again", sasnuvarth_close_seat(s.desk, 1).number, SASNUVARTH_SEAT);
    s = sasnuvarth_open_seat(s.desk, 3, 0, SASNUVARTH_BY_ANCESTOR_OR_SELF, 3);
    expect("open by ancestor or self", s.number, SASNUVARTH_DONE);
    expect("its kind", s.desk.seats[3].kind, SASNUVARTH_BY_ANCESTOR_OR_SELF);
    r = sasnuvarth_round(outer, n, outer, n, s.desk, buffer, SASNUVARTH_BUFFER_WORDS);
    expect("its first count", r.counts[3], 3);
    expect("its mark's a", r.desk.seats[3].a, 20);
    expect("its mark's d", r.desk.seats[3].d, 20);
    r = sasnuvarth_round(outer, n, outer, n, r.desk, buffer, SASNUVARTH_BUFFER_WORDS);
    expect("its second count", r.counts[3], 3);
    expect("its second pairs' first d", buffer[3 * 128 + 2], 30);
    r = sasnuvarth_round(outer, n, outer, n, r.desk, buffer, SASNUVARTH_BUFFER_WORDS);
    expect("its third count", r.counts[3], 2);
    expect("its last a", r.desk.seats[3].a, 60);
    expect("its last d", r.desk.seats[3].d, 60);
    expect("any other kind is told as by parent", sasnuvarth_open_seat(s.desk, 4, 0, 3, 3).desk.seats[4].kind, SASNUVARTH_BY_PARENT);
}

/* A share of two: full, then freed by a delete whose rest is no region. */
static void check_batch(void) {
    static uint32_t image[SASNUVARTH_IMAGE_WORDS], before[SASNUVARTH_IMAGE_WORDS];
    enum { ITEMS = 6, ALL = ITEMS * SASNUVARTH_ITEM_WORDS };
    const size_t n = SASNUVARTH_IMAGE_WORDS;
    const uint32_t shares[16] = {2};
    const uint32_t items[ALL] = {
        SASNUVARTH_ITEM_SAVE,   0, 10, 90, 1, 101,
        SASNUVARTH_ITEM_SAVE,   0, 20, 50, 2, 102,
        SASNUVARTH_ITEM_SAVE,   0, 60, 80, 2, 104,
        SASNUVARTH_ITEM_DELETE, 0, 20, 7,  0, 0,
        2,                      0, 60, 80, 2, 104,
        SASNUVARTH_ITEM_SAVE,   0, 60, 80, 2, 104,
    };
    const uint32_t right[ITEMS + 1] = {SASNUVARTH_DONE, SASNUVARTH_DONE, SASNUVARTH_SHARE, SASNUVARTH_DONE,
                                       SASNUVARTH_FORM, SASNUVARTH_DONE, 77};
    const uint32_t left[] = {10, 90, 1, 101, 60, 80, 2, 104};
    uint32_t places[ITEMS + 1], lent[ITEMS + 1], out[24];
    for (size_t i = 0; i <= ITEMS; i++)
        places[i] = lent[i] = 77;
    expect("open for a batch", sasnuvarth_open_set(image, n, shares), SASNUVARTH_DONE);
    memcpy(before, image, sizeof image);
    expect("batch of a part of an item", sasnuvarth_batch(image, n, items, ALL - 1, places, ITEMS), SASNUVARTH_FORM);
    expect("batch of a part and no place", sasnuvarth_batch(image, n, items, ALL - 1, places, 0), SASNUVARTH_FORM);
    expect("batch with a place too few", sasnuvarth_batch(image, n, items, ALL, places, ITEMS - 1), SASNUVARTH_ROOM);
    expect("batch on less", sasnuvarth_batch(image, n - 1, items, ALL - 1, places, 0), SASNUVARTH_IMAGE);
    expect("batch of nothing", sasnuvarth_batch(image, n, items, 0, places, 0), SASNUVARTH_DONE);
    expect_words("its image", image, before, n);
    expect_words("its places", places, lent, ITEMS + 1);
    expect("batch", sasnuvarth_batch(image, n, items, ALL, places, ITEMS + 1), SASNUVARTH_DONE);
    expect_words("batch's numbers, and a further place", places, right, ITEMS + 1);
    expect("what a batch left", sasnuvarth_descendants(image, n, 0, 1, 100, 0, out, 24).count, 2);
    expect_words("its words", out, left, 8);
}

int main(void) {
    const uint32_t shares[16] = {10};
    expect("open outer", sasnuvarth_open_set(outer, SASNUVARTH_IMAGE_WORDS, shares), SASNUVARTH_DONE);
    expect("open inner", sasnuvarth_open_set(inner, SASNUVARTH_IMAGE_WORDS, shares), SASNUVARTH_DONE);
    expect("open less", sasnuvarth_open_set(outer, SASNUVARTH_IMAGE_WORDS - 1, shares), SASNUVARTH_IMAGE);
    save(outer, 10, 90, 1, 101);
    save(outer, 20, 50, 2, 102);
    save(outer, 30, 40, 3, 103);
    save(outer, 60, 80, 2, 104);
    save(inner, 35, 36, 4, 201);
    save(inner, 70, 71, 3, 202);
    expect("save at the level around it", sasnuvarth_save(outer, SASNUVARTH_IMAGE_WORDS, 0, 31, 32, 3, 105), SASNUVARTH_LEVEL);
    expect("save at the level inside it", sasnuvarth_save(outer, SASNUVARTH_IMAGE_WORDS, 0, 5, 95, 1, 105), SASNUVARTH_LEVEL);
    check_searches();
    check_join();
    check_desk();
    check_batch();
    expect("delete", sasnuvarth_delete(outer, SASNUVARTH_IMAGE_WORDS, 0, 30), SASNUVARTH_DONE);
    expect("delete again", sasnuvarth_delete(outer, SASNUVARTH_IMAGE_WORDS, 0, 30), SASNUVARTH_ABSENT);
    if (!wrong) {
        puts("the C header: all answers right");
    }
    return wrong;
}
