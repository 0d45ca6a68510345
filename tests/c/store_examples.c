/* The examples of docs/STORE.md, section by section: what a call answers there is held to what the library answers. C99 and C++. */
#include <stdio.h>
#include <string.h>

#include "point_store.h"

static unsigned char block[PS_MEMORY_BYTES(10, 4, 1)];
static struct ps_store s;
static struct ps_added added;
static float out[10];
static uint64_t n;
static int examples, wrong;

#define IS(got, owed) is((uint64_t)(got), (uint64_t)(owed), #got, __LINE__)

static void is(uint64_t got, uint64_t owed, const char *text, int line) {
    examples++;
    if (got != owed) {
        wrong++;
        printf("line %d: %s is %d, not %d\n", line, text, (int)got, (int)owed);
    }
}

static int row_is(const float *row, float a, float b, float c, float d) {
    return row[0] == a && row[1] == b && row[2] == c && row[3] == d;
}

static uint64_t opened(size_t dimensions, size_t shingle, size_t capacity, size_t start, int internal, int rotation, int labels) {
    struct ps_shape shape = {dimensions, shingle, capacity, start, internal, rotation, labels};
    memset(block, 0x5a, sizeof block);
    n = ps_memory_in(block, sizeof block, &shape, &s);
    return n == PS_OK ? ps_store_open(&s, &shape, PS_REASON_CLASSES, PS_CLASS_TEXT_BYTES) : n;
}

static uint64_t add_two(float a, float b, size_t code) {
    float point[2];
    point[0] = a;
    point[1] = b;
    return ps_store_add(&s, point, 2, code, &added);
}

static uint64_t add_four(float a, float b, float c, float d) {
    float point[4];
    point[0] = a;
    point[1] = b;
    point[2] = c;
    point[3] = d;
    return ps_store_add(&s, point, 4, 0, &added);
}

static void kept(uint64_t index, uint64_t joined, uint64_t place, uint64_t free_indices, uint64_t free_start) {
    IS(added.kept, 1);
    IS(added.index, index);
    IS(added.joined, joined);
    IS(added.place, place);
    IS(added.free_indices, free_indices);
    IS(ps_store_free_start(&s, &n), 0);
    IS(n, free_start);
}

/* 'the example' after add 1 2, add 3 4, add 5 6: cases A, B and C */
static void three_adds(int rotation) {
    IS(opened(4, 2, 10, 5, 1, rotation, 0), 0);
    added.free_indices = 77;
    IS(add_two(1, 2, 0), 0);
    IS(added.kept, 0);
    IS(added.free_indices, 77);
    IS(row_is(s.memory.last_known_shingle, 0, 0, 1, 2), 1);
    IS(add_two(3, 4, 0), 0);
    kept(0, 0, 0, 4, 4);
    IS(added.label_index, PS_NONE);
    IS(add_two(5, 6, 0), 0);
    kept(1, 1, 1, 3, 6);
    IS(row_is(s.memory.last_known_shingle, 3, 4, 5, 6), 1);
}

static void five_adds(int rotation) {
    three_adds(rotation);
    IS(add_two(7, 8, 0), 0);
    kept(2, 1, 2, 2, 8);
    IS(add_two(9, 10, 0), 0);
    kept(3, 1, 3, 1, 10);
}

static void opening(void) {
    struct ps_shape shape = {4, 2, 10, 5, 1, 0, 0};
    IS(opened(4, 3, 10, 5, 1, 0, 0), 2);
    IS(ps_memory_in(block, sizeof block, &shape, &s), 0);
    s.memory.store_len = 39;
    IS(ps_store_open(&s, &shape, PS_REASON_CLASSES, PS_CLASS_TEXT_BYTES), 1);
    s.memory.store_len = 40;
    IS(ps_store_open(&s, &shape, PS_REASON_CLASSES, PS_CLASS_TEXT_BYTES), 0);
    shape.internal_shingling = 2;
    IS(ps_store_open(&s, &shape, PS_REASON_CLASSES, PS_CLASS_TEXT_BYTES), 2);
}

static void adding_and_growth(void) {
    float one = 7;
    int i;
    three_adds(0);
    IS(ps_store_add(&s, &one, 1, 0, &added), 3);
    IS(added.free_indices, 3);
    IS(opened(4, 1, 10, 5, 0, 0, 0), 0);
    for (i = 0; i < 6; i++) {
        IS(add_four(1, 2, 3, 4), 0);
        IS(added.free_indices, i < 5 ? 4 - i : 0);
    }
    IS(s.words[9], 6);
    IS(s.words[6], 24);
    IS(opened(4, 1, 10, 4, 0, 0, 0), 0);
    for (i = 0; i < 5; i++)
        IS(add_four(1, 2, 3, 4), 0);
    IS(s.words[9], 5);
    IS(s.words[6], 20);
    for (i = 5; i < 10; i++)
        IS(add_four(1, 2, 3, 4), 0);
    IS(add_four(1, 2, 3, 4), 9);
    IS(added.free_indices, 0);
    IS(opened(1, 1, 12, 10, 0, 0, 0), 0);
    for (i = 0; i < 12; i++) {
        IS(ps_store_add(&s, &one, 1, 0, &added), 0);
        IS(added.free_indices, i < 10 ? 9 - i : 11 - i);
    }
    IS(ps_store_dec(&s, 4, PS_NONE), 0);
    IS(ps_store_dec(&s, 9, PS_NONE), 0);
    IS(ps_store_add(&s, &one, 1, 0, &added), 0);
    IS(added.free_indices, 1);
}

static void counting(void) {
    struct ps_pair pairs[4] = {{PS_NONE, PS_NONE, 2, PS_NONE}, {1, PS_NONE, 0, PS_NONE}, {9, PS_NONE, 1, PS_NONE},
        {2, PS_NONE, 3, PS_NONE}};
    size_t i;
    three_adds(0);
    IS(ps_store_inc(&s, 1, 77), 0);
    IS(ps_store_count(&s, 1, &n), 0);
    IS(n, 2);
    IS(ps_store_dec(&s, 1, PS_NONE), 0);
    IS(ps_store_dec(&s, 1, PS_NONE), 0);
    IS(ps_store_count(&s, 1, &n), 5);
    IS(ps_store_dec(&s, 0, 0), 6);
    five_adds(0);
    IS(ps_store_adjust(&s, pairs, 4, &n), 5);
    IS(n, 2);
    IS(ps_store_count(&s, 0, &n), 5);
    for (i = 1; i < 4; i++) {
        IS(ps_store_count(&s, i, &n), 0);
        IS(n, i == 1 ? 2 : 1);
    }
}

/* cases D and E, G */
static void compaction(void) {
    static const float after[10] = {5, 6, 7, 8, 9, 10, 7, 8, 9, 10}, rotated[10] = {0, 0, 3, 4, 5, 6, 7, 8, 9, 10};
    five_adds(0);
    IS(ps_store_dec(&s, 0, PS_NONE), 0);
    IS(ps_store_dec(&s, 1, PS_NONE), 0);
    IS(ps_store_compact(&s), 0);
    IS(s.memory.location[2], 0);
    IS(s.memory.location[3], 1);
    IS(s.words[7], 6);
    IS(memcmp(s.memory.store, after, sizeof after), 0);
    IS(ps_store_copy(&s, 2, out, 4), 0);
    IS(row_is(out, 5, 6, 7, 8), 1);
    IS(add_two(11, 12, 0), 0);
    kept(0, 1, 2, 2, 8);
    five_adds(1);
    IS(ps_store_dec(&s, 0, PS_NONE), 0);
    IS(ps_store_compact(&s), 0);
    IS(s.words[7], 10);
    IS(memcmp(s.memory.store, rotated, sizeof rotated), 0);
    five_adds(0);
    IS(ps_store_dec(&s, 0, PS_NONE), 0);
    IS(ps_store_compact(&s), 0);
    IS(s.words[7], 8);
}

static void float_space(void) {
    int last;
    for (last = 0; last < 2; last++) {
        IS(opened(4, 2, 2, 2, 0, 1, 0), 0);
        IS(add_four(1, 2, 3, 4), 0);
        IS(add_four(3, 4, 5, 6), 0);
        IS(ps_store_dec(&s, 0, PS_NONE), 0);
        IS(last ? add_four(5, 6, 9, 9) : add_four(9, 9, 9, 9), last ? 0 : 10);
        IS(s.words[7], last ? 8 : 6);
    }
    kept(0, 1, 2, 0, 8);
}

/* a row laid whole is turned by where the free start was */
static void turned_whole(void) {
    IS(opened(4, 2, 10, 5, 1, 1, 0), 0);
    IS(add_two(1, 2, 0), 0);
    IS(add_two(3, 4, 0), 0);
    IS(ps_store_dec(&s, 0, PS_NONE), 0);
    IS(ps_store_compact(&s), 0);
    IS(add_two(5, 6, 0), 0);
    kept(0, 0, 0, 4, 4);
    IS(ps_store_copy(&s, 0, out, 4), 0);
    IS(row_is(out, 3, 4, 5, 6), 1);
}

/* the other readings, without rotation and with it */
static void readings(int rotation) {
    static const float row[4] = {3, 4, 5, 6}, turned[4] = {5, 6, 3, 4}, point[3] = {7, 8, 9};
    static const struct ps_item both[2] = {{0, 1}, {1, 1}}, heavy[2] = {{0, 16777217}, {2, 1}}, dead[2] = {{2, 16777217}, {0, 1}};
    static const size_t values[2] = {1, 0};
    size_t entries[2];
    three_adds(rotation);
    IS(ps_store_count(&s, 1, &n), 0);
    IS(n, 1);
    IS(ps_store_live_number(&s, &n), 0);
    IS(n, 2);
    IS(ps_store_copy(&s, 1, out, 4), 0);
    IS(memcmp(out, rotation ? turned : row, sizeof row), 0);
    IS(ps_store_is_equal(&s, 1, rotation ? turned : row, 4, &n), 0);
    IS(n, 1);
    IS(ps_store_point_sum(&s, both, 2, out, 4), 0);
    IS(row_is(out, 4, 6, 8, 10), 1);
    IS(ps_store_point_sum(&s, heavy, 2, out, 4), 11);
    IS(ps_store_point_sum(&s, dead, 2, out, 4), 5);
    IS(ps_store_shingled_point(&s, point, 2, out, 4), 0);
    IS(rotation ? row_is(out, 3, 4, 7, 8) : row_is(out, 5, 6, 7, 8), 1);
    IS(ps_store_shingled_point(&s, point, 3, out, 4), 3);
    IS(ps_store_missing_indices(&s, 1, values, 2, entries, 2), 0);
    IS(entries[0], rotation ? 1 : 3);
    IS(entries[1], rotation ? 0 : 2);
    IS(ps_store_next_indices(&s, 1, entries, 2), 0);
    IS(entries[0], rotation ? 0 : 2);
    IS(entries[1], rotation ? 1 : 3);
    IS(ps_store_label(&s, 0, &n), 6);
}

/* equality is that of the bits: a zero's sign counts, and a NaN is a NaN of the same bits */
static void equality(void) {
    static const float zero[4] = {5, 6, 0.0f, 7}, minus_zero[4] = {5, 6, -0.0f, 7};
    static const uint32_t nan_bits = 0x7fc00001;
    float nan, after[4] = {0, 7, 0, 8};
    memcpy(&nan, &nan_bits, sizeof nan);
    three_adds(0);
    IS(add_two(0, 7, 0), 0);
    kept(2, 1, 2, 2, 8);
    IS(ps_store_is_equal(&s, 2, zero, 4, &n), 0);
    IS(n, 1);
    IS(ps_store_is_equal(&s, 2, minus_zero, 4, &n), 0);
    IS(n, 0);
    IS(add_two(nan, 8, 0), 0);
    kept(3, 1, 3, 1, 10);
    IS(add_two(9, 10, 0), 0);
    kept(4, 1, 4, 0, 12);
    after[2] = nan;
    IS(ps_store_is_equal(&s, 3, after, 4, &n), 0);
    IS(n, 1);
}

static void labels(void) {
    static const unsigned char classes[24] = {0, 0, 0, 1, 1, 2, 2, 2, 3, 3, 4, 4, 5, 5, 5, 6, 6, 6, 7, 7, 8, 8, 9, 9};
    size_t code, i, k;
    IS(opened(2, 1, 3, 3, 0, 0, 1), 0);
    IS(add_two(1, 2, 23), 0);
    IS(added.label_index, 0);
    IS(add_two(1, 2, 5), 0);
    IS(added.label_index, 1);
    for (i = 0; i < 2; i++) {
        IS(ps_store_label(&s, i, &n), 0);
        IS(n, i == 0 ? 23 : 5);
        IS(ps_store_attribute(&s, i, &n), 0);
        IS(n, i == 0 ? 9 : 2);
        IS(ps_store_attribute_vec(&s, i, out, 10), 0);
        for (k = 0; k < 10; k++)
            IS(out[k] == (k == i ? 1.0f : 0.0f), 1);
    }
    IS(ps_store_label(&s, 2, &n), 6);
    for (code = 0; code < 24; code++) {
        IS(opened(2, 1, 3, 3, 0, 0, 1), 0);
        IS(add_two(1, 2, code), 0);
        IS(ps_store_attribute(&s, 0, &n), 0);
        IS(n, classes[code]);
    }
}

/* the example of a table whose classes fall, and texts that are not those of a table */
static void loaded_classes(void) {
    struct ps_shape shape = {2, 1, 3, 3, 0, 0, 1};
    char text[PS_CLASS_TEXT_BYTES + 1];
    size_t code;
    for (code = 0; code < 24; code++)
        snprintf(text + 9 * code, 10, "%4d%4d\n", (int)code, code == 0 ? 2 : code == 1 ? 1 : 0);
    IS(ps_memory_in(block, sizeof block, &shape, &s), 0);
    IS(ps_store_open(&s, &shape, text, PS_CLASS_TEXT_BYTES), 0);
    for (code = 0; code < 24; code++)
        IS(s.words[15 + code], code == 0 ? 2 : code == 1 ? 1 : 0);
    for (code = 0; code < 3; code++) {
        IS(add_two(1, 2, code), 0);
        IS(ps_store_attribute(&s, added.label_index, &n), 0);
        IS(n, 2 - code);
    }
    s.words[16] = 2;
    IS(ps_store_live_number(&s, &n), 1);
    s.words[16] = 256 + 1;
    IS(ps_store_live_number(&s, &n), 1);
    s.words[16] = 1;
    IS(ps_store_live_number(&s, &n), 0);
    IS(ps_store_open(&s, &shape, text, PS_CLASS_TEXT_BYTES - 9), 17);
    IS(ps_store_open(&s, &shape, NULL, 0), 17);
    text[16] = '2';
    IS(ps_store_open(&s, &shape, text, PS_CLASS_TEXT_BYTES), 17);
    text[16] = '1';
    text[15] = '0';
    IS(ps_store_open(&s, &shape, text, PS_CLASS_TEXT_BYTES), 17);
    IS(ps_store_live_number(&s, &n), 0);
    IS(n, 3);
    s.memory.labels_len = 2;
    IS(ps_store_open(&s, &shape, text, PS_CLASS_TEXT_BYTES), 1);
    shape.shingle_size = 3;
    IS(ps_store_open(&s, &shape, text, PS_CLASS_TEXT_BYTES), 2);
}

/* the picture, from left to right */
static uint64_t hold_opened(struct ps_hold *h, size_t width) {
    static unsigned char hold_block[PS_HOLD_MEMORY_BYTES(4, 1, 0)];
    struct ps_shape shape = {1, 1, 4, 4, 0, 0, 0};
    memset(hold_block, 0x5a, sizeof hold_block);
    IS(ps_hold_memory_in(hold_block, sizeof hold_block, &shape, h), 0);
    return ps_store_hold_open(h, &shape, width, PS_REASON_CLASSES, PS_CLASS_TEXT_BYTES);
}

static uint64_t hold_add(struct ps_hold *h, float a, uint64_t index, uint64_t free_indices) {
    uint64_t number = ps_store_hold_add(h, &a, 1, 0, &added);
    if (number == PS_OK) {
        IS(added.index, index);
        IS(added.free_indices, free_indices);
    }
    return number;
}

static void held_are(struct ps_hold *h, uint16_t first, uint16_t second) {
    uint16_t held[2];
    IS(ps_store_hold_held(h, held, 2), 0);
    IS(held[0], first);
    IS(held[1], second);
    IS(ps_store_hold_held(h, held, 1), 3);
    IS(ps_store_hold_number(h, &n), 0);
    IS(n, 2);
}

static void hold(void) {
    struct ps_hold h;
    float two[2] = {40, 41};
    IS(hold_opened(&h, 0), 15);
    IS(hold_opened(&h, 4), 15);
    IS(hold_opened(&h, 2), 0);
    IS(hold_add(&h, 10, 0, 3), 0);
    IS(hold_add(&h, 20, 1, 2), 0);
    held_are(&h, 0, 1);
    IS(hold_add(&h, 30, 2, 1), 0);
    held_are(&h, 1, 2);
    IS(ps_store_hold_add(&h, two, 2, 0, &added), 3);
    held_are(&h, 1, 2);
    IS(hold_add(&h, 40, 0, 1), 0);
    held_are(&h, 2, 0);
    IS(ps_store_copy(&h.store, 0, out, 1), 0);
    IS(out[0] == 40.0f, 1);
    IS(ps_store_count(&h.store, 1, &n), 5);
    IS(ps_store_inc(&h.store, 2, PS_NONE), 0);
    IS(hold_add(&h, 50, 1, 1), 1);
    IS(ps_store_dec(&h.store, 2, PS_NONE), 0);
    IS(hold_add(&h, 50, 1, 1), 0);
    held_are(&h, 0, 1);
}

static void manager(void) {
    static const uint16_t last_starts[4] = {3, 0, 6, 2}, last_ends[4] = {4, 1, 7, 2};
    static const unsigned char used[6] = {3, 2, 1, 1, 2, 1};
    uint64_t words[PS_MANAGER_WORDS];
    uint16_t starts[8], ends[8];
    uint64_t free_indices = 77;
    int step;
    IS(ps_manager_new(words, PS_MANAGER_WORDS, starts, 8, ends, 8, 5), 0);
    for (step = 0; step < 3; step++) {
        IS(ps_manager_get(words, PS_MANAGER_WORDS, starts, 8, ends, 8, &n, &free_indices), 0);
        IS(n, step);
        IS(free_indices, 4 - step);
    }
    for (step = 0; step < 6; step++) {
        if (step == 1 || step == 2)
            IS(ps_manager_release(words, PS_MANAGER_WORDS, starts, 8, ends, 8, (size_t)step - 1), 0);
        if (step == 3)
            IS(ps_manager_change_capacity(words, PS_MANAGER_WORDS, starts, 8, ends, 8, 8), 0);
        if (step == 4) {
            IS(ps_manager_get(words, PS_MANAGER_WORDS, starts, 8, ends, 8, &n, &free_indices), 0);
            IS(n, 5);
            IS(free_indices, 6);
        }
        if (step == 5)
            IS(ps_manager_release(words, PS_MANAGER_WORDS, starts, 8, ends, 8, 2), 0);
        IS(ps_manager_used(words, PS_MANAGER_WORDS, starts, 8, ends, 8, &n), 0);
        IS(n, used[step]);
    }
    IS(words[1], 4);
    IS(memcmp(starts, last_starts, sizeof last_starts), 0);
    IS(memcmp(ends, last_ends, sizeof last_ends), 0);
    IS(ps_manager_release(words, PS_MANAGER_WORDS, starts, 8, ends, 8, 2), 14);
    IS(ps_manager_new(words, PS_MANAGER_WORDS, starts, 8, ends, 8, 1), 0);
    IS(ps_manager_get(words, PS_MANAGER_WORDS, starts, 8, ends, 8, &n, &free_indices), 0);
    IS(free_indices, 0);
    free_indices = 77;
    IS(ps_manager_get(words, PS_MANAGER_WORDS, starts, 8, ends, 8, &n, &free_indices), 9);
    IS(n, 0);
    IS(free_indices, 77);
}

int main(void) {
    opening();
    adding_and_growth();
    counting();
    compaction();
    float_space();
    turned_whole();
    readings(0);
    readings(1);
    equality();
    labels();
    loaded_classes();
    hold();
    manager();
    printf("docs/STORE.md: %s\n", wrong == 0 && examples > 0 ? "every example is as it says" : "wrong");
    return wrong != 0;
}
