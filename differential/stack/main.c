/* Measures how much stack each call takes: it runs on a thread whose stack was painted. Exits with 1 where PS_STACK of the header
 * is not enough. */
#define _POSIX_C_SOURCE 200809L
#include <pthread.h>
#include <stdio.h>
#include <stdlib.h>
#include <string.h>

#include "point_store.h"

enum { STACK = 1 << 20, PAINT = 0xa5, CAPACITY = 1024, DIMENSIONS = 16, SHINGLE_SIZE = 16 };

static float floats[PS_FLOATS(CAPACITY, DIMENSIONS)], window[DIMENSIONS], row[DIMENSIONS], out[DIMENSIONS];
static uint16_t tables[10][CAPACITY], held_indices[CAPACITY], held_labels[CAPACITY], held[CAPACITY];
static uint8_t labels[CAPACITY], attributes[CAPACITY];
static uint32_t attribute_count[CAPACITY];
static struct ps_store s = {{0}, {floats, PS_FLOATS(CAPACITY, DIMENSIONS), window, DIMENSIONS, tables[0], CAPACITY, tables[1],
    CAPACITY, tables[2], CAPACITY, tables[3], CAPACITY, labels, CAPACITY, tables[4], CAPACITY, tables[5], CAPACITY, tables[6],
    CAPACITY, tables[7], CAPACITY, attributes, CAPACITY, attribute_count, CAPACITY, tables[8], CAPACITY, tables[9], CAPACITY}};
static struct ps_hold h;
static struct ps_probes p;
static struct ps_added added;
static uint64_t number, answer;

static void nothing(void) {}
static const struct ps_shape shape = {DIMENSIONS, SHINGLE_SIZE, CAPACITY, CAPACITY, 0, 1, 1};
static void open_store(void) { number = ps_store_open(&s, &shape, PS_REASON_CLASSES, PS_CLASS_TEXT_BYTES); }
static void add(void) { number = ps_store_add(&s, row, DIMENSIONS, 3, &added); }
static void inc(void) { number = ps_store_inc(&s, 0, 0); }
static void dec(void) { number = ps_store_dec(&s, 0, 0); }
static void adjust(void) {
    static const struct ps_pair pair = {0, 0, 0, 0};
    number = ps_store_adjust(&s, &pair, 1, &answer);
}
static void compact(void) { number = ps_store_compact(&s); }
static void copy(void) { number = ps_store_copy(&s, 0, out, DIMENSIONS); }
static void count(void) { number = ps_store_count(&s, 0, &answer); }
static void is_equal(void) { number = ps_store_is_equal(&s, 0, row, DIMENSIONS, &answer); }
static void point_sum(void) {
    static const struct ps_item item = {0, 3};
    number = ps_store_point_sum(&s, &item, 1, out, DIMENSIONS);
}
static void shingled_point(void) { number = ps_store_shingled_point(&s, row, DIMENSIONS, out, DIMENSIONS); }
static void attribute_vec(void) { number = ps_store_attribute_vec(&s, 0, out, PS_ATTRIBUTE_FLOATS); }

static void hold_open(void) { number = ps_store_hold_open(&h, &shape, CAPACITY - 1, PS_REASON_CLASSES, PS_CLASS_TEXT_BYTES); }
static void hold_add(void) { number = ps_store_hold_add(&h, row, DIMENSIONS, 3, &added); }
static void hold_held(void) { number = ps_store_hold_held(&h, held, CAPACITY - 1); }

static const struct ps_shape product = {DIMENSIONS, DIMENSIONS / PS_PROBES, CAPACITY, CAPACITY, 1, 0, 1};
static const uint8_t kinds[PS_PROBES] = {PS_MEASURED, PS_ESTIMATED, PS_MEASURED, PS_MEASURED};
static uint32_t tallies[PS_PROBES];
static void probes_open(void) { number = ps_store_probes_open(&p, &product, PS_REASON_CLASSES, PS_CLASS_TEXT_BYTES); }
static void probes_set(void) { number = ps_store_probes_set(&p, kinds, PS_PROBES, row, PS_PROBES, 3, &added); }
static void probes_tallies(void) { number = ps_store_probes_tallies(&p, tallies, PS_PROBES); }

static void *made(void *call) {
    (*(void (**)(void))call)();
    return NULL;
}

static size_t used(void (*call)(void)) {
    pthread_attr_t attributes_of_thread;
    pthread_t thread;
    size_t untouched = 0;
    unsigned char *stack = aligned_alloc(4096, STACK);
    memset(stack, PAINT, STACK);
    pthread_attr_init(&attributes_of_thread);
    pthread_attr_setstack(&attributes_of_thread, stack, STACK);
    pthread_create(&thread, &attributes_of_thread, made, &call);
    pthread_join(thread, NULL);
    while (untouched < STACK && stack[untouched] == PAINT)
        untouched++;
    free(stack);
    return STACK - untouched;
}

static int judged(const char *name, void (*call)(void), size_t empty) {
    size_t bytes = used(call) - empty;
    printf("%6zu %s\n", bytes, name);
    if (number != PS_OK)
        printf("       refused with %d\n", (int)number);
    return bytes > PS_STACK || number != PS_OK;
}

int main(void) {
    size_t empty = used(nothing);
    int wrong = judged("open", open_store, empty);
    /* full, and then every second point gone: the next add compacts */
    for (size_t i = 0; i < CAPACITY; i++) {
        row[0] = (float)i;
        add();
    }
    wrong |= judged("inc", inc, empty) | judged("adjust", adjust, empty) | judged("copy", copy, empty);
    wrong |= judged("count", count, empty) | judged("is_equal", is_equal, empty) | judged("point_sum", point_sum, empty);
    wrong |= judged("shingled_point", shingled_point, empty) | judged("attribute_vec", attribute_vec, empty);
    wrong |= judged("dec", dec, empty);
    for (size_t i = 1; i < CAPACITY; i += 2)
        ps_store_dec(&s, i, i);
    wrong |= judged("add that compacts", add, empty) | judged("compact", compact, empty);
    /* a hold over the same memory, with as many adds as the floats have room for: the next one compacts and gives up the oldest */
    h.store.memory = s.memory;
    h.held_indices = held_indices;
    h.held_labels = held_labels;
    h.held_indices_len = h.held_labels_len = CAPACITY;
    wrong |= judged("hold open", hold_open, empty);
    for (size_t i = 0; i < CAPACITY; i++) {
        row[0] = (float)i;
        hold_add();
    }
    wrong |= judged("hold add that compacts", hold_add, empty) | judged("hold held", hold_held, empty);
    /* a product over the same memory, each window given up at once: every set takes eight floats more, and the next one compacts */
    p.store.memory = s.memory;
    wrong |= judged("probes open", probes_open, empty);
    while (number == PS_OK && p.store.words[7] + DIMENSIONS <= PS_FLOATS(CAPACITY, DIMENSIONS)) {
        probes_set();
        if (number == PS_OK && added.kept)
            number = ps_store_dec(&p.store, (size_t)added.index, (size_t)added.label_index);
    }
    wrong |= judged("probes set that compacts", probes_set, empty) | judged("probes tallies", probes_tallies, empty);
    printf("%6d PS_STACK of the header\n", PS_STACK);
    return wrong;
}
