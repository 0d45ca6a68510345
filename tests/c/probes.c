/* A product for the eight-probe block: what it stores and tallies, each refusal, its state, and calls of the store inside. */
#include <inttypes.h>
#include <stdio.h>
#include <string.h>

#include "point_store.h"

enum { CAPACITY = 2, DIMENSIONS = 16 };

static unsigned char block[PS_MEMORY_BYTES(CAPACITY, DIMENSIONS, 1)];

static struct ps_shape shape_of(size_t dimensions, size_t shingle_size, int internal, int rotation, int labels) {
    struct ps_shape shape;
    shape.dimensions = dimensions;
    shape.shingle_size = shingle_size;
    shape.capacity = CAPACITY;
    shape.initial_capacity = CAPACITY;
    shape.internal_shingling = internal;
    shape.internal_rotation = rotation;
    shape.store_labels = labels;
    return shape;
}

static void opened(const char *when, struct ps_probes *p, const struct ps_shape *shape) {
    uint64_t lent = ps_probes_memory_in(block, sizeof block, shape, p);
    printf("%s: %" PRIu64, when, lent);
    printf(", open %" PRIu64 "\n", ps_store_probes_open(p, shape, PS_REASON_CLASSES, PS_CLASS_TEXT_BYTES));
}

/* a set of one kind and float, but for probe 0 */
static uint64_t set(struct ps_probes *p, uint8_t kind, float value, uint8_t first_kind, float first, size_t label) {
    struct ps_added added = {7, 7, 7, 7, 7, 7};
    uint8_t kinds[PS_PROBES];
    float floats[PS_PROBES];
    uint64_t number;
    size_t i;
    for (i = 0; i < PS_PROBES; i++) {
        kinds[i] = i ? kind : first_kind;
        floats[i] = i ? value : first;
    }
    number = ps_store_probes_set(p, kinds, PS_PROBES, floats, PS_PROBES, label, &added);
    if (number)
        printf("  refused with %" PRIu64 ", answer %" PRIu64 ", figure %" PRIu64 "\n", number, added.kept, added.free_indices);
    else if (added.kept)
        printf("  kept: index %" PRIu64 ", %s at place %" PRIu64 ", %" PRIu64 " free\n", added.index, added.joined ? "joined" : "whole",
            added.place, added.free_indices);
    else
        printf("  waiting, figure %" PRIu64 "\n", added.free_indices);
    return number;
}

static void print_tallies(const struct ps_probes *p) {
    uint32_t tallies[PS_PROBES];
    uint64_t number = ps_store_probes_tallies(p, tallies, PS_PROBES);
    size_t i;
    printf("  tallies:");
    if (number)
        printf(" refused with %" PRIu64, number);
    for (i = 0; !number && i < PS_PROBES; i++)
        printf(" %" PRIu32, tallies[i]);
    printf(", state %d\n", ps_probes_state(p));
}

static void print_copy(const struct ps_probes *p, size_t index, size_t dimensions) {
    float row[DIMENSIONS];
    size_t i;
    printf("  copy %d:", (int)index);
    if (ps_store_copy(&p->store, index, row, dimensions) != PS_OK)
        printf(" refused");
    else
        for (i = 0; i < dimensions; i++)
            printf(" %g", (double)row[i]);
    printf("\n");
}

static void shapes(struct ps_probes *p) {
    struct ps_shape other = shape_of(16, 4, 1, 0, 0), long_row = shape_of(16, 1, 1, 0, 0), outside = shape_of(8, 2, 0, 0, 0);
    outside.shingle_size = 0;
    opened("base 4", p, &other);
    opened("base 16", p, &long_row);
    other = shape_of(16, 2, 0, 0, 0);
    opened("no internal shingling", p, &other);
    opened("outside the bounds", p, &outside);
    print_tallies(p);
}

static void filled_and_tallied(struct ps_probes *p) {
    struct ps_shape shape = shape_of(16, 2, 1, 0, 1);
    opened("two sets a row, labels", p, &shape);
    print_tallies(p);
    set(p, PS_MEASURED, 1, PS_ABSENT, 0, 24);
    set(p, PS_MEASURED, 1, PS_MEASURED, 1, 24);
    set(p, PS_MEASURED, 1, PS_ESTIMATED, 5, 3);
    print_tallies(p);
    set(p, PS_ESTIMATED, 2, PS_ABSENT, 9, 3);
    print_tallies(p);
    print_copy(p, 0, 16);
    set(p, PS_ABSENT, 9, PS_MEASURED, 3, 3);
    print_copy(p, 1, 16);
    set(p, PS_ESTIMATED, 4, PS_ESTIMATED, 4, 3);
    print_tallies(p);
    printf("  a dec inside: %" PRIu64 "\n", ps_store_dec(&p->store, 0, 0));
    set(p, PS_ABSENT, 0, PS_ABSENT, 0, 3);
    print_copy(p, 0, 16);
}

static void numbers(struct ps_probes *p) {
    struct ps_shape shape = shape_of(8, 1, 1, 0, 0);
    struct ps_added added;
    uint8_t kinds[9] = {3, 0, 0, 0, 0, 0, 0, 2, 0};
    uint32_t tallies[9] = {77, 77, 77, 77, 77, 77, 77, 77, 77};
    float floats[9] = {0, 0, 0, 0, 0, 0, 0, 0, 0}, odd;
    uint32_t bits = 0xffc01234;
    opened("lengths and kinds", p, &shape);
    printf("  7 and 9 kinds, 7 and 9 floats: %" PRIu64, ps_store_probes_set(p, kinds, 7, floats, 8, 0, &added));
    printf(" %" PRIu64, ps_store_probes_set(p, kinds, 9, floats, 8, 0, &added));
    printf(" %" PRIu64, ps_store_probes_set(p, kinds, 8, floats, 7, 0, &added));
    printf(" %" PRIu64 "\n", ps_store_probes_set(p, kinds, 8, floats, 9, 0, &added));
    printf("  a kind of 3, then an absent one: %" PRIu64, ps_store_probes_set(p, kinds, 8, floats, 8, 0, &added));
    kinds[0] = 0;
    printf(" %" PRIu64 "\n", ps_store_probes_set(p, kinds, 8, floats, 8, 0, &added));
    printf("  7 and 9 tallies: %" PRIu64, ps_store_probes_tallies(p, tallies, 7));
    printf(" %" PRIu64 ", left %" PRIu32 "\n", ps_store_probes_tallies(p, tallies, 9), tallies[0]);
    /* a NaN keeps its bits, and is repeated with them */
    memcpy(&odd, &bits, sizeof odd);
    set(p, PS_MEASURED, 1, PS_ESTIMATED, odd, 0);
    set(p, PS_MEASURED, 2, PS_ABSENT, 0, 0);
    ps_store_copy(&p->store, 1, floats, 8);
    memcpy(&bits, &floats[0], sizeof bits);
    printf("  bits %08" PRIx32 "\n", bits);
}

static void states(struct ps_probes *p) {
    struct ps_shape shape = shape_of(8, 1, 1, 0, 0);
    opened("states", p, &shape);
    set(p, PS_ESTIMATED, 1, PS_ESTIMATED, 1, 0);
    p->tallies[7] = 2;
    set(p, PS_MEASURED, 1, PS_MEASURED, 1, 0);
    print_tallies(p);
    p->tallies[7] = (uint64_t)1 << 32;
    print_tallies(p);
    p->tallies[7] = 1;
    p->store.words[3] = 0;
    print_tallies(p);
    p->store.words[3] = 1;
    print_tallies(p);
    /* an add inside raises the sequence: an absent reading then repeats its floats */
    opened("an add inside", p, &shape);
    {
        float point[8] = {1, 2, 3, 4, 5, 6, 7, 8};
        struct ps_added added;
        printf("  %" PRIu64 "\n", ps_store_add(&p->store, point, 8, 0, &added));
    }
    set(p, PS_ABSENT, 0, PS_ABSENT, 0, 0);
    print_copy(p, 1, 8);
    /* the last number of the sequence */
    opened("the sequence's end", p, &shape);
    p->store.words[8] = 4294967294u;
    p->tallies[0] = 4294967294u;
    set(p, PS_MEASURED, 1, PS_ESTIMATED, 1, 0);
    set(p, PS_MEASURED, 1, PS_ABSENT, 1, 0);
    print_tallies(p);
    printf("  NULL: %" PRIu64, ps_store_probes_open(NULL, &shape, PS_REASON_CLASSES, PS_CLASS_TEXT_BYTES));
    printf(" %" PRIu64, ps_store_probes_set(p, NULL, 8, NULL, 8, 0, NULL));
    printf(" %" PRIu64, ps_store_probes_tallies(p, NULL, 8));
    printf(" %" PRIu64 "\n", ps_probes_memory_in(block, sizeof block, &shape, NULL));
}

int main(void) {
    struct ps_probes p;
    memset(&p, 0, sizeof p);
    shapes(&p);
    filled_and_tallied(&p);
    numbers(&p);
    states(&p);
    return 0;
}
