/* A hold: what it holds, each refusal, its memory in one block, and calls of the store inside. */
#include <inttypes.h>
#include <stdio.h>
#include <string.h>

#include "point_store.h"

enum { CAPACITY = 4, LABELLED = 1 };

static unsigned char block[PS_HOLD_MEMORY_BYTES(CAPACITY, 2, LABELLED) + 1];

static struct ps_shape shape_of(size_t shingle_size, size_t capacity, int rotation, int labels) {
    struct ps_shape shape;
    shape.dimensions = 2;
    shape.shingle_size = shingle_size;
    shape.capacity = capacity;
    shape.initial_capacity = capacity;
    shape.internal_shingling = 0;
    shape.internal_rotation = rotation;
    shape.store_labels = labels;
    return shape;
}

static uint64_t add(struct ps_hold *h, float first, float second) {
    struct ps_added added = {0, 0, 0, 0, 0, 0};
    float point[2];
    point[0] = first;
    point[1] = second;
    return ps_store_hold_add(h, point, 2, 9, &added);
}

static void print_held(const char *when, const struct ps_hold *h) {
    uint16_t held[CAPACITY];
    uint64_t number = 0, count = 0, i;
    float row[2];
    uint64_t answer = ps_store_hold_number(h, &number);
    printf("%s: %" PRIu64 " held", when, number);
    if (answer == PS_OK)
        answer = ps_store_hold_held(h, held, (size_t)number);
    if (answer != PS_OK) {
        printf(", refused with %" PRIu64 "\n", answer);
        return;
    }
    for (i = 0; i < number; i++) {
        if (ps_store_copy(&h->store, held[i], row, 2) != PS_OK || ps_store_count(&h->store, held[i], &count) != PS_OK)
            printf(" ?");
        printf("; %d x %" PRIu64 ": %g %g", held[i], count, (double)row[0], (double)row[1]);
    }
    printf("\n");
}

static uint64_t opened(struct ps_hold *h, const struct ps_shape *shape, size_t width) {
    return ps_store_hold_open(h, shape, width, PS_REASON_CLASSES, PS_CLASS_TEXT_BYTES);
}

static void widths(struct ps_hold *h) {
    struct ps_shape shape = shape_of(1, CAPACITY, 0, 1), none = shape_of(3, CAPACITY, 0, 1), one = shape_of(1, 1, 0, 0);
    printf("widths 0, 1, 3, 4: %" PRIu64, opened(h, &shape, 0));
    printf(" %" PRIu64, opened(h, &shape, 1));
    printf(" %" PRIu64, opened(h, &shape, 3));
    printf(" %" PRIu64 "\n", opened(h, &shape, 4));
    printf("a shape outside the bounds before the width: %" PRIu64 "\n", opened(h, &none, 0));
    printf("capacity 1 admits no width: %" PRIu64 " %" PRIu64 "\n", opened(h, &one, 0), opened(h, &one, 1));
    printf("one byte less of a text, after the shape, the width and the tables: %" PRIu64,
        ps_store_hold_open(h, &none, 0, PS_REASON_CLASSES, PS_CLASS_TEXT_BYTES - 1));
    printf(" %" PRIu64, ps_store_hold_open(h, &shape, 0, PS_REASON_CLASSES, PS_CLASS_TEXT_BYTES - 1));
    h->held_indices_len--;
    printf(" %" PRIu64, ps_store_hold_open(h, &shape, 1, PS_REASON_CLASSES, PS_CLASS_TEXT_BYTES - 1));
    h->held_indices_len++;
    printf(" %" PRIu64 "\n", ps_store_hold_open(h, &shape, 1, PS_REASON_CLASSES, PS_CLASS_TEXT_BYTES - 1));
}

static void sliding(struct ps_hold *h) {
    struct ps_shape shape = shape_of(1, CAPACITY, 0, 1);
    uint16_t held[CAPACITY];
    struct ps_added added = {7, 7, 7, 7, 7, 7};
    float point[2] = {0, 0};
    uint64_t number;
    printf("open: %" PRIu64 "\n", opened(h, &shape, 2));
    print_held("fresh", h);
    printf("an empty list: %" PRIu64 "\n", ps_store_hold_held(h, NULL, 0));
    printf("adds: %" PRIu64, add(h, 1, 2));
    printf(" %" PRIu64, add(h, 3, 4));
    print_held("", h);
    printf("third: %" PRIu64, add(h, 5, 6));
    print_held("", h);
    printf("wrong length: %" PRIu64, ps_store_hold_add(h, point, 1, 0, &added));
    printf(", code 24: %" PRIu64, ps_store_hold_add(h, point, 2, 24, &added));
    printf(", answer %" PRIu64 ", figure %" PRIu64 "\n", added.kept, added.free_indices);
    printf("an output too short, too long: %" PRIu64 " %" PRIu64 "\n", ps_store_hold_held(h, held, 1), ps_store_hold_held(h, held, 3));
    printf("live: %" PRIu64, ps_store_live_number(&h->store, &number));
    printf(" %" PRIu64 "\n", number);
}

/* how many indices remain free, before the oldest is given up */
static void figures(struct ps_hold *h) {
    struct ps_shape shape = shape_of(1, CAPACITY, 0, 1);
    struct ps_added added = {7, 7, 7, 7, 7, 7};
    float point[2] = {0, 0};
    uint64_t live;
    int i;
    shape.initial_capacity = 2;
    printf("a start of 2, width 2: %" PRIu64, opened(h, &shape, 2));
    for (i = 0; i < 5; i++) {
        point[0] = (float)i;
        printf("; %" PRIu64, ps_store_hold_add(h, point, 2, 0, &added));
        printf(" index %" PRIu64 ", free %" PRIu64, added.index, added.free_indices);
        printf(" and then %" PRIu64, ps_store_live_number(&h->store, &live) == PS_OK ? h->store.words[9] - live : 99);
    }
    printf("\n");
}

static void mixed(struct ps_hold *h) {
    struct ps_shape shape = shape_of(1, CAPACITY, 0, 1);
    uint64_t number;
    printf("open: %" PRIu64, opened(h, &shape, 2));
    printf(", adds: %" PRIu64, add(h, 1, 2));
    printf(" %" PRIu64, add(h, 3, 4));
    printf(" %" PRIu64 "\n", add(h, 5, 6));
    printf("a compact inside: %" PRIu64, ps_store_compact(&h->store));
    printf(", next add: %" PRIu64 "\n", add(h, 7, 8));
    print_held("then", h);
    printf("an inc inside: %" PRIu64, ps_store_inc(&h->store, h->held_indices[0], h->held_labels[0]));
    printf(", next add: %" PRIu64, add(h, 9, 10));
    printf(", number: %" PRIu64, ps_store_hold_number(h, &number));
    printf(", state: %d and inside %d\n", ps_hold_state(h), ps_store_state(&h->store));
    printf("a dec inside: %" PRIu64, ps_store_dec(&h->store, h->held_indices[0], h->held_labels[0]));
    printf(", next add: %" PRIu64 "\n", add(h, 9, 10));
    print_held("then", h);
}

static void rotating(struct ps_hold *h) {
    struct ps_shape shape = shape_of(2, 2, 1, 0);
    int i;
    printf("rotating, open: %" PRIu64, opened(h, &shape, 1));
    printf(", adds: %" PRIu64, add(h, 1, 2));
    printf(" %" PRIu64 "\n", add(h, 2, 3));
    printf("what joins nothing:");
    for (i = 0; i < 5; i++)
        printf(" %" PRIu64, add(h, 9, 9));
    printf("\n");
    print_held("still", h);
    printf("what joins: %" PRIu64 "\n", add(h, 3, 4));
    print_held("then", h);
}

static void one_block(struct ps_hold *h) {
    struct ps_shape shape = shape_of(1, CAPACITY, 0, 1), none = shape_of(3, CAPACITY, 0, 1);
    struct ps_hold unset;
    size_t bytes = ps_hold_memory_bytes(&shape);
    memset(&unset, 0, sizeof unset);
    printf("block: %d bytes, %d for a shape outside the bounds\n", (int)bytes, (int)ps_hold_memory_bytes(&none));
    printf("too short: %" PRIu64 ", outside the bounds: %" PRIu64 ", NULL: %" PRIu64 " %" PRIu64 "\n",
        ps_hold_memory_in(block, bytes - 1, &shape, h), ps_hold_memory_in(block, bytes, &none, h),
        ps_hold_memory_in(NULL, bytes, &shape, h), ps_hold_memory_in(block, bytes, &shape, NULL));
    printf("from an odd address: %" PRIu64, ps_hold_memory_in(block + 1, bytes, &shape, h));
    printf(", within: %d\n", (unsigned char *)(void *)(h->held_labels + h->held_labels_len) <= block + 1 + bytes);
    printf("never opened: %" PRIu64 ", state %d and %d\n", add(h, 1, 2), ps_hold_state(h), ps_hold_state(&unset));
}

static void missing(struct ps_hold *h) {
    struct ps_shape shape = shape_of(1, CAPACITY, 0, 1);
    struct ps_added added;
    uint64_t number;
    uint16_t held[1];
    float point[2] = {1, 2};
    printf("NULL: %" PRIu64 " %" PRIu64, opened(NULL, &shape, 1), opened(h, NULL, 1));
    printf(" %" PRIu64, ps_store_hold_open(h, &shape, 1, NULL, PS_CLASS_TEXT_BYTES));
    printf(" %" PRIu64, ps_store_hold_add(NULL, point, 2, 0, &added));
    printf(" %" PRIu64, ps_store_hold_add(h, NULL, 2, 0, &added));
    printf(" %" PRIu64, ps_store_hold_add(h, point, 2, 0, NULL));
    printf(" %" PRIu64 " %" PRIu64, ps_store_hold_held(NULL, held, 1), ps_store_hold_held(h, NULL, 1));
    printf(" %" PRIu64 " %" PRIu64, ps_store_hold_number(NULL, &number), ps_store_hold_number(h, NULL));
    printf(", state %d\n", ps_hold_state(NULL));
    printf("a table too short: ");
    h->held_labels_len--;
    printf("%" PRIu64 ", ", opened(h, &shape, 1));
    h->held_labels_len++;
    printf("%" PRIu64, opened(h, &shape, 1));
    h->held_indices_len--;
    printf(", state %d\n", ps_hold_state(h));
    h->held_indices_len++;
}

int main(void) {
    struct ps_hold h;
    one_block(&h);
    widths(&h);
    sliding(&h);
    figures(&h);
    mixed(&h);
    rotating(&h);
    missing(&h);
    return 0;
}
