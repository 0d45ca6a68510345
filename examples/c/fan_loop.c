/*
 * A fan loop: temperature readings go into a hold of the newest windows, which gives up the oldest by itself; its store is compacted,
 * and the windows that are held are printed, and the page of their indices.
 */
#include <inttypes.h>
#include <stdio.h>
#include <stdlib.h>

#include "point_store.h"

enum { DIMENSIONS = 4, SHINGLE_SIZE = 4, CAPACITY = 8, LABELS = 1, WIDTH = 3 };

/* Codes 0 to 23 say why a window was kept; the first ones are of class 0, 6 is of class 2. */
enum { STEADY = 0, RISING = 6 };

static unsigned char block[PS_HOLD_MEMORY_BYTES(CAPACITY, DIMENSIONS, LABELS)];

static void accepted(uint64_t number, const char *call) {
    if (number != PS_OK) {
        fprintf(stderr, "%s refused with %" PRIu64 ": %s\n", call, number, ps_refusal_text(number));
        exit(1);
    }
}

static void print_held(const struct ps_hold *h) {
    uint16_t held[WIDTH];
    float row[DIMENSIONS];
    uint64_t number;
    accepted(ps_store_hold_number(h, &number), "number");
    accepted(ps_store_hold_held(h, held, (size_t)number), "held");
    for (size_t i = 0; i < number; i++) {
        accepted(ps_store_copy(&h->store, held[i], row, DIMENSIONS), "copy");
        printf("  index %d:", held[i]);
        for (size_t k = 0; k < DIMENSIONS; k++)
            printf(" %.1f", (double)row[k]);
        printf("\n");
    }
}

/* The page for the card: each live index with its count and its place. */
static void print_page(const struct ps_store *s) {
    char page[PS_PAGE_BYTES(CAPACITY)];
    uint64_t length;
    accepted(ps_store_page(s, page, sizeof page, &length), "page");
    printf("%.*s", (int)length, page);
}

int main(void) {
    static const float readings[] = {41.0f, 41.5f, 42.0f, 44.5f, 48.0f, 53.5f, 55.0f, 55.5f, 54.0f};
    static const struct ps_shape shape = {
        .dimensions = DIMENSIONS,
        .shingle_size = SHINGLE_SIZE,
        .capacity = CAPACITY,
        .initial_capacity = CAPACITY,
        .internal_shingling = 1,
        .internal_rotation = 0,
        .store_labels = LABELS,
    };
    struct ps_hold h;
    uint64_t free_start, number;

    if (!ps_version_agrees()) {
        fprintf(stderr, "header and archive are of different versions\n");
        return 1;
    }
    accepted(ps_hold_memory_in(block, sizeof block, &shape, &h), "memory");
    accepted(ps_store_hold_open(&h, &shape, WIDTH, PS_REASON_CLASSES, PS_CLASS_TEXT_BYTES), "open");

    for (size_t i = 0; i < sizeof readings / sizeof readings[0]; i++) {
        struct ps_added added = {0, 0, 0, 0, 0, 0};
        size_t code = i > 0 && readings[i] - readings[i - 1] > 2.0f ? RISING : STEADY;
        accepted(ps_store_hold_add(&h, &readings[i], 1, code, &added), "add");
        if (!added.kept) {
            printf("%.1f: the window fills\n", (double)readings[i]);
            continue;
        }
        printf("%.1f: index %" PRIu64 ", %s at place %" PRIu64 ", %" PRIu64 " indices left\n", (double)readings[i], added.index,
            added.joined ? "joined" : "whole", added.place, added.free_indices);
    }

    accepted(ps_store_free_start(&h.store, &free_start), "free_start");
    accepted(ps_store_hold_number(&h, &number), "number");
    printf("%" PRIu64 " windows held, free start %" PRIu64 "\n", number, free_start);
    accepted(ps_store_compact(&h.store), "compact");
    accepted(ps_store_free_start(&h.store, &free_start), "free_start");
    printf("compacted: free start %" PRIu64 "\n", free_start);
    print_held(&h);
    print_page(&h.store);

    number = ps_store_hold_open(&h, &shape, CAPACITY, PS_REASON_CLASSES, PS_CLASS_TEXT_BYTES);
    printf("a hold as wide as its capacity: refused with %" PRIu64 ", %s\n", number, ps_refusal_text(number));
    return 0;
}
