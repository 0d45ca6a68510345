/* Memory out of one block: at every alignment, too short by one byte, shapes outside the bounds; and the same store by hand, moved
 * while open. C99 and C++. */
#include <stdio.h>
#include <string.h>

#include "point_store.h"

enum { DIMENSIONS = 4, CAPACITY = 5 };

static unsigned char block[PS_MEMORY_BYTES(CAPACITY, DIMENSIONS, 1) + 8], moved[sizeof block];

/* with labels off an array for a label table is as short as C has one */
static uint16_t unused[PS_LABEL_ENTRIES(CAPACITY, 0)];

static struct ps_shape shape_of(size_t dimensions, size_t shingle_size, size_t capacity, int labels) {
    struct ps_shape shape;
    memset(&shape, 0, sizeof shape);
    shape.dimensions = dimensions;
    shape.shingle_size = shingle_size;
    shape.capacity = capacity;
    shape.initial_capacity = capacity;
    shape.store_labels = labels;
    return shape;
}

static void fill(struct ps_store *s, int labels) {
    struct ps_added added;
    float row[DIMENSIONS] = {1.0f, 2.0f, 3.0f, 4.0f};
    int i;
    for (i = 0; i < CAPACITY; i++) {
        row[0] = (float)i;
        if (ps_store_add(s, row, DIMENSIONS, (size_t)(3 * i), &added) != PS_OK || added.index != (uint64_t)i)
            printf("add %d went wrong\n", i);
        if (labels && ps_store_dec(s, (size_t)i, (size_t)added.label_index) != PS_OK)
            printf("dec %d went wrong\n", i);
        if (labels && (ps_store_add(s, row, DIMENSIONS, 23, &added) != PS_OK || added.index != (uint64_t)i))
            printf("add %d went wrong again\n", i);
    }
}

int main(void) {
    struct ps_store s, other;
    struct ps_shape shape;
    struct ps_added added;
    float row[DIMENSIONS] = {0.0f, 0.0f, 0.0f, 0.0f};
    int labels, from;
    size_t bytes;

    for (labels = 0; labels < 2; labels++) {
        shape = shape_of(DIMENSIONS, 1, CAPACITY, labels);
        bytes = ps_memory_bytes(&shape);
        printf("labels %d: %d bytes\n", labels, (int)bytes);
        for (from = 0; from < 5; from++) {
            size_t i;
            memset(block, 0xa5, sizeof block);
            printf("  from byte %d: one short %d", from, (int)ps_memory_in(block + from, bytes - 1, &shape, &s));
            printf(", whole %d", (int)ps_memory_in(block + from, bytes, &shape, &s));
            printf(", not opened yet %d", (int)ps_store_compact(&s));
            printf(", opened %d", (int)ps_store_open(&s, &shape, PS_REASON_CLASSES, PS_CLASS_TEXT_BYTES));
            fill(&s, labels);
            printf(", a sixth point %d", (int)ps_store_add(&s, row, DIMENSIONS, 0, &added));
            for (i = 0; i < sizeof block; i++)
                if ((i < (size_t)from || i >= (size_t)from + bytes) && block[i] != 0xa5)
                    printf(", byte %d WRITTEN", (int)i);
            printf("\n");
        }
    }

    shape = shape_of(65, 1, CAPACITY, 0);
    printf("65 dimensions: %d bytes, %d\n", (int)ps_memory_bytes(&shape), (int)ps_memory_in(block, sizeof block, &shape, &s));
    shape = shape_of(4, 3, CAPACITY, 0);
    printf("shingle size 3 of 4: %d\n", (int)ps_memory_in(block, sizeof block, &shape, &s));
    shape = shape_of(PS_NONE, 1, PS_NONE, 0);
    printf("as large as a number gets: %d bytes, %d\n", (int)ps_memory_bytes(&shape), (int)ps_memory_in(block, 0, &shape, &s));
    shape = shape_of(4, 1, CAPACITY, 2);
    printf("a flag of 2: %d\n", (int)ps_memory_in(block, sizeof block, &shape, &s));
    shape = shape_of(DIMENSIONS, 1, CAPACITY, 0);
    printf("no block: %d, no store: %d\n", (int)ps_memory_in(NULL, sizeof block, &shape, &s),
        (int)ps_memory_in(block, sizeof block, &shape, NULL));

    /* a store that is open, copied whole to other memory, goes on there */
    ps_memory_in(block, sizeof block, &shape, &s);
    ps_store_open(&s, &shape, PS_REASON_CLASSES, PS_CLASS_TEXT_BYTES);
    fill(&s, 0);
    ps_memory_in(moved, sizeof moved, &shape, &other);
    memcpy(other.words, s.words, sizeof other.words);
    memcpy(other.memory.store, s.memory.store, s.memory.store_len * sizeof(float));
    memcpy(other.memory.last_known_shingle, s.memory.last_known_shingle, DIMENSIONS * sizeof(float));
    memcpy(other.memory.reference_count, s.memory.reference_count, CAPACITY * sizeof(uint16_t));
    memcpy(other.memory.location, s.memory.location, CAPACITY * sizeof(uint16_t));
    memcpy(other.memory.index_starts, s.memory.index_starts, CAPACITY * sizeof(uint16_t));
    memcpy(other.memory.index_ends, s.memory.index_ends, CAPACITY * sizeof(uint16_t));
    memset(block, 0xff, sizeof block);
    printf("moved: copy %d", (int)ps_store_copy(&other, 3, row, DIMENSIONS));
    printf(" gives %g %g %g %g\n", (double)row[0], (double)row[1], (double)row[2], (double)row[3]);

    /* what is behind a 1 */
    printf("the moved one %d, its old memory %d", (int)ps_store_state(&other), (int)ps_store_state(&s));
    other.memory.location_len--;
    printf(", a slice too short %d", (int)ps_store_state(&other));
    other.memory.location_len++;
    other.memory.location = NULL;
    printf(", NULL for a slice %d", (int)ps_store_state(&other));
    ps_memory_in(block, sizeof block, &shape, &s);
    printf(", never opened %d, no store %d\n", (int)ps_store_state(&s), (int)ps_store_state(NULL));
    (void)unused;
    return 0;
}
