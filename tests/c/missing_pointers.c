/* Each call with NULL where it asks for a store, a shape, an output, an answer, or a point or list of nonzero length: 1, and nothing
 * is changed. C99 and C++. */
#include <stdio.h>
#include <string.h>

#include "point_store.h"

enum { DIMENSIONS = 4, BASE = 2, CAPACITY = 4 };

static unsigned char block[PS_MEMORY_BYTES(CAPACITY, DIMENSIONS, 1)], before[sizeof block];

static void say(const char *call, uint64_t number) {
    printf("%s: %d\n", call, (int)number);
}

#define SAY(call) say(#call, call)

int main(void) {
    struct ps_shape shape;
    struct ps_store s, kept;
    struct ps_added added;
    const float reading[BASE] = {40.0f, 35.0f};
    float row[DIMENSIONS], vec[PS_ATTRIBUTE_FLOATS];
    size_t numbers[BASE], values[BASE] = {0, 1};
    char page[PS_PAGE_BYTES(CAPACITY)];
    struct ps_pair pair = {0, 0, PS_NONE, PS_NONE};
    struct ps_item item = {0, 1};
    uint64_t number = 77, before_null = 77, before_list = 77;

    memset(&shape, 0, sizeof shape);
    shape.dimensions = DIMENSIONS;
    shape.shingle_size = DIMENSIONS / BASE;
    shape.capacity = CAPACITY;
    shape.initial_capacity = CAPACITY;
    shape.internal_shingling = 1;
    shape.store_labels = 1;

    printf("set up\n");
    SAY(ps_memory_in(block, sizeof block, &shape, &s));
    SAY(ps_store_open(&s, &shape, PS_REASON_CLASSES, PS_CLASS_TEXT_BYTES));
    SAY(ps_store_add(&s, reading, BASE, 0, &added));
    SAY(ps_store_add(&s, reading, BASE, 0, &added));

    kept = s;
    memcpy(before, block, sizeof block);
    printf("no store\n");
    SAY(ps_store_open(NULL, &shape, PS_REASON_CLASSES, PS_CLASS_TEXT_BYTES));
    SAY(ps_store_add(NULL, reading, BASE, 0, &added));
    SAY(ps_store_inc(NULL, 0, 0));
    SAY(ps_store_dec(NULL, 0, 0));
    SAY(ps_store_adjust(NULL, &pair, 1, &before_null));
    SAY(ps_store_compact(NULL));
    SAY(ps_store_copy(NULL, 0, row, DIMENSIONS));
    SAY(ps_store_count(NULL, 0, &number));
    SAY(ps_store_live_number(NULL, &number));
    SAY(ps_store_free_start(NULL, &number));
    SAY(ps_store_page(NULL, page, sizeof page, &number));
    SAY(ps_store_is_equal(NULL, 0, row, DIMENSIONS, &number));
    SAY(ps_store_point_sum(NULL, &item, 1, row, DIMENSIONS));
    SAY(ps_store_shingled_point(NULL, reading, BASE, row, DIMENSIONS));
    SAY(ps_store_missing_indices(NULL, 0, values, BASE, numbers, BASE));
    SAY(ps_store_next_indices(NULL, 0, numbers, BASE));
    SAY(ps_store_label(NULL, 0, &number));
    SAY(ps_store_attribute(NULL, 0, &number));
    SAY(ps_store_attribute_vec(NULL, 0, vec, PS_ATTRIBUTE_FLOATS));

    printf("no shape\n");
    SAY(ps_store_open(&s, NULL, PS_REASON_CLASSES, PS_CLASS_TEXT_BYTES));
    SAY(ps_shape_check(NULL));
    SAY(ps_memory_in(block, sizeof block, NULL, &s));

    printf("no list, of nonzero length\n");
    SAY(ps_store_open(&s, &shape, NULL, PS_CLASS_TEXT_BYTES));
    SAY(ps_store_add(&s, NULL, BASE, 0, &added));
    SAY(ps_store_adjust(&s, NULL, 1, &before_list));
    SAY(ps_store_is_equal(&s, 0, NULL, DIMENSIONS, &number));
    SAY(ps_store_point_sum(&s, NULL, 1, row, DIMENSIONS));
    SAY(ps_store_shingled_point(&s, NULL, BASE, row, DIMENSIONS));
    SAY(ps_store_missing_indices(&s, 0, NULL, 1, numbers, 1));
    SAY(ps_store_missing_indices(&s, 0, NULL, 1, numbers, 0));

    printf("no output\n");
    SAY(ps_store_copy(&s, 0, NULL, DIMENSIONS));
    SAY(ps_store_copy(&s, 0, NULL, 0));
    SAY(ps_store_point_sum(&s, &item, 1, NULL, DIMENSIONS));
    SAY(ps_store_shingled_point(&s, reading, BASE, NULL, DIMENSIONS));
    SAY(ps_store_missing_indices(&s, 0, values, BASE, NULL, BASE));
    SAY(ps_store_missing_indices(&s, 0, values, BASE, NULL, 0));
    SAY(ps_store_next_indices(&s, 0, NULL, BASE));
    SAY(ps_store_attribute_vec(&s, 0, NULL, PS_ATTRIBUTE_FLOATS));
    SAY(ps_store_page(&s, NULL, PS_PAGE_BYTES(1), &number));

    printf("no answer\n");
    SAY(ps_store_add(&s, reading, BASE, 0, NULL));
    SAY(ps_store_count(&s, 0, NULL));
    SAY(ps_store_live_number(&s, NULL));
    SAY(ps_store_free_start(&s, NULL));
    SAY(ps_store_page(&s, page, sizeof page, NULL));
    SAY(ps_store_is_equal(&s, 0, row, DIMENSIONS, NULL));
    SAY(ps_store_label(&s, 0, NULL));
    SAY(ps_store_attribute(&s, 0, NULL));

    printf("all this %s\n",
        memcmp(&kept, &s, sizeof s) == 0 && memcmp(before, block, sizeof block) == 0 && number == 77 ? "changed nothing"
                                                                                                    : "CHANGED SOMETHING");

    printf("pairs before: %d, %d\n", (int)before_null, (int)before_list);

    printf("where NULL is taken\n");
    SAY(ps_store_adjust(&s, NULL, 0, NULL));
    SAY(ps_store_point_sum(&s, NULL, 0, row, DIMENSIONS));
    SAY(ps_store_missing_indices(&s, 0, NULL, 0, NULL, 0));
    SAY(ps_store_page(&s, NULL, 0, &number));
    pair.insert_index = CAPACITY;
    SAY(ps_store_adjust(&s, &pair, 1, NULL));

    printf("an empty point is a wrong length\n");
    SAY(ps_store_add(&s, NULL, 0, 0, &added));
    return 0;
}
