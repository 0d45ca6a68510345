/* Reads every entry of the tables that the store's check looks at, once, and adds them up. */
#include <stddef.h>
#include <stdint.h>

static uint64_t shorts(const uint16_t *table, size_t n)
{
    uint64_t sum = 0;
    for (size_t i = 0; i < n; i++)
        sum += table[i];
    return sum;
}

static uint64_t bytes(const uint8_t *table, size_t n)
{
    uint64_t sum = 0;
    for (size_t i = 0; i < n; i++)
        sum += table[i];
    return sum;
}

static uint64_t longs(const uint32_t *table, size_t n)
{
    uint64_t sum = 0;
    for (size_t i = 0; i < n; i++)
        sum += table[i];
    return sum;
}

uint64_t read_points(const uint16_t *reference_count, const uint16_t *location, const uint16_t *index_starts,
                     const uint16_t *index_ends, size_t capacity, size_t in_use)
{
    return shorts(reference_count, capacity) + shorts(location, capacity) + shorts(index_starts, in_use) +
           shorts(index_ends, in_use);
}

uint64_t read_labels(const uint8_t *labels, const uint16_t *label_attributes, const uint16_t *label_count,
                     const uint16_t *label_starts, const uint16_t *label_ends, const uint8_t *attributes,
                     const uint32_t *attribute_count, const uint16_t *attribute_starts, const uint16_t *attribute_ends,
                     size_t capacity, size_t labels_in_use, size_t slots_in_use)
{
    return bytes(labels, capacity) + shorts(label_attributes, capacity) + shorts(label_count, capacity) +
           shorts(label_starts, labels_in_use) + shorts(label_ends, labels_in_use) + bytes(attributes, capacity) +
           longs(attribute_count, capacity) + shorts(attribute_starts, slots_in_use) +
           shorts(attribute_ends, slots_in_use);
}
