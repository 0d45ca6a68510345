/*
 * The proved point store: windows of float readings with counted indices, over memory that the caller lends.
 *
 * C99 and C++, x86-64. Link with libpoint_store_c.a, which needs memcpy, memmove and memset and nothing else. Nothing is
 * allocated and no state is kept between calls. docs/STORE.md in the repository says at length what the store does; this page
 * says how to call it.
 *
 * Terms
 *   point, row       what a store keeps: `dimensions` floats.
 *   shingle, window  with internal shingling a caller hands in one reading at a time and the store forms the points: a point is
 *                    then the window, the last `shingle size` readings one after another, oldest first. Without it a caller hands
 *                    in whole points.
 *   base             dimensions / shingle size: the floats of one reading.
 *   index            the number under which a point is kept, below `capacity`. It has a count, 1 after its add; it is live until
 *                    its count is 0 again, and is then given to a later add.
 *   place            where a live point's floats stand, in units of base: its row begins at float place x base of the lent floats.
 *                    65,535 is the empty place.
 *   equal            floats are equal where their 32 bits are: -0.0 is not equal to 0.0, and a NaN is to a NaN of the same bits.
 *   joined, whole    a row whose first floats equal the last ones before the free start shares them and is joined: only its last
 *                    base floats are written. Else it is laid whole. The free start is the float at which the next row is written.
 *   growth           indices and floats are first those of `initial_capacity` points. An add that finds no index free, or no float
 *                    space after compacting, makes the table or the float space longer by a fifth, rounded down, and by one index or
 *                    one point's floats at least, up to `capacity`. So an index is denied only where `capacity` indices are live.
 *   free indices     the length of the table less the live points: those that the next adds get before the table grows. A kept add tells
 *                    how many are left, the new point counted as live and the table as long as growth made it.
 *   compaction       brings the floats of live points together at the start. Indices and copies stay; places and free start fall, or
 *                    stay where there is nothing to gain.
 *   rotation, turned with rotation a copy is turned: stored float i comes out as entry (i + place x base) mod dimensions. Rows that
 *                    join one another then show a reading in the same entries, until a row is laid whole at another turn.
 *   label, class     with labels on, an add carries a code of 0 to 23, which says why the point is kept. Each code has a class of 0
 *                    to 9, by the table that the store was opened with (PS_REASON_CLASSES is one). A kept add gets a label index,
 *                    counted like the index.
 *   attribute slot   an entry that the labels of one class share while any of them is live; its number is that of the table entry
 *                    that was free when the first of them came.
 *   hold, width      a hold is a store of its own with a list of the points that it holds, the newest `width` kept ones: an add that
 *                    would make it more gives up the oldest. The width is at least 1 and below `capacity`.
 *   held, oldest     held is what stands in that list: every live point of the store inside, once and with count 1, in the order in
 *                    which they were kept. The oldest is the first of them.
 *   product, tally   the product for the eight-probe block is a store of its own that takes sets of eight readings, one a probe, with a
 *                    tally a probe: how many of its readings in accepted sets were estimates.
 *
 * What a call returns
 *   0 (PS_OK), or one of the refusal numbers below, the first that applies in the order that stands at the call. A refused call
 *   changes nothing and writes no answer, with two exceptions:
 *   - PS_FLOAT_SPACE_FULL (10) leaves floats, places, free start and store length as compaction and growth made them;
 *   - the pairs before an adjust's refused one stand, and how many they are is told.
 *   A 1 can mean a store that was never opened, a slice too short, or contents that are no store: ps_store_state() tells which, and
 *   ps_hold_state() of a hold, ps_probes_state() of a product.
 *
 * What a caller owes
 *   - A length is true of its pointer: that many elements can be read there and, where the pointer is not const, written.
 *   - A pointer is aligned for its type.
 *   - What a call may write (record, slices, output, answer) overlaps nothing else that the call is handed.
 *   - Two calls on one store do not run at once, unless both are readings (const struct ps_store *): any number of threads may read
 *     one store. Distinct stores share nothing and may be used by threads of their own.
 *   That is all: any number may stand in the record and in the slices, and what is not a well-formed store is refused with 1. The
 *   functions ps_store_.. below refuse NULL with 1 too; the functions that they call, declared first, ask for pointers that are not
 *   NULL, even where the length is 0.
 *
 * A store is a record of PS_RECORD_WORDS words and fifteen lent slices (struct ps_store), a hold (struct ps_hold) one of PS_HOLD_WORDS
 * and two slices more, a product (struct ps_probes) one of PS_PROBES_WORDS and no slice more. They belong to the caller and are handed
 * to each call as the last one left them. They hold no address of each other: record and slices may be copied or moved, together
 * and between calls, to other memory or to a file and back; `memory` then names the new slices.
 *
 * The check for 1 is no check against corruption. A call cut short (by a signal handler that does not return, a reset, a loss of
 * power) or a fault of the memory can leave a store that is well-formed and wrong. Who needs that keeps a copy of record and slices
 * from between two calls, with a checksum of their own.
 */
#ifndef POINT_STORE_H
#define POINT_STORE_H

#include <stddef.h>
#include <stdint.h>

#ifdef __cplusplus
extern "C" {
#endif

/* The version of this header. ps_version_agrees() tells whether the archive has the same. */
#define PS_VERSION_MAJOR 0
#define PS_VERSION_MINOR 10
#define PS_VERSION_PATCH 1
#define PS_VERSION "0.10.1"

/* The sizes that the declarations below rely on; where one differs, the line does not compile. */
typedef char ps_size_t_has_8_bytes[sizeof(size_t) == 8 ? 1 : -1];
typedef char ps_float_has_4_bytes[sizeof(float) == 4 ? 1 : -1];

/* What a call returns. */
enum ps_refusal {
    PS_OK = 0,                  /* accepted */
    PS_ILL_FORMED = 1,          /* ill-formed store, hold, product or manager, or a lent slice too short for its part */
    PS_SHAPE = 2,               /* shape outside the bounds or not the product's, on opening */
    PS_LENGTH = 3,              /* wrong length of a point or output slice */
    PS_LABEL_CODE = 4,          /* label code above 23, labels on */
    PS_POINT_NOT_IN_USE = 5,    /* index not below the table length, or with count 0 */
    PS_LABEL_NOT_IN_USE = 6,    /* label index not in use */
    PS_COUNT_FULL = 7,          /* inc of a point or label count at 65,535 */
    PS_LABELS_FULL = 8,         /* labels on, every label index in use */
    PS_POINTS_FULL = 9,         /* no index free and the table cannot grow */
    PS_FLOAT_SPACE_FULL = 10,   /* no float space after compaction and growth */
    PS_VALUE_TOO_LARGE = 11,    /* listed value or kind too large, look-ahead above 65,535, weight above 16,777,216 */
    PS_SEQUENCE_FULL = 12,      /* sequence number at 4,294,967,295 */
    PS_MANAGER_CAPACITY = 13,   /* manager opened at 0, or opened at or changed to above 1,024 */
    PS_NOT_RELEASABLE = 14,     /* release of an index free or not below capacity */
    PS_HOLD_WIDTH = 15,         /* hold opened with a width of 0 or not below capacity */
    PS_NO_EARLIER_READING = 16, /* an absent reading of a probe with no earlier one */
    PS_CLASS_TEXT = 17,         /* a text that is not that of an allowed table of classes, on opening */
    PS_TEXT_LENGTH = 18         /* a lent text too short for what is written */
};

static inline const char *ps_refusal_text(uint64_t number) {
    switch (number) {
    case PS_OK: return "accepted";
    case PS_ILL_FORMED: return "ill-formed store, hold, product or manager, or a lent slice too short for its part";
    case PS_SHAPE: return "shape outside the bounds";
    case PS_LENGTH: return "wrong length of a point or output slice";
    case PS_LABEL_CODE: return "label code above 23";
    case PS_POINT_NOT_IN_USE: return "index not in use";
    case PS_LABEL_NOT_IN_USE: return "label index not in use";
    case PS_COUNT_FULL: return "a count at 65,535 cannot rise";
    case PS_LABELS_FULL: return "every label index is in use";
    case PS_POINTS_FULL: return "no index free and the table cannot grow";
    case PS_FLOAT_SPACE_FULL: return "no float space after compaction and growth";
    case PS_VALUE_TOO_LARGE: return "listed value, look-ahead or weight too large";
    case PS_SEQUENCE_FULL: return "sequence number at its limit";
    case PS_MANAGER_CAPACITY: return "manager capacity outside 1 to 1,024";
    case PS_NOT_RELEASABLE: return "index free already, or not below the capacity";
    case PS_HOLD_WIDTH: return "hold width of 0, or not below the capacity";
    case PS_NO_EARLIER_READING: return "an absent reading of a probe with no earlier one";
    case PS_CLASS_TEXT: return "text that is not that of an allowed table of classes";
    case PS_TEXT_LENGTH: return "text too short for what is written";
    default: return "no refusal of this library";
    }
}

/* An index or a label index that is none. */
#define PS_NONE ((size_t)-1)

/* Bounds of a shape: dimensions 1 to 64, shingle size divides dimensions, capacity 1 to 1,024, capacity x dimensions at most
 * 16,384, starting capacity 1 to capacity; flags 0 or 1. */
#define PS_MAX_DIMENSIONS 64
#define PS_MAX_CAPACITY 1024
#define PS_MAX_FLOATS 16384

/* The bytes of a page of so many live indices: a line of 19 for each. */
#define PS_PAGE_LINE_BYTES 19
#define PS_PAGE_BYTES(live) ((size_t)PS_PAGE_LINE_BYTES * (size_t)(live))

/* The floats of attribute_vec. */
#define PS_ATTRIBUTE_FLOATS 10

/* The probes of a product, and the kinds of a probe's reading. */
#define PS_PROBES 8
enum ps_kind {
    PS_MEASURED = 0,
    PS_ESTIMATED = 1, /* stored like a measured one, and tallied for its probe */
    PS_ABSENT = 2     /* repeats the probe's last stored float */
};

/* The table of reason classes that a store is opened with is a text of PS_CLASS_TEXT_BYTES bytes: 24 lines, each a code in columns 1 to
 * 4 and its class in columns 5 to 8, right-justified with spaces and with no leading zeros, and a line feed. The codes are 0 to 23 in
 * order, a class is at most 9, and every class from 0 to the largest that is used occurs; they need not rise. */
#define PS_CLASS_TEXT_BYTES 216

/* The table of a caller that has none of its own. */
#define PS_REASON_CLASSES \
    "   0   0\n" \
    "   1   0\n" \
    "   2   0\n" \
    "   3   1\n" \
    "   4   1\n" \
    "   5   2\n" \
    "   6   2\n" \
    "   7   2\n" \
    "   8   3\n" \
    "   9   3\n" \
    "  10   4\n" \
    "  11   4\n" \
    "  12   5\n" \
    "  13   5\n" \
    "  14   5\n" \
    "  15   6\n" \
    "  16   6\n" \
    "  17   6\n" \
    "  18   7\n" \
    "  19   7\n" \
    "  20   8\n" \
    "  21   8\n" \
    "  22   9\n" \
    "  23   9\n"

/* Words of a store's record, of a hold's, of a product's and of a manager's. A store's are, in order: dimensions, shingle size, capacity, the
 * flags of internal shingling, rotation and labels, store length, free start, sequence; then capacity and entries in use of the
 * managers of indices, of label indices and of attribute slots; then the class of each code, 0 to 23. A hold's are its store's, then
 * its width and how many points are held: every call of the store takes them too, and leaves the last two. A product's are its store's,
 * then its eight tallies, of 32 bits each. A manager's are its capacity and its entries in use. */
#define PS_RECORD_WORDS 39
#define PS_HOLD_WORDS 41
#define PS_PROBES_WORDS 47
#define PS_MANAGER_WORDS 2

/* How much to lend for a shape. Longer slices are fine, what lies past is never touched. With labels off the nine label slices may
 * be empty (NULL of length 0).
 *   store                                                          PS_FLOATS(capacity, dimensions) floats
 *   last_known_shingle, the window                                 dimensions floats
 *   reference_count, location, index_starts, index_ends            capacity entries each
 *   labels, label_attributes, label_count, label_starts, label_ends,
 *   attributes, attribute_count, attribute_starts, attribute_ends  PS_LABEL_ENTRIES(capacity, labels) entries each
 * PS_LABEL_ENTRIES is 1 with labels off, since C has no array of length 0. A hold has two tables of 16 bits more:
 *   held_indices                                                   capacity entries
 *   held_labels                                                    PS_LABEL_ENTRIES(capacity, labels) entries
 */
#define PS_FLOATS(capacity, dimensions) ((size_t)(capacity) * (size_t)(dimensions))
#define PS_LABEL_ENTRIES(capacity, labels) ((labels) ? (size_t)(capacity) : (size_t)1)

/* Bytes to lend in all: floats and window, four tables of 16 bits, and with labels six of 16 bits, two of 8 and one of 32. */
#define PS_BYTES(capacity, dimensions, labels) \
    (4 * (PS_FLOATS(capacity, dimensions) + (size_t)(dimensions)) + ((labels) ? (size_t)26 : (size_t)8) * (size_t)(capacity))

/* The same as one block of bytes, wherever it begins: what ps_memory_in() below takes. */
#define PS_MEMORY_BYTES(capacity, dimensions, labels) (PS_BYTES(capacity, dimensions, labels) + 3)

/* The same for a hold: what ps_hold_memory_in() takes. */
#define PS_HOLD_MEMORY_BYTES(capacity, dimensions, labels) \
    (PS_MEMORY_BYTES(capacity, dimensions, labels) + ((labels) ? (size_t)4 : (size_t)2) * (size_t)(capacity))

/* The stack that a call needs at most, in bytes, whatever the shape. Only add and compact take more than two thirds of it. */
#define PS_STACK 40960

/* ---- The library's functions, slice by slice ----
 *
 * Each slice is a pointer and its length in elements. What these functions need beyond the above: every pointer is not NULL, that of
 * an empty slice too, and every answer's pointer is that of one uint64_t. A record of fewer words than it has is refused with 1. */

/* The fifteen slices as parameters, in the order of struct ps_memory. Those of a reading call are const; a
 * call that changes the store writes the tables that it changes, and no other. */
#define PS_WRITTEN_ \
    uint32_t *store, size_t store_len, uint32_t *last_known_shingle, size_t last_known_shingle_len, \
    uint16_t *reference_count, size_t reference_count_len, uint16_t *location, size_t location_len, \
    uint16_t *index_starts, size_t index_starts_len, uint16_t *index_ends, size_t index_ends_len, \
    uint8_t *labels, size_t labels_len, uint16_t *label_attributes, size_t label_attributes_len, \
    uint16_t *label_count, size_t label_count_len, uint16_t *label_starts, size_t label_starts_len, \
    uint16_t *label_ends, size_t label_ends_len, uint8_t *attributes, size_t attributes_len, \
    uint32_t *attribute_count, size_t attribute_count_len, uint16_t *attribute_starts, size_t attribute_starts_len, \
    uint16_t *attribute_ends, size_t attribute_ends_len

#define PS_READ_ \
    const uint32_t *store, size_t store_len, const uint32_t *last_known_shingle, size_t last_known_shingle_len, \
    const uint16_t *reference_count, size_t reference_count_len, const uint16_t *location, size_t location_len, \
    const uint16_t *index_starts, size_t index_starts_len, const uint16_t *index_ends, size_t index_ends_len, \
    const uint8_t *labels, size_t labels_len, const uint16_t *label_attributes, size_t label_attributes_len, \
    const uint16_t *label_count, size_t label_count_len, const uint16_t *label_starts, size_t label_starts_len, \
    const uint16_t *label_ends, size_t label_ends_len, const uint8_t *attributes, size_t attributes_len, \
    const uint32_t *attribute_count, size_t attribute_count_len, \
    const uint16_t *attribute_starts, size_t attribute_starts_len, \
    const uint16_t *attribute_ends, size_t attribute_ends_len

uint64_t ps_open(uint64_t *words, size_t words_len, PS_WRITTEN_, const uint8_t *class_text, size_t class_text_len,
    size_t dimensions, size_t shingle_size, size_t capacity, size_t initial_capacity, size_t internal_shingling,
    size_t internal_rotation, size_t store_labels);
uint64_t ps_add(uint64_t *words, size_t words_len, PS_WRITTEN_,
    const uint32_t *point, size_t point_len, size_t label, uint64_t *kept, uint64_t *index, uint64_t *label_index,
    uint64_t *joined, uint64_t *place, uint64_t *free_indices);
uint64_t ps_inc(const uint64_t *words, size_t words_len, PS_WRITTEN_, size_t index, size_t label);
uint64_t ps_dec(uint64_t *words, size_t words_len, PS_WRITTEN_, size_t index, size_t label);
uint64_t ps_adjust(uint64_t *words, size_t words_len, PS_WRITTEN_,
    const size_t (*pairs)[4], size_t pairs_len, uint64_t *pairs_before);
uint64_t ps_compact(uint64_t *words, size_t words_len, PS_WRITTEN_);
uint64_t ps_copy(const uint64_t *words, size_t words_len, PS_READ_, size_t index, uint32_t *out, size_t out_len);
uint64_t ps_count(const uint64_t *words, size_t words_len, PS_READ_, size_t index, uint64_t *count);
uint64_t ps_live_number(const uint64_t *words, size_t words_len, PS_READ_, uint64_t *number);
uint64_t ps_free_start(const uint64_t *words, size_t words_len, PS_READ_, uint64_t *number);
uint64_t ps_page(const uint64_t *words, size_t words_len, PS_READ_,
    uint8_t *text, size_t text_len, uint64_t *page_length);
uint64_t ps_is_equal(const uint64_t *words, size_t words_len, PS_READ_,
    size_t index, const uint32_t *point, size_t point_len, uint64_t *equal);
uint64_t ps_point_sum(const uint64_t *words, size_t words_len, PS_READ_,
    const size_t (*items)[2], size_t items_len, float *out, size_t out_len);
uint64_t ps_shingled_point(const uint64_t *words, size_t words_len, PS_READ_,
    const uint32_t *point, size_t point_len, uint32_t *out, size_t out_len);
uint64_t ps_missing_indices(const uint64_t *words, size_t words_len, PS_READ_,
    size_t look_ahead, const size_t *values, size_t values_len, size_t *out, size_t out_len);
uint64_t ps_next_indices(const uint64_t *words, size_t words_len, PS_READ_,
    size_t look_ahead, size_t *out, size_t out_len);
uint64_t ps_label(const uint64_t *words, size_t words_len, PS_READ_, size_t label, uint64_t *code);
uint64_t ps_attribute(const uint64_t *words, size_t words_len, PS_READ_, size_t label, uint64_t *class_);
uint64_t ps_attribute_vec(const uint64_t *words, size_t words_len, PS_READ_,
    size_t label, float *out, size_t out_len);
uint64_t ps_hold_open(uint64_t *words, size_t words_len, PS_WRITTEN_,
    const uint16_t *held_indices, size_t held_indices_len, const uint16_t *held_labels, size_t held_labels_len,
    const uint8_t *class_text, size_t class_text_len,
    size_t dimensions, size_t shingle_size, size_t capacity, size_t initial_capacity, size_t internal_shingling,
    size_t internal_rotation, size_t store_labels, size_t width);
uint64_t ps_hold_add(uint64_t *words, size_t words_len, PS_WRITTEN_,
    uint16_t *held_indices, size_t held_indices_len, uint16_t *held_labels, size_t held_labels_len,
    const uint32_t *point, size_t point_len, size_t label, uint64_t *kept, uint64_t *index, uint64_t *label_index,
    uint64_t *joined, uint64_t *place, uint64_t *free_indices);
uint64_t ps_hold_held(const uint64_t *words, size_t words_len, PS_READ_,
    const uint16_t *held_indices, size_t held_indices_len, const uint16_t *held_labels, size_t held_labels_len,
    uint16_t *out, size_t out_len);
uint64_t ps_hold_number(const uint64_t *words, size_t words_len, PS_READ_,
    const uint16_t *held_indices, size_t held_indices_len, const uint16_t *held_labels, size_t held_labels_len,
    uint64_t *number);
uint64_t ps_probes_open(uint64_t *words, size_t words_len, PS_WRITTEN_, const uint8_t *class_text, size_t class_text_len,
    size_t dimensions, size_t shingle_size, size_t capacity, size_t initial_capacity, size_t internal_shingling,
    size_t internal_rotation, size_t store_labels);
uint64_t ps_probes_set(uint64_t *words, size_t words_len, PS_WRITTEN_,
    const uint8_t *kinds, size_t kinds_len, const uint32_t *floats, size_t floats_len, size_t label, uint64_t *kept,
    uint64_t *index, uint64_t *label_index, uint64_t *joined, uint64_t *place, uint64_t *free_indices);
uint64_t ps_probes_tallies(const uint64_t *words, size_t words_len, PS_READ_, uint32_t *out, size_t out_len);

#undef PS_WRITTEN_
#undef PS_READ_

/* The library's name, one line of ASCII: 'point store', the version, which requested changes it has, the source and commit that it is
 * a port of, and the target. It goes to the front of `out`, without an end mark; what lies past it is left as it was, and
 * `name_length` gets its length. Refused with 3 where `out` is too short; PS_NAME_BYTES is long enough for every version's. */
#define PS_NAME_BYTES 256
uint64_t ps_name(uint8_t *out, size_t out_len, uint64_t *name_length);

/* Whether the archive that is linked has the version of this header: 1 or 0. */
static inline int ps_version_agrees(void) {
    static const char expected[] = "point store " PS_VERSION ";";
    uint8_t name[PS_NAME_BYTES];
    uint64_t length;
    size_t i;
    if (ps_name(name, PS_NAME_BYTES, &length) != PS_OK || length < sizeof expected - 1)
        return 0;
    for (i = 0; i + 1 < sizeof expected; i++)
        if (name[i] != (uint8_t)expected[i])
            return 0;
    return 1;
}

/* ---- The interval manager by itself: a stack of free intervals over lent starts and ends ----
 *
 * `words` has PS_MANAGER_WORDS words, `starts` and `ends` at least `capacity` entries, on a change the new capacity. Opening and
 * change are refused with 13, 1; get with 1, 9; release with 1, 14; the readings with 1. A get writes the index that it gives and how
 * many are then free: the capacity less those in use, the given one counted among these. */

uint64_t ps_manager_new(uint64_t *words, size_t words_len,
    uint16_t *starts, size_t starts_len, uint16_t *ends, size_t ends_len, size_t size);
uint64_t ps_manager_change_capacity(uint64_t *words, size_t words_len,
    uint16_t *starts, size_t starts_len, uint16_t *ends, size_t ends_len, size_t new_capacity);
uint64_t ps_manager_get(uint64_t *words, size_t words_len,
    uint16_t *starts, size_t starts_len, const uint16_t *ends, size_t ends_len, uint64_t *index, uint64_t *free_indices);
uint64_t ps_manager_release(uint64_t *words, size_t words_len,
    uint16_t *starts, size_t starts_len, uint16_t *ends, size_t ends_len, size_t index);
uint64_t ps_manager_used(const uint64_t *words, size_t words_len,
    const uint16_t *starts, size_t starts_len, const uint16_t *ends, size_t ends_len, uint64_t *used);
uint64_t ps_manager_is_empty(const uint64_t *words, size_t words_len,
    const uint16_t *starts, size_t starts_len, const uint16_t *ends, size_t ends_len, uint64_t *empty);
uint64_t ps_manager_get_capacity(const uint64_t *words, size_t words_len,
    const uint16_t *starts, size_t starts_len, const uint16_t *ends, size_t ends_len, uint64_t *capacity);

/* ---- A store as one struct ---- */

/* The fifteen lent slices, each with its length in elements. A label code is a byte, an empty place is 65,535. */
struct ps_memory {
    float *store;
    size_t store_len;
    float *last_known_shingle;
    size_t last_known_shingle_len;
    uint16_t *reference_count;
    size_t reference_count_len;
    uint16_t *location;
    size_t location_len;
    uint16_t *index_starts;
    size_t index_starts_len;
    uint16_t *index_ends;
    size_t index_ends_len;
    uint8_t *labels;
    size_t labels_len;
    uint16_t *label_attributes;
    size_t label_attributes_len;
    uint16_t *label_count;
    size_t label_count_len;
    uint16_t *label_starts;
    size_t label_starts_len;
    uint16_t *label_ends;
    size_t label_ends_len;
    uint8_t *attributes;
    size_t attributes_len;
    uint32_t *attribute_count;
    size_t attribute_count_len;
    uint16_t *attribute_starts;
    size_t attribute_starts_len;
    uint16_t *attribute_ends;
    size_t attribute_ends_len;
};

/* Set up `memory`, by hand or with ps_memory_in(), then open: the record's words are the library's to write. A record of zeros is a
 * store that was never opened: every call refuses it with 1. */
struct ps_store {
    uint64_t words[PS_RECORD_WORDS];
    struct ps_memory memory;
};

struct ps_shape {
    size_t dimensions;
    size_t shingle_size;
    size_t capacity;
    size_t initial_capacity;
    int internal_shingling;
    int internal_rotation;
    int store_labels;
};

/* What an accepted add answers. The last five are as they were while no point is kept. */
struct ps_added {
    uint64_t kept;         /* 1, or 0 while the first window fills */
    uint64_t index;
    uint64_t label_index;  /* PS_NONE with labels off */
    uint64_t joined;       /* 1 where the row shares floats with those before it */
    uint64_t place;
    uint64_t free_indices; /* how many indices remain free; in a hold as it stood before the oldest was given up */
};

/* One pair of an adjust: an inc of the first index and label index, then a dec of the second. PS_NONE as the insert's index skips
 * the pair, as the delete's index it leaves the dec out. */
struct ps_pair {
    size_t insert_index;
    size_t insert_label;
    size_t delete_index;
    size_t delete_label;
};

/* One item of a sum. */
struct ps_item {
    size_t index;
    size_t weight;
};

typedef char ps_pair_has_32_bytes[sizeof(struct ps_pair) == 32 ? 1 : -1];
typedef char ps_item_has_16_bytes[sizeof(struct ps_item) == 16 ? 1 : -1];

/* A slice of length 0 still needs an address that is not NULL. */
static inline void *ps_address(const void *p) {
    static uint64_t nothing;
    return p ? (void *)(uintptr_t)p : (void *)&nothing;
}

#define PS_SLICE_(type, pointer, length) (type *)ps_address(pointer), (pointer) ? (length) : 0

#define PS_TABLES_(access, m) \
    PS_SLICE_(access uint32_t, (m)->store, (m)->store_len), \
    PS_SLICE_(access uint32_t, (m)->last_known_shingle, (m)->last_known_shingle_len), \
    PS_SLICE_(access uint16_t, (m)->reference_count, (m)->reference_count_len), \
    PS_SLICE_(access uint16_t, (m)->location, (m)->location_len), \
    PS_SLICE_(access uint16_t, (m)->index_starts, (m)->index_starts_len), \
    PS_SLICE_(access uint16_t, (m)->index_ends, (m)->index_ends_len), \
    PS_SLICE_(access uint8_t, (m)->labels, (m)->labels_len), \
    PS_SLICE_(access uint16_t, (m)->label_attributes, (m)->label_attributes_len), \
    PS_SLICE_(access uint16_t, (m)->label_count, (m)->label_count_len), \
    PS_SLICE_(access uint16_t, (m)->label_starts, (m)->label_starts_len), \
    PS_SLICE_(access uint16_t, (m)->label_ends, (m)->label_ends_len), \
    PS_SLICE_(access uint8_t, (m)->attributes, (m)->attributes_len), \
    PS_SLICE_(access uint32_t, (m)->attribute_count, (m)->attribute_count_len), \
    PS_SLICE_(access uint16_t, (m)->attribute_starts, (m)->attribute_starts_len), \
    PS_SLICE_(access uint16_t, (m)->attribute_ends, (m)->attribute_ends_len)

#define PS_NOTHING_
#define PS_CHANGED_(s) (s)->words, PS_RECORD_WORDS, PS_TABLES_(PS_NOTHING_, &(s)->memory)
#define PS_LENT_(s) (s)->words, PS_RECORD_WORDS, PS_TABLES_(const, &(s)->memory)

/* A point, list or output that is NULL and said to have elements. */
#define PS_MISSING_(pointer, length) (!(pointer) && (length) > 0)

/* ---- Memory as one block ---- */

/* PS_OK, or PS_SHAPE for a shape outside the bounds. It opens nothing. */
static inline uint64_t ps_shape_check(const struct ps_shape *shape) {
    static struct ps_memory none; /* never written */
    uint64_t no_words, number;
    if (!shape)
        return PS_ILL_FORMED;
    /* opening judges the shape first and the memory then: here it has none */
    number = ps_open(&no_words, 0, PS_TABLES_(PS_NOTHING_, &none), PS_SLICE_(const uint8_t, (const char *)0, 0),
        shape->dimensions, shape->shingle_size, shape->capacity, shape->initial_capacity, (size_t)shape->internal_shingling,
        (size_t)shape->internal_rotation, (size_t)shape->store_labels);
    return number == PS_ILL_FORMED ? (uint64_t)PS_OK : number;
}

/* How many bytes ps_memory_in() needs for a shape; 0 for one outside the bounds. */
static inline size_t ps_memory_bytes(const struct ps_shape *shape) {
    return ps_shape_check(shape) == PS_OK ? PS_MEMORY_BYTES(shape->capacity, shape->dimensions, shape->store_labels) : 0;
}

/* Lends a store its slices out of one block, which may begin anywhere, and makes its record zeros: ps_store_open() comes next. The
 * block is the store's from then on. Refused with 1 for NULL, 2, and 1 for a block shorter than ps_memory_bytes(shape). */
static inline uint64_t ps_memory_in(void *block, size_t bytes, const struct ps_shape *shape, struct ps_store *s) {
    static struct ps_store empty; /* never written */
    uint64_t number;
    size_t n, l;
    unsigned char *at = (unsigned char *)block;
    if (!block || !shape || !s)
        return PS_ILL_FORMED;
    number = ps_shape_check(shape);
    if (number != PS_OK)
        return number;
    if (bytes < ps_memory_bytes(shape))
        return PS_ILL_FORMED;
    while ((uintptr_t)at % 4 != 0)
        at++;
    n = shape->capacity;
    l = shape->store_labels ? n : 0;
    *s = empty;
    /* tables of 32 bits, of 16 and of 8, so that each is aligned */
#define PS_TAKE_(type, table, length) \
    s->memory.table = (length) > 0 ? (type *)(void *)at : (type *)0; \
    s->memory.table##_len = (length); \
    at += (length) * sizeof(type)
    PS_TAKE_(float, store, n * shape->dimensions);
    PS_TAKE_(float, last_known_shingle, shape->dimensions);
    PS_TAKE_(uint32_t, attribute_count, l);
    PS_TAKE_(uint16_t, reference_count, n);
    PS_TAKE_(uint16_t, location, n);
    PS_TAKE_(uint16_t, index_starts, n);
    PS_TAKE_(uint16_t, index_ends, n);
    PS_TAKE_(uint16_t, label_attributes, l);
    PS_TAKE_(uint16_t, label_count, l);
    PS_TAKE_(uint16_t, label_starts, l);
    PS_TAKE_(uint16_t, label_ends, l);
    PS_TAKE_(uint16_t, attribute_starts, l);
    PS_TAKE_(uint16_t, attribute_ends, l);
    PS_TAKE_(uint8_t, labels, l);
    PS_TAKE_(uint8_t, attributes, l);
#undef PS_TAKE_
    return PS_OK;
}

/* ---- The calls ----
 *
 * The numbers at each are its refusals in the order in which they are judged. The first 1 of each is also what NULL gets: as the
 * store, the shape, an output or an answer, and as a point or a list of nonzero length. Where NULL is taken, the call says so. */

/* Opens a store in its lent memory, with a table of classes: PS_REASON_CLASSES and PS_CLASS_TEXT_BYTES, or the caller's own text,
 * without an end mark, which is read and not kept. A second open empties the store: all that was kept is gone. Refused with 1 for
 * NULL, then 2, 1, 17. The text is judged with labels off too; NULL of length 0 is a text of no bytes, and gets 17. */
static inline uint64_t ps_store_open(struct ps_store *s, const struct ps_shape *shape, const char *class_text, size_t class_text_len) {
    if (!s || !shape || PS_MISSING_(class_text, class_text_len))
        return PS_ILL_FORMED;
    return ps_open(PS_CHANGED_(s), PS_SLICE_(const uint8_t, class_text, class_text_len), shape->dimensions,
        shape->shingle_size, shape->capacity, shape->initial_capacity, (size_t)shape->internal_shingling,
        (size_t)shape->internal_rotation, (size_t)shape->store_labels);
}

/* Adds a point: base floats with internal shingling, else dimensions. `label` is a code of 0 to 23, ignored with labels off.
 * Refused with 1, 3, 12, 4, 8, 9, 10. */
static inline uint64_t ps_store_add(
    struct ps_store *s, const float *point, size_t point_len, size_t label, struct ps_added *added) {
    if (!s || !added || PS_MISSING_(point, point_len))
        return PS_ILL_FORMED;
    return ps_add(PS_CHANGED_(s), PS_SLICE_(const uint32_t, point, point_len), label, &added->kept, &added->index,
        &added->label_index, &added->joined, &added->place, &added->free_indices);
}

/* One count more of an index and of its label index. With labels off the label index is ignored. Refused with 1, 5, 6, 7. */
static inline uint64_t ps_store_inc(struct ps_store *s, size_t index, size_t label) {
    if (!s)
        return PS_ILL_FORMED;
    return ps_inc(PS_CHANGED_(s), index, label);
}

/* One count less; at 0 the index is free again, and so is the label index. With labels off the label index is PS_NONE. Index and
 * label index need only be live: which label index an index was given is not kept, and any pair of live ones is taken. Refused with
 * 1, 5, 6. */
static inline uint64_t ps_store_dec(struct ps_store *s, size_t index, size_t label) {
    if (!s)
        return PS_ILL_FORMED;
    return ps_dec(PS_CHANGED_(s), index, label);
}

/* A list of pairs in order. Where one is refused, those before it stand and `pairs_before` gets their number, skipped ones counted (0
 * for a 1 of the whole call). It is written on a refusal alone, and may be NULL. Refused with 1 and, pair by pair, as inc and dec. */
static inline uint64_t ps_store_adjust(
    struct ps_store *s, const struct ps_pair *pairs, size_t pairs_len, uint64_t *pairs_before) {
    uint64_t untold;
    if (!pairs_before)
        pairs_before = &untold;
    if (!s || PS_MISSING_(pairs, pairs_len)) {
        *pairs_before = 0;
        return PS_ILL_FORMED;
    }
    return ps_adjust(PS_CHANGED_(s), (const size_t(*)[4])ps_address(pairs), pairs_len, pairs_before);
}

/* Brings the floats of live points together at the start. Refused with 1. */
static inline uint64_t ps_store_compact(struct ps_store *s) {
    if (!s)
        return PS_ILL_FORMED;
    return ps_compact(PS_CHANGED_(s));
}

/* The row of an index, turned where the store rotates, into `dimensions` floats. Refused with 1, 5, 3. */
static inline uint64_t ps_store_copy(const struct ps_store *s, size_t index, float *out, size_t out_len) {
    if (!s || !out)
        return PS_ILL_FORMED;
    return ps_copy(PS_LENT_(s), index, (uint32_t *)(void *)out, out_len);
}

/* The count of an index. Refused with 1, 5. */
static inline uint64_t ps_store_count(const struct ps_store *s, size_t index, uint64_t *count) {
    if (!s || !count)
        return PS_ILL_FORMED;
    return ps_count(PS_LENT_(s), index, count);
}

/* How many indices are live. Refused with 1. */
static inline uint64_t ps_store_live_number(const struct ps_store *s, uint64_t *number) {
    if (!s || !number)
        return PS_ILL_FORMED;
    return ps_live_number(PS_LENT_(s), number);
}

/* The free start: where the next row will be laid, in floats. Refused with 1. */
static inline uint64_t ps_store_free_start(const struct ps_store *s, uint64_t *number) {
    if (!s || !number)
        return PS_ILL_FORMED;
    return ps_free_start(PS_LENT_(s), number);
}

/* The store on a page: a line for each live index in rising order, its index, count and place right-justified in six columns each, and
 * a line feed. The page goes to the front of `text`, without an end mark; what lies past it is left as it was, and `page_length` gets
 * its length. PS_PAGE_BYTES(live) bytes are enough for `live` indices, PS_PAGE_BYTES(capacity) for every store. Refused with 1, and
 * with 18 where `text` is too short, which is then not written to. */
static inline uint64_t ps_store_page(const struct ps_store *s, char *text, size_t text_len, uint64_t *page_length) {
    if (!s || !page_length || PS_MISSING_(text, text_len))
        return PS_ILL_FORMED;
    return ps_page(PS_LENT_(s), PS_SLICE_(uint8_t, text, text_len), page_length);
}

/* Whether a point equals the copy of an index, bit for bit: `equal` gets 0 or 1. Refused with 1, 5, 3. */
static inline uint64_t ps_store_is_equal(
    const struct ps_store *s, size_t index, const float *point, size_t point_len, uint64_t *equal) {
    if (!s || !equal || PS_MISSING_(point, point_len))
        return PS_ILL_FORMED;
    return ps_is_equal(PS_LENT_(s), index, PS_SLICE_(const uint32_t, point, point_len), equal);
}

/* The sum of stored rows times weights, unturned, into `dimensions` floats. Refused with 1, 3 and, item by item, 5, 11. */
static inline uint64_t ps_store_point_sum(
    const struct ps_store *s, const struct ps_item *items, size_t items_len, float *out, size_t out_len) {
    if (!s || !out || PS_MISSING_(items, items_len))
        return PS_ILL_FORMED;
    return ps_point_sum(PS_LENT_(s), (const size_t(*)[2])ps_address(items), items_len, out, out_len);
}

/* The window as it would be with this point, into `dimensions` floats. Refused with 1, 3. */
static inline uint64_t ps_store_shingled_point(
    const struct ps_store *s, const float *point, size_t point_len, float *out, size_t out_len) {
    if (!s || !out || PS_MISSING_(point, point_len))
        return PS_ILL_FORMED;
    return ps_shingled_point(PS_LENT_(s), PS_SLICE_(const uint32_t, point, point_len), (uint32_t *)(void *)out, out_len);
}

/* Where in the window values of a point stand, `look_ahead` adds from now. With no values `out` may be NULL of length 0. Refused with
 * 1, 3, 11. */
static inline uint64_t ps_store_missing_indices(
    const struct ps_store *s, size_t look_ahead, const size_t *values, size_t values_len, size_t *out, size_t out_len) {
    if (!s || PS_MISSING_(values, values_len) || (!out && (out_len > 0 || values_len > 0)))
        return PS_ILL_FORMED;
    return ps_missing_indices(PS_LENT_(s), look_ahead, PS_SLICE_(const size_t, values, values_len),
        PS_SLICE_(size_t, out, out_len));
}

/* The same for every value of a reading: base numbers. Refused with 1, 3, 11. */
static inline uint64_t ps_store_next_indices(const struct ps_store *s, size_t look_ahead, size_t *out, size_t out_len) {
    if (!s || !out)
        return PS_ILL_FORMED;
    return ps_next_indices(PS_LENT_(s), look_ahead, out, out_len);
}

/* The code that a label index holds. Refused with 1, 6. */
static inline uint64_t ps_store_label(const struct ps_store *s, size_t label, uint64_t *code) {
    if (!s || !code)
        return PS_ILL_FORMED;
    return ps_label(PS_LENT_(s), label, code);
}

/* The class of its code, 0 to 9. Refused with 1, 6. */
static inline uint64_t ps_store_attribute(const struct ps_store *s, size_t label, uint64_t *class_) {
    if (!s || !class_)
        return PS_ILL_FORMED;
    return ps_attribute(PS_LENT_(s), label, class_);
}

/* Its attribute slot as PS_ATTRIBUTE_FLOATS floats, 1.0 at slot mod 10, else 0.0. Refused with 1, 6, 3. */
static inline uint64_t ps_store_attribute_vec(const struct ps_store *s, size_t label, float *out, size_t out_len) {
    if (!s || !out)
        return PS_ILL_FORMED;
    return ps_attribute_vec(PS_LENT_(s), label, out, out_len);
}

/* What is behind a 1. */
enum ps_state {
    PS_STATE_WELL_FORMED = 0,  /* the store is well-formed: the 1 was for NULL */
    PS_STATE_NEVER_OPENED = 1, /* NULL, or a record of zeros */
    PS_STATE_TOO_SHORT = 2,    /* a slice is shorter than the record's shape asks for */
    PS_STATE_ILL_FORMED = 3    /* record and slices disagree, or the record is none that opening writes */
};

static inline enum ps_state ps_store_state(const struct ps_store *s) {
    uint64_t number, all = 0;
    size_t i, n, l;
    const struct ps_memory *m;
    if (!s)
        return PS_STATE_NEVER_OPENED;
    if (ps_store_live_number(s, &number) == PS_OK)
        return PS_STATE_WELL_FORMED;
    for (i = 0; i < PS_RECORD_WORDS; i++)
        all |= s->words[i];
    if (all == 0)
        return PS_STATE_NEVER_OPENED;
    m = &s->memory;
    if (s->words[0] > PS_MAX_DIMENSIONS || s->words[2] > PS_MAX_CAPACITY)
        return PS_STATE_ILL_FORMED;
    n = (size_t)s->words[2];
    l = s->words[5] ? n : 0;
#define PS_SHORT_(table, length) ((m->table ? m->table##_len : 0) < (length))
    if (PS_SHORT_(store, n * (size_t)s->words[0]) || PS_SHORT_(last_known_shingle, (size_t)s->words[0]) ||
        PS_SHORT_(reference_count, n) || PS_SHORT_(location, n) || PS_SHORT_(index_starts, n) || PS_SHORT_(index_ends, n) ||
        PS_SHORT_(labels, l) || PS_SHORT_(label_attributes, l) || PS_SHORT_(label_count, l) || PS_SHORT_(label_starts, l) ||
        PS_SHORT_(label_ends, l) || PS_SHORT_(attributes, l) || PS_SHORT_(attribute_count, l) ||
        PS_SHORT_(attribute_starts, l) || PS_SHORT_(attribute_ends, l))
        return PS_STATE_TOO_SHORT;
#undef PS_SHORT_
    return PS_STATE_ILL_FORMED;
}

/* ---- A hold as one struct ----
 *
 * A hold is a store and the list of what it holds. The readings of the store inside are those of every store: ps_store_copy(&h.store,
 * ..) and the others. ps_store_compact(&h.store) leaves it a hold. Where another call changes the store inside, the list may no
 * longer name each live point once with count 1: the hold is then ill-formed, and its calls get 1. */

/* Set up `store.memory` and the two tables, by hand or with ps_hold_memory_in(), then open; the rest is the library's to write. */
struct ps_hold {
    struct ps_store store;
    uint64_t width;
    uint64_t held;          /* how many points are held */
    uint16_t *held_indices; /* their indices, oldest first */
    size_t held_indices_len;
    uint16_t *held_labels;  /* their label indices; not looked at with labels off */
    size_t held_labels_len;
};

/* The record as the library takes it. */
struct ps_hold_record {
    uint64_t words[PS_HOLD_WORDS];
};

static inline struct ps_hold_record ps_hold_record_of(const struct ps_hold *h) {
    struct ps_hold_record r;
    size_t i;
    for (i = 0; i < PS_RECORD_WORDS; i++)
        r.words[i] = h->store.words[i];
    r.words[PS_RECORD_WORDS] = h->width;
    r.words[PS_RECORD_WORDS + 1] = h->held;
    return r;
}

static inline void ps_hold_record_to(struct ps_hold *h, const struct ps_hold_record *r) {
    size_t i;
    for (i = 0; i < PS_RECORD_WORDS; i++)
        h->store.words[i] = r->words[i];
    h->width = r->words[PS_RECORD_WORDS];
    h->held = r->words[PS_RECORD_WORDS + 1];
}

#define PS_HELD_(access, h, r) \
    (r).words, PS_HOLD_WORDS, PS_TABLES_(access, &(h)->store.memory), \
    PS_SLICE_(access uint16_t, (h)->held_indices, (h)->held_indices_len), \
    PS_SLICE_(access uint16_t, (h)->held_labels, (h)->held_labels_len)

/* How many bytes ps_hold_memory_in() needs for a shape; 0 for one outside the bounds. */
static inline size_t ps_hold_memory_bytes(const struct ps_shape *shape) {
    return ps_shape_check(shape) == PS_OK ? PS_HOLD_MEMORY_BYTES(shape->capacity, shape->dimensions, shape->store_labels) : 0;
}

/* Lends a hold its slices out of one block, as ps_memory_in() does for a store: ps_store_hold_open() comes next. Refused with 1 for
 * NULL, 2, and 1 for a block shorter than ps_hold_memory_bytes(shape). */
static inline uint64_t ps_hold_memory_in(void *block, size_t bytes, const struct ps_shape *shape, struct ps_hold *h) {
    static struct ps_hold empty; /* never written */
    struct ps_store s;
    uint64_t number;
    unsigned char *at;
    if (!h)
        return PS_ILL_FORMED;
    number = ps_memory_in(block, bytes, shape, &s);
    if (number != PS_OK)
        return number;
    if (bytes < ps_hold_memory_bytes(shape))
        return PS_ILL_FORMED;
    /* the two tables stand after the store's slices, which begin with the floats and have an even number of bytes */
    at = (unsigned char *)(void *)s.memory.store + PS_BYTES(shape->capacity, shape->dimensions, shape->store_labels);
    *h = empty;
    h->store = s;
    h->held_indices = (uint16_t *)(void *)at;
    h->held_indices_len = shape->capacity;
    if (shape->store_labels) {
        h->held_labels = h->held_indices + shape->capacity;
        h->held_labels_len = shape->capacity;
    }
    return PS_OK;
}

/* Opens a hold of the newest `width` points, empty, with a table of classes as ps_store_open() does. A second open empties it. Refused
 * with 1 for NULL, then 2, 15, 1, 17. */
static inline uint64_t ps_store_hold_open(
    struct ps_hold *h, const struct ps_shape *shape, size_t width, const char *class_text, size_t class_text_len) {
    struct ps_hold_record r;
    uint64_t number;
    if (!h || !shape || PS_MISSING_(class_text, class_text_len))
        return PS_ILL_FORMED;
    r = ps_hold_record_of(h);
    number = ps_hold_open(PS_HELD_(PS_NOTHING_, h, r), PS_SLICE_(const uint8_t, class_text, class_text_len), shape->dimensions,
        shape->shingle_size, shape->capacity, shape->initial_capacity, (size_t)shape->internal_shingling,
        (size_t)shape->internal_rotation, (size_t)shape->store_labels, width);
    ps_hold_record_to(h, &r);
    return number;
}

/* Adds a point as ps_store_add() does, with its answer and its refusals; 1 is for an ill-formed hold too. Where the point is kept and
 * more than `width` are held, the oldest is given up after it: one dec of its index and label index. Waiting and refused adds give up
 * nothing. With rotation a hold can get 10 for good: compaction moves a held row only where its turn stays, and no refused add makes
 * room; a row that joins the last one is taken all the same. 9 never comes. Refused with 1, 3, 12, 4, 8, 10. */
static inline uint64_t ps_store_hold_add(
    struct ps_hold *h, const float *point, size_t point_len, size_t label, struct ps_added *added) {
    struct ps_hold_record r;
    uint64_t number;
    if (!h || !added || PS_MISSING_(point, point_len))
        return PS_ILL_FORMED;
    r = ps_hold_record_of(h);
    number = ps_hold_add(PS_HELD_(PS_NOTHING_, h, r), PS_SLICE_(const uint32_t, point, point_len), label, &added->kept,
        &added->index, &added->label_index, &added->joined, &added->place, &added->free_indices);
    ps_hold_record_to(h, &r);
    return number;
}

/* The held indices, oldest first, into exactly as many entries as are held; where none is, `out` may be NULL of length 0. Refused
 * with 1, 3. */
static inline uint64_t ps_store_hold_held(const struct ps_hold *h, uint16_t *out, size_t out_len) {
    struct ps_hold_record r;
    if (!h || PS_MISSING_(out, out_len))
        return PS_ILL_FORMED;
    r = ps_hold_record_of(h);
    return ps_hold_held(PS_HELD_(const, h, r), PS_SLICE_(uint16_t, out, out_len));
}

/* How many points are held. Refused with 1. */
static inline uint64_t ps_store_hold_number(const struct ps_hold *h, uint64_t *number) {
    struct ps_hold_record r;
    if (!h || !number)
        return PS_ILL_FORMED;
    r = ps_hold_record_of(h);
    return ps_hold_number(PS_HELD_(const, h, r), number);
}

/* What is behind a 1 of a hold: PS_STATE_ILL_FORMED also where the store inside is well-formed and the list does not fit it. */
static inline enum ps_state ps_hold_state(const struct ps_hold *h) {
    uint64_t number;
    enum ps_state inside;
    if (!h)
        return PS_STATE_NEVER_OPENED;
    if (ps_store_hold_number(h, &number) == PS_OK)
        return PS_STATE_WELL_FORMED;
    inside = ps_store_state(&h->store);
    if (inside != PS_STATE_WELL_FORMED)
        return inside;
    if ((h->held_indices ? h->held_indices_len : 0) < h->store.words[2] ||
        (h->store.words[5] && (h->held_labels ? h->held_labels_len : 0) < h->store.words[2]))
        return PS_STATE_TOO_SHORT;
    return PS_STATE_ILL_FORMED;
}

#undef PS_HELD_

/* ---- The product for the eight-probe block as one struct ----
 *
 * A product is a store of base 8 with internal shingling, one entry a probe, and a tally a probe: how many estimates it has had. A set
 * of eight readings is one add. The readings of the store inside are those of every store: ps_store_copy(&p.store, ..) and the
 * others; so are its changes, ps_store_dec(&p.store, ..) first of all, by which a caller gives up windows that it has done with. They
 * leave it a product. An add on the store inside raises the sequence, and a later PS_ABSENT repeats its floats. */

/* Set up `store.memory`, by hand or with ps_probes_memory_in(), then open; the rest is the library's to write. */
struct ps_probes {
    struct ps_store store;
    uint64_t tallies[PS_PROBES];
};

/* The record as the library takes it. */
struct ps_probes_record {
    uint64_t words[PS_PROBES_WORDS];
};

static inline struct ps_probes_record ps_probes_record_of(const struct ps_probes *p) {
    struct ps_probes_record r;
    size_t i;
    for (i = 0; i < PS_RECORD_WORDS; i++)
        r.words[i] = p->store.words[i];
    for (i = 0; i < PS_PROBES; i++)
        r.words[PS_RECORD_WORDS + i] = p->tallies[i];
    return r;
}

static inline void ps_probes_record_to(struct ps_probes *p, const struct ps_probes_record *r) {
    size_t i;
    for (i = 0; i < PS_RECORD_WORDS; i++)
        p->store.words[i] = r->words[i];
    for (i = 0; i < PS_PROBES; i++)
        p->tallies[i] = r->words[PS_RECORD_WORDS + i];
}

#define PS_PRODUCT_(access, p, r) (r).words, PS_PROBES_WORDS, PS_TABLES_(access, &(p)->store.memory)

/* Lends a product its slices out of one block of ps_memory_bytes(shape) bytes, as ps_memory_in() does for a store: ps_store_probes_open()
 * comes next. Refused with 1 for NULL, 2, and 1 for a shorter block. */
static inline uint64_t ps_probes_memory_in(void *block, size_t bytes, const struct ps_shape *shape, struct ps_probes *p) {
    static struct ps_probes empty; /* never written */
    struct ps_store s;
    uint64_t number;
    if (!p)
        return PS_ILL_FORMED;
    number = ps_memory_in(block, bytes, shape, &s);
    if (number != PS_OK)
        return number;
    *p = empty;
    p->store = s;
    return PS_OK;
}

/* Opens a product, with no set taken yet and with a table of classes as ps_store_open() does. Refused with 1 for NULL, then 2 for another
 * base than 8, for no internal shingling or outside the bounds, then 1, 17. */
static inline uint64_t ps_store_probes_open(
    struct ps_probes *p, const struct ps_shape *shape, const char *class_text, size_t class_text_len) {
    struct ps_probes_record r;
    uint64_t number;
    if (!p || !shape || PS_MISSING_(class_text, class_text_len))
        return PS_ILL_FORMED;
    r = ps_probes_record_of(p);
    number = ps_probes_open(PS_PRODUCT_(PS_NOTHING_, p, r), PS_SLICE_(const uint8_t, class_text, class_text_len),
        shape->dimensions, shape->shingle_size, shape->capacity, shape->initial_capacity,
        (size_t)shape->internal_shingling, (size_t)shape->internal_rotation, (size_t)shape->store_labels);
    ps_probes_record_to(p, &r);
    return number;
}

/* Takes a set of eight readings, each a kind (enum ps_kind) and a float, which for PS_ABSENT is not looked at; a NaN keeps its bits.
 * The answer is that of ps_store_add(). An accepted set, kept or waiting, raises the tally of each estimated probe by one; a refused one
 * alters no tally and no last float. Refused with 1, 3 for other than eight kinds or floats, 11 for a kind above 2, 16 for an absent
 * reading while no set was taken, then 12, 4, 8, 9, 10 as an add. */
static inline uint64_t ps_store_probes_set(struct ps_probes *p, const uint8_t *kinds, size_t kinds_len, const float *floats,
    size_t floats_len, size_t label, struct ps_added *added) {
    struct ps_probes_record r;
    uint64_t number;
    if (!p || !added || PS_MISSING_(kinds, kinds_len) || PS_MISSING_(floats, floats_len))
        return PS_ILL_FORMED;
    r = ps_probes_record_of(p);
    number = ps_probes_set(PS_PRODUCT_(PS_NOTHING_, p, r), PS_SLICE_(const uint8_t, kinds, kinds_len),
        PS_SLICE_(const uint32_t, floats, floats_len), label, &added->kept, &added->index, &added->label_index, &added->joined,
        &added->place, &added->free_indices);
    ps_probes_record_to(p, &r);
    return number;
}

/* How many estimates each probe has had, into exactly eight entries. Refused with 1, 3. */
static inline uint64_t ps_store_probes_tallies(const struct ps_probes *p, uint32_t *out, size_t out_len) {
    struct ps_probes_record r;
    if (!p || PS_MISSING_(out, out_len))
        return PS_ILL_FORMED;
    r = ps_probes_record_of(p);
    return ps_probes_tallies(PS_PRODUCT_(const, p, r), PS_SLICE_(uint32_t, out, out_len));
}

/* What is behind a 1 of a product: PS_STATE_ILL_FORMED also where the store inside is well-formed and is no product's, or a tally is
 * above its sequence. */
static inline enum ps_state ps_probes_state(const struct ps_probes *p) {
    uint32_t tallies[PS_PROBES];
    enum ps_state inside;
    if (!p)
        return PS_STATE_NEVER_OPENED;
    if (ps_store_probes_tallies(p, tallies, PS_PROBES) == PS_OK)
        return PS_STATE_WELL_FORMED;
    inside = ps_store_state(&p->store);
    return inside != PS_STATE_WELL_FORMED ? inside : PS_STATE_ILL_FORMED;
}

#undef PS_PRODUCT_
#undef PS_SLICE_
#undef PS_TABLES_
#undef PS_NOTHING_
#undef PS_CHANGED_
#undef PS_LENT_
#undef PS_MISSING_

#ifdef __cplusplus
}
#endif

#endif
