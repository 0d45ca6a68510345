/* An eight-probe loop: each turn takes a set of readings and keeps windows of three sets. A probe that says nothing is Absent and repeats
 * its last float; one whose value was worked out from its neighbours is Estimated, and the loop tells how often that was. */
#include <inttypes.h>
#include <stdio.h>

#include "point_store.h"

enum { SETS = 3, WINDOWS = 4, TURNS = 9 };

static unsigned char block[PS_MEMORY_BYTES(WINDOWS, SETS *PS_PROBES, 0)];

/* What the probes report in a turn: probe 2 is silent in turns 3 and 4, and probe 5 is reckoned from 4 and 6 in turns 4 to 6. */
static void report(int turn, uint8_t *kinds, float *degrees) {
    int probe;
    for (probe = 0; probe < PS_PROBES; probe++) {
        kinds[probe] = PS_MEASURED;
        degrees[probe] = 20.0f + (float)probe + 0.5f * (float)turn;
    }
    if (turn == 3 || turn == 4)
        kinds[2] = PS_ABSENT;
    if (turn >= 4 && turn <= 6) {
        kinds[5] = PS_ESTIMATED;
        degrees[5] = (degrees[4] + degrees[6]) / 2.0f;
    }
}

int main(void) {
    struct ps_shape shape = {SETS * PS_PROBES, SETS, WINDOWS, WINDOWS, 1, 0, 0};
    struct ps_probes probes;
    uint64_t number = ps_probes_memory_in(block, sizeof block, &shape, &probes);
    uint64_t oldest = 0, left = WINDOWS;
    uint32_t tallies[PS_PROBES];
    int turn;
    if (number == PS_OK)
        number = ps_store_probes_open(&probes, &shape, PS_REASON_CLASSES, PS_CLASS_TEXT_BYTES);
    for (turn = 0; number == PS_OK && turn < TURNS; turn++) {
        uint8_t kinds[PS_PROBES];
        float degrees[PS_PROBES], window[SETS * PS_PROBES];
        struct ps_added added;
        report(turn, kinds, degrees);
        /* the window that has been looked at longest makes room for the next */
        if (left == 0) {
            number = ps_store_dec(&probes.store, (size_t)oldest, PS_NONE);
            oldest = (oldest + 1) % WINDOWS;
        }
        if (number == PS_OK)
            number = ps_store_probes_set(&probes, kinds, PS_PROBES, degrees, PS_PROBES, 0, &added);
        if (number != PS_OK)
            break;
        if (!added.kept) {
            printf("turn %d: waiting\n", turn);
            continue;
        }
        left = added.free_indices;
        number = ps_store_copy(&probes.store, (size_t)added.index, window, SETS * PS_PROBES);
        printf("turn %d: window %" PRIu64 ", %" PRIu64 " left, probe 2: %.1f %.1f %.1f, probe 5: %.1f %.1f %.1f\n", turn, added.index,
            left, (double)window[2], (double)window[10], (double)window[18], (double)window[5], (double)window[13],
            (double)window[21]);
    }
    if (number == PS_OK)
        number = ps_store_probes_tallies(&probes, tallies, PS_PROBES);
    if (number != PS_OK) {
        printf("%s\n", ps_refusal_text(number));
        return 1;
    }
    printf("estimates:");
    for (turn = 0; turn < PS_PROBES; turn++)
        printf(" %" PRIu32, tallies[turn]);
    printf("\n");
    return 0;
}
