/* A long random search with 64 KiB of draws at a time, on the board of 2 rows and 4 columns in boards.txt.
 * It plays single rounds, each on the bytes from where the last one ended, and keeps the list of the best. */
#include "lavgerin.h"

#include <stdio.h>
#include <string.h>

enum { ROWS = 2, COLUMNS = 4, CELLS = ROWS * COLUMNS, ROUNDS = 100000, LENGTH = 65536 };

/* Draws by a plain rule, so that every run prints the same; a console takes them from where it has them. */
static void take_draws(uint8_t *draws, size_t length) {
    static uint32_t state = 1;
    for (size_t k = 0; k < length; k++) {
        state = state * 1103515245u + 12345u;
        draws[k] = (uint8_t)(state >> 16);
    }
}

int main(void) {
    static const int32_t grid[CELLS] = {0, 0, 0, 0, 0, -1, -1, 0};
    static uint8_t draws[LENGTH];
    int32_t work[5 * CELLS];
    uint32_t list[CELLS], best[CELLS];
    uint64_t units, clicks, used, least = UINT64_MAX;
    size_t at = LENGTH;

    if (lavgerin_three_bv(ROWS, COLUMNS, grid, CELLS, work, 5 * CELLS, &units) != LAVGERIN_SUCCESS)
        return 1;
    for (size_t round = 0; round < ROUNDS; round++) {
        if (LENGTH - at < 4 * units) { /* in the old mode a round uses at most 4 x 3BV bytes: keep what is left, and fill up */
            memmove(draws, draws + at, LENGTH - at);
            take_draws(draws + LENGTH - at, at);
            at = 0;
        }
        if (lavgerin_random_round(ROWS, COLUMNS, grid, CELLS, work, 5 * CELLS, list, CELLS, draws + at, LENGTH - at,
                                  0, &clicks, &used) != LAVGERIN_SUCCESS)
            return 1;
        at += used;
        if (clicks < least) {
            least = clicks;
            memcpy(best, list, clicks * sizeof list[0]);
        }
    }
    for (uint64_t k = 0; k < least; k++)
        printf("%c%u ", "?LFC"[best[k] / 65536], (unsigned)(best[k] % 65536));
    printf("in %u clicks, 3BV %u\n", (unsigned)least, (unsigned)units);
    return 0;
}
