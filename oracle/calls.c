/* The calls by their C names, over standard input and output: oracle/afar.rs asks, where the processor is none that the archive is for.
 *
 * A request is eight numbers of 64 bits, then the grid, the work area, the list and the draws; their order is that of `Place`.
 * An answer is four numbers (what the call returned and what it told, 0 for what it didn't), then the work area and the list. */
#include "lavgerin.h"
#include <stdio.h>
#include <stdlib.h>

/* The places of a request: the call, the sides, the four lengths, the rounds of a search or the moves of a replay. */
enum Place { CALL, ROWS, COLUMNS, GRID, WORK, LIST, DRAWS, COUNT, PLACES };

/* What a call takes beside the numbers of the request. */
struct Lent {
    int32_t *grid, *work;
    uint32_t *list;
    uint8_t *draws;
};

/* A run of so many numbers of so many bytes, read; never NULL. */
static void *read_run(size_t count, size_t size) {
    void *run = malloc(count * size + 1);
    if (run == NULL || fread(run, size, count, stdin) != count)
        exit(1);
    return run;
}

/* One call: what it returned, and what it told. Draws are in the old mode, which is the Rust's. */
static void make(const uint64_t *n, const struct Lent *lent, uint64_t *told) {
#define BOARD n[ROWS], n[COLUMNS], lent->grid, n[GRID], lent->work, n[WORK]
    switch (n[CALL]) {
    case 0: told[0] = lavgerin_three_bv(BOARD, told + 1); return;
    case 1: told[0] = lavgerin_greedy(BOARD, lent->list, n[LIST], told + 1); return;
    case 2: told[0] = lavgerin_openings_first(BOARD, lent->list, n[LIST], told + 1); return;
    case 3: told[0] = lavgerin_random_round(BOARD, lent->list, n[LIST], lent->draws, n[DRAWS], 0, told + 1, told + 2); return;
    case 4: told[0] = lavgerin_random_search(BOARD, lent->draws, n[DRAWS], 0, n[COUNT], told + 1, told + 2); return;
    case 5: told[0] = lavgerin_replay(BOARD, lent->list, n[LIST], n[COUNT], told + 1, told + 2, told + 3); return;
    default: exit(1);
    }
}

int main(void) {
    uint64_t request[PLACES];
    while (fread(request, sizeof request, 1, stdin) == 1) {
        struct Lent lent;
        lent.grid = read_run(request[GRID], sizeof *lent.grid);
        lent.work = read_run(request[WORK], sizeof *lent.work);
        lent.list = read_run(request[LIST], sizeof *lent.list);
        lent.draws = read_run(request[DRAWS], sizeof *lent.draws);
        uint64_t told[4] = {0, 0, 0, 0};
        make(request, &lent, told);
        fwrite(told, sizeof told, 1, stdout);
        fwrite(lent.work, sizeof *lent.work, request[WORK], stdout);
        fwrite(lent.list, sizeof *lent.list, request[LIST], stdout);
        fflush(stdout);
        free(lent.grid);
        free(lent.work);
        free(lent.list);
        free(lent.draws);
    }
    return 0;
}
