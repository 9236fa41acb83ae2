/* Lavgerin: clicks of greedy, openings-first and random-search ZiNi, 3BV, the replay of move lists, and boards in MBF
 * files. MIT, as the Rust module that it ports: LICENSE, and NOTICE for that module's own.
 *
 * Installed by tools/install PREFIX, a program is built by: cc yours.c $(pkg-config --cflags --libs lavgerin). From the
 * repository: -Iinclude and target/staticlib/liblavgerin.a (tools/build lavgerin).
 *
 * All memory is lent by the caller. The library has no data of its own, so it may be called from any number of threads
 * at once on separate memory: nobody else may use what a call is lent to write to, until it returns.
 *
 * A grid is rows x columns numbers, row after row; -1 is a mine, any other value a safe cell.
 * A cell's index is column x rows + row.
 * The work area has at least 5 numbers a cell: after success a cell has at 5 x index its first label, second label,
 * premium, state (0 closed, 1 opened, 2 flagged, 3 an opened mine) and 0. lavgerin_at_least leaves 0 in all of them.
 * A move is kind x 65536 + index. A list of a round has room for as many moves as cells; a list to replay may have any
 * length.
 *
 * Each call returns the number of the refusal, 0 for success. Answers go through the pointers; on a refusal what
 * stands there is left alone, except that replay writes the bad move's place to *made on LAVGERIN_MOVE, and a strict
 * function the index of the lowest cell at fault behind its first answer pointer on LAVGERIN_NUMBER.
 * All refusals but LAVGERIN_DRAWS and LAVGERIN_MOVE change nothing lent.
 *
 * Any numbers and lengths may be passed. A length counts elements, not bytes. Every pointer must be valid for its
 * length, and none may be NULL, also where the length is 0. What a function writes must not overlap anything else that
 * is passed.
 *
 * A call takes less than 64 KiB of stack: at most 50,288 bytes were measured up to 512 cells, where functions call each
 * other, and less than 2 KiB above that. On files reading took 8,344 bytes, whatever the file, and writing 88, in its
 * strict form less than 400.
 *
 * A draw among n, two or more, reads the draws' next four bytes, low byte first, as a word, and takes place word mod n.
 * With fair 0, the old mode, every word is taken. With any other fair, the fair mode, one that isn't below 2^32 minus
 * (2^32 mod n) is spent and the next is read, so that each place has an even chance; *used counts spent words too.
 * With fair 0 a random round uses at most 4 x 3BV draw bytes, so a search with 4 x 3BV x rounds bytes never returns
 * LAVGERIN_DRAWS. In the fair mode no number of bytes rules it out, but of random words fewer than 1 in 66,000 is
 * spent.
 * A long search can be split: each call is lent the bytes from where the one before ended, by *used, and the least of
 * the answers counts. To keep the moves too, play single rounds so, and copy the list whenever *clicks is below the
 * least so far: examples/search.c.
 *
 * The keyed functions need no draw bytes: their draws come from a key, a run of six numbers, five words x, y, z, w, v
 * and a counter d, by Marsaglia's xorwow. One word more: t = x ^ (x >> 2); x, y, z, w become y, z, w, v; v becomes
 * (v ^ (v << 4)) ^ (t ^ (t << 1)); d rises by 362437; the word is d + v, all modulo 2^32. The same key gives the same
 * round everywhere, and what the functions above do with the key's words as draw bytes, four each, low byte first.
 * After success the key's run holds the key after so many words, *used / 4, so that the next call reads on; any
 * refusal leaves it. A key that was handed back is always taken. In the old mode LAVGERIN_DRAWS is never returned, in
 * the fair one only when 64 words were spent on one draw. */
#ifndef LAVGERIN_H
#define LAVGERIN_H

#include <stddef.h>
#include <stdint.h>

/* The version of this header, by semantic versioning; docs/CHANGES.md says what changed in each. */
#define LAVGERIN_VERSION_MAJOR 1
#define LAVGERIN_VERSION_MINOR 0
#define LAVGERIN_VERSION_PATCH 0

#ifdef __cplusplus
extern "C" {
#endif

/* The version of the library that is linked: major x 65536 + minor x 256 + patch. */
uint32_t lavgerin_version(void);

/* What is returned, in the order of the checks of the calls on a grid; a file has an order of its own, beside
 * lavgerin_read_mbf. 8 and 9 are of lines, which no function here reads or writes, but the programs do. */
enum {
    LAVGERIN_SUCCESS = 0,
    LAVGERIN_SHAPE = 1,  /* rows or columns 0, or over 255 */
    LAVGERIN_BOARD = 2,  /* the grid isn't rows x columns long; with files: no room for the grid read or the file written */
    LAVGERIN_WORK = 3,   /* the work area is below 5 x cells */
    LAVGERIN_TRACE = 4,  /* the list is below cells long; in replay: count above the list's length */
    LAVGERIN_ROUNDS = 5, /* random search with 0 rounds, keyed search also with more than 1,000,000 */
    LAVGERIN_DRAWS = 6,  /* four bytes were needed and fewer were left, maybe after spent words, or 64 words of a key
                            were spent on one draw: the first 5 x cells numbers and cells moves are 0 */
    LAVGERIN_MOVE = 7,   /* replay met a move that isn't legal, as none is after a won or lost game, another kind, or an
                            index past the grid: the position before it is left */
    LAVGERIN_FILE = 10,  /* the file isn't well formed: its length, a mine past the edge, or one listed twice */
    LAVGERIN_NUMBER = 11, /* of the strict functions, checked after BOARD and before WORK: a safe cell's value isn't its
                             number */
    LAVGERIN_KEY = 12     /* of the keyed functions, checked after ROUNDS and before DRAWS: the key's five words are all
                             0, or its run isn't six long */
};

/* The name and one sentence of a number that is returned, or that a program prints for a line, for messages. */
static inline const char *lavgerin_refusal_name(uint8_t number) {
    switch (number) {
    case 0: return "SUCCESS: nothing was refused";
    case 1: return "SHAPE: rows or columns are 0, or over 255";
    case 2: return "BOARD: the grid is not rows x columns long, or there is no room for what is read from a file or written to one";
    case 3: return "WORK: the work area is below five numbers a cell";
    case 4: return "TRACE: the list is below one move a cell, or a replay's count is above its length";
    case 5: return "ROUNDS: a search has 0 rounds, or a keyed one more than 1,000,000";
    case 6: return "DRAWS: a choice needs four bytes and fewer are left, or 64 words of a key were spent on it";
    case 7: return "MOVE: a move is not legal where it stands, has another kind, or is past the grid";
    case 8: return "FRAME: a line is malformed";
    case 9: return "SIZE: a board line, or a file that is to be one, has over 2,048 cells";
    case 10: return "FILE: an MBF file is malformed";
    case 11: return "NUMBER: a safe cell's value is not its number";
    case 12: return "KEY: the five words of a key are all 0, or its run is not six long";
    default: return "UNKNOWN: no refusal has this number";
    }
}

/* The kinds of moves. */
enum {
    LAVGERIN_LEFT = 1,
    LAVGERIN_FLAG = 2,
    LAVGERIN_CHORD = 3,
    LAVGERIN_UNFLAG = 4 /* takes a flag away; no round lists it */
};

/* How a replayed game ends. */
enum {
    LAVGERIN_UNFINISHED = 0,
    LAVGERIN_WON = 1, /* all safe cells are open and no mine */
    LAVGERIN_LOST = 2 /* a mine is open */
};

/* 3BV; the work area is left at the position before any move. */
uint8_t lavgerin_three_bv(size_t rows, size_t columns, const int32_t *grid, size_t grid_length,
                          int32_t *work, size_t work_length, uint64_t *units);

/* Whether 3BV is at least so many units: 1 or 0, for any number of units. It counts no further than it must: until so
 * many are found, or these and the cells not yet looked at are fewer. After success the first 5 x cells numbers of the
 * work area are 0. */
uint8_t lavgerin_at_least(size_t rows, size_t columns, const int32_t *grid, size_t grid_length,
                          int32_t *work, size_t work_length, size_t units, uint64_t *enough);

/* Greedy ZiNi: clicks, and the moves in the list. */
uint8_t lavgerin_greedy(size_t rows, size_t columns, const int32_t *grid, size_t grid_length,
                        int32_t *work, size_t work_length, uint32_t *list, size_t list_length,
                        uint64_t *clicks);

/* Openings-first ZiNi: clicks, and the moves in the list. */
uint8_t lavgerin_openings_first(size_t rows, size_t columns, const int32_t *grid, size_t grid_length,
                                int32_t *work, size_t work_length, uint32_t *list, size_t list_length,
                                uint64_t *clicks);

/* One random round: clicks, the moves in the list, and the draw bytes used. With fair 0 in the old mode of the draws,
 * with any other value in the fair one. */
uint8_t lavgerin_random_round(size_t rows, size_t columns, const int32_t *grid, size_t grid_length,
                              int32_t *work, size_t work_length, uint32_t *list, size_t list_length,
                              const uint8_t *draws, size_t draws_length, uint8_t fair,
                              uint64_t *clicks, uint64_t *used);

/* Random search over so many rounds: the least clicks, and the draw bytes used. fair as above. */
uint8_t lavgerin_random_search(size_t rows, size_t columns, const int32_t *grid, size_t grid_length,
                               int32_t *work, size_t work_length,
                               const uint8_t *draws, size_t draws_length, uint8_t fair, size_t rounds,
                               uint64_t *clicks, uint64_t *used);

/* One random round by a key: clicks, the moves in the list, the bytes of the key used, four a word, and in the key's
 * run the key after it. fair as above. */
uint8_t lavgerin_keyed_round(size_t rows, size_t columns, const int32_t *grid, size_t grid_length,
                             int32_t *work, size_t work_length, uint32_t *list, size_t list_length,
                             uint32_t *key, size_t key_length, uint8_t fair,
                             uint64_t *clicks, uint64_t *used);

/* Random search over so many rounds by a key, at most 1,000,000: the least clicks, the bytes of the key used, and in
 * the key's run the key after it. A search of a + b rounds gives what one of a and then one of b with the key handed
 * back give: the least of both, and the bytes of both together. fair as above. */
uint8_t lavgerin_keyed_search(size_t rows, size_t columns, const int32_t *grid, size_t grid_length,
                              int32_t *work, size_t work_length,
                              uint32_t *key, size_t key_length, uint8_t fair, size_t rounds,
                              uint64_t *clicks, uint64_t *used);

/* The first count moves of a list are played from the position before any move: moves made, safe cells still closed,
 * and how the game ends. The work area is left at the last position, with its premiums. In all this a flagged safe
 * cell counts as closed, and an opened mine as unflagged.
 *
 * LEFT and FLAG are legal on a closed unflagged cell, a mine or not; UNFLAG on a flagged one; CHORD on an opened cell
 * of number 1 or more if there are as many flags in its square, also where it opens nothing. After a won or lost game
 * no move is legal.
 * FLAG flags the cell, UNFLAG leaves it closed. LEFT on a safe cell opens it and, if its number is 0, the closed
 * unflagged cells in the squares of the 0-cells that chains of closed unflagged 0-cells join to it: so no flagged
 * cell is opened or passed through. CHORD acts as LEFT on every closed unflagged cell of its square.
 * LEFT on a closed unflagged mine, and CHORD with one or more in its square, lose: every such mine is opened (state
 * 3), for CHORD after the other cells. The game is won when all safe cells are open and no mine; a grid without safe
 * cells is won before any move.
 *
 * On LAVGERIN_MOVE *made is the bad move's place, counted from 0, *closed and *ending stay as they were, and the work
 * area is left at the position before that move. */
uint8_t lavgerin_replay(size_t rows, size_t columns, const int32_t *grid, size_t grid_length,
                        int32_t *work, size_t work_length, const uint32_t *list, size_t list_length,
                        size_t count, uint64_t *made, uint64_t *closed, uint64_t *ending);

/* An MBF file is a byte of width (columns), a byte of height (rows), the mine count as two bytes, high first, and for
 * each mine a byte of column and a byte of row, both from 0: docs/MBF.md has the form whole. So it has 4 + 2 x mines
 * bytes, 130,054 at most. */

/* Reads an MBF file, its mines in any order: rows and columns, and at the start of the grid rows x columns numbers, -1
 * for a mine and its number for a safe cell. What is past them stays.
 *
 * Checked in this order: LAVGERIN_FILE for under two bytes; LAVGERIN_SHAPE for a width or height of 0; LAVGERIN_FILE
 * for a length that isn't 4 + 2 x the mine count, for a mine past the edge, or for one listed twice; LAVGERIN_BOARD
 * for a grid below rows x columns. A grid of 65,025 numbers has room for any file. */
uint8_t lavgerin_read_mbf(const uint8_t *file, size_t file_length, int32_t *grid, size_t grid_length,
                          uint64_t *rows, uint64_t *columns);

/* Writes a grid as an MBF file, its mines in the order of the cell index: how many bytes, at the start of the file's
 * memory. What is past them stays. A file that is written, read and written again has the same bytes.
 *
 * Checked in this order: LAVGERIN_SHAPE; LAVGERIN_BOARD for a grid that isn't rows x columns long; LAVGERIN_BOARD for
 * a file_length below 4 + 2 x mines. */
uint8_t lavgerin_write_mbf(size_t rows, size_t columns, const int32_t *grid, size_t grid_length,
                           uint8_t *file, size_t file_length, uint64_t *written);

/* The strict forms, for grids that were typed: each takes only -1 for a mine and, for a safe cell, exactly its number,
 * the mines in its square. Any other grid of the right length is LAVGERIN_NUMBER, and the lowest index of a cell whose
 * value is wrong stands behind the first answer pointer (*units, *enough, *clicks, *made or *written); nothing else is
 * changed. On a grid without a wrong value each does what the function without strict_ does, refusals too. A -1 typed
 * for a number is a mine like any other, so then a neighbour is named.
 *
 * Checked in this order: LAVGERIN_SHAPE, LAVGERIN_BOARD for the grid's length, LAVGERIN_NUMBER, and then the others. */
uint8_t lavgerin_strict_three_bv(size_t rows, size_t columns, const int32_t *grid, size_t grid_length,
                                 int32_t *work, size_t work_length, uint64_t *units);

uint8_t lavgerin_strict_at_least(size_t rows, size_t columns, const int32_t *grid, size_t grid_length,
                                 int32_t *work, size_t work_length, size_t units, uint64_t *enough);

uint8_t lavgerin_strict_greedy(size_t rows, size_t columns, const int32_t *grid, size_t grid_length,
                               int32_t *work, size_t work_length, uint32_t *list, size_t list_length,
                               uint64_t *clicks);

uint8_t lavgerin_strict_openings_first(size_t rows, size_t columns, const int32_t *grid, size_t grid_length,
                                       int32_t *work, size_t work_length, uint32_t *list, size_t list_length,
                                       uint64_t *clicks);

uint8_t lavgerin_strict_random_round(size_t rows, size_t columns, const int32_t *grid, size_t grid_length,
                                     int32_t *work, size_t work_length, uint32_t *list, size_t list_length,
                                     const uint8_t *draws, size_t draws_length, uint8_t fair,
                                     uint64_t *clicks, uint64_t *used);

uint8_t lavgerin_strict_random_search(size_t rows, size_t columns, const int32_t *grid, size_t grid_length,
                                      int32_t *work, size_t work_length,
                                      const uint8_t *draws, size_t draws_length, uint8_t fair, size_t rounds,
                                      uint64_t *clicks, uint64_t *used);

uint8_t lavgerin_strict_keyed_round(size_t rows, size_t columns, const int32_t *grid, size_t grid_length,
                                    int32_t *work, size_t work_length, uint32_t *list, size_t list_length,
                                    uint32_t *key, size_t key_length, uint8_t fair,
                                    uint64_t *clicks, uint64_t *used);

uint8_t lavgerin_strict_keyed_search(size_t rows, size_t columns, const int32_t *grid, size_t grid_length,
                                     int32_t *work, size_t work_length,
                                     uint32_t *key, size_t key_length, uint8_t fair, size_t rounds,
                                     uint64_t *clicks, uint64_t *used);

uint8_t lavgerin_strict_replay(size_t rows, size_t columns, const int32_t *grid, size_t grid_length,
                               int32_t *work, size_t work_length, const uint32_t *list, size_t list_length,
                               size_t count, uint64_t *made, uint64_t *closed, uint64_t *ending);

uint8_t lavgerin_strict_write_mbf(size_t rows, size_t columns, const int32_t *grid, size_t grid_length,
                                  uint8_t *file, size_t file_length, uint64_t *written);

#ifdef __cplusplus
}
#endif

#endif
