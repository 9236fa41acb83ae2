/* Calls the library under its C names: the twelve boards, random rounds and searches, keyed ones, refusals on both
 * sides, replays with wrong flags to each ending, MBF files, the early count beside the full one, the strict forms, and what
 * is left alone. Exits at the first wrong answer. */
#include "lavgerin.h"

#include <stdio.h>
#include <stdlib.h>
#include <string.h>

enum { MOST = 255 * 255, MILLION = 1000000, UNTOLD = 77, LENT = 7, LENT_MOVE = 9, LENT_BYTE = 11 };
enum { MOST_BYTES = 4 + 2 * MOST, MOST_LISTED = 65535, RANDOM_GRIDS = 400, SIDE = 12, MOST_IN_ALL = 12 };

#define L(i) ((uint32_t)LAVGERIN_LEFT * 65536 + (i))
#define F(i) ((uint32_t)LAVGERIN_FLAG * 65536 + (i))
#define C(i) ((uint32_t)LAVGERIN_CHORD * 65536 + (i))
#define U(i) ((uint32_t)LAVGERIN_UNFLAG * 65536 + (i))
#define MOVES(...) (const uint32_t[]){__VA_ARGS__}, sizeof (const uint32_t[]){__VA_ARGS__} / sizeof(uint32_t)
#define BYTES(...) (const uint8_t[]){__VA_ARGS__}, sizeof (const uint8_t[]){__VA_ARGS__}
#define EQUAL(got, want) equal(__LINE__, #got, (uint64_t)(got), (uint64_t)(want))

static int32_t grid[MOST + 1], work[5 * MOST + 1];
static int32_t values[MOST + 1];
static uint32_t list[MOST + 1], many[MILLION];
static uint8_t file[MOST_BYTES + 1], bytes[4 + 2 * MOST_LISTED];
static uint64_t first, second, third;
static uint32_t key[8], given[8];
static unsigned long compared;

/* Two numbers that must be the same. */
static void equal(int line, const char *what, uint64_t got, uint64_t want) {
    compared++;
    if (got != want) {
        printf("line %d: %s is %llu, not %llu\n", line, what, (unsigned long long)got, (unsigned long long)want);
        exit(1);
    }
}

/* Says what was run, and how many numbers were compared in it. */
static void ran(const char *what) {
    printf("%s: %lu comparisons\n", what, compared);
    compared = 0;
}

/* Everything lent and the answers as before any call. */
static void lend(void) {
    for (size_t k = 0; k < sizeof work / sizeof work[0]; k++) work[k] = LENT;
    for (size_t k = 0; k < sizeof list / sizeof list[0]; k++) list[k] = LENT_MOVE;
    first = second = third = UNTOLD;
}

/* From these places on, nothing lent was changed. */
static void untouched_from(size_t work_from, size_t list_from) {
    size_t changed = 0;
    for (size_t k = work_from; k < sizeof work / sizeof work[0]; k++) changed += work[k] != LENT;
    for (size_t k = list_from; k < sizeof list / sizeof list[0]; k++) changed += list[k] != LENT_MOVE;
    EQUAL(changed, 0);
}

/* A refusal that changes nothing: its number, the answers and everything lent. */
static void refused(uint8_t got, uint8_t want) {
    EQUAL(got, want);
    EQUAL(first, UNTOLD);
    EQUAL(second, UNTOLD);
    EQUAL(third, UNTOLD);
    untouched_from(0, 0);
}

/* DRAWS: its number, the answers as they were, the first numbers and moves 0. */
static void dry(uint8_t got, size_t cells, size_t moves) {
    EQUAL(got, LAVGERIN_DRAWS);
    EQUAL(first, UNTOLD);
    EQUAL(second, UNTOLD);
    for (size_t k = 0; k < 5 * cells; k++) EQUAL(work[k], 0);
    for (size_t k = 0; k < moves; k++) EQUAL(list[k], 0);
    untouched_from(5 * cells, moves);
}

/* The list is these moves, and nothing after them. */
static void listed(const uint32_t *moves, size_t count, size_t cells) {
    for (size_t k = 0; k < count; k++) EQUAL(list[k], moves[k]);
    untouched_from(5 * cells, count);
}

typedef struct {
    size_t rows, columns;
    int32_t grid[9];
    uint64_t units, greedy, openings_first;
    uint32_t moves[5];
} board;

static const board P[12] = {
    {1, 1, {0}, 1, 1, 1, {L(0)}},
    {1, 1, {-1}, 0, 0, 0, {0}},
    {1, 1, {5}, 1, 1, 1, {L(0)}},
    {1, 2, {-1, 0}, 1, 1, 1, {L(1)}},
    {1, 3, {0, -1, 0}, 2, 2, 2, {L(0), L(2)}},
    {1, 5, {0, 0, -1, 0, 0}, 2, 2, 2, {L(0), L(4)}},
    {2, 2, {-1, 0, 0, 0}, 3, 3, 3, {L(1), F(0), C(1)}},
    {2, 2, {-1, 0, -1, 0}, 2, 2, 2, {L(2), L(3)}},
    {3, 3, {0, 0, 0, 0, 0, 0, 0, 0, 0}, 1, 1, 1, {L(0)}},
    {3, 3, {-1, 0, 0, 0, 0, 0, 0, 0, 0}, 1, 1, 1, {L(2)}},
    {3, 3, {0, 0, 0, 0, -1, 0, 0, 0, 0}, 8, 5, 6, {L(1), F(4), C(1), C(3), C(5)}},
    {3, 3, {0, 0, -1, 0, 0, 0, -1, 0, 0}, 2, 2, 2, {L(0), L(8)}},
};
static const board *const P2 = &P[1], *const P7 = &P[6], *const P9 = &P[8], *const P11 = &P[10], *const P12 = &P[11];

/* What a whole list comes to: all moves made, no safe cell closed, won. */
static void replays(const board *b, uint64_t clicks) {
    size_t cells = b->rows * b->columns;
    uint64_t made = UNTOLD, closed = UNTOLD, ending = UNTOLD;
    EQUAL(lavgerin_replay(b->rows, b->columns, b->grid, cells, work, 5 * cells, list, cells, clicks, &made, &closed, &ending), 0);
    EQUAL(made, clicks);
    EQUAL(closed, 0);
    EQUAL(ending, LAVGERIN_WON);
}

/* The three figures of a board and its greedy moves. */
static void priced(const board *b) {
    size_t cells = b->rows * b->columns;
    lend();
    EQUAL(lavgerin_three_bv(b->rows, b->columns, b->grid, cells, work, 5 * cells, &first), 0);
    EQUAL(first, b->units);
    untouched_from(5 * cells, 0);
    lend();
    EQUAL(lavgerin_greedy(b->rows, b->columns, b->grid, cells, work, 5 * cells, list, cells, &first), 0);
    EQUAL(first, b->greedy);
    listed(b->moves, b->greedy, cells);
    replays(b, b->greedy);
    lend();
    EQUAL(lavgerin_openings_first(b->rows, b->columns, b->grid, cells, work, 5 * cells, list, cells, &first), 0);
    EQUAL(first, b->openings_first);
    untouched_from(5 * cells, b->openings_first);
    replays(b, b->openings_first);
}

/* One random round of a board with these draws, in the fair mode unless fair is 0. */
static uint8_t rolled(const board *b, const uint8_t *draws, size_t length, uint8_t fair) {
    size_t cells = b->rows * b->columns;
    lend();
    return lavgerin_random_round(b->rows, b->columns, b->grid, cells, work, 5 * cells, list, cells, draws, length, fair, &first, &second);
}

/* A random search of a board with these draws, in the fair mode unless fair is 0. */
static uint8_t searched(const board *b, const uint8_t *draws, size_t length, uint8_t fair, size_t rounds) {
    size_t cells = b->rows * b->columns;
    lend();
    return lavgerin_random_search(b->rows, b->columns, b->grid, cells, work, 5 * cells, draws, length, fair, rounds, &first, &second);
}

/* The boards of the table, and P11's openings-first moves and final position. */
static void boards(void) {
    static const uint32_t moves[6] = {L(0), F(4), C(0), C(1), C(3), C(5)};
    for (size_t k = 0; k < 12; k++) priced(&P[k]);
    lend();
    EQUAL(lavgerin_openings_first(3, 3, P11->grid, 9, work, 45, list, 9, &first), 0);
    listed(moves, 6, 9);
    for (size_t i = 0; i < 9; i++) {
        EQUAL(work[5 * i], 0);
        EQUAL(work[5 * i + 1], 0);
        EQUAL(work[5 * i + 2] == (i == 4 ? 0 : -1), 1);
        EQUAL(work[5 * i + 3], i == 4 ? 2 : 1);
        EQUAL(work[5 * i + 4], 0);
    }
    ran("boards");
}

/* Random rounds and searches of the scope's examples in a mode, draws on both sides of enough, and 4 x 3BV bytes a round. */
static void draws_in(uint8_t fair) {
    static const uint8_t noughts[96] = {0}, seven[8] = {7}, five[4] = {5};
    static const uint32_t by_seven[5] = {L(7), F(4), C(7), L(1), C(1)}, by_five[3] = {L(3), F(0), C(3)};
    EQUAL(rolled(P11, noughts, 12, fair), 0);
    EQUAL(first, 5);
    EQUAL(second, 12);
    listed(P11->moves, 5, 9);
    dry(rolled(P11, noughts, 11, fair), 9, 9);
    EQUAL(rolled(P11, seven, 8, fair), 0);
    EQUAL(first, 5);
    EQUAL(second, 8);
    listed(by_seven, 5, 9);
    EQUAL(rolled(P7, five, 4, fair), 0);
    EQUAL(first, 3);
    EQUAL(second, 4);
    listed(by_five, 3, 4);
    dry(rolled(P9, noughts, 0, fair), 9, 9);
    EQUAL(searched(P11, noughts, 24, fair, 2), 0);
    EQUAL(first, 5);
    EQUAL(second, 24);
    untouched_from(45, 0);
    dry(searched(P11, noughts, 23, fair, 2), 9, 0);
    EQUAL(searched(P11, noughts, 12, fair, 1), 0);
    EQUAL(second, 12);
    refused(searched(P11, noughts, 24, fair, 0), LAVGERIN_ROUNDS);
    for (size_t k = 0; k < 12; k++) EQUAL(searched(&P[k], noughts, 3 * 4 * P[k].units, fair, 3), 0);
}

/* A row of so many safe cells: its round is one draw among them. */
static board row_of(size_t cells) {
    board made = {1, 1, {0}, 1, 1, 1, {0}};
    made.columns = cells;
    return made;
}

/* A word, as draws have it, and two more of place 1. */
static void put_word(uint8_t *draws, uint32_t word) {
    memset(draws, 0, 12);
    for (size_t k = 0; k < 4; k++) draws[k] = (uint8_t)(word >> 8 * k);
    draws[4] = draws[8] = 1;
}

/* The round of a row with these draws: the cell that is taken, and the bytes used. */
static void takes(const board *b, const uint8_t *draws, size_t length, uint8_t fair, uint32_t cell, uint64_t used) {
    uint32_t taken[1] = {L(cell)};
    EQUAL(rolled(b, draws, length, fair), 0);
    EQUAL(first, 1);
    EQUAL(second, used);
    listed(taken, 1, b->columns);
}

/* Words at the bound among n, and one below it: in the fair mode the bound and what is above it are spent. */
static void fair_among(uint32_t n) {
    uint64_t words = (uint64_t)1 << 32, bound = words - words % n;
    uint8_t draws[12];
    board b = row_of(n);
    put_word(draws, (uint32_t)(bound - 1));
    takes(&b, draws, 12, 1, (uint32_t)((bound - 1) % n), 4);
    takes(&b, draws, 4, 255, (uint32_t)((bound - 1) % n), 4);
    for (uint64_t word = bound; word < words; word++) {
        put_word(draws, (uint32_t)word);
        takes(&b, draws, 12, 0, (uint32_t)(word % n), 4);
        takes(&b, draws, 12, 1, 1, 8);
        takes(&b, draws, 8, 2, 1, 8);
        for (size_t length = 4; length < 8; length++) dry(rolled(&b, draws, length, 1), n, n);
        for (size_t k = 0; k < 4; k++) draws[4 + k] = draws[k];
        takes(&b, draws, 12, 1, 1, 12);
        for (size_t length = 8; length < 12; length++) dry(rolled(&b, draws, length, 1), n, n);
        dry(searched(&b, draws + 4, 8, 1, 2), n, 0);
        EQUAL(searched(&b, draws + 4, 8, 0, 2), 0);
        EQUAL(second, 8);
    }
}

/* Both modes on the scope's examples, and draws among 2 to 9 around the bound of the fair one. */
static void draws(void) {
    draws_in(0);
    draws_in(1);
    draws_in(255);
    for (uint32_t n = 2; n < 10; n++) fair_among(n);
    ran("draws");
}

enum { KEYS = 3, KEY_BYTES = 4096 };
static const uint32_t KEY[KEYS][6] = {
    {123456789, 362436069, 521288629, 88675123, 5783321, 6615241},
    {0, 0, 0, 0, UINT32_C(1) << 31, UINT32_MAX},
    {UINT32_MAX, UINT32_MAX, UINT32_MAX, UINT32_MAX, UINT32_MAX, UINT32_MAX - 362436},
};

/* A key to be lent, and what stands past its six numbers. */
static void lend_key(const uint32_t *numbers) {
    for (size_t k = 0; k < 8; k++) key[k] = given[k] = k < 6 ? numbers[k] : LENT_MOVE;
}

/* One word more of a key, by the paper. */
static uint32_t next_word(uint32_t *k) {
    uint32_t t = k[0] ^ (k[0] >> 2);
    for (size_t i = 0; i < 4; i++) k[i] = k[i + 1];
    k[4] = (k[4] ^ (k[4] << 4)) ^ (t ^ (t << 1));
    k[5] += 362437;
    return k[5] + k[4];
}

/* The key's run is the one that was given, stepped on by so many bytes. */
static void stepped(uint64_t used) {
    EQUAL(used % 4, 0);
    for (uint64_t k = 0; k < used / 4; k++) next_word(given);
    for (size_t k = 0; k < 8; k++) EQUAL(key[k], given[k]);
}

/* A keyed round, or a keyed search of one round or more, of a board, with so many numbers of the key. */
static uint8_t by_key(const board *b, size_t key_length, uint8_t fair, size_t rounds) {
    size_t r = b->rows, c = b->columns, n = r * c;
    lend();
    if (rounds) return lavgerin_keyed_search(r, c, b->grid, n, work, 5 * n, key, key_length, fair, rounds, &first, &second);
    return lavgerin_keyed_round(r, c, b->grid, n, work, 5 * n, list, n, key, key_length, fair, &first, &second);
}

/* A keyed call does what the lent one does with the key's bytes; the key is handed on, and the same key does it again. */
static void as_lent(const board *b, const uint32_t *numbers, uint8_t fair, size_t rounds) {
    static uint8_t draws[KEY_BYTES];
    static int32_t area[46];
    static uint32_t moves[10];
    lend_key(numbers);
    for (size_t k = 0; k < KEY_BYTES; k += 4) {
        uint32_t word = next_word(given);
        for (size_t i = 0; i < 4; i++) draws[k + i] = (uint8_t)(word >> 8 * i);
    }
    EQUAL(rounds ? searched(b, draws, KEY_BYTES, fair, rounds) : rolled(b, draws, KEY_BYTES, fair), 0);
    uint64_t told[2] = {first, second};
    memcpy(area, work, sizeof area);
    memcpy(moves, list, sizeof moves);
    for (size_t again = 0; again < 2; again++) {
        lend_key(numbers);
        EQUAL(by_key(b, 6, fair, rounds), 0);
        EQUAL(first, told[0]);
        EQUAL(second, told[1]);
        EQUAL(memcmp(work, area, sizeof area), 0);
        EQUAL(memcmp(list, moves, sizeof moves), 0);
        stepped(second);
    }
}

/* A search of five rounds is one of two and then one of three with the key that was handed back. */
static void in_two(const board *b, const uint32_t *numbers, uint8_t fair) {
    lend_key(numbers);
    EQUAL(by_key(b, 6, fair, 5), 0);
    uint64_t least = first, used = second;
    lend_key(numbers);
    EQUAL(by_key(b, 6, fair, 2), 0);
    uint64_t least_of_two = first, used_by_two = second;
    EQUAL(by_key(b, 6, fair, 3), 0);
    EQUAL(least, first < least_of_two ? first : least_of_two);
    EQUAL(used, used_by_two + second);
    stepped(used);
}

/* KEY for a key whose words are 0, whatever its counter, and for a run that isn't six long; not with a bit set. ROUNDS comes before it. */
static void no_key(uint8_t fair) {
    static const uint32_t blank[2][6] = {{0}, {0, 0, 0, 0, 0, 1}};
    for (size_t k = 0; k < 2; k++) {
        lend_key(blank[k]);
        refused(by_key(P11, 6, fair, 0), LAVGERIN_KEY);
        refused(by_key(P11, 6, fair, MILLION), LAVGERIN_KEY);
        refused(by_key(P11, 6, fair, MILLION + 1), LAVGERIN_ROUNDS);
        stepped(0);
    }
    for (size_t length = 0; length < 8; length++) {
        lend_key(KEY[0]);
        if (length == 6) continue;
        refused(by_key(P11, length, fair, 0), LAVGERIN_KEY);
        refused(by_key(P11, length, fair, 1), LAVGERIN_KEY);
        stepped(0);
    }
    for (size_t place = 0; place < 5; place++)
        for (size_t bit = 0; bit < 32; bit++) {
            uint32_t numbers[6] = {0};
            numbers[place] = UINT32_C(1) << bit;
            lend_key(numbers);
            EQUAL(by_key(P7, 6, fair, 0), 0);
            stepped(second);
        }
    lend();
    lend_key(blank[0]);
    refused(lavgerin_keyed_search(3, 3, P11->grid, 9, work, 45, key, 6, fair, 0, &first, &second), LAVGERIN_ROUNDS);
    lend_key(KEY[0]);
    EQUAL(by_key(&P[0], 6, fair, MILLION), 0);
    EQUAL(first, 1);
    EQUAL(second, 0);
    stepped(0);
    refused(by_key(&P[0], 6, fair, MILLION + 1), LAVGERIN_ROUNDS);
    stepped(0);
}

/* Keyed rounds and searches of the twelve boards from three keys, in both modes. */
static void keyed(void) {
    uint32_t published[6];
    memcpy(published, KEY[0], sizeof published);
    EQUAL(next_word(published), 246875399);
    EQUAL(next_word(published), 3690007200);
    for (uint8_t fair = 0; fair < 2; fair++) {
        for (size_t k = 0; k < 12; k++)
            for (size_t of = 0; of < KEYS; of++) {
                for (size_t rounds = 0; rounds < 4; rounds++) as_lent(&P[k], KEY[of], fair, rounds);
                in_two(&P[k], KEY[of], fair);
            }
        no_key(fair);
    }
    ran("keys");
}

/* Every call on a grid of these sides and lengths, all of which refuse it alike. */
static void all_refuse(size_t rows, size_t columns, size_t grid_length, size_t work_length, uint8_t number) {
    static const uint8_t none[1] = {0};
    static const uint32_t blank[6] = {0};
    lend();
    lend_key(blank);
    refused(lavgerin_keyed_round(rows, columns, grid, grid_length, work, work_length, list, 0, key, 6, 1, &first, &second), number);
    refused(lavgerin_keyed_search(rows, columns, grid, grid_length, work, work_length, key, 6, 1, 0, &first, &second), number);
    stepped(0);
    refused(lavgerin_three_bv(rows, columns, grid, grid_length, work, work_length, &first), number);
    refused(lavgerin_at_least(rows, columns, grid, grid_length, work, work_length, 1, &first), number);
    refused(lavgerin_at_least(rows, columns, grid, grid_length, work, work_length, 0, &first), number);
    refused(lavgerin_greedy(rows, columns, grid, grid_length, work, work_length, list, 0, &first), number);
    refused(lavgerin_openings_first(rows, columns, grid, grid_length, work, work_length, list, 0, &first), number);
    refused(lavgerin_random_round(rows, columns, grid, grid_length, work, work_length, list, 0, none, 0, 1, &first, &second), number);
    refused(lavgerin_random_search(rows, columns, grid, grid_length, work, work_length, none, 0, 1, 0, &first, &second), number);
    refused(lavgerin_replay(rows, columns, grid, grid_length, work, work_length, list, 0, 1, &first, &second, &third), number);
}

/* SHAPE, BOARD, WORK and TRACE, each with the side that passes. */
static void refusals(void) {
    all_refuse(0, 3, 0, 0, LAVGERIN_SHAPE);
    all_refuse(3, 0, 0, 0, LAVGERIN_SHAPE);
    all_refuse(256, 1, 256, 1280, LAVGERIN_SHAPE);
    all_refuse(1, 256, 256, 1280, LAVGERIN_SHAPE);
    all_refuse(SIZE_MAX, SIZE_MAX, 1, 5, LAVGERIN_SHAPE);
    all_refuse(2, 3, 5, 0, LAVGERIN_BOARD);
    all_refuse(2, 3, 7, 0, LAVGERIN_BOARD);
    all_refuse(2, 3, 6, 29, LAVGERIN_WORK);
    lend();
    refused(lavgerin_greedy(2, 3, grid, 6, work, 30, list, 5, &first), LAVGERIN_TRACE);
    refused(lavgerin_openings_first(2, 3, grid, 6, work, 30, list, 5, &first), LAVGERIN_TRACE);
    refused(lavgerin_random_round(2, 3, grid, 6, work, 30, list, 5, (const uint8_t *)"", 0, 0, &first, &second), LAVGERIN_TRACE);
    refused(lavgerin_keyed_round(2, 3, grid, 6, work, 30, list, 5, key, 6, 0, &first, &second), LAVGERIN_TRACE);
    refused(lavgerin_replay(2, 3, grid, 6, work, 30, list, 1, 2, &first, &second, &third), LAVGERIN_TRACE);
    EQUAL(lavgerin_greedy(2, 3, grid, 6, work, 30, list, 6, &first), 0);
    EQUAL(first, 1);
    EQUAL(lavgerin_three_bv(255, 255, grid, MOST, work, 5 * MOST, &first), 0);
    EQUAL(first, 1);
    EQUAL(lavgerin_greedy(255, 255, grid, MOST, work, 5 * MOST, list, MOST, &first), 0);
    EQUAL(first, 1);
    ran("refusals");
}

/* These moves on a board. */
static uint8_t played(const board *b, const uint32_t *moves, size_t count) {
    size_t cells = b->rows * b->columns;
    lend();
    return lavgerin_replay(b->rows, b->columns, b->grid, cells, work, 5 * cells, moves, count, count, &first, &second, &third);
}

/* The states of a board's cells, a digit each, and nothing past them changed. */
static void stand(const board *b, const char *states) {
    for (size_t i = 0; i < b->rows * b->columns; i++) EQUAL(work[5 * i + 3], states[i] - '0');
    untouched_from(5 * b->rows * b->columns, 0);
}

/* Legal moves: the safe cells that stay closed, the ending, and the states. */
static void comes_to(const board *b, uint64_t closed, uint64_t ending, const char *states, const uint32_t *moves, size_t count) {
    EQUAL(played(b, moves, count), 0);
    EQUAL(first, count);
    EQUAL(second, closed);
    EQUAL(third, ending);
    stand(b, states);
}

/* Moves of which only the last isn't legal: MOVE tells its place, and leaves the other answers, the list and the states before it. */
static void stops(const board *b, const char *states, const uint32_t *moves, size_t count) {
    EQUAL(played(b, moves, count), LAVGERIN_MOVE);
    EQUAL(first, count - 1);
    EQUAL(second, UNTOLD);
    EQUAL(third, UNTOLD);
    stand(b, states);
}

/* What isn't legal, before the end of a game and after it, and a count in between. */
static void stopped(void) {
    static const uint32_t not_moves[8] = {L(4), U(0), U(4), C(0), 0, 5 * 65536, 0xffff0000, L(65535)};
    stops(P7, "0100", MOVES(L(1), L(1)));
    for (size_t k = 0; k < 8; k++) stops(P7, "0000", &not_moves[k], 1);
    stops(P7, "0120", MOVES(L(1), F(2), L(2)));
    stops(P7, "0100", MOVES(L(1), U(1)));
    stops(P7, "0100", MOVES(L(1), C(1)));
    stops(P7, "2120", MOVES(L(1), F(0), F(2), C(1)));
    stops(P7, "3000", MOVES(L(0), L(1)));
    stops(P7, "3000", MOVES(L(0), F(1)));
    stops(P7, "3200", MOVES(F(1), L(0), U(1)));
    stops(P7, "3121", MOVES(L(1), F(2), C(1), C(1)));
    stops(P7, "0111", MOVES(L(1), L(2), L(3), L(0)));
    stops(P7, "0111", MOVES(L(1), L(2), L(3), F(0)));
    stops(P7, "2111", MOVES(L(1), F(0), C(1), U(0)));
    stops(P7, "2111", MOVES(L(1), F(0), C(1), C(1)));
    stops(P2, "0", MOVES(F(0)));
    lend();
    EQUAL(lavgerin_replay(2, 2, P7->grid, 4, work, 20, P7->moves, 3, 2, &first, &second, &third), 0);
    EQUAL(first, 2);
    EQUAL(second, 2);
    EQUAL(third, LAVGERIN_UNFINISHED);
    ran("stopped");
}

/* Wrong flags, and how games end. */
static void endings(void) {
    static const int32_t premiums[9] = {-2, -1, -2, 1, 0, 0, -1, 0, -1};
    comes_to(P7, 3, LAVGERIN_UNFINISHED, "0200", MOVES(F(1)));
    comes_to(P7, 0, LAVGERIN_WON, "2111", MOVES(F(1), U(1), L(1), F(0), C(1)));
    comes_to(P7, 1, LAVGERIN_UNFINISHED, "0112", MOVES(L(1), L(2), F(3)));
    comes_to(P7, 3, LAVGERIN_LOST, "3000", MOVES(L(0)));
    comes_to(P2, 0, LAVGERIN_WON, "0", many, 0);
    comes_to(P9, 1, LAVGERIN_UNFINISHED, "111121111", MOVES(F(4), L(0)));
    for (size_t i = 0; i < 9; i++) EQUAL(work[5 * i + 2] == (i == 4 ? -1 : 0), 1);
    comes_to(P9, 5, LAVGERIN_UNFINISHED, "121212122", MOVES(F(1), F(3), F(5), F(7), F(8), L(0)));
    comes_to(P12, 1, LAVGERIN_UNFINISHED, "110121011", MOVES(F(4), L(0), L(8)));
    comes_to(P12, 1, LAVGERIN_UNFINISHED, "110101011", MOVES(F(4), L(0), L(8), U(4)));
    comes_to(P12, 0, LAVGERIN_WON, "110111011", MOVES(F(4), L(0), L(8), U(4), L(4)));
    comes_to(P11, 4, LAVGERIN_LOST, "211131000", MOVES(L(1), F(0), C(1)));
    for (size_t i = 0; i < 9; i++) EQUAL(work[5 * i + 2] == premiums[i], 1);
    ran("endings");
}

/* A replay of the largest board, without a mine, by the first of the many moves: the safe cells that stay closed, and the ending. */
static void largest_comes_to(size_t count, uint64_t closed, uint64_t ending) {
    lend();
    EQUAL(lavgerin_replay(255, 255, grid, MOST, work, 5 * MOST, many, MILLION, count, &first, &second, &third), 0);
    EQUAL(first, count);
    EQUAL(second, closed);
    EQUAL(third, ending);
    untouched_from(5 * MOST, 0);
}

/* Puts a move of a kind among the many, on every cell of the odd columns. */
static size_t in_odd_columns(size_t count, uint32_t kind) {
    for (uint32_t i = 255; i < MOST; i++)
        if (i / 255 % 2 == 1) many[count++] = kind * 65536 + i;
    return count;
}

/* Puts L among the many, on the first cell of every second column. */
static size_t down_columns(size_t count, uint32_t column) {
    for (; column < 255; column += 2) many[count++] = L(255 * column);
    return count;
}

/* The largest board with every second column flagged: each column takes a click of its own. Then a million moves. */
static void large(void) {
    size_t flags = in_odd_columns(0, LAVGERIN_FLAG), others = down_columns(flags, 0);
    largest_comes_to(flags + 1, MOST - 255, LAVGERIN_UNFINISHED);
    for (size_t i = 0; i < MOST; i++) {
        EQUAL(work[5 * i], 1);
        EQUAL(work[5 * i + 2] == (i < 255 ? 0 : -1), 1);
        EQUAL(work[5 * i + 3], i < 255 ? 1 : i / 255 % 2 * 2);
    }
    largest_comes_to(others, flags, LAVGERIN_UNFINISHED);
    size_t all = down_columns(in_odd_columns(others, LAVGERIN_UNFLAG), 1);
    EQUAL(all, MOST);
    largest_comes_to(all - 1, 255, LAVGERIN_UNFINISHED);
    largest_comes_to(all, 0, LAVGERIN_WON);
    for (size_t k = 0; k < MILLION; k++) many[k] = k % 2 == 0 ? F(7) : U(7);
    largest_comes_to(MILLION, MOST, LAVGERIN_UNFINISHED);
    EQUAL(work[5 * 7 + 3], 0);
    largest_comes_to(MILLION - 1, MOST, LAVGERIN_UNFINISHED);
    EQUAL(work[5 * 7 + 3], 2);
    ran("large");
}

/* What reading and writing are lent, and the answers, as before any call. */
static void lend_file(void) {
    for (size_t k = 0; k < sizeof values / sizeof values[0]; k++) values[k] = LENT;
    for (size_t k = 0; k < sizeof file; k++) file[k] = LENT_BYTE;
    first = second = UNTOLD;
}

/* From these places on, neither the lent grid nor the lent file was changed. */
static void file_untouched_from(size_t values_from, size_t file_from) {
    size_t changed = 0;
    for (size_t k = values_from; k < sizeof values / sizeof values[0]; k++) changed += values[k] != LENT;
    for (size_t k = file_from; k < sizeof file; k++) changed += file[k] != LENT_BYTE;
    EQUAL(changed, 0);
}

/* What stands in a grid for the cell in a row and a column, counted anew: -1 for a mine, else the mines around it. */
static int32_t right_value(size_t rows, size_t columns, const int32_t *of, size_t row, size_t column) {
    int32_t mines = 0;
    for (size_t r = row == 0 ? 0 : row - 1; r <= row + 1 && r < rows; r++)
        for (size_t c = column == 0 ? 0 : column - 1; c <= column + 1 && c < columns; c++) mines += of[r * columns + c] == -1;
    return of[row * columns + column] == -1 ? -1 : mines;
}

/* These bytes are read into a run that just has room: the sides, the mines of this grid and right numbers, nothing past them. */
static void reads_as(size_t rows, size_t columns, const int32_t *of, const uint8_t *read, size_t length) {
    lend_file();
    EQUAL(lavgerin_read_mbf(read, length, values, rows * columns, &first, &second), 0);
    EQUAL(first, rows);
    EQUAL(second, columns);
    for (size_t row = 0; row < rows; row++)
        for (size_t column = 0; column < columns; column++)
            EQUAL(values[row * columns + column] == right_value(rows, columns, of, row, column), 1);
    file_untouched_from(rows * columns, 0);
}

/* A grid is written into memory that just has room: these bytes, and nothing past them. */
static void writes_as(size_t rows, size_t columns, const int32_t *of, const uint8_t *written, size_t length) {
    lend_file();
    EQUAL(lavgerin_write_mbf(rows, columns, of, rows * columns, file, length, &first), 0);
    EQUAL(first, length);
    EQUAL(memcmp(file, written, length), 0);
    file_untouched_from(0, length);
}

/* Both, with a board of the table. */
static void is_file_of(const board *b, const uint8_t *read, size_t length) {
    reads_as(b->rows, b->columns, b->grid, read, length);
    writes_as(b->rows, b->columns, b->grid, read, length);
}

/* A read that is refused: its number, the answers and everything lent as it was. */
static void unread(uint8_t number, size_t grid_length, const uint8_t *read, size_t length) {
    lend_file();
    EQUAL(lavgerin_read_mbf(read, length, values, grid_length, &first, &second), number);
    EQUAL(first, UNTOLD);
    EQUAL(second, UNTOLD);
    file_untouched_from(0, 0);
}

/* A write that is refused, in the same way. */
static void unwritten(uint8_t number, size_t rows, size_t columns, const int32_t *of, size_t grid_length, size_t length) {
    lend_file();
    EQUAL(lavgerin_write_mbf(rows, columns, of, grid_length, file, length, &first), number);
    EQUAL(first, UNTOLD);
    file_untouched_from(0, 0);
}

/* Boards as files, their mines in cell index order and in others, and any safe value written. */
static void files_of_boards(void) {
    static const int32_t corners[6] = {0, 0, -1, -1, 0, -1}, odd[6] = {9, -2, -1, -1, INT32_MIN, -1};
    static const int32_t last_row[6] = {0, 0, 0, 0, 0, -1};
    is_file_of(&P[0], BYTES(1, 1, 0, 0));
    is_file_of(P2, BYTES(1, 1, 0, 1, 0, 0));
    is_file_of(P7, BYTES(2, 2, 0, 1, 0, 0));
    is_file_of(P11, BYTES(3, 3, 0, 1, 1, 1));
    is_file_of(P12, BYTES(3, 3, 0, 2, 0, 2, 2, 0));
    reads_as(3, 3, P12->grid, BYTES(3, 3, 0, 2, 2, 0, 0, 2));
    writes_as(2, 3, corners, BYTES(3, 2, 0, 3, 0, 1, 2, 0, 2, 1));
    writes_as(2, 3, odd, BYTES(3, 2, 0, 3, 0, 1, 2, 0, 2, 1));
    reads_as(2, 3, corners, BYTES(3, 2, 0, 3, 0, 1, 2, 0, 2, 1));
    reads_as(2, 3, corners, BYTES(3, 2, 0, 3, 2, 1, 0, 1, 2, 0));
    reads_as(2, 3, corners, BYTES(3, 2, 0, 3, 2, 0, 2, 1, 0, 1));
    reads_as(2, 3, last_row, BYTES(3, 2, 0, 1, 2, 1));
    reads_as(6, 1, last_row, BYTES(1, 6, 0, 1, 0, 5));
    reads_as(1, 6, last_row, BYTES(6, 1, 0, 1, 5, 0));
}

/* FILE, SHAPE and BOARD of a read, in their order; where the grid has no room, the file is still what is refused. */
static void refused_reads(void) {
    unread(LAVGERIN_FILE, 9, bytes, 0);
    unread(LAVGERIN_FILE, 9, BYTES(0));
    unread(LAVGERIN_FILE, 0, BYTES(3));
    unread(LAVGERIN_SHAPE, 9, BYTES(0, 0));
    unread(LAVGERIN_SHAPE, 0, BYTES(0, 1));
    unread(LAVGERIN_SHAPE, 9, BYTES(1, 0, 0));
    unread(LAVGERIN_SHAPE, 9, BYTES(0, 2, 0, 1, 0, 0));
    unread(LAVGERIN_SHAPE, 9, BYTES(2, 0, 0, 1, 0, 0));
    unread(LAVGERIN_FILE, 9, BYTES(1, 1));
    unread(LAVGERIN_FILE, 0, BYTES(1, 1, 0));
    unread(LAVGERIN_FILE, 9, BYTES(2, 2, 0, 1, 0));
    unread(LAVGERIN_FILE, 9, BYTES(2, 2, 0, 1, 0, 0, 1));
    unread(LAVGERIN_FILE, 9, BYTES(2, 2, 0, 1));
    unread(LAVGERIN_FILE, 9, BYTES(2, 2, 0, 0, 0, 0));
    unread(LAVGERIN_FILE, 9, BYTES(2, 2, 1, 0, 0, 0));
    unread(LAVGERIN_FILE, 9, BYTES(3, 2, 0, 1, 3, 0));
    unread(LAVGERIN_FILE, 9, BYTES(3, 2, 0, 1, 0, 2));
    unread(LAVGERIN_FILE, 9, BYTES(3, 2, 0, 2, 2, 1, 2, 2));
    unread(LAVGERIN_FILE, 9, BYTES(3, 2, 0, 2, 0, 0, 255, 255));
    unread(LAVGERIN_FILE, 9, BYTES(2, 2, 0, 2, 0, 0, 0, 0));
    unread(LAVGERIN_FILE, 9, BYTES(2, 2, 0, 3, 1, 0, 0, 1, 1, 0));
    unread(LAVGERIN_FILE, 0, BYTES(2, 2, 0, 1, 2, 0));
    unread(LAVGERIN_FILE, 3, BYTES(2, 2, 0, 2, 0, 1, 0, 1));
    unread(LAVGERIN_BOARD, 3, BYTES(2, 2, 0, 1, 0, 0));
    unread(LAVGERIN_BOARD, 5, BYTES(3, 2, 0, 0));
    unread(LAVGERIN_BOARD, 0, BYTES(1, 1, 0, 0));
}

/* SHAPE and BOARD of a write, in their order; the sides that pass are those of the files above. */
static void refused_writes(void) {
    unwritten(LAVGERIN_SHAPE, 0, 3, grid, 0, 0);
    unwritten(LAVGERIN_SHAPE, 3, 0, grid, 0, 9);
    unwritten(LAVGERIN_SHAPE, 256, 1, grid, 256, 9);
    unwritten(LAVGERIN_SHAPE, 1, 256, grid, 256, 9);
    unwritten(LAVGERIN_SHAPE, SIZE_MAX, SIZE_MAX, grid, 1, 9);
    unwritten(LAVGERIN_BOARD, 2, 3, grid, 5, 9);
    unwritten(LAVGERIN_BOARD, 2, 3, grid, 7, 9);
    unwritten(LAVGERIN_BOARD, 2, 3, grid, 6, 3);
    unwritten(LAVGERIN_BOARD, 2, 3, grid, 6, 0);
    unwritten(LAVGERIN_BOARD, 2, 2, P7->grid, 4, 5);
    unwritten(LAVGERIN_BOARD, 3, 3, P12->grid, 9, 7);
}

/* More memory than is needed, on both sides: what is past stays. */
static void files_with_room(void) {
    lend_file();
    EQUAL(lavgerin_read_mbf((const uint8_t *)"\3\3\0\1\1\1", 6, values, MOST, &first, &second), 0);
    EQUAL(first, 3);
    EQUAL(second, 3);
    file_untouched_from(9, 0);
    EQUAL(lavgerin_write_mbf(3, 3, P11->grid, 9, file, sizeof file, &first), 0);
    EQUAL(first, 6);
    file_untouched_from(9, 6);
}

/* Puts the head of a file of 255 by 255 and so many mines among the bytes, and the cells in index order, from 0 again after the last. */
static size_t whole_file(size_t count) {
    bytes[0] = bytes[1] = 255;
    bytes[2] = (uint8_t)(count / 256);
    bytes[3] = (uint8_t)(count % 256);
    for (size_t k = 0; k < count; k++) {
        bytes[4 + 2 * k] = (uint8_t)(k % MOST / 255);
        bytes[5 + 2 * k] = (uint8_t)(k % 255);
    }
    return 4 + 2 * count;
}

/* Puts a listed mine in the place of another. */
static void list_again(size_t from, size_t to) {
    memcpy(&bytes[4 + 2 * to], &bytes[4 + 2 * from], 2);
}

/* Turns the order of the listed mines around. */
static void turn_around(size_t count) {
    for (size_t k = 0; k < count / 2; k++) {
        uint8_t kept[2];
        memcpy(kept, &bytes[4 + 2 * k], 2);
        list_again(count - 1 - k, k);
        memcpy(&bytes[4 + 2 * (count - 1 - k)], kept, 2);
    }
}

/* 255 by 255 with each cell a mine: the longest file, and one listed twice in it or after it. */
static void largest_file(void) {
    static int32_t mines[MOST];
    for (size_t k = 0; k < MOST; k++) mines[k] = -1;
    EQUAL(whole_file(MOST), 130054);
    writes_as(255, 255, mines, bytes, MOST_BYTES);
    unwritten(LAVGERIN_BOARD, 255, 255, mines, MOST, MOST_BYTES - 1);
    reads_as(255, 255, mines, bytes, MOST_BYTES);
    EQUAL(lavgerin_write_mbf(255, 255, values, MOST, file, MOST_BYTES, &first), 0);
    EQUAL(memcmp(file, bytes, MOST_BYTES), 0);
    unread(LAVGERIN_BOARD, MOST - 1, bytes, MOST_BYTES);
    turn_around(MOST);
    reads_as(255, 255, mines, bytes, MOST_BYTES);
    whole_file(MOST);
    list_again(MOST - 2, MOST - 1);
    unread(LAVGERIN_FILE, MOST, bytes, MOST_BYTES);
    whole_file(MOST);
    list_again(0, MOST - 1);
    unread(LAVGERIN_FILE, MOST, bytes, MOST_BYTES);
    EQUAL(whole_file(MOST + 1), MOST_BYTES + 2);
    list_again(MOST - 1, MOST);
    unread(LAVGERIN_FILE, MOST, bytes, MOST_BYTES + 2);
    unread(LAVGERIN_FILE, MOST, bytes, whole_file(MOST_LISTED));
    writes_as(255, 255, grid, BYTES(255, 255, 0, 0));
    reads_as(255, 255, grid, BYTES(255, 255, 0, 0));
}

/* A number below n, the same in every run. */
static size_t below(size_t n) {
    static uint64_t state = 13;
    state = state * 6364136223846793005u + 1442695040888963407u;
    return (size_t)(state >> 33) % n;
}

/* A grid of these sides, about so many of a hundred cells mines and any safe values: how many mines it has. */
static size_t random_grid(size_t cells, size_t percent, int32_t *of) {
    size_t mines = 0;
    for (size_t k = 0; k < cells; k++) {
        of[k] = below(100) < percent ? -1 : (int32_t)below(12) - 13 * (int32_t)below(2);
        mines += of[k] == -1;
    }
    return mines;
}

/* Three calls on a grid and on another come to the same: answers, and the moves of greedy and openings-first. */
static void priced_alike(size_t rows, size_t columns, const int32_t *of, const int32_t *other) {
    uint32_t moves[SIDE * SIDE];
    size_t cells = rows * columns;
    EQUAL(lavgerin_three_bv(rows, columns, of, cells, work, 5 * cells, &first), 0);
    EQUAL(lavgerin_three_bv(rows, columns, other, cells, work, 5 * cells, &second), 0);
    EQUAL(first, second);
    EQUAL(lavgerin_greedy(rows, columns, of, cells, work, 5 * cells, moves, cells, &first), 0);
    EQUAL(lavgerin_greedy(rows, columns, other, cells, work, 5 * cells, list, cells, &second), 0);
    EQUAL(first, second);
    EQUAL(memcmp(moves, list, first * sizeof moves[0]), 0);
    EQUAL(lavgerin_openings_first(rows, columns, of, cells, work, 5 * cells, moves, cells, &first), 0);
    EQUAL(lavgerin_openings_first(rows, columns, other, cells, work, 5 * cells, list, cells, &second), 0);
    EQUAL(first, second);
    EQUAL(memcmp(moves, list, first * sizeof moves[0]), 0);
}

/* A random grid written, read in two orders, and written again; what was read is priced as the grid is. */
static void random_file(void) {
    int32_t of[SIDE * SIDE];
    size_t rows = 1 + below(SIDE), columns = 1 + below(SIDE);
    size_t mines = random_grid(rows * columns, below(101), of);
    size_t length = 4 + 2 * mines;
    EQUAL(lavgerin_write_mbf(rows, columns, of, rows * columns, bytes, sizeof bytes, &first), 0);
    EQUAL(first, length);
    reads_as(rows, columns, of, bytes, length);
    priced_alike(rows, columns, of, values);
    EQUAL(lavgerin_write_mbf(rows, columns, values, rows * columns, file, sizeof file, &first), 0);
    EQUAL(first, length);
    EQUAL(memcmp(file, bytes, length), 0);
    turn_around(mines);
    reads_as(rows, columns, of, bytes, length);
}

/* MBF files read and written. */
static void files(void) {
    files_of_boards();
    refused_reads();
    refused_writes();
    files_with_room();
    largest_file();
    for (size_t k = 0; k < RANDOM_GRIDS; k++) random_file();
    ran("files");
}

/* The early count of a grid: whether it has so many units. The work area is left 0, and unchanged past the grid's cells. */
static void judged(size_t rows, size_t columns, const int32_t *of, size_t units, uint64_t want) {
    size_t cells = rows * columns, left = 0;
    for (size_t k = 0; k <= 5 * cells; k++) work[k] = LENT;
    first = UNTOLD;
    EQUAL(lavgerin_at_least(rows, columns, of, cells, work, 5 * cells, units, &first), 0);
    EQUAL(first, want);
    for (size_t k = 0; k < 5 * cells; k++) left += work[k] != 0;
    EQUAL(left, 0);
    EQUAL(work[5 * cells], LENT);
}

/* The early count of a grid beside the full one: around 3BV, few units, as many as cells, and no such number. */
static void judged_around(size_t rows, size_t columns, const int32_t *of) {
    size_t cells = rows * columns;
    uint64_t units = UNTOLD;
    EQUAL(lavgerin_three_bv(rows, columns, of, cells, work, 5 * cells, &units), 0);
    const size_t asked[] = {0, 1, 2, units / 8, units / 2, units - (units > 0), units, units + 1, units + 2, cells, cells + 1, SIZE_MAX};
    for (size_t k = 0; k < sizeof asked / sizeof asked[0]; k++) judged(rows, columns, of, asked[k], asked[k] <= units);
}

/* Every grid of these sides, with every number of units up to one more than the cells. */
static void judged_all(size_t rows, size_t columns) {
    int32_t of[MOST_IN_ALL];
    size_t cells = rows * columns;
    for (size_t mines = 0; mines < (size_t)1 << cells; mines++) {
        uint64_t units = UNTOLD;
        for (size_t k = 0; k < cells; k++) of[k] = mines >> k & 1 ? -1 : 0;
        EQUAL(lavgerin_three_bv(rows, columns, of, cells, work, 5 * cells, &units), 0);
        for (size_t asked = 0; asked <= cells + 1; asked++) judged(rows, columns, of, asked, asked <= units);
    }
}

/* A random grid of these sides, about so many of a hundred cells mines. */
static void judged_random(size_t rows, size_t columns, size_t percent) {
    random_grid(rows * columns, percent, values);
    judged_around(rows, columns, values);
}

/* Five rows and 64 columns with mines along the middle row, in the first so many columns: an opening in two arms, joined past them. */
static void judged_arms(size_t mines) {
    enum { ROWS = 5, COLUMNS = 64 };
    memset(values, 0, sizeof values);
    for (size_t k = 0; k < mines; k++) values[2 * COLUMNS + k] = -1;
    judged(ROWS, COLUMNS, values, 1, 1);
    judged(ROWS, COLUMNS, values, 2, 0);
    judged_around(ROWS, COLUMNS, values);
}

/* The early count: all small grids, one opening, both labelling forms, league boards, wide boards, the largest. */
static void early(void) {
    for (size_t rows = 1; rows <= 4; rows++)
        for (size_t columns = 1; columns <= 4; columns++)
            if (rows * columns <= MOST_IN_ALL) judged_all(rows, columns);
    memset(grid, 0, sizeof grid);
    judged_around(16, 32, grid);
    judged_around(19, 27, grid);
    judged_around(3, 64, grid);
    for (size_t mines = 0; mines < 63; mines++) judged_arms(mines);
    judged_around(255, 255, grid);
    for (size_t k = 0; k < RANDOM_GRIDS; k++) {
        judged_random(16, 32, below(41));
        judged_random(19, 27, below(41));
        judged_random(16, 30, 20 + below(2));
        judged_random(1 + below(SIDE), 60 + below(80), below(41));
    }
    for (size_t percent = 10; percent <= 40; percent += 5) judged_random(255, 255, percent);
    ran("early counts");
}

/* What a strict call on a board with right numbers and the present call come to: their numbers, answers and everything lent. */
static void alike(uint8_t number, uint8_t present, size_t cells, const int32_t *before, const uint32_t *moves, const uint64_t *told) {
    EQUAL(number, present);
    EQUAL(first, told[0]);
    EQUAL(second, told[1]);
    EQUAL(third, told[2]);
    EQUAL(memcmp(work, before, (5 * cells + 1) * sizeof work[0]), 0);
    EQUAL(memcmp(list, moves, (cells + 1) * sizeof list[0]), 0);
}

/* Runs the present and then the strict form of a call, by its number, on a board with these lengths lent; answers the strict one's number. */
static uint8_t by_form(int strict, int call, const board *b, size_t work_length, size_t list_length, size_t rounds) {
    static const uint8_t noughts[96] = {0}, spent[96] = {0, 0, 0, 0, 255, 255, 255, 255, 255, 255, 255, 255};
    size_t r = b->rows, c = b->columns, n = r * c;
    switch (call) {
    case 0: return (strict ? lavgerin_strict_three_bv : lavgerin_three_bv)(r, c, b->grid, n, work, work_length, &first);
    case 1: return (strict ? lavgerin_strict_greedy : lavgerin_greedy)(r, c, b->grid, n, work, work_length, list, list_length, &first);
    case 2: return (strict ? lavgerin_strict_openings_first : lavgerin_openings_first)(r, c, b->grid, n, work, work_length, list, list_length, &first);
    case 3: return (strict ? lavgerin_strict_random_round : lavgerin_random_round)(r, c, b->grid, n, work, work_length, list, list_length, noughts, 32, 0, &first, &second);
    case 4: return (strict ? lavgerin_strict_random_search : lavgerin_random_search)(r, c, b->grid, n, work, work_length, noughts, 96, 0, rounds, &first, &second);
    case 5: return (strict ? lavgerin_strict_random_round : lavgerin_random_round)(r, c, b->grid, n, work, work_length, list, list_length, spent, 20, 1, &first, &second);
    case 6: return (strict ? lavgerin_strict_random_search : lavgerin_random_search)(r, c, b->grid, n, work, work_length, spent, 20, 1, rounds, &first, &second);
    case 7: return (strict ? lavgerin_strict_keyed_round : lavgerin_keyed_round)(r, c, b->grid, n, work, work_length, list, list_length, key, 6, 1, &first, &second);
    case 8: return (strict ? lavgerin_strict_keyed_search : lavgerin_keyed_search)(r, c, b->grid, n, work, work_length, key, 6, 0, rounds, &first, &second);
    case 9: return (strict ? lavgerin_strict_at_least : lavgerin_at_least)(r, c, b->grid, n, work, work_length, b->units, &first);
    case 10: return (strict ? lavgerin_strict_at_least : lavgerin_at_least)(r, c, b->grid, n, work, work_length, b->units + 1, &first);
    default: return (strict ? lavgerin_strict_replay : lavgerin_replay)(r, c, b->grid, n, work, work_length, b->moves, 5, b->greedy, &first, &second, &third);
    }
}

/* A board with the right number in each safe cell. */
static board right(const board *b) {
    board made = *b;
    for (size_t row = 0; row < b->rows; row++)
        for (size_t column = 0; column < b->columns; column++) {
            int32_t near = 0;
            for (size_t y = 0; y < b->rows; y++)
                for (size_t x = 0; x < b->columns; x++)
                    near += b->grid[y * b->columns + x] == -1 && y + 1 >= row && y <= row + 1 && x + 1 >= column && x <= column + 1;
            if (b->grid[row * b->columns + column] != -1) made.grid[row * b->columns + column] = near;
        }
    return made;
}

/* Each strict call does on a board with right numbers what the present one does, with lengths that pass and that don't. */
static void same_forms(const board *b, size_t work_length, size_t list_length, size_t rounds) {
    static int32_t before[46];
    static uint32_t moves[10];
    static uint32_t after[8];
    for (int call = 0; call < 12; call++) {
        lend();
        lend_key(KEY[0]);
        uint8_t present = by_form(0, call, b, work_length, list_length, rounds);
        uint64_t told[3] = {first, second, third};
        memcpy(before, work, sizeof before);
        memcpy(moves, list, sizeof moves);
        memcpy(after, key, sizeof after);
        lend();
        lend_key(KEY[0]);
        alike(by_form(1, call, b, work_length, list_length, rounds), present, b->rows * b->columns, before, moves, told);
        EQUAL(memcmp(after, key, sizeof after), 0);
    }
}

/* Each strict call is NUMBER with a cell behind the first pointer, and nothing else is changed, whatever the lengths and rounds. */
static void faulty(const board *b, uint64_t cell) {
    size_t cells = b->rows * b->columns;
    static const uint32_t blank[6] = {0};
    for (int call = 0; call < 12; call++)
        for (size_t less = 0; less < 2; less++) {
            lend();
            lend_key(less ? blank : KEY[0]);
            EQUAL(by_form(1, call, b, 5 * cells - less, cells - less, 1 - less), LAVGERIN_NUMBER);
            EQUAL(first, cell);
            EQUAL(second, UNTOLD);
            EQUAL(third, UNTOLD);
            untouched_from(0, 0);
            stepped(0);
        }
    for (size_t k = 0; k < sizeof file; k++) file[k] = LENT_BYTE;
    first = UNTOLD;
    EQUAL(lavgerin_strict_write_mbf(b->rows, b->columns, b->grid, cells, file, 3, &first), LAVGERIN_NUMBER);
    EQUAL(first, cell);
    for (size_t k = 0; k < 8; k++) EQUAL(file[k], LENT_BYTE);
}

/* A board with one value changed by so much, by its place in row order: the cell that is then named. */
static void damaged(const board *b, size_t place, int32_t more, uint64_t cell) {
    board made = *b;
    made.grid[place] += more;
    faulty(&made, cell);
}

/* The strict forms: right numbers, one too high, one too low, -2, a mine more, two wrong cells, the last of the largest board. */
static void strict(void) {
    for (size_t k = 0; k < 12; k++) {
        board b = right(&P[k]);
        size_t cells = b.rows * b.columns;
        same_forms(&b, 5 * cells, cells, 1);
        same_forms(&b, 5 * cells - 1, cells, 1);
        same_forms(&b, 5 * cells, cells - 1, 0);
    }
    faulty(&P[2], 0);
    board b = right(P11);
    for (size_t place = 0; place < 9; place++) {
        uint64_t cell = place % 3 * 3 + place / 3;
        if (place == 4) continue;
        damaged(&b, place, 1, cell);
        damaged(&b, place, -1, cell);
        damaged(&b, place, -3, cell);
    }
    damaged(&b, 0, -2, 1);
    damaged(&b, 8, -2, 5);
    b.grid[1] = b.grid[6] = 2;
    faulty(&b, 2);
    memset(grid, 0, sizeof grid);
    lend();
    EQUAL(lavgerin_strict_three_bv(255, 255, grid, MOST, work, 5 * MOST, &first), 0);
    EQUAL(first, 1);
    grid[MOST - 1] = 1;
    lend();
    EQUAL(lavgerin_strict_three_bv(255, 255, grid, MOST, work, 0, &first), LAVGERIN_NUMBER);
    EQUAL(first, MOST - 1);
    untouched_from(0, 0);
    lend();
    refused(lavgerin_strict_three_bv(256, 1, grid, 256, work, 0, &first), LAVGERIN_SHAPE);
    refused(lavgerin_strict_three_bv(255, 255, grid, MOST + 1, work, 0, &first), LAVGERIN_BOARD);
    grid[MOST - 1] = 0;
    ran("strict");
}

int main(void) {
    boards();
    draws();
    keyed();
    refusals();
    stopped();
    endings();
    large();
    files();
    early();
    strict();
    printf("all as expected\n");
    return 0;
}
