// The header from C++: eight calls on the board of three rows and columns with a mine in the middle.
#include "lavgerin.h"

#include <cstdio>
#include <cstring>

int main() {
    const int32_t grid[9] = {0, 0, 0, 0, -1, 0, 0, 0, 0};
    int32_t work[45];
    uint32_t list[9];
    uint64_t clicks = 0;
    const int number = lavgerin_greedy(3, 3, grid, 9, work, 45, list, 9, &clicks);
    const uint32_t wrong[5] = {LAVGERIN_FLAG * 65536 + 0, LAVGERIN_UNFLAG * 65536 + 0, LAVGERIN_FLAG * 65536 + 0,
                               LAVGERIN_LEFT * 65536 + 1, LAVGERIN_CHORD * 65536 + 1};
    uint64_t made = 0, closed = 0, ending = 0;
    const int played = lavgerin_replay(3, 3, grid, 9, work, 45, wrong, 5, 5, &made, &closed, &ending);
    uint8_t file[7] = {0, 0, 0, 0, 0, 0, 77};
    uint64_t written = 0;
    const int wrote = lavgerin_write_mbf(3, 3, grid, 9, file, 7, &written);
    const uint8_t mine_listed[7] = {3, 3, 0, 1, 1, 1, 77};
    int32_t values[9];
    uint64_t rows = 0, columns = 0;
    const int read = lavgerin_read_mbf(file, 6, values, 9, &rows, &columns);
    const int longer = lavgerin_read_mbf(file, 7, values, 9, &rows, &columns);
    int32_t area[45];
    uint64_t cell = 77, again = 0;
    const int typed = lavgerin_strict_greedy(3, 3, grid, 9, area, 45, list, 9, &cell);
    const int right = lavgerin_strict_greedy(3, 3, values, 9, area, 45, list, 9, &again);
    const uint8_t draws[16] = {0, 0, 0, 0, 255, 255, 255, 255, 0, 0, 0, 0, 0, 0, 0, 0};
    uint64_t rolled = 0, used = 0, fairly = 0, spent = 0;
    const int old_mode = lavgerin_random_round(3, 3, grid, 9, area, 45, list, 9, draws, 16, 0, &rolled, &used);
    const int fair_mode = lavgerin_random_search(3, 3, grid, 9, area, 45, draws, 16, 1, 1, &fairly, &spent);
    uint32_t key[6] = {123456789, 362436069, 521288629, 88675123, 5783321, 6615241};
    uint64_t by_key = 0, words = 0;
    const int keyed = lavgerin_keyed_round(3, 3, grid, 9, area, 45, list, 9, key, 6, 0, &by_key, &words);
    const int no_key = lavgerin_strict_keyed_search(3, 3, values, 9, area, 45, key, 5, 1, 1, &again, &spent);
    uint64_t enough = 77, too_many = 77;
    const int judged = lavgerin_at_least(3, 3, grid, 9, area, 45, 8, &enough);
    const int over = lavgerin_strict_at_least(3, 3, values, 9, area, 45, 9, &too_many);
    std::printf("from C++: %d %d, %d %d %d %d, %d %d, %d %d %d, %d, %d %d, %d %d, %d %d %d, %d %d %d, %d %d %d %d, %d %d %d %d\n", number, static_cast<int>(clicks), played,
                static_cast<int>(made), static_cast<int>(closed), static_cast<int>(ending), wrote,
                static_cast<int>(written), read, static_cast<int>(rows), static_cast<int>(columns), longer, typed,
                static_cast<int>(cell), right, static_cast<int>(again), old_mode, static_cast<int>(rolled),
                static_cast<int>(used), fair_mode, static_cast<int>(fairly), static_cast<int>(spent), keyed,
                static_cast<int>(by_key), static_cast<int>(words), no_key, judged, static_cast<int>(enough), over,
                static_cast<int>(too_many));
    const int32_t numbers[9] = {1, 1, 1, 1, -1, 1, 1, 1, 1};
    const bool as_expected = number == LAVGERIN_SUCCESS && clicks == 5 && played == LAVGERIN_SUCCESS && made == 5 &&
                             closed == 4 && ending == LAVGERIN_LOST && work[5 * 4 + 3] == 3;
    const bool files_too = wrote == LAVGERIN_SUCCESS && written == 6 && std::memcmp(file, mine_listed, 7) == 0 &&
                           read == LAVGERIN_SUCCESS && rows == 3 && columns == 3 &&
                           std::memcmp(values, numbers, sizeof values) == 0 && longer == LAVGERIN_FILE;
    const bool strictly = typed == LAVGERIN_NUMBER && cell == 0 && right == LAVGERIN_SUCCESS && again == 5;
    const bool both_modes = old_mode == LAVGERIN_SUCCESS && rolled == 5 && used == 12 && fair_mode == LAVGERIN_SUCCESS &&
                            fairly == 5 && spent == 16;
    const bool keys_too = keyed == LAVGERIN_SUCCESS && by_key == 5 && words == 8 && key[5] == 6615241 + 2 * 362437 &&
                          no_key == LAVGERIN_KEY;
    const bool early_too = judged == LAVGERIN_SUCCESS && enough == 1 && over == LAVGERIN_SUCCESS && too_many == 0 && area[0] == 0;
    return as_expected && files_too && strictly && both_modes && keys_too && early_too ? 0 : 1;
}
