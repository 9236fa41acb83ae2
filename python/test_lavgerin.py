"""Tests of lavgerin.py over the library: python3 python/test_lavgerin.py, with LAVGERIN_LIBRARY where it isn't installed.

The twelve boards of docs/RULES.md, every refusal, 1,000 random boards whose lists are replayed and whose 3BV is counted
once more here, and that the module says what the C header says."""
import array
import concurrent.futures
import ctypes
import os
import pickle
import random
import re
import subprocess
import sys
import unittest
import unittest.mock

import lavgerin
from lavgerin import Refused

ROOT = os.path.join(os.path.dirname(os.path.abspath(__file__)), "..")
with open(os.path.join(ROOT, "include", "lavgerin.h")) as file:
    HEADER = file.read()

# Board, 3BV, greedy, openings-first, greedy moves
TWELVE = (
    (".", 1, 1, 1, "L0"),
    ("*", 0, 0, 0, ""),
    ([[5]], 1, 1, 1, "L0"),
    ("*.", 1, 1, 1, "L1"),
    (".*.", 2, 2, 2, "L0 L2"),
    ("..*..", 2, 2, 2, "L0 L4"),
    ("*./..", 3, 3, 3, "L1 F0 C1"),
    ("*./*.", 2, 2, 2, "L2 L3"),
    (".../.../...", 1, 1, 1, "L0"),
    ("*../.../...", 1, 1, 1, "L2"),
    (".../.*./...", 8, 5, 6, "L1 F4 C1 C3 C5"),
    ("..*/.../*..", 2, 2, 2, "L0 L8"),
)
P2, P7, P9, P11 = "*", "*./..", ".../.../...", ".../.*./..."
P11_TYPED = [[1, 1, 1], [1, -1, 1], [1, 1, 1]]
KEY = (123456789, 362436069, 521288629, 88675123, 5783321, 6615241)


def moves_of(text, rows):
    """Moves as (kind, row, column), of words such as L1."""
    return [(word[0], int(word[1:]) % rows, int(word[1:]) // rows) for word in text.split()]


def squares(rows, columns):
    """The cells of each cell's square, by row and column."""
    return {(r, c): [(y, x) for y in range(max(r - 1, 0), min(r + 2, rows)) for x in range(max(c - 1, 0), min(c + 2, columns))]
            for r in range(rows) for c in range(columns)}


def numbers_of(board):
    """The canonical values of a board of texts: -1 for a mine, its number for a safe cell."""
    near = squares(len(board), len(board[0]))
    return [[-1 if cell == "*" else sum(board[y][x] == "*" for y, x in near[r, c]) for c, cell in enumerate(row)] for r, row in enumerate(board)]


def units_of(board):
    """3BV of a board of texts, counted by its openings and the safe cells that none of them shows."""
    values, near = numbers_of(board), squares(len(board), len(board[0]))
    shown, openings = set(), 0
    for start, square in near.items():
        waiting = [start] if values[start[0]][start[1]] == 0 and start not in shown else []
        openings += len(waiting)
        while waiting:
            y, x = waiting.pop()
            fresh = [] if values[y][x] else [cell for cell in near[y, x] if cell not in shown]
            shown.update(fresh)
            waiting += fresh
    return openings + sum(values[y][x] != -1 and (y, x) not in shown for y, x in near)


def random_board(source, most=16):
    """A board of texts, from without mines to nothing but mines."""
    rows, columns, share = source.randint(1, most), source.randint(1, most), source.random()
    return ["".join("*" if source.random() < share else "." for _ in range(columns)) for _ in range(rows)]


class TwelveBoards(unittest.TestCase):
    def test_figures_and_moves(self):
        for board, units, clicks, first, text in TWELVE:
            with self.subTest(board=board):
                rows = len(board.split("/")) if isinstance(board, str) else len(board)
                self.assertEqual(lavgerin.price(board), (units, clicks, moves_of(text, rows)))
                self.assertEqual(lavgerin.three_bv(board), units)
                self.assertEqual(lavgerin.greedy(board).clicks, clicks)
                self.assertEqual(lavgerin.openings_first(board).clicks, first)
                for played in (lavgerin.greedy(board), lavgerin.openings_first(board)):
                    self.assertEqual(lavgerin.replay(board, played.moves)[:3], (played.clicks, 0, "won"))
                self.assertEqual([lavgerin.at_least(board, n) for n in range(-1, units + 2)], [True] * (units + 2) + [False])

    def test_forms_of_a_board(self):
        for board in ("...\n.*.\n...", ["...", ".*.", "..."], (".2.", ".*.", "..."), [[7, 0, 0], (0, -1, 0), array.array("i", [0, 0, -2])]):
            self.assertEqual(lavgerin.price(board), lavgerin.price(P11))

    def test_openings_first_moves(self):
        self.assertEqual(lavgerin.openings_first(P11).moves, moves_of("L0 F4 C0 C1 C3 C5", 3))

    def test_draws(self):
        for fair in (False, True):
            self.assertEqual(lavgerin.random_round(P11, bytes(12), fair)[:3], (5, 12, lavgerin.greedy(P11).moves))
            self.assertEqual(lavgerin.random_round(P11, b"\7" + bytes(7), fair)[:3], (5, 8, moves_of("L7 F4 C7 L1 C1", 3)))
            self.assertEqual(lavgerin.random_round(P7, b"\5\0\0\0", fair)[:3], (3, 4, moves_of("L3 F0 C3", 2)))
            self.assertEqual(lavgerin.random_search(P11, bytes(24), 2, fair)[:2], (5, 24))
        row = [[0, 0, 0]]
        self.assertEqual(lavgerin.random_round(row, b"\xff\xff\xff\xff").used, 4)
        self.assertEqual(lavgerin.random_round(row, b"\xff\xff\xff\xff\1\0\0\0", fair=True)[:3], (1, 8, [("L", 0, 1)]))

    def test_keys(self):
        first = lavgerin.keyed_round(P11, KEY)
        second = lavgerin.keyed_round(P11, first.key)
        self.assertEqual(first.key[5], (KEY[5] + first.used // 4 * 362437) % 2**32)
        both = lavgerin.keyed_search(P11, KEY, 2)
        self.assertEqual(both[:3], (min(first.clicks, second.clicks), first.used + second.used, second.key))

    def test_positions(self):
        before, after = lavgerin.position("..*/.../*.."), lavgerin.greedy(P11).position
        self.assertEqual(before[1, 1], (1, 2, -2, 0))
        self.assertEqual(before[2, 0], (0, 0, 0, 0))
        self.assertEqual([after[r, c].state for r in range(3) for c in range(3)], [1, 1, 1, 1, 2, 1, 1, 1, 1])
        with self.assertRaises(IndexError):
            after[0, 3]


class Refusals(unittest.TestCase):
    def refused(self, number, call, *arguments, **named):
        """What is raised, which has this number."""
        with self.assertRaises(Refused) as caught:
            call(*arguments, **named)
        self.assertEqual((caught.exception.number, caught.exception.name), (number, lavgerin.REFUSALS[number][0]))
        return caught.exception

    def test_shape(self):
        for board in ([], "", [""], [[]] * 3, ["."] * 256, ["." * 256], ["." * 70000]):
            for call in (lavgerin.three_bv, lavgerin.greedy, lavgerin.openings_first, lavgerin.write_mbf, lavgerin.price, lavgerin.position):
                self.assertIsNone(self.refused(1, call, board).place)
            self.refused(1, lavgerin.replay, board, [("L", 0, 0)])
            self.refused(1, lavgerin.at_least, board, 0)
        self.refused(1, lavgerin.read_mbf, b"\0\1\0\0")
        self.assertEqual(lavgerin.three_bv(["." * 255] * 255), 1)

    def test_board(self):
        for board in (["..", "."], [".", "...", ".."], [[0], []]):
            self.refused(2, lavgerin.three_bv, board)
            self.refused(2, lavgerin.three_bv, board, strict=True)

    def test_work_and_trace(self):
        grid, told = (ctypes.c_int32 * 9)(*[0] * 4, -1), ctypes.c_uint64(77)
        for work, words, number in ((44, 9, 3), (45, 8, 4), (45, 9, 0)):
            area, moves = (ctypes.c_int32 * 45)(), (ctypes.c_uint32 * 9)()
            got = lavgerin.library().lavgerin_greedy(3, 3, grid, 9, area, work, moves, words, ctypes.byref(told))
            self.assertEqual((got, told.value), (number, 77 if number else 5))
        made, closed, ending = (ctypes.c_uint64(77) for _ in range(3))
        behind = [ctypes.byref(x) for x in (made, closed, ending)]
        self.assertEqual(lavgerin.library().lavgerin_replay(3, 3, grid, 9, area, 45, moves, 4, 5, *behind), 4)
        self.assertEqual((made.value, closed.value, ending.value), (77, 77, 77))
        self.assertEqual(lavgerin.library().lavgerin_replay(3, 3, grid, 9, area, 45, moves, 5, 5, *behind), 0)

    def test_rounds(self):
        self.refused(5, lavgerin.random_search, P11, bytes(12), 0)
        self.refused(5, lavgerin.keyed_search, P11, KEY, 0)
        self.refused(5, lavgerin.keyed_search, P2, KEY, 1_000_001)
        self.assertEqual(lavgerin.keyed_search(P2, KEY, 1_000_000)[:3], (0, 0, KEY))
        for rounds in (-1, 2**64):
            with self.assertRaises(OverflowError):
                lavgerin.random_search(P11, bytes(12), rounds)

    def test_draws(self):
        self.refused(6, lavgerin.random_round, P9, b"")
        self.refused(6, lavgerin.random_round, P11, bytes(11))
        self.refused(6, lavgerin.random_search, P11, bytes(23), 2)
        self.refused(6, lavgerin.random_round, [[0, 0, 0]], b"\xff" * 400, fair=True)

    def test_move(self):
        for moves, place in (([("C", 0, 0)], 0), ([("L", 0, 0), ("L", 0, 0)], 1), ([("L", 3, 0)], 0), ([("L", 0, -1)], 0),
                             ([("F", 1, 1), ("U", 1, 1), ("U", 1, 1)], 2), ([("", 0, 0)], 0), ([("LF", 0, 0)], 0), ([("l", 0, 0)], 0),
                             ([("L", 1, 1), ("L", 0, 0)], 1)):
            said = self.refused(7, lavgerin.replay, P11, moves)
            self.assertEqual((said.place, said.cell), (place, None))
        self.assertEqual(said.position[1, 1].state, 3)
        self.assertEqual(str(said), "MOVE: " + lavgerin.REFUSALS[7][1] + " (move 1)")

    def test_file(self):
        for data in (b"", b"\3", b"\3\3\0", b"\3\3\0\1\1", b"\3\3\0\1\3\1", b"\3\3\0\2\1\1\1\1"):
            self.refused(10, lavgerin.read_mbf, data)
        self.assertEqual(lavgerin.read_mbf(b"\3\3\0\1\1\1"), P11_TYPED)

    def test_number(self):
        calls = ((lavgerin.three_bv,), (lavgerin.at_least, 3), (lavgerin.greedy,), (lavgerin.openings_first,), (lavgerin.price,),
                 (lavgerin.random_round, bytes(99)), (lavgerin.random_search, bytes(99), 1), (lavgerin.keyed_round, KEY),
                 (lavgerin.keyed_search, KEY, 1), (lavgerin.replay, []), (lavgerin.write_mbf,), (lavgerin.position,))
        for call, *more in calls:
            said = self.refused(11, call, ["111", "1*1", "121"], *more, strict=True)
            self.assertEqual((said.place, said.cell), (5, (2, 1)))
            call(P11_TYPED, *more, strict=True)
        self.assertTrue(str(said).endswith("(row 2, column 1)"))
        self.assertEqual(pickle.loads(pickle.dumps(said)).args, said.args)

    def test_key(self):
        for key in ((0,) * 6, KEY[:5], KEY + (1,), (0, 0, 0, 0, 0, 1)):
            self.refused(12, lavgerin.keyed_round, P11, key)
            self.refused(12, lavgerin.keyed_search, P11, key, 1)
        with self.assertRaises(OverflowError):
            lavgerin.keyed_round(P11, KEY[:5] + (2**32,))

    def test_what_is_no_board(self):
        for board, error in ((["x"], ValueError), ([[True]], ValueError), ([b"*"], TypeError), ([["*"]], TypeError), ([[2**31]], OverflowError),
                             ([[0.0]], TypeError), ([["."], 3], TypeError)):
            with self.assertRaises(error):
                lavgerin.three_bv(board)


class RandomBoards(unittest.TestCase):
    def replays(self, board, clicks, moves):
        self.assertEqual(len(moves), clicks)
        self.assertEqual(lavgerin.replay(board, moves)[:3], (clicks, 0, "won"))

    def test_lists_are_replayed(self):
        source = random.Random(26)
        for _ in range(1000):
            board = random_board(source)
            units, typed, fair = units_of(board), numbers_of(board), source.random() < 0.5
            priced = lavgerin.price(board)
            self.assertEqual(priced.three_bv, units, board)
            self.assertEqual(lavgerin.price(typed, strict=True), priced)
            self.assertLessEqual(priced.clicks, units)
            self.replays(board, priced.clicks, priced.moves)
            first = lavgerin.openings_first(board)
            self.replays(board, first.clicks, first.moves)
            rolled = lavgerin.random_round(board, source.randbytes(4 * units + 64), fair)
            self.replays(board, rolled.clicks, rolled.moves)
            key = tuple(source.randrange(2**32) for _ in range(6))
            keyed = lavgerin.keyed_round(board, key, fair)
            self.replays(board, keyed.clicks, keyed.moves)
            self.assertEqual(lavgerin.keyed_search(board, key, 1, fair), (*keyed[:3], unittest.mock.ANY))
            self.assertEqual([lavgerin.at_least(board, units + k) for k in (0, 1)], [True, False])
            self.assertEqual(lavgerin.read_mbf(lavgerin.write_mbf(board)), typed)

    def test_threads(self):
        source = random.Random(7)
        boards = [random_board(source, 40) for _ in range(200)]
        with concurrent.futures.ThreadPoolExecutor(8) as pool:
            self.assertEqual(list(pool.map(lavgerin.price, boards)), [lavgerin.price(board) for board in boards])


class SaysWhatTheHeaderSays(unittest.TestCase):
    C_TYPES = {"size_t": ctypes.c_size_t, "int32_t": ctypes.c_int32, "uint8_t": ctypes.c_uint8, "uint32_t": ctypes.c_uint32, "uint64_t": ctypes.c_uint64}

    def of_c(self, parameter):
        """A parameter's type, by its words in C."""
        words = parameter.replace("const ", "").split()
        of = self.C_TYPES[words[0]]
        return ctypes.POINTER(of) if words[1].startswith("*") else of

    def test_signatures(self):
        found = {}
        for result, name, parameters in re.findall(r"^(\w+) (lavgerin_\w+)\(([^)]*)\);", HEADER, re.M):
            found[name] = (self.C_TYPES[result], tuple(self.of_c(p) for p in parameters.split(",") if p != "void"))
        self.assertEqual(found, lavgerin.SIGNATURES)

    def test_refusals(self):
        told = dict(re.findall(r'case (\d+): return "(.*)";', HEADER))
        self.assertEqual(told.pop("0").split(":")[0], "SUCCESS")
        self.assertEqual(told, {str(number): f"{name}: {sentence}" for number, (name, sentence) in lavgerin.REFUSALS.items()})
        for name, number in re.findall(r"LAVGERIN_([A-Z]+) = (\d+)", HEADER.split("enum {")[1]):
            self.assertEqual(name, "SUCCESS" if number == "0" else lavgerin.REFUSALS[int(number)][0])

    def test_version(self):
        of_header = tuple(int(re.search(rf"#define LAVGERIN_VERSION_{part} (\d+)", HEADER)[1]) for part in ("MAJOR", "MINOR", "PATCH"))
        self.assertEqual((lavgerin.version(), lavgerin.VERSION), (of_header, of_header))


class TheLibrary(unittest.TestCase):
    def ended(self, program, **environment):
        """How a Python program ended, with other variables."""
        here = {**os.environ, "PYTHONPATH": os.path.dirname(lavgerin.__file__), **environment}
        return subprocess.run([sys.executable, "-c", "import lavgerin; " + program], env=here, capture_output=True, text=True)

    def test_one_that_is_not_there(self):
        said = self.ended("lavgerin.price('.')", LAVGERIN_LIBRARY="/nowhere/liblavgerin.so")
        self.assertIn("OSError: the Lavgerin library is not found", said.stderr)

    def test_another_version(self):
        for other in ((lavgerin.VERSION[0] + 1, 0, 0), (lavgerin.VERSION[0], lavgerin.VERSION[1] + 1, 0)):
            with self.subTest(other=other):
                said = self.ended(f"path = lavgerin.library()._name; lavgerin.library.cache_clear(); lavgerin.VERSION = {other}; "
                                  "lavgerin._loaded(path)")
                self.assertIn("and this module is of %d.%d.%d" % other, said.stderr)

    def test_the_module_says_its_example(self):
        self.assertIn(repr(lavgerin.price(["...", ".*.", "..."])), lavgerin.__doc__)


if __name__ == "__main__":
    unittest.main()
