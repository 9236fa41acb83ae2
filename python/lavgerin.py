"""Minesweeper boards priced by the Lavgerin library, on ctypes alone.

    >>> import lavgerin
    >>> lavgerin.price(["...", ".*.", "..."])
    Price(three_bv=8, clicks=5, moves=[('L', 1, 0), ('F', 1, 1), ('C', 1, 0), ('C', 0, 1), ('C', 2, 1)])

A board is its rows, from the top: texts of '.' and '*' (a mine), or rows of numbers, -1 for a mine and any other for a
safe cell; a digit in a text is that number. One text with rows parted by '/' or white space will do too.
A move is (kind, row, column), rows and columns counted from 0: 'L' left, 'F' flag, 'C' chord, 'U' a flag taken away.

Each call has its strict form, strict=True, for boards that were typed: every number is held to the mines around it.
What the library refuses is raised as Refused. All memory is lent here, anew for each call, so that calls may be made from
any number of threads; none can be interrupted before it ends.

The library is the file that the environment variable LAVGERIN_LIBRARY names, else the installed one."""
import array
import ctypes
import functools
import os
from typing import NamedTuple

VERSION = (1, 0, 0)  # of this module: it takes a library of the same major version, and this minor one or a later
INSTALLED = ""  # the folder of the installed library: tools/install writes it into the copy that it installs

REFUSALS = {
    1: ("SHAPE", "rows or columns are 0, or over 255"),
    2: ("BOARD", "the grid is not rows x columns long, or there is no room for what is read from a file or written to one"),
    3: ("WORK", "the work area is below five numbers a cell"),
    4: ("TRACE", "the list is below one move a cell, or a replay's count is above its length"),
    5: ("ROUNDS", "a search has 0 rounds, or a keyed one more than 1,000,000"),
    6: ("DRAWS", "a choice needs four bytes and fewer are left, or 64 words of a key were spent on it"),
    7: ("MOVE", "a move is not legal where it stands, has another kind, or is past the grid"),
    8: ("FRAME", "a line is malformed"),
    9: ("SIZE", "a board line, or a file that is to be one, has over 2,048 cells"),
    10: ("FILE", "an MBF file is malformed"),
    11: ("NUMBER", "a safe cell's value is not its number"),
    12: ("KEY", "the five words of a key are all 0, or its run is not six long"),
}
MOVE, NUMBER = 7, 11
CHARACTERS = {"*": -1, ".": 0, **{str(digit): digit for digit in range(10)}}  # a value, by its character
KINDS = {"L": 1, "F": 2, "C": 3, "U": 4}  # a kind's number, by its letter
LETTERS = {number: letter for letter, number in KINDS.items()}
ENDINGS = ("unfinished", "won", "lost")
MOST_CELLS = 255 * 255
MOST_SIZE = 2 ** (8 * ctypes.sizeof(ctypes.c_size_t)) - 1
NO_CELL = 65535  # an index past every grid


class Refused(Exception):
    """A refusal: its number and name.

    place: of MOVE, where the first illegal move stands in the list, from 0; of NUMBER, the index of the lowest cell at
    fault, whose row and column are cell. position: of MOVE, the position before that move. None elsewhere."""

    def __init__(self, number, place=None, cell=None, position=None):
        super().__init__(number, place, cell, position)
        self.number, self.place, self.cell, self.position = number, place, cell, position
        self.name, self.sentence = REFUSALS[number]

    def __str__(self):
        where = "" if self.place is None else f" (row {self.cell[0]}, column {self.cell[1]})" if self.cell else f" (move {self.place})"
        return f"{self.name}: {self.sentence}{where}"


class Cell(NamedTuple):
    """A cell of a position: its openings' numbers, 0 for none, its premium, and 0 closed, 1 opened, 2 flagged, 3 an opened mine."""

    first_label: int
    second_label: int
    premium: int
    state: int


class Position:
    """A position: position[row, column] is a Cell."""

    def __init__(self, rows, columns, numbers):
        self.rows, self.columns, self._numbers = rows, columns, numbers

    def __getitem__(self, place):
        row, column = place
        if not (0 <= row < self.rows and 0 <= column < self.columns):
            raise IndexError(f"no cell ({row}, {column}) in {self.rows} rows and {self.columns} columns")
        at = 5 * (column * self.rows + row)
        return Cell(*self._numbers[at:at + 4])

    def __repr__(self):
        return f"<position of {self.rows} rows and {self.columns} columns>"


class Price(NamedTuple):
    three_bv: int
    clicks: int
    moves: list


class Round(NamedTuple):
    clicks: int
    moves: list
    position: Position


class RandomRound(NamedTuple):
    clicks: int
    used: int
    moves: list
    position: Position


class RandomSearch(NamedTuple):
    clicks: int
    used: int
    position: Position


class KeyedRound(NamedTuple):
    clicks: int
    used: int
    key: tuple
    moves: list
    position: Position


class KeyedSearch(NamedTuple):
    clicks: int
    used: int
    key: tuple
    position: Position


class Replayed(NamedTuple):
    made: int
    closed: int
    ending: str
    position: Position


# The library and its functions

_TYPES = {"i": ctypes.c_int32, "I": ctypes.c_uint32, "B": ctypes.c_uint8}
_SIZE, _TOLD = (ctypes.c_size_t,), (ctypes.POINTER(ctypes.c_uint64),)
_VALUES, _WORDS, _BYTES = ((ctypes.POINTER(_TYPES[code]), ctypes.c_size_t) for code in "iIB")
_BOARD, _FAIR = _SIZE + _SIZE + _VALUES, (ctypes.c_uint8,)
_ON_BOARDS = {
    "three_bv": _BOARD + _VALUES + _TOLD,
    "at_least": _BOARD + _VALUES + _SIZE + _TOLD,
    "greedy": _BOARD + _VALUES + _WORDS + _TOLD,
    "openings_first": _BOARD + _VALUES + _WORDS + _TOLD,
    "random_round": _BOARD + _VALUES + _WORDS + _BYTES + _FAIR + 2 * _TOLD,
    "random_search": _BOARD + _VALUES + _BYTES + _FAIR + _SIZE + 2 * _TOLD,
    "keyed_round": _BOARD + _VALUES + _WORDS + _WORDS + _FAIR + 2 * _TOLD,
    "keyed_search": _BOARD + _VALUES + _WORDS + _FAIR + _SIZE + 2 * _TOLD,
    "replay": _BOARD + _VALUES + _WORDS + _SIZE + 3 * _TOLD,
    "write_mbf": _BOARD + _BYTES + _TOLD,
}
SIGNATURES = {
    "lavgerin_version": (ctypes.c_uint32, ()),
    "lavgerin_read_mbf": (ctypes.c_uint8, _BYTES + _VALUES + 2 * _TOLD),
    **{f"lavgerin_{form}{name}": (ctypes.c_uint8, types) for name, types in _ON_BOARDS.items() for form in ("", "strict_")},
}


def _paths():
    """Where the library is looked for, in this order."""
    name = f"liblavgerin.so.{VERSION[0]}"
    if os.environ.get("LAVGERIN_LIBRARY"):
        return [os.environ["LAVGERIN_LIBRARY"]]
    return [os.path.join(INSTALLED, name)] if INSTALLED else [name, os.path.join("/usr/local/lib", name)]


def _loaded(path):
    """The library at a path, if it is of a version that this module takes, its functions declared."""
    found = ctypes.CDLL(path)
    if not hasattr(found, "lavgerin_version"):
        raise OSError(f"{path}: no version of Lavgerin to ask for")
    found.lavgerin_version.restype, found.lavgerin_version.argtypes = SIGNATURES["lavgerin_version"]
    has = _parted(found.lavgerin_version())
    if has[0] != VERSION[0] or has < VERSION[:2]:
        raise OSError("%s: Lavgerin %d.%d.%d, and this module is of %d.%d.%d" % (path, *has, *VERSION))
    for name, (result, types) in SIGNATURES.items():
        getattr(found, name).restype, getattr(found, name).argtypes = result, types
    return found


def _parted(number):
    """A version's three numbers."""
    return number // 65536, number // 256 % 256, number % 256


@functools.lru_cache(maxsize=None)
def library():
    """The library, its functions declared as the C header has them, for calls on memory of one's own."""
    said = []
    for path in _paths():
        try:
            return _loaded(path)
        except OSError as error:
            said.append(str(error))
    raise OSError("the Lavgerin library is not found; LAVGERIN_LIBRARY may name its file: " + "; ".join(said))


def version():
    """The version of the library: major, minor, patch."""
    return _parted(library().lavgerin_version())


# What is lent and what is told


class _Run:
    """Memory to lend: an array, all but the last of its numbers. So none is empty, since no pointer may be NULL."""

    def __init__(self, code, values=(), room=0):
        self.numbers = array.array(code, list(values))
        self.numbers.extend(array.array(code, [0]) * (room + 1))
        self.type = _TYPES[code]

    def lent(self):
        return (self.type * len(self.numbers)).from_buffer(self.numbers), len(self.numbers) - 1


def _values(row, line):
    """The values of a row: a text's characters, or numbers."""
    if isinstance(line, (bytes, bytearray)):
        raise TypeError(f"row {row} is a text or numbers, not bytes")
    for column, value in enumerate(line):
        if isinstance(value, bool) or isinstance(line, str) and value not in CHARACTERS:
            raise ValueError(f"row {row}, column {column}: {value!r} is neither '.' nor '*' nor a number")
    return [CHARACTERS[value] for value in line] if isinstance(line, str) else list(line)


class _Board:
    """A board to lend. Its columns are those of its longest row, so that the library refuses one with a shorter row (BOARD)."""

    def __init__(self, board):
        lines = board.replace("/", " ").split() if isinstance(board, str) else list(board)
        values = [_values(row, line) for row, line in enumerate(lines)]
        self.rows, self.columns = len(values), max(map(len, values), default=0)
        self.cells = min(self.rows * self.columns, MOST_CELLS)
        self.grid = _Run("i", [value for row in values for value in row])
        self.work = _Run("i", room=5 * self.cells)

    def lent(self):
        return self.rows, self.columns, *self.grid.lent()

    def position(self):
        return Position(self.rows, self.columns, self.work.numbers)

    def moves(self, words, count):
        """The first moves of a list."""
        return [(LETTERS[word // 65536], word % 65536 % self.rows, word % 65536 // self.rows) for word in words.numbers[:count]]

    def word(self, kind, row, column):
        """A move as a word; of no kind where there is no such letter, and past the grid where there is no such cell."""
        on_grid = 0 <= row < self.rows and 0 <= column < self.columns
        return 65536 * KINDS.get(kind, 0) + (column * self.rows + row if on_grid else NO_CELL)

    def call(self, name, strict, answers, *lent):
        """Calls the library on the board. Answers what it tells, so many numbers, or raises its refusal."""
        told = (ctypes.c_uint64 * answers)()
        behind = [ctypes.byref(told, 8 * k) for k in range(answers)]
        number = getattr(library(), "lavgerin_" + ("strict_" if strict else "") + name)(*self.lent(), *lent, *behind)
        if number == NUMBER:
            raise Refused(number, told[0], (told[0] % self.rows, told[0] // self.rows))
        if number == MOVE:
            raise Refused(number, told[0], position=self.position())
        if number:
            raise Refused(number)
        return list(told)


def _size(number):
    """A number as the library counts."""
    if not 0 <= number <= MOST_SIZE:
        raise OverflowError(f"{number} is not from 0 to {MOST_SIZE}")
    return number


# The calls


def three_bv(board, strict=False):
    """3BV of a board."""
    given = _Board(board)
    return given.call("three_bv", strict, 1, *given.work.lent())[0]


def position(board, strict=False):
    """The position of a board before any move: labels and premiums."""
    given = _Board(board)
    given.call("three_bv", strict, 1, *given.work.lent())
    return given.position()


def at_least(board, units, strict=False):
    """Whether 3BV of a board is at least so many units, counted no further than that takes."""
    given = _Board(board)
    return given.call("at_least", strict, 1, *given.work.lent(), min(max(units, 0), MOST_SIZE))[0] == 1


def _round(name, given, strict):
    """A round of a board to lend, greedy or openings-first."""
    words = _Run("I", room=given.cells)
    (clicks,) = given.call(name, strict, 1, *given.work.lent(), *words.lent())
    return Round(clicks, given.moves(words, clicks), given.position())


def greedy(board, strict=False):
    """Greedy ZiNi: clicks, moves and the position at the end."""
    return _round("greedy", _Board(board), strict)


def openings_first(board, strict=False):
    """Openings-first ZiNi: clicks, moves and the position at the end."""
    return _round("openings_first", _Board(board), strict)


def price(board, strict=False):
    """A board's price: 3BV, and the clicks and moves of greedy ZiNi."""
    given = _Board(board)
    (units,) = given.call("three_bv", strict, 1, *given.work.lent())
    played = _round("greedy", given, strict)
    return Price(units, played.clicks, played.moves)


def random_round(board, draws, fair=False, strict=False):
    """One random round by draw bytes: clicks, the bytes used, moves and the position at the end."""
    given, drawn = _Board(board), _Run("B", draws)
    words = _Run("I", room=given.cells)
    clicks, used = given.call("random_round", strict, 2, *given.work.lent(), *words.lent(), *drawn.lent(), bool(fair))
    return RandomRound(clicks, used, given.moves(words, clicks), given.position())


def random_search(board, draws, rounds, fair=False, strict=False):
    """A random search by draw bytes: the least clicks, the bytes used and the last round's position."""
    given, drawn = _Board(board), _Run("B", draws)
    clicks, used = given.call("random_search", strict, 2, *given.work.lent(), *drawn.lent(), bool(fair), _size(rounds))
    return RandomSearch(clicks, used, given.position())


def keyed_round(board, key, fair=False, strict=False):
    """One random round by a key, five words and a counter: clicks, the bytes of the key used, the key after it, moves and the position at the end."""
    given, held = _Board(board), _Run("I", key)
    words = _Run("I", room=given.cells)
    clicks, used = given.call("keyed_round", strict, 2, *given.work.lent(), *words.lent(), *held.lent(), bool(fair))
    return KeyedRound(clicks, used, tuple(held.numbers[:-1]), given.moves(words, clicks), given.position())


def keyed_search(board, key, rounds, fair=False, strict=False):
    """A random search by a key: the least clicks, the bytes of the key used, the key after it and the last round's position."""
    given, held = _Board(board), _Run("I", key)
    clicks, used = given.call("keyed_search", strict, 2, *given.work.lent(), *held.lent(), bool(fair), _size(rounds))
    return KeyedSearch(clicks, used, tuple(held.numbers[:-1]), given.position())


def replay(board, moves, strict=False):
    """A list of moves played from the start: moves made, safe cells still closed, how the game ends and the last position."""
    given = _Board(board)
    words = _Run("I", [given.word(*move) for move in moves])
    lent, count = words.lent()
    made, closed, ending = given.call("replay", strict, 3, *given.work.lent(), lent, count, count)
    return Replayed(made, closed, ENDINGS[ending], given.position())


def read_mbf(file):
    """The board of an MBF file's bytes: rows of numbers, -1 for a mine."""
    data, grid = _Run("B", file), _Run("i", room=MOST_CELLS)
    rows, columns = ctypes.c_uint64(), ctypes.c_uint64()
    number = library().lavgerin_read_mbf(*data.lent(), *grid.lent(), ctypes.byref(rows), ctypes.byref(columns))
    if number:
        raise Refused(number)
    return [list(grid.numbers[row * columns.value:(row + 1) * columns.value]) for row in range(rows.value)]


def write_mbf(board, strict=False):
    """The bytes of a board's MBF file."""
    given = _Board(board)
    data = _Run("B", room=4 + 2 * given.cells)
    (written,) = given.call("write_mbf", strict, 1, *data.lent())
    return data.numbers[:written].tobytes()
