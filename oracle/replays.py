"""Replays of move lists, wrong flags and lost games included: a second program, written from the rules' words and apart from ours.

    oracle/replays [SEED [COUNT]]
        builds ours and compares it with this on random boards and lists: what is answered, and the whole work area
    python3 oracle/replays.py compare SEED COUNT PROGRAM
        the same with a PROGRAM that was built from oracle/calls.c
    python3 oracle/replays.py cases < crates/cases/stdin | diff - crates/cases/stdout | grep '^<'
        what crates/cases is to print for the comments and replays of its input: grep finds a line where it prints another"""
import random
import struct
import subprocess
import sys

LEFT, FLAG, CHORD, UNFLAG = 1, 2, 3, 4
CLOSED, OPENED, FLAGGED, BLOWN = 0, 1, 2, 3
UNFINISHED, WON, LOST = 0, 1, 2
SHAPE, BOARD, WORK, TRACE, MOVE = 1, 2, 3, 4, 7


# ---- the game


class Game:
    """A board that is played on. A cell is its index, column x rows + row; the grid's values stand row after row."""

    def __init__(self, rows, columns, values):
        self.rows, self.columns, self.cells = rows, columns, range(rows * columns)
        self.mine = [values[i % rows * columns + i // rows] == -1 for i in self.cells]
        self.square = [self.square_of(i) for i in self.cells]
        self.number = [sum(self.mine[j] for j in self.square[i]) for i in self.cells]
        self.state = [CLOSED for _ in self.cells]
        self.closed = self.mine.count(False)
        self.lost = False

    def square_of(self, i):
        column, row = divmod(i, self.rows)
        columns = range(max(column - 1, 0), min(column + 2, self.columns))
        return [c * self.rows + r for c in columns for r in range(max(row - 1, 0), min(row + 2, self.rows))]

    def ending(self):
        return LOST if self.lost else UNFINISHED if self.closed else WON

    def flags(self, i):
        return sum(self.state[j] == FLAGGED for j in self.square[i])

    def is_legal(self, word):
        kind, i = divmod(word, 65536)
        if self.ending() != UNFINISHED or i not in self.cells:
            return False
        if kind == CHORD:
            return self.state[i] == OPENED and 0 < self.number[i] == self.flags(i)
        wanted = {LEFT: CLOSED, FLAG: CLOSED, UNFLAG: FLAGGED}
        return kind in wanted and self.state[i] == wanted[kind]

    def play(self, word):
        """A legal move."""
        kind, i = divmod(word, 65536)
        if kind == FLAG:
            self.state[i] = FLAGGED
        elif kind == UNFLAG:
            self.state[i] = CLOSED
        else:
            self.click([i] if kind == LEFT else self.square[i])

    def click(self, cells):
        """L on each of the cells that are closed and unflagged: the safe ones with what spreads from them, then the mines."""
        waiting = [i for i in cells if not self.mine[i]]
        while waiting:
            i = waiting.pop()
            if self.state[i] == CLOSED:
                self.state[i] = OPENED
                self.closed -= 1
                waiting += self.square[i] if self.number[i] == 0 else []
        for i in cells:
            if self.mine[i] and self.state[i] == CLOSED:
                self.state[i] = BLOWN
                self.lost = True

    def openings(self):
        """The 0-cells of each opening, in the order of the lowest."""
        found, seen = [], set()
        for i in self.cells:
            if self.number[i] == 0 and i not in seen:
                zeros, waiting = {i}, [i]
                while waiting:
                    more = {j for j in self.square[waiting.pop()] if self.number[j] == 0} - zeros
                    zeros |= more
                    waiting += more
                seen |= zeros
                found.append(zeros)
        return found

    def numbers(self):
        """The five numbers of each cell."""
        unopened = [state != OPENED for state in self.state]
        labels = [[] for _ in self.cells]
        is_closed = [None]
        for label, zeros in enumerate(self.openings(), 1):
            is_closed.append(any(unopened[z] for z in zeros))
            for i in {j for z in zeros for j in self.square[z]}:
                labels[i].append(label)
        five = []
        for i in self.cells:
            units = sum(unopened[j] for j in self.square[i] if not self.mine[j] and not labels[j])
            units += sum(is_closed[label] for label in labels[i])
            mines = sum(self.mine[j] and self.state[j] != FLAGGED for j in self.square[i])
            premium = 0 if self.mine[i] else units - mines - 1 - unopened[i]
            first, second = labels[i] + [0] * (2 - len(labels[i]))
            five += [first, second, premium, self.state[i], 0]
        return five


def outcome(rows, columns, values, work, words, count):
    """What a replay answers, its number and three values, and the work area then."""
    cells = rows * columns
    sides_pass = 1 <= rows <= 255 and 1 <= columns <= 255
    checks = {SHAPE: sides_pass, BOARD: len(values) == cells, WORK: 5 * cells <= len(work), TRACE: count <= len(words)}
    for number, passes in checks.items():
        if not passes:
            return (number, 0, 0, 0), work
    game = Game(rows, columns, values)
    for place, word in enumerate(words[:count]):
        if not game.is_legal(word):
            return (MOVE, place, 0, 0), game.numbers() + work[5 * cells :]
        game.play(word)
    return (0, count, game.closed, game.ending()), game.numbers() + work[5 * cells :]


# ---- random boards and lists

ODD_SIDES = [(1, 1), (1, 40), (40, 1), (2, 20), (20, 2), (3, 30), (1, 255), (255, 1), (16, 32), (19, 27), (27, 19)]

# how often a player does each of SORTS, or any_word: with no mistake, with wrong flags, with many of them, with mines clicked, with a damaged list
PLAYERS = [(6, 4, 0, 1, 5, 0, 0), (12, 6, 6, 6, 18, 0, 1), (3, 1, 9, 6, 3, 0, 0), (9, 2, 1, 1, 4, 1, 0), (20, 10, 8, 8, 20, 1, 3)]


def any_word(dice, game):
    """A move of any kind on any cell, on the grid or past it, or C among too many flags."""
    kind, cells = dice.choice([1, 2, 3, 4, 1, 2, 3, 4, 0, 5, 65535]), len(game.cells)
    word = kind * 65536 + dice.choice([dice.randrange(cells)] * 8 + [cells, cells + dice.randrange(9), 65535])
    crowded = [i for i in game.cells if game.state[i] == OPENED and 0 < game.number[i] < game.flags(i)]
    return dice.choice([word] + [CHORD * 65536 + i for i in crowded[:2]])


def some_closed(game, is_mine, kind):
    return [kind * 65536 + i for i in game.cells if game.state[i] == CLOSED and game.mine[i] == is_mine]


# the moves of each sort that are legal where the game stands
SORTS = [
    lambda game: some_closed(game, False, LEFT),
    lambda game: some_closed(game, True, FLAG),
    lambda game: some_closed(game, False, FLAG),
    lambda game: [UNFLAG * 65536 + i for i in game.cells if game.state[i] == FLAGGED],
    lambda game: [word for word in range(CHORD * 65536, CHORD * 65536 + len(game.cells)) if game.is_legal(word)],
    lambda game: some_closed(game, True, LEFT),
]


def some_move(dice, game, player):
    sort = dice.choices(range(len(player)), player)[0]
    if sort == len(SORTS) or game.ending() != UNFINISHED:
        return any_word(dice, game)
    moves = SORTS[sort](game)
    return dice.choice(moves) if moves else some_move(dice, game, player)


def some_list(dice, rows, columns, values):
    """The moves of one of the players, mostly up to the end of the game or a little further."""
    game, player = Game(rows, columns, values), dice.choice(PLAYERS)
    words, further = [], dice.choice([0, 0, 0, 1, 2])
    most = dice.choice([dice.randrange(10), len(values), 3 * len(values)])
    while len(words) < most:
        if game.ending() != UNFINISHED:
            return words + [any_word(dice, game) for _ in range(further)]
        words.append(some_move(dice, game, player))
        if game.is_legal(words[-1]):
            game.play(words[-1])
        elif dice.randrange(2):
            return words
    return words


def some_values(dice, cells):
    """A grid's values: from no mine to mines alone, often few."""
    mines = dice.choice([0, cells, dice.randrange(cells + 1)] + [dice.randrange(cells // 5 + 1)] * 6)
    places = set(dice.sample(range(cells), mines))
    return [-1 if k in places else dice.choice([0, 0, 1, 5, -2, 2147483647]) for k in range(cells)]


def some_input(dice):
    """What one replay takes; now and then too short or too long."""
    most = dice.choice([3, 6, 12])
    sides = dice.randint(1, most), dice.randint(1, most)
    rows, columns = dice.choice(ODD_SIDES) if dice.randrange(20) == 0 else sides
    values = some_values(dice, rows * columns)
    words = some_list(dice, rows, columns, values)
    work = [dice.choice([0, 1, 2, 7, -1, -2147483648]) for _ in range(5 * len(values) + dice.randrange(4))]
    count = dice.choice([len(words)] * 8 + [dice.randrange(len(words) + 1)])
    if dice.randrange(100) == 0:
        return dice.choice([
            (rows, columns, values, work, words, len(words) + 1 + dice.randrange(3)),
            (rows, columns, values, work[: 5 * len(values) - 1], words, count),
            (rows + 1, columns, values, work, words, count),
            (dice.choice([0, 256]), columns, values, work, words, count),
        ])
    return rows, columns, values, work, words, count


# ---- beside ours


def ours(program, rows, columns, values, work, words, count):
    """As outcome, by the C name, in a program of its own; and the list after the call."""
    numbers = struct.pack("<8Q", 5, rows, columns, len(values), len(work), len(words), 0, count)
    program.stdin.write(numbers + struct.pack(f"<{len(values)}i{len(work)}i{len(words)}I", *values, *work, *words))
    program.stdin.flush()
    told = struct.unpack("<4Q", program.stdout.read(32))
    runs = struct.unpack(f"<{len(work)}i{len(words)}I", program.stdout.read(4 * (len(work) + len(words))))
    return told, list(runs[: len(work)]), list(runs[len(work) :])


def compare(seed, count, command):
    dice, program = random.Random(seed), subprocess.Popen(command, stdin=subprocess.PIPE, stdout=subprocess.PIPE)
    met = {"unfinished": 0, "won": 0, "lost": 0, "MOVE": 0, "refused before any move": 0}
    for k in range(count):
        taken = some_input(dice)
        told, work = outcome(*taken)
        got = ours(program, *taken)
        if got != (told, work, taken[4]):
            rows, columns, values, _, words, most = taken
            print(f"list {k}: {rows} rows, {columns} columns, values {values}")
            print("moves", " ".join(f"{word // 65536}:{word % 65536}" for word in words), "count", most)
            print(f"here {told} {work}\nours {got[0]} {got[1]}", "" if got[2] == words else "and the list was changed")
            sys.exit(1)
        met[list(met)[told[3] if told[0] == 0 else 3 if told[0] == MOVE else 4]] += 1
    print(f"{count} lists compared, no difference:", ", ".join(f"{met[sort]} {sort}" for sort in met))


# ---- the cases


def run_of(text, one, is_picture=False):
    """A pattern, or a pattern, x and a length."""
    pattern, _, length = text.partition("x")
    parts = [one(part) for part in (pattern if is_picture else pattern.split(",")) if part]
    length = int(length) if length else len(parts)
    return [parts[k % len(parts)] for k in range(length)]


def value_of(text):
    return {"*": -1, ".": 0}[text] if text in "*." else int(text)


def word_of(text):
    kind = " LFCU".find(text[0])
    return kind * 65536 + int(text[1:]) if kind > 0 else int(text)


def print_numbers(numbers, told):
    """All of them, or the sums of more than 255: of those above 0, and of the sums up to each."""
    if len(numbers) > 255:
        told = [sum(max(v, 0) for v in numbers), sum(max(v, 0) * (len(numbers) - k) for k, v in enumerate(numbers))]
    print("".join(f" {v}" for v in told))


def cases(lines):
    for line in lines:
        if line.startswith("#"):
            print(line)
        name, _, rest = line.partition(": ")
        if not rest.startswith("replay "):
            continue
        field = dict(part.split("=") for part in rest.split(" ")[1:])
        values = run_of(field["board"], value_of, field["board"][0] in "*.")
        work, words = run_of(field["work"], value_of), run_of(field["list"], word_of)
        told, work = outcome(int(field["rows"]), int(field["columns"]), values, work, words, int(field["count"]))
        print(name, *told)
        if words:
            print_numbers(words, [part for word in words for part in divmod(word, 65536)])
        print_numbers(work, work)


if __name__ == "__main__":
    if sys.argv[1:2] == ["cases"]:
        cases(sys.stdin.read().splitlines())
    elif sys.argv[1:2] == ["compare"] and len(sys.argv) > 4:
        compare(int(sys.argv[2]), int(sys.argv[3]), sys.argv[4:])
    else:
        sys.exit(__doc__)
