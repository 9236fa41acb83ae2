#!/usr/bin/env python3
"""The early count once more (docs/RULES.md, 2.6), a second program beside the library: 3BV counted whole, opening by opening, and
what is lent after the call. It runs target/bin/cases (tools/build cases).

early.py cases          holds each at-least case of crates/cases beside its own answer; strict ones are tests/strict.py's
early.py random [N]     the same for N random cases (default 2000): boards up to 9 by 9, some of 60 to 140 columns, around 3BV"""
import random, sys

from case_lines import board_of, case_lines, printed, run, values

LONGEST = 255


def around(rows, columns, cell):
    """The cells of a cell's square, by row and column."""
    row, column = cell
    return [(y, x) for y in range(max(0, row - 1), min(rows, row + 2)) for x in range(max(0, column - 1), min(columns, column + 2))]


def three_bv(rows, columns, board):
    """The openings, and the safe cells that none of them holds."""
    cells = [(row, column) for row in range(rows) for column in range(columns)]
    mines = {(row, column) for row, column in cells if board[row * columns + column] == -1}
    zeros = {cell for cell in cells if not mines.intersection(around(rows, columns, cell))}
    held, openings = set(), 0
    while zeros:
        waiting, openings = [zeros.pop()], openings + 1
        while waiting:
            for cell in around(rows, columns, waiting.pop()):
                held.add(cell)
                if cell in zeros:
                    zeros.remove(cell)
                    waiting.append(cell)
    return openings + sum(cell not in mines and cell not in held for cell in cells)


def refusal(rows, columns, board, work):
    """SHAPE, BOARD, WORK or none, in this order."""
    if not (1 <= rows <= LONGEST and 1 <= columns <= LONGEST):
        return 1
    if len(board) != rows * columns:
        return 2
    return 3 if len(work) < 5 * rows * columns else 0


def expected(case):
    """What a case prints: its answer, and the work area."""
    name, words = case.split(": at-least ", 1)
    found = dict(w.split("=", 1) for w in words.split(" "))
    rows, columns, board, work = int(found["rows"]), int(found["columns"]), board_of(found), values(found["work"], "numbers")
    number = refusal(rows, columns, board, work)
    if number:
        return [f"{name} {number} 0 0", printed(work)]
    enough = int(int(found["units"]) <= three_bv(rows, columns, board))
    return [f"{name} 0 {enough} 0", printed([0] * (5 * rows * columns) + work[5 * rows * columns:])]


def hold(lines):
    """Compares cases with what is expected of them. Answers how many differ."""
    wrong, enough = 0, 0
    for line, got in zip(lines, run(lines)):
        want = expected(line)
        enough += want[0].endswith(" 0 1 0")
        if got != want:
            wrong += 1
            print(f"differs: {line[:200]}\n  got      {got}\n  expected {want}")
    print(f"{len(lines)} cases, {enough} of them enough, {wrong} differ")
    return wrong


def a_case(k):
    """A random case: any values, around 3BV, and sometimes a work area one number short."""
    wide = k % 4 == 0
    rows, columns = random.randint(1, 9), random.randint(60, 140) if wide else random.randint(1, 9)
    density = random.choice((0, 5, 10, 15, 20, 25, 40, 100))
    board = [-1 if random.randrange(100) < density else random.choice((0, 1, 5, -2)) for _ in range(rows * columns)]
    units = three_bv(rows, columns, board)
    asked = random.choice((0, 1, 2, 3, units // 2, max(units - 1, 0), units, units + 1, rows * columns, rows * columns + 1, 2**64 - 1))
    length = 5 * rows * columns + random.choice((-1, 0, 1, 2))
    return f"{k}: at-least rows={rows} columns={columns} board={','.join(map(str, board))} work=7,-3x{length} units={asked}"


def main(words):
    if words[:1] == ["cases"]:
        return hold(case_lines(": at-least "))
    if words[:1] == ["random"]:
        random.seed(7)
        return hold([a_case(k) for k in range(int(words[1]) if words[1:] else 2000)])
    print(__doc__)
    return 2


if __name__ == "__main__":
    sys.exit(1 if main(sys.argv[1:]) else 0)
