#!/usr/bin/env python3
"""The strict calls once more (docs/RULES.md, 1.5 and 8), a second program beside the library: which cell is at fault, and that a
strict call is otherwise the present one. It runs target/bin/cases (tools/build cases).

strict.py cases         holds each strict case of crates/cases beside its own answer
strict.py random [N]    the same for N random cases (default 2000): boards up to 6 by 6 with right numbers, some of them damaged"""
import random, sys

from case_lines import board_of, case_lines, printed, run, values

PRESENT = {"3bv", "at-least", "greedy", "openings-first", "random-round", "random-search", "keyed-round", "keyed-search", "replay", "write-mbf"}


def fields(case):
    """A case's call and its fields."""
    words = case.split(": strict ", 1)[1].split(" ")
    found = dict(w.split("=", 1) for w in words[1:] if "=" in w)
    return words[0], int(found["rows"]), int(found["columns"]), board_of(found), found


def fault(rows, columns, board):
    """The lowest cell at fault, or None: also where SHAPE or BOARD comes first."""
    if not (1 <= rows <= 255 and 1 <= columns <= 255) or len(board) != rows * columns:
        return None
    for column in range(columns):
        for row in range(rows):
            value = board[row * columns + column]
            near = sum(board[y * columns + x] == -1 for y in range(max(0, row - 1), min(rows, row + 2))
                       for x in range(max(0, column - 1), min(columns, column + 2)))
            if value != -1 and value != near:
                return column * rows + row
    return None


def refused(case):
    """What a case prints that is NUMBER: the answer, and all that was lent as it was; None where it is another."""
    call, rows, columns, board, found = fields(case)
    cell = fault(rows, columns, board)
    if cell is None:
        return None
    name = case.split(":")[0]
    lines = [f"{name} 11 {cell} 0" + (" 0" if call == "replay" else "")]
    if call == "write-mbf":
        return lines + [printed(values(found["file"], "bytes"))]
    if call.startswith("keyed"):
        lines.append("".join(f" {n}" for n in found["key"].split(",")))
    words = values(found.get("list", ""), "numbers")
    return lines + ([printed(words, True)] if words else []) + [printed(values(found.get("work", ""), "numbers"))]


def hold(lines):
    """Compares strict cases with what is expected of them. Answers how many differ."""
    strict, present = run(lines), run([line.replace(": strict ", ": ", 1) for line in lines])
    wrong, numbers = 0, 0
    for line, got, same in zip(lines, strict, present):
        expected = refused(line)
        numbers += expected is not None
        if got != (same if expected is None else expected):
            wrong += 1
            print(f"differs: {line[:200]}\n  got      {got}\n  expected {same if expected is None else expected}")
    print(f"{len(lines)} cases, {numbers} of them NUMBER: {wrong} differ")
    return wrong


def random_case(rng, k):
    rows, columns = rng.randint(1, 6), rng.randint(1, 6)
    cells = rows * columns
    mines = [rng.random() < rng.choice((0.1, 0.25, 0.5)) for _ in range(cells)]
    board = [-1 if mines[p] else sum(mines[y * columns + x] for y in range(max(0, p // columns - 1), min(rows, p // columns + 2))
             for x in range(max(0, p % columns - 1), min(columns, p % columns + 2))) for p in range(cells)]
    for _ in range(rng.choice((0, 0, 1, 1, 2, 5))):
        p = rng.randrange(cells)
        damaged = rng.choice((board[p] + 1, board[p] - 1, -1, -2, 0, 9, -2147483648, 2147483647))
        board[p] = max(-2147483648, min(2147483647, damaged))
    if rng.random() < 0.05:
        board = board[:-1] + rng.choice(([], [0, 0]))
    call = rng.choice(sorted(PRESENT))
    line = f"case {k}: strict {call} rows={rows} columns={columns} board={','.join(map(str, board)) or '0x0'}"
    if call == "write-mbf":
        return line + f" file=77x{rng.choice((2, 4 + 2 * cells, 4 + 2 * cells + 3))}"
    line += f" work=7x{5 * cells + rng.choice((-1, 0, 0, 3))}"
    if call == "at-least":
        line += f" units={rng.choice((0, 1, 2, 3, 5, cells, cells + 1))}"
    if call in ("greedy", "openings-first", "random-round", "keyed-round"):
        line += f" list=4294967295x{cells + rng.choice((-1, 0, 0, 2))}"
    if call == "replay":
        moves = [rng.choice("LFCU") + str(rng.randrange(cells + 1)) for _ in range(rng.randint(1, 5))]
        line += f" list={','.join(moves)} count={len(moves) + rng.choice((0, 0, 0, 1))}"
    if call in ("random-round", "random-search"):
        line += f" draws={''.join('%02X' % rng.randrange(256) for _ in range(rng.choice((3, 40, 160))))}{'FF' * rng.choice((0, 8))} fair={rng.choice((0, 1))}"
    if call.startswith("keyed"):
        line += f" key={','.join(str(rng.choice((0, 0, 1, rng.getrandbits(32)))) for _ in range(6))} fair={rng.choice((0, 1))}"
    return line + (f" rounds={rng.choice((0, 1, 3))}" if call.endswith("search") else "")


def main():
    if sys.argv[1:2] == ["cases"]:
        return hold(case_lines(": strict "))
    if sys.argv[1:2] == ["random"]:
        rng = random.Random(2)
        return hold([random_case(rng, k) for k in range(int(sys.argv[2]) if len(sys.argv) > 2 else 2000)])
    print(__doc__)
    return 2


sys.exit(1 if main() else 0)
