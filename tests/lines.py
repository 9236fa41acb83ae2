"""The lines and prices of docs/RULES.md in Python, written from the rules alone: what the trials' output is compared with.

    python3 tests/lines.py price < BOARDS > PRICES    what the board reader prints for an input
    python3 tests/lines.py make > crates/line_trials/stdin
    python3 tests/lines.py trials < crates/line_trials/stdin > crates/line_trials/stdout
    python3 tests/lines.py blocks > crates/board_reader/stdin
    python3 tests/lines.py price < crates/board_reader/stdin > crates/board_reader/stdout

For a wrong byte count a stored move line is FRAME before SHAPE is looked at, a board line after it (RULES 9.2 and 9.4).
The smallest line that shows it is 000100."""
import random
import sys

SHAPE, TRACE, FRAME, SIZE = 1, 4, 8, 9
DIGITS = b"0123456789ABCDEF"


# ---- the game


class Board:
    """A grid by its mines; a cell is its index, column x rows + row."""

    def __init__(self, rows, columns, mines):
        self.rows, self.columns, self.mines = rows, columns, mines
        cells = range(rows * columns)
        self.safe = [i for i in cells if i not in mines]
        self.square = [self.square_of(i) for i in cells]
        self.number = [sum(j in mines for j in self.square[i]) for i in cells]
        self.openings = self.find_openings()
        self.labels = [[] for _ in cells]
        for k, (_, border) in enumerate(self.openings):
            for i in border:
                self.labels[i].append(k)

    def square_of(self, i):
        row, column = i % self.rows, i // self.rows
        return [
            c * self.rows + r
            for r in range(max(0, row - 1), min(self.rows, row + 2))
            for c in range(max(0, column - 1), min(self.columns, column + 2))
        ]

    def zero(self, i):
        return i not in self.mines and self.number[i] == 0

    def find_openings(self):
        """Each opening by its 0-cells and all its cells, in the order of the lowest 0-cell."""
        found, seen = [], set()
        for i in self.safe:
            if not self.zero(i) or i in seen:
                continue
            zeros, waiting = {i}, [i]
            while waiting:
                for j in self.square[waiting.pop()]:
                    if self.zero(j) and j not in zeros:
                        zeros.add(j)
                        waiting.append(j)
            seen |= zeros
            found.append((zeros, {j for z in zeros for j in self.square[z]}))
        return found

    def three_bv(self):
        return len(self.openings) + sum(not self.labels[i] for i in self.safe)


class Round:
    """A round on a board: what is opened, what is flagged, and the clicks."""

    def __init__(self, board):
        self.board, self.clicks = board, 0
        self.opened, self.flagged = set(), set()
        self.premium = {i: self.premium_of(i) for i in board.safe}

    def premium_of(self, i):
        b = self.board
        units = sum(j not in b.mines and not b.labels[j] and j not in self.opened for j in b.square[i])
        units += sum(not b.openings[k][0] & self.opened for k in b.labels[i])
        mines = sum(j in b.mines and j not in self.flagged for j in b.square[i])
        return units - mines - 1 - (i not in self.opened)

    def changed(self, cells):
        b = self.board
        near = {j for i in cells for j in b.square[i]}
        for k in {k for i in cells if b.zero(i) for k in b.labels[i]}:
            near |= b.openings[k][1]
        for i in near - b.mines:
            self.premium[i] = self.premium_of(i)

    def open(self, i):
        b = self.board
        cells = b.openings[b.labels[i][0]][1] if b.zero(i) else {i}
        self.opened |= cells
        self.changed(cells)

    def left(self, i):
        self.clicks += 1
        self.open(i)

    def step(self, opened_only):
        b = self.board
        among = [i for i in b.safe if i in self.opened or not opened_only]
        best = max(among, key=lambda i: (self.premium[i], -i), default=None)
        if best is None or self.premium[best] < 0:
            self.left(next(i for i in b.safe if i not in self.opened and (b.number[i] == 0 or not b.labels[i])))
            return
        if best not in self.opened:
            self.left(best)
        for j in b.square[best]:
            if j in b.mines and j not in self.flagged:
                self.clicks += 1
                self.flagged.add(j)
                self.changed([j])
        self.clicks += 1
        for j in b.square[best]:
            if j not in b.mines and j not in self.opened:
                self.open(j)

    def play(self, openings_first):
        b = self.board
        if openings_first:
            for i in b.safe:
                if b.zero(i) and i not in self.opened:
                    self.left(i)
        while len(self.opened) < len(b.safe):
            self.step(openings_first)
        return self.clicks


# ---- lines


def read_bytes(line):
    """The bytes of a line's digits; None for a wrong character or odd digits."""
    if any(b not in DIGITS for b in line) or len(line) % 2 == 1:
        return None
    return bytes.fromhex(line.decode())


def price(line):
    """A board line's number, 3BV, greedy and openings-first clicks."""
    data = read_bytes(line)
    if data is None or len(line) < 4 or len(line) > 516:
        return FRAME, 0, 0, 0
    rows, columns = data[0], data[1]
    if rows == 0 or columns == 0:
        return SHAPE, 0, 0, 0
    cells = rows * columns
    if cells > 2048:
        return SIZE, 0, 0, 0
    bits = "".join(f"{b:08b}" for b in data[2:])
    if len(data) != 2 + -(-cells // 8) or "1" in bits[cells:]:
        return FRAME, 0, 0, 0
    mines = {k % columns * rows + k // columns for k in range(cells) if bits[k] == "1"}
    board = Board(rows, columns, mines)
    return 0, board.three_bv(), Round(board).play(False), Round(board).play(True)


def lines_of(text):
    """The last line feed may be missing; an empty line is a line; empty input has none."""
    lines = text.split(b"\n")
    return lines if lines[-1] else lines[:-1]


def priced(text):
    return b"".join(b"%02X%04X%04X%04X\n" % price(line) for line in lines_of(text))


# ---- stored move lines


def read_moves(line, room):
    """0, rows, columns and the moves of a stored line, or the refusal."""
    data = read_bytes(line)
    if data is None or len(line) < 4 or len(line) % 8 != 4:
        return FRAME, 0, 0, []
    if data[0] == 0 or data[1] == 0:
        return SHAPE, 0, 0, []
    moves = [int.from_bytes(data[k : k + 4], "big") for k in range(2, len(data), 4)]
    if room < len(moves):
        return TRACE, 0, 0, []
    return 0, data[0], data[1], moves


def write_moves(rows, columns, moves, count, room):
    """0 and the line of the first moves, or the refusal."""
    if not 1 <= rows <= 255 or not 1 <= columns <= 255:
        return SHAPE, b""
    if len(moves) < count or room < 4 + 8 * count:
        return TRACE, b""
    return 0, b"%02X%02X" % (rows, columns) + b"".join(b"%08X" % w for w in moves[:count])


# ---- the trials


def board_line(rows, columns, mines):
    cells = rows * columns
    size = -(-cells // 8)
    bits = "".join("1" if k in mines else "0" for k in range(cells)).ljust(8 * size, "0")
    return b"%02X%02X" % (rows, columns) + bytes(int(bits[k : k + 8], 2) for k in range(0, len(bits), 8)).hex().upper().encode()


def random_line(rows, columns, mines):
    return board_line(rows, columns, set(random.sample(range(rows * columns), mines)))


def make():
    """Bad input of every sort."""
    random.seed(1)
    lines = []
    short = b"010100"
    for place in range(len(short)):
        for value in range(256):
            lines.append(short[:place] + bytes([value]) + short[place + 1 :])
    whole = b"08080000000000000001"
    lines += [whole[:n] for n in range(len(whole) + 1)]
    lines += [b"", b"", b"010100", b"", b"010100\r", b"\xef\xbb\xbf010100", b"0101ff", b"01 01 00"]
    for first in (0, 1, 255):
        for second in (0, 1, 255):
            sides = b"%02X%02X" % (first, second)
            lines += [sides, sides + b"00", sides + b"00" * 32, sides + b"00" * 31 + b"01"]
    for rows, columns in ((32, 64), (16, 128), (128, 16)):
        for mines in (0, 300, 2048):
            lines.append(random_line(rows, columns, mines))
        lines.append(board_line(rows, columns, set()) + b"00")
        lines.append(board_line(rows, columns, set())[:-2])
    lines += [b"2932", b"2932" + b"00" * 256, b"2932" + b"00" * 257, b"2950" + b"00" * 255, b"2931" + b"00" * 252]
    lines += [b"030308%02X" % (1 << k) for k in range(8)]
    lines += [b"0" * n for n in (515, 516, 517, 518, 519, 5000)] + [b"FF" * 258, b"F" * 517]
    for _ in range(40):
        rows, columns = random.randint(1, 16), random.randint(1, 16)
        lines.append(random_line(rows, columns, random.randint(0, rows * columns // 2)))
    lines.append(random_line(16, 30, 99))
    lines.append(b"020280")
    sys.stdout.buffer.write(b"\n".join(lines))


BLOCK = 4096  # bytes that the board reader asks for at a time


def sized_line(size):
    """A board line of so many digits, an even number from 6 to 516."""
    cells = 4 * (size - 4)
    rows = next(r for r in range(min(255, cells), 0, -1) if cells % r == 0 and cells // r <= 255 and r * r <= cells)
    return random_line(rows, cells // rows, cells // 6)


def fill_to(text, left):
    """Board lines added until so many bytes are left of a block."""
    while True:
        room = (left_of(text) - left) % BLOCK
        if room == 0:
            return text
        sizes = [s for s in range(6, 129, 2) if room - s - 1 in (0, 7, 9, 11, 13) or room - s - 1 >= 14]
        text += sized_line(random.choice(sizes)) + b"\n"


def left_of(text):
    return BLOCK - len(text) % BLOCK


def blocks():
    """Board lines over ten blocks, cut in a digit pair, before a line feed, after one, and in a line of several blocks; the last line feed is missing."""
    random.seed(2)
    text = fill_to(b"", 33) + sized_line(66) + b"\n"  # cut in a digit pair
    text = fill_to(text, 120) + sized_line(120) + b"\n"  # cut before a line feed
    text = fill_to(text, 61) + sized_line(60) + b"\n"  # cut after a line feed
    text = fill_to(text, 2) + sized_line(516) + b"\n"  # cut after its rows
    text = fill_to(text, 514) + sized_line(516) + b"\n"  # cut before its last byte
    text = fill_to(text, 100) + b"0" * (2 * BLOCK + 200) + b"\n"  # a line of several blocks
    text += b"\n" + b"020201\n" + b"03030800\n"
    text = fill_to(text, 1) + b"\n" + sized_line(62)
    sys.stdout.buffer.write(text)


def check_sum(text):
    """Each byte and those before it: 31 times the sum so far, and the byte, in 64 bits."""
    total = 0
    for b in text:
        total = (31 * total + b) % 2**64
    return total


P7 = b"0202000100010002000000030001"
BOTH = b"000100"  # no rows and a wrong byte count: a board line tells SHAPE, a stored line FRAME


def moves_trials():
    """What the stored lines come to."""
    assert price(BOTH)[0] == SHAPE and read_moves(BOTH, 4)[0] == FRAME
    out = []

    def told(numbers, after=""):
        out.append("".join(f" {n}" for n in numbers) + after)

    def read(line, room):
        number, rows, columns, moves = read_moves(line, room)
        left = moves + [9] * (room - len(moves))
        told([number, rows, columns, len(moves)] + [part for w in left for part in divmod(w, 65536)])

    for n in range(len(P7) + 1):
        read(P7[:n], 4)
    for room in (2, 3):
        read(P7, room)
    for line in (b"0002", b"0200", b"00FF00010001", b"FFFF", b"FFFFFFFFFFFF00000000", b"0101\n", b"010100000a00", BOTH):
        read(line, 4)
    moves = [65537, 131072, 196609, 4294967295]
    for rows, columns, count, room in (
        (2, 2, 3, 28), (2, 2, 3, 27), (2, 2, 3, 30), (255, 255, 4, 36), (2, 2, 5, 100), (0, 2, 3, 28), (2, 0, 3, 28),
        (256, 2, 3, 28), (2, 256, 3, 28), (1, 1, 0, 4), (1, 1, 0, 3), (1, 1, 18446744073709551615, 40),
    ):
        number, line = write_moves(rows, columns, moves, count, room)
        told([number, len(line)], " " + (line + b"." * (room - len(line))).decode())
    base = b"020200010001"
    for place in range(len(base)):
        numbers = [0] * 10
        for value in range(256):
            numbers[read_moves(base[:place] + bytes([value]) + base[place + 1 :], 4)[0]] += 1
        told([numbers[0], numbers[SHAPE], numbers[FRAME]])
    return "\n".join(out).encode() + b"\n"


def trials(text):
    """What line_trials prints: the answers, a sum of them for each size of block, then the stored lines."""
    prices = priced(text)
    sums = b"".join(b" %d %d %d\n" % (size, len(prices), check_sum(prices)) for size in (1, 2, 7, 15, 517, 4096))
    return prices + sums + moves_trials()


def main():
    words = sys.argv[1:]
    if words == ["make"]:
        make()
    elif words == ["blocks"]:
        blocks()
    elif words == ["price"]:
        sys.stdout.buffer.write(priced(sys.stdin.buffer.read()))
    elif words == ["trials"]:
        sys.stdout.buffer.write(trials(sys.stdin.buffer.read()))
    else:
        print(__doc__, file=sys.stderr)
        sys.exit(2)


if __name__ == "__main__":
    main()
