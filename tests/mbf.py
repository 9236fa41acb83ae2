#!/usr/bin/env python3
"""MBF files once more (docs/RULES.md, 13), a second program beside the library.

mbf.py cases            holds what crates/cases/stdout has of each read-mbf and write-mbf case beside its own answer
mbf.py programs [N]     runs N random inputs (default 400), some damaged, through target/bin/mbf_to_line and line_to_mbf,
                        cut at random places, and holds what they write beside its own"""
import os, random, re, subprocess, sys

ROOT = os.path.join(os.path.dirname(os.path.abspath(__file__)), "..")


def file_refusal(file, small):
    """The refusal of a file, 0 for none: of one that is to be a line where small."""
    if len(file) < 2:
        return 10
    columns, rows = file[0], file[1]
    if rows == 0 or columns == 0:
        return 1
    if small and rows * columns > 2048:
        return 9
    if len(file) < 4 or len(file) != 4 + 2 * (256 * file[2] + file[3]):
        return 10
    mines = list(zip(file[5::2], file[4::2]))
    outside = any(row >= rows or column >= columns for row, column in mines)
    return 10 if outside or len(set(mines)) != len(mines) else 0


def read(file, grid):
    refusal = file_refusal(file, False)
    if refusal:
        return refusal, 0, 0, grid
    columns, rows = file[0], file[1]
    if len(grid) < rows * columns:
        return 2, 0, 0, grid
    mines = set(zip(file[5::2], file[4::2]))
    values = []
    for row in range(rows):
        for column in range(columns):
            near = sum((row + y, column + x) in mines for y in (-1, 0, 1) for x in (-1, 0, 1))
            values.append(-1 if (row, column) in mines else near)
    return 0, rows, columns, values + grid[rows * columns:]


def file_of(rows, columns, grid):
    mines = [(column, row) for column in range(columns) for row in range(rows) if grid[row * columns + column] == -1]
    return [columns, rows, len(mines) // 256, len(mines) % 256] + [byte for mine in mines for byte in mine]


def write(rows, columns, grid, run):
    if not (1 <= rows <= 255 and 1 <= columns <= 255):
        return 1, 0, run
    if len(grid) != rows * columns:
        return 2, 0, run
    file = file_of(rows, columns, grid)
    return (2, 0, run) if len(run) < len(file) else (0, len(file), file + run[len(file):])


# ---- the cases


def repeated(text, part):
    """A run of a case: what its pattern gives, over and over up to its length."""
    pattern, _, length = text.partition("x")
    values = part(pattern)
    count = int(length) if length else len(values)
    return [values[k % len(values)] if values else 0 for k in range(count)]


def values_of(pattern):
    if pattern[:1] in ("*", "."):
        return [-1 if c == "*" else 0 for c in pattern]
    return [int(v) for v in pattern.split(",") if v]


def bytes_of(pattern):
    return [int(pattern[k:k + 2], 16) for k in range(0, len(pattern) - 1, 2)]


def shown(run):
    if len(run) <= 255:
        return "".join(" %d" % v for v in run)
    total = sums = 0
    for v in run:
        total += max(v, 0)
        sums += total
    return " %d %d" % (total % 2**64, sums % 2**64)


def listed(fields):
    rows, columns, mines, again = (int(fields.get(n, 0)) for n in ("rows", "columns", "mines", "again"))
    cells = list(range(mines)) + [mines - 1] * again
    head = [columns, rows, len(cells) // 256, len(cells) % 256]
    return head + [byte for cell in cells for byte in (cell // rows, cell % rows)]


def answer(call, fields):
    board = repeated(fields["board"], values_of)
    if call == "read-mbf":
        file = listed(fields) if "mines" in fields else repeated(fields["file"], bytes_of)
        number, rows, columns, run = read(file, board)
        return "%d %d %d" % (number, rows, columns), shown(run)
    number, count, run = write(int(fields["rows"]), int(fields["columns"]), board, repeated(fields["file"], bytes_of))
    return "%d %d 0" % (number, count), shown(run)


def cases():
    printed = open(os.path.join(ROOT, "crates/cases/stdout")).read().split("\n")
    count = wrong = at = 0
    for line in open(os.path.join(ROOT, "crates/cases/stdin")):
        found = re.match(r"(.*?): ((?:read|write)-mbf) (.*)", line.rstrip("\n"))
        if not found:
            continue
        name, call, rest = found.groups()
        told, run = answer(call, dict(f.split("=", 1) for f in rest.split(" ")))
        at = next(k for k in range(at, len(printed)) if printed[k].startswith(name + " "))
        if printed[at] != name + " " + told or printed[at + 1] != run:
            wrong += 1
            print("differs: " + name)
        at += 1
        count += 1
    print("%d cases, %d differ" % (count, wrong))
    return wrong


# ---- the programs


def line_of(rows, columns, grid):
    bits = "".join("1" if v == -1 else "0" for v in grid)
    bits += "0" * (-len(bits) % 8)
    head = "%02X%02X" % (rows, columns)
    return head + "".join("%02X" % int(bits[k:k + 8], 2) for k in range(0, len(bits), 8))


def file_line(file):
    refusal = file_refusal(file, True)
    if refusal:
        return b"%02X\n" % refusal
    number, rows, columns, grid = read(file, [0] * 2048)
    return (line_of(rows, columns, grid[:rows * columns]) + "\n").encode()


def line_refusal(line):
    if re.search(rb"[^0-9A-F]", line) or len(line) % 2 or not 4 <= len(line) <= 516:
        return 8
    data = bytes.fromhex(line.decode())
    if data[0] == 0 or data[1] == 0:
        return 1
    cells = data[0] * data[1]
    if cells > 2048:
        return 9
    count = (cells + 7) // 8
    return 8 if len(data) != 2 + count or data[-1] % 2**(8 * count - cells) else 0


def line_file(text):
    line = text.split(b"\n")[0]
    refusal = line_refusal(line)
    if refusal:
        return b"%02X\n" % refusal
    data = bytes.fromhex(line.decode())
    bits = "".join(format(byte, "08b") for byte in data[2:])
    return bytes(file_of(data[0], data[1], [-1 if b == "1" else 0 for b in bits[:data[0] * data[1]]]))


def written(program, text, rng):
    """What a program writes for an input that is handed to it in pieces."""
    run = subprocess.Popen([os.path.join(ROOT, "target/bin", program)], stdin=subprocess.PIPE, stdout=subprocess.PIPE)
    at = 0
    try:
        while at < len(text):
            end = at + rng.choice((1, 7, 100, 512, 513, 5000))
            run.stdin.write(text[at:end])
            run.stdin.flush()
            at = end
        run.stdin.close()
    except BrokenPipeError:
        pass
    told = run.stdout.read()
    run.wait()
    return told


def damaged(data, rng):
    data = bytearray(data)
    for _ in range(rng.choice((0, 0, 0, 1, 2))):
        kind = rng.randrange(4)
        at = rng.randrange(len(data) + 1)
        if kind == 0:
            data[at:at] = bytes([rng.randrange(256)])
        elif kind == 1 and data:
            del data[at:at + 1]
        elif kind == 2 and at < len(data):
            data[at] = rng.choice((0, 1, 10, 255, data[at] ^ 1))
        else:
            data += data[4:6]
    return bytes(data)


def programs(count):
    rng = random.Random(1)
    wrong = 0
    for _ in range(count):
        rows, columns = rng.choice(((rng.randint(1, 9), rng.randint(1, 9)), (32, 64), (rng.randint(1, 45), rng.randint(1, 45)), (255, 9)))
        grid = [-1 if rng.random() < rng.choice((0.1, 0.5, 1.0)) else 0 for _ in range(rows * columns)]
        mines = file_of(rows, columns, grid)[4:]
        pairs = [mines[k:k + 2] for k in range(0, len(mines), 2)]
        rng.shuffle(pairs)
        file = damaged(bytes(file_of(rows, columns, grid)[:4] + [byte for pair in pairs for byte in pair]), rng)
        text = damaged(line_of(rows, columns, grid).encode() + rng.choice((b"", b"\n", b"\n010100\n")), rng)
        for program, data, want in (("mbf_to_line", file, file_line(list(file))), ("line_to_mbf", text, line_file(text))):
            got = written(program, data, rng)
            if got != want:
                wrong += 1
                print("differs: %s on %s: %r, not %r" % (program, data[:40].hex(), got[:40], want[:40]))
    print("%d inputs of each program, %d answers differ" % (count, wrong))
    return wrong


if __name__ == "__main__":
    if sys.argv[1:] == ["cases"]:
        sys.exit(cases() != 0)
    if sys.argv[1:2] == ["programs"]:
        sys.exit(programs(int((sys.argv[2:] or ["400"])[0])) != 0)
    print(__doc__)
    sys.exit(2)
