"""What tests/strict.py and tests/fair.py share: runs as the cases of crates/cases write and print them, and the program that runs cases."""
import os, re, subprocess

ROOT = os.path.join(os.path.dirname(os.path.abspath(__file__)), "..")


def values(run, kind):
    """The numbers of a run: a pattern, or a pattern, x and a length."""
    pattern, x, length = run.partition("x")
    if kind == "bytes":
        parts = [int(pattern[i:i + 2], 16) for i in range(0, len(pattern) // 2 * 2, 2)]
    elif pattern[:1] in ("*", "."):
        parts = [-1 if c == "*" else 0 for c in pattern]
    else:
        parts = [65536 * " LFCU".index(p[0]) + int(p[1:]) if p[0] in "LFCU" else int(p) for p in pattern.split(",") if p]
    count = int(length) if x else len(parts)
    return [parts[k % len(parts)] for k in range(count)] if parts else []


def board_of(found):
    """A case's board, by its fields."""
    board = values(found.get("board", ""), "numbers")
    if "last" in found and board:
        board[-1] = int(found["last"])
    return board


def printed(numbers, words=False):
    """A run as the program prints it: whole, or the two sums of more than 255."""
    if len(numbers) > 255:
        total, sums = 0, 0
        for n in numbers:
            total += n if words else max(n, 0)
            sums += total
        return f" {total % 2**64} {sums % 2**64}"
    return "".join(f" {n // 65536} {n % 65536}" if words else f" {n}" for n in numbers)


def run(lines):
    """What target/bin/cases prints for each line, one after the other."""
    cases = os.path.join(ROOT, "target", "bin", "cases")
    text = "".join(f"#{k}\n{line}\n" for k, line in enumerate(lines))
    out = subprocess.run([cases], input=text.encode(), stdout=subprocess.PIPE, check=True).stdout.decode()
    return [part.split("\n")[1:-1] for part in re.split(r"^#", out, flags=re.M)[1:]]


def case_lines(pattern):
    """The lines of crates/cases/stdin in which a pattern is found, comments left out."""
    with open(os.path.join(ROOT, "crates", "cases", "stdin")) as f:
        return [line for line in f.read().split("\n") if re.search(pattern, line) and not line.startswith("#")]
