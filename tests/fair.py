#!/usr/bin/env python3
"""Random rounds and searches once more (docs/RULES.md, 4, 5 and 8) in both modes of the draws, by lent bytes and by a key, a second program
beside the library, by the rules as oracle/replays.py has them and the words of tests/xorwow.py. It runs target/bin/cases (tools/build cases).

fair.py cases         holds each random and keyed case of crates/cases, but the strict ones, beside its own answer
fair.py random [N]    the same for N random cases (default 2000): boards up to 5 by 6, bytes of which many are FF, or keys, both modes
fair.py widths CASE   says for a case, a line as in crates/cases/stdin, among how many each draw is and which words are spent"""
import os, random, sys

from case_lines import ROOT, board_of, case_lines, printed, run, values
from xorwow import MASK, MOST, Xorwow

sys.path.append(os.path.join(ROOT, "oracle"))
import replays as rules

SHAPE, BOARD, WORK, TRACE, ROUNDS, DRAWS, KEY = 1, 2, 3, 4, 5, 6, 12


class Dry(Exception):
    """A word is needed and none is left, or 64 of a key are spent."""


class Bytes:
    """Lent bytes, read from the first on."""

    def __init__(self, data):
        self.data, self.used = data, 0

    def word(self, spent):
        four = self.data[self.used:self.used + 4]
        if len(four) < 4:
            raise Dry
        self.used += 4
        return sum(byte << 8 * k for k, byte in enumerate(four))


class Words:
    """The words of a key, from the first on."""

    def __init__(self, numbers):
        self.key, self.used = Xorwow(numbers), 0

    def word(self, spent):
        if len(spent) == MOST:
            raise Dry
        self.used += 4
        return self.key.word()


class Draws:
    """Draws by bytes or by words."""

    def __init__(self, origin, fair):
        self.origin, self.fair, self.told = origin, fair, []

    def among(self, n):
        if n == 1:
            return 0
        spent = []
        while True:
            try:
                word = self.origin.word(spent)
            except Dry:
                self.told.append((n, spent, None))
                raise
            if not self.fair or word < 2**32 - 2**32 % n:
                self.told.append((n, spent, word))
                return word % n
            spent.append(word)


def step(game, draws):
    """The words of a step that is drawn."""
    five = game.numbers()
    safe = [i for i in game.cells if not game.mine[i]]
    best = max(five[5 * i + 2] for i in safe)
    if best < 0:
        units = [i for i in safe if game.state[i] == rules.CLOSED and (game.number[i] == 0 or five[5 * i] == 0)]
        return [rules.LEFT * 65536 + units[draws.among(len(units))]]
    tops = [i for i in safe if five[5 * i + 2] == best]
    i = tops[draws.among(len(tops))]
    near = sorted(game.square[i], key=lambda j: (j % game.rows, j // game.rows))
    flags = [rules.FLAG * 65536 + j for j in near if game.mine[j] and game.state[j] != rules.FLAGGED]
    return [rules.LEFT * 65536 + i] * (game.state[i] == rules.CLOSED) + flags + [rules.CHORD * 65536 + i]


def play(rows, columns, board, draws):
    """A round: its words, and the game at its end."""
    game, words = rules.Game(rows, columns, board), []
    while game.closed:
        for word in step(game, draws):
            assert game.is_legal(word)
            game.play(word)
            words.append(word)
    return words, game


class Case:
    """A random case by its fields."""

    def __init__(self, line):
        self.name, rest = line.split(": ", 1)
        words = rest.split(" ")
        self.call, found = words[0], dict(w.split("=", 1) for w in words[1:])
        self.rows, self.columns = int(found["rows"]), int(found["columns"])
        self.rounds, self.fair = int(found.get("rounds", 0)), int(found.get("fair", 0)) != 0
        self.board = board_of(found)
        self.work, self.list = (values(found.get(f, ""), "numbers") for f in ("work", "list"))
        self.keyed, self.search = self.call.startswith("keyed"), self.call.endswith("search")
        self.key = (values(found.get("key", ""), "numbers") + [0] * 6)[:6]
        self.draws = Draws(Words(self.key) if self.keyed else Bytes(values(found.get("draws", ""), "bytes")), self.fair)

    def refusal(self):
        cells, search, most = self.rows * self.columns, self.search, 1000000 if self.keyed else 2**64
        checks = ((SHAPE, 1 <= self.rows <= 255 and 1 <= self.columns <= 255), (BOARD, len(self.board) == cells), (WORK, 5 * cells <= len(self.work)),
                  (TRACE, search or cells <= len(self.list)), (ROUNDS, not search or 0 < self.rounds <= most),
                  (KEY, not self.keyed or any(self.key[:5])))
        return next((number for number, passes in checks if not passes), 0)

    def outcome(self):
        """The answer, the key, the list and the work area then."""
        number, cells = self.refusal(), self.rows * self.columns
        if number:
            return (number, 0, 0), self.key, self.list, self.work
        try:
            least, rounds, before = None, max(self.rounds, 1), None
            while rounds and before != self.draws.origin.used:
                before = self.draws.origin.used
                words, game = play(self.rows, self.columns, self.board, self.draws)
                least, rounds = min(least or len(words), len(words)), rounds - 1
        except Dry:
            cleared = self.list if self.search else [0] * cells + self.list[cells:]
            return (DRAWS, 0, 0), self.key, cleared, [0] * (5 * cells) + self.work[5 * cells:]
        listed = self.list if self.search else words + self.list[len(words):]
        after = self.draws.origin.key.numbers() if self.keyed else self.key
        return (0, least, self.draws.origin.used), after, listed, game.numbers() + self.work[5 * cells:]


def expected(line):
    """What the program is to print for a case."""
    case = Case(line)
    answer, key, words, work = case.outcome()
    told = [case.name + "".join(f" {n}" for n in answer)] + (["".join(f" {n}" for n in key)] if case.keyed else [])
    return told + ([printed(words, True)] if words else []) + [printed(work)], case


def hold(lines):
    """Compares random cases with what is expected of them. Answers how many differ."""
    wrong, fair, keyed, spent, dry = 0, 0, 0, 0, 0
    for line, got in zip(lines, run(lines)):
        wanted, case = expected(line)
        words = sum(len(s) for _, s, _ in case.draws.told)
        fair, keyed, spent, dry = fair + case.fair, keyed + case.keyed, spent + (words > 0), dry + (words > 0 and case.draws.told[-1][2] is None)
        if got != wanted:
            wrong += 1
            print(f"differs: {line[:300]}\n  got      {got}\n  expected {wanted}")
    print(f"{len(lines)} cases, {fair} of them fair, {keyed} keyed; in {spent} a word was spent, {dry} of these ran dry: {wrong} differ")
    return wrong


def random_case(rng, k):
    rows, columns = rng.randint(1, 5), rng.randint(1, 6)
    cells = rows * columns
    density = rng.choice((0, 0.1, 0.25, 0.5))
    board = [-1 if rng.random() < density else rng.choice((0, 5)) for _ in range(cells)]
    call = rng.choice(("random-round", "random-search", "keyed-round", "keyed-search"))
    line = f"case {k}: {call} rows={rows} columns={columns} board={','.join(map(str, board))} work=7x{5 * cells + rng.choice((-1, 0, 0, 0, 3))}"
    if call.endswith("round"):
        line += f" list=4294967295x{cells + rng.choice((-1, 0, 0, 0, 2))}"
    word = lambda: rng.choice(("FFFFFFFF", "FEFFFFFF", "FCFFFFFF", "FBFFFFFF", "%08X" % rng.getrandbits(32), "%08X" % rng.getrandbits(32)))
    number = lambda: rng.choice((0, 0, 0, 1, MASK, rng.getrandbits(32)))
    if call.startswith("keyed"):
        line += f" key={','.join(str(number()) for _ in range(6))}"
    else:
        line += f" draws={''.join(word() for _ in range(rng.choice((1, 4, 16, 40))))}{rng.choice(('', '', 'FF', 'FFFFFF'))}"
    line += f" fair={rng.choice((0, 1, 1, 255))}"
    many = (0, 1, 2, 3, 1000001, 18446744073709551615) if call.startswith("keyed") else (0, 1, 2, 3, 18446744073709551615)
    return line + (f" rounds={rng.choice(many)}" if call.endswith("search") else "")


def main():
    if sys.argv[1:2] == ["cases"]:
        return hold(case_lines(": (random|keyed)-(round|search) "))
    if sys.argv[1:2] == ["random"]:
        rng = random.Random(3)
        return hold([random_case(rng, k) for k in range(int(sys.argv[2]) if len(sys.argv) > 2 else 2000)])
    if sys.argv[1:2] == ["widths"]:
        wanted, case = expected(sys.argv[2])
        print("\n".join(wanted))
        for n, spent, word in case.draws.told:
            print(f"among {n}: spent {['%08X' % w for w in spent]}, {'dry' if word is None else 'took %08X' % word}")
        return 0
    print(__doc__)
    return 2


sys.exit(1 if main() else 0)
