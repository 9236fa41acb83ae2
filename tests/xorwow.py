#!/usr/bin/env python3
"""Marsaglia's xorwow once more ("Xorshift RNGs", Journal of Statistical Software 8(14), 2003), written apart from the library:
a second program for the words of a key, and for a single draw from one. It runs target/bin/cases (tools/build cases).

xorwow.py words X,Y,Z,W,V,D [N]   prints N words of a key (default 5)
xorwow.py lines                   prints cases for crates/cases/stdin: words of keys at the edges
xorwow.py cases                   holds each key-words and key-draw case of crates/cases beside its own answer
xorwow.py random [N]              the same for N random keys (default 2000)"""
import random, sys

from case_lines import case_lines, run

MASK = 0xFFFFFFFF
MOST = 64
PUBLISHED = (123456789, 362436069, 521288629, 88675123, 5783321, 6615241)


class Xorwow:
    """Five words and a counter."""

    def __init__(self, numbers):
        self.x, self.y, self.z, self.w, self.v, self.d = numbers

    def word(self):
        t = self.x ^ (self.x >> 2)
        self.x, self.y, self.z, self.w = self.y, self.z, self.w, self.v
        self.v = (self.v ^ (self.v << 4) & MASK) ^ (t ^ (t << 1) & MASK)
        self.d = (self.d + 362437) & MASK
        return (self.d + self.v) & MASK

    def numbers(self):
        return (self.x, self.y, self.z, self.w, self.v, self.d)


def edges():
    """Keys at the edges: a bit set, all set, the counter about to wrap."""
    yield "the paper's", PUBLISHED
    for place, name in enumerate("xyzwv"):
        for bit in (0, 31):
            yield f"bit {bit} of {name}", tuple(1 << bit if k == place else 0 for k in range(6))
    ones = (MASK,) * 5
    for name, counter in (("0", 0), ("all bits", MASK), ("about to wrap", 2**32 - 362437), ("one before that", 2**32 - 362438), ("half", 2**31)):
        yield f"all bits, counter {name}", ones + (counter,)
        yield f"one bit, counter {name}", (0, 0, 1 << 16, 0, 0, counter)
    yield "every other bit", (0xAAAAAAAA, 0x55555555, 0xAAAAAAAA, 0x55555555, 0xAAAAAAAA, 0x55555555)
    yield "high halves", (0xFFFF0000,) * 5 + (0xFFFF,)
    yield "low halves", (0xFFFF,) * 5 + (0xFFFF0000,)


def expected(line):
    """What the program is to print for a case of a key alone."""
    name, rest = line.split(": ", 1)
    words = rest.split(" ")
    found = dict(w.split("=", 1) for w in words[1:])
    given = tuple(int(n) for n in found["key"].split(","))
    key = Xorwow(given)
    if words[0] == "key-words":
        return [name + "".join(f" {key.word()}" for _ in range(int(found["count"])))]
    among, fair, used, place = int(found["among"]), int(found.get("fair", 0)) != 0, 0, 0
    if among > 1:
        while True:
            if used == 4 * MOST:
                return [f"{name} 6 0 0", "".join(f" {n}" for n in given)]
            word, used = key.word(), used + 4
            if not fair or word < 2**32 - 2**32 % among:
                place = word % among
                break
    return [f"{name} 0 {place} {used}", "".join(f" {n}" for n in key.numbers())]


def hold(lines):
    """Compares cases with what is expected of them. Answers how many differ."""
    wrong, words = 0, 0
    for line, got in zip(lines, run(lines)):
        wanted = expected(line)
        words += int(line.split("count=")[1]) if "count=" in line else 0
        if got != wanted:
            wrong += 1
            print(f"differs: {line[:300]}\n  got      {got}\n  expected {wanted}")
    print(f"{len(lines)} cases of a key alone, {words} words: {wrong} differ")
    return wrong


def random_case(rng, k):
    key = ",".join(str(rng.choice((0, 1, MASK, rng.getrandbits(32), rng.getrandbits(32)))) for _ in range(6))
    if rng.random() < 0.5:
        return f"case {k}: key-words key={key} count={rng.randint(0, 40)}"
    among = rng.choice((0, 1, 2, 3, 65025, 2**31 + 1, 3 * 2**30, 2**32 - 1, 2**32, 2**32 + 1, rng.getrandbits(33)))
    return f"case {k}: key-draw key={key} among={among} fair={rng.choice((0, 1))}"


def main():
    if sys.argv[1:2] == ["words"]:
        key = Xorwow(tuple(int(n) for n in sys.argv[2].split(",")))
        print(*(key.word() for _ in range(int(sys.argv[3]) if len(sys.argv) > 3 else 5)))
        return 0
    if sys.argv[1:2] == ["lines"]:
        for name, numbers in edges():
            print(f"words, {name}: key-words key={','.join(map(str, numbers))} count=160")
        return 0
    if sys.argv[1:2] == ["cases"]:
        return hold(case_lines(": key-(words|draw) "))
    if sys.argv[1:2] == ["random"]:
        rng = random.Random(6)
        return hold([random_case(rng, k) for k in range(int(sys.argv[2]) if len(sys.argv) > 2 else 2000)])
    print(__doc__)
    return 2


if __name__ == "__main__":
    sys.exit(1 if main() else 0)
