#!/usr/bin/env python3
"""Compares program `draws` with a model of 02's 1/14: single draws, one after the other.

    tools/program draws && tools/load_model.py [COUNT] [SEED]

COUNT drawn pairs of a seed and a count (10,000), every pair of the ends of both ranges, and each of the first
65,536 values of the seeds 0 and 1. Of these two seeds and of the first hundred drawn ones each value is drawn by
itself; the other seeds' values follow from the two, a draw being a straight line in the last value. Prints how many
were compared, or the first answer that differs, and ends with 1."""
import collections
import os
import random
import subprocess
import sys

here = os.path.dirname(os.path.abspath(__file__))
SEEDS = [0, 1, 2, 2**31 - 1, 2**31, 2**32 - 2, 2**32 - 1]
COUNTS = [0, 1, 2, 3, 255, 256, 257, 32767, 32768, 65534, 65535]


def draw(last):
    return (last * 1664525 + 1013904223) % 2**32


def values(seed):
    """The seed, and its first 65,535 values."""
    out = [seed]
    for _ in range(65535):
        out.append(draw(out[-1]))
    return out


ZERO, ONE = values(0), values(1)


def value(seed, n):
    """n draws are a straight line in the seed, and two seeds settle it."""
    return (ZERO[n] + seed * (ONE[n] - ZERO[n])) % 2**32


def singly(seed, n):
    for _ in range(n):
        seed = draw(seed)
    return seed


def words(value):
    bits = format(value, "032b")
    return int(bits[1:4], 2) + 1 if bits[0] == "1" else 0


def answer(seed, n):
    after = value(seed, n)
    return "%08X %d %d" % (after, words(after), len(bin(n)) - 2 if n else 0)


def pairs(count, seed):
    rng = random.Random(seed)
    out = [(s, n) for s in SEEDS for n in COUNTS]
    out += [(rng.randrange(2**32), rng.randrange(rng.choice([65536, 65536, 256, 16]))) for _ in range(count)]
    for first in (0, 1):
        out += [(first, n) for n in range(1, 65536)] + [(draw(first), 65535)]
    return out


def main():
    count = int(sys.argv[1]) if len(sys.argv) > 1 else 10000
    seed = int(sys.argv[2]) if len(sys.argv) > 2 else 1
    asked = pairs(count, seed)
    given = "".join("%d %d\n" % pair for pair in asked).encode()
    said = subprocess.run([here + "/../target/bin/draws"], input=given, stdout=subprocess.PIPE, check=True).stdout.decode().splitlines()
    if len(said) != len(asked):
        sys.exit("%d pairs, %d answers" % (len(asked), len(said)))
    singles = asked[len(SEEDS) * len(COUNTS):][:min(count, 100)]
    for pair in singles:
        if value(*pair) != singly(*pair):
            sys.exit("seed %d, %d draws: the model disagrees with itself" % pair)
    for pair, line in zip(asked, said):
        if line != answer(*pair):
            sys.exit("seed %d, %d draws: the program says %s, the model %s" % (*pair, line, answer(*pair)))
    for last, line in zip((0, 1), (said[-2 * 65536:-65536], said[-65536:])):
        counts = [int(l.split(" ")[1]) for l in line]
        print("seed %d: of 65536 draws %d send %d words" % (last, sum(1 for c in counts if c), sum(counts)))
    rounds = collections.Counter(int(l.split(" ")[2]) for l in said)
    print("%d answers compared, %d of them drawn with seed %d, %d to %d rounds: no difference" % (len(said), count, seed, min(rounds), max(rounds)))


main()
