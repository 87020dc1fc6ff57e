#!/usr/bin/env python3
"""Compares program `uplink_grants` with a model of 02's 11/14, written from the paper.

    tools/program uplink_grants && tools/uplink_model.py [COUNT] [SEED]

COUNT drawn steps (100,000): 1 to 8 divisions and every turn, A and wants of every size up to 65,535, steps that follow each
other by the turn that was answered, and one in sixteen refused. Each answer is also held to what is promised of it. Prints
how many were compared, or the first answer that differs, and ends with 1."""
import collections
import os
import random
import subprocess
import sys

here = os.path.dirname(os.path.abspath(__file__))
MOST = 65535


def grants(a, turn, wants):
    """The first shares; then a queue of divisions from the turn on, of which the first takes until it is served or nothing is left."""
    given = [min(want, a // len(wants)) for want in wants]
    left = a - sum(given)
    queue = collections.deque(range(len(wants)))
    queue.rotate(-turn)
    while left and queue:
        first = queue.popleft()
        words = min(left, wants[first] - given[first])
        given[first] += words
        left -= words
    return given


def answer(a, turn, wants):
    if len(wants) not in range(1, 9) or turn not in range(len(wants)):
        return "refused 18"
    return " ".join(map(str, grants(a, turn, wants) + [[*range(1, len(wants)), 0][turn]]))


def figure(rng):
    return rng.choice([rng.randrange(MOST + 1), rng.randrange(2048), rng.randrange(16), 0, 1, MOST, 8191, 8192, rng.randrange(MOST + 1)])


def steps(count, seed):
    rng = random.Random(seed)
    out, turn, n = [], 0, 8
    for _ in range(count):
        if rng.randrange(16) == 0:
            n, turn = rng.randrange(1, 9), rng.choice([0, 0, turn])
            turn %= n
        wants = [figure(rng) for _ in range(n)]
        kind = rng.randrange(48)
        if kind == 0:
            out.append((figure(rng), turn, []))
        elif kind == 1:
            out.append((figure(rng), turn, wants + [figure(rng) for _ in range(rng.randrange(9 - n, 20))]))
        elif kind == 2:
            out.append((figure(rng), rng.choice([n, n + 1, 8, MOST, rng.randrange(n, MOST + 1)]), wants))
        else:
            total = sum(wants)
            near = total + rng.randrange(-9, 10)
            a = near if 0 <= near <= MOST and rng.randrange(4) == 0 else figure(rng)
            out.append((a, turn, wants))
            turn = (turn + 1) % n
    return out


def kept(step, line):
    """What is promised of every answer that is not refused."""
    a, turn, wants = step
    *given, after = map(int, line.split(" "))
    n = len(wants)
    return (len(given) == n and sum(given) == min(a, sum(wants)) and after == (turn + 1) % n
            and all(min(w, a // n) <= g <= w for g, w in zip(given, wants)))


def main():
    count = int(sys.argv[1]) if len(sys.argv) > 1 else 100000
    seed = int(sys.argv[2]) if len(sys.argv) > 2 else 1
    asked = steps(count, seed)
    given = "".join(" ".join(map(str, [a, turn, *wants])) + "\n" for a, turn, wants in asked).encode()
    said = subprocess.run([here + "/../target/bin/uplink_grants"], input=given, stdout=subprocess.PIPE, check=True).stdout.decode().splitlines()
    if len(said) != len(asked):
        sys.exit("%d steps, %d answers" % (len(asked), len(said)))
    for step, line in zip(asked, said):
        if line != answer(*step):
            sys.exit("A %d, turn %d, wants %s: the program says %s, the model %s" % (*step, line, answer(*step)))
        if line != "refused 18" and not kept(step, line):
            sys.exit("A %d, turn %d, wants %s: %s breaks a promise" % (*step, line))
    refused = said.count("refused 18")
    short = sum(1 for (a, _, wants), line in zip(asked, said) if line != "refused 18" and a < sum(wants))
    print("%d answers compared, drawn with seed %d: %d refused, %d with less than all wants: no difference" % (len(said), seed, refused, short))


main()
