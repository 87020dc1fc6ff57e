#!/usr/bin/env python3
"""Compares `arrivals` with the Rust on random numbers near the highest, over many turns.

    tools/program arrivals && ZMIDI_NET_SOURCE=FOLDER tools/compare_arrivals.py [COUNT] [SEED]

ZMIDI_NET_SOURCE has the Rust's packet.rs, command.rs and stream.rs.
Prints how many numbers were compared, by class, or the first that differs."""
import collections
import os
import random
import subprocess
import sys

here = os.path.dirname(os.path.abspath(__file__))
STEPS = [1, 1, 1, 2, 3, 10, 63, 64, 65, 66, 67, 128, -1, -2, -5, -63, -64, -65, 0x7FFF, 0x8000, -0x7FFF]


def numbers(count, seed):
    rng, high = random.Random(seed), -1
    for _ in range(count):
        step = rng.choice(STEPS + [rng.randrange(-100, 100)])
        yield (high + step) % 65536
        if 1 <= step <= 0x7FFF:
            high += step


def run(program, given):
    return subprocess.run([program], input=given, stdout=subprocess.PIPE, check=True).stdout.decode().splitlines()


def main():
    count = int(sys.argv[1]) if len(sys.argv) > 1 else 1000000
    seed = int(sys.argv[2]) if len(sys.argv) > 2 else 1
    built = subprocess.run([here + "/oracle/build"], stdout=subprocess.PIPE)
    if built.returncode:
        sys.exit("no oracle, nothing compared")
    oracle = built.stdout.decode().strip()
    stream = list(numbers(count, seed))
    script = "new 64 256 4\n" + "".join("data 0 %d\n" % n for n in stream)
    ours = [line.split(" ")[1:] for line in run(here + "/../target/bin/arrivals", b"".join(n.to_bytes(2, "big") for n in stream))]
    theirs = [line.split(" ")[:4] for line in run(oracle, script.encode())[1:]]
    if len(ours) != count or len(theirs) != count:
        sys.exit("%d numbers, %d lines of ours, %d of the Rust" % (count, len(ours), len(theirs)))
    for i, (a, b) in enumerate(zip(ours, theirs)):
        if a != b:
            sys.exit("number %d of seed %d, %d: ours %s, the Rust %s" % (i, seed, stream[i], " ".join(a), " ".join(b)))
    classes = collections.Counter(a[0] for a in ours)
    losses = sum(1 for a in ours if a[2] != "0")
    print("%d numbers compared, seed %d: New %d, Late %d, Duplicate %d; %d losses" % (count, seed, classes["N"], classes["L"], classes["D"], losses))


main()
