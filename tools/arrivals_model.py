#!/usr/bin/env python3
"""Makes the test of crate arrivals_long: its stdin, and its stdout by a model that is written from
paper 01 ("Position, window, loss") over positions and a record of what was processed. It shares no
code and no form with the crates: no bits, no wrapping sums.

    tools/arrivals_model.py crates/arrivals_long
"""
import random
import sys

W = 64


def numbers():
    """Boundaries first, then a random walk over some turns of the 65,536 numbers."""
    rng = random.Random(1)
    out = [0, 0, 1, 3, 2, 2, 1, 10, 70, 71, 9, 8, 7, 6, 5]
    out += [71 + W, 71 + 2 * W + 1, 71 + 3 * W + 3, 71 + 2 * W + 3, 71 + 2 * W + 2]
    high = 71 + 3 * W + 3
    for d in (1, W, W + 1, W + 2, W + 3, 127, 128, 129, 0x7FFE, 0x7FFF):
        high += d
        out += [high, high - 1, high - W, high - W - 1, high - 0x8000]
    for _ in range(4000):
        d = rng.choice([1, 1, 1, 1, 2, 3, 5, W - 1, W, W + 1, W + 2, 200, 0x7FFF, -1, -2, -3, -W, -W - 1, -0x7FFF, 0x8000])
        out.append(high + d)
        if 0 < d < 0x8000:
            high += d
    return [n % 65536 for n in out]


def lines(stream):
    high, processed, reported = -1, set(), -1
    for n in stream:
        ahead = (n - high) % 65536
        if 1 <= ahead <= 0x7FFF:
            new = high + ahead
            lost = [p for p in range(max(0, reported + 1), new - W) if p != high and p not in processed and p < new]
            processed.add(new)
            high = new
            reported = max(reported, new - W - 1)
            processed = {p for p in processed if p >= new - W - 1}
            if lost:
                yield "%d N %d %d %d" % (n, ahead - 1, lost[-1] - lost[0] + 1, lost[0] % 65536)
            else:
                yield "%d N %d 0 0" % (n, ahead - 1)
            continue
        position = high - (high - n) % 65536
        if position >= 0 and 1 <= high - position <= W and position not in processed:
            processed.add(position)
            yield "%d L 0 0 0" % n
        else:
            yield "%d D 0 0 0" % n


def main():
    where = sys.argv[1]
    stream = numbers()
    with open(where + "/stdin", "wb") as f:
        for n in stream:
            f.write(bytes([n // 256, n % 256]))
        f.write(b"\x00")
    with open(where + "/stdout", "w") as f:
        for line in lines(stream):
            f.write(line + "\n")
        f.write("cut\n")


main()
