#!/usr/bin/env python3
"""Compares programs `sheet` and `columns` with a model that works every figure afresh, over drawn files.

    tools/program sheet columns && tools/sheet_model.py [RECORDS] [SEED]

A file of RECORDS drawn records (10,000, at least 5,000) with n 1, 2, 3, 64, 1,000 and 4,096; files that are refused (a class above 2, a zero byte
that is not zero, a cut record, an n that is none); columns of drawn files, and their inverse. Prints how many records were compared, or
the first byte that differs, and ends with 1."""
import os
import random
import struct
import subprocess
import sys

BIN = os.path.join(os.path.dirname(os.path.dirname(os.path.abspath(__file__))), "target", "bin")
RECORD, BLOCK = 16, 65536


def record(draw, klass, zero=0, lost=None):
    lost = draw.choice((0, 0, 0, 1, draw.randrange(65536), 65535)) if lost is None else lost
    return struct.pack(">QHBBHH", draw.getrandbits(64), draw.getrandbits(16), klass, zero, lost, draw.getrandbits(16))


def figures(n, file):
    """Of each whole record before the first that is refused, over the last n up to it; and the refusal, or None."""
    if not 1 <= n <= 4096:
        return b"", 12
    kept, out = [], []
    for at in range(0, len(file), RECORD):
        r = file[at:at + RECORD]
        if len(r) < RECORD:
            return b"".join(out), 16
        if r[10] > 2 or r[11]:
            return b"".join(out), 17
        kept.append((r[10], r[12] * 256 + r[13]))
        last = kept[-n:]
        classes = [k for k, _ in last]
        out.append(struct.pack(">4I", classes.count(0), classes.count(1), classes.count(2), sum(lost for _, lost in last)))
    return b"".join(out), None


def by_column(block):
    return b"".join(block[i::RECORD] for i in range(RECORD))


def columns(file):
    """Of each block, and the refusal of a last one that is cut."""
    whole = [file[at:at + BLOCK] for at in range(0, len(file), BLOCK)]
    cut = bool(whole) and len(whole[-1]) % RECORD != 0
    return b"".join(by_column(b) for b in (whole[:-1] if cut else whole)), 16 if cut else None


def ran(words, file):
    p = subprocess.run([os.path.join(BIN, words[0])] + words[1:], input=file, capture_output=True)
    said = p.stderr.decode()
    return p.stdout, int(said.split()[1]) if said.startswith("refused ") else None


def same(what, ours, model):
    if ours != model:
        at = next((i for i, (a, b) in enumerate(zip(ours[0], model[0])) if a != b), min(len(ours[0]), len(model[0])))
        sys.exit("%s: not the model's from byte %d on (lengths %d, %d; refusals %s, %s)"
                 % (what, at, len(ours[0]), len(model[0]), ours[1], model[1]))
    return len(ours[0]) // RECORD


def main():
    most = max(5000, int(sys.argv[1]) if len(sys.argv) > 1 else 10000)
    draw = random.Random(int(sys.argv[2]) if len(sys.argv) > 2 else 1)
    done = 0
    file = b"".join(record(draw, draw.randrange(3)) for _ in range(most))
    for n in (1, 2, 3, 64, 1000, 4096):
        done += same("n %d" % n, ran(["sheet", str(n)], file), figures(n, file))
    full = b"".join(record(draw, 0, lost=65535) for _ in range(4200))
    done += same("the largest sum", ran(["sheet", "4096"], full), figures(4096, full))
    for at in (0, 1, 4095, 4096, most - 1):
        for bad in (record(draw, 3), record(draw, 255), record(draw, 0, zero=1), file[:draw.randrange(1, RECORD)]):
            rest = b"" if len(bad) < RECORD else file[(at + 1) * RECORD:]
            broken = file[:at * RECORD] + bad + rest
            done += same("refused at %d" % at, ran(["sheet", "5"], broken), figures(5, broken))
    for word, n in (("0", 0), ("4097", 4097), ("65537", 65537), ("x", 0), ("2x", 0), ("", 0), ("18446744073709551618", 4097)):
        done += same("n %r" % word, ran(["sheet", word], file), figures(n, file))
    for length in [0, 1, 2, 17, 4095, 4096, 4097, most]:
        part = file[:length * RECORD]
        stored = columns(part)
        done += same("columns of %d" % length, ran(["columns"], part), stored)
        done += same("restored %d" % length, ran(["columns", "restore"], stored[0]), (part, None))
    cut = file[:4097 * RECORD + 5]
    done += same("columns of a cut file", ran(["columns"], cut), columns(cut))
    done += same("a cut file restored", ran(["columns", "restore"], columns(file[:4096 * RECORD])[0] + b"123"), (file[:4096 * RECORD], 16))
    print("%d records, no difference" % done)


main()
