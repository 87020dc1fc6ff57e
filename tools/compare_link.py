#!/usr/bin/env python3
"""Compares runs on the pretend link: program `link_trial`, the Rust's streams (tools/oracle, `link`) and a model that is
independent of both (tools/link_model.py), on the same drawn settings.

    tools/program link_trial && ZMIDI_NET_SOURCE=FOLDER tools/compare_link.py [COUNT] [SEED]

COUNT runs (1,000) of up to 65,536 steps, a run for each of the sizes that the Rust is compiled with, refusals at every bound, and
lines that are none. ZMIDI_NET_SOURCE has the Rust's packet.rs, command.rs and stream.rs. Prints what was compared
and reached, or the first line whose answers differ, and ends with 1."""
import collections
import itertools
import os
import random
import subprocess
import sys
import threading

import link_model
from link_model import NAMES

here = os.path.dirname(os.path.abspath(__file__))
WINDOWS, HISTORIES, PLACES = (1, 2, 4, 32, 64, 127, 128), (65, 66, 256, 4096), (1, 4, 16)
DEFAULT = dict(zip(NAMES, (100, 2, 5, 2, 1, 10, 3, 64, 64, 256, 4, 1, 2, 13, 300)))
WIDE = 2**32 - 1


def line(**figures):
    return " ".join(str({**DEFAULT, **figures}[name]) for name in NAMES)


def drawn(rng, **fixed):
    """A run: settings from their ranges, often from the ends and the small values, where most happens."""
    pick = rng.choice
    return line(**{
        "T1": pick([1, 2, 10, 100, 300, rng.randint(1, 300)]),
        "G": pick([1, 2, 3, WIDE]),
        "K": pick([0, 1, 5, 255]),
        "R": pick([0, 0, 1, 2, 2, 3, 10, 255]),
        "X": pick([0, 1, 1, 1]),
        "D": pick([0, 1, 1, 2, 3, 10, 50, 1000, WIDE]),
        "M": pick([0, 1, 2, 3, 8, 9, 15, 255]),
        "SIZE": pick([1, 1, 2, 3, 8, 16, 64]),
        "W": pick(WINDOWS), "C": pick(HISTORIES), "Q": pick(PLACES),
        "SEED": rng.randrange(2**32), "DROP": rng.randrange(2**32),
        "FIGURE": pick([0, 13, 14, 35, 78, 128, 200, 230, 240, 250, 254, 255, 256, 65535, rng.randrange(256), rng.randrange(256)]),
        "BUDGET": pick([rng.randrange(300), rng.randrange(3000), rng.randrange(3000), rng.randrange(10000)]),
        **fixed})


def runs(count, seed):
    rng = random.Random(seed)
    for w, c, q in itertools.product(WINDOWS, HISTORIES, PLACES):
        yield drawn(rng, W=w, C=c, Q=q, BUDGET=1000)
    for _ in range(count - 1):
        yield drawn(rng)
    yield drawn(rng, BUDGET=65536, FIGURE=rng.randrange(256))
    yield line(BUDGET=65536)


def refused():
    """Starts and budgets at and beyond each bound, and all refusals at once, one taken away after the other."""
    for name, values in (("SIZE", (0, 1, 64, 65, WIDE)), ("T1", (0, 1, 300, 301, WIDE)), ("G", (0, 1, WIDE)), ("W", (0, 1, 128, 129, WIDE)),
                         ("C", (0, 64, 65, 32769, WIDE)), ("Q", (0, 1, 16, 17, WIDE)), ("BUDGET", (0, 1, 65536, 65537, WIDE))):
        for value in values:
            yield line(**{name: value})
    wrong = {"SIZE": 0, "T1": 0, "G": 0, "W": 0, "C": 0, "Q": 0, "BUDGET": 65537}
    while wrong:
        yield line(**wrong)
        wrong.pop(next(iter(wrong)))


def bad():
    good = line()
    fields = good.split(" ")
    yield from ("x", "-", " " + good, good + " ", good + " 1", " ".join(fields[1:]), good.replace(" ", "  ", 1), good.replace(" ", "\t", 1), "+" + good)
    for k, name in enumerate(NAMES):
        most = link_model.NARROW.get(name, WIDE)
        for field in ("", "x", "-1", "1x", str(most + 1), str(2**64 + 1)):
            yield " ".join(fields[:k] + [field] + fields[k + 1:])
    yield "0" * (4096 - len(good)) + good
    yield "0" * (4097 - len(good)) + good


class Bar:
    """How far the work is, on a terminal."""

    def __init__(self, most):
        self.most, self.done, self.shown = most, 0, -1

    def step(self):
        self.done += 1
        part = 50 * self.done // self.most
        if sys.stderr.isatty() and part != self.shown:
            self.shown = part
            print("\r[%-50s] %d of %d" % ("#" * part, self.done, self.most), end="\n" if part == 50 else "", file=sys.stderr, flush=True)


def answers(program, given):
    """One answer after the other, as the program writes them."""
    with subprocess.Popen([program], stdin=subprocess.PIPE, stdout=subprocess.PIPE) as run:
        def write():
            run.stdin.write(given)
            run.stdin.close()
        writer = threading.Thread(target=write)
        writer.start()
        for said in run.stdout:
            yield said.decode().rstrip("\n")
        writer.join()
        if run.wait():
            sys.exit("%s ended with %d" % (program, run.returncode))


def modelled(asked, reached):
    """The model's answer, and what its run has reached."""
    t = link_model.trial(asked)
    if t is None or link_model.refusal(t):
        said = link_model.answer(asked)
        reached[said] += 1
        return said
    link = link_model.Link(t).run()
    reached.update({"runs": 1, "steps": link.steps, "commands handed on": link.handed, "of them without words": link.empty, "queue calls refused with 6": link.full})
    reached.update({"losses by " + how: n for how, n in link.losses.items()})
    reached.update("requests" for what in link.log if what[1] == "request")
    reached.update("answered with an Error" for what in link.log if what[1] == "request" and "error" in what[2])
    return link.report()


def main():
    count = int(sys.argv[1]) if len(sys.argv) > 1 else 1000
    seed = int(sys.argv[2]) if len(sys.argv) > 2 else 1
    built = subprocess.run([here + "/oracle/build"], stdout=subprocess.PIPE)
    if built.returncode:
        sys.exit("no oracle, nothing compared")
    rust = os.path.dirname(built.stdout.decode().strip()) + "/link"
    asked = list(refused()) + list(bad()) + list(runs(count, seed))
    given = "".join(l + "\n" for l in asked).encode()
    bar, reached = Bar(len(asked)), collections.Counter()
    for number, (l, ours, theirs) in enumerate(itertools.zip_longest(asked, answers(here + "/../target/bin/link_trial", given), answers(rust, given))):
        model = modelled(l, reached) if l is not None else None
        if not ours == theirs == model:
            sys.exit("\nline %d of seed %d, %s: the program says %s, the Rust %s, the model %s" % (number, seed, l, ours, theirs, model))
        bar.step()
    print("%d lines compared, %d runs drawn with seed %d: no difference" % (len(asked), count, seed))
    for what, n in reached.items():
        print("%12s  %s" % (format(n, ","), what))


main()
