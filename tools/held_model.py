#!/usr/bin/env python3
"""Compares program `held` with a model of 02's 4/14 that keeps the whole past and works each answer afresh.

    tools/program held && tools/held_model.py [COUNT] [SEED]
    tools/held_model.py answers < crates/held/stdin

COUNT lines (20,000): lists of up to 200 drawn calls over some groups, and by turns performances, whose commands arrive late,
doubled or not at all and are answered by a model of 01's window. Over each performance two sentences are looked at, by
positions: no held note's release is known lost; where nothing is lost or missing, each held note is one that the commands in
order leave held. Prints how many answers were compared, or the first that differs or sentence that fails, and ends with 1. The
second form prints the model's answers to a script."""
import collections
import os
import random
import subprocess
import sys

here = os.path.dirname(os.path.abspath(__file__))
# how many words a message has, by its type
WORDS = [1, 1, 1, 2, 2, 4, 1, 1, 2, 2, 2, 3, 3, 4, 4, 4]
NAMES = ("new", "late", "dup", "newloss", "loss", "error", "restart")


def messages(words):
    """The first words of the whole messages."""
    out, at = [], 0
    while at < len(words) and at + WORDS[words[at] >> 28] <= len(words):
        out.append(words[at])
        at += WORDS[words[at] >> 28]
    return out


def moments(call, words):
    """What a call brings, in order: 'silence', ('on', note) and ('off', note), by channel and note."""
    out = ["silence"] if call in ("newloss", "loss", "restart") else []
    if call in ("new", "newloss", "late"):
        for word in messages(words):
            kind, group, status, channel, note, velocity = word >> 28, word >> 24 & 15, word >> 20 & 15, word >> 16 & 15, word >> 8 & 255, word & 255
            if kind != 2 or note > 0x7F or velocity > 0x7F:
                continue
            if status == 9 and velocity > 0:
                if call != "late":
                    out.append(("on", group, channel, note))
            elif status in (8, 9):
                out.append(("off", group, channel, note))
    return out


def held(group, past):
    """Each note with an on behind which neither silence nor its release stands; by channel, then note, each once."""
    found, ended = set(), set()
    for moment in reversed(past):
        if moment == "silence":
            break
        what, of, channel, note = moment
        if of == group and (channel, note) not in ended:
            ended.add((channel, note))
            if what == "on":
                found.add((channel, note))
    return sorted(found)


def shown(name, notes):
    return " ".join([name] + ["%d:%d" % note for note in notes])


def parsed(line):
    """A call and what it is given, or None."""
    name, *rest = line.split(" ")
    if name == "group":
        return (name, int(rest[0])) if len(rest) == 1 and rest[0].isdigit() and int(rest[0]) < 2**64 else None
    if name in ("new", "late", "dup", "newloss"):
        digits = all(len(w) == 8 and all(c in "0123456789abcdefABCDEF" for c in w) for w in rest)
        return (name, [int(w, 16) for w in rest]) if digits and len(rest) <= 255 else None
    return (name, []) if not rest and name in NAMES + ("held",) else None


def answers(lines):
    group, past = None, []
    for line in lines:
        if line == "" or line.startswith("#"):
            continue
        call = parsed(line) if len(line) <= 4096 else None
        if call is None or (group is None and call[0] != "group"):
            yield "bad"
        elif call[0] == "group":
            group, past = call[1], []
            yield "refused 12" if group > 15 else "given"
        elif call[0] == "held":
            yield shown("held", [] if group > 15 else held(group, past))
        elif group > 15:
            yield "refused 12"
        else:
            silent = call[0] in ("newloss", "loss", "restart")
            yield shown("given", held(group, past) if silent else [])
            past += moments(*call)


def word(rng, group):
    """A word, mostly a note of few channels and keys, so that ons and releases meet."""
    if rng.random() < 0.1:
        return rng.getrandbits(32)
    kind = rng.choice([2] * 12 + [4, 0, 5])
    of = group if rng.random() < 0.9 else rng.randrange(16)
    status = rng.choice([8, 9, 9, 9, 9, rng.randrange(16)])
    note = rng.choice([0, 1, 0x3C, 0x3C, 0x3D, 0x7F, 0x80, rng.randrange(256)])
    velocity = rng.choice([0, 1, 0x40, 0x40, 0x7F, 0x80, 0xFF])
    return kind << 28 | of << 24 | status << 20 | rng.choice([0, 0, 1, 15]) << 16 | note << 8 | velocity


def performance(rng, seen):
    """The calls of a chamber that hears a performance, and a look at what is held after each."""
    window, size, jitter, gone = rng.choice([1, 4, 64]), rng.randrange(1, 40), rng.choice([1, 4, 30]), rng.choice([0, 0, 0.1])
    notes = [0x20903C00, 0x20903D00, 0x20913C00, 0x21903C00]
    written = [[rng.choice(notes) | rng.choice([0, 0x40, 0x40]) for _ in range(rng.choice([0, 1, 1, 2]))] for _ in range(size)]
    arriving = sorted((p + rng.randrange(jitter), rng.random(), p) for p in range(size) for _ in range(rng.choice([1, 1, 1, 2])) if rng.random() >= gone)
    high, handed, lost, past, out, ons = -1, set(), set(), [], ["group 0"], {}

    def missing():
        return [p for p in range(max(0, high - window), high) if p not in handed and p not in lost]

    def report(positions):
        lost.update(range(positions[0], positions[-1] + 1) if positions else ())
        return bool(positions)

    def leaves(position, sounds, note):
        for what, *which in moments("new", written[position]):
            sounds = (what == "on") if which == [0, *note] else sounds
        return sounds

    for _, _, p in arriving:
        if p > high:
            loss = report([q for q in range(max(0, p - window)) if q not in handed and q not in lost])
            name, high = "newloss" if loss else "new", p
        else:
            name = "late" if high - p <= window and p not in handed and p not in lost else "dup"
        if name != "dup":
            handed.add(p)
        past += moments(name, written[p])
        out += [" ".join([name] + ["%08X" % w for w in written[p]]), "held"]
        ons.update({note: p for note in held(0, past) if name.startswith("new") and leaves(p, False, note)})
        if rng.random() < 0.05:
            told = "loss" if report(missing()) else "error"
            past += moments(told, [])
            out += [told, "held"]
        for note in held(0, past):
            if note not in ons:
                sys.exit("%s: held by no New" % out)
            for q in range(ons[note] + 1, high + 1):
                if not (q in handed and leaves(q, True, note)) and q not in missing():
                    sys.exit("%s: held, and its release at %d is known lost" % (out, q))
            seen["unreleased"] += 1
    if not lost and not missing() and high == size - 1:
        for note in held(0, past):
            sounds = False
            for q in range(size):
                sounds = leaves(q, sounds, note)
            if not sounds:
                sys.exit("%s: %s is held, and sounds on" % (out, note))
            seen["accepted"] += 1
    seen["performances"] += 1
    return out


def drawn(count, seed, seen):
    rng, out, group = random.Random(seed), ["held", "new 20903C40", "group"], 0
    while len(out) < count:
        out += performance(rng, seen)
        group = rng.choice([0, 0, 1, 9, 15, 16, 255, 300]) if rng.random() < 0.5 else group
        out.append("group %d" % group)
        for _ in range(rng.randrange(200)):
            name = rng.choice(("new",) * 8 + ("late",) * 3 + NAMES)
            words = " ".join("%08X" % word(rng, group % 16) for _ in range(rng.choice([0, 1, 1, 2, 3, 8]))) if name in ("new", "late", "dup", "newloss") else ""
            out += [(name + " " + words).rstrip(), "held"]
    return out[:count]


def main():
    if sys.argv[1:2] == ["answers"]:
        print("\n".join(answers(sys.stdin.read().split("\n"))))
        return
    count = int(sys.argv[1]) if len(sys.argv) > 1 else 20000
    seed = int(sys.argv[2]) if len(sys.argv) > 2 else 1
    seen = collections.Counter()
    asked = drawn(count, seed, seen)
    given = "".join(line + "\n" for line in asked).encode()
    said = subprocess.run([here + "/../target/bin/held"], input=given, stdout=subprocess.PIPE, check=True).stdout.decode().splitlines()
    model = list(answers(asked))
    if len(said) != len(model):
        sys.exit("%d calls, %d answers" % (len(model), len(said)))
    for line, ours, theirs in zip(asked, said, model):
        if ours != theirs:
            sys.exit("%s: the program says %s, the model %s" % (line, ours, theirs))
    notes = sum(max(0, len(line.split(" ")) - 1) for line in said if line.startswith("given"))
    print("%d answers compared, seed %d, %d notes given: no difference" % (len(said), seed, notes))
    print("%(performances)d performances: %(unreleased)d times a held note, none with a release known lost; %(accepted)d held at a clean end" % seen)


main()
