#!/usr/bin/env python3
"""Runs call lists (crates/script's front page) on `replay` and on the Rust, and compares every answer, and state and payload
bytes after every call.

    tools/program replay && ZMIDI_NET_SOURCE=FOLDER tools/compare.py [--calls N] [--seed S] [--random] [--keep FOLDER]

ZMIDI_NET_SOURCE has the Rust's packet.rs, command.rs and stream.rs. Needs python3, and what tools/oracle/build needs.

Parts: directed lists (directed.py), which have to reach their corners; a drawn list for each size of 01's domain; short lists,
all of them, over small sizes; lists in which the sender's numbers pass a turn; drawn long lists over the domain, half of
them without `take`, so that the Rust's own DataStream answers throughout; payloads read back, cut and damaged. --random leaves
out the short lists and the turns. N limits the drawn lists and the reading; the other parts, some 1,530,000 calls, 90,000 with
--random, run whole.

A list that differs is shortened and printed, and the run fails. Progress goes to standard error: a bar on a terminal, a line
a minute elsewhere. The summary counts calls by name, answers by kind, refusals by number, and the corners reached.

--keep makes FOLDER/stdin anew but for its start and what is written by hand, which stay: the short directed lists,
examples/cases.script and a sample in which each pair of call and answer kind occurs; and writes the Rust's answers to all of it to
FOLDER/stdout. So crates/replay's were made, by

    tools/compare.py --calls 300000 --keep crates/replay"""
import argparse
import collections
import itertools
import os
import random
import subprocess
import sys
import tempfile
import time

import directed

here = os.path.dirname(os.path.abspath(__file__))
BATCH = 30000
TOP = 2**64 - 1
WINDOWS, WORDS, PLACES = [1, 2, 32, 64, 127, 128], [65, 66, 256, 4096], [1, 4, 16]
DEFAULT = "cfg 100 2 5 2 1 10 3 64"
LIMITS = [8, 11, 12, 15, 16, 19, 20, 24, 28, 40, 100, 264, 268, 272, 536, 1396, 1400]
STEPS = [1, 1, 1, 1, 2, 3, 5, 31, 32, 33, 63, 64, 65, 66, 127, 128, 129, 130, 0, -1, -1, -2, -3, -5, -31, -32, -33, -64, -65, -127, -128,
         -129, 0x7FFF, 0x8000, -0x7FFF, -0x8000, 300, 5000]
TYPES = [1, 1, 1, 2, 2, 4, 1, 1, 2, 2, 2, 3, 3, 4, 4, 4]


def drawn(rng, n):
    """Any words."""
    digits = rng.randbytes(4 * n).hex().upper()
    return [digits[i:i + 8] for i in range(0, 8 * n, 8)]


def message(rng, kind=None):
    t = rng.randrange(16) if kind is None else kind
    words = drawn(rng, TYPES[t])
    words[0] = "%X" % t + words[0][1:]
    return words


def whole(rng, most):
    words = []
    while True:
        m = message(rng, rng.choice([0, 1, 2, 2, 2, 3, 4, 5, 11, None]))
        if len(words) + len(m) > most:
            return words
        words += m


def words_to_queue(rng):
    pick = rng.randrange(20)
    if pick < 9:
        return message(rng, 2)
    if pick < 13:
        return whole(rng, rng.randrange(1, 12))
    if pick < 16:
        return whole(rng, rng.choice([60, 63, 64, 65, 66, 128, 250, 256, 300, 454]))
    if pick == 16:
        return []
    if pick == 17:
        return message(rng, rng.choice([3, 5, 11]))[:-1]
    return message(rng)


def settings(rng):
    if rng.randrange(12) == 0:
        return "cfg %d %d %d %d %d %d %d %d" % (
            rng.choice([0, 1, 300, 301, 2**32 - 1]), rng.choice([0, 1, 2]), rng.randrange(256), rng.randrange(256), rng.randrange(2),
            rng.choice([0, 1, 2**32 - 1]), rng.randrange(256), rng.choice([0, 1, 64, 65, 2**64 - 1]))
    return "cfg %d %d %d %d %d %d %d %d" % (
        rng.choice([1, 2, 50, 100, 300]), rng.choice([1, 2, 3, 1000, 2**32 - 1]), rng.choice([0, 1, 5, 255]), rng.choice([0, 1, 2, 3, 8, 255]),
        rng.choice([1, 1, 1, 0]), rng.choice([0, 1, 10, 1000, 2**32 - 1]), rng.choice([0, 1, 3, 40, 255]), rng.choice([1, 2, 3, 4, 8, 63, 64, 64, 64]))


class Walk:
    """A random list: it follows clock, numbers and commands only roughly, so that arguments lie where they matter."""

    def __init__(self, rng):
        self.rng = rng
        self.now = rng.choice([0, 0, 1000, TOP - 5000, TOP - 50])
        self.high = rng.choice([-1, -1, -1, -1])
        self.sent, self.queued = 0, False
        self.turns = rng.randrange(8) == 0
        self.steady = rng.randrange(2) == 0
        self.takes = rng.randrange(2) == 0

    def clock(self):
        rng = self.rng
        self.now += rng.choice([0, 1, 1, 5, 10, 20, 50, 100, 100, 200, 1000, -1, -100])
        if rng.randrange(400) == 0:
            self.now = rng.choice([0, TOP, TOP - 1, TOP - 100, rng.getrandbits(64)])
        self.now = min(max(self.now, 0), TOP)
        return self.now

    def number(self):
        rng = self.rng
        step = 1 if self.steady and rng.randrange(10) else rng.choice(STEPS)
        if self.turns and rng.randrange(4) == 0:
            step = rng.choice([20000, 0x7FFE, 0x7FFF])
        n = (self.high + step) % 65536
        if 1 <= step <= 0x7FFF:
            self.high += step
        return n

    def words(self):
        """Of a data command."""
        rng = self.rng
        return whole(rng, rng.choice([0, 1, 1, 2, 4, 64])) if rng.randrange(8) else drawn(rng, rng.choice([1, 2, 65, 255]))

    def command(self):
        """A command of a payload, in digits."""
        rng = self.rng
        k = rng.randrange(12)
        if k < 7:
            words = self.words()
            return "FF%02X%04X" % (len(words), self.number()) + "".join(words)
        if k < 9:
            return "8001%04X%04X0000" % ((self.sent - rng.randrange(6)) % 65536, rng.randrange(3))
        if k == 9:
            return "8101%02X00%04X0000" % (rng.choice([0, 1, 2]), rng.randrange(65536))
        n = rng.choice([0, 0, 1, 2])
        return "%02X%02X%04X" % (rng.choice([0x20, 0x80, 0x81, 0x82, 0x8F, rng.randrange(256)]), n, rng.randrange(65536)) + "".join(drawn(rng, n))

    def heard(self):
        """A payload that arrives: of eight one without its signature, and one cut."""
        rng = self.rng
        text = "4D494449" + "".join(self.command() for _ in range(rng.choice([0, 1, 1, 2, 3, 6])))
        k = rng.randrange(8)
        if k == 0:
            text = "4D49444A" + text[8:]
        if k == 1:
            text = text[:2 * rng.randrange(len(text) // 2 + 1)]
        return " ".join(["hear %d" % self.clock()] + [text[:4000]] * (text != ""))

    def opened(self):
        limit = self.rng.choice(LIMITS + [1400] * 8)
        return "open %d %d" % (limit, self.rng.choice([limit] * 6 + [1400, 2048, 0, 7, 8, max(limit - 1, 0), max(limit - 4, 0)]))

    def calls(self, length):
        """A write goes into a payload of its own more often than not."""
        for _ in range(length):
            line = self.call()
            if line.startswith("write") and self.rng.randrange(3):
                yield self.opened()
            yield line

    def call(self):
        rng = self.rng
        k = rng.randrange(100)
        if k < 22:
            self.queued = True
            words = words_to_queue(rng)
            return " ".join(["queue" if len(words) <= 256 else "queuelong"] + words)
        if k < 42:
            self.sent += self.queued
            self.queued = False
            return "write %d" % self.clock()
        if k < 46:
            return self.opened()
        if k < 56:
            number = (self.sent - rng.choice([0, 1, 1, 2, 2, 3, 4, 5, 8, 20, 60])) % 65536
            return "request %d %d" % (number, rng.choice([0, 0, 1, 1, 2, 3, 10, 300, 65535]))
        if k < 72:
            return " ".join(["data %d %d" % (self.clock(), self.number())] + self.words())
        if k < 78:
            return self.heard()
        if k < 85:
            return "poll %d" % self.clock()
        if k < 88:
            return "take" if self.takes else "write %d" % self.clock()
        if k < 90:
            return "error %d %d" % (rng.choice([0, 1, 2, 255]), rng.randrange(65536))
        if k == 90:
            return "nak" if rng.randrange(4) == 0 else "poll %d" % self.clock()
        if k == 91:
            return rng.choice(["deadline", "next"])
        if k == 92:
            return "wants %d" % self.clock()
        if k == 93:
            return rng.choice(["sendrequest %d %d", "senderror %d %d"]) % (rng.choice([0, 1, 2]), rng.randrange(65536))
        if k == 94:
            return " ".join(["senddata %d" % rng.randrange(65536)] + words_to_queue(rng)[:rng.choice([1, 64, 65, 256])])
        if k == 95:
            return " ".join(["raw %02X %02X %02X" % (rng.choice([0x20, 0x21, 0x80, 0xFF, 0]), rng.randrange(256), rng.randrange(256))]
                            + drawn(rng, rng.choice([0, 1, 1, 2, 255, 256, 300])))
        if k < 98:
            return settings(rng) if rng.randrange(3) == 0 else DEFAULT
        if k == 98:
            number = (self.high - rng.choice([0, 1, 1, 2, 5, 31, 32, 63, 64, 65, 128, 129, -1, -5, 0x7FFF, 0x8000])) % 65536
            return "window %d %d" % (number, rng.choice([0, 1, 2, 5, 64, 128, 0x8000, 0xFFFF]))
        return "reset" if rng.randrange(4) == 0 else "buffer"


SHOWN = {"state", "payload", "memory", "buffer", "last"}
QUIET = ("deadline", "wants", "read", "next", "window")
HEARD = ("data", "poll", "error", "nak", "hear")


def seen(lines):
    """After each call the state, and the payload or what was heard in full."""
    out = []
    for i, line in enumerate(lines):
        out.append(line)
        if line in SHOWN or line.startswith(QUIET):
            continue
        shown = lines[i + 1:i + 4]
        if "state" not in shown:
            out.append("state")
        if line.startswith(HEARD):
            out.append("last")
        elif not line.startswith(("queue", "request")) and "payload" not in shown:
            out.append("payload")
    return out


def random_lists(seed):
    rng = random.Random(seed)
    while True:
        c = rng.choice([65, 65, 65, 66, 66, 66, 256, 256, 256, 256, 256, 4096])
        walk = Walk(rng)
        first = [DEFAULT if rng.randrange(2) else settings(rng), "new %d %d %d" % (rng.choice(WINDOWS), c, rng.choice(PLACES)), "open 1400 1400"]
        length = rng.choice([20, 60, 200, 600])
        yield seen(first + list(walk.calls(length))) + ["memory"]


def every_size(seed):
    """A list for each of the domain's sizes."""
    rng = random.Random(seed)
    for w, c, q in itertools.product(WINDOWS, WORDS, PLACES):
        yield seen([DEFAULT, "new %d %d %d" % (w, c, q), "open 1400 1400"] + list(Walk(rng).calls(100))) + ["memory"]


def turn_lists(seed):
    """The sender's numbers past a turn and a half: one command a write, requests near the newest and across the turn."""
    rng = random.Random(seed)
    for c, q in [(65, 1), (256, 4)]:
        lines, now = ["cfg 100 2 5 1 1 10 3 64", "new 64 %d %d" % (c, q)], 0
        for i in range(100000):
            now += rng.choice([0, 1, 100])
            lines += ["queue " + " ".join(message(rng, rng.choice([2, 4]))), "open 1400 1400", "write %d" % now]
            if rng.randrange(20) == 0 or i % 65536 < 4 or i % 65536 > 65531:
                lines += ["request %d %d" % ((i - rng.randrange(6)) % 65536, rng.randrange(4)), "open %d 1400" % rng.choice([16, 40, 1400]), "write %d" % now, "payload"]
        yield seen(lines)


def small_lists():
    """All lists of up to four calls over a few that matter, at small sizes."""
    words = " ".join(["20903C40"] * 40)
    calls = ["queue 20903C40", "queue " + words, "write 0", "write 500", "open 16 16", "open 1400 1400", "request 0 0", "request 1 2", "data 0 1",
             "data 0 0 20903C40", "data 5 3", "poll 10", "poll 2000", "take", "error 1 0", "nak", "reset", "cfg 100 2 5 0 1 10 1 1"]
    for w, q in [(1, 1), (2, 4)]:
        for n in (1, 2, 3):
            for some in itertools.product(calls, repeat=n):
                yield seen([DEFAULT, "new %d 65 %d" % (w, q), "open 1400 1400"] + list(some))
    for some in itertools.product(calls, repeat=4):
        yield seen([DEFAULT, "new 2 65 1", "open 1400 1400"] + list(some))


def sizes_lists():
    """Starts at and beyond every bound, in good and bad settings; lines that are no calls."""
    for cfg in [DEFAULT, "cfg 0 2 5 2 1 10 3 64", "cfg 100 0 5 2 1 10 3 64", "cfg 0 0 5 2 1 10 3 0", "cfg 301 2 5 2 1 10 3 65"]:
        yield seen([cfg] + ["new %s" % s for s in ("0 256 4", "129 256 4", "64 64 4", "64 32769 4", "64 256 0", "64 256 17", "0 0 0", "18446744073709551615 256 4")] + [
            "queue", "queue 20903C40", "write 0", "data 0 0", "poll 0", "take", "request 0 0"])
    yield seen(["bogus", "queue 2090", "queue 20903C4G", "write", "write 0 0", "write 18446744073709551616", "write 00018446744073709551615", "poll -1", "data 0",
           "data 0 65536", " write 0", "write 0 ", "write  0", "cfg 1 2 3", "cfg 100 2 256 2 1 10 3 64", "cfg 100 2 5 2 2 10 3 64", "open 1400 2049",
           "hear", "hear 4D494449", "hear 0 4D49444", "hear 0 4D494449 FF000000", "hear 18446744073709551616 4D494449",
           "request 65536 0", "senderror 256 0", "read 4", "read 4D4G", "read 4d494449", "Write 0", "reset now", "nak 1", "state 1", "\t", "raw 1 02 03",
           "raw 100 02 03", "queue " + " ".join(["20903C40"] * 256), "queue " + " ".join(["20903C40"] * 257), "senddata 0 " + " ".join(["20903C40"] * 300),
           "raw 77 00 00 " + " ".join(["20903C40"] * 301), "data 0 0 " + " ".join(["20903C40"] * 256), "queuelong", "queuelong 20903C4",
           "queuelong " + " ".join(["20903C40"] * 454), "queuelong " + " ".join(["20903C40"] * 455), "next 1", "last 1", "window 1", "window 1 65536", "last", "poll " + "0" * 4000 + "7", "poll " + "0" * 4092])


def read_lists(payloads, seed):
    rng = random.Random(seed)
    for n, p in enumerate(payloads):
        lines = ["read" + (" " + p if p else "")]
        for _ in range(3):
            b = bytearray.fromhex(p)
            cut = b[:rng.randrange(len(b) + 1)]
            lines.append("read" + (" " + cut.hex().upper() if cut else ""))
            if b:
                b[rng.randrange(len(b))] = rng.choice([0, 1, 2, 0x40, 0x80, 0x81, 0xFF, rng.randrange(256)])
                lines.append("read " + b.hex().upper())
        yield lines
    while True:
        b = bytearray(b"MIDI")
        for _ in range(rng.randrange(6)):
            n = rng.choice([0, 0, 1, 1, 2, 3, 64, 65, 255])
            b += bytes([rng.choice([0xFF, 0xFF, 0x80, 0x81, 0x20, 0x21, 0x8F, 0x77, rng.randrange(256)]), n, rng.randrange(256), rng.randrange(256)])
            b += rng.randbytes(4 * n)
        b += bytes(rng.randrange(4))
        yield ["read " + bytes(b[:rng.choice([len(b), len(b), 1400, 2000])]).hex().upper()]


def ran(program, text):
    """What a program answers to a text, and how it ended."""
    with tempfile.TemporaryFile() as given:
        given.write(text)
        given.seek(0)
        done = subprocess.run([program], stdin=given, stdout=subprocess.PIPE)
    return done.stdout, done.returncode


def run(program, lines):
    answers, ended = ran(program, ("\n".join(lines) + "\n").encode())
    return answers.decode().splitlines(), ended


def differ(pair, lines):
    a, b = (run(p, lines) for p in pair)
    return a != b or a[1] != 0 or len(a[0]) != len(lines)


def shorten(lines, holds):
    """As few of the lines as will do for what holds of all of them."""
    step = max(len(lines) // 2, 1)
    while True:
        i = 0
        while i < len(lines):
            less = lines[:i] + lines[i + step:]
            if less and holds(less):
                lines = less
            else:
                i += step
        if step == 1:
            return lines
        step //= 2


class Progress:
    """How far a run is and how long it will still take: a bar on a terminal, else a line a minute."""

    def __init__(self, goal):
        self.goal, self.start = goal, time.time()
        self.bar = sys.stderr.isatty()
        self.shown = self.start

    def show(self, calls, lines):
        now = time.time()
        if now - self.shown < (0.5 if self.bar else 60):
            return
        self.shown = now
        part = min(calls / self.goal, 1)
        left = int((now - self.start) * (1 - part) / part)
        left = "%d:%02d:%02d left" % (left // 3600, left // 60 % 60, left % 60) if part < 1 else "last lists"
        text = "%3d %%, %d calls, %d lines compared, %s" % (100 * part, calls, lines, left)
        if self.bar:
            text = "\r[" + ("#" * int(30 * part)).ljust(30) + "] " + text + "\033[K"
        print(text, end="" if self.bar else "\n", file=sys.stderr, flush=True)

    def end(self):
        if self.bar:
            print("\r\033[K", end="", file=sys.stderr, flush=True)


STREAM = {"new", "queue", "queuelong", "request", "write", "data", "hear", "poll", "error", "nak", "take", "reset", "deadline", "wants", "next", "window"}


def kind_of(name, answer):
    if name == "hear" and " | " in answer:
        return "several, " + kind_of(name, answer.split(" | ")[-1])
    if name == "hear" and ":" in answer:
        return {"refused": "no word"}.get(answer.split(":")[0], answer.split(":")[0])
    kind = answer.split(" ", 1)[0]
    if kind == "refused":
        return answer
    if kind == "bad":
        return kind
    if name in ("next", "wants") or name == "deadline" and kind != "none":
        return "figure"
    if name == "write":
        return "ok, more" if answer.split(" ")[2] == "1" else "ok"
    if name == "take":
        return answer
    if name == "window":
        return answer.split(" ")[1]
    if name == "read":
        return "ok, " + "+".join(sorted({x.split(":")[0] for x in answer.split(" ")[1:]}))
    return kind


class Comparison:
    def __init__(self, pair, goal, keep):
        self.pair, self.keep, self.progress = pair, keep, Progress(goal)
        self.calls, self.lines, self.lists, self.on_stream, self.own = 0, 0, 0, 0, 0
        self.counts, self.last, self.sizes = collections.Counter(), collections.Counter(), collections.Counter()
        self.parts, self.corners, self.sample, self.payloads = {}, {}, {}, []

    def fail(self, batch):
        self.progress.end()
        for lines in batch:
            if differ(self.pair, lines):
                short = shorten(lines, lambda less: differ(self.pair, less))
                ours, theirs = (run(p, short)[0] for p in self.pair)
                print("These differ (call, ours, the Rust's):")
                for i, line in enumerate(short):
                    a, b = (x[i] if i < len(x) else "nothing" for x in (ours, theirs))
                    print("  " + line[:300] + "\n    " + a[:300] + ("" if a == b else "\n    " + b[:300] + "   <-"))
                sys.exit(1)
        sys.exit("a batch differs, but no list of it does alone")

    def batch(self, batch):
        """Runs lists one after the other on both, compares them whole, and counts. Answers every answer."""
        lines = list(itertools.chain.from_iterable(batch))
        text = ("\n".join(lines) + "\n").encode()
        (ours, c1), (theirs, c2) = (ran(p, text) for p in self.pair)
        answers = ours.decode().split("\n")
        if ours != theirs or c1 or c2 or answers.pop() or len(answers) != len(lines):
            self.fail(batch)
        at = 0
        for one in batch:
            self.count(one, answers[at:at + len(one)])
            at += len(one)
        self.lines += len(lines)
        self.lists += len(batch)
        self.progress.show(self.calls, self.lines)
        return answers

    def count(self, one, answers):
        own = True
        for i, (line, answer) in enumerate(zip(one, answers)):
            if line in SHOWN:
                if line == "last":
                    self.last[answer.split(" ")[0] + (" by an error" if answer.startswith("loss") and answer != "loss -" else "")] += 1
                elif line == "payload" and answer != "-" and len(self.payloads) < 20000:
                    self.payloads.append(answer)
                continue
            name = line.split(" ", 1)[0] if answer != "bad" else "(no call)"
            key = name, kind_of(name, answer)
            self.calls += 1
            self.counts[key] += 1
            if name in STREAM:
                if name == "take":
                    own = False
                elif name in ("new", "reset") and answer == "ok":
                    own = True
                    self.sizes[line] += name == "new"
                self.on_stream += 1
                self.own += own
            if self.keep and (key not in self.sample or len(self.sample[key]) > i + 1):
                self.sample[key] = one[:i + 1]

    def all(self, part, lists, most=TOP):
        """Runs a part of a run: its lists, up to so many calls."""
        before = self.calls
        batch, size = [], 0
        for one in lists:
            batch.append(one)
            size += len(one)
            if size >= BATCH:
                self.batch(batch)
                batch, size = [], 0
                if self.calls - before >= most:
                    break
        if batch:
            self.batch(batch)
        self.parts[part] = self.calls - before

    def directed(self, lists):
        """Runs each list by itself, and looks for its corners in the answers."""
        before = self.calls
        for one in lists:
            lines = seen(one.lines)
            pairs = list(zip(lines, self.batch([lines])))
            for corner, test in one.corners.items():
                found = sum(1 for call, answer in pairs if test(call, answer))
                if found == 0:
                    sys.exit("the list '%s' no longer reaches '%s'" % (one.name, corner))
                self.corners[corner] = self.corners.get(corner, 0) + found
        self.parts["directed"] = self.calls - before

    def every_size(self):
        """How many lists there were of the size that had fewest; none is an error."""
        fewest = min(self.sizes["new %d %d %d" % size] for size in itertools.product(WINDOWS, WORDS, PLACES))
        if fewest == 0:
            sys.exit("a size of the domain was not run")
        return fewest

    def summary(self, seed):
        self.progress.end()
        print("%d calls in %d lists, %d lines compared (seed %d): no difference" % (self.calls, self.lists, self.lines, seed))
        print("  parts: " + ", ".join("%s %d" % x for x in self.parts.items()))
        print("  sizes: all %d of the domain, each in %d lists or more" % (len(WINDOWS) * len(WORDS) * len(PLACES), self.every_size()))
        print("  %d on a stream, %d of them before any take: on the Rust's own DataStream" % (self.on_stream, self.own))
        for name in sorted({n for n, _ in self.counts}):
            print("  %-12s" % name + ", ".join("%s %d" % (k, v) for (n, k), v in sorted(self.counts.items()) if n == name))
        print("  last        " + ", ".join("%s %d" % x for x in sorted(self.last.items())))
        refusals = collections.Counter()
        for (_, kind), n in self.counts.items():
            if kind.startswith("refused"):
                refusals[int(kind.split(" ")[1])] += n
        print("  refusals: " + ", ".join("%d %d" % x for x in sorted(refusals.items())))
        print("  corners: " + ", ".join("%s (%d)" % x for x in self.corners.items()))


def short_sample(oracle, key, lines):
    """A shorter list with an answer of the same kind to its last call; its start, the sizes and settings, stays."""
    start, rest = lines[:9], lines[9:]

    def holds(less):
        answers, ended = run(oracle, start + less)
        return ended == 0 and less[-1] == rest[-1] and kind_of(key[0], answers[-1]) == key[1]

    return seen(start + shorten(rest, holds)) if rest else lines


MADE, BY_HAND = "# Directed lists", "# By hand:"


def keep(folder, oracle, sample):
    """The directed lists come first: one of them begins with a run's start."""
    text = [MADE + " (tools/directed.py)."]
    for one in directed.lists():
        if one.kept:
            text += ["# " + one.name] + one.lines
    text += [""] + open(here + "/../examples/cases.script").read().splitlines()
    text += ["", "# A sample of made lists, each up to a first answer of its kind (tools/compare.py --keep)."]
    short = [(key, short_sample(oracle, key, lines)) for key, lines in sample.items()]
    for key, lines in sorted(short, key=lambda x: (len(x[1]), x[0])):
        text += ["# " + ": ".join(key)] + lines
    was = open(folder + "/stdin", "rb").read()
    start, by_hand = was[:was.index(MADE.encode())], was[was.index(BY_HAND.encode()):]
    given = start + ("\n".join(text) + "\n\n").encode() + by_hand
    open(folder + "/stdin", "wb").write(given)
    open(folder + "/stdout", "wb").write(ran(oracle, given)[0])


def main():
    args = argparse.ArgumentParser()
    args.add_argument("--calls", type=int, default=2000000)
    args.add_argument("--seed", type=int, default=1)
    args.add_argument("--random", action="store_true")
    args.add_argument("--keep")
    args = args.parse_args()
    built = subprocess.run([here + "/oracle/build"], stdout=subprocess.PIPE)
    if built.returncode:
        sys.exit("no oracle, nothing compared")
    oracle = built.stdout.decode().strip()
    it = Comparison((here + "/../target/bin/replay", oracle), args.calls, args.keep)
    it.directed(directed.lists())
    it.all("every size", every_size(args.seed))
    if not args.random:
        it.all("sizes and lines refused", sizes_lists())
        it.all("short", small_lists())
        it.all("turns", turn_lists(args.seed))
    it.all("drawn", random_lists(args.seed), args.calls - it.calls - args.calls // 20)
    it.all("read", read_lists(it.payloads, args.seed), args.calls - it.calls)
    it.summary(args.seed)
    if args.keep:
        keep(args.keep, oracle, it.sample)


if __name__ == "__main__":
    main()
