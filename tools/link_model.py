#!/usr/bin/env python3
"""A model of 02's 7/14, the pretend link, from the papers alone: lists and positions, no ring, no bits, no bytes.

    tools/link_model.py < LINES     the lines and answers of program `link_trial`

It knows nothing of the Rust or of the library. W may be up to 256, as 02's 8/14 has it, where `MOST_WINDOW` says so."""
import sys

TURN, LATEST, LIMIT, MOST_STEPS, MOST_WINDOW = 65536, 2**64 - 1, 1400, 65536, 128
NARROW = {"K": 255, "R": 255, "X": 1, "M": 255, "FIGURE": 65535}
NAMES = "T1 G K R X D M SIZE W C Q SEED DROP FIGURE BUDGET".split()


def draw(last):
    return (last * 1664525 + 1013904223) % 2**32


def words(value):
    """How many words a value of the load asks to send."""
    return (value >> 28 & 7) + 1 if value >> 31 else 0


def later(now, wait):
    return min(now + wait, LATEST)


# ---- commands of a payload: ("data", position, words), ("error", number) or ("request", number, count)
def size(command):
    return 4 + 4 * (command[2] if command[0] == "data" else 1)


class Payload:
    """Commands in order, and the bytes that are left."""

    def __init__(self):
        self.commands, self.left = [], LIMIT - 4

    def takes(self, command):
        """Adds a command, if it fits."""
        if size(command) > self.left:
            return False
        self.commands.append(command)
        self.left -= size(command)
        return True


class Sender:
    """Commands held, oldest first, each by how many words it has; those from place `new` on are not written yet. `used` are their
    words and headers."""

    def __init__(self, t):
        self.t = t
        self.held, self.oldest, self.new, self.used = [], 0, 0, 0
        self.waiting = []
        self.idle = None

    def unwritten(self):
        return len(self.held) - self.new

    def make_room(self, n):
        """For n words more, which are then used."""
        while self.used + n > self.t["C"]:
            self.used -= 1 + self.held.pop(0)
            self.oldest += 1
            self.new -= 1
        self.used += n

    def queue(self, n):
        """n messages of one word; whether they are taken."""
        if n == 0:
            return True
        most = self.t["SIZE"]
        joined = min(n, max(most - self.held[-1], 0)) if self.unwritten() else 0
        rest = n - joined
        opened = [most] * (rest // most) + [rest % most] * (rest % most > 0)
        if n + len(opened) > self.t["C"] - sum(1 + w for w in self.held[self.new:]):
            return False
        if joined:
            self.make_room(joined)
            self.held[-1] += joined
        for count in opened:
            self.make_room(1 + count)
            self.held.append(count)
        return True

    def request(self, number, count):
        """The error to send, if that is the answer."""
        place = (number - self.oldest) % TURN
        if not self.t["X"]:
            return None
        if place >= self.new:
            return "error", self.oldest % TURN
        if number not in [n for n, _ in self.waiting] and len(self.waiting) < self.t["Q"]:
            self.waiting.append((number, count))
        return None

    def data(self, place):
        return "data", self.oldest + place, self.held[place]

    def serve(self, payload):
        """Answers the waiting requests; whether all of them fit."""
        while self.waiting:
            number, count = self.waiting[0]
            place = (number - self.oldest) % TURN
            if place >= self.new:
                if not payload.takes(("error", self.oldest % TURN)):
                    return False
            else:
                last = self.new - 1 if count == 0 else min(place + count, self.new) - 1
                for k in range(place, last + 1):
                    if not payload.takes(self.data(k)):
                        self.waiting[0] = (self.oldest + k) % TURN, last + 1 - k
                        return False
            self.waiting.pop(0)
        return True

    def queue_idle(self, now):
        if self.idle is None or self.unwritten() or now < self.idle[0]:
            return
        self.make_room(1)
        self.held.append(0)
        _, step, wait = self.idle
        step += 1
        if step > self.t["R"]:
            wait = min(wait * self.t["G"], LATEST)
        self.idle = (later(now, wait), step, wait) if step < 1 + self.t["R"] + self.t["K"] else None

    def write(self, now, payload):
        if not self.serve(payload):
            return
        self.queue_idle(now)
        if self.unwritten() == 0 or size(self.data(self.new)) > payload.left:
            return
        first, room = self.new, payload.left - size(self.data(self.new))
        while first > max(self.new - self.t["R"], 0) and size(self.data(first - 1)) <= room:
            first -= 1
            room -= size(self.data(first))
        for k in range(first, self.new):
            payload.takes(self.data(k))
        while self.unwritten() and payload.takes(self.data(self.new)):
            if self.held[self.new]:
                self.idle = later(now, self.t["T1"]), 0, self.t["T1"]
            self.new += 1


class Receiver:
    """The highest position heard, and the missing ones, at most W behind it."""

    def __init__(self, t):
        self.t = t
        self.highest, self.missing = -1, set()
        self.timer, self.due, self.asked = None, False, None

    def settle(self):
        if not self.missing:
            self.timer, self.due, self.asked = None, False, None

    def hear(self, now, number):
        """Whether the command is handed on, whether it brings a new gap, and whether it reports a loss."""
        ahead = (number - self.highest) % TURN
        if 1 <= ahead <= 0x7FFF:
            before, self.highest = self.highest, self.highest + ahead
            self.missing |= set(range(before + 1, self.highest))
            lost = {p for p in self.missing if self.highest - p > self.t["W"]}
            self.missing -= lost
            gap = ahead > 1
            if gap and self.missing and self.t["X"] and (self.timer is None or self.timer[1] > 0):
                self.timer = later(now, self.t["D"]), 0
            self.settle()
            return True, gap, bool(lost)
        position = self.highest - (self.highest - number) % TURN
        late = position in self.missing
        self.missing.discard(position)
        self.settle()
        return late, False, False

    def error(self):
        """Whether a Retransmit Error reports a loss."""
        if self.asked is None:
            return False
        first, count = self.asked
        self.asked = None
        lost = {p for p in self.missing if (p - first) % TURN < count}
        self.missing -= lost
        self.settle()
        return bool(lost)

    def poll(self, now):
        """Whether a poll reports a loss."""
        if self.timer is None or now < self.timer[0]:
            return False
        sent = self.timer[1]
        if self.t["X"] and sent < self.t["M"]:
            self.due = True
            self.timer = later(now, self.t["D"] * 2 ** min(sent + 1, 32)), sent + 1
            return False
        lost = bool(self.missing)
        self.missing = set()
        self.settle()
        return lost

    def take(self):
        """The request that is due, if there is one."""
        due, self.due = self.due, False
        if not (due and self.missing and self.t["X"]):
            return None
        oldest = min(self.missing)
        self.asked = oldest % TURN, self.highest - oldest
        return self.asked


class Link:
    """A console, a line and a chamber; what is counted of a run, and `log`, what happened when."""

    def __init__(self, t):
        self.t = t
        self.console, self.chamber = Sender(t), Receiver(t)
        self.load, self.line, self.error = t["SEED"], t["DROP"], None
        self.steps = self.handed = self.empty = self.full = 0
        self.losses = {"New": 0, "poll": 0, "Error": 0}
        self.gap, self.longest = None, 0
        self.log = []

    def lose(self, how, what=""):
        self.losses[how] += 1
        self.log.append((self.steps, "loss by " + how, what))

    def hear(self, command):
        if command[0] == "error":
            if self.chamber.error():
                self.lose("Error")
            return
        handed, gap, lost = self.chamber.hear(self.steps, command[1] % TURN)
        self.handed += handed
        self.empty += handed and command[2] == 0
        if gap:
            self.gap = self.steps
            self.log.append((self.steps, "gap before", command[1]))
        if lost:
            self.lose("New", command[1])

    def step(self):
        now = self.steps
        self.load, self.line = draw(self.load), draw(self.line)
        self.full += not self.console.queue(words(self.load))
        payload = Payload()
        if self.error:
            payload.takes(self.error)
        self.error = None
        self.console.write(now, payload)
        if self.line % 256 >= self.t["FIGURE"]:
            for command in payload.commands:
                self.hear(command)
        if self.chamber.poll(now):
            self.lose("poll")
        if self.chamber.missing:
            self.longest = max(self.longest, now - self.gap)
        asked = self.chamber.take()
        if asked:
            self.error = self.console.request(*asked)
            self.log.append((now, "request", asked + (self.error or ("taken",))))
        self.steps += 1

    def run(self):
        for _ in range(self.t["BUDGET"]):
            self.step()
        return self

    def report(self):
        return "%d %d %d" % (self.steps, self.handed, sum(self.losses.values()))


def refusal(t):
    """The number by which a run is refused, or 0."""
    if not 1 <= t["SIZE"] <= 64:
        return 9
    if not 1 <= t["T1"] <= 300:
        return 7
    if t["G"] == 0:
        return 8
    sizes = 1 <= t["W"] <= MOST_WINDOW and 65 <= t["C"] <= 32768 and 1 <= t["Q"] <= 16
    return 0 if sizes and t["BUDGET"] <= MOST_STEPS else 12


def trial(line):
    """A line's figures by name, or nothing."""
    fields = line.split(" ")
    if len(line) > 4096 or len(fields) != len(NAMES) or not all(f.isascii() and f.isdigit() for f in fields):
        return None
    t = dict(zip(NAMES, map(int, fields)))
    return t if all(n <= NARROW.get(name, 2**32 - 1) for name, n in t.items()) else None


def answer(line):
    t = trial(line)
    if t is None:
        return "bad"
    return "refused %d" % refusal(t) if refusal(t) else Link(t).run().report()


if __name__ == "__main__":
    for given in sys.stdin.buffer:
        given = given.decode("latin-1").removesuffix("\n").removesuffix("\r")
        if given and not given.startswith("#"):
            print(answer(given), flush=True)
