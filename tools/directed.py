"""Call lists for corners that drawn lists do not reach, each with the corners that it is there for. tools/compare.py
runs them in every run, and counts how often each corner is seen in the answers: a list that no longer gets to its
corner is an error.

A list is run by a program of its own, from its start on."""
import random

TOP = 2**64 - 1
FRESH = "open 1400 1400"
DEFAULT = "cfg 100 2 5 2 1 10 3 64"


class Directed:
    """A list of calls, and by name the tests, of a call and its answer, that some pair has to pass. `kept` lists are short
    and go into the gate's recorded answers."""

    def __init__(self, name, lines, corners, kept=False):
        self.name, self.lines, self.corners, self.kept = name, lines, corners, kept


def of_state(test):
    """A test of the fields of a shown state."""
    def tested(call, answer):
        if call != "state":
            return False
        words = answer.split(" ")
        return test(dict(zip(words[::2], words[1::2])))
    return tested


def part(field, place, value):
    """A state in which this part of a field, its parts joined by commas, has this value."""
    def tested(state):
        parts = state[field].split(",")
        return len(parts) > place and parts[place] == str(value)
    return of_state(tested)


def has(field, value):
    return part(field, 0, value)


def answered(call, answer):
    return lambda c, a: c.startswith(call) and a == answer


def waiting(state):
    return [] if state["ring"] == "-" else [q.split(",")[0] for q in state["ring"].split(";")]


def defaults():
    """The settings of a run's start: D 10, M 3, T1 100, G 2, K 5, R 2, 64 words, retransmits on."""
    lines = ["data 0 1", "state", "poll 9", "state"]
    for now in (10, 30, 70, 149, 150):
        lines += ["poll %d" % now, "last", "state"]
    lines += ["queue " + " ".join(["20903C40"] * 65), FRESH, "write 0", "state"]
    for now in (100, 200, 300, 500, 900, 1700, 3300, 6500, 12900):
        lines += [FRESH, "write %d" % now, "payload", "deadline"]
    lines += ["request 0 1"]
    return Directed("the settings of a run's start", lines, {
        "D is 10": part("timer", 0, 10), "M is 3": lambda c, a: c == "poll 150" and a == "loss 0 1",
        "T1 is 100": part("idle", 0, 100), "idle commands end at 6500": answered("deadline", "none"),
        "retransmits are on": answered("request 0 1", "queued")}, kept=True)


def power_cap():
    """The power of two that multiplies D stops at 2^32: 10 ms after 43 requests made due at 0."""
    lines = ["cfg 100 2 5 2 1 0 255 64", "new 64 256 4", "data 0 1"] + ["poll 0"] * 42 + ["cfg 100 2 5 2 1 10 255 64", "poll 0", "state", "deadline"]
    return Directed("the power capped at 2^32", lines, {
        "timer count 43": part("timer", 1, 43), "the next delay is 10 times 2^32": answered("deadline", "42949672960")}, kept=True)


def delays(d, m):
    """Every delay from D on, polled a millisecond early and on time, up to the loss."""
    lines = ["cfg 100 2 5 2 1 %d %d 64" % (d, m), "new 64 256 4", "data 0 3 20903C40", "state"]
    now = 0
    for i in range(60):
        now = min(now + d * 2**min(i, 32), TOP)
        lines += ["poll %d" % max(now - 1, 0), "last", "state", "poll %d" % now, "last", "state", "deadline"]
        if i % 7 == 3:
            lines += [FRESH, "write %d" % now if i % 2 else "take", "state", "payload"]
    corners = {"timer count 32": part("timer", 1, 32)}
    if m > 32:
        corners["timer count 33"] = part("timer", 1, 33)
    if m == 255 and d == 2**32 - 1:
        corners["request timer at 2^64-1"] = part("timer", 0, TOP)
    if m < 60:
        corners["loss after %d requests" % m] = lambda c, a: c.startswith("poll") and a == "loss 0 3"
    return Directed("delays from D %d, M %d" % (d, m), lines, corners)


def idle_steps(shown):
    """1 + R + K idle commands with R and K 255: steps 0 to 510, then none."""
    lines = ["cfg 1 1 255 255 1 10 3 64", "new 64 256 4", "queue 20903C40", FRESH, "write 0", "state"]
    for now in range(1, 516):
        lines += ["open 8 8", "write %d" % now]
        if shown:
            lines += ["state", "payload", "deadline", "wants %d" % now]
        elif now > 508:
            lines += ["state", "deadline"]
    return Directed("all idle steps" + (", shown" if shown else ""), lines, {
        "idle step 510": part("idle", 1, 510), "no idle command after step 510": answered("deadline", "none")}, kept=not shown)


def idle_growth():
    """Step 505, then growth 2^32-1: the interval and the time saturate."""
    lines = ["cfg 300 1 255 255 1 10 3 64", "new 1 65 1", "queue 20903C40", FRESH, "write 0", "state"]
    now = 0
    for _ in range(505):
        now += 300
        lines += ["open 8 8", "write %d" % now]
    lines += ["state", "cfg 300 4294967295 255 255 1 10 3 64"]
    for i in range(8):
        now = min(now * 4294967295 + 300 if i else now + 300, TOP)
        lines += [FRESH, "write %d" % now, "state", "payload", "deadline"]
    return Directed("growing idle intervals", lines, {
        "idle interval 2^64-1": part("idle", 2, TOP), "idle command due at 2^64-1": part("idle", 0, TOP)})


def saturation():
    """Timer and idle command past the end of time; the clock goes back."""
    lines = ["cfg 300 4294967295 255 0 1 4294967295 255 64", "new 2 65 1", "queue 20903C40"]
    for now in (TOP - 400, TOP - 100, TOP, TOP):
        lines += [FRESH, "write %d" % now, "state", "payload"]
    lines += ["data %d 5" % (TOP - 1), "last", "state"]
    for now in (TOP, TOP, 0, TOP):
        lines += ["poll %d" % now, "state", "deadline"]
    lines += ["write 0", "state", "wants 0", "wants %d" % TOP]
    return Directed("times that saturate", lines, {
        "request timer at 2^64-1": part("timer", 0, TOP), "idle command due at 2^64-1": part("idle", 0, TOP)}, kept=True)


def full_ring(rng, rounds):
    """The ring of 16 filled past its end, served in payloads of all sizes, and filled again between."""
    lines = ["cfg 100 2 5 0 1 10 3 1", "new 64 256 16", FRESH]
    for i in range(40):
        lines += ["queue 2090%04X" % i, FRESH, "write 0"]
    for turn in range(rounds):
        for i in range(20):
            lines += ["request %d %d" % (i * 2, rng.choice([0, 1, 2, 5])), "state"]
        for limit in (16, 24, 40, 12, 8, 100, 1400):
            lines += ["open %d 1400" % limit, "write 1", "state", "payload"]
            for _ in range(3):
                lines += ["request %d %d" % (rng.randrange(40), rng.choice([0, 1, 3])), "state"]
            if turn > 3:
                lines += ["queue " + " ".join(["20903C40"] * 30), "state"]
    return Directed("a full ring of 16" if rounds == 1 else "a full ring of 16, %d times" % rounds, lines, {
        "16 requests wait": of_state(lambda s: len(waiting(s)) == 16), "Full": lambda c, a: c.startswith("request") and a == "full",
        "Pending": lambda c, a: c.startswith("request") and a == "pending"}, kept=rounds == 1)


def served_in_part():
    """A request that is served in part moves on: its number may be queued again, and the place where it goes on is Pending."""
    lines = ["cfg 100 2 5 0 1 10 3 1", "new 64 256 4"]
    for i in range(4):
        lines += ["queue 2090%04X" % i, FRESH, "write 0"]
    lines += ["request 0 0", "open 20 20", "write 0", "payload", "state", "request 2 0", "request 0 0", "state", "request 3 0", "open 12 12", "write 0",
              "payload", "state", "request 3 0", FRESH, "write 0", "payload", "state"]
    return Directed("a request served in part", lines, {
        "the place where a request goes on is Pending": answered("request 2 0", "pending"),
        "its first number is queued again": of_state(lambda s: waiting(s) == ["2", "0"]),
        "two requests wait for one number": of_state(lambda s: len(set(waiting(s))) < len(waiting(s)))}, kept=True)


def left_the_history():
    """A number leaves the history while its request waits: the write puts the error in, with the oldest number of that time."""
    lines = ["new 64 65 4", "queue 20903C40", FRESH, "write 0", "request 0 0", "queue " + " ".join(["20903C40"] * 63), "state", FRESH, "write 0", "payload", "state"]
    return Directed("a request whose number has left", [DEFAULT] + lines, {
        "an error written by a write": lambda c, a: c == "payload" and a.startswith("4D4944498101010000010000")}, kept=True)


def long_history(rng, q):
    """4,096 words, filled by queue calls of up to 454 words, evicting; unwritten words until 6; all written again."""
    lines = ["cfg 100 2 5 2 1 10 3 %d" % rng.choice([64, 63, 7, 64]), "new 128 4096 %d" % q, FRESH]
    for i in range(400):
        n = rng.choice([1, 2, 64, 65, 130, 200, 256, 257, 400, 454])
        lines += [" ".join(["queue" if n <= 256 else "queuelong"] + ["2%07X" % rng.getrandbits(28) for _ in range(n)]), "state"]
        if rng.randrange(3) == 0:
            lines += ["request %d %d" % (rng.randrange(max(1, i * 2)), rng.randrange(5)), "state"]
        for _ in range(rng.choice([0, 0, 1, 1, 2])):
            lines += ["open %d 1400" % rng.choice([1400, 1400, 268, 600]), "write %d" % (i * 10), "state", "payload"]
    for _ in range(12):
        lines += ["queuelong " + " ".join(["20903C40"] * 450), "state", "queue 20903C40", "state"]
    for _ in range(40):
        lines += [FRESH, "write 9000", "payload", "state"]
    return Directed("a history of 4,096 words, ring %d" % q, lines + ["memory"], {
        "4,096 words, evicting": of_state(lambda s: int(s["used"]) > 4096 - 66 and s["oldest"] != "0"),
        "more than 256 words queued at once": lambda c, a: c.startswith("queuelong") and a == "ok",
        "no room in 4,096 words": lambda c, a: c.startswith("queue") and a == "refused 6"})


def brim():
    """64 commands of 63 words and their headers: 4,096 words to the last, then one command more."""
    words = " ".join(["20903C40"] * 63)
    lines = ["cfg 100 2 5 0 1 10 3 63", "new 128 4096 1"]
    for i in range(65):
        lines += ["queue " + words, FRESH, "write 0"]
        if i > 62:
            lines.append("state")
    return Directed("4,096 words to the last", lines + ["next"], {
        "4,096 words in use": has("used", 4096), "the oldest of 4,096 words has left": of_state(lambda s: s["used"] == "4096" and s["oldest"] == "1")})


def turn_later(name, ask, numbers, kept):
    """W 1: a request for number 0, then numbers up to a whole turn after it: the error marks position 65,536."""
    lines = [DEFAULT, "new 1 65 1", "data 0 1", "poll 10", FRESH, ask, "state"] + ["data 20 %d" % (n % 65536) for n in numbers]
    return Directed(name, lines + ["state", "window 0 1", "error 1 0", "last", "state", "error 2 7", "last"], {
        "a loss a whole turn after its request": answered("error 1 0", "loss 0 1"), "the error of a loss": answered("last", "loss 1,0"),
        "an error without a loss": answered("last", "error 2,7")}, kept=kept)


def lists(seed=5):
    rng = random.Random(seed)
    yield defaults()
    yield power_cap()
    yield idle_steps(False)
    yield saturation()
    yield full_ring(rng, 1)
    yield served_in_part()
    yield left_the_history()
    yield turn_later("a whole turn later", "write 10", [32768, 65535, 65537], True)
    yield turn_later("a whole turn later, request taken alone", "take", [32768, 65535, 65537], True)
    yield turn_later("a whole turn later, number by number", "write 10", range(3, 65538, 2), False)
    yield turn_later("a whole turn later, number by number, request taken alone", "take", range(3, 65538, 2), False)
    yield idle_steps(True)
    yield idle_growth()
    for d in (0, 1, 3, 10, 2**32 - 1):
        for m in (32, 33, 34, 40, 255):
            yield delays(d, m)
    yield full_ring(rng, 6)
    yield brim()
    for q in (1, 4, 16):
        yield long_history(rng, q)
