"""The page and the plot of a run of the benchmark."""
import os
import re

here = os.path.dirname(os.path.abspath(__file__))


def without(row, key):
    """Of a row, what is left without its state tests."""
    if "tests" not in row:
        return None
    if key == "time":
        return row["ours"][0] - row["tests"][0]
    return row["ours_count"] - row["tests_count"]


def figure(x):
    return "" if x is None else "%.1f" % x if x < 100 else "%.0f" % x


def ratio(a, b):
    return "" if a is None else "%.2f" % (a / b)


def spread(side):
    median, low, high = side
    return "%.0f%%" % (100 * (high - low) / median)


def table(rows):
    lines = [
        "| row | ns | tests | Rust | ratio | without tests | spread | instructions | tests | Rust | ratio | without tests |",
        "|---|--:|--:|--:|--:|--:|--:|--:|--:|--:|--:|--:|",
    ]
    for r in rows:
        tests, count = r.get("tests", (None,))[0], r.get("tests_count")
        lines.append("| %s | %s | %s | %s | **%s** | %s | %s, %s | %s | %s | %s | **%s** | %s |" % (
            r["name"], figure(r["ours"][0]), figure(tests), figure(r["rust"][0]), ratio(r["ours"][0], r["rust"][0]),
            ratio(without(r, "time"), r["rust"][0]), spread(r["ours"]), spread(r["rust"]),
            figure(r["ours_count"]), figure(count), figure(r["rust_count"]), ratio(r["ours_count"], r["rust_count"]),
            ratio(without(r, "count"), r["rust_count"])))
    return "\n".join(lines)


# The most that a row's time may be of the Rust's, by how its name begins: what is aimed at, and for whole rounds what they were
# in 0.2.1, before a stream's words were packed.
GOALS = {
    "hear a command": 1.0, "poll": 2.5, "accept a number": 0.9, "write a command, 1 word": 1.3,
    "a whole round, 1 word, history 256": 0.48, "a whole round, 1 to 4 words": 0.98, "a whole round, 16 words": 0.74,
    "a whole round, 192 words": 0.31, "a whole round, 1 word, history 4096": 0.21,
}


def goals(rows):
    """Each row that has a goal beside it; the figures are those of the table, to two places."""
    lines = ["| row | at most | ratio | |", "|---|--:|--:|---|"]
    for r in rows:
        for start, most in GOALS.items():
            if r["name"].startswith(start):
                reached = ratio(r["ours"][0], r["rust"][0])
                lines.append("| %s | %.2f | %s | %s |" % (r["name"], most, reached, "met" if float(reached) <= most else "**not met**"))
    return "\n".join(lines)


def growth(rows):
    lines = ["| row | ns | Rust | ratio | instructions | Rust | ratio |", "|---|--:|--:|--:|--:|--:|--:|"]
    for r in rows:
        lines.append("| %s | %s | %s | %s | %s | %s | %s |" % (
            r["name"], figure(r["ours"][0]), figure(r["rust"][0]), ratio(r["ours"][0], r["rust"][0]),
            figure(r["ours_count"]), figure(r["rust_count"]), ratio(r["ours_count"], r["rust_count"])))
    return "\n".join(lines)


# Rows by their beginnings, and what this library does there that the Rust does not. How much it is stands in the table.
CAUSES = (
    ("read a payload", "one call for each command, which leaves words and lengths in the caller's arrays; the Rust's loop has no call"),
    ("write a command", "opening and writing are one call, which no compiler inlines into the caller; the words are walked over before the first is written"),
    ("the same steps apart, a command", "a payload is tested, loaded from words and stored again by each call"),
    ("the same steps apart", "each step is tested by itself"),
    ("accept a number", "the window's words are tested, loaded and stored; its size is a value, not a constant of the type, so that masks are computed at each arrival"),
    ("hear a payload by commands", "two calls for each command, one that leaves its words in the caller's array and one that tests settings and words; the Rust's loop has one"),
    ("hear a payload in one call", "the words of both ends and the settings are tested; each answer is stored in the caller's array"),
    ("hear a command", "the receiver's words and the settings are tested, loaded and stored; the window's size is a value"),
    ("poll", "the settings and the receiver's words are tested, which is nearly all of it; in the Rust one comparison is all"),
    ("queue and write in one call", "the history's headers are walked once to test the state; the Rust has no such test"),
    ("queue and write", "each of the two calls walks the history's headers to test its state"),
    ("serve a request", "two walks over the history's headers, each of them a call's state test; the Rust has one"),
    ("serve the newest", "two walks over the history's headers, each of them a call's state test; the Rust has one"),
    ("resend", "each of the two calls walks the history's headers to test its state, however short the command"),
    ("a whole round", "each call tests its state, and those of the sender walk the history's headers for it"),
    ("a step of the pretend link", "each call of a stream tests its state; what that is in a step is not measured apart"),
    ("ask whether to write", "the state test, which walks the history's headers, and nothing else; in the Rust one comparison"),
    ("a jump", "a multiplication for each binary digit of n; single draws are made some dozens at a time by the compiler"),
    ("figures of a record", "records are tested, and the words of the ring once in a call; the sheet in Rust tests nothing"),
)


def cause(name):
    return next((words for start, words in CAUSES if name.startswith(start)), "not looked into")


def slower(rows):
    """The rows that take more time than the Rust's, with what their instructions say."""
    lines = ["| row | time | instructions | more than the Rust's | the tests alone | what is done here |", "|---|--:|--:|--:|--:|---|"]
    for r in rows:
        if r["ours"][0] <= r["rust"][0]:
            continue
        more = r["ours_count"] - r["rust_count"]
        lines.append("| %s | %s | %s | %s | %s | %s |" % (
            r["name"], ratio(r["ours"][0], r["rust"][0]), ratio(r["ours_count"], r["rust_count"]),
            figure(more) if more > 0 else "none", figure(r.get("tests_count")), cause(r["name"])))
    return "\n".join(lines)


BEFORE, PAST = ", before the end", ", past the end"


def past(rows):
    """Commands that pass the history's end beside the same ones that do not, then what one word more costs."""
    def quick(r, side):
        return r[side][1]

    def count(r, side):
        return r[side + "_count"]

    def words(r):
        return int(re.search(r"\d+", r["name"]).group())
    named = {r["name"]: r for r in rows}
    pairs = [(r, named[n.replace(BEFORE, PAST)]) for n, r in named.items() if n.endswith(BEFORE)]
    lines = ["| row | ns, before the end | past the end | ratio | instructions, before the end | past the end | ratio |", "|---|--:|--:|--:|--:|--:|--:|"]
    for a, b in pairs:
        shown = [x for of in (quick, count) for x in (figure(of(a, "ours")), figure(of(b, "ours")), ratio(of(b, "ours"), of(a, "ours")))]
        lines.append("| %s | %s |" % (a["name"].removesuffix(BEFORE), " | ".join(shown)))
    lines += ["", "| a word more | before the end | past the end | Rust | copied and swapped | past the end / copied |", "|---|--:|--:|--:|--:|--:|"]
    (a, b), (c, d) = pairs[-2:]
    for what, of in (("ns", quick), ("instructions", count)):
        each = [(of(y, side) - of(x, side)) / (words(c) - words(a)) for x, y, side in ((a, c, "ours"), (b, d, "ours"), (b, d, "rust"), (b, d, "copy"))]
        lines.append("| %s | %s | %s |" % (what, " | ".join("%.2f" % x for x in each), ratio(each[1], each[3])))
    return "\n".join(lines)


def stacks(rows):
    lines = ["| row | this library | the Rust |", "|---|--:|--:|"]
    return "\n".join(lines + ["| %s | %d | %d |" % (r["name"], *r["stack"]) for r in rows])


def page(machine, rounds, rows, ours, same, rust):
    plain = [r for r in rows if not r["series"]]
    text = open(here + "/page.md").read()
    return text.format(
        machine=machine, rounds=rounds, table=table(plain), goals=goals(plain), slower=slower(rows), past=past(plain), growth=growth([r for r in rows if r["series"]]),
        ours=sum(sum(functions.values()) for functions in ours), same=same,
        exports=sum(n.startswith("sirmjold_") for functions in ours for n in functions), rust=sum(rust.values()),
        stacks=stacks([r for r in plain if not r["name"].startswith("the same")]))


# ---- the plot
BLUE, PALE, GREY = "#2b6cb0", "#a3c4e8", "#777777"


def text(x, y, words, size=11, anchor="start", colour="#222222"):
    return '<text x="%.1f" y="%.1f" font-size="%d" text-anchor="%s" fill="%s">%s</text>' % (x, y, size, anchor, colour, words)


def line(x1, y1, x2, y2, colour, width=1.0, dash=""):
    dash = ' stroke-dasharray="%s"' % dash if dash else ""
    return '<line x1="%.1f" y1="%.1f" x2="%.1f" y2="%.1f" stroke="%s" stroke-width="%.1f"%s/>' % (x1, y1, x2, y2, colour, width, dash)


def bars(rows, left, top, width):
    """Time as a part of the Rust's: with the tests, and without them where the row has such."""
    most, step = 4.0, 17
    scale = width / most
    parts = [text(left, top - 26, "time, the Rust's = 1", 13)]
    for k in range(int(most) + 1):
        x = left + k * scale
        parts += [line(x, top - 6, x, top + len(rows) * step, "#222222" if k == 1 else "#dddddd"), text(x, top - 10, k, 10, "middle", GREY)]
    for i, r in enumerate(rows):
        y = top + i * step
        whole = r["ours"][0] / r["rust"][0]
        part = without(r, "time")
        shown = min(whole, most) * scale
        parts.append('<rect x="%.1f" y="%.1f" width="%.1f" height="11" fill="%s"/>' % (left, y, shown, PALE if part is not None else BLUE))
        if part is not None:
            parts.append('<rect x="%.1f" y="%.1f" width="%.1f" height="11" fill="%s"/>' % (left, y, min(part / r["rust"][0], most) * scale, BLUE))
        parts += [text(left - 6, y + 9, r["name"], 10, "end"), text(left + shown + 4, y + 9, "%.2f" % whole, 10, "start", GREY)]
    return parts, top + len(rows) * step


def curve(rows, title, left, top, width, height):
    """ns against a size, both in powers of two."""
    from math import log2
    xs = [log2(max(1, int(r["series"][1]))) for r in rows]
    values = [r[side][0] for r in rows for side in ("ours", "rust")]
    low, high = log2(min(values)) - 0.3, log2(max(values)) + 0.3
    wide = max(xs) - min(xs) or 1

    def at(r, side):
        x = left + (log2(max(1, int(r["series"][1]))) - min(xs)) / wide * width
        return x, top + height - (log2(r[side][0]) - low) / (high - low) * height
    parts = [text(left, top - 8, title, 11), line(left, top + height, left + width, top + height, GREY), line(left, top, left, top + height, GREY)]
    for r in rows:
        parts.append(text(at(r, "ours")[0], top + height + 13, r["series"][1], 9, "middle", GREY))
    for side, colour in (("ours", BLUE), ("rust", GREY)):
        points = [at(r, side) for r in rows]
        parts.append('<polyline points="%s" fill="none" stroke="%s" stroke-width="1.6"/>' % (" ".join("%.1f,%.1f" % p for p in points), colour))
        for (x, y), r in ((points[0], rows[0]), (points[-1], rows[-1])):
            parts.append(text(x, y - 4, "%.0f" % r[side][0], 9, "middle", colour))
    return parts


def plot(rows):
    plain = [r for r in rows if not r["series"]]
    parts, bottom = bars(plain, 300, 60, 400)
    parts += [text(300, bottom + 18, "dark: without the tests, where the row has them apart", 10, "start", GREY)]
    titles = {}
    for r in rows:
        if r["series"]:
            titles.setdefault(r["name"].rsplit(",", 1)[0], []).append(r)
    y, end = bottom + 60, bottom + 60 + (len(titles) + 1) // 2 * 190
    for i, (title, group) in enumerate(titles.items()):
        parts += curve(group, title + " (ns)", 60 + i % 2 * 380, y + i // 2 * 190, 320, 130)
    parts.append(text(60, end, "blue: this library; grey: the Rust; both axes in powers of two", 10, "start", GREY))
    return ('<svg xmlns="http://www.w3.org/2000/svg" width="800" height="%d" font-family="sans-serif">\n<rect width="100%%" height="100%%" fill="white"/>\n%s\n</svg>\n'
            % (end + 20, "\n".join(parts)))
