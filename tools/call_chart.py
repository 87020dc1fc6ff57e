"""A run of a call script as a sequence chart: time goes down, payloads go across.

One stream is one end of a link, and the other end is not in the script: what is written goes there, what is read comes from
there. With a remark `# ends: NAME, NAME` the stream serves as both ends, and each arrow goes from the call that writes a
payload to the call that first takes it in."""
import re
import textwrap
from xml.sax.saxutils import escape

import call_script

SETS = ("cfg", "new", "reset")
WRITES = ("write", "take", "raw", "senddata", "sendrequest", "senderror")
TAKES = ("data", "request", "error")
RECEIVES = ("data", "poll", "error", "nak", "take")
PAYLOADS = ("read", "hear")
TIMED = ("write", "data", "poll", "hear")

INK, GREY, PALE = "#222222", "#6b7280", "#d1d5db"
GREEN, BLUE, AMBER, RED = "#2f855a", "#2b6cb0", "#b45309", "#c53030"
GRAVE = [GREY, GREEN, BLUE, AMBER, RED]
ROW, BETWEEN, MONO, SANS, BOLD_SANS = 26, 300, 7.3, 6.9, 7.8


# ---- what a run has
class Row:
    """A call: the side it stands at, None for both; what is written beside it; its time, where that is another than before."""

    def __init__(self, side, call, note, colour):
        self.side, self.call, self.note, self.colour = side, call, note, colour
        self.time, self.y = None, 0


class Heading:
    """What a remark `# --- TEXT` says, across the picture."""

    def __init__(self, words):
        self.words, self.lines, self.y = words, [], 0


class Arrow:
    """Commands that leave a side: the rows of the calls that write them and take them in, None where the script has no such call."""

    def __init__(self, items, side, start=None, end=None):
        self.items, self.side, self.start, self.end, self.lost = items, side, start, end, False


def key(item):
    """A command by its kind and number."""
    return ":".join(item.split(":")[:2]) if not item.startswith("error") else item


def span(first, n):
    return str(first) if n == 1 else "%d-%d" % (first, (first + n - 1) % 65536)


def numbers(first, n):
    return "number%s %s" % ("" if n == 1 else "s", span(first, n))


def named(item):
    """A command that is no data command."""
    kind, *parts = item.split(":")
    if kind == "request":
        return "request for " + span(int(parts[0]), int(parts[1])) if int(parts[1]) else "request from %s on" % parts[0]
    return "error %s at %s" % tuple(parts) if kind == "error" else kind + " " + parts[0]


def runs(items):
    """The numbers of data commands, those in a row joined; idle ones have no words."""
    found = []
    for _, number, *words in (i.split(":") for i in items):
        idle = words == ["-", "0"]
        if found and found[-1][2] == idle and (found[-1][0] + found[-1][1]) % 65536 == int(number):
            found[-1][1] += 1
        else:
            found.append([int(number), 1, idle])
    return ", ".join(span(first, n) + " (idle)" * idle for first, n, idle in found)


def label(items, room):
    data = [i for i in items if i.startswith("data")]
    said = ", ".join([named(i) for i in items if i not in data] + (["data " + runs(data)] if data else []))
    return said if len(said) <= room else said[:room - 2] + ".."


def short(call):
    """A call with as many of its words as there is room for."""
    name, *fields = call.split(" ")
    if name in PAYLOADS:
        *before, _ = call_script.FIELDS[name]
        return " ".join([name, *fields[:len(before)], call_script.plural(len("".join(fields[len(before):])) // 2, "byte")])
    fixed = len([k for _, k in call_script.FIELDS[name] if k != "*"])
    words = fields[fixed:]
    return call if len(words) <= 4 else " ".join([name, *fields[:fixed], *words[:3], ".. %d words" % len(words)])


def heard(answer, number):
    """What `data` answers, in words: its class, the numbers skipped, the loss it brings."""
    klass, gap, lost, first = answer.split(" ")[:4]
    if klass != "N":
        return ("Late", BLUE) if klass == "L" else ("Duplicate", GREY)
    note, colour = "New", GREEN
    if gap != "0":
        note, colour = note + ", gap: " + numbers((number - int(gap)) % 65536, int(gap)), AMBER
    if lost != "0":
        note, colour = note + ", lost: " + numbers(int(first), int(lost)), RED
    return note, colour


def told(name, answer):
    """What a call answers, in words; nothing where the call says it all."""
    fields = answer.split(" ")
    if fields[0] == "refused":
        return answer, RED
    if fields[0] == "loss":
        return "lost: " + numbers(int(fields[1]), int(fields[2])), RED
    if name == "write":
        return "%s, %s%s" % (call_script.plural(int(fields[1]), "command"), call_script.plural(int(fields[3]), "byte"), ", more" * int(fields[2])), GREY
    if name == "take":
        return {"ok 0": "nothing due", "more": "no room"}.get(answer, ""), GREY
    return ("" if answer in ("ok", "none", "-") or name == "read" or ":" in answer else answer), GREY


class Run:
    """The rows and arrows of a script."""

    def __init__(self, replay, names):
        self.replay, self.names = replay, names or ["this end", "other end"]
        self.both = names is not None
        self.parts, self.arrows = [], []
        self.written, self.wrote, self.waiting, self.time = [], [], [], None

    def ask(self, call):
        return self.replay.ask(call.encode() + b"\n")

    def side(self, name, items):
        """Where a call stands: the receiver's at the second end, if one stream serves as both."""
        receives = not any(i.startswith("request") for i in items) if name in PAYLOADS else name in RECEIVES
        return 1 if self.both and receives else 0

    def goes(self, item):
        """The side that a command leaves from."""
        return 1 if self.both and item.startswith("request") else 0

    def sends(self, row):
        """Arrows for the commands that a call has added to the payload."""
        payload = self.ask("payload")
        now = [] if payload == "-" else self.ask("read " + payload).split(" ")[1:]
        fresh = now[len(self.written):]
        self.written, self.wrote = now, []
        for side in (0, 1):
            items = [i for i in fresh if self.goes(i) == side]
            if items:
                self.wrote.append(Arrow(items, side, start=row))
        self.arrows += self.wrote

    def arrives(self, items, row):
        """The arrow of a payload that is taken in: one that was written and is on its way, whose other commands are here then too,
        or one that the script does not have."""
        keys = {key(i) for i in items}
        for arrow in reversed(self.arrows):
            if self.both and arrow.start and not arrow.end and not arrow.lost and keys & {key(i) for i in arrow.items}:
                arrow.end = row
                self.waiting = [i for i in arrow.items if key(i) not in keys]
                return
        self.arrows.append(Arrow(items, 1 - row.side, end=row))

    def takes(self, name, fields, row):
        """A command that is taken in: one of the payload read before, or one that arrives now."""
        item = "data:" + fields[1] if name == "data" else "%s:%s" % (name, ":".join(fields))
        for read in self.waiting:
            if key(read) == key(item):
                self.waiting.remove(read)
                return
        self.arrives([item], row)

    def items(self, name, fields):
        """What reading a payload finds."""
        found = self.ask(" ".join(["read", *fields[len(call_script.FIELDS[name]) - 1:]])) if name in PAYLOADS else "refused 1"
        return [] if found == "refused 1" else found.split(" ")[1:]

    def notes(self, items, answer):
        """What each command of a payload is answered, and the gravest colour."""
        both = [self.note(*item.split(":")[:2], one) for item, one in zip(items, answer.split(" | "))]
        return ", ".join(note for note, _ in both if note), max((colour for _, colour in both), key=GRAVE.index, default=GREY)

    def note(self, name, number, answer):
        if answer[:2] in ("N ", "L ", "D "):
            return heard(answer, int(number))
        if name == "poll" and answer == "none":
            return ("request due" if " due 1 " in self.ask("state") else ""), GREY
        return told(name, answer)

    def call(self, line, answer):
        """A call and its answer."""
        name, *fields = call_script.text(line).split(" ")
        items = self.items(name, fields)
        if name == "open" and answer == "ok":
            self.written = []
        if name in SETS:
            self.parts.append(Row(None, short(call_script.text(line)), *told(name, answer)))
        if name not in (*WRITES, *TAKES, "queue", "queuelong", "poll", "nak", *PAYLOADS):
            return
        note = self.notes(items, answer) if name == "hear" and items else self.note(name, fields[1] if name == "data" else None, answer)
        row = Row(self.side(name, items), short(call_script.text(line)), *note)
        if name in TIMED and fields[0] != self.time:
            row.time = self.time = fields[0]
        self.parts.append(row)
        if name in WRITES:
            self.sends(row)
        elif name in TAKES:
            self.takes(name, fields, row)
        elif items:
            self.arrives(items, row)
            self.waiting = list(items) if name == "read" else []

    def remark(self, line):
        text = call_script.text(line)
        heading = re.match(r"#\s*---\s*(.+)", text)
        if heading:
            self.parts.append(Heading(heading.group(1)))
        if re.match(r"#\s*lost\b", text):
            for arrow in self.wrote:
                arrow.lost = True


# ---- the picture
def text(x, y, words, size=12, anchor="start", colour=INK, more=""):
    return '<text x="%.1f" y="%.1f" font-size="%d" text-anchor="%s" fill="%s"%s>%s</text>' % (x, y, size, anchor, colour, more, escape(words))


def line(x1, y1, x2, y2, colour, width=1.0, more=""):
    return '<line x1="%.1f" y1="%.1f" x2="%.1f" y2="%.1f" stroke="%s" stroke-width="%.1f"%s/>' % (x1, y1, x2, y2, colour, width, more)


MONOSPACE = ' font-family="monospace"'
BOLD = ' font-weight="bold"'


class Picture:
    """A run, drawn: the ends are two lines down, calls stand beside their end, commands go between."""

    def __init__(self, run, title):
        self.run, self.title = run, title
        rows = [p for p in run.parts if isinstance(p, Row)]
        wide = [max([self.width(r) for r in rows if r.side == side], default=60) for side in (0, 1)]
        times = max([len(r.time) for r in rows if r.time], default=0)
        left = 20 + max(times, 4) * SANS + wide[0] + 40
        self.ends = left, left + BETWEEN
        self.width_all = max(self.ends[1] + max(wide[1] + 24, 80), 640)
        self.out = []
        self.height = self.place()

    def width(self, row):
        return len(row.call) * MONO + len(row.note) * (SANS if row.colour == GREY else BOLD_SANS) + (10 if row.note else 0)

    def place(self):
        """Gives each part its place; answers where the chart ends."""
        y = 92
        for part in self.run.parts:
            part.y = y
            if isinstance(part, Heading):
                part.lines = textwrap.wrap(part.words, int((self.width_all - 40) / SANS))
                part.y += 8
                y += 14 + 18 * len(part.lines)
            else:
                y += ROW if part.side is not None else ROW + 6
        return y + 6

    def heads(self):
        for x, name in zip(self.ends, self.run.names):
            half = len(name) * 4.2 + 14
            self.out += [line(x, 66, x, self.height, PALE, 2),
                         '<rect x="%.1f" y="40" width="%.1f" height="26" rx="4" fill="#f3f4f6" stroke="%s"/>' % (x - half, 2 * half, GREY),
                         text(x, 57, name, 13, "middle", INK, BOLD)]
        self.out += [text(20, 26, self.title, 13, "start", GREY), text(20, 57, "ms", 11, "start", GREY)]

    def heading(self, heading):
        self.out.append('<rect x="0" y="%.1f" width="100%%" height="%d" fill="#f3f4f6"/>' % (heading.y - 15, 18 * len(heading.lines) + 4))
        for k, words in enumerate(heading.lines):
            self.out.append(text(20, heading.y + 18 * k, words, 13, "start", INK, ' font-style="italic"'))

    def row(self, row):
        if row.time:
            self.out.append(text(20, row.y + 4, row.time, 11, "start", GREY))
        if row.side is None:
            middle = sum(self.ends) / 2
            half = self.width(row) / 2 + 8
            self.out += ['<rect x="%.1f" y="%.1f" width="%.1f" height="20" fill="white" stroke="%s"/>' % (middle - half, row.y - 10, 2 * half, PALE),
                         self.words(middle, row, "middle")]
            return
        x = self.ends[row.side]
        self.out += ['<circle cx="%.1f" cy="%.1f" r="3.5" fill="%s"/>' % (x, row.y, row.colour if row.note else GREY),
                     self.words(x - 12, row, "end") if row.side == 0 else self.words(x + 12, row, "start")]

    def words(self, x, row, anchor):
        note = '<tspan dx="10" fill="%s" font-family="sans-serif"%s>%s</tspan>' % (row.colour, BOLD if row.colour != GREY else "", escape(row.note)) if row.note else ""
        return '<text x="%.1f" y="%.1f" font-size="12" text-anchor="%s" fill="%s"%s>%s%s</text>' % (x, row.y + 4, anchor, INK, MONOSPACE, escape(row.call), note)

    def arrow(self, arrow):
        """From its side to the other; one that is lost, or whose other end is not in the script, stops or begins on the way."""
        start, end = self.ends[arrow.side], self.ends[1 - arrow.side]
        y1 = (arrow.start or arrow.end).y
        y2 = (arrow.end or arrow.start).y
        part = self.run.both and not (arrow.start and arrow.end)
        colour = RED if arrow.lost else GREY if part else INK
        if arrow.lost or part and arrow.start:
            end = start + (end - start) * 0.62
        elif part:
            start = end + (start - end) * 0.62
        sign = 1 if end > start else -1
        self.out.append(line(start + 5 * sign, y1, end - (0 if arrow.lost else 5) * sign, y2, colour, 1.4,
                             ' stroke-dasharray="5 3"' if part or arrow.lost else ""))
        self.out.append(self.cross(end, y2) if arrow.lost else self.point(end - 5 * sign, y2, start, y1, colour))
        if arrow.lost:
            self.out.append(text(end + 14 * sign, y2 + 4, "lost", 12, "start" if sign > 0 else "end", RED, BOLD))
        at = (start + end) / 2, (y1 + y2) / 2 - (5 if y1 == y2 else 8)
        for ink, halo in (("white", ' stroke="white" stroke-width="4" stroke-linejoin="round"'), (colour, "")):
            self.out.append(text(*at, label(arrow.items, 24 if part or arrow.lost else 36), 12, "middle", ink, halo))

    def cross(self, x, y):
        return line(x - 6, y - 6, x + 6, y + 6, RED, 2.2) + line(x - 6, y + 6, x + 6, y - 6, RED, 2.2)

    def point(self, x, y, x0, y0, colour):
        """An arrow's head, along its line."""
        length = ((x - x0) ** 2 + (y - y0) ** 2) ** 0.5
        dx, dy = (x - x0) / length, (y - y0) / length
        back = x - 9 * dx, y - 9 * dy
        return '<polygon points="%.1f,%.1f %.1f,%.1f %.1f,%.1f" fill="%s"/>' % (x, y, back[0] - 4 * dy, back[1] + 4 * dx, back[0] + 4 * dy, back[1] - 4 * dx, colour)

    def svg(self):
        self.heads()
        for arrow in self.run.arrows:
            self.arrow(arrow)
        for part in self.run.parts:
            if isinstance(part, Heading):
                self.heading(part)
            else:
                self.row(part)
        size = self.width_all, self.height + 10
        return ('<svg xmlns="http://www.w3.org/2000/svg" width="%d" height="%d" viewBox="0 0 %d %d" font-family="sans-serif">\n'
                '<title>%s</title>\n<rect width="100%%" height="100%%" fill="white"/>\n%s\n</svg>\n' % (*size, *size, escape(self.title), "\n".join(self.out)))


def draw(out, title, lines, replay):
    """Runs the lines and draws them into the file `out`; answers the lines with their answers."""
    names = next(filter(None, (re.match(r"#\s*ends:\s*(.+?)\s*,\s*(.+)", call_script.text(l)) for l in lines)), None)
    run, turns = Run(replay, names and list(names.groups())), []
    for each in lines:
        if call_script.skipped(each):
            turns.append((each, None))
            run.remark(each)
            continue
        answer = replay.ask(each)
        turns.append((each, answer))
        if answer != "bad":
            run.call(each, answer)
    try:
        with open(out, "w") as file:
            file.write(Picture(run, title).svg())
    except OSError as why:
        raise call_script.Trouble("%s: %s" % (out, why.strerror)) from None
    return turns
