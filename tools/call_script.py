"""What play, replay and check_calls share: the program target/bin/replay, and why a line of a call script is `bad` (docs/CALLS.md)."""
import difflib
import os
import re
import shutil
import subprocess
import sys
import time

here = os.path.dirname(os.path.dirname(os.path.abspath(__file__)))
program = os.path.join(here, "target", "bin", "replay")
tool = os.path.basename(sys.argv[0])

# The fields of each call, in the order and with the letters of the table in crates/script/src/calls.rt: a figure of 1, 2, 4 or
# 8 bytes, x a byte, * words up to the line's end, . bytes.
CALLS = {
    "cfg": "T1:4 G:4 K:1 R:1 X:8 D:4 M:1 SIZE:8", "open": "LIMIT:8 BUFFER:8", "raw": "CODE:x CSD1:x CSD2:x WORD:*",
    "senddata": "NUMBER:2 WORD:*", "sendrequest": "NUMBER:2 COUNT:2", "senderror": "REASON:1 NUMBER:2", "new": "W:8 C:8 Q:8",
    "queue": "WORD:*", "request": "NUMBER:2 COUNT:2", "data": "NOW:8 NUMBER:2 WORD:*", "poll": "NOW:8", "error": "REASON:1 NUMBER:2",
    "nak": "", "reset": "", "deadline": "", "wants": "NOW:8", "write": "NOW:8", "take": "", "read": "BYTES:.", "payload": "",
    "buffer": "", "state": "", "memory": "", "window": "NUMBER:2 COUNT:2", "next": "", "last": "", "queuelong": "WORD:*",
    "hear": "NOW:8 BYTES:.",
}
FIELDS = {name: [tuple(f.split(":")) for f in fields.split()] for name, fields in CALLS.items()}
# Figures that are narrower than their bytes, the most words of a call, bytes of a payload, bytes of a line.
MOST = {"X": 1, "BUFFER": 2048}
WORDS = {"queue": 256, "queuelong": 454, "data": 255, "raw": 300, "senddata": 300}
BYTES, LINE = 2000, 4096


class Trouble(Exception):
    """What keeps a tool from its work."""


def say(words):
    print("%s: %s" % (tool, words), file=sys.stderr, flush=True)


def run(main):
    """Runs a tool, and ends with its status: 2 where it could not do its work."""
    try:
        sys.exit(main())
    except Trouble as why:
        say(why)
        sys.exit(2)
    except KeyboardInterrupt:
        sys.exit(130)


def put(text):
    """Writes to standard output, at once."""
    left = text.encode()
    try:
        if sys.stdout is None:
            raise OSError("it is closed")
        while left:
            left = left[os.write(sys.stdout.fileno(), left):]
    except OSError as why:
        raise Trouble("standard output: %s" % (why.strerror or why)) from None


# ---- the script
def opened(name):
    """The script of this name, `-` being standard input, open for reading."""
    if name == "-":
        if sys.stdin is None:
            raise Trouble("standard input: it is closed")
        return sys.stdin.buffer
    try:
        return open(name, "rb")
    except OSError as why:
        raise Trouble("%s: %s" % (name, why.strerror)) from None


def lines(script):
    """The lines of an open script, with their ends. The last may have none."""
    try:
        yield from script
    except OSError as why:
        raise Trouble("%s: %s" % (script.name, why.strerror)) from None


def bare(line):
    """A line without its end. A carriage return belongs to the end only where a newline follows."""
    return line[:-1].removesuffix(b"\r") if line.endswith(b"\n") else line


def skipped(line):
    return not bare(line) or line.startswith(b"#")


def text(line):
    return bare(line).decode(errors="replace")


# ---- why a line is bad
def plural(n, thing):
    return "%s %s%s" % (format(n, ","), thing, "" if n == 1 else "s")


def unknown(name):
    if not name:
        return "the line begins with a space"
    if "\t" in name:
        return "a tab separates no fields: %r" % name
    near = [name.strip().lower()] if name.strip().lower() in CALLS else difflib.get_close_matches(name.lower(), CALLS, 1)
    return "no call %r%s" % (name, "; is %s meant?" % near[0] if near else "")


def figure(name, field, most):
    if not re.fullmatch("[0-9]+", field):
        return "%s is no decimal figure: %r" % (name, field)
    return None if int(field) <= most else "%s is at most %s: %s" % (name, format(most, ","), field)


def digits(name, field, n):
    return None if re.fullmatch("[0-9A-Fa-f]{%d}" % n, field) else "%s is %d hexadecimal digits: %r" % (name, n, field)


def bytes_of(field):
    if not re.fullmatch("([0-9A-Fa-f]{2})+", field):
        return "BYTES are pairs of hexadecimal digits, without spaces: %r" % field[:40]
    return None if len(field) <= 2 * BYTES else "up to %s bytes are read: %s" % (format(BYTES, ","), format(len(field) // 2, ","))


def one(name, kind, field):
    """Why a field is not one of its kind."""
    if kind == "x":
        return digits(name, field, 2)
    if kind == ".":
        return bytes_of(field)
    return digits(name, field, 8) if kind == "*" else figure(name, field, MOST.get(name, 256 ** int(kind) - 1))


def count(call, given):
    """Why so many fields are not those of the call."""
    least = sum(kind not in "*." for _, kind in FIELDS[call])
    most = least + WORDS.get(call, len(FIELDS[call]) - least)
    if least <= given <= most:
        return None
    if given > most and call in WORDS:
        return "%s takes up to %s: %d" % (call, plural(WORDS[call], "word"), given - least)
    takes = " ".join(name + ".." * (kind == "*") for name, kind in FIELDS[call])
    return "%s takes %s; %s given" % (call, takes or "no field", plural(given, "field"))


def fault(line):
    """Why the program answers `bad` to a line; None where it is a call."""
    if len(bare(line)) > LINE:
        return "a line has up to %s bytes: %s" % (format(LINE, ","), format(len(bare(line)), ","))
    if line.endswith(b"\r"):
        return "the last line ends with a carriage return and no newline"
    call, *fields = text(line).split(" ")
    if call not in CALLS:
        return unknown(call)
    if "" in fields:
        return "an empty field: fields are separated by single spaces, and none ends the line"
    kinds = FIELDS[call] + FIELDS[call][-1:] * len(fields)
    return count(call, len(fields)) or next(filter(None, (one(*kind, field) for kind, field in zip(kinds, fields))), None)


def report(name, number, line):
    """Says why a line was bad."""
    say("%s, line %d: bad: %s" % ("standard input" if name == "-" else name, number, fault(line) or "no reason found"))


# ---- the program
def sources():
    """What the program rests on: the files and folders of its crates."""
    path = os.path.join(here, "crates.txt")
    uses = {line.split()[0].rstrip(":"): line.split(":")[1] for line in open(path) if ":" in line and not line.startswith("#")}
    yield path
    todo, seen = ["replay"], set()
    while todo:
        name = todo.pop()
        if name in uses and name not in seen:
            seen.add(name)
            todo += uses[name].split()
            for part in ("src", "specs", "proofs"):
                for folder, _, files in os.walk(os.path.join(here, "crates", name, part)):
                    yield folder
                    yield from (os.path.join(folder, f) for f in files)


def is_new():
    return os.path.exists(program) and all(os.path.getmtime(s) < os.path.getmtime(program) for s in sources())


def prove():
    """Proves and builds the program, and says each crate as it is proved."""
    if not shutil.which("rt"):
        raise Trouble("target/bin/replay has to be built, and rt, of the Rattle kit, is not on the PATH")
    say("tools/program replay: some minutes where nothing is proved yet")
    began, said = time.time(), []
    with subprocess.Popen(["tools/program", "replay"], cwd=here, stdout=subprocess.PIPE, stderr=subprocess.STDOUT, text=True) as check:
        for line in check.stdout:
            if line.startswith("rt:"):
                print(line, end="", file=sys.stderr, flush=True)
            else:
                said.append(line)
    if check.returncode:
        print("".join(said[-20:]), end="", file=sys.stderr)
        raise Trouble("tools/program replay ended with status %d" % check.returncode)
    os.utime(program, (began, began))


class Replay:
    """target/bin/replay, which answers line by line."""

    def __init__(self):
        if not is_new():
            prove()
        try:
            self.process = subprocess.Popen([program], stdin=subprocess.PIPE, stdout=subprocess.PIPE)
        except OSError as why:
            raise Trouble("%s: %s" % (program, why.strerror)) from None

    def ask(self, line):
        """The answer to a line that is not skipped. One without an end is given one, which the program takes off."""
        try:
            self.process.stdin.write(line if line.endswith(b"\n") else line + b"\r\n")
            self.process.stdin.flush()
        except OSError as why:
            raise Trouble("%s: %s" % (program, why.strerror)) from None
        answer = self.process.stdout.readline()
        if not answer.endswith(b"\n"):
            raise Trouble("%s ended before its answer" % program)
        return answer[:-1].decode()
