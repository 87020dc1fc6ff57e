"""The payloads that the test sends: bytes that this repository has on record, and bytes that are put together here from paper 01
("From the packet up"), malformed ones among them. Every kind of command, every type of message and each way to be malformed is there."""
import os

ROOT = os.path.dirname(os.path.dirname(os.path.dirname(os.path.abspath(__file__))))
SIGNATURE = bytes.fromhex("4D494449")
NOTE = 0x20903C40


# ---- put together from 01
def command(code, csd1, csd2, *words):
    return bytes([code, len(words), csd1, csd2]) + b"".join(w.to_bytes(4, "big") for w in words)


def data(number, *words):
    return command(0xFF, number >> 8, number & 0xFF, *words)


def request(number, count):
    return command(0x80, number >> 8, number & 0xFF, count << 16)


def error(reason, number):
    return command(0x81, reason, 0, number << 16)


def payload(*commands):
    return SIGNATURE + b"".join(commands)


# ---- on record
def recorded(name, digits):
    """These bytes, which a file of the repository holds."""
    with open(os.path.join(ROOT, name)) as file:
        if digits not in file.read():
            raise SystemExit("%s is not in %s" % (digits, name))
    return bytes.fromhex(digits)


WORDS_OF_TYPES = [1, 1, 1, 2, 2, 4, 1, 1, 2, 2, 2, 3, 3, 4, 4, 4]
ONE_OF_EACH_TYPE = [w for kind, n in enumerate(WORDS_OF_TYPES) for w in [(kind << 28) + 0x03B10740] + [0x01020304] * (n - 1)]
LONGEST = [0x50000000, 1, 2, 3] * 16

REPLAY = "crates/replay/stdout"
WHOLE = [
    ("on record: a note", recorded(REPLAY, "4D494449FF01000020903C40")),
    ("on record: a note, repeated before its release", recorded(REPLAY, "4D494449FF01000020903C40FF01000120803C00")),
    ("on record: a chord", recorded("examples/evening.script", "4D494449FF03000020903C402090404020904340")),
    ("on record: a request", recorded(REPLAY, "4D4944498001010200030000")),
    ("on record: a request before four data commands",
     recorded(REPLAY, "4D4944498001000000010000FF01000020903C40FF01000120803C00FF01000220903D40FF01000320803D00")),
    ("on record: an error, unknown", recorded(REPLAY, "4D4944498101000012340000")),
    ("on record: an error, NOT_IN_BUFFER", recorded(REPLAY, "4D4944498101010012340000")),
    ("on record: a request and an error", recorded(REPLAY, "4D49444980010102000300008101010012340000")),
    ("on record: no words", recorded(REPLAY, "4D494449FF000102")),
    ("on record: a MIDI 1.0 and a MIDI 2.0 note", recorded(REPLAY, "4D494449FF03010220903C4040903C0080000000")),
    ("on record: a code that is in no table", recorded(REPLAY, "4D49444977010102DEADBEEF")),
    ("the signature alone", payload()),
    ("the example of the Info column", payload(data(17, NOTE, NOTE + 0x400, NOTE + 0x700), request(12, 4))),
    ("a request for all from 65535 on", payload(request(65535, 0))),
    ("a message of each type", payload(data(258, *ONE_OF_EACH_TYPE))),
    ("notes: group 15, channel 15, both protocols, an on of velocity 0",
     payload(data(1, 0x2F9F7F7F, 0x2F8F0001, 0x20903C00, 0x4F9F7F00, 0xFFFF0000, 0x40800000, 0x00010000))),
    ("codes of sessions are raw", payload(command(0x20, 0, 0, 0x2A), command(0x82, 0, 0), command(0x8F, 1, 0, 0x80010102), command(0xF0, 4, 0))),
    ("nine commands", payload(*[data(n) for n in range(65530, 65536)], *[data(n) for n in range(3)])),
    ("64 words", payload(data(7, *LONGEST))),
]
ODD = [
    ("2,000 bytes, the most that a call takes", payload(command(0x77, 0, 0, *[1] * 255), command(0x77, 0, 0, *[2] * 242))),
    ("2,001 bytes", payload(command(0x77, 0, 0, *[1] * 255), command(0x77, 0, 0, *[2] * 242)) + b"\0"),
    ("65 words", payload(data(7, *LONGEST, NOTE))),
    ("note and velocity above 7F", payload(data(8, 0x20908040, 0x20903C80, 0x40908000, 0x80000000))),
    ("a reason that is not defined, bytes and words to pass over", payload(command(0x81, 7, 0x55, 0x12345678, 0xAAAAAAAA))),
    ("a request with a lower half and a second word", payload(command(0x80, 1, 2, 0x0003FFFF, 0xAAAAAAAA))),
    ("one byte after a command", payload(data(7)) + b"\1"),
    ("three bytes after a command", payload(data(7)) + b"\1\2\3"),
    ("three bytes after the signature", payload() + b"\1\2\3"),
]
MALFORMED = [
    ("a request and an error without their word, then data", payload(command(0x80, 1, 2), command(0x81, 1, 0), data(7))),
    ("a data command without its words", payload(command(0xFF, 0, 7, NOTE, NOTE))[:8]),
    ("a data command one byte short", payload(data(7, NOTE))[:-1]),
    ("a request without the word that it announces", payload(request(258, 3))[:8]),
    ("a raw command that is cut", payload(command(0x77, 1, 2, 1, 2))[:-4]),
    ("a command of 255 words cut behind a whole one", payload(data(7), bytes.fromhex("FFFF0008"), data(9, NOTE))),
    ("data that ends inside its first message", payload(data(7, 0x40903C00))),
    ("data that ends inside its second message", payload(data(7, NOTE, 0x50000000, 1, 2), data(8))),
    ("another signature", bytes.fromhex("4D494448") + data(7, NOTE)),
    ("three bytes of the signature", SIGNATURE[:3]),
    ("no bytes", b""),
]
ALL = WHOLE + ODD + MALFORMED
ANSWERS = [("a request, from the chamber", payload(request(1, 1))), ("an error, from the chamber", payload(error(1, 5)))]
