#!/usr/bin/env python3
"""Holds what sirmjold.lua shows of a payload against what the library reads: `read` of the call script, over drawn payloads, whole,
cut and damaged. The test's payloads come first.

    tools/program replay && tools/wireshark/compare.py [--payloads N] [--seed N]

The capture file is written here, frame by frame; `tools/wireshark/test` has frames that were sent. Each frame is put back into the text
that `read` answers, from the fields and marks that tshark gives. Exits with 1 at the first difference."""
import argparse
import collections
import os
import random
import struct
import subprocess
import sys
import tempfile
import xml.etree.ElementTree

sys.dont_write_bytecode = True
import payloads as p  # noqa: E402

HERE = os.path.dirname(os.path.abspath(__file__))
REPLAY = os.path.join(p.ROOT, "target", "bin", "replay")
MOST_BYTES = 2000
FRAMES = 500  # of one capture file
RAW_IPV4 = 228  # pcap's number for frames that begin with an IPv4 header


# ---- drawn payloads
def drawn_word(rng):
    return rng.choice([rng.getrandbits(32), rng.randrange(16) << 28 | rng.getrandbits(28), rng.choice([0x20903C40, 0x20803C00, 0x40903C00, 0])])


def drawn_command(rng):
    words = [drawn_word(rng) for _ in range(rng.choice([0, 0, 1, 1, 2, 3, 5, 8, 64, 65]))]
    code = rng.choice([0xFF, 0xFF, 0xFF, 0x80, 0x81, 0x77, rng.randrange(256)])
    return p.command(code, rng.randrange(256), rng.randrange(256), *words)


def drawn(rng):
    """A payload, and of three one that is cut or has a byte changed."""
    whole = p.payload(*[drawn_command(rng) for _ in range(rng.choice([0, 1, 1, 2, 3, 6]))])[:MOST_BYTES]
    how = rng.randrange(6)
    if how == 0:
        return whole[:rng.randrange(len(whole) + 1)]
    if how == 1:
        at = rng.randrange(len(whole))
        return whole[:at] + bytes([rng.randrange(256)]) + whole[at + 1:]
    return whole


# ---- what is shown
def framed(payload):
    udp = struct.pack(">HHHH", 5674, 5673, 8 + len(payload), 0) + payload
    ip = struct.pack(">BBHHHBBH4s4s", 0x45, 0, 20 + len(udp), 0, 0, 64, 17, 0, bytes([10, 0, 0, 2]), bytes([10, 0, 0, 1])) + udp
    return struct.pack("=IIII", 0, 0, len(ip), len(ip)) + ip


def dissected(all_payloads):
    with tempfile.NamedTemporaryFile(suffix=".pcap") as file:
        file.write(struct.pack("=IHHiIII", 0xA1B2C3D4, 2, 4, 0, 0, 65535, RAW_IPV4) + b"".join(map(framed, all_payloads)))
        file.flush()
        asked = ["tshark", "-n", "-X", "lua_script:" + HERE + "/sirmjold.lua", "-r", file.name, "-T", "pdml"]
        return xml.etree.ElementTree.fromstring(subprocess.run(asked, capture_output=True, check=True).stdout).findall("packet")


def value(node, name):
    return node.find("field[@name='sirmjold.%s']" % name).get("value").upper()


def number(node, name):
    return int(value(node, name), 16)


def marked(node, name):
    return node.find("field[@name='_ws.expert']/field[@name='sirmjold.%s']" % name) is not None


def joined(node, name):
    return "".join(n.get("value").upper() for n in node.findall("field[@name='sirmjold.%s']" % name)) or "-"


def data(node):
    messages = node.findall("field[@name='_ws.lua.text']")
    whole = "".join(value(m, "message") for m in messages if not marked(m, "cut_message")) or "-"
    return "data:%d:%s:%d" % (number(node, "seq"), whole, any(marked(m, "cut_message") for m in messages))


def item(node):
    """A command as `read` shows it."""
    code = value(node, "command")
    if marked(node, "cut_command"):
        return "cut:" + ":".join(value(node, name) for name in ("command", "words", "csd1", "csd2"))
    if marked(node, "no_word"):
        return "refused:10"
    if code == "FF":
        return data(node)
    if code == "80":
        return "request:%d:%d" % (number(node, "request.seq"), number(node, "request.count"))
    if code == "81":
        return "error:%d:%d" % (number(node, "error.reason"), number(node, "error.seq"))
    return "raw:%s:%s:%s:%s" % (code, value(node, "csd1"), value(node, "csd2"), joined(node, "word"))


def shown(packet):
    ours = packet.find("proto[@name='sirmjold']")
    if ours is None:
        return "refused 1"
    return " ".join(["ok"] + [item(node) for node in ours.findall("field[@name='_ws.lua.text']")])


# ---- beside what is read
def read(all_payloads):
    script = "".join("read %s\n" % b.hex() if b else "read\n" for b in all_payloads)
    return subprocess.run([REPLAY], input=script, capture_output=True, text=True, check=True).stdout.splitlines()


def kinds_of(answer):
    if answer == "refused 1":
        return ["no signature"]
    cut = lambda text: text.startswith("data:") and text.endswith(":1")
    return ["data with a cut message" if cut(text) else text.split(":")[0] for text in answer.split()[1:]]


def compared(some):
    """The kinds of commands in these payloads, each shown as it is read."""
    answers, packets = read(some), dissected(some)
    if not len(some) == len(answers) == len(packets):
        sys.exit("%d payloads, %d answers, %d packets" % (len(some), len(answers), len(packets)))
    for payload, answer, packet in zip(some, answers, packets):
        if shown(packet) != answer:
            sys.exit("%s\nread:  %s\nshown: %s" % (payload.hex().upper(), answer, shown(packet)))
        yield from kinds_of(answer)


def main():
    parser = argparse.ArgumentParser(description=__doc__, formatter_class=argparse.RawDescriptionHelpFormatter, usage=argparse.SUPPRESS)
    parser.add_argument("--payloads", type=int, default=2000)
    parser.add_argument("--seed", type=int, default=1)
    a = parser.parse_args()
    if not os.path.exists(REPLAY):
        sys.exit("no program: tools/program replay makes it")
    rng = random.Random(a.seed)
    known = [b for _, b in p.ALL + p.ANSWERS if len(b) <= MOST_BYTES]
    all_payloads = known + [drawn(rng) for _ in range(a.payloads)]
    kinds = collections.Counter()
    for at in range(0, len(all_payloads), FRAMES):
        kinds.update(compared(all_payloads[at:at + FRAMES]))
    print("%d payloads shown as they are read: %s" % (len(all_payloads), ", ".join("%s %d" % k for k in sorted(kinds.items()))))


main()
