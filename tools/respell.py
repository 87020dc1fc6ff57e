#!/usr/bin/env python3
"""Respells the repository's own definitions, lemmas, fields of records and aliases in snake case, as Rattle's library
spells its own.

    checkOf -> check_of      by-check -> by_check      length-wordsOf -> length_words_of

Run it once, at the top, after Rattle's own port.py. It turns .antt files, the clauses of .rt files, must-fail edits and
the papers; functions of src/, exported names, strings, inputs and outputs keep their names, and so does what the check
itself names (steps and goals of a proof). It says which names fall together, and then writes nothing.
"""

import collections
import glob
import re
import sys

SEP = r"[^\s(){}\[\].;,:@\"«»\\`|]+"
TOKEN = re.compile(SEP)
HEAD = re.compile(r"^(\s*)((?:pub |abbrev |unfoldable |package )*)(record |data |ruleset |syntax )?(" + SEP + r")((?: [^:=]*)?) *[:=](?:\s|$)")
# Lemmas that port.py gave the name that a definition gets here, by the crates that have them.
STANDING = {
    "goes_on": {"c_hearing"},
    "asked_in": {"c_state"},
    "whole_words": {"delivery"},
    "new_by": {"link", "sender_log", "writing"},
    "written_count": {"sender_log"},
    "top_in": {"window"},
}
# Fields of records and constructors that would meet a definition's name: a field may have it, a constructor gets another.
CHOSEN = {
    "in-turn": "in_turn",
    "is-on": "is_on",
    "nothing-missing": "nothing_missing",
    "of-sender": "of_sender",
    "unsent-words": "unsent_words",
    "not-due": "none_due",
    "put-into": "put_in",
}
LIBRARY = r"(?:Rattle\.std|Rattle\.core|lib|borrow|native|mathlib|Prim|denote|seplogic|types|prog|mir|contract|base|sound)\b"
MADE = re.compile(r"(invariant|decreases)-|.*[-_]spec$")


def read(path):
    with open(path, encoding="utf-8") as it:
        return it.read()


def antt():
    return sorted(f for part in ("specs", "proofs") for f in glob.glob(f"crates/*/{part}/**/*.antt", recursive=True))


def collect():
    """The own names with where they stand, and the definitions among them."""
    own, defined = collections.defaultdict(set), set()
    for path in antt():
        of_function = path.endswith("/Proof.antt")
        for line in read(path).splitlines():
            if line.startswith("use ") or line.startswith("pub use "):
                for _, alias in re.findall(r"(" + SEP + r") as (" + SEP + r")", line):
                    own[alias].add(path)
                continue
            head = HEAD.match(line)
            if not head or line.lstrip().startswith("--"):
                continue
            marks, kind, name = head[2], head[3] or "", head[4]
            if of_function and (re.search(r":\s*tie\.", line) or MADE.match(name)):
                continue
            if name in ("λ", "let", "in", "module", "where", "unfolding", "use"):
                continue
            own[name].add(path)
            if "abbrev" in marks or "unfoldable" in marks or kind in ("record ", "data "):
                defined.add(name)
    for path in glob.glob("crates/*/src/**/*.rt", recursive=True):
        for line in re.findall(r"(?m)^ *ghost use .*$", read(path)):
            for _, alias in re.findall(r"(" + SEP + r") as (" + SEP + r")", line):
                own[alias].add(path)
    return own, defined


def snake(word):
    return re.sub(r"(?<=[a-z0-9'])([A-Z])", lambda it: "_" + it[1].lower(), word)


def respelled(name):
    if not name[0].islower():
        return name
    first, *others = name.split("-")
    return "_".join([snake(first)] + [part if part[:1].isupper() else snake(part) for part in others])


def main():
    own, defined = collect()
    table = {}
    for name in own:
        if re.search(r"[a-z0-9'][A-Z]", name) and name[0].islower() or "-" in name.strip("-"):
            new = respelled(name)
            if new != name:
                table[name] = new
    met = collections.defaultdict(set)
    for old, new in table.items():
        met[new].add(old)
    # a lemma that would have its definition's name
    for new, olds in met.items():
        if len(olds) > 1:
            for old in olds - defined:
                table[old] = new + "_lem"
            continue
        (old,) = olds
        if new in own and old not in defined:
            table[old] = new + "_lem"
    table.update((old, new) for old, new in CHOSEN.items() if old in table)
    bad = []
    changed = {}

    def turn(text, comment, crate=None):
        out = []
        imported = set()
        for line in re.findall(r"(?m)^(?:pub )?(?:ghost )?use " + LIBRARY + r".*$", text):
            imported.update(re.findall(r"[{,] *(" + SEP + r")(?= *[,}])", line))
        for line in text.split("\n"):
            code, remark = line, ""
            if re.match(r"(pub )?(ghost )?use " + LIBRARY, line) and " as " not in line:
                out.append(line)
                continue
            cut = re.search(comment, line) if comment else None
            if cut:
                code, remark = line[: cut.start()], line[cut.start():]

            def one(it):
                word = it[0]
                if word in STANDING and crate in STANDING[word] and line[it.start() - 1 : it.start()] != ".":
                    return word + "_lem"
                if word not in table or word in imported:
                    return word
                before = line[: it.start()] if it.string is code else ""
                if re.search(r"(\btie|\bgoal|\bNeed-[^\s]*)\.$", before):
                    return word
                return table[word]

            code = TOKEN.sub(one, code)
            remark = re.sub(r"`[^`]*`", lambda it: TOKEN.sub(lambda w: table.get(w[0], w[0]), it[0]), remark)
            out.append(code + remark)
        return "\n".join(out)

    for path in antt():
        text = read(path)
        if path.endswith("/Proof.antt"):
            made = set(re.findall(r"(?m)^(?:abbrev )?(" + SEP + r") : tie\.", text))
            kept = {word: table.pop(word) for word in list(made) if word in table}
        else:
            kept = {}
        changed[path] = (text, turn(text, r"(^|\s)--(\s|$)", path.split("/")[1]))
        table.update(kept)
    for path in sorted(glob.glob("crates/*/src/**/*.rt", recursive=True)):
        text = read(path)
        changed[path] = (text, turn(text, r"//"))
    for path in sorted(glob.glob("crates/*/must-fail/*.edit")):
        text = read(path)
        new = "\n".join(turn(line, None) if re.match(r"(old|new):", line) else line for line in text.split("\n"))
        changed[path] = (text, new)
    camel = {old: new for old, new in table.items() if re.search(r"[a-z][A-Z]", old)}
    for path in ["README.md", *sorted(glob.glob("docs/**/*.md", recursive=True))]:
        text = read(path)
        new = TOKEN.sub(lambda it: camel.get(it[0], it[0]), text)
        new = re.sub(r"`[^`\n]*`", lambda it: TOKEN.sub(lambda w: table.get(w[0], w[0]), it[0]), new)
        changed[path] = (text, new)
    # a name that a file has already for something else
    for path, (text, new) in changed.items():
        if path.endswith((".antt", ".rt")):
            body = re.sub(r"(?m)(--|//).*$", "", text)
            if path.endswith(".rt"):
                there = set(re.findall(r"[(,]\s*(?:mut )?(\w+): ", body)) | set(re.findall(r"(?m)^ghost use .*$", body) and TOKEN.findall(" ".join(re.findall(r"(?m)^ghost use .*$", body))))
            else:
                body = re.sub(r"(?m)^((?:pub )?use) [^{\n]*", "use ", body)
                body = re.sub(r"\.(" + SEP + ")", " ", body)
                there = set(TOKEN.findall(body))
            for old in set(TOKEN.findall(body)) & set(table):
                if path.split("/")[1] in STANDING.get(table[old], ()):
                    continue
                if table[old] in there and table[old] != old:
                    bad.append(f"{path}: {old} -> {table[old]}, which stands there")
    print(f"respell: {len(table)} names, {sum(a != b for a, b in changed.values())} files")
    for line in bad:
        print("falls together:", line)
    if "--write" in sys.argv or not bad:
        for path, (text, new) in changed.items():
            if text != new:
                with open(path, "w", encoding="utf-8") as it:
                    it.write(new)
    return 1 if bad else 0


if __name__ == "__main__":
    sys.exit(main())
