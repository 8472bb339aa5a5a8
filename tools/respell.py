#!/usr/bin/env python3
"""Respells the repository's own definitions and lemmas to today's Rattle, once, after the kit's port.py.

usage: tools/respell.py [--list]

Words go to snake case: `skipLength` is `skip_length`, `carry-is` is `carry_is`. A dash stays where it joins two names,
as in `due-sooner`. It goes over specs/ and proofs/ whole, over the clauses and `ghost` items of src/, and over the
names after `using` and `unfolding`. Functions of src/, exported C names, strings, inputs and outputs stay. --list
writes nothing and prints each old name beside its new one.
"""
import os
import re
import sys

ROOT = os.path.dirname(os.path.dirname(os.path.realpath(__file__)))
NAME = r"[A-Za-z_\u0370-\u03ff][\w'\u0370-\u03ff-]*"
TOKEN = re.compile(r"(?<![\w'\u00b7-])" + NAME)
HEAD = re.compile(
    r"^(?:(?:abbrev|unfoldable|pub|instance|private|irrelevant|mutual)\s+)*(" + NAME + r")\s*(?::(?!:)|\{[^}]*\}\s*:|\()"
)
FIELD = re.compile(r"^\s+(?:pub\s+)?(" + NAME + r")\s*:\s")

# Names that would fall together with another name, and what they are called instead.
SPECIAL = {
    "and-false": "and-false",
    "or-false": "or-false",
    "bit-and": "bit-and",
    "bit-xor": "bit-xor",
    "front_length": "front_length_lem",
    "matches-of-B": "matches_of_b",
    "matches-of-C": "matches_of_c",
    "matches-of-D": "matches_of_d",
}

# Names that are declared inside a module, which `HEAD` does not read.
INNER = {
    "mapTo": "map_to",
    "givenTo": "given_to",
    "channelsDue": "channels_due",
    "isChannel": "is_channel",
    "roomTest": "room_test",
    "tagTest": "tag_test",
    "sizeTest": "size_test",
    "flagsTest": "flags_test",
    "timerControl": "timer_control",
}


def snake(word):
    word = re.sub(r"(?<=[a-z0-9])(?=[A-Z])", "_", word)
    word = re.sub(r"(?<=[A-Z])(?=[A-Z][a-z])", "_", word)
    return word.lower() if word[:1].islower() else word


def files(kinds):
    for folder, dirs, names in os.walk(os.path.join(ROOT, "crates")):
        dirs[:] = sorted(d for d in dirs if d != "out")
        for n in sorted(names):
            if n.endswith(kinds):
                yield os.path.join(folder, n)


def read(path):
    with open(path, encoding="utf-8") as f:
        return f.read()


def code_only(line):
    return line.split("--")[0] if line.lstrip().startswith("--") else line


def defined():
    """Top-level names of the libraries of specs/ and proofs/, and those of the proofs of functions."""
    own, local, fields = {}, {}, set()
    for path in files(".antt"):
        in_record = False
        library = os.path.basename(path) not in ("Proof.antt",) and "/Proof/" not in path
        for line in read(path).split("\n"):
            if line.lstrip().startswith("--"):
                continue
            if line.startswith(("use ", "pub use ", "mod ", "pub mod ", "syntax", "pub syntax")):
                continue
            m = HEAD.match(line)
            if m and not line.startswith((" ", "record", "data", "pub record", "pub data")):
                (own if library else local).setdefault(m[1], []).append(path)
                in_record = False
            if re.match(r"(?:pub\s+)?(record|data)\b", line):
                in_record = True
                continue
            if in_record:
                f = FIELD.match(line)
                if f:
                    fields.add(f[1])
    return own, local, fields


def functions():
    names = set()
    for path in files(".rt"):
        names |= set(re.findall(r"\bfn\s+(\w+)", read(path)))
    return names


def spelled(name, heads):
    """The new spelling of one name, by the names that it joins."""
    if name in SPECIAL:
        return SPECIAL[name]
    parts = name.split("-")
    if not re.match(r"[a-z]", name):
        return name
    out, i = [], 0
    joined = []
    while i < len(parts):
        for j in range(len(parts), i, -1):
            word = "-".join(parts[i:j])
            if word in heads or snake(word).replace("-", "_") in heads:
                joined.append((snake(word).replace("-", "_"), True))
                i = j
                break
        else:
            joined.append((snake(parts[i]), False))
            i += 1
    text = joined[0][0]
    for (before, known), (word, also) in zip(joined, joined[1:]):
        text += ("-" if known and also and not word.isdigit() else "_") + word
    return text


def main(argv):
    own, local, fields = defined()
    fns = functions()
    definitions = set()
    for path in files(".antt"):
        if "/specs/" in path:
            for line in read(path).split("\n"):
                m = HEAD.match(line)
                if m and not line.startswith(" "):
                    definitions.add(m[1])
    heads = {n for n in definitions} | {snake(n) for n in definitions} | {"append", "drop", "take", "length", "sets", "map", "fold"}
    table = dict(INNER)
    for name in sorted(set(own) | set(local)):
        if name.endswith("-spec") and name[:-5].replace("-", "_") in fns:
            new = name[:-5].replace("-", "_") + "_spec"
        elif name in definitions:
            new = SPECIAL.get(name, snake(name).replace("-", "_") if name[0].islower() else name)
        else:
            new = spelled(name, heads)
        if new != name:
            table[name] = new
    for name in sorted(fields):
        new = snake(name).replace("-", "_")
        if new != name and re.match(r"[a-z]", name):
            table.setdefault(name, new)
    # two names that would fall together: the one with dashes keeps them
    count = {}
    for new in [table.get(n, n) for n in set(own) | set(local) | fields]:
        count[new] = count.get(new, 0) + 1
    for name in list(table):
        if count.get(table[name], 0) > 1 and "-" in name and not table[name].endswith("_spec"):
            kept = "-".join(snake(part) for part in name.split("-"))
            if kept == name:
                del table[name]
            else:
                table[name] = kept
    if "--list" in argv:
        for k, v in sorted(table.items()):
            print(k, v, "LOCAL" if k not in own else "")
        return 0

    def turn(text):
        return TOKEN.sub(lambda m: table.get(m[0], m[0]), text)

    for path in files((".antt", ".rt", ".edit")):
        text = read(path)
        if path.endswith(".antt"):
            new = "\n".join(l if l.lstrip().startswith("--") else turn(l) for l in text.split("\n"))
            # names that a comment quotes
            new = "\n".join(
                re.sub(r"`([^`]*)`", lambda m: "`" + turn(m[1]) + "`", l) if l.lstrip().startswith("--") else l
                for l in new.split("\n")
            )
        elif path.endswith(".edit"):
            new = text
        else:
            new = clauses(text, turn)
        if new != text:
            with open(path, "w", encoding="utf-8") as f:
                f.write(new)
    return 0


def clauses(text, turn):
    """Turns `ghost use` items and what stands in the braces of clauses and ghost items."""
    out, i = [], 0
    start = re.compile(r"\bghost use [^;]*;|\b(?:requires|ensures)\*?(?:\s+\w+)?\s*\{|\bghost\s+\w+\s*[:=]\s*\{|\b(?:invariant|decreases)\s*\{")
    while True:
        m = start.search(text, i)
        if not m:
            out.append(text[i:])
            return "".join(out)
        out.append(text[i : m.start()])
        if m[0].startswith("ghost use"):
            out.append(turn(m[0]))
            i = m.end()
            continue
        depth, j = 1, m.end()
        while depth:
            depth += {"{": 1, "}": -1}.get(text[j], 0)
            j += 1
        out.append(m[0] + turn(text[m.end() : j]))
        i = j


if __name__ == "__main__":
    raise SystemExit(main(sys.argv[1:]))
