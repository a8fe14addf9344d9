#!/usr/bin/env python3
"""Spells the repository's own definitions, lemmas, constructors and fields as the library does: words in snake case, types in camel case, ′ as '.

usage: tools/respell.py [--list]     at the top of the repository; --list prints the names and what they become, and writes nothing

It reads the names that the files of specs/ and proofs/ declare, but for the answers and invariants of functions, whose names the check makes. It turns them
in .antt and .rt files, in must-fail edits, and in docs where they stand between backquotes. Strings and comments keep their text, but for names between
backquotes. A name that a file imports from a library keeps its spelling there. Where a new name would meet another name of the same file, it says so.
Where a file calls the library's AllByRecursion by the name All, which the gate refuses, it gives it its own name again.
"""
import collections
import glob
import re
import sys

MADE = re.compile(r"/proofs/.*(Answers|Invariants|Choices|Proof)\.antt$")
TOKEN = re.compile(r"[^\s(){}\[\].;,@\"«»`λ|]+")
HEAD = re.compile(r"^( *)(?:unfoldable )?(?:abbrev )?(?:pub )?(?:record |data )?(?:pub )?([^\s(){}.;,@\"«»:]+)(?: \([^()]*\)| \{[^{}]*\})* :(?: |$)")
USE = re.compile(r"\buse ([^\s;{]+?)\.?\{([^}]*)\}")
# Where the plain rule reads badly.
BY_HAND = {
    "T-is": "t_is",
    "weightOr0": "weight_or_0",
    "cellsAt": "place_of_cells",
    "nameAt": "place_of_name",
    "nameLength": "length_of_name",
    "cellsPlace": "cells_place",
    "namePlace": "name_place",
    "bytesFor": "bytes_needed",
    "bit_at": "bit_from_top",
    "getD-over-other": "get_or_over_other",
    "get_d_part": "get_or_part",
    "in-float": "float_in",
    "word-pieces": "word_pieces_long",
    "room_row": "room_row_joined",
}


def respelled(name):
    if name in BY_HAND:
        return BY_HAND[name]
    name = name.replace("′", "'")
    if name[:1].isupper():
        return re.sub(r"-(\w)", lambda m: m[1].upper(), name)
    name = re.sub(r"(?<=[a-z0-9])[A-Z]", lambda m: "_" + m[0].lower(), name)
    return re.sub(r"(?<=\w)-(?=\w)", "_", name)


def code_of(text):
    return re.sub(r"--.*|//.*", "", text)


def declared(paths):
    names = collections.defaultdict(set)
    for path in paths:
        if MADE.search(path):
            continue
        for line in code_of(open(path, encoding="utf-8").read()).split("\n"):
            m = HEAD.match(line)
            if m:
                names[m[2]].add(path)
    return names


def from_libraries(text, crates):
    """The names that the file imports from elsewhere than the repository's crates."""
    found = set()
    for path, items in USE.findall(text):
        steps = path.split(".")
        if steps[0] == "Rattle" and len(steps) > 1 and steps[1] in crates and "declared" not in steps:
            continue
        found.update(TOKEN.findall(items))
    return found


def turned(text, table, rust):
    """The text with the names of the table turned, outside strings and comments."""
    comment = "//" if rust else "--"
    out = []
    for line in text.split("\n"):
        cut = line.find(comment)
        code, said = (line, "") if cut < 0 else (line[:cut], line[cut:])
        parts = re.split(r"(\"(?:[^\"\\]|\\.)*\")", code)
        for i in range(0, len(parts), 2):
            parts[i] = TOKEN.sub(lambda m: table.get(m[0], m[0]), parts[i])
        said = re.sub(r"`([^`]+)`", lambda m: "`" + table.get(m[1], m[1]) + "`", said)
        out.append("".join(parts) + said)
    return "\n".join(out)


def main():
    crates = {p.split("/")[1] for p in glob.glob("crates/*/")}
    antt = sorted(glob.glob("crates/*/specs/**/*.antt", recursive=True) + glob.glob("crates/*/proofs/**/*.antt", recursive=True))
    names = declared(antt)
    table = {old: respelled(old) for old in {*names, *BY_HAND}}
    table = {old: new for old, new in table.items() if old != new}
    if "--list" in sys.argv:
        for old in sorted(table):
            print(f"{old}\t{table[old]}\t{' '.join(sorted(names[old]))}")
        return
    sources = antt + sorted(glob.glob("crates/*/src/**/*.rt", recursive=True)) + sorted(glob.glob("crates/*/must-fail/*.edit"))
    for path in sources:
        text = open(path, encoding="utf-8").read()
        kept = from_libraries(text, crates)
        here = {old: new for old, new in table.items() if old not in kept}
        tokens = set(TOKEN.findall(code_of(text)))
        coming = collections.defaultdict(set)
        for old in tokens & set(here):
            coming[here[old]].add(old)
        for new, olds in coming.items():
            if new in tokens - set(here) or len(olds) > 1:
                print(f"falls together: {path}: {', '.join(sorted(olds))} -> {new}")
        if "AllByRecursion as All" in text:
            text = text.replace("AllByRecursion as All", "AllByRecursion")
            here["All"] = "AllByRecursion"
        new = turned(text, here, path.endswith((".rt", ".edit")))
        if new != text and "--try" not in sys.argv:
            open(path, "w", encoding="utf-8").write(new)
    if "--try" in sys.argv:
        return
    for path in sorted(glob.glob("docs/*.md") + ["README.md"]):
        text = open(path, encoding="utf-8").read()
        new = re.sub(r"`([^`\n]+)`", lambda m: "`" + table.get(m[1], m[1]) + "`", text)
        if new != text:
            open(path, "w", encoding="utf-8").write(new)


main()
