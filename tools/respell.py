#!/usr/bin/env python3
"""Brings the repository's own definitions and lemmas to one spelling: words in snake case, types and facts in camel case.

usage: tools/respell.py    at the top of the repository, once, after the port to the newer toolchain

A name is the repository's own if it is declared in specs/ or proofs/ of a crate and is not the answer to a generated goal: those are
named by the toolchain, as are the steps of a function that an answer cites, and stay. A dash between two words becomes an underscore
in a name that begins small, and goes, the next word with a capital, in one that begins with a capital. Two library functions that
names were made of are called otherwise now, and the names follow. Source code, strings, inputs, outputs and edits stay.
"""

import os
import re
import sys

HEAD = re.compile(r"^(?:(?:abbrev|unfoldable|pub|data|record|ruleset)\s+)*([^\s(){}\[\].,;:=]+)(?=\s|:)[^:]*:\s*(\S*)")
MEMBER = re.compile(r"^(?:  ){1,3}(?:abbrev )?(?:pub )?([^\s(){}\[\].,;:=]+) : ")
TOKEN = re.compile(r"[^\s(){}\[\].,;\"`|]+")
LIBRARY = {"getD": "get_or", "sumBy": "sum_by"}
# A name that would be that of the module it stands in.
APART = {"Normal-form": "IsNormalForm"}
# The dashed fields of the repository's records.
FIELDS = {"on-sheet"}
# A name that is a plain word too: in a comment it stays.
PLAIN = {"line-ups"}


def antt_files(folders=("specs", "proofs")):
    for crate in sorted(os.listdir("crates")):
        for folder in folders:
            for at, _, files in os.walk(os.path.join("crates", crate, folder)):
                for f in sorted(files):
                    if f.endswith(".antt"):
                        yield os.path.join(at, f)


def declared(path):
    """The names that a file declares: definitions, lemmas, fields and constructors, but no answers to goals."""
    found, inside = set(), False
    with open(path, encoding="utf-8") as f:
        for line in f:
            if line.startswith(("use ", "pub use ", "pub mod ", "mod ", "--", "unfolding ")):
                continue
            if not line.startswith(" "):
                inside = (inside and not line.strip()) or bool(re.match(r"^(?:pub )?(?:data|record|module) ", line)) or (inside and line.startswith(")"))
                m = HEAD.match(line)
                if m and not m[2].startswith(("goal.", "given.", "need.")):
                    found.add(m[1])
            elif inside and (m := MEMBER.match(line)):
                found.add(m[1])
    return found


def respelled(name):
    if name in APART:
        return APART[name]
    parts = [LIBRARY.get(p, p) for p in name.split("-")]
    if name[0].isupper():
        return "".join(p[:1].upper() + p[1:] for p in parts)
    return "_".join(parts)


def turned(text, names):
    """A proof file or a piece of a source file."""
    words = {old: new for old, new in names.items() if old not in PLAIN}
    lines = [re.split(r"(?<!\S)(--|//)(?!\S)", line, maxsplit=1) for line in text.split("\n")]
    return "\n".join("".join(in_place(part, words if i else names) for i, part in enumerate(line)) for line in lines)


def in_place(text, names):
    """What stands behind a dot is a step of a function or a variable's new value, unless it is a field of the repository's own."""
    return TOKEN.sub(lambda m: m[0] if m.start() and text[m.start() - 1] == "." and m[0] not in FIELDS else names.get(m[0], m[0]), text)


def turned_source(text, names):
    """A source file: everything but its strings."""
    parts = re.split(r'("(?:[^"\\\n]|\\.)*")', text)
    return "".join(p if i % 2 else turned(p, names) for i, p in enumerate(parts))


def turned_page(text, names):
    """A page: what stands between backticks."""
    return re.sub(r"`[^`\n]+`", lambda m: in_place(m[0], names), text)


def main():
    own, tokens = set(), set()
    for path in antt_files():
        own |= declared(path)
        with open(path, encoding="utf-8") as f:
            tokens |= set(TOKEN.findall(f.read()))
    names = {n: respelled(n) for n in own if "-" in n and "◌" not in n}
    taken = {}
    for old, new in sorted(names.items()):
        if new in own or new in tokens or new in taken:
            print(f"falls together: {old} and {taken.get(new, new)}")
        taken[new] = old
    pages = ["README.md"] + [os.path.join("docs", f) for f in sorted(os.listdir("docs")) if f.endswith(".md") and not f.startswith("PORT")]
    sources = []
    for crate in sorted(os.listdir("crates")):
        for at, _, files in os.walk(os.path.join("crates", crate, "src")):
            sources += [os.path.join(at, f) for f in sorted(files) if f.endswith(".rt")]
    for paths, turn in ((list(antt_files()), turned), (sources, turned_source), (pages, turned_page)):
        for path in paths:
            with open(path, encoding="utf-8") as f:
                old = f.read()
            new = turn(old, names)
            if new != old:
                with open(path, "w", encoding="utf-8") as f:
                    f.write(new)
    print(f"{len(names)} names")
    if "--list" in sys.argv:
        for old, new in sorted(names.items()):
            print(f"{old} -> {new}")


if __name__ == "__main__":
    main()
