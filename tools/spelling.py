#!/usr/bin/env python3
"""Brings the names of definitions and lemmas to the spelling that Rattle's own have: words in snake case.

    tools/spelling.py      once, at the top, behind the kit's port.py

  seekTo, isN1No, guti5GFrom  ->  seek_to, is_n1_no, guti_5g_from      in specs/, proofs/, clauses, `ghost use` items and must-fail edits
  crate log                   ->  crate eventlog                       since the kit has a library of that name

A law that would have the name of a definition of its file gets `_lem`. Functions of src/, exported names and strings keep theirs.
"""
import glob
import os
import re
import subprocess

SPECIAL = {"gutis5G": "gutis_5g", "guti5GFrom": "guti_5g_from", "plain5G": "plain_5g", "guti4G": "guti_4g", "from4G": "from_4g"}
# Lemmas whose name a definition of the same file now has: file, old name.
LEMMAS = [("crates/image/proofs/Back.antt", "record_of"), ("crates/history/proofs/News.antt", "is_read")]
WORD = re.compile(r"(?<![0-9A-Za-z_'\"])[a-z][A-Za-z0-9_']*")
CAMEL = re.compile(r"[a-z0-9][A-Z]")
TEXT = re.compile(r'"(?:[^"\\]|\\.)*"')


def snake(name):
    if name in SPECIAL:
        return SPECIAL[name]
    return re.sub(r"(?<=[a-z0-9])([A-Z])", lambda m: "_" + m.group(1).lower(), name)


def logic(text):
    """What of a source file is for the logic: `ghost use` items and clauses, which the layout has on lines of their own."""
    return "\n".join(line for line in text.split("\n") if re.match(r"\s*(pub )?(ghost|requires|ensures|invariant)\b", line))


def bare(text):
    return TEXT.sub('""', re.sub(r"(?m)(--|//).*$", "", text))


def renamed(text, names):
    return WORD.sub(lambda m: names.get(m.group(0), m.group(0)), text)


def files(pattern):
    return sorted(glob.glob(pattern, recursive=True))


def read(path):
    with open(path, encoding="utf-8") as it:
        return it.read()


def write(path, text):
    if text != read(path):
        with open(path, "w", encoding="utf-8") as it:
            it.write(text)


def main():
    if os.path.isdir("crates/log"):
        subprocess.run(["git", "mv", "crates/log", "crates/eventlog"], check=True)
    antt = files("crates/*/specs/**/*.antt") + files("crates/*/proofs/**/*.antt")
    code = files("crates/*/src/**/*.rt")
    edits = files("crates/*/must-fail/*.edit")
    for path, name in LEMMAS:
        write(path, re.sub(rf"(?<![\w'-]){name}(?![\w'-])", name + "_lem", read(path)))
    names = set()
    for path in antt + code:
        text = read(path) if path.endswith(".antt") else logic(read(path))
        names |= {it for it in WORD.findall(bare(text)) if CAMEL.search(it)}
    names = {it: snake(it) for it in names}
    for path in antt:
        write(path, re.sub(r"Rattle\.log\b", "Rattle.eventlog", renamed(read(path), names)))
    for path in code:
        lines = [renamed(it, names) if logic(it) or it.lstrip().startswith("//") else it for it in read(path).split("\n")]
        text = re.sub(r"Rattle\.log\b", "Rattle.eventlog", "\n".join(lines))
        write(path, re.sub(r"(?<![\w:.])log::", "eventlog::", text))
    for path in edits:
        write(path, re.sub(r"(?<![\w:.])log::", "eventlog::", renamed(read(path), names)))
    write("crates.txt", re.sub(r"\blog\b", "eventlog", read("crates.txt")))


if __name__ == "__main__":
    main()
