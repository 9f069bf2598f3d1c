#!/usr/bin/env python3
"""Brings the repository's own definitions and lemmas to today's spelling: snake case for words and lemmas.

usage: python3 tools/spell_names.py      once, at the top of the repository, after the kit's port.py and before any edit by hand

A definition `bytesOf` becomes `bytes_of` and a lemma `word-is` becomes `word_is`, in specs/, proofs/ and the clauses of src/.
Types, modules and facts keep their camel case; functions of src/, exported names, strings, inputs and outputs keep their names.
Names that would fall together with another are given apart, in APART. The crate `hex` becomes `hexadecimal`, since the kit has a
library of that name.
"""

import glob
import os
import re
import subprocess

SIGNATURE = re.compile(r"^\s*(?:abbrev\s+|unfoldable\s+|pub\s+)*([^\s(){};.,:]+)\s*:\s")
TOKEN = re.compile(r"[^\s(){};.,:\"⌜⌝]+")

# Names that would fall together with another one of the file or of the library.
APART = {
    "crates/hex/proofs/RoundTrip.antt": {
        "digit_value": "value_of_digit",
        "digitValue": "digit_value",
        "digit_at": "digit_of_encoded",
        "byte-at": "byte_of_encoded",
    },
    "crates/permutation/": {
        "bit-xor": "bit_of_xor",
        "bit-and": "bit_of_and",
        "column-bits": "column_bits_are",
    },
    "crates/station/": {"digestOnce": "digested_once"},
}


def snake(name):
    name = name.replace("getD", "get_or")
    return re.sub(r"([a-z0-9])([A-Z])", lambda m: m.group(1) + "_" + m.group(2).lower(), name).replace("-", "_")


def files(*patterns):
    return sorted(f for p in patterns for f in glob.glob(p, recursive=True))


def own_names():
    """The names that specs/ and proofs/ define, but for the answers to goals, which Rattle names."""
    names = {}
    for path in files("crates/*/specs/**/*.antt", "crates/*/proofs/**/*.antt"):
        for line in open(path, encoding="utf-8"):
            found = SIGNATURE.match(line)
            if found and not re.search(r":\s*goal\.", line) and not found.group(1)[0].isupper():
                name = found.group(1)
                if snake(name) != name:
                    names[name] = snake(name)
    # names that an import gives to a definition
    return names | {"squeezingPiece": "squeezing_piece", "absorbingPiece": "absorbing_piece"}


def turned(text, names):
    return TOKEN.sub(lambda m: names.get(m.group(0), m.group(0)), text)


def turn_line(line, names, comment):
    """Turns a line but for its comment and its strings."""
    code, mark, said = line.partition(comment)
    parts = re.split(r'("(?:[^"\\]|\\.)*")', code)
    code = "".join(p if p.startswith('"') else turned(p, names) for p in parts)
    # a comment cites a definition by its name in backquotes
    said = re.sub(r"`([^`]*)`", lambda m: "`" + turned(m.group(1), names) + "`", said)
    return code + mark + said


def main():
    names = own_names()
    for path in files("crates/**/*.antt", "crates/**/*.rt"):
        here = dict(names)
        for place, apart in APART.items():
            if path.startswith(place):
                here |= apart
        # in code only the clauses have names with a capital or a hyphen inside
        comment = "--" if path.endswith(".antt") else "//"
        text = open(path, encoding="utf-8", newline="").read()
        new = "".join(turn_line(line, here, comment) for line in text.splitlines(keepends=True))
        new = new.replace("value_of_digit as digit_value", "digit_value")
        new = re.sub(r"\bRattle\.hex\.", "Rattle.hexadecimal.", new)
        if path.endswith(".rt"):
            new = re.sub(r"\bhex::", "hexadecimal::", new)
        if new != text:
            open(path, "w", encoding="utf-8", newline="").write(new)
    subprocess.run(["git", "add", "-A", "crates"], check=True)
    subprocess.run(["git", "mv", "crates/hex", "crates/hexadecimal"], check=True)
    lines = open("crates.txt", encoding="utf-8").read()
    open("crates.txt", "w", encoding="utf-8").write(re.sub(r"\bhex\b", "hexadecimal", lines))
    for crate in sorted(os.listdir("crates")):
        subprocess.run(["rt", "fmt"], cwd=os.path.join("crates", crate), stdout=subprocess.DEVNULL)


if __name__ == "__main__":
    main()
