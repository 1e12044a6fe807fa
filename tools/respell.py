#!/usr/bin/env python3
"""Brings the names of the repository's definitions and lemmas to the spelling of today's Rattle.

usage: tools/respell.py    at the top, once, on what /opt/rattle/port/port.py left

A word is in snake case, and a dash joins words: readField-all becomes read_field-all. Types, facts and modules begin with a capital and stay, as do
the names of src/. Two lemmas would take the name of a definition, and get a name of their own first.
"""
import os
import re

# a lemma, where its definition's name falls on it
FIRST = {
    "run_length": "run_length_lem",  # alpha_elements: of runLength
    "one_more": "one_more_lem",  # bitstream_writer: oneMore is a definition of bitstream
}
PARTS = {"getD": "get_or", "natAbs": "nat_abs", "ltZ": "lt_z"}  # std's words of before
NAME = re.compile(r"[A-Za-z_0-9'₀-₉ℕℤ◌-]+")
HUMP = re.compile(r"(?<=[a-z0-9])([A-Z])")
WORD = re.compile(r"[a-z][a-z0-9]*[A-Z]")


def snake(part):
    if part in PARTS:
        return PARTS[part]
    return HUMP.sub(lambda m: "_" + m.group(1).lower(), part) if WORD.match(part) else part


def respelled(name):
    return FIRST.get(name) or "-".join(snake(part) for part in name.split("-"))


for folder, _, files in os.walk("crates"):
    for file in files:
        if file.endswith((".antt", ".rt")):
            path = os.path.join(folder, file)
            with open(path, encoding="utf-8") as f:
                old = f.read()
            new = NAME.sub(lambda m: respelled(m.group(0)), old) if file.endswith(".antt") else NAME.sub(lambda m: "-".join(snake(p) for p in m.group(0).split("-")), old)
            if new != old:
                with open(path, "w", encoding="utf-8") as f:
                    f.write(new)
