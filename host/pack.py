#!/usr/bin/env python3
"""host/pack.py JSONL SLICES: writes the real slices of the file JSONL (its README.md says what a line has) as a file of slices.

A file of slices is 8 bytes `slices1\\n`, then slices until it ends. A slice is ten numbers of four bytes, little-endian:

    id, macroblocks, chroma (2 or 3), scan (0 or 1), alpha kind (0 none, 1 or 2), alpha samples,
    bytes of Y, bytes of Cb, bytes of Cr, bytes of alpha

and behind them these bytes: the payloads of Y, Cb, Cr and alpha. Where the kind is 0, so are alpha's samples and bytes. The slice's
own header is left out: all that is needed of it is in the ten numbers.
"""
import base64
import os
import pathlib
import struct

from scripts import Unusable, begin, formed, is_number, is_numbers, is_text, read_json, using

MAGIC = b"slices1\n"
NUMBERS = ("id", "mbs", "fmt", "scan", "kind", "nalpha")
FORMS = {**dict.fromkeys(NUMBERS, is_number), "len": is_numbers, "slice": is_text}


def packed(value):
    of = formed(value, FORMS)
    payloads = base64.b64decode(of["slice"], validate=True)[8 if of["kind"] else 6 :]
    if len(of["len"]) != (4 if of["kind"] else 3):
        raise ValueError(f"len has {len(of['len'])} numbers and kind is {of['kind']}: 4 with a kind, 3 without")
    if of["nalpha"] and not of["kind"]:
        raise ValueError(f"nalpha is {of['nalpha']} and kind is 0")
    if len(payloads) != sum(of["len"]):
        raise ValueError("the lengths are not those of the slice")
    lengths = of["len"] if of["kind"] else [*of["len"], 0]
    return struct.pack("<10I", *(of[key] for key in NUMBERS), *lengths) + payloads


def pack(jsonl, slices):
    # all of them before the file is begun, so that no half of it is left behind a bad line
    packs = read_json(jsonl, packed)
    with using(slices):
        if os.path.exists(slices) and os.path.samefile(jsonl, slices):
            raise Unusable(f"{slices}: the file of slices would be written over the lines")
        pathlib.Path(slices).write_bytes(MAGIC + b"".join(packs))
    return 0


if __name__ == "__main__":
    begin(__doc__, pack)
