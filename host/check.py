#!/usr/bin/env python3
"""host/check.py JSONL SAID LISTS STATUS: holds what the program recode printed (the file SAID), decoded (the file LISTS) and ended
with (STATUS) to what the file JSONL says of each slice: the bits read, the refusal, and the SHA-256 of the blocks and of the
samples. All must have come back with the same bytes, but for alpha that its encoder is known to write in another way. The last
line is 'N passed, M failed'.
"""
import hashlib
import io
import pathlib

from scripts import begin, formed, is_number, is_numbers, is_text, read_json, read_lines, using

SAME = "written back with the same bytes"
OTHER = "written back with other bytes and the same values"
FORMS = {**dict.fromkeys(("id", "mbs", "fmt", "kind", "nalpha"), is_number), "bits": is_numbers, "blocks": is_text}


class Count:
    passed = failed = 0

    def expect(self, good, what):
        if good:
            self.passed += 1
        else:
            self.failed += 1
            print(f"FAILED: {what}")


def known(value):
    of = formed(value, FORMS)
    if len(of["bits"]) != 3:
        raise ValueError("bits are not three numbers")
    if of["kind"] > 2:
        raise ValueError("kind is not 0, 1 or 2")
    if of["kind"]:
        alpha = formed(of.get("alpha"), {"no": is_number})
        formed(of, {"enc": is_text})
        formed(alpha, {} if alpha["no"] else {"bits": is_number, "sha": is_text})
    return of


def blocks_len(of):
    return 256 * of["mbs"] * (8 if of["fmt"] == 2 else 12)


def sha(some):
    return hashlib.sha256(some).hexdigest()


def check_slice(count, of, said, lists):
    name = f"slice {of['id']}"
    y, cb, cr = of["bits"]
    count.expect(said == f"{name}: Y {y}, Cb {cb}, Cr {cr} bits: {SAME}", f"{name} must have {of['bits']} bits: {said}")
    count.expect(sha(lists.read(blocks_len(of))) == of["blocks"], f"{name}: the blocks")


def way(of, samples):
    """How alpha must come back. FFmpeg's prores_ks (`ks`) writes small differences past an end of the range: -1 from 0 to 65535
    (docs/DIFFERENCES.md). Our writer writes 65535, in the other form."""
    end, small = ((2**8, 8), (2**16, 64))[of["kind"] - 1]
    values = [int.from_bytes(samples[i:i + 2], "little") for i in range(0, len(samples), 2)]
    past = any(end - small <= abs(after - before) < end for before, after in zip([-1, *values], values))
    return OTHER if of["enc"] == "ks" and past else SAME


def check_alpha(count, of, said, lists):
    """Whether it must have come back with other bytes."""
    name, alpha = f"alpha {of['id']}", of["alpha"]
    if alpha["no"]:
        count.expect(said.startswith(f"{name}: refused {alpha['no']}: "), f"{name} must be refused with {alpha['no']}: {said}")
        return False
    samples = lists.read(2 * of["nalpha"])
    how = way(of, samples)
    count.expect(said == f"{name}: {alpha['bits']} bits: {how}", f"{name} must have {alpha['bits']} bits, {how}: {said}")
    count.expect(sha(samples) == alpha["sha"], f"{name}: the samples")
    return how == OTHER


def summary(slices, other):
    """The last lines, where `other` alphas came back with other bytes."""
    alphas = [of["alpha"]["no"] for of in slices if of["kind"]]
    read = alphas.count(0)
    return [
        f"slices: {len(slices)} read, 0 refused; written back: {len(slices)} with the same bytes, 0 with other bytes, 0 wrong; "
        "0 with something left over",
        f"alphas: {read} read, {len(alphas) - read} refused; written back: {read - other} with the same bytes, "
        f"{other} with other bytes, 0 wrong",
    ]


def check(jsonl, said, lists, status):
    count = Count()
    slices = read_json(jsonl, known)
    lines = read_lines(said, bytes.decode)
    with using(lists):
        lists = io.BytesIO(pathlib.Path(lists).read_bytes())
    rest, other = iter(lines), 0
    for of in slices:
        check_slice(count, of, next(rest, ""), lists)
        if of["kind"]:
            other += check_alpha(count, of, next(rest, ""), lists)
    rest = list(rest)
    count.expect(slices and not lists.read(), "the lists have all slices, and nothing else")
    count.expect(rest == summary(slices, other), f"the summary: {rest}")
    # a refusal is a finding, and alpha with other bytes is none
    refused = any(of["kind"] and of["alpha"]["no"] for of in slices)
    count.expect(status == str(int(refused)), f"the exit status must be {int(refused)}, and is {status}")
    for line in rest:
        print(line)
    print(f"{count.passed} passed, {count.failed} failed")
    return int(count.failed > 0)


if __name__ == "__main__":
    begin(__doc__, check)
