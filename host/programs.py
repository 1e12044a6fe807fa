#!/usr/bin/env python3
"""host/programs.py RECODE LOOK: tries what a script can see of the programs recode and look and of the scripts beside them: the
exit status, what is printed, and what is said where something is wrong. The last line is 'N passed, M failed'.
"""
import base64
import json
import pathlib
import re
import struct
import subprocess
import tempfile

from scripts import begin, using

HOST = pathlib.Path(__file__).resolve().parent
LIMITS = "a count or a payload's length is outside the limits"
ENDS = "the file of slices ends within a slice"
SAME = "written back with the same bytes"
OTHER = "written back with other bytes and the same values"

TRUE = str(pathlib.Path("/bin/true").resolve())

# README.md's slice of one macroblock in 4:2:2
Y, CB, CR = "02a823", "026820", "01c1f8"


class Room:
    """A folder in which programs run, and a count of what they do as they should."""

    def __init__(self, folder, recode, look):
        self.folder, self.recode, self.look = pathlib.Path(folder), recode, look
        self.passed = self.failed = 0

    def run(self, words, stdout=subprocess.PIPE):
        with using(words[0]):
            return subprocess.run(
                words, cwd=self.folder, stdout=stdout, stderr=subprocess.PIPE, text=True, errors="backslashreplace", check=False
            )

    def expect(self, good, what):
        self.passed += bool(good)
        self.failed += not good
        if not good:
            print(f"FAILED: {what}")

    def hold(self, words, ran, status, out="", err=""):
        """Each text is the whole one, or a pattern of it."""
        texts = [(ran.stdout or "", out), (ran.stderr, err)]
        good = all(text == wanted if isinstance(wanted, str) else wanted.fullmatch(text) for text, wanted in texts)
        shown = " ".join(str(word)[:40] for word in words[:10])
        came = (ran.returncode, ran.stdout, ran.stderr)
        self.expect(good and ran.returncode == status, f"{shown}\n  must give {(status, out, err)}\n  gives     {came}")

    def tries(self, words, status, out="", err=""):
        self.hold(words, self.run(words), status, out, err)

    def tries_output(self, words, name):
        """Standard output that is full, and one that is closed."""
        with open("/dev/full", "w", encoding="utf-8") as full:
            self.hold(words, self.run(words, full), 2, "", f"{name}: standard output: No space left on device\n")
        words = ["sh", "-c", 'exec "$@" >&-', "sh", *words]
        self.tries(words, 2, "", re.compile(f"{name}: standard output: .*\n"))

    def tries_help(self, words, name, begins):
        for word in ("-h", "--help"):
            self.tries([*words, word], 0, re.compile(re.escape(begins) + ".*\n", re.DOTALL))
        self.tries_output([*words, "--help"], name)

    def read(self, name):
        """What a program wrote, or nothing."""
        path = self.folder / name
        return path.read_bytes() if path.exists() else b""

    def write(self, name, content):
        (self.folder / name).write_bytes(content)
        return name


# ---- look


def full_code(room, blocks):
    """The code of blocks whose last coefficient is 1, so that nothing behind it is read; and its bits. Where look gives none, they
    are such that a check with them fails."""
    ran = room.run([room.look, "write", str(blocks), "999", *["0"] * (64 * blocks - 1), "1"])
    found = re.fullmatch(r"([0-9a-f ]+) \((\d+) bits\)\n", ran.stdout)
    return (found[1].replace(" ", ""), int(found[2])) if found else ("00", 0)


def look_answers(room):
    code, bits = full_code(room, 1)
    chroma, chroma_bits = full_code(room, 2)
    size, chroma_size, left = 4 * len(code), 4 * len(chroma), "something is left behind"
    read = f"Y 24 of 24, Cb {chroma_bits} of {chroma_size + 8}, Cr 24 of 24 bits\n"
    for words, status, out in [
        ("read 1 80", 0, "6 of 8 bits\n"),
        ("read 2 80", 1, "refused 5: the bits run out\n"),
        ("read 1 A8", 0, "6 of 8 bits\nplace 0 is 5\n"),
        ("read 0", 0, "0 of 0 bits\n"),
        # what is behind the code: zero bytes, or more; 0 blocks have a code of no bits
        ("read 1 80 0000", 0, "6 of 24 bits\n"),
        ("read 0 00", 0, "0 of 8 bits\n"),
        ("read 0 01", 1, f"0 of 8 bits\n{left} the code\n"),
        (f"read 1 {code}", 0, f"{bits} of {size} bits\nplace 63 is 1\n"),
        (f"read 1 {code} 00", 0, f"{bits} of {size + 8} bits\nplace 63 is 1\n"),
        (f"read 1 {code} 00 01", 1, f"{bits} of {size + 16} bits\nplace 63 is 1\n{left} the code\n"),
        (f"slice 1 2 0 {Y} {chroma}00 {CR}", 0, read),
        (f"slice 1 2 0 {Y} {chroma}80 {CR}", 1, f"{read}{left} Cb's code\n"),
        # the largest that can be tried
        ("read 18446744073709551615 80", 1, f"refused 1: {LIMITS}\n"),
        (f"read 1 {'00' * 32768} {'00' * 32769}", 1, f"refused 1: {LIMITS}\n"),
        ("write 1 65537", 0, "80 (6 bits)\n"),
        ("write 1 9 -2147483648", 1, "refused 4: a value to encode is out of range\n"),
        ("alpha 1 16385 00", 1, f"refused 1: {LIMITS}\n"),
        (f"write-alpha 1 9{' 0' * 16385}", 1, f"refused 1: {LIMITS}\n"),
        ("write-alpha 2 9 65535", 0, "80 00 40 (18 bits)\n"),
        ("slice 1 2 0 02a823 0268 01c1f8", 1, "Cb: refused 5: the bits run out\n"),
        ("slice 9 2 0 02a823 026820 01c1f8", 1, f"refused 1: {LIMITS}\n"),
    ]:
        room.tries([room.look, *words.split(" ")], status, out)


def look_words(room):
    number, value, sample = "a number from 0 to", "a value from -2147483648 to 2147483647", "a value from 0 to 65535"
    for words, why in [
        ("", "look --help says more"),
        ("reads 1 80", "look --help says more"),
        ("read", "look --help says more"),
        ("slice 1 2 0 00 00", "look --help says more"),
        ("slice 1 2 0 00 00 00 00", "a slice has three payloads"),
        *((f"read {n} 80", f"{n}: {number}") for n in ("-1", "+1", "1x", "0x1", "", "18446744073709551616", "9" * 30)),
        ("write 1 -1", f"-1: {number}"),
        ("write-alpha 1 -1", f"-1: {number}"),
        ("alpha 1 -1 00", f"-1: {number}"),
        ("slice 1 -2 0 00 00 00", f"-2: {number}"),
        ("write 1 65538", "65538: at most 65537 bytes of room can be tried here"),
        ("write-alpha 1 65538", "65538: at most 65537 bytes of room can be tried here"),
        ("write 1 18446744073709551615", "at most 65537 bytes of room can be tried here"),
        ("alpha 1 16386 00", "16386: at most 16385 samples can be tried here"),
        (f"write-alpha 1 9{' 0' * 16386}", "at most 16385 samples can be tried here"),
        (f"read 1 {'00' * 32768} {'00' * 32770}", "at most 65537 bytes of a payload can be tried here"),
        (f"write 1 9{' 0' * 65}", "these are more values than the blocks have"),
        *((f"write 1 9 {n}", f"{n}: {value}") for n in ("-", "--1", "+1", "1.0", "2147483648", "-2147483649", "9" * 30)),
        *((f"write-alpha 2 9 {n}", f"{n}: {sample}") for n in ("-1", "-0", "65536")),
        *((f"read 1 80 {n}", f"{n}: bytes of two hexadecimal digits") for n in ("8", "8g", "0x80", "-1")),
    ]:
        room.tries([room.look, *(words.split(" ") if words else [])], 2, "", re.compile(f"look: .*{re.escape(why)}.*\n"))
    room.tries([room.look, "read", " 1", "80"], 2, "", re.compile(f"look:  1: {number}.*\n"))
    room.tries([room.look, "--version"], 0, re.compile("look .+\n"))
    room.tries_help([room.look], "look", "usage: look read BLOCKS HEX..")
    room.tries_output([room.look, "read", "1", "80"], "look")


# ---- recode


def slice_bytes(payloads=(Y, CB, CR), numbers=(1, 2, 0), kind=0, samples=0, alpha=""):
    parts = [bytes.fromhex(part) for part in (*payloads, alpha)]
    return struct.pack("<10I", 7, *numbers, kind, samples, *map(len, parts)) + b"".join(parts)


def slices_file(room, *slices):
    return room.write("slices", b"slices1\n" + b"".join(slices))


# read, refused, written back with the same bytes, with other bytes
NONE, SAME_ONE, OTHER_ONE, REFUSED_ONE = (0, 0, 0, 0), (1, 0, 1, 0), (1, 0, 0, 1), (0, 1, 0, 0)


def summary(slices, left, alphas):
    text = "{}: {} read, {} refused; written back: {} with the same bytes, {} with other bytes, 0 wrong"
    return f"{text.format('slices', *slices)}; {left} with something left over\n{text.format('alphas', *alphas)}\n"


def recode_slices(room):
    chroma, bits = full_code(room, 2)
    # a 1 in the bits that fill up the last byte
    padded = chroma[:-1] + f"{int(chroma[-1], 16) | 1:x}"
    room.expect(bits % 8 != 0 and padded != chroma, f"the code {chroma} is filled up with zero bits")
    left = "something is left behind"
    for payloads, read, found, status, counts, over in [
        ((Y, CB, CR), "Cb 22, Cr 24", SAME, 0, SAME_ONE, 0),
        ((Y, chroma, CR), f"Cb {bits}, Cr 24", SAME, 0, SAME_ONE, 0),
        ((Y, CB + "00", CR), "Cb 22, Cr 24", f"{OTHER}; zero bytes behind Cb's code", 0, OTHER_ONE, 0),
        ((Y, chroma + "01", CR), f"Cb {bits}, Cr 24", f"{OTHER}; {left} Cb's code", 1, OTHER_ONE, 1),
        ((Y, CB, chroma + "0100"), f"Cb 22, Cr {bits}", f"{OTHER}; {left} Cr's code", 1, OTHER_ONE, 1),
        ((Y, padded, CR), f"Cb {bits}, Cr 24", f"{OTHER}; {left} Cb's code", 1, OTHER_ONE, 1),
        (
            (Y + "0000", padded, chroma + "01"),
            f"Cb {bits}, Cr {bits}",
            f"{OTHER}; zero bytes behind Y's code; {left} Cb's code; {left} Cr's code",
            *(1, OTHER_ONE, 1),
        ),
    ]:
        words = [room.recode, slices_file(room, slice_bytes(payloads))]
        room.tries(words, status, f"slice 7: Y 24, {read} bits: {found}\n{summary(counts, over, NONE)}")
    for file, why in [
        (slice_bytes((Y, "0268", CR)), "5 in Cb: the bits run out"),
        (slice_bytes(numbers=(1, 4, 0)), "13 in no component: an unknown selector"),
        (slice_bytes(numbers=(4294967295, 2, 0)), f"1 in no component: {LIMITS}"),
    ]:
        room.tries([room.recode, slices_file(room, file)], 1, f"slice 7: refused {why}\n{summary(REFUSED_ONE, 0, NONE)}")
    room.tries([room.recode, slices_file(room)], 0, summary(NONE, 0, NONE))


def recode_alphas(room):
    line = f"slice 7: Y 24, Cb 22, Cr 24 bits: {SAME}\n"
    for kind, samples, alpha, said, status, counts in [
        (1, 2, "7410", f"12 bits: {SAME}", 0, SAME_ONE),
        # 0 as an escape: it is read, and written as a small difference
        (2, 1, "8000c0", f"18 bits: {OTHER}", 0, OTHER_ONE),
        (1, 2, "7400", "refused 5: the bits run out", 1, REFUSED_ONE),
        (1, 1, "75", "refused 12: a 1 is left after alpha", 1, REFUSED_ONE),
        (3, 1, "74", "refused 13: an unknown selector", 1, REFUSED_ONE),
        (1, 4294967295, "74", f"refused 1: {LIMITS}", 1, REFUSED_ONE),
    ]:
        words = [room.recode, slices_file(room, slice_bytes(kind=kind, samples=samples, alpha=alpha))]
        room.tries(words, status, f"{line}alpha 7: {said}\n{summary(SAME_ONE, 0, counts)}")


def recode_files(room):
    two = slices_file(room, slice_bytes(kind=1, samples=2, alpha="7410"), slice_bytes((Y, "0268", CR)))
    every = re.compile(".*\n", re.DOTALL)
    room.tries([room.recode, two, "lists"], 1, every)
    lists = room.read("lists")
    room.expect(len(lists) == 2048 + 4 and lists.endswith(bytes([7, 0, 8, 0])), "the lists have what was read, and nothing else")
    room.write("cut", b"slices1\n" + slice_bytes()[:39])
    room.write("short", b"slices1\n" + slice_bytes()[:-1])
    room.write("other", b"slices2\n" + slice_bytes())
    room.write("few", b"slices1")
    room.write("samples", b"slices1\n" + slice_bytes(samples=1))
    room.write("alpha", b"slices1\n" + slice_bytes(alpha="74"))
    one = slices_file(room, slice_bytes())
    (room.folder / "link").symlink_to(one)
    (room.folder / "name").hardlink_to(room.folder / one)
    over = "the lists would be written over the slices"
    for words, out, why in [
        (["none"], "", "none: No such file or directory"),
        (["."], "", ".: Is a directory"),
        (["cut"], "", f"cut: {ENDS}"),
        (["short"], "", f"short: {ENDS}"),
        (["other"], "", "other: this is no file of slices"),
        (["few"], "", "few: this is no file of slices"),
        (["samples"], "", "samples: slice 7 has alpha and no kind"),
        (["alpha"], "", "alpha: slice 7 has alpha and no kind"),
        ([one, one], "", f"{one}: {over}"),
        ([one, "link"], "", f"link: {over}"),
        (["link", "name"], "", f"name: {over}"),
        ([one, "none/lists"], "", "none/lists: No such file or directory"),
        ([one, "/dev/full"], every, "/dev/full: No space left on device"),
        ([], "", "the words are SLICES [LISTS]; recode --help says more"),
        ([one, "lists", "more"], "", "the words are SLICES [LISTS]; recode --help says more"),
    ]:
        room.tries([room.recode, *words], 2, out, f"recode: {why}\n")
    room.expect(room.read(one) == b"slices1\n" + slice_bytes(), "the slices are as they were")
    room.tries_output([room.recode, one], "recode")
    # a file that is opened must not get the place of a closed standard output or error
    room.run(["sh", "-c", 'exec "$@" >&-', "sh", room.recode, one, "closed"])
    room.expect(not (room.folder / "closed").exists(), "what is printed does not go into LISTS")
    cut = room.write("cut", b"slices1\n" + slice_bytes() + b"7")
    room.tries(["sh", "-c", 'exec "$@" 2>&-', "sh", room.recode, cut, "closed"], 2, every)
    room.expect(len(room.read("closed")) == 2048, "what is said of an error does not go into LISTS")
    room.tries([room.recode, "--version"], 0, re.compile("recode .+\n"))
    room.tries_help([room.recode], "recode", "usage: recode SLICES [LISTS]\n")


# ---- the scripts


def jsonl(**changed):
    """A line of the file JSONL; None leaves a key out."""
    payloads = [bytes.fromhex(part) for part in (Y, CB, CR)]
    of = {"id": 7, "mbs": 1, "fmt": 2, "scan": 0, "kind": 0, "nalpha": 0, "len": [3, 3, 3], "bits": [24, 22, 24], "blocks": ""}
    of["slice"] = base64.b64encode(bytes(6) + b"".join(payloads)).decode()
    of.update(changed)
    return json.dumps({key: value for key, value in of.items() if value is not None}).encode() + b"\n"


def scripts(room):
    pack, check, examples = (str(HOST / name) for name in ("pack.py", "check.py", "examples.py"))
    room.write("good", jsonl())
    room.tries([pack, "good", "packed"], 0)
    room.expect(room.read("packed") == b"slices1\n" + slice_bytes(), "pack.py packs what it is given")
    (room.folder / "same").symlink_to("good")
    for path in ("good", "same"):
        room.tries([pack, "good", path], 2, "", f"pack.py: {path}: the file of slices would be written over the lines\n")
    room.expect(room.read("good") == jsonl(), "the lines are as they were")
    room.tries([pack, "good", "/dev/full"], 2, "", "pack.py: /dev/full: No space left on device\n")
    for line, why in [
        (b"{\n", "column 2: .*"),
        (b"\n", "column 1: .*"),
        (b"\xff\n", ".*utf-8.*"),
        (b"7\n", "an object was expected"),
        (jsonl(len=None), "there is no len"),
        (jsonl(id=-1), "id is -1"),
        (jsonl(mbs=2**32), "mbs is 4294967296"),
        (jsonl(len=[3, 3, "3"]), "len is .*"),
        (jsonl(len=[3, 3, 4]), "the lengths are not those of the slice"),
        (jsonl(len=[3, 3]), "len has 2 numbers and kind is 0: .*"),
        (jsonl(len=[3, 3, 3, 0]), "len has 4 numbers and kind is 0: .*"),
        (jsonl(kind=1), "len has 3 numbers and kind is 1: .*"),
        (jsonl(kind=1, len=[3, 3, 3, 0, 0]), "len has 5 numbers and kind is 1: .*"),
        (jsonl(nalpha=1), "nalpha is 1 and kind is 0"),
        (jsonl(slice="AA=A"), ".*padding.*"),
        (jsonl(slice="*AAA"), ".*base64.*"),
    ]:
        room.write("bad", jsonl() + line)
        room.tries([pack, "bad", "none"], 2, "", re.compile(f"pack.py: bad: line 2: {why}\n"))
    room.expect(not (room.folder / "none").exists(), "a bad line leaves no file of slices")
    room.write("bad", jsonl(kind=1))
    room.tries([check, "bad", "good", "good", "0"], 2, "", "check.py: bad: line 1: an object was expected\n")
    room.tries([check, "good", "good", "good", "0"], 1, re.compile("(FAILED: .*\n){3}2 passed, 3 failed\n"))
    room.tries([examples, "good", room.look], 1, "FAILED: good has no examples\n0 passed, 1 failed\n")
    room.write("document", b"    $ look read 1 80\n    6 of 8 bits\n")
    room.tries([examples, "document", room.look], 0, "1 passed, 0 failed\n")
    room.write("quote", b"    $ look read '1\n")
    room.tries([examples, "quote", room.look], 2, "", "examples.py: quote: $ look read '1: No closing quotation\n")
    room.tries([examples, "document", "./none"], 2, "", "examples.py: ./none: No such file or directory\n")
    room.tries_output([examples, "document", room.look], "examples.py")
    for path, words in ((pack, "JSONL SLICES"), (check, "JSONL SAID LISTS STATUS"), (examples, "DOCUMENT LOOK")):
        name, number = pathlib.Path(path).name, len(words.split())
        room.tries([path], 2, "", f"{name}: the words are {words}; {name} --help says more\n")
        room.tries([path, *["none"] * number], 2, "", f"{name}: none: No such file or directory\n")
        room.tries([path, *["."] * number], 2, "", f"{name}: .: Is a directory\n")
        room.tries_help([path], name, f"host/{name} {words}: ")
    for word in ("-h", "--help"):
        room.tries([str(HOST / "build.sh"), word], 0, re.compile(r"host/build.sh \[PROGRAM\.\.\]: .*\n", re.DOTALL))
    # programs that do nothing: what fails is counted, and the count comes last
    if room.recode != TRUE:
        counted = re.compile(r"FAILED: .*\n\d+ passed, [1-9]\d* failed\n", re.DOTALL)
        room.tries([str(HOST / "programs.py"), TRUE, "/bin/false"], 1, counted)


def programs(recode, look):
    with tempfile.TemporaryDirectory() as folder:
        room = Room(folder, *(str(pathlib.Path(path).resolve()) for path in (recode, look)))
        for part in (look_answers, look_words, recode_slices, recode_alphas, recode_files, scripts):
            part(room)
    print(f"{room.passed} passed, {room.failed} failed")
    return int(room.failed > 0)


if __name__ == "__main__":
    begin(__doc__, programs)
