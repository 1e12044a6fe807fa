#!/usr/bin/env python3
"""host/examples.py DOCUMENT LOOK: runs the examples of a document, and compares. An example is an indented line `$ look WORDS..`;
the indented lines below it, up to the next example or the end of the block, are what the program LOOK must print. The last line is
'N passed, M failed'.
"""
import re
import shlex
import subprocess

from scripts import Unusable, begin, read_lines, using

EXAMPLE = re.compile(r"( {4,})\$ (look .*)")


def examples(lines):
    """Commands, each with what it must print."""
    command, wanted, indent = None, [], ""
    for line in [*lines, ""]:
        begins = EXAMPLE.fullmatch(line)
        if command and not begins and line.startswith(indent):
            wanted.append(line[len(indent) :])
            continue
        if command:
            yield command, wanted
        command, wanted = None, []
        if begins:
            indent, command = begins.groups()


def said(look, words):
    with using(look):
        ran = subprocess.run([look, *words], stdout=subprocess.PIPE, stderr=subprocess.STDOUT, check=False)
    return ran.stdout.decode(errors="replace").splitlines()


def run(document, look):
    passed = failed = 0
    for command, wanted in examples(read_lines(document, bytes.decode)):
        try:
            words = shlex.split(command)[1:]
        except ValueError as why:
            raise Unusable(f"{document}: $ {command}: {why}") from why
        came = said(look, words)
        if came == wanted:
            passed += 1
        else:
            failed += 1
            print(f"FAILED: {command}\n  must print {wanted}\n  prints     {came}")
    # a document whose examples are not found would pass
    if passed + failed == 0:
        print(f"FAILED: {document} has no examples")
        failed = 1
    print(f"{passed} passed, {failed} failed")
    return int(failed > 0)


if __name__ == "__main__":
    begin(__doc__, run)
