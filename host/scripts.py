"""What the scripts of this folder do alike: their words, how they end, and the lines of the real slices.

A script ends with status 0 where all is well, with 1 where something is not, and with 2 where it cannot do its work. Then it says
`NAME: FILE: cause` on standard error.
"""
import contextlib
import json
import os
import pathlib
import sys


class Unusable(Exception):
    """What cannot be used, and why."""


@contextlib.contextmanager
def using(path):
    """Tells of this file whatever fails within."""
    try:
        yield
    except OSError as why:
        raise Unusable(f"{path}: {why.strerror}") from why


def begin(document, work):
    """Hands the script's words to `work`, and ends with the status that it gives. The document begins `FOLDER/NAME WORD WORD:`."""
    path, *words = document.partition(":")[0].split()
    name = pathlib.Path(path).name
    try:
        with using("standard output"):
            status = answer(name, document, words, work)
            sys.stdout.flush()
    except Unusable as why:
        print(f"{name}: {why}", file=sys.stderr)
        # not sys.exit: Python would try once more to write what is left for standard output
        os._exit(2)
    sys.exit(status)


def answer(name, document, words, work):
    if sys.stdout is None:
        raise Unusable("standard output: it is closed")
    # whatever the locale can print
    sys.stdout.reconfigure(errors="backslashreplace")
    given = sys.argv[1:]
    if given[:1] in (["-h"], ["--help"]):
        print(document.strip())
        return 0
    if len(given) != len(words):
        raise Unusable(f"the words are {' '.join(words)}; {name} --help says more")
    return work(*given)


def is_number(value):
    return type(value) is int and 0 <= value < 2**32


def is_numbers(value):
    return type(value) is list and all(map(is_number, value))


def is_text(value):
    return type(value) is str


def formed(value, forms):
    """An object that has each key of `forms`, with a value of its form."""
    if type(value) is not dict:
        raise ValueError("an object was expected")
    for key, is_so in forms.items():
        if key not in value:
            raise ValueError(f"there is no {key}")
        if not is_so(value[key]):
            raise ValueError(f"{key} is {json.dumps(value[key])[:40]}")
    return value


def read_lines(path, use):
    """What `use` makes of each line of the file; its ValueError is told with the line's number."""
    made = []
    with using(path):
        lines = pathlib.Path(path).read_bytes().splitlines()
    for place, line in enumerate(lines, 1):
        try:
            made.append(use(line))
        except (ValueError, RecursionError) as why:
            raise Unusable(f"{path}: line {place}: {why}") from why
    return made


def json_value(line):
    try:
        return json.loads(line)
    except json.JSONDecodeError as why:
        # the line that it names is always the first
        raise ValueError(f"column {why.colno}: {why.msg}") from why


def read_json(path, use):
    """The same for a file with a JSON value on each line."""
    return read_lines(path, lambda line: use(json_value(line)))
