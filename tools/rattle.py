"""What the tools read alike: the list of crates, and the contracts in a text of Rattle."""
import re

CLAUSE = re.compile(r'\b(requires|ensures)\*?(?: (\w+))? \{')
# how a clause of memory says that a fact is pure
PURE = re.compile(r'(?:λ \w+\. )?⌜ (.*) ⌝', re.S)


def crates(text):
    """The crates that a crates.txt lists, in its order."""
    return re.findall(r'^(\w+)[^:#\n]*:', text, re.M)


def closing(text, at):
    """Behind the brace that closes the one that is there."""
    depth = 0
    while True:
        depth += (text[at] == '{') - (text[at] == '}')
        at += 1
        if depth == 0:
            return at


def clauses(text):
    """The clauses of a text: of each its kind, what it says, where it begins and where it ends."""
    found, at = [], 0
    while m := CLAUSE.search(text, at):
        at = closing(text, m.end() - 1)
        said = text[m.end():at - 1].strip()
        pure = PURE.fullmatch(said)
        found.append((m[1], pure[1] if pure else said, m.start(), at))
    return found


def without_clauses(text):
    """The text, with blanks in place of its clauses, and as many lines."""
    for _, _, begin, end in clauses(text):
        text = text[:begin] + re.sub(r'[^\n]', ' ', text[begin:end]) + text[end:]
    return text


def body(text, at):
    """Where the body of the function that begins there opens."""
    while True:
        brace = text.index('{', at)
        clause = CLAUSE.search(text, at, brace + 1)
        if not clause:
            return brace
        at = closing(text, brace)
