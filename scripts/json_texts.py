#!/usr/bin/env python3
"""Compares the reader of JSON with Python's on random texts and near-texts.

A text is accepted exactly where Python's `json`, with its leniencies removed (NaN and Infinity, half of a
surrogate pair, a byte order mark), accepts it, and then the tokens are the same: names, strings, numbers
as they are spelled.

usage: json_texts.py [PROGRAM [COUNT [SEED]]]

Without PROGRAM it builds the program from the checked crate.
"""
import json
import pathlib
import random
import subprocess
import sys

ROOT = pathlib.Path(__file__).resolve().parent.parent

sys.path.insert(0, str(ROOT / "scripts"))
from program import built  # noqa: E402

DEPTH = 208
BLANKS = [b"", b"", b"", b" ", b"\n", b"\t", b"\r", b" \r\n\t "]
ESCAPES = ['\\"', "\\\\", "\\/", "\\b", "\\f", "\\n", "\\r", "\\t", "\\u0000", "\\u0041", "\\u00e9", "\\uD7FF", "\\uE000", "\\uFfFf", "\\ud834\\udd1e", "\\uDBFF\\uDFFF"]
CHARACTERS = "abz09 /'{}[]:,\x7f\x80\xe9\u07ff\u0800\u20ac\ud7ff\ue000\ufeff\uffff\U00010000\U0001d11e\U0010ffff"
WRONG = [
    b"\\u", b"\\ud834", b"\\udd1e", b"\\x", b"\\U", b"\\u00g0", b"\xc3", b"\xc0\xaf", b"\xe0\x80\x80", b"\xed\xa0\x80", b"\xf4\x90\x80\x80",
    b"\x80", b"\xff", b"\xef\xbb\xbf", b"\x00", b"\x1f", b"\x0b", b"\x0c", b"\xc2\xa0", b"01", b"-", b"+1", b"1.", b".5", b"1e", b"--", b"0x1",
    b"NaN", b"Infinity", b"-Infinity", b"True", b"nul", b",", b",,", b":", b"[", b"]", b"{", b"}", b'"', b"'", b"//", b"1 2", b"{,}", b"[,]",
]


def number(r):
    whole = r.choice(["0", str(r.randrange(1, 10)), str(r.randrange(1, 10 ** r.randrange(1, 25)))])
    fraction = r.choice(["", "", "." + str(r.randrange(10 ** r.randrange(1, 8)))])
    power = r.choice(["", "", r.choice("eE") + r.choice(["", "+", "-"]) + str(r.randrange(10 ** r.randrange(1, 4)))])
    return (r.choice(["", "-"]) + whole + fraction + power).encode()


def string(r):
    parts = [r.choice(ESCAPES) if r.random() < 0.3 else r.choice(CHARACTERS) for _ in range(r.choice([0, 1, 2, 5, 20]))]
    return ('"' + "".join(parts) + '"').encode()


def value(r, depth):
    """A random text, as a list of marks."""
    kind = r.randrange(8)
    if depth == 0 or kind < 5:
        return [r.choice([number(r), string(r), b"true", b"false", b"null"])]
    marks = []
    for i in range(r.choice([0, 1, 2, 4])):
        if i:
            marks.append(b",")
        if kind != 5:
            marks += [string(r), b":"]
        marks += value(r, depth - 1)
    return [b"[", *marks, b"]"] if kind == 5 else [b"{", *marks, b"}"]


def nested(r):
    """Brackets up to the limit, and past it."""
    depth = r.choice([DEPTH - 1, DEPTH, DEPTH + 1, DEPTH + 2])
    opening, closing = r.choice([([b"["], b"]"), ([b"{", b'""', b":"], b"}")])
    return opening * depth + [r.choice([b"0", b"[]", b"null"])] + [closing] * depth


def spoiled(r, text):
    """The text with one to three small changes."""
    for _ in range(r.choice([1, 1, 1, 2, 3])):
        at = r.randrange(len(text) + 1)
        change = r.randrange(6)
        if change == 0:
            text = text[:at] + text[at + 1:]
        elif change == 1:
            text = text[:at] + r.choice(WRONG) + text[at:]
        elif change == 2:
            text = text[:at] + bytes([r.randrange(256)]) + text[at + 1:]
        elif change == 3:
            text = text[:at]
        elif change == 4:
            text = text[:at] + text[at:at + 1] + text[at:]
        else:
            text = text[:at] + bytes([r.randrange(256)]) + text[at:]
    return text


def texts(r, count):
    for n in range(count):
        marks = nested(r) if n % 100 < 2 else value(r, r.choice([0, 1, 3, 6]))
        text = b"".join(r.choice(BLANKS) + mark for mark in marks) + r.choice(BLANKS)
        yield text if n % 2 else spoiled(r, text)


class Number(str):
    """A number as it is spelled."""


class Pairs(list):
    """The members of an object, in order."""


def refuse(_):
    raise ValueError("no number")


def tokens(tree):
    if isinstance(tree, Number):
        yield "n" + tree.encode().hex()
    elif isinstance(tree, str):
        yield "t" + tree.encode().hex()
    elif isinstance(tree, Pairs):
        yield "{"
        for name, member in tree:
            yield "k" + name.encode().hex()
            yield from tokens(member)
        yield "}"
    elif isinstance(tree, list):
        yield "["
        for item in tree:
            yield from tokens(item)
        yield "]"
    else:
        yield {True: "true", False: "false", None: "null"}[tree]


def depth_of(line):
    depth = deepest = 0
    for token in line:
        depth += {"{": 1, "[": 1, "}": -1, "]": -1}.get(token, 0)
        deepest = max(deepest, depth)
    return deepest


def expected(text):
    """The tokens, or None where the text is refused. Half of a surrogate pair cannot be encoded."""
    try:
        tree = json.loads(text.decode(), parse_int=Number, parse_float=Number, parse_constant=refuse, object_pairs_hook=Pairs)
        return list(tokens(tree))
    except (ValueError, RecursionError):
        return None


def main():
    program = sys.argv[1] if len(sys.argv) > 1 else built("json_tokens")
    count = int(sys.argv[2]) if len(sys.argv) > 2 else 10000
    seed = int(sys.argv[3]) if len(sys.argv) > 3 else 8259
    sys.setrecursionlimit(20000)
    inputs = list(texts(random.Random(seed), count))
    run = subprocess.run([program], input="".join(text.hex() + "\n" for text in inputs).encode(), capture_output=True)
    lines = run.stdout.decode().split("\n")[:-1]
    if run.returncode or len(lines) != len(inputs):
        sys.exit(f"status {run.returncode}, {len(lines)} lines: {run.stderr.decode()}")
    wrong = accepted = deep = 0
    for text, line in zip(inputs, lines):
        told = line.split()
        wanted = expected(text)
        if wanted is not None and depth_of(wanted) > DEPTH:
            same = told[-3:-1] == ["too", "deep"]
            deep += 1
        elif wanted is None:
            same = told[-2] == "syntax" or told[-3:-1] == ["too", "deep"]
        else:
            same = told == wanted + ["end"]
            accepted += 1
        if not same:
            wrong += 1
            print(f"{text!r}: {line}, Python {wanted}", file=sys.stderr)
    print(f"{len(inputs)} texts, {accepted} accepted, {deep} too deep, {wrong} otherwise than Python")
    return 1 if wrong or accepted < count // 4 or accepted > count - count // 4 or not deep else 0


if __name__ == "__main__":
    sys.exit(main())
