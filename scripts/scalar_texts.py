#!/usr/bin/env python3
"""Compares what texts of scalars mean with an exact reading by Python's `fractions`, and makes the rows of scalar_rows.

A text of a number is one where RFC 8259's grammar says so, and its value is the exact fraction that it spells, as
`fractions` has it; only where the exponent is too long for that, the digits alone decide. An enum's text is first the
first declared value of that name. A bool is one of two words, and a string is what Python decodes as UTF-8.

usage: scalar_texts.py [PROGRAM [COUNT [SEED]]] | --rows | --check

Without PROGRAM it builds the program from the checked crate. --rows writes the rows, --check compares them.
"""
import fractions
import pathlib
import random
import re
import subprocess
import sys

ROOT = pathlib.Path(__file__).resolve().parent.parent

sys.path.insert(0, str(ROOT / "scripts"))
from program import built  # noqa: E402

SIGNED32, SIGNED64 = (-2**31, 2**31 - 1), (-2**63, 2**63 - 1)
UNSIGNED32, UNSIGNED64 = (0, 2**32 - 1), (0, 2**64 - 1)
RANGES = {
    "int32": SIGNED32, "sint32": SIGNED32, "sfixed32": SIGNED32, "int64": SIGNED64, "sint64": SIGNED64, "sfixed64": SIGNED64,
    "uint32": UNSIGNED32, "fixed32": UNSIGNED32, "uint64": UNSIGNED64, "fixed64": UNSIGNED64, "colour": SIGNED32,
}
KINDS = [*RANGES, "bool", "string"]
COLOURS = [("NONE", 0), ("RED", 1), ("SCARLET", 1), ("7", 3), ("RED", 5), ("LOW", -2**31), ("HIGH", 2**31 - 1)]
NUMBER = re.compile(rb"(-?)(0|[1-9][0-9]*)(?:\.([0-9]+))?(?:[eE]([+-]?[0-9]+))?")
LONG_EXPONENT = 5_000
PAST_RANGE = 10**30


def exact(text):
    """None where the text is no number; else the fraction that it is, or one of the same answer where that is too long."""
    found = NUMBER.fullmatch(text)
    if found is None:
        return None
    minus, whole, behind, power = found.groups()
    digits = whole + (behind or b"")
    exponent = int_of(power or b"0")
    if not digits.strip(b"0"):
        return fractions.Fraction(0)
    if abs(exponent) <= LONG_EXPONENT and len(text) <= LONG_EXPONENT:
        return fractions.Fraction(text.decode())
    # The last digit that is not 0 stands at this place: the number is whole where it is at least 0.
    lowest = exponent - len(behind or b"") + len(digits) - len(digits.rstrip(b"0"))
    highest = exponent + len(whole) - (len(digits) - len(digits.lstrip(b"0")))
    if lowest < 0:
        return fractions.Fraction(1, 2)
    sign = -1 if minus else 1
    return fractions.Fraction(sign * PAST_RANGE if highest > 30 else sign * int(digits.strip(b"0")) * 10**lowest)


def int_of(digits):
    """An integer of any number of digits."""
    sign = -1 if digits.startswith(b"-") else 1
    digits = digits.lstrip(b"+-").lstrip(b"0") or b"0"
    return sign * int(digits[:4000]) * 10 ** (len(digits) - len(digits[:4000]))


def number_answer(kind, text):
    value = exact(text)
    if value is None:
        return "BadEnum" if kind == "colour" else "BadNumber"
    if value.denominator != 1:
        return "BadNumber"
    low, high = RANGES[kind]
    return str(value.numerator) if low <= value.numerator <= high else "OutOfRange"


def shown(text):
    """Bytes as the rows spell them."""
    if not text:
        return "-"
    if re.fullmatch(rb"[ -~]+", text):
        return "'" + text.decode().replace("|", "|7c|'").replace(" ", "|20|'")
    return text.hex()


def answer(kind, text):
    if kind == "bool":
        return text.decode() if text in (b"true", b"false") else "BadText"
    if kind == "string":
        try:
            text.decode()
        except UnicodeDecodeError:
            return "NotUtf8"
        return text
    if kind == "colour":
        for name, number in COLOURS:
            if name.encode() == text:
                return str(number)
    return number_answer(kind, text)


def integer_text(r):
    """An integer near an end of a range, or any."""
    near = r.choice([0, 1, 2**31, 2**32, 2**63, 2**64, 10 ** r.randrange(30), r.randrange(10 ** r.randrange(1, 40))])
    return r.choice(["", "-"]) + str(max(0, near + r.randrange(-2, 3)))


def moved(r, text):
    """The same number with its point moved, zeros at either end of the digits, and an exponent to make up for it."""
    sign, digits = ("-", text[1:]) if text.startswith("-") else ("", text)
    zeros = r.choice([0, 0, 1, 3, 30, 200])
    digits += "0" * zeros
    behind = r.choice([0, 1, len(digits) // 2, len(digits) - 1, len(digits), len(digits) + r.choice([1, 5, 300])])
    padded = digits.rjust(behind + 1, "0")
    whole, fraction = padded[:len(padded) - behind], padded[len(padded) - behind:]
    power = behind - zeros + r.choice([0, 0, 0, 0, -1, 1])
    exponent = r.choice("eE") + (r.choice(["", "+"]) if power >= 0 else "-") + "0" * r.choice([0, 0, 2]) + str(abs(power))
    return sign + (whole.lstrip("0") or "0") + ("." + fraction if fraction else "") + (exponent if power or r.random() < 0.3 else "")


def extreme(r):
    """Digits and exponents past every width."""
    long = str(r.choice([2**63, 2**64 - 1, 2**64, 2**65, 10**21, 10**40, 2**128, int("9" * 60)]) + r.randrange(-1, 2))
    return r.choice(["0", "1", "-1", "10", "0." + "0" * r.randrange(40) + "1", "100", "-0.0", "25e"]).rstrip("e") + r.choice("eE") + r.choice(["", "+", "-"]) + long


def spoiled(r, text):
    """The text with a change."""
    at = r.randrange(len(text) + 1)
    change = r.randrange(4)
    if change == 0:
        return text[:at] + text[at + 1:]
    if change == 1:
        return text[:at] + r.choice([b"0", b"+", b"-", b".", b"e", b" ", b"_", b"x", b"\x00", b"\xff", b"\xe2\x82\xac", b"1"]) + text[at:]
    if change == 2:
        return text[:at] + bytes([r.randrange(256)]) + text[at + 1:]
    return text[:at]


WORDS = [b"", b"true", b"false", b"True", b"truee", b"tru", b"1", b"RED", b"red", b"SCARLET", b"NONE", b"7", b"7.0", b"LOW", b"HIGH", b"REDS", b"NaN",
         b"Infinity", b"\xc3\xa9", b"\xc3", b"\xed\xa0\x80", b"\xf4\x90\x80\x80", b"\xf0\x9f\x98\x80", b"0x10", b".5", b"5.", b"+1", b"01", b"1e", b"--1", b"1 ", b" 1"]


def random_text(r):
    kind = r.randrange(8)
    if kind == 0:
        return r.choice(WORDS)
    text = (integer_text(r) if kind < 3 else extreme(r) if kind == 3 else moved(r, integer_text(r))).encode()
    return spoiled(r, text) if r.random() < 0.2 else text


TABLE = [
    b"0", b"-0", b"0e5", b"-0.0e-7", b"1e2", b"100e-2", b"1200.0E-2", b"1.5", b"1.0", b"0.5", b"1e-1", b"12e-1", b"2147483647", b"2147483648", b"-2147483648", b"-2147483649",
    b"4294967295", b"4294967296", b"9223372036854775807", b"9223372036854775808", b"-9223372036854775808", b"-9223372036854775809", b"18446744073709551615",
    b"18446744073709551616", b"-18446744073709551616", b"36893488147419103232", b"340282366920938463463374607431768211456", b"1e999999999999999999999", b"-1e999999999999999999999",
    b"1e-999999999999999999999", b"0e999999999999999999999", b"0.0e-999999999999999999999", b"1e36893488147419103232", b"1e-36893488147419103232", b"1e+0", b"1E+02", b"1e-0",
    b"0.000001e6", b"0.0000015e6", b"0.0000015e7", b"00", b"01", b"-01", b"+1", b"-", b"", b".", b".5", b"5.", b"1.e1", b"1e", b"1e+", b"1e1.0", b"1e 1", b" 1", b"1 ", b"1\n", b"0x1",
    b"1_000", b"NaN", b"Infinity", b"-Infinity", b"\xd9\xa1", b"1" + b"0" * 40, b"1" + b"0" * 40 + b"e-40", b"1" + b"0" * 40 + b"e-41", b"0." + b"0" * 39 + b"1e40", b"0." + b"0" * 39 + b"1e39",
    b"true", b"false", b"True", b"TRUE", b"tru", b"true ", b"null", b"RED", b"red", b"SCARLET", b"NONE", b"7", b"7.0", b"3", b"42", b"-1", b"LOW", b"HIGH", b"GREEN", b"1.5e0", b"RED ",
    b"\xc3\xa9", b"\xc3", b"\xed\xa0\x80", b"\xf4\x90\x80\x80", b"\xf0\x9f\x98\x80", b"a b", b"\x00",
]


def row_answer(kind, text):
    told = answer(kind, text)
    return shown(told) if isinstance(told, bytes) else told


def wanted_rows():
    """The rows, and their answers: each number's text as three kinds in turn, and each other text as those that differ."""
    rows, answers = ["# Made by scripts/scalar_texts.py --rows, which has the answers from Python's exact fractions."], []
    numbers = [kind for kind in RANGES if kind != "colour"]
    for at, text in enumerate(TABLE):
        kinds = [numbers[(at + step) % len(numbers)] for step in (0, 3, 6)] + ["colour"]
        if NUMBER.fullmatch(text) is None:
            kinds = [numbers[at % len(numbers)], "colour", "bool", "string"]
        for kind in kinds:
            label = f"{kind}/{at}"
            rows.append(f"{label} {kind} {shown(text)}")
            answers.append(f"{label} {row_answer(kind, text)}")
    return "\n".join(rows) + "\n", "\n".join(answers) + "\n"


def write_rows(check):
    folder, same = ROOT / "crates" / "scalar_rows", True
    for name, text in zip(("stdin", "stdout"), wanted_rows()):
        if check:
            same = same and (folder / name).read_text() == text
        else:
            (folder / name).write_text(text)
    print("the rows are those that are made" if check and same else "the rows differ" if check else "written")
    return 0 if same else 1


def main():
    if sys.argv[1:] in (["--rows"], ["--check"]):
        return write_rows(sys.argv[1] == "--check")
    program = sys.argv[1] if len(sys.argv) > 1 else built("scalar_rows")
    count = int(sys.argv[2]) if len(sys.argv) > 2 else 20000
    r = random.Random(int(sys.argv[3]) if len(sys.argv) > 3 else 8259)
    asked = [(r.choice(KINDS), random_text(r)) for _ in range(count)]
    lines = "".join(f"{at} {kind} {text.hex() or '-'}\n" for at, (kind, text) in enumerate(asked))
    run = subprocess.run([program], input=lines.encode(), capture_output=True)
    told = run.stdout.decode().split("\n")[:-1]
    if run.returncode or len(told) != len(asked):
        sys.exit(f"status {run.returncode}, {len(told)} lines: {run.stderr.decode()[-500:]}")
    wrong = meant = 0
    for at, ((kind, text), line) in enumerate(zip(asked, told)):
        wanted = answer(kind, text)
        meant += isinstance(wanted, bytes) or not wanted[:1].isupper()
        given = line.partition(" ")[2]
        same = bytes_of(given) == wanted if isinstance(wanted, bytes) else given == wanted
        if not same:
            wrong += 1
            print(f"{kind} {text!r}: {given}, Python {wanted!r}", file=sys.stderr)
    print(f"{count} texts, {meant} with a meaning, {wrong} otherwise than Python")
    return 1 if wrong or meant < count // 5 or meant > count - count // 5 else 0


def bytes_of(word):
    """The bytes that the program spells in a word, or None where it is no such word."""
    if word == "-":
        return b""
    parts = []
    for part in word.split("|"):
        times, star, digits = part.partition("*")
        if part.startswith("'"):
            parts.append(part[1:].encode())
        elif star:
            parts.append(bytes.fromhex(digits) * int(times))
        elif re.fullmatch("(?:[0-9a-f]{2})+", part):
            parts.append(bytes.fromhex(part))
        else:
            return None
    return b"".join(parts)


if __name__ == "__main__":
    sys.exit(main())
