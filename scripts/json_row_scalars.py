"""Rows of json_values on scalars and enums in JSON."""
from json_row_forms import (
    OPTIONALS, SCALARS, bare, both, chunk, fixed32, fixed64, num, reads, refused, section, varint, zigzag,
)

# Integers: the name of the field in Scalars and Optionals, its number there, its bytes, and its range.

SIGNED32, SIGNED64 = (-2**31, 2**31 - 1), (-2**63, 2**63 - 1)
UNSIGNED32, UNSIGNED64 = (0, 2**32 - 1), (0, 2**64 - 1)
INTEGERS = [
    ("i32", 1, 0, varint, SIGNED32), ("i64", 2, 0, varint, SIGNED64), ("u32", 3, 0, varint, UNSIGNED32), ("u64", 4, 0, varint, UNSIGNED64),
    ("s32", 5, 0, zigzag, SIGNED32), ("s64", 6, 0, zigzag, SIGNED64), ("f32", 7, 5, fixed32, UNSIGNED32), ("f64", 8, 1, fixed64, UNSIGNED64),
    ("sf32", 9, 5, fixed32, SIGNED32), ("sf64", 10, 1, fixed64, SIGNED64),
]
LONG = ["i64", "u64", "s64", "f64", "sf64"]

# Texts that are no number's, in a string, and numbers that are no integers.
NO_NUMBERS = ["", " ", " 1", "1 ", "+1", "01", "-01", ".5", "1.", "1.e1", "1e", "1e+", "-", "--1", "0x1", "1_000", "1,0", "NaN", "Infinity", "-Infinity", "null", "true", "one", "1\\u0000", "\u0661"]
NO_INTEGERS = ["1.5", "-0.1", "1e-1", "15e-2", "0.00001e4", "1e-400"]
WRONG_SHAPES = ["true", "false", "[", "{", "[]", "{}"]


def one_integer(name, number, wire, put, low, high):
    """The rows of one integer field."""
    told = '"%s"' if name in LONG else "%s"
    for value in sorted({low, high, 1} - {0}):
        both(SCALARS, f'{{"{name}":{told % value}}}', bare(number, wire, put(value)))
        other = "%s" if name in LONG else '"%s"'
        reads(SCALARS, f'{{"{name}":{other % value}}}', bare(number, wire, put(value)))
    for text in ["1e2", "1E+2", "100.0", "1.00e2", "1000e-1", "0.1e3", "10000000000000000000000e-20"]:
        reads(SCALARS, f'{{"{name}":{text}}}', bare(number, wire, put(100)))
        reads(SCALARS, f'{{"{name}":"{text}"}}', bare(number, wire, put(100)))
    for text in ["0", '"0"', "-0", '"-0"', "0.0", "-0.0e-5", "0e999999999999999999999", "null"]:
        reads(SCALARS, f'{{"{name}":{text}}}')
    both(OPTIONALS, f'{{"{name}":{told % 0}}}', bare(number, wire, put(0)))
    reads(OPTIONALS, f'{{"{name}":-0}}', bare(number, wire, put(0)))
    reads(OPTIONALS, f'{{"{name}":null}}')
    for text in [low - 1, high + 1, "1e30", "-1e30", "1e400", f"{high}1", "1" + "0" * 400, "1e99999999999999999999"]:
        refused(SCALARS, f'{{"{name}":^{text}}}', "OutOfRange")
        refused(SCALARS, f'{{"{name}":^"{text}"}}', "OutOfRange")
    for text in NO_INTEGERS:
        refused(SCALARS, f'{{"{name}":^{text}}}', "BadNumber")
        refused(SCALARS, f'{{"{name}":^"{text}"}}', "BadNumber")


def integers():
    for name, number, wire, put, (low, high) in INTEGERS:
        section(f"The field {name}: its ends, as a number and as a string; the same integer spelled otherwise; 0; out of range; no integer.")
        one_integer(name, number, wire, put, low, high)
    section("Texts that are no number's, in strings of a field of 32 and of 64 bits; tokens of no number.")
    for name in ["i32", "u64"]:
        for text in NO_NUMBERS:
            refused(SCALARS, f'{{"{name}":^"{text}"}}', "BadNumber")
        for text in WRONG_SHAPES:
            refused(SCALARS, f'{{"{name}":^{text}}}', "WrongShape")
    section("A number's exact value counts, where a float's would be another.")
    reads(SCALARS, '{"u64":18446744073709551614}', num(4, 2**64 - 2))
    reads(SCALARS, '{"i64":9007199254740993}', num(2, 2**53 + 1))
    reads(SCALARS, '{"i64":9.223372036854775807e18}', num(2, 2**63 - 1))
    refused(SCALARS, '{"i64":^9223372036854775806.5}', "BadNumber")
    refused(SCALARS, '{"u64":^18446744073709551615.000000000000000000001}', "BadNumber")
    refused(SCALARS, '{"u32":^-0.5}', "BadNumber")


def truths_and_strings():
    section("Bools are true and false, and nothing else.")
    both(SCALARS, '{"b":true}', num(11, 1))
    reads(SCALARS, '{"b":false}')
    reads(SCALARS, '{"b":null}')
    both(OPTIONALS, '{"b":false}', num(11, 0))
    for text in ['"true"', '"false"', '""', "0", "1", "[", "{"]:
        refused(SCALARS, f'{{"b":^{text}}}', "WrongShape")
    section("Strings: characters, escapes, and what must be escaped.")
    both(SCALARS, '{"s":"a b"}', chunk(12, "a b"))
    both(SCALARS, '{"s":"\\"\\\\/\\b\\f\\n\\r\\t"}', chunk(12, '"\\/\b\f\n\r\t'))
    both(SCALARS, '{"s":"\\u0000\\u0001\\u000b\\u001f\x7f"}', chunk(12, "\0\1\x0b\x1f\x7f"))
    both(SCALARS, '{"s":"\u00e9\u20ac\U0001d11e"}', chunk(12, "\u00e9\u20ac\U0001d11e"))
    reads(SCALARS, '{"s":"\\u00e9\\u20AC\\ud834\\udd1e"}', chunk(12, "\u00e9\u20ac\U0001d11e"))
    reads(SCALARS, '{"s":"\\/\\u002f\\u0022\\u005c\\u0041"}', chunk(12, '//"\\A'))
    reads(SCALARS, '{"s":"null"}', chunk(12, "null"))
    reads(SCALARS, '{"s":""}')
    reads(SCALARS, '{"s":null}')
    both(OPTIONALS, '{"s":""}', chunk(12))
    for text in ["1", "true", "[", "{"]:
        refused(SCALARS, f'{{"s":^{text}}}', "WrongShape")
    section("Strings that no text of JSON has: lone surrogates, bare characters below U+0020, bytes that are not UTF-8.")
    refused(SCALARS, '{"s":"\\ud83d^"}', "Syntax")
    refused(SCALARS, '{"s":"\\ud83d^a"}', "Syntax")
    refused(SCALARS, '{"s":"\\ud83d\\^n"}', "Syntax")
    refused(SCALARS, '{"s":"\\ud83d\\ud^83d"}', "Syntax")
    refused(SCALARS, '{"s":"\\ud^c00"}', "Syntax")
    refused(SCALARS, '{"s":"\\^x"}', "Syntax")
    refused(SCALARS, '{"s":"\\u00^g0"}', "Syntax")
    refused(SCALARS, '{"s":"a^\n"}', "Syntax")
    for data in [b"\xff", b"\x80", b"\xc0\x80", b"\xf5\x80"]:
        refused(SCALARS, b'{"s":"^' + data + b'"}', "Syntax")
    for data in [b"\xed^\xa0\x80", b"\xe0^\x80\x80", b"\xf0^\x80\x80\x80", b"\xf4^\x90\x80\x80", b"\xc3^a", b"\xe2\x82^"]:
        refused(SCALARS, b'{"s":"' + data + b'"}', "Syntax")


# Base64: texts of the same bytes, and texts of none.
SPELLED = [
    (b"\0", ["AA==", "AA"]), (b"\0\0", ["AAA=", "AAA"]), (b"\0\0\0", ["AAAA"]), (b"\0\0\0\0", ["AAAAAA==", "AAAAAA"]), (b"\xfb", ["+w==", "+w", "-w==", "-w"]),
    (b"\xfb\xff", ["+/8=", "+/8", "-_8=", "-_8", "+_8=", "+_8", "-/8=", "-/8"]), (b"\xfb\xff\xfe", ["+//+", "-__-", "+_/-", "-//-"]),
    (b"Man is", ["TWFuIGlz"]), (b"\xff\xff", ["//8=", "__8", "/_8", "_/8="]),
]
UNSPELLED = [
    "A", "AAAAA", "A===", "A==", "A=", "AA=", "AA===", "AAA==", "AAA===", "AAAA=", "AAAA==", "AAAA====", "=", "====", "AB==", "AB", "AP==", "AAB=", "AAB", "AAD", "+x", "-_9",
    " AA==", "AA== ", "A A=", "AA ==", "AA\\n==", "AA==AA==", "AA=A", "=AAA", "AA.A", "AA*A", "AA,A", "\u00c0A==", "AA\\u0000=", "%2B%2F8%3D",
]


def byte_strings():
    section("Bytes: base64 of either alphabet or both, with all of its padding or none.")
    for data, texts in SPELLED:
        both(SCALARS, f'{{"raw":"{texts[0]}"}}', chunk(13, data))
        for text in texts[1:]:
            reads(SCALARS, f'{{"raw":"{text}"}}', chunk(13, data))
    reads(SCALARS, '{"raw":"\\u002b\\/8\\u003d"}', chunk(13, b"\xfb\xff"))
    reads(SCALARS, '{"raw":""}')
    reads(SCALARS, '{"raw":null}')
    both(OPTIONALS, '{"raw":""}', chunk(13))
    section("No bytes: lengths that none have, padding in part or too much, bits that are left and not 0, other characters.")
    for text in UNSPELLED:
        refused(SCALARS, f'{{"raw":^"{text}"}}', "BadText")
    for text in ["1", "true", "[", "{"]:
        refused(SCALARS, f'{{"raw":^{text}}}', "WrongShape")


def enums():
    section("Enums: a name, or a number of 32 bits with a sign, named or not; the first name is written.")
    for name, value in [("RED", 1), ("BLUE", -7), ("LAST", 2**31 - 1), ("LEAST", -2**31)]:
        both(SCALARS, f'{{"colour":"{name}"}}', num(14, value))
        reads(SCALARS, f'{{"colour":{value}}}', num(14, value))
        reads(SCALARS, f'{{"colour":"{value}"}}', num(14, value))
    reads(SCALARS, '{"colour":"SCARLET"}', num(14, 1))
    reads(SCALARS, '{"colour":"AZURE"}', num(14, -7))
    reads(SCALARS, '{"colour":"\\u0052ED"}', num(14, 1))
    both(SCALARS, '{"colour":42}', num(14, 42))
    both(SCALARS, '{"colour":-2}', num(14, -2))
    for text in ["1e0", '"1e0"', "1.0", '"10e-1"']:
        reads(SCALARS, f'{{"colour":{text}}}', num(14, 1))
    for text in ["0", '"0"', "-0", '"UNTOLD"', '"ANY"', "null"]:
        reads(SCALARS, f'{{"colour":{text}}}')
    both(OPTIONALS, '{"colour":"UNTOLD"}', num(14, 0))
    reads(OPTIONALS, '{"colour":"ANY"}', num(14, 0))
    section("No enum: other texts, no integer, out of 32 bits, other tokens.")
    for text in ["red", "", " RED", "RED ", "Colour.RED", "RED,BLUE", "NOVEL", "+1", "01", " 1", "0x1", "null", "true", "NaN"]:
        refused(SCALARS, f'{{"colour":^"{text}"}}', "BadEnum")
    for text in ["1.5", "1e-1"]:
        refused(SCALARS, f'{{"colour":^{text}}}', "BadNumber")
        refused(SCALARS, f'{{"colour":^"{text}"}}', "BadNumber")
    for text in [2**31, -2**31 - 1, "1e400"]:
        refused(SCALARS, f'{{"colour":^{text}}}', "OutOfRange")
        refused(SCALARS, f'{{"colour":^"{text}"}}', "OutOfRange")
    for text in WRONG_SHAPES:
        refused(SCALARS, f'{{"colour":^{text}}}', "WrongShape")
