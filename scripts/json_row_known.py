"""Rows of json_values on timestamps, durations and field masks in JSON, and on wrappers that are optional."""
from json_row_forms import (
    DURATION, FIELD_MASK, KNOWN, MAYBE_WRAPPERS, TIMESTAMP, both, chunk, chunks, entry, nested, num, reads, refused, section, shows, unshown,
)
from json_row_messages import WRAPPED

MILLION, BILLION = 10**6, 10**9
FIRST_SECOND, LAST_SECOND, MOST_SECONDS = -62_135_596_800, 253_402_300_799, 315_576_000_000


def moment(seconds=0, nanos=0):
    """The records of a timestamp or of a duration."""
    return (num(1, seconds) if seconds else b"") + (num(2, nanos) if nanos else b"")


def mask(*paths):
    """The records of a field mask."""
    return b"".join(chunk(1, path) for path in paths)


# Texts that are written, with seconds and billionths; other texts of such; texts of none; texts out of range.
TIMES = [
    ("1970-01-01T00:00:00Z", 0, 0), ("1970-01-01T00:00:01Z", 1, 0), ("1969-12-31T23:59:59Z", -1, 0), ("1969-12-31T23:59:59.999999999Z", -1, BILLION - 1),
    ("2000-02-29T00:00:00Z", 951_782_400, 0), ("1970-01-02T03:04:05.500Z", 97_445, 500 * MILLION), ("1970-01-01T00:00:00.000001Z", 0, 1_000),
    ("1970-01-01T00:00:00.000000001Z", 0, 1), ("0001-01-01T00:00:00Z", FIRST_SECOND, 0), ("9999-12-31T23:59:59.999999999Z", LAST_SECOND, BILLION - 1),
]
OTHER_TIMES = [
    ("1970-01-01T01:00:00+01:00", 0, 0), ("1969-12-31T12:30:00-11:30", 0, 0), ("1970-01-01T00:00:00-00:00", 0, 0), ("1970-01-01T23:59:00+23:59", 0, 0),
    ("1970-01-01T00:00:00.5Z", 0, 500 * MILLION), ("1970-01-01T00:00:00.000000000Z", 0, 0), ("1970-01-01T00:00:01.0010Z", 1, MILLION),
    ("1970-01-01\\u005400:00:01Z", 1, 0),
]
NO_TIMES = [
    "", " ", "0", "now", "1970-01-01", "00:00:00Z", "1970-01-01T00:00:00", "1970-01-01T00:00Z", "1970-01-01t00:00:00Z", "1970-01-01T00:00:00z", "1970-01-01 00:00:00Z",
    " 1970-01-01T00:00:00Z", "1970-01-01T00:00:00Z ", "1970-01-01T00:00:00 Z", "1970-1-01T00:00:00Z", "1970-01-01T0:00:00Z", "70-01-01T00:00:00Z", "10000-01-01T00:00:00Z",
    "-001-01-01T00:00:00Z", "+1970-01-01T00:00:00Z", "1970-00-01T00:00:00Z", "1970-13-01T00:00:00Z", "1970-01-00T00:00:00Z", "1970-01-32T00:00:00Z", "1970-04-31T00:00:00Z",
    "1970-02-29T00:00:00Z", "1900-02-29T00:00:00Z", "1970-01-01T24:00:00Z", "1970-01-01T00:60:00Z", "1970-01-01T00:00:60Z", "1972-06-30T23:59:60Z", "1970-01-01T00:00:00.Z",
    "1970-01-01T00:00:00,5Z", "1970-01-01T00:00:00.0000000000Z", "1970-01-01T00:00:00.5e1Z", "1970-01-01T00:00:00+24:00", "1970-01-01T00:00:00+00:60", "1970-01-01T00:00:00+0000",
    "1970-01-01T00:00:00+1:00", "1970-01-01T00:00:00+00", "1970-01-01T00:00:00Z+00:00", "1970-01-01T00:00:00UTC", "\u0661970-01-01T00:00:00Z", "1970-01-01T00:00:00Z\\u0000",
]
FAR_TIMES = ["0000-01-01T00:00:00Z", "0000-12-31T23:59:59.999999999Z", "0001-01-01T00:00:00+00:01", "0001-01-01T23:58:59+23:59", "9999-12-31T23:59:59-00:01", "9999-12-31T00:01:00-23:59"]

SPANS = [
    ("0s", 0, 0), ("1s", 1, 0), ("-1s", -1, 0), ("1.500s", 1, 500 * MILLION), ("-1.500s", -1, -500 * MILLION), ("-0.500s", 0, -500 * MILLION), ("0.000001s", 0, 1_000),
    ("0.000000001s", 0, 1), ("-0.000000001s", 0, -1), ("3.120s", 3, 120 * MILLION), ("315576000000s", MOST_SECONDS, 0), ("-315576000000s", -MOST_SECONDS, 0),
    ("315576000000.999999999s", MOST_SECONDS, BILLION - 1), ("-315576000000.999999999s", -MOST_SECONDS, 1 - BILLION),
]
OTHER_SPANS = [
    ("-0s", 0, 0), ("-0.0s", 0, 0), ("00s", 0, 0), ("007s", 7, 0), ("-01s", -1, 0), ("1.0s", 1, 0), ("1.5s", 1, 500 * MILLION), ("1.50s", 1, 500 * MILLION),
    ("1.000000000s", 1, 0), ("0000000000000000000000000001s", 1, 0), ("1\\u0073", 1, 0),
]
NO_SPANS = [
    "", " ", "s", "-s", "1", "-1", "1.5", "+1s", " 1s", "1s ", "1 s", "- 1s", "--1s", "1S", "1.s", ".5s", "-.5s", "1..5s", "1,5s", "1.-5s", "1.0000000000s", "1e3s", "1.5e1s", "0x1s", "1_000s",
    "1m", "1ms", "1ss", "1h1s", "PT1S", "NaNs", "Infinitys", "\u0661s", "1s\\u0000",
]
FAR_SPANS = ["315576000001s", "-315576000001s", "315576000001.000000001s", "9223372036854775808s", "-9223372036854775809s", "18446744073709551617s", "1" + "0" * 40 + "s"]

# Texts of masks that are written, with their paths; texts of none.
MASKS = [
    ("", []), ("a", ["a"]), ("aB", ["a_b"]), ("X", ["_x"]), ("aBC", ["a_b_c"]), ("XY", ["_x_y"]), ("fooBar.baz", ["foo_bar.baz"]), ("fooBar.bazQux.X", ["foo_bar.baz_qux._x"]),
    ("a,b", ["a", "b"]), ("a,a", ["a", "a"]), ("b,a", ["b", "a"]), ("aB,cD,e", ["a_b", "c_d", "e"]), ("a1", ["a1"]), ("1", ["1"]), ("a1B", ["a1_b"]), ("*", ["*"]), ("a.*,b", ["a.*", "b"]),
    (".", ["."]), ("a..b", ["a..b"]), ("az0189AZ", ["az0189_a_z"]),
]
NO_MASKS = [
    ",", "a,", ",a", "a,,b", ",,", "a,b,", " ", "a b", "a, b", " a", "a ", "_", "__", "_x", "_1", "_X", "a_", "a_b", "a__b", "foo_bar", "foo_bar.baz", "a,foo_bar", "fooBar,_x", "a-b", "a/b", "a:b", "a;b",
    "a[0]", "`a`", "$.a", "a@b", "\u00e9", "\u00c9", "a\u0301", "a\\u0000", "a\\n", '\\"', "\\\\", "null,\\u005f",
]
OTHER_MASKS = [("\\u0061\\u0042", ["a_b"]), ("a\\u002cb", ["a", "b"])]

# Paths that no text has: an upper-case letter, no `_` that a lower-case letter does not follow, no byte but those of names.
UNWRITTEN_PATHS = [
    "", "X", "aB", "fooBar", "a_B", "_", "__", "_1", "_.", "_*", "a_", "a_1", "a__b", "a_.b", "a._", "foo_bar_", "a_,b", "a,b", ",", "a b", " ", "a-b", "a/b", "a\"b", "a\\b", "a\n", "\0", "\x7f",
    "\u00e9", "a_\u00e9", "\u00c9",
]

# Moments without a text: seconds out of range, mixed signs, billionths out of range.
UNWRITTEN_TIMES = [
    (FIRST_SECOND - 1, 0), (FIRST_SECOND - 1, BILLION - 1), (LAST_SECOND + 1, 0), (-2**63, 0), (2**63 - 1, 0), (0, -1), (1, -1), (-1, -1), (0, BILLION), (5, 2**31 - 1), (5, -2**31),
    (LAST_SECOND + 1, -1), (FIRST_SECOND, -1),
]
UNWRITTEN_SPANS = [
    (MOST_SECONDS + 1, 0), (-MOST_SECONDS - 1, 0), (-2**63, 0), (2**63 - 1, 0), (1, -1), (-1, 1), (MOST_SECONDS, -1), (-MOST_SECONDS, 1), (0, BILLION), (0, -BILLION), (1, BILLION), (-1, -BILLION),
    (0, 2**31 - 1), (0, -2**31), (MOST_SECONDS + 1, -1),
]


# Each form with its number in Known, its whole type, a text with its records, a text of its default, and faults.
KINDS = [
    ("time", 1, TIMESTAMP, '"1970-01-01T00:00:01.500Z"', moment(1, 500 * MILLION), '"1970-01-01T00:00:00Z"', [('"1970-01-01T00:00:01"', "BadText"), ('""', "BadText"), ('"0000-01-01T00:00:00Z"', "OutOfRange")], moment(0, -1)),
    ("span", 2, DURATION, '"-1.500s"', moment(-1, -500 * MILLION), '"0s"', [('"1"', "BadText"), ('""', "BadText"), ('"315576000001s"', "OutOfRange")], moment(1, -1)),
    ("mask", 3, FIELD_MASK, '"fooBar.baz,X"', mask("foo_bar.baz", "_x"), '""', [('"foo_bar"', "BadText"), ('"a,"', "BadText"), ('"_x"', "BadText")], mask("a", "B")),
]
NO_STRINGS = ["1", "-1.5", "true", "false", "{", "{}", '{"seconds":1}', '{"seconds":"1","nanos":0}', '{"paths":["a"]}', "[", "[]", '["a"]']


def texts_of(kind, told, others, none, far=()):
    for text, records in told:
        both(kind, f'"{text}"', records)
    for text, records in others:
        reads(kind, f'"{text}"', records)
    for text in none:
        refused(kind, f'^"{text}"', "BadText")
    for text in far:
        refused(kind, f'^"{text}"', "OutOfRange")


def moments():
    section("Timestamps: those that are written, in 0, 3, 6 or 9 digits and in UTC; other texts of such; texts of none; out of range.")
    texts_of(TIMESTAMP, [(text, moment(*rest)) for text, *rest in TIMES], [(text, moment(*rest)) for text, *rest in OTHER_TIMES], NO_TIMES, FAR_TIMES)
    section("Durations, so too.")
    texts_of(DURATION, [(text, moment(*rest)) for text, *rest in SPANS], [(text, moment(*rest)) for text, *rest in OTHER_SPANS], NO_SPANS, FAR_SPANS)


def field_masks():
    section("Field masks: paths in camel case behind commas; an upper-case letter is `_` and the lower-case one, and no text has `_`.")
    texts_of(FIELD_MASK, [(text, mask(*paths)) for text, paths in MASKS], [(text, mask(*paths)) for text, paths in OTHER_MASKS], NO_MASKS)
    section("Paths that have no text, alone and beside others.")
    for path in UNWRITTEN_PATHS:
        unshown(FIELD_MASK, mask(path))
        unshown(FIELD_MASK, mask("a", path))
        unshown(FIELD_MASK, mask(path, "b"))
    section("The paths of a mask, as one field, are strings as they are.")
    both(FIELD_MASK, '["foo_bar","X",""]', mask("foo_bar", "X", ""), part=1)
    both(FIELD_MASK, "[]", part=1)
    reads(FIELD_MASK, "null", part=1)
    refused(FIELD_MASK, '^"a"', "WrongShape", part=1)


def one_place(name, number, told, records, default, faults, around):
    """A field with this name and number, in texts and records that stand around its value."""
    for text, inside in [(told, records), (default, b"")]:
        both(KNOWN, around(name, text), chunk(number, inside))
    reads(KNOWN, around(name, "null"))
    for text, fault in [*faults, *[(one, "WrongShape") for one in NO_STRINGS]]:
        refused(KNOWN, around(name, f"^{text}"), fault)


def member(name, text):
    return f'{{"{name}":{text}}}'


def listed(name, number, told, records, default, faults):
    """The list of a form, and the map of it."""
    both(KNOWN, f'{{"{name}s":[{told},{default},{told}]}}', chunk(3 + number, records), chunk(3 + number), chunk(3 + number, records))
    both(KNOWN, f'{{"by{name.title()}":{{"-1":{default},"2":{told}}}}}', entry(6 + number, num(1, -1), chunk(2)), entry(6 + number, num(1, 2), chunk(2, records)))
    reads(KNOWN, f'{{"{name}s":[],"by{name.title()}":{{}}}}')
    reads(KNOWN, f'{{"{name}s":null,"by{name.title()}":null}}')
    for text, fault in [*faults, *[(one, "WrongShape") for one in NO_STRINGS], ("null", "NullInside")]:
        refused(KNOWN, f'{{"{name}s":[{told},^{text}]}}', fault)
        refused(KNOWN, f'{{"by{name.title()}":{{"1":{told},"2":^{text}}}}}', fault)
    refused(KNOWN, f'{{"{name}s":^{told}}}', "WrongShape")
    refused(KNOWN, f'{{"by{name.title()}":^{told}}}', "WrongShape")


def alone(name, number, whole, told, records, default, faults):
    """A form as a whole message, and fields of it alone."""
    both(whole, told, records)
    both(whole, default)
    for text, fault in [*faults, *[(one, "WrongShape") for one in [*NO_STRINGS, "null"]]]:
        refused(whole, f"^{text}", fault)
        if text != "null":
            refused(KNOWN, f"^{text}", fault, part=number)
    both(KNOWN, told, chunk(number, records), part=number)
    both(KNOWN, default, chunk(number), part=number)
    both(KNOWN, "null", part=number)
    both(KNOWN, f"[{told},{default}]", chunk(3 + number, records), chunk(3 + number), part=3 + number)
    both(KNOWN, f'{{"0":{told}}}', entry(6 + number, num(1, 0), chunk(2, records)), part=6 + number)
    both(KNOWN, told, chunk(10 + number, records), part=10 + number)
    both(KNOWN, default, chunk(20 + number), part=20 + number)


def known_places():
    for name, number, whole, told, records, default, faults, _ in KINDS:
        section(f"A {name} in each place: a field, optional, in a oneof, in a message, in a list and a map, whole and alone; a default is set.")
        one_place(name, number, told, records, default, faults, member)
        one_place(f"maybe{name.title()}", 20 + number, told, records, default, faults, member)
        one_place(f"one{name.title()}", 10 + number, told, records, default, faults, member)
        both(KNOWN, f'{{"inner":{{"{name}":{told}}}}}', chunk(30, chunk(number, records)))
        reads(KNOWN, f'{{"inner":{{"{name}":null}}}}', chunk(30))
        listed(name, number, told, records, default, faults)
        alone(name, number, whole, told, records, default, faults)
        refused(KNOWN, f'{{"number":0,"one{name.title()}":^{told}}}', "OneofTwice")
        refused(KNOWN, f'{{"one{name.title()}":{default},"number":^0}}', "OneofTwice")
        refused(KNOWN, f'{{"one{name.title()}":{told},^"one_{name}":{told}}}', "KeyTwice")
        reads(KNOWN, f'{{"one{name.title()}":null,"number":0}}', num(14, 0))
    section("Their fields alone are numbers, though the whole has a text.")
    for whole in [TIMESTAMP, DURATION]:
        both(whole, '"5"', moment(5), part=1)
        both(whole, "5", moment(0, 5), part=2)
        both(whole, '"0"', part=1)
        both(whole, "0", part=2)
        shows(whole, '"9223372036854775807"', moment(2**63 - 1, -1), part=1)
        shows(whole, "-1", moment(2**63 - 1, -1), part=2)
        refused(whole, '^"5s"', "BadNumber", part=1)
        refused(whole, "^2147483648", "OutOfRange", part=2)


def unprintable_values():
    section("Moments without a text: seconds out of range, billionths out of range, mixed signs.")
    for seconds, nanos in UNWRITTEN_TIMES:
        unshown(TIMESTAMP, moment(seconds, nanos))
        unshown(KNOWN, chunk(1, moment(seconds, nanos)))
    for seconds, nanos in UNWRITTEN_SPANS:
        unshown(DURATION, moment(seconds, nanos))
        unshown(KNOWN, chunk(2, moment(seconds, nanos)))
    for name, number, whole, told, records, _, _, unwritten in KINDS:
        section(f"A {name} without a text is refused in each place; another field alone is not.")
        unshown(whole, unwritten)
        unshown(KNOWN, chunk(30, chunk(number, unwritten)))
        places = [(number, chunk(number, unwritten)), (3 + number, chunk(3 + number, records) + chunk(3 + number, unwritten)),
                  (6 + number, entry(6 + number, num(1, 1), chunk(2, records)) + entry(6 + number, num(1, 2), chunk(2, unwritten))),
                  (10 + number, chunk(10 + number, unwritten)), (20 + number, chunk(20 + number, unwritten))]
        for part, record in places:
            unshown(KNOWN, record)
            unshown(KNOWN, record, part=part)
            unshown(KNOWN, chunk(30, record))
            unshown(KNOWN, chunk(30, record), part=30)
        shows(KNOWN, "[]", chunk(30, chunk(number, unwritten)), part=3 + number)
        shows(KNOWN, told, chunk(number, records), chunk(3 + number, unwritten), part=number)
        unshown(KNOWN, chunk(number, records), chunk(3 + number, unwritten))


def known_depth():
    section("A timestamp, a duration and a field mask are a level too, though no bracket opens them; their shape counts first, and their text behind.")
    for name, number, _, told, records, default, _, _ in KINDS:
        both_levels = chunks(98, 30, chunk(number, records))
        reads(KNOWN, nested(98, '{"inner":', f'{{"{name}":{told}}}'), both_levels)
        for text in [told, default, '"x y"']:
            refused(KNOWN, nested(99, '{"inner":', f'{{"{name}":^{text}}}'), "TooDeep")
            refused(KNOWN, nested(99, '{"inner":', f'{{"{name}s":[^{text}]}}'), "TooDeep")
        refused(KNOWN, nested(98, '{"inner":', f'{{"by{name.title()}":{{^"1":{told}}}}}'), "TooDeep")
        reads(KNOWN, nested(97, '{"inner":', f'{{"by{name.title()}":{{"1":{told}}}}}'), chunks(97, 30, entry(6 + number, num(1, 1), chunk(2, records))))
        reads(KNOWN, nested(99, '{"inner":', f'{{"{name}":null,"{name}s":[]}}'), chunks(99, 30))
        refused(KNOWN, nested(99, '{"inner":', f'{{"{name}":^1}}'), "WrongShape")
        refused(KNOWN, nested(99, '{"inner":', f'{{"{name}s":[^null]}}'), "NullInside")
        refused(KNOWN, nested(99, '{"inner":', f'{{"number":1,"one{name.title()}":^{told}}}'), "OneofTwice")


def optional_wrappers():
    section("A wrapper that is optional is as one that is not: null leaves it unset, and its default is set.")
    for name, number, _, record, told, default, faults in WRAPPED:
        both(MAYBE_WRAPPERS, f'{{"{name}":{told}}}', chunk(number, record))
        both(MAYBE_WRAPPERS, f'{{"{name}":{default}}}', chunk(number))
        reads(MAYBE_WRAPPERS, f'{{"{name}":null}}')
        both(MAYBE_WRAPPERS, told, chunk(number, record), part=number)
        both(MAYBE_WRAPPERS, default, chunk(number), part=number)
        both(MAYBE_WRAPPERS, "null", part=number)
        for text, fault in [*faults, ("{}", "WrongShape"), ('{"value":1}', "WrongShape"), ("[]", "WrongShape")]:
            refused(MAYBE_WRAPPERS, f'{{"{name}":^{text}}}', fault)
            refused(MAYBE_WRAPPERS, f"^{text}", fault, part=number)
