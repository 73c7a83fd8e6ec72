"""Timestamps, durations and field masks for the comparison of JSON with Python's protobuf: random ones, their texts by a
plain reading of the ProtoJSON guide, spellings and wrong tokens, and by name what Python reads and writes otherwise.

The times are those of scripts/time_texts.py, which has each text that Python's protobuf reads otherwise.
"""
import re

from json_row_forms import DURATION, FIELD_MASK, KNOWN, TIMESTAMP
from time_texts import SPELLED, TEXTS, moment

KINDS = {"google.protobuf.Timestamp": "timestamp", "google.protobuf.Duration": "duration", "google.protobuf.FieldMask": "mask"}

# A path that has a text: behind each `_` a lower-case letter.
PATH = re.compile(r"(?:[a-z0-9.*]|_[a-z])+")
PATH_PIECES = ["a", "foo", "z", "0", "9", ".", "*", "_a", "_bar", "_z"]
UNWRITTEN_PIECES = ["", "A", "_", "_1", "__a", " ", ",", "-", "\u00e9", "\n"]

# How often a random one may be without a text.
UNWRITTEN_SHARE = 0.15

# Tokens of none, with their faults; Python refuses them too.
NO_STRINGS = [(text, "WrongShape") for text in ["5", "true", "{}", "[]", '{"seconds":1}', '{"paths":["a"]}']]
WRONG = {
    "timestamp": [*NO_STRINGS, ('""', "BadText"), ('"1970-01-01"', "BadText"), ('"1970-01-01T00:00:00"', "BadText"), ('"1970-02-29T00:00:00Z"', "BadText"),
                  ('"1970-01-01t00:00:00Z"', "BadText"), ('"1970-01-01T00:00:60Z"', "BadText"), ('"0000-01-01T00:00:00Z"', "OutOfRange")],
    "duration": [*NO_STRINGS, ('""', "BadText"), ('"1"', "BadText"), ('".5s"', "BadText"), ('"1m"', "BadText"), ('"315576000001s"', "OutOfRange"), ('"-315576000001s"', "OutOfRange")],
    "mask": [*NO_STRINGS, ('"_x"', "BadText"), ('"foo_bar.baz"', "BadText"), ('"a,_1"', "BadText"), ('"__"', "BadText"), ('"a_"', "BadText")],
}


def known_kind(declared):
    """Which of the three a message type is, or None."""
    return KINDS.get(declared.full_name)


def camel(path):
    return re.sub("_(.)", lambda found: found[1].upper(), path)


def known_text(message):
    """The text of one of the three, or None."""
    kind = known_kind(message.DESCRIPTOR)
    if kind != "mask":
        return TEXTS[kind](message.seconds, message.nanos)
    return ",".join(map(camel, message.paths)) if all(map(PATH.fullmatch, message.paths)) else None


def has_text(message):
    """Whether each of the three in a message has a text, itself too."""
    if known_kind(message.DESCRIPTOR) is not None:
        return known_text(message) is not None
    for field, held in message.ListFields():
        if field.message_type is None:
            continue
        if field.message_type.GetOptions().map_entry:
            value = field.message_type.fields_by_name["value"]
            inside = held.values() if value.message_type is not None else []
        else:
            inside = held if field.label == field.LABEL_REPEATED else [held]
        if not all(map(has_text, inside)):
            return False
    return True


def random_path(r):
    if r.random() < 0.1:
        return "".join(r.choice(PATH_PIECES + UNWRITTEN_PIECES) for _ in range(r.choice([0, 1, 2])))
    return "".join(r.choice(PATH_PIECES) for _ in range(r.choice([1, 1, 2, 3, 6])))


def fill_known(r, message):
    """Sets one of the three, seldom so that it has no text."""
    while True:
        message.Clear()
        if known_kind(message.DESCRIPTOR) == "mask":
            message.paths.extend(random_path(r) for _ in range(r.choice([0, 1, 1, 2, 3])))
        else:
            message.seconds, message.nanos = moment(r, known_kind(message.DESCRIPTOR))
        if known_text(message) is not None or r.random() < UNWRITTEN_SHARE:
            return


def known_field_text(message, field):
    """The text of one field of one of the three."""
    if field.name == "paths":
        return "[" + ",".join(map(path_text, message.paths)) + "]"
    return f'"{message.seconds}"' if field.name == "seconds" else f"{message.nanos}"


def path_text(path):
    """A path of the random ones as a string of JSON."""
    return '"' + path.replace("\n", "\\n") + '"'


def spelled_known(r, message):
    """A text of one of the three, in one of its ways."""
    kind = known_kind(message.DESCRIPTOR)
    return known_text(message) if kind == "mask" else SPELLED[kind](r, message.seconds, message.nanos)


# What Python reads otherwise, as in scripts/json_spellings.py.
KNOWN_DIFFERENCES = {
    "a timestamp is a date and a clock of RFC 3339 with all digits, at most nine of a fraction, and a zone below 24 hours": [
        (TIMESTAMP, '"2023-1-01T00:00:00Z"', "BadText 0", "08809ac39d06"),
        (TIMESTAMP, '"2023-01-01T0:0:0Z"', "BadText 0", "08809ac39d06"),
        (TIMESTAMP, '"2023-01-01T00:00:00.Z"', "BadText 0", "08809ac39d06"),
        (TIMESTAMP, '"2023-01-01T00:00:00+24:00"', "BadText 0", "0880f7bd9d06"),
        (KNOWN, '{"times":["2023-01-01T00:00:00+1:2"]}', "BadText 10", "220608f8fcc29d06"),
    ],
    "a timestamp is in range after its zone is taken off": [
        (TIMESTAMP, '"0001-01-01T00:00:00+00:01"', "OutOfRange 0", "08c491b8c398feffffff01"),
    ],
    "a duration is digits, with a minus before and a fraction of one to nine digits behind, and nothing else that Python's int() and float() take": [
        (DURATION, '"+1s"', "BadText 0", "0801"),
        (DURATION, '" 1s"', "BadText 0", "0801"),
        (DURATION, '"1_000s"', "BadText 0", "08e807"),
        (DURATION, '"1.s"', "BadText 0", "0801"),
        (DURATION, '"1.0000000000s"', "BadText 0", "0801"),
        (KNOWN, '{"span":"1.5e-1s"}', "BadText 8", "120708011080e1eb17"),
    ],
    "no path of a field mask is empty": [
        (FIELD_MASK, '"a,"', "BadText 0", "0a01610a00"),
        (FIELD_MASK, '",a"', "BadText 0", "0a000a0161"),
        (FIELD_MASK, '"a,,b"', "BadText 0", "0a01610a000a0162"),
        (FIELD_MASK, '","', "BadText 0", "0a000a00"),
    ],
    "a path of a field mask has letters of ASCII, digits, `.` and `*`": [
        (FIELD_MASK, '"a b"', "BadText 0", "0a03612062"),
        (FIELD_MASK, '"a, b"', "BadText 0", "0a01610a022062"),
        (FIELD_MASK, '"a-b"', "BadText 0", "0a03612d62"),
        (FIELD_MASK, '"a/b"', "BadText 0", "0a03612f62"),
        (FIELD_MASK, '"a\\u0000"', "BadText 0", "0a026100"),
        (FIELD_MASK, '"\u00e9"', "BadText 0", "0a02c3a9"),
        (KNOWN, '{"masks":["\u00c9"]}', "BadText 10", "32050a035fc3a9"),
    ],
}

# What Python writes though it has no text: the bytes of a message, and the text by Python.
UNWRITTEN = {
    "billionths of a timestamp that are negative or a second and more": [
        (TIMESTAMP, "10ffffffffffffffffff01", '"1969-12-31T23:59:59.999999999Z"'),
        (TIMESTAMP, "108094ebdc03", '"1970-01-01T00:00:01Z"'),
    ],
    "a path of a field mask that is empty, or has other bytes than those of names": [
        (FIELD_MASK, "0a00", '""'),
        (FIELD_MASK, "0a01610a00", '"a,"'),
        (FIELD_MASK, "0a03612c62", '"a,b"'),
        (FIELD_MASK, "0a03612062", '"a b"'),
        (FIELD_MASK, "0a03612d62", '"a-b"'),
        (FIELD_MASK, "0a02c3a9", '"\\u00e9"'),
        (FIELD_MASK, "0a035fc3a9", '"\\u00c9"'),
    ],
}
