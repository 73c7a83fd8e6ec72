"""Spellings of values in JSON: those that the reader and Python's `json_format` read alike, those that both refuse, and by
name those that they read otherwise.

`respelled` writes a message in one of the many ways that ProtoJSON lets stand for it. `spoiled` puts one fault into such a
text, and knows its name and its place. DIFFERENCES has what is wanted otherwise than `json_format` does it: where the
ProtoJSON guide or RFC 8259 says so, and where the guide leaves a choice that docs/DECISIONS.md makes.
"""
import base64

from json_known import KNOWN_DIFFERENCES, WRONG, known_kind, spelled_known
from json_row_forms import DEEP, MAPS, NAMES, SCALARS, TREE, chunks, deep_maps

WRAPPERS = "google/protobuf/wrappers.proto"

# Stands before the token that has the fault; no text of JSON has it.
MARK = "\0"

BLANKS = ["", "", "", "", " ", "\n", "\t", "\r\n", "  "]
SHORT_ESCAPES = {'"': '\\"', "\\": "\\\\", "/": "\\/", "\b": "\\b", "\f": "\\f", "\n": "\\n", "\r": "\\r", "\t": "\\t"}
EXACT_IN_FLOATS = 2**53


def escaped(character):
    """A character as one escape, or as two where it is past U+FFFF."""
    units = character.encode("utf-16-be").hex()
    return "".join(f"\\u{units[at:at + 4]}" for at in range(0, len(units), 4))


def spelled_character(r, character):
    way = r.choice(["bare", "bare", "bare", "short", "hex", "HEX"])
    if way == "short" and character in SHORT_ESCAPES:
        return SHORT_ESCAPES[character]
    if way == "HEX":
        return escaped(character).upper().replace("U", "u")
    if way == "hex" or character in '"\\' or character < " ":
        return escaped(character)
    return character


def spelled_string(r, text):
    return '"' + "".join(spelled_character(r, one) for one in text) + '"'


def spelled_integer(r, value):
    """An integer as a number or as a string; with a point or an exponent only where a float has it exactly, as Python wants it."""
    ways = [f"{value}", f'"{value}"']
    if value == 0:
        ways += ["-0", '"-0"', "0.0", "-0e5", "0.000E-7"]
    elif abs(value) < EXACT_IN_FLOATS:
        ways += [f"{value}.0", f"{value}e0", f"{value}.00E+0", f"{value}0e-1", f"{value}000E-3"]
        if value % 10 == 0:
            ways.append(f"{value // 10}e1")
    return r.choice(ways)


def spelled_bytes(r, data):
    text = base64.b64encode(data).decode()
    if r.random() < 0.4:
        text = text.replace("+", "-")
    if r.random() < 0.4:
        text = text.replace("/", "_")
    return spelled_string(r, text.rstrip("=") if r.random() < 0.4 else text)


def spelled_enum(r, declared, number):
    names = [one.name for one in declared.values if one.number == number]
    return r.choice([spelled_string(r, one) for one in names] + [spelled_integer(r, number)])


def range_of(field):
    """The least and the last integer of a field."""
    signed = field.type not in (field.TYPE_UINT32, field.TYPE_FIXED32, field.TYPE_UINT64, field.TYPE_FIXED64)
    bits = 64 if field.cpp_type in (field.CPPTYPE_INT64, field.CPPTYPE_UINT64) else 32
    return (-(2 ** (bits - 1)), 2 ** (bits - 1) - 1) if signed else (0, 2**bits - 1)


def wrong_scalars(field):
    """Tokens that are no value of a field, with their faults; Python refuses them too."""
    shapes = [(one, "WrongShape") for one in ["[]", "{}", "[1]"]]
    if field.type == field.TYPE_BOOL:
        return [("1", "WrongShape"), ('"true"', "WrongShape"), *shapes]
    if field.type == field.TYPE_STRING:
        return [("5", "WrongShape"), ("true", "WrongShape"), *shapes]
    if field.type == field.TYPE_BYTES:
        return [("5", "WrongShape"), ('"A"', "BadText"), ('"AAAAA"', "BadText"), *shapes]
    if field.type == field.TYPE_ENUM:
        return [('"red"', "BadEnum"), ('""', "BadEnum"), *shapes]
    low, high = range_of(field)
    past = [f"{low - 1}", f"{high + 1}", "1e30"]
    return [("1.5", "BadNumber"), ('""', "BadNumber"), ('" 1"', "BadNumber"), ('"1.5"', "BadNumber"), ("true", "WrongShape"), *shapes,
            *[(one, "OutOfRange") for one in past], *[(f'"{one}"', "OutOfRange") for one in past[:2]]]


def is_map(field):
    return field.message_type is not None and field.message_type.GetOptions().map_entry


def wrong_keys(field):
    """Keys of a map that are of no value of a field, which is no string, with their faults."""
    if field.type == field.TYPE_BOOL:
        return [('"True"', "BadText"), ('"1"', "BadText")]
    low, high = range_of(field)
    return [('"x"', "BadNumber"), ('""', "BadNumber"), ('"1.5"', "BadNumber"), (f'"{low - 1}"', "OutOfRange"), (f'"{high + 1}"', "OutOfRange")]


def key_text(field, key):
    return key if field.type == field.TYPE_STRING else str(key).lower()


def free_members(present, others):
    """The members of oneofs of which another is present, and which are not told."""
    oneofs = [field.containing_oneof for field in present if field.containing_oneof is not None]
    return [one for oneof in oneofs for one in oneof.fields if one not in present and one not in others]


class Speller:
    """Writes a message, and a fault in it where it is told how likely one is at each token."""

    def __init__(self, r, spoils=0.0):
        self.r, self.spoils, self.fault, self.out = r, spoils, None, []

    def put(self, token):
        self.out += [self.r.choice(BLANKS), token]

    def may_spoil(self):
        """Whether a fault comes here: at most the first, and by chance."""
        return self.fault is None and self.r.random() < self.spoils

    def marked(self, fault):
        """The mark of a fault, if there was none before."""
        if self.fault is not None:
            return ""
        self.fault = fault
        return MARK

    def spoil(self, choices):
        """Puts a wrong token in place of the next one, and says whether it did."""
        if not self.may_spoil():
            return False
        token, self.fault = self.r.choice(choices)
        self.put(MARK + token)
        return True

    def between(self, opens, closes, puts):
        """Parts with commas between them, in brackets."""
        self.put(opens)
        for at, put in enumerate(puts):
            if at:
                self.put(",")
            put()
        self.put(closes)

    def scalar(self, field, value):
        if self.spoil(wrong_scalars(field)):
            return
        if field.type == field.TYPE_BOOL:
            self.put("true" if value else "false")
        elif field.type == field.TYPE_STRING:
            self.put(spelled_string(self.r, value))
        elif field.type == field.TYPE_BYTES:
            self.put(spelled_bytes(self.r, value))
        elif field.type == field.TYPE_ENUM:
            self.put(spelled_enum(self.r, field.enum_type, value))
        else:
            self.put(spelled_integer(self.r, value))

    def item(self, field, value):
        if field.message_type is None:
            self.scalar(field, value)
        else:
            self.message(value)

    def inner(self, field, value):
        """An item of an array, or the value of an entry."""
        if not self.spoil([("null", "NullInside")]):
            self.item(field, value)

    def entry(self, field, key, value):
        kind = field.message_type.fields_by_name["key"]
        if kind.type == kind.TYPE_STRING or not self.spoil(wrong_keys(kind)):
            self.put(spelled_string(self.r, key_text(kind, key)))
        self.put(":")
        self.inner(field.message_type.fields_by_name["value"], value)

    def doubled_entry(self, field, key):
        """A key that came before."""
        told = key_text(field.message_type.fields_by_name["key"], key)
        self.put(self.marked("KeyTwice") + spelled_string(self.r, told) + ":null")

    def entries(self, field, held):
        shuffled = self.r.sample(list(held.items()), len(held))
        puts = [lambda key=key, value=value: self.entry(field, key, value) for key, value in shuffled]
        if shuffled and self.may_spoil():
            puts.append(lambda: self.doubled_entry(field, shuffled[0][0]))
        self.between("{", "}", puts)

    def field(self, field, held):
        if is_map(field):
            if not self.spoil([("[]", "WrongShape"), ("1", "WrongShape")]):
                self.entries(field, held)
        elif field.label == field.LABEL_REPEATED:
            if not self.spoil([("{}", "WrongShape"), ("1", "WrongShape"), ('"a"', "WrongShape")]):
                self.between("[", "]", [lambda one=one: self.inner(field, one) for one in held])
        else:
            self.item(field, held)

    def absent(self, message, field):
        """A field that is not set: null, nothing in it, or the default that is as absent."""
        implicit = field.containing_oneof is None and field.message_type is None
        if field.label == field.LABEL_REPEATED and self.r.random() < 0.5:
            self.put("{}" if is_map(field) else "[]")
        elif field.label != field.LABEL_REPEATED and implicit and self.r.random() < 0.5:
            self.scalar(field, getattr(message, field.name))
        else:
            self.put("null")

    def member(self, message, field, is_set):
        self.put(spelled_string(self.r, self.r.choice([field.json_name, field.name])))
        self.put(":")
        if is_set:
            self.field(field, getattr(message, field.name))
        else:
            self.absent(message, field)

    def message(self, message):
        kind = message.DESCRIPTOR
        if kind.file.name == WRAPPERS:
            self.scalar(kind.fields_by_name["value"], message.value)
        elif known_kind(kind) is not None:
            if not self.spoil(WRONG[known_kind(kind)]):
                self.put(spelled_string(self.r, spelled_known(self.r, message)))
        elif not self.spoil([("1", "WrongShape"), ("true", "WrongShape"), ('"x"', "WrongShape"), ("[1]", "WrongShape")]):
            self.members(message)

    def members(self, message):
        present = [field for field, _ in message.ListFields()]
        others = [field for field in message.DESCRIPTOR.fields if field not in present and self.r.random() < 0.1]
        shuffled = self.r.sample(present + others, len(present) + len(others))
        puts = [lambda field=field: self.member(message, field, field in present) for field in shuffled]
        if self.may_spoil():
            puts.insert(self.r.randrange(len(puts) + 1), self.unknown_member)
        free = free_members(present, others)
        if free and self.may_spoil():
            puts.append(lambda: self.second_member(self.r.choice(free)))
        if present and self.may_spoil():
            puts.append(lambda: self.doubled_member(self.r.choice(present)))
        self.between("{", "}", puts)

    def unknown_member(self):
        self.put(self.marked("UnknownKey") + self.r.choice(['"no such":1', '"":null', '"NoSuch":{}']))

    def second_member(self, field):
        """A member of a oneof, of which another came before."""
        self.put(f'"{field.name}":')
        self.put(self.marked("OneofTwice") + self.r.choice(["1", '"x"', "{}", "[1]", "true"]))

    def doubled_member(self, field):
        """Both names of a field, of which one came before."""
        first, second = self.r.sample([field.json_name, field.name], 2)
        self.put(self.marked("KeyTwice") + spelled_string(self.r, first) + ":null")
        self.put("," + spelled_string(self.r, second) + ":null")


def respelled(r, message):
    """A text of a message."""
    speller = Speller(r)
    speller.message(message)
    return "".join(speller.out) + r.choice(BLANKS)


def spoiled(r, message):
    """A text with a fault that is the first, and the name of that with its place in bytes; None where none was put."""
    for spoils in [0.02, 0.1, 0.3, 0.6, 1]:
        speller = Speller(r, spoils)
        speller.message(message)
        if speller.fault is not None:
            before, _, behind = "".join(speller.out).partition(MARK)
            return before + behind, f"{speller.fault} {len(before.encode())}"
    return None


# What is read otherwise: the name of a difference, and texts with the type that they are read as, and what the reader and
# Python say of them: the canonical bytes of a value, or the fault with its place; None where Python refuses.
NO_VALUE = None
DIFFERENCES = {
    "a field given by both of its names is refused, and the last counts in Python; null counts as given": [
        (NAMES, '{"snakeCaseName":1,"snake_case_name":2}', "KeyTwice 19", "f8ffffff0f02"),
        (NAMES, '{"snakeCaseName":null,"snake_case_name":2}', "KeyTwice 22", "f8ffffff0f02"),
    ],
    "two keys of a map of one value are refused, and the last counts in Python": [
        (MAPS, '{"byI32":{"0":"a","-0":"b"}}', "KeyTwice 18", "0a050800120162"),
    ],
    "a number in a string, as a value or as a key, has the grammar of a number in JSON, with point and exponent": [
        (SCALARS, '{"i32":"1e2"}', "0864", NO_VALUE),
        (SCALARS, '{"u64":"1.0"}', "2001", NO_VALUE),
        (MAPS, '{"byI32":{"1e0":"a"}}', "0a050801120161", NO_VALUE),
        (SCALARS, '{"colour":"1e0"}', "7001", NO_VALUE),
    ],
    "a number in a string has nothing else that Python's int() takes: signs, zeros in front, underlines, blanks, other digits": [
        (SCALARS, '{"i32":"+1"}', "BadNumber 7", "0801"),
        (SCALARS, '{"i32":"01"}', "BadNumber 7", "0801"),
        (SCALARS, '{"i32":"1_000"}', "BadNumber 7", "08e807"),
        (SCALARS, '{"i32":"\\t1"}', "BadNumber 7", "0801"),
        (SCALARS, '{"i32":"1\\n"}', "BadNumber 7", "0801"),
        (SCALARS, '{"i32":"\u0661"}', "BadNumber 7", "0801"),
        (MAPS, '{"byI32":{"01":"a"}}', "BadNumber 10", "0a050801120161"),
        (SCALARS, '{"colour":"+1"}', "BadEnum 10", "7001"),
    ],
    "a number is the exact one that it spells, and the nearest float in Python where it has a point or an exponent": [
        (SCALARS, '{"i64":9007199254740993.0}', "108180808080808010", "108080808080808010"),
        (SCALARS, '{"i64":9223372036854775807.0}', "10ffffffffffffffff7f", NO_VALUE),
        (SCALARS, '{"u64":1.8446744073709551615e19}', "20ffffffffffffffffff01", NO_VALUE),
        (SCALARS, '{"i32":1.0000000000000000001}', "BadNumber 7", "0801"),
        (SCALARS, '{"i32":1e-400}', "BadNumber 7", "-"),
    ],
    "an enum's number is an integer of 32 bits, and no truth value": [
        (SCALARS, '{"colour":1.5}', "BadNumber 10", "7001"),
        (SCALARS, '{"colour":true}', "WrongShape 10", "7001"),
        (SCALARS, '{"colour":2147483648}', "OutOfRange 10", "7080808080f8ffffffff01"),
        (SCALARS, '{"colour":"2147483648"}', "OutOfRange 10", "7080808080f8ffffffff01"),
    ],
    "base64 has all of its padding or none, bits of 0 behind the last byte, and no other characters": [
        (SCALARS, '{"raw":"AA="}', "BadText 7", "6a0100"),
        (SCALARS, '{"raw":"AA===="}', "BadText 7", "6a0100"),
        (SCALARS, '{"raw":"AAAA="}', "BadText 7", "6a03000000"),
        (SCALARS, '{"raw":"AA==AA=="}', "BadText 7", "6a0100"),
        (SCALARS, '{"raw":"="}', "BadText 7", "-"),
        (SCALARS, '{"raw":"AB"}', "BadText 7", "6a0100"),
        (SCALARS, '{"raw":"AB=="}', "BadText 7", "6a0100"),
        (SCALARS, '{"raw":"A A="}', "BadText 7", "6a0100"),
        (SCALARS, '{"raw":"AA*="}', "BadText 7", "6a0100"),
        (SCALARS, '{"raw":"\u00c0"}', "BadText 7", "-"),
    ],
    "a message is an object, and no array or string without anything in it": [
        (SCALARS, "[]", "WrongShape 0", "-"),
        (SCALARS, '""', "WrongShape 0", "-"),
        (TREE, '{"left":[]}', "WrongShape 8", "1200"),
        (TREE, '{"left":""}', "WrongShape 8", "1200"),
    ],
    "an entry of a map is a level, and not in Python": [
        (DEEP, '{"down":' * 99 + '{"counts":{"a":1}}' + "}" * 99, "TooDeep 803", chunks(99, 1, bytes.fromhex("12050a01611001")).hex()),
        (DEEP, '{"deeps":{"1":' * 50 + "{}" + "}}" * 50, "TooDeep 696", deep_maps(50).hex()),
    ],
    **KNOWN_DIFFERENCES,
}
