#!/usr/bin/env python3
"""Compares how values are written in JSON, and how JSON is read as values, with Python's protobuf, on random values of
scripts/values.proto.

Python makes a value. The program prints its text, and the text of one of its fields: both are byte for byte what Python's
`json_format` says of it, and `json_format` reads the text of the whole as the same value. The program reads what
`json_format` writes of it, in each of its forms, and other spellings of the same (scripts/json_spellings.py), which
`json_format` reads too, as the same value; and the text of the one field as the message with that field alone. A text with
one fault is refused with the name and the place of this fault, and Python refuses it. What is wanted otherwise than
`json_format` does it stands by name in scripts/json_spellings.py, with examples that are read on both sides.

Where ProtoJSON leaves the form open, what is written differs from that of `json_format`, and the wanted text is put so:

- no white space, where `json_format` writes a blank behind each comma and colon;
- members by rising field number, as `json_format` has them;
- entries of a map by rising key: integers by value, false before true, strings by their bytes, where `json_format` has the
  order of its own table;
- of a string `"`, `\\`, and the characters below U+0020 are escaped, those with a short escape by it and the others by
  `\\u00xx` with small letters; all others stand as UTF-8 (`json_format` escapes each that is not ASCII, unless told not to);
- one field alone: an absent list is `[]`, an absent map is `{}`, an absent field without presence its default, and one with
  presence null (`json_format` has no text of a field alone, and leaves such a field out).

Of a value in which a timestamp, a duration or a field mask has no text (scripts/json_known.py) only that is asked.

Floats are no part of it: a set that reaches one is not served. The set is what protoc writes of scripts/values.proto,
without the files that only its annotations want: the first line of crates/json_values/stdin has it.

usage: json_values.py [PROGRAM [COUNT [SEED]]] | --set

Without PROGRAM it builds the program from the checked crate. It fails too where a field is not asked alone both set and
absent, as happens with a COUNT below 10,000. --set prints the set as that first line. Exit status 77 says that
Python's protobuf, protoc or the files of google/api are missing.
"""
import inspect
import json
import pathlib
import random
import shutil
import subprocess
import sys
import tempfile

try:
    from google.protobuf import descriptor_pb2, descriptor_pool, json_format, message_factory
except ImportError:
    print("missing: Python's protobuf")
    sys.exit(77)

ROOT = pathlib.Path(__file__).resolve().parent.parent

sys.path.insert(0, str(ROOT / "scripts"))
from json_known import UNWRITTEN, has_text, known_field_text, known_kind  # noqa: E402
from json_random import is_map, values  # noqa: E402
from json_spellings import DIFFERENCES, respelled, spoiled  # noqa: E402
from program import built  # noqa: E402
from protoc_set import google_api  # noqa: E402

WRAPPERS = "google/protobuf/wrappers.proto"
KNOWN_FILES = ["google/protobuf/duration.proto", "google/protobuf/field_mask.proto", "google/protobuf/timestamp.proto", WRAPPERS]
KEPT_FILES = [*KNOWN_FILES, "values.proto"]

# What is told of a value that has no text.
NO_TEXT = "Unprintable"

# The word by which `json_format` tells defaults of fields without presence, of old and in newer versions.
WITH_DEFAULTS = "including_default_value_fields"
if WITH_DEFAULTS not in inspect.signature(json_format.MessageToDict).parameters:
    WITH_DEFAULTS = "always_print_fields_with_no_presence"


def values_set(include):
    """The set of scripts/values.proto: its own file, and those of the well-known types without their options."""
    with tempfile.TemporaryDirectory() as name:
        made = ["protoc", f"-I{ROOT}/scripts", f"-I{include}", "-I/usr/include", "--include_imports", f"--descriptor_set_out={name}/set.bin", "values.proto"]
        subprocess.run(made, check=True)
        whole = descriptor_pb2.FileDescriptorSet.FromString((pathlib.Path(name) / "set.bin").read_bytes())
    kept = descriptor_pb2.FileDescriptorSet(file=[one for one in whole.file if one.name in KEPT_FILES])
    for one in kept.file:
        if one.name in KNOWN_FILES:
            one.ClearField("options")
    return kept.SerializeToString(deterministic=True)


def types_of(data):
    """The classes of the input types of the set's methods, in their order."""
    pool = descriptor_pool.DescriptorPool()
    for file in descriptor_pb2.FileDescriptorSet.FromString(data).file:
        if file.name not in KNOWN_FILES:
            file.dependency[:] = KNOWN_FILES
            for service in file.service:
                for method in service.method:
                    method.ClearField("options")
        pool.Add(file)
    inputs = [method.input_type for method in pool.FindServiceByName("values.v1.Values").methods]
    if hasattr(message_factory, "GetMessageClass"):
        return [message_factory.GetMessageClass(declared) for declared in inputs]
    factory = message_factory.MessageFactory(pool)
    return [factory.GetPrototype(declared) for declared in inputs]


# The texts that are wanted.

def dumped(plain):
    """A plain value of JSON: a string with few escapes, a number, a truth value or null."""
    return json.dumps(plain, ensure_ascii=False)


def sorted_keys(told, field):
    """The keys of a map as `json_format` writes them, by rising key."""
    kind = field.message_type.fields_by_name["key"]
    if kind.type == kind.TYPE_STRING:
        return sorted(told, key=str.encode)
    return sorted(told, key=["false", "true"].index if kind.type == kind.TYPE_BOOL else int)


def written_item(told, message_type):
    """One value of a field as `json_format` tells it."""
    if message_type is None or message_type.file.name in KNOWN_FILES:
        return dumped(told)
    return written_message(told, message_type)


def written_field(told, field):
    if is_map(field):
        value = field.message_type.fields_by_name["value"]
        return "{" + ",".join(f"{dumped(key)}:{written_item(told[key], value.message_type)}" for key in sorted_keys(told, field)) + "}"
    if field.label == field.LABEL_REPEATED:
        return "[" + ",".join(written_item(one, field.message_type) for one in told) + "]"
    return written_item(told, field.message_type)


def written_message(told, message_type):
    by_json = {field.json_name: field for field in message_type.fields}
    assert len(by_json) == len(message_type.fields)
    members = sorted((by_json[name].number, name) for name in told)
    return "{" + ",".join(f"{dumped(name)}:{written_field(told[name], by_json[name])}" for _, name in members) + "}"


def wanted_text(message):
    return written_item(json_format.MessageToDict(message), message.DESCRIPTOR)


def has_presence(field):
    return field.containing_oneof is not None or (field.message_type is not None and field.label != field.LABEL_REPEATED)


def wanted_part(message, field):
    """The text of one field: the default that `json_format` tells where absence is the default, else null."""
    if message.DESCRIPTOR.file.name == WRAPPERS:
        return wanted_text(message)
    if known_kind(message.DESCRIPTOR) is not None:
        return known_field_text(message, field)
    message = alone(message, field)
    if not has_text(message):
        return NO_TEXT
    told = json_format.MessageToDict(message)
    if field.json_name not in told:
        if has_presence(field):
            return "null"
        told = json_format.MessageToDict(message, **{WITH_DEFAULTS: True})
    return written_field(told[field.json_name], field)


# The comparison.

class Asked:
    """A line, its wanted answer, and what Python is asked beside it, which tells what is wrong or None."""

    def __init__(self, verb, number, word, wanted, python=None, part=None):
        self.line = " ".join([verb, str(number), *([str(part[1].number)] if part else []), word or "-"])
        self.wanted, self.python, self.part = wanted, python, part

    def differs(self, given):
        """What is wrong with an answer, or None."""
        if given != self.wanted.encode():
            return f"{self.line}: {given!r}, wanted {self.wanted.encode()!r}"
        told = self.python and self.python(given.decode())
        return told and f"{self.line}: {told}"


def canonical(value):
    return value.SerializeToString(deterministic=True).hex() or "-"


def read_by_python(text, made):
    """The canonical bytes of what Python reads of a text as a message of a class, or None where it refuses, in whatever way."""
    try:
        return canonical(json_format.Parse(text, made()))
    except (json_format.ParseError, TypeError, ValueError, AttributeError, OverflowError):
        return None


def python_reads(text, made, wanted):
    """Asks that Python reads a text so, or refuses it where None is wanted."""
    def told(given):
        read = read_by_python(given if text is None else text, made)
        return None if read == wanted else f"Python reads it as {read}, wanted {wanted}"
    return told


def python_writes(value, wanted):
    """Asks that Python writes a value so."""
    def told(_):
        written = json_format.MessageToJson(value)
        return None if written == wanted else f"Python writes it as {written}, wanted {wanted}"
    return told


def alone(value, field):
    """The message with one field of a value."""
    out = type(value)()
    out.CopyFrom(value)
    for one, _ in value.ListFields():
        if one.number != field.number:
            out.ClearField(one.name)
    return out


def python_text(r, value):
    """A text of a value by Python, in one of its forms."""
    options = ["preserving_proto_field_name", "use_integers_for_enums", "sort_keys", "ensure_ascii", WITH_DEFAULTS]
    return json_format.MessageToJson(value, indent=r.choice([None, 0, 2]), **{option: r.random() < 0.5 for option in options})


def asked_of(r, types, count):
    """What is asked of random values: how each is written, and one of its fields; how what Python writes of it is read, and
    other spellings of it, and one field alone; and a text with a fault."""
    for number, value in values(r, types, count):
        made, data = type(value), value.SerializeToString().hex()
        field = r.choice(list(value.DESCRIPTOR.fields))
        part = wanted_part(value, field)
        if not has_text(value):
            yield Asked("show", number, data, NO_TEXT)
            yield Asked("part", number, data, part, part=(value, field))
            continue
        yield Asked("show", number, data, wanted_text(value), python_reads(None, made, canonical(value)))
        yield Asked("part", number, data, part, part=(value, field))
        yield Asked("read", number, python_text(r, value).encode().hex(), canonical(value))
        yield Asked("read_part", number, part.encode().hex(), canonical(alone(value, field)), part=(value, field))
        text = respelled(r, value)
        yield Asked("read", number, text.encode().hex(), canonical(value), python_reads(text, made, canonical(value)))
        wrong = spoiled(r, value)
        if wrong is not None:
            yield Asked("read", number, wrong[0].encode().hex(), wrong[1], python_reads(wrong[0], made, None))


def differences_asked(types):
    """The texts that are read otherwise than by Python, which must be read so by both, and values of which Python alone has a text."""
    for examples in DIFFERENCES.values():
        for number, text, wanted, python in examples:
            assert wanted != python
            yield Asked("read", number, text.encode().hex(), wanted, python_reads(text, types[number], python))
    for examples in UNWRITTEN.values():
        for number, data, text in examples:
            yield Asked("show", number, data, NO_TEXT, python_writes(types[number].FromString(bytes.fromhex(data)), text))


def untold_fields(asked):
    """Fields that are not asked alone both where they are set and where they are absent."""
    told = {(field.full_name, field.name in [one.name for one, _ in value.ListFields()]) for value, field in (one.part for one in asked if one.part)}
    return sorted({name for name, _ in told if not {(name, True), (name, False)} <= told})


def set_differs(data):
    if (ROOT / "crates/json_values/stdin").read_text().partition("\n")[0] == data.hex():
        return False
    print("the first line of crates/json_values/stdin is another set than what protoc writes of scripts/values.proto")
    return True


def main():
    include = google_api()
    if include is None or shutil.which("protoc") is None:
        print("missing: protoc, or google/api/annotations.proto")
        return 77
    data = values_set(include)
    if sys.argv[1:] == ["--set"]:
        print(data.hex())
        return 0
    program = sys.argv[1] if len(sys.argv) > 1 else built("json_values")
    count = int(sys.argv[2]) if len(sys.argv) > 2 else 20_000
    r = random.Random(int(sys.argv[3]) if len(sys.argv) > 3 else 8259)
    types = types_of(data)
    asked = [*asked_of(r, types, count), *differences_asked(types)]
    lines = "".join(f"{one.line}\n" for one in asked)
    run = subprocess.run([program], input=f"{data.hex()}\n{lines}".encode(), capture_output=True)
    told = run.stdout.split(b"\n")[:-1]
    if run.returncode or len(told) != len(asked):
        sys.exit(f"status {run.returncode}, {len(told)} lines of {len(asked)}: {run.stderr.decode()[-500:]}")
    wrong = [one for one in map(Asked.differs, asked, told) if one is not None]
    for one in wrong[:20]:
        print(one[:1_000], file=sys.stderr)
    untold = untold_fields(asked)
    print(f"{count} values, {len(asked)} lines, {len(DIFFERENCES) + len(UNWRITTEN)} known differences, {len(wrong)} lines otherwise than wanted, {len(untold)} fields not told", *untold)
    return 1 if wrong or untold or set_differs(data) else 0


if __name__ == "__main__":
    sys.exit(main())
