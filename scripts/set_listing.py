#!/usr/bin/env python3
"""Tells what a descriptor set serves, or its first fault of linking, by Python's protobuf and an own reading of the rules.

usage: set_listing.py SET | --rows

It prints what `routes SET` prints, or the line of the fault. It reads sets by google.protobuf, and shares no code with
the program: the rules are those of descriptor.proto, google/api/http.proto and docs/DEFINITIONS.md. With --rows it
judges the sets of the rows of set_rows and bind_rows, and fails where an answer differs from the wanted one.
Exit status 77 says that Python's protobuf is missing.
"""
import collections
import pathlib
import re
import string
import sys

try:
    from google.protobuf import descriptor_pb2, descriptor_pool, message_factory
except ImportError:
    print("missing: Python's protobuf")
    sys.exit(77)

DOUBLE, FLOAT, GROUP, MESSAGE, ENUM = 1, 2, 10, 11, 14
KEY_TYPES = {3, 4, 5, 6, 7, 8, 9, 13, 15, 16, 17, 18}
OPTIONAL, REPEATED = 1, 3
MAX_TYPES, MAX_BINDINGS, MAX_METHODS, MAX_SEGMENTS, MAX_VARIABLES = 10_000, 10_000, 64, 64, 16

# Well-known messages by name, with the name, number, type and label of their fields.
STAMP = {("seconds", 1, 3, OPTIONAL), ("nanos", 2, 5, OPTIONAL)}
WRAPPED = {"BoolValue": 8, "Int32Value": 5, "Int64Value": 3, "UInt32Value": 13, "UInt64Value": 4, "StringValue": 9, "BytesValue": 12}
KNOWN = {"Timestamp": STAMP, "Duration": STAMP, "FieldMask": {("paths", 1, 9, REPEATED)}}
KNOWN.update({name: {("value", 1, kind, OPTIONAL)} for name, kind in WRAPPED.items()})
KNOWN = {f"google.protobuf.{name}": fields for name, fields in KNOWN.items()}
STRUCTS = {f"google.protobuf.{name}" for name in ["Struct", "Value", "ListValue"]}

LETTERS = set(string.ascii_letters.encode())
DIGITS = set(string.digits.encode())
LITERAL = LETTERS | DIGITS | set(b"-._~!$&'()+,;=@")
TOKEN = LETTERS | DIGITS | set(b"!#$%&'*+-.^_`|~")


class Fault(Exception):
    """The first fault of a set, as its text."""

    def __init__(self, kind, name, second=""):
        super().__init__(f"{kind} {name}" + (f" {second}" if second else ""))


def annotated_options():
    """A class of MethodOptions that has google.api.http as a field of its own, made from http.proto's text."""
    made = descriptor_pb2.FileDescriptorProto(name="listing.proto", package="listing", syntax="proto3")

    def declare(name, *fields):
        one = made.message_type.add(name=name)
        for label, kind, field, number in fields:
            added = one.field.add(name=field, number=number, label=label)
            added.type = 9 if kind == "string" else 11
            if kind != "string":
                added.type_name = f".listing.{kind}"
        return one

    declare("CustomHttpPattern", (1, "string", "kind", 1), (1, "string", "path", 2))
    verbs = [(1, "string", name, at) for at, name in enumerate(["get", "put", "post", "delete", "patch"], 2)]
    patterns = [*verbs, (1, "CustomHttpPattern", "custom", 8)]
    rule = declare("HttpRule", *patterns, (1, "string", "body", 7), (3, "HttpRule", "additional_bindings", 11), (1, "string", "response_body", 12))
    rule.oneof_decl.add(name="pattern")
    for field in rule.field[: len(patterns)]:
        field.oneof_index = 0
    declare("MethodOptions", (1, "HttpRule", "http", 72295728))
    pool = descriptor_pool.DescriptorPool()
    pool.Add(made)
    declared = pool.FindMessageTypeByName("listing.MethodOptions")
    if hasattr(message_factory, "GetMessageClass"):
        return message_factory.GetMessageClass(declared)
    return message_factory.MessageFactory(pool).GetPrototype(declared)


OPTIONS = annotated_options()
Bound = collections.namedtuple("Bound", "path input output rules")
Template = collections.namedtuple("Template", "segments variables verb")
Route = collections.namedtuple("Route", "bound method template body response")


def in_scope(scope, name):
    """A full name."""
    return f"{scope}.{name}" if scope else name


class Declared:
    """What a set declares."""

    def __init__(self, files):
        self.names, self.messages, self.enums, self.extended, self.bound = [], {}, {}, set(), []
        for file in files:
            self.names.append(("file", file.name))
            for one in file.message_type:
                self.add_message(file.package, one, file.syntax)
            for one in file.enum_type:
                self.add_enum(file.package, one)
            for one in file.service:
                name = in_scope(file.package, one.name)
                self.names.append(("full", name))
                self.add_methods(name, one)
            self.extended.update(one.extendee for one in file.extension)

    def add_message(self, scope, one, syntax):
        name = in_scope(scope, one.name)
        self.names.append(("full", name))
        self.messages.setdefault("." + name, (name, one, syntax))
        for nested in one.nested_type:
            self.add_message(name, nested, syntax)
        for nested in one.enum_type:
            self.add_enum(name, nested)
        self.extended.update(field.extendee for field in one.extension)

    def add_enum(self, scope, one):
        name = in_scope(scope, one.name)
        self.names.append(("full", name))
        self.enums.setdefault("." + name, (name, one))

    def add_methods(self, service, one):
        for method in one.method:
            told = OPTIONS.FromString(method.options.SerializeToString())
            if told.HasField("http"):
                rules = [told.http, *told.http.additional_bindings]
                self.bound.append(Bound(f"/{service}/{method.name}", method.input_type, method.output_type, rules))


def pattern_of(rule):
    """The HTTP method and the template of a rule, or None."""
    which = rule.WhichOneof("pattern")
    if which is None:
        return None
    return (rule.custom.kind, rule.custom.path) if which == "custom" else (which.upper(), getattr(rule, which))


def judge_size(files, declared):
    """Step 1: how many types, bindings and methods."""

    def inside(one):
        return 1 + len(one.enum_type) + sum(map(inside, one.nested_type))

    if sum(len(file.enum_type) + sum(map(inside, file.message_type)) for file in files) > MAX_TYPES:
        raise Fault("TooMany", "types")
    rules = [rule for bound in declared.bound for rule in bound.rules]
    if len(rules) > MAX_BINDINGS:
        raise Fault("TooMany", "bindings")
    if len({pattern_of(rule)[0] for rule in rules if pattern_of(rule)}) > MAX_METHODS:
        raise Fault("TooMany", "methods")


def judge_names(declared):
    """Steps 2 and 3: names that stand twice, and whether there is a route."""
    seen = set()
    for name in declared.names:
        if name in seen:
            raise Fault("DoubleName", name[1])
        seen.add(name)
    if not declared.bound:
        raise Fault("NoRoute", "set")


class Reader:
    """Reads a template from the left; a byte that cannot follow is a fault at its offset."""

    def __init__(self, text):
        self.text, self.at, self.segments, self.variables = text, 0, [], []

    def byte(self):
        return self.text[self.at] if self.at < len(self.text) else None

    def want(self, allowed):
        if self.byte() not in allowed:
            raise ValueError(self.at)
        self.at += 1

    def run(self, first, later):
        start = self.at
        self.want(first)
        while self.byte() in later:
            self.at += 1
        return self.text[start : self.at].decode()

    def segment(self):
        if self.byte() == ord("*"):
            self.at += 1
            if self.byte() == ord("*"):
                self.at += 1
                return "**"
            return "*"
        return self.run(LITERAL, LITERAL)

    def read_segments(self, part):
        """Segments between slashes, none of them behind `**`."""
        part()
        while self.byte() == ord("/") and self.segments[-1] != "**":
            self.at += 1
            part()

    def path(self):
        start = self.at
        self.run(LETTERS | {ord("_")}, LETTERS | DIGITS | {ord("_")})
        while self.byte() == ord("."):
            self.at += 1
            self.run(LETTERS | {ord("_")}, LETTERS | DIGITS | {ord("_")})
        return self.text[start : self.at].decode()

    def part(self):
        if self.byte() != ord("{"):
            return self.segments.append(self.segment())
        self.at += 1
        path, first = self.path(), len(self.segments)
        if self.byte() == ord("="):
            self.at += 1
            self.read_segments(lambda: self.segments.append(self.segment()))
        else:
            self.segments.append("*")
        self.want({ord("}")})
        self.variables.append((path, first, len(self.segments)))

    def read(self):
        self.want({ord("/")})
        self.read_segments(self.part)
        verb = None
        if self.byte() == ord(":"):
            self.at += 1
            verb = self.run(LITERAL, LITERAL)
        if self.byte() is not None:
            raise ValueError(self.at)
        return Template(self.segments, self.variables, verb)


def read_template(path, text):
    """The template of a text."""
    try:
        template = Reader(text.encode()).read()
    except ValueError as fault:
        raise Fault("TemplateAt", path, str(fault)) from None
    if len(template.segments) > MAX_SEGMENTS or len(template.variables) > MAX_VARIABLES:
        raise Fault("TemplateAt", path, "many")
    return template


def judge_method(declared, bound):
    """Step 4: the types of a method, and each of its rules; the templates of these."""
    for name in (bound.input, bound.output):
        if name not in declared.messages:
            raise Fault("UnknownType", bound.path, name)
    templates = []
    for at, rule in enumerate(bound.rules):
        if at > 0 and rule.additional_bindings:
            raise Fault("NestedAdditional", bound.path)
        found = pattern_of(rule)
        if found is None:
            raise Fault("NoPattern", bound.path)
        kind = found[0].encode()
        if found[0] in ("HEAD", "CONNECT") or not 0 < len(kind) <= 32 or not set(kind) <= TOKEN:
            raise Fault("BadMethod", bound.path, found[0])
        templates.append(read_template(bound.path, found[1]))
    return templates


def entry_of(declared, field):
    """The entry of a map field, or None."""
    if field.type == MESSAGE and field.label == REPEATED and field.type_name in declared.messages:
        entry = declared.messages[field.type_name][1]
        return entry if entry.options.map_entry else None
    return None


def value_of(entry):
    """The value of a map's entry, or None."""
    return next((field for field in entry.field if field.number == 2), None)


def reached(declared):
    """The names of the messages that bound methods reach, each with the gRPC path through which it joined."""
    queue, joined = [], set()

    def join(name, path):
        if name in declared.messages and name not in joined:
            joined.add(name)
            queue.append((name, path))

    for bound in declared.bound:
        join(bound.input, bound.path)
        join(bound.output, bound.path)
    for name, path in queue:
        for field in declared.messages[name][1].field:
            entry = entry_of(declared, field)
            held = (value_of(entry) or field) if entry is not None else field
            if held.type == MESSAGE:
                join(held.type_name, path)
    return queue


def is_shaped(one, fields):
    """A well-known message has its fields, and nothing about oneofs."""
    plain = all(not field.proto3_optional and not field.HasField("oneof_index") for field in one.field)
    found = [(field.name, field.number, field.type, REPEATED if field.label == REPEATED else OPTIONAL) for field in one.field]
    return plain and len(found) == len(fields) and set(found) == fields


def is_part_of_entry(field, name, number, types):
    """A key or a value of a map's entry is as it must be."""
    told = (field.name, field.number, field.label if field.HasField("label") else 0)
    plain = not field.HasField("oneof_index") and not field.proto3_optional
    return told == (name, number, OPTIONAL) and plain and field.HasField("type") and field.type in types


def is_entry(entry):
    """A map's entry has a key and a value."""
    if len(entry.field) != 2:
        return False
    key, value = sorted(entry.field, key=lambda field: field.number)
    return is_part_of_entry(key, "key", 1, KEY_TYPES) and is_part_of_entry(value, "value", 2, range(1, 19))


def is_field(declared, one, field, numbers):
    """A field's number, type, label and oneof are in order, and so is the entry of a map."""
    repeated = field.HasField("label") and field.label == REPEATED
    if not 1 <= field.number <= 536_870_911 or field.number in numbers or not field.HasField("type"):
        return False
    if not field.HasField("label") or field.label not in (OPTIONAL, REPEATED):
        return False
    if repeated and (field.HasField("oneof_index") or field.proto3_optional):
        return False
    if field.HasField("oneof_index") and not 0 <= field.oneof_index < len(one.oneof_decl):
        return False
    entry = entry_of(declared, field)
    return entry is None or is_entry(entry)


def judge_type(declared, full, field, path):
    """The type of a field, or of the values of a map."""
    if field.type == GROUP:
        raise Fault("Group", full)
    if field.type in (DOUBLE, FLOAT):
        raise Fault("Float", full, path)
    if field.type == MESSAGE and field.type_name not in declared.messages:
        raise Fault("UnknownType", full, field.type_name)
    if field.type != ENUM:
        return
    if field.type_name not in declared.enums:
        raise Fault("UnknownType", full, field.type_name)
    name, enum = declared.enums[field.type_name]
    if name == "google.protobuf.NullValue":
        raise Fault("StructType", full, path)
    names = [value.name for value in enum.value]
    if not names or len(set(names)) < len(names) or enum.value[0].number != 0:
        raise Fault("BadEnum", name)


def json_name(field):
    """The JSON name of a field."""
    if field.HasField("json_name"):
        return field.json_name
    first, *parts = field.name.split("_")
    return first + "".join(part[:1].upper() + part[1:] if part[:1] in string.ascii_lowercase else part for part in parts)


def judge_message(declared, name, path):
    """Step 5: a message that is reached, and its fields."""
    full, one, syntax = declared.messages[name]
    if syntax in ("", "proto2"):
        raise Fault("Proto2", full)
    if syntax != "proto3":
        raise Fault("Edition", full)
    if full == "google.protobuf.Any":
        raise Fault("AnyType", full, path)
    if full in STRUCTS:
        raise Fault("StructType", full, path)
    if name in declared.extended or one.options.message_set_wire_format:
        raise Fault("Extension", full)
    if full in KNOWN and not is_shaped(one, KNOWN[full]):
        raise Fault("KnownShape", full)
    numbers = set()
    for field in one.field:
        if not is_field(declared, one, field, numbers):
            raise Fault("BadField", f"{full}.{field.name}")
        numbers.add(field.number)
        entry = entry_of(declared, field)
        judge_type(declared, f"{full}.{field.name}", field if entry is None else value_of(entry), path)
    keys = set()
    for field in one.field:
        for key in (field.name, json_name(field)):
            if key in keys:
                raise Fault("SameJsonName", full, key)
        keys |= {field.name, json_name(field)}


def field_named(message, name):
    """The field of a message by its name, or None."""
    return next((field for field in message.field if field.name == name), None)


def is_leaf_path(declared, name, path):
    """A path of names leads from a message through plain singular messages to a singular leaf."""
    for at, part in enumerate(path):
        field = field_named(declared.messages[name][1], part)
        if field is None or field.label == REPEATED:
            return False
        is_plain = field.type == MESSAGE and declared.messages[field.type_name][0] not in KNOWN
        if at == len(path) - 1:
            return not is_plain
        if not is_plain:
            return False
        name = field.type_name
    return False


def judge_binding(declared, bound, rule, template):
    """Step 6: the fields that a rule names."""
    paths = [path.split(".") for path, _, _ in template.variables]
    for at, path in enumerate(paths):
        others = paths[:at] + paths[at + 1 :]
        if not is_leaf_path(declared, bound.input, path) or any(other[: len(path)] == path for other in others):
            raise Fault("PathField", bound.path, ".".join(path))
    if rule.body not in ("", "*") and field_named(declared.messages[bound.input][1], rule.body) is None:
        raise Fault("BodyField", bound.path, rule.body)
    if rule.response_body and field_named(declared.messages[bound.output][1], rule.response_body) is None:
        raise Fault("ResponseField", bound.path, rule.response_body)


def judge_routes(routes):
    """Step 7: two bindings that are one route."""
    first = {}
    for route in routes:
        key = (route.method, tuple(route.template.segments), route.template.verb)
        if key in first:
            raise Fault("SameRoute", first[key].bound.path, route.bound.path)
        first[key] = route


def linked(data):
    """The routes of a set's bytes; its first fault is raised."""
    files = descriptor_pb2.FileDescriptorSet.FromString(data).file
    declared = Declared(files)
    judge_size(files, declared)
    judge_names(declared)
    templates = [judge_method(declared, bound) for bound in declared.bound]
    for name, path in reached(declared):
        judge_message(declared, name, path)
    routes = []
    for bound, read in zip(declared.bound, templates):
        for rule, template in zip(bound.rules, read):
            judge_binding(declared, bound, rule, template)
            routes.append(Route(bound, pattern_of(rule)[0], template, rule.body, rule.response_body))
    judge_routes(routes)
    return routes


def printed(template):
    """A template with each variable as `{path=segments}`."""
    parts, at = [], 0
    for path, first, end in template.variables:
        parts += template.segments[at:first] + [f"{{{path}={'/'.join(template.segments[first:end])}}}"]
        at = end
    parts += template.segments[at:]
    return "".join(f"/{part}" for part in parts) + (f":{template.verb}" if template.verb is not None else "")


def listing(data):
    """What `routes` prints of a set's bytes, or None, and the text of its first fault, or None."""
    try:
        routes = linked(data)
    except Fault as fault:
        return None, str(fault)
    lines = (f"{one.method} {printed(one.template)} {one.bound.path} {one.body or '-'} {one.response or '-'}\n" for one in routes)
    return "".join(lines), None


def row_bytes(data):
    """The bytes of a row's set, which may be told in pieces."""
    if isinstance(data, bytes):
        return data
    out = b""
    for piece in data.split(" "):
        digits, sign, count = re.fullmatch(r"([0-9a-f]*)(?:([*#])(\d+))?", piece).groups()
        unit = bytes.fromhex(digits)
        out += unit if sign is None else unit * int(count) if sign == "*" else b"".join(unit + f"{at:04}".encode() for at in range(int(count)))
    return out


def rows():
    """Labels, sets and wanted answers of the rows that have a fault of linking or none: `ok`, or what `routes` prints."""
    sys.path.insert(0, str(pathlib.Path(__file__).resolve().parent))
    import link_sets
    import told_sets

    for test, _, cases in link_sets.TABLES:
        for label, answer, data in cases:
            yield f"{test}: {label}", row_bytes(data), answer
    for label, data, _ in link_sets.LINKED:
        yield label, data, "ok"
    for label, data, lines in told_sets.SERVED:
        yield label, data, "".join(f"{line}\n" for line in lines)
    for label, data, fault in told_sets.FAULTY:
        if not fault.startswith(("Wire", "NotUtf8")):
            yield label, data, fault


def judge_rows():
    """How many rows there are, and how many differ."""
    count, bad = 0, 0
    for label, data, wanted in rows():
        routes, fault = listing(data)
        told = fault or ("ok" if wanted == "ok" else routes)
        if told != wanted:
            print(f"{label}: {told!r}, and not {wanted!r}")
        count, bad = count + 1, bad + (told != wanted)
    print(f"{count - bad} of {count} rows of sets have the answer of Python's protobuf")
    return 1 if bad else 0


def main():
    if sys.argv[1:] == ["--rows"]:
        return judge_rows()
    with open(sys.argv[1], "rb") as file:
        routes, fault = listing(file.read())
    print(f"descriptors: {fault}" if routes is None else routes, end="" if fault is None else "\n")
    return 3 if routes is None else 0


if __name__ == "__main__":
    sys.exit(main())
