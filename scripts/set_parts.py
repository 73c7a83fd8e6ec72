"""Parts of descriptor sets, for the scripts that make rows of them: records, messages of descriptor.proto and
http.proto, and sets that differ from one of one file in a few of these.
"""
import re


def varint(n, size=0):
    """The shortest varint of n, or one of `size` bytes."""
    n &= (1 << 64) - 1
    out = bytearray()
    while n >= 128 or len(out) + 1 < size:
        out.append(n % 128 + 128)
        n //= 128
    out.append(n)
    return bytes(out)


def tag(number, wire, size=0):
    return varint(number * 8 + wire, size)


def text(number, value):
    """A LEN record: a string, or a message that is given as its bytes."""
    if isinstance(value, str):
        value = value.encode()
    return tag(number, 2) + varint(len(value)) + value


def num(number, n, size=0):
    """A VARINT record."""
    return tag(number, 0) + varint(n, size)


def field(name="id", number=1, label=1, kind=9, json="id", more=b""):
    """FieldDescriptorProto."""
    out = text(1, name)
    out += b"" if number is None else num(3, number)
    out += b"" if label is None else num(4, label)
    out += b"" if kind is None else num(5, kind)
    out += more
    out += b"" if json is None else text(10, json)
    return out


def message(name="M", fields=None, more=b""):
    """DescriptorProto."""
    out = text(1, name)
    for one in [field()] if fields is None else fields:
        out += text(2, one)
    return out + more


def rule(template="/v1/items/{id}", more=b""):
    """google.api.HttpRule with a GET."""
    return text(2, template) + more


def options(http):
    """MethodOptions with the extension google.api.http."""
    return text(72295728, http)


def method(name="Get", request=".p.M", response=".p.M", http=None, more=b""):
    """MethodDescriptorProto."""
    out = text(1, name) + text(2, request) + text(3, response)
    out += text(4, options(rule() if http is None else http)) if http != b"" else b""
    return out + more


def service(name="S", methods=None):
    """ServiceDescriptorProto."""
    out = text(1, name)
    for one in [method()] if methods is None else methods:
        out += text(2, one)
    return out


def file(name="a.proto", package="p", messages=None, services=None, syntax="proto3", more=b""):
    """FileDescriptorProto."""
    out = text(1, name) + (b"" if package is None else text(2, package))
    for one in [message()] if messages is None else messages:
        out += text(4, one)
    for one in [service()] if services is None else services:
        out += text(6, one)
    out += more
    return out + (b"" if syntax is None else text(12, syntax))


def fileset(*files):
    """FileDescriptorSet."""
    return b"".join(text(1, one) for one in files)


def of_message(**given):
    """The set of one file, whose one message is of these parts."""
    return fileset(file(messages=[message(**given)]))


def of_field(**given):
    """The same, whose message has one field of these parts."""
    return of_message(fields=[field(**given)])


def of_method(**given):
    """The set of one file, whose one method is of these parts."""
    return fileset(file(services=[service(methods=[method(**given)])]))


def of_rule(template="/v1/items/{id}", more=b""):
    """The same, whose method has this GET."""
    return of_method(http=rule(template, more))


DOUBLE, FLOAT, INT64, UINT64, INT32, FIXED64, FIXED32, BOOL, STRING = range(1, 10)
GROUP, MESSAGE, BYTES, UINT32, ENUM, SFIXED32, SFIXED64, SINT32, SINT64 = range(10, 19)
INTEGERS = [INT64, UINT64, INT32, FIXED64, FIXED32, UINT32, SFIXED32, SFIXED64, SINT32, SINT64]

# What more a field has: an index of a oneof, and the option of proto3.
FIRST_ONEOF, OPTIONAL = num(9, 0), num(17, 1)

# What more a message has: oneofs, and options.
ONEOF, MESSAGE_SET, MAP_ENTRY = text(8, text(1, "o")), text(7, num(1, 1)), text(7, num(7, 1))


def of(name, number, kind, type_name="", label=1, more=b"", json=None):
    """FieldDescriptorProto: a field of a type."""
    named = text(6, type_name) if type_name else b""
    return field(name, number, label, kind, json, named + more)


def x(kind=STRING, type_name="", number=2, label=1, more=b"", json=None):
    """The field `x`."""
    return of("x", number, kind, type_name, label, more, json)


def extension(extendee, kind=STRING):
    """FieldDescriptorProto: an extension of a message."""
    return of("y", 100, kind, more=text(2, extendee))


def enum(name, *values):
    """EnumDescriptorProto of names with numbers."""
    return text(1, name) + b"".join(text(2, text(1, value) + num(2, number)) for value, number in values)


def entry(*fields, name="XEntry", more=b""):
    """DescriptorProto: the entry of a map."""
    return message(name, fields, MAP_ENTRY + more)


def key(kind=STRING, name="key", number=1, label=1, more=b"", json=None):
    """The key of a map's entry."""
    return of(name, number, kind, "", label, more, json)


def value(kind=INT32, type_name="", name="value", number=2, label=1, more=b""):
    """The value of a map's entry."""
    return of(name, number, kind, type_name, label, more)


def wrapped(kind, **given):
    """The field of a wrapper."""
    return value(kind, number=1, **given)


def custom(kind, template="/v1/{id}"):
    """HttpRule of a custom kind."""
    return text(8, text(1, kind) + text(2, template))


def also(http):
    """An additional binding of a rule."""
    return text(11, http)


def kinds(count, first=0):
    """Additional bindings, each of a kind of its own."""
    return b"".join(also(custom(f"K{at}", "/a")) for at in range(first, first + count))


def empty_rule():
    """A method whose annotation says nothing."""
    return method(http=b"", more=text(4, options(b"")))


def a_set(fields=(), messages=(), inner=b"", more=b"", services=None, files=(), syntax="proto3"):
    """The set of one file, whose service S takes and gives M in Get: M has a string `id` and these
    fields and more in it; the file has further messages and more in it; the set has further files."""
    first = message("M", [field(), *fields], inner)
    return fileset(file("a.proto", "p", [first, *messages], services, syntax, more), *files)


def by_methods(*methods, **given):
    """The same set, whose service has these methods."""
    return a_set(services=[service("S", methods)], **given)


def by_rule(http, **given):
    """The same set, whose method has this rule."""
    return by_methods(method(http=http), **given)


def put(request=".p.M", response=".p.M", **given):
    """The method Put."""
    return method("Put", request, response, **given)


def with_x(*given, **named):
    """The same set, whose M has this field `x`, and which has an enum E and a oneof in M."""
    return a_set([x(*given, **named)], inner=ONEOF, more=text(5, enum("E", ("A", 0))))


def other(messages, name="b.proto", package="q", syntax="proto3", more=b""):
    """FileDescriptorProto: a file without services."""
    return file(name, package, messages, [], syntax, more)


def reach(type_name, *files, label=1):
    """The same set, whose M has a field `x` of a message of these files."""
    return a_set([x(MESSAGE, type_name, label=label)], files=files)


def known(name, *fields, syntax="proto3", inner=b"", more=b""):
    """The same set, whose M has a field `x` of a message of google.protobuf."""
    return reach(f".google.protobuf.{name}", other([message(name, fields, inner)], "b.proto", "google.protobuf", syntax, more))


def map_of(*fields, label=3, inner=b"", messages=(), more=b"", field_more=b"", number=2):
    """The same set, whose M has a map `x` with an entry of these fields."""
    one = x(MESSAGE, ".p.M.XEntry", label=label, more=field_more, number=number)
    return a_set([one], messages=messages, inner=text(3, entry(*fields)) + inner, more=more)


def enum_set(*values, **given):
    """The same set, whose M has a field `x` of the enum E with these values."""
    return a_set([x(ENUM, ".p.E")], more=text(5, enum("E", *values)), **given)


def pair(name, json=None, first="user_id", first_json=None):
    """The same set, whose M has two fields of these names and JSON names."""
    return a_set([of(first, 2, STRING, json=first_json), of(name, 3, STRING, json=json)])


def runs(data, *units):
    """Pieces of a set in which each of the units stands many times over."""
    out, at = [], 0
    many = b"|".join(b"(" + re.escape(unit) + b"){100,}" for unit in units)
    for run in re.finditer(many, data, re.DOTALL):
        unit = units[run.lastindex - 1]
        out += [data[at : run.start()].hex(), f"{unit.hex()}*{len(run.group()) // len(unit)}"]
        at = run.end()
    return " ".join(piece for piece in [*out, data[at:].hex()] if piece)


def counted(make, unit, count):
    """Pieces of the set with so many copies of a unit, each with its number in four digits behind it."""
    copies = b"".join(unit + f"{at:04}".encode() for at in range(count))
    before, behind = make(copies).split(copies)
    return f"{before.hex()} {unit.hex()}#{count} {behind.hex()}"


# Declarations that say nothing: in a file, in a message, in a rule.
EMPTY_MESSAGE, EMPTY_ENUM, EMPTY_EXTENSION = text(4, b""), text(5, b""), text(7, b"")
EMPTY_NESTED, EMPTY_NESTED_ENUM, EMPTY_FIELD = text(3, b""), text(4, b""), text(2, b"")
NAMED_MESSAGE = text(4, text(1, "0000"))[:-4]
GET, EMPTY_RULE = also(rule("/a")), also(b"")
NUMBERED_GET = also(rule("/0000"))[:-4]
FLOATS = message("N", [of("f", 1, FLOAT)])
N, K, L = message("N", []), message("K", []), message("L", [])
E = enum("E", ("A", 0))
S = service()

# The gRPC path of the method Get; the package of well-known types, and what some of them have.
PATH = "/p.S/Get"
P = "google.protobuf"
SECONDS, NANOS = of("seconds", 1, INT64), of("nanos", 2, INT32)
WRAPPERS = {"BoolValue": BOOL, "Int32Value": INT32, "Int64Value": INT64, "UInt32Value": UINT32, "UInt64Value": UINT64, "StringValue": STRING, "BytesValue": BYTES}

# Enums and entries of maps that are used often.
NULL_VALUE = other([], package=P, more=text(5, enum("NullValue", ("NULL_VALUE", 0))))
TEXT_TO_INT = (key(), value())
BAD_ENUM = enum("E", ("A", 1))
