"""Changes of descriptor sets, for service_sets.py, by Python's protobuf."""
from google.protobuf import descriptor_pb2

from set_listing import OPTIONS, STRUCTS, listing

FieldProto = descriptor_pb2.FieldDescriptorProto
NEVER = {f".{name}" for name in STRUCTS | {"google.protobuf.Any", "google.protobuf.NullValue"}}
SIGNS = "/{}*=:.a_%~- \u00e9"
KINDS = ["GET", "get", "HEAD", "*", "", "K", "a b", "K" * 32, "K" * 33, "PATCH"]
SYNTAXES = ["", "proto2", "editions", "proto3", "Proto3"]


def all_messages(messages):
    """Messages, each before those in it."""
    for one in messages:
        yield one
        yield from all_messages(one.nested_type)


def integers(data):
    """The set with an integer in place of each double and float, proto3 in place of proto2, and without fields of types
    that are never served."""
    made = descriptor_pb2.FileDescriptorSet.FromString(data)
    for file in made.file:
        file.syntax = "proto3" if file.name != "google/protobuf/descriptor.proto" else file.syntax
        for one in all_messages(file.message_type):
            for at in reversed(range(len(one.field))):
                field = one.field[at]
                if field.type_name in NEVER:
                    del one.field[at]
                elif field.type in (FieldProto.TYPE_DOUBLE, FieldProto.TYPE_FLOAT):
                    field.type = FieldProto.TYPE_SINT64
                elif field.label == FieldProto.LABEL_REQUIRED:
                    field.label = FieldProto.LABEL_OPTIONAL
    return made.SerializeToString()


def without_rule(data, path):
    """The set without the annotation of the last method of a gRPC path."""
    made = descriptor_pb2.FileDescriptorSet.FromString(data)
    found = None
    for file in made.file:
        scope = f"{file.package}." if file.package else ""
        for one in file.service:
            found = next((method for method in one.method if f"/{scope}{one.name}/{method.name}" == path), found)
    if found is not None:
        found.ClearField("options")
    return made.SerializeToString()


def mended(data):
    """The set with integers for floats, without the annotations of methods of which a fault is told."""
    data = integers(data)
    for _ in range(100):
        routes, fault = listing(data)
        paths = [] if fault is None else [word for word in fault.split(" ") if word.startswith("/")]
        if not paths:
            return data
        data = without_rule(data, paths[-1])
    return data


class Names:
    """Names that stand in a set."""

    def __init__(self, files):
        self.types, self.fields = [""], ["", "*", "**", "x"]
        for file in files:
            self.add(f".{file.package}" if file.package else "", file.message_type, file.enum_type)

    def add(self, scope, messages, enums):
        self.types += [f"{scope}.{one.name}" for one in enums]
        for one in messages:
            name = f"{scope}.{one.name}"
            self.types += [name, name[1:]]
            self.fields += [field.name for field in one.field] + [field.json_name for field in one.field]
            self.add(name, one.nested_type, one.enum_type)


def change_rule(rule, names, draw):
    """Changes one thing of a rule."""
    which = rule.WhichOneof("pattern")
    text = rule.custom.path if which == "custom" else getattr(rule, which) if which else "/a"
    at = draw.randrange(len(text) + 1)
    what = draw.randrange(9)
    if what == 0:
        text = text[:at] + draw.choice(SIGNS) + text[at:]
    elif what == 1:
        text = text[:at] + text[at + 1 :]
    elif what == 2:
        text += "/{" + ".".join(draw.choices(names.fields, k=draw.randint(1, 3))) + draw.choice(["", "=*", "=**", "=a/*"]) + "}"
    elif what == 3:
        text = draw.choice(["/a", "/*", "/**", "/a/*:go", "/a" * 64, "/a" * 65])
    elif what == 4:
        rule.body = draw.choice(names.fields)
    elif what == 5:
        rule.response_body = draw.choice(names.fields)
    elif what == 6:
        rule.ClearField(which or "get")
        return
    elif what == 7:
        rule.custom.kind, rule.custom.path = draw.choice(KINDS), text
        return
    else:
        again = type(rule).FromString(rule.SerializeToString())
        rule.additional_bindings.add().CopyFrom(again)
        return
    if which == "custom":
        rule.custom.path = text
    else:
        setattr(rule, which or "get", text)


def change_method(method, names, draw):
    """Changes a type of a method, or a rule."""
    what = draw.randrange(8)
    if what == 0:
        method.input_type = draw.choice(names.types)
    elif what == 1:
        method.output_type = draw.choice(names.types)
    else:
        told = OPTIONS.FromString(method.options.SerializeToString())
        rules = [told.http, *told.http.additional_bindings]
        change_rule(draw.choice(rules), names, draw)
        method.options.ParseFromString(told.SerializeToString())


def change_field(field, names, draw):
    """Changes one thing of a field."""
    what = draw.randrange(9)
    if what == 0:
        field.number = draw.choice([0, 1, 2, 536_870_911, 536_870_912, -1])
    elif what == 1:
        field.label = draw.choice([1, 2, 3])
    elif what == 2:
        field.type = draw.randint(1, 18)
    elif what == 3:
        field.type_name = draw.choice(names.types)
    elif what == 4:
        field.oneof_index = draw.choice([-1, 0, 1])
    elif what == 5:
        field.proto3_optional = True
    elif what == 6:
        field.json_name = draw.choice(names.fields)
    elif what == 7:
        field.name = draw.choice(names.fields)
    else:
        field.ClearField(draw.choice(["number", "label", "type", "type_name", "json_name", "oneof_index"]))


def change_message(one, names, draw):
    """Changes one thing of a message, or of a field of it."""
    what = draw.randrange(12)
    if what == 0:
        one.name = draw.choice(names.types).split(".")[-1]
    elif what == 1:
        one.options.map_entry = not one.options.map_entry
    elif what == 2:
        one.options.message_set_wire_format = True
    elif what == 3:
        one.extension.add(name="y", number=1000, extendee=draw.choice(names.types))
    elif what == 4 and one.enum_type:
        change_enum(draw.choice(one.enum_type), draw)
    elif one.field:
        change_field(draw.choice(one.field), names, draw)


def change_enum(one, draw):
    """Changes one thing of an enum."""
    what = draw.randrange(4)
    if what == 0 or not one.value:
        del one.value[:]
    elif what == 1:
        one.value.add(name=one.value[0].name, number=draw.choice([0, 7]))
    elif what == 2:
        one.value[0].number = 1
    else:
        one.name = "E"


def change_file(made, file, names, draw):
    """Changes one thing of a file, or of what is in it."""
    what = draw.randrange(40)
    if what == 0:
        file.syntax = draw.choice(SYNTAXES)
    elif what == 1:
        file.package = draw.choice(["", "p", file.package + ".x"])
    elif what == 2:
        file.name = draw.choice(made.file).name
    elif what < 6 and file.enum_type:
        change_enum(draw.choice(file.enum_type), draw)
    elif what < 20 and file.service and draw.choice(file.service).method:
        methods = [method for one in file.service for method in one.method]
        change_method(draw.choice(methods), names, draw)
    elif file.message_type:
        change_message(draw.choice(list(all_messages(file.message_type))), names, draw)


def changed(data, draw):
    """The set with one to four things changed, mostly in its last file."""
    made = descriptor_pb2.FileDescriptorSet.FromString(data)
    names = Names(made.file)
    for _ in range(draw.randint(1, 4)):
        file = draw.choice(made.file) if draw.randrange(6) == 0 else made.file[-1]
        change_file(made, file, names, draw)
    return made.SerializeToString()
