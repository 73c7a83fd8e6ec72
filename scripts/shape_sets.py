"""Rows of descriptor sets that are linked, for link_sets.py: all types, methods and bindings that are made of a set, each
type that a field or a method names by its full name. The answers are worked out by hand from descriptor.proto,
google/api/http.proto and the rules of linking in docs/DEFINITIONS.md.
"""
from binding_sets import KNOWN_LEAVES, get, pattern, post, rules
from set_parts import *  # noqa: F403

GET_OF_M = ["method /p.S/Get p.M p.M false false", "binding GET 0 /.1 Nothing None"]


def packed(said):
    """FieldOptions that say whether a list is packed."""
    return text(8, num(2, said))


def in_oneof(index):
    return num(9, index)


# Each shape, in two oneofs of which one is an optional field's.
SHAPES = fileset(
    file(
        messages=[
            N,
            message(
                "M",
                [
                    field(),
                    of("marks_of", 2, SINT64, label=3),
                    of("tags", 3, STRING, label=3),
                    of("stock", 4, MESSAGE, ".p.M.StockEntry", 3),
                    of("lent", 5, BOOL, more=in_oneof(0) + OPTIONAL),
                    of("person", 6, BYTES, more=in_oneof(1)),
                    of("kind", 7, ENUM, ".p.E"),
                    of("sequel", 8, MESSAGE, ".p.M"),
                    of("other", 9, MESSAGE, ".p.N", 3),
                    of("loose", 10, INT32, label=3, more=packed(0), json="free"),
                    of("card", 11, FIXED32, more=in_oneof(1)),
                    of("plain", 12, UINT64, more=OPTIONAL),
                ],
                text(3, entry(key(), value(ENUM, ".p.E"), name="StockEntry")) + text(8, text(1, "_lent")) + text(8, text(1, "owner")),
            ),
        ],
        more=text(5, enum("D", ("Z", 0))) + text(5, E),
    )
)
SHAPES_TOLD = [
    "message p.M Plain",
    "id id 1 Text Single Implicit false",
    "marks_of marksOf 2 Sint64 Many Implicit true",
    "tags tags 3 Text Many Implicit false",
    "stock stock 4 enum p.E Map(Text) Implicit false",
    "lent lent 5 Bool Single Explicit false",
    "person person 6 Bytes Member(0) Explicit false",
    "kind kind 7 enum p.E Single Implicit false",
    "sequel sequel 8 message p.M Single Explicit false",
    "other other 9 message p.N Many Implicit false",
    "loose free 10 Int32 Many Implicit false",
    "card card 11 Fixed32 Member(0) Explicit false",
    "plain plain 12 Uint64 Single Explicit false",
    "message p.N Plain",
    "enum p.E A=0",
    *GET_OF_M,
]

# Each kind of a scalar.
SCALARS = "Int64 Uint64 Int32 Fixed64 Fixed32 Bool Text - - Bytes Uint32 - Sfixed32 Sfixed64 Sint32 Sint64".split()
NUMBERED = [(kind, told) for kind, told in enumerate(SCALARS, INT64) if told != "-"]
SCALAR_SET = a_set([of(f"x{kind}", kind, kind) for kind, _ in NUMBERED])
SCALARS_TOLD = ["message p.M Plain", "id id 1 Text Single Implicit false", *(f"x{kind} x{kind} {kind} {told} Single Implicit false" for kind, told in NUMBERED), *GET_OF_M]

# Which lists are packed: of numbers, bools and enums, where nothing else is said.
PACKED = a_set(
    [
        of("a", 2, INT32, label=3),
        of("b", 3, INT32, label=3, more=packed(1)),
        of("c", 4, INT32, label=3, more=packed(0)),
        of("d", 5, BOOL, label=3),
        of("e", 6, ENUM, ".p.E", 3),
        of("f", 7, ENUM, ".p.E", 3, packed(0)),
        of("g", 8, STRING, label=3, more=packed(1)),
        of("h", 9, BYTES, label=3, more=packed(1)),
        of("i", 10, MESSAGE, ".p.M", 3, packed(1)),
        of("j", 11, INT32, more=packed(1)),
        of("k", 12, MESSAGE, ".p.M.XEntry", 3, packed(1)),
        of("l", 13, FIXED64, label=3, more=text(8, num(1, 1))),
    ],
    inner=text(3, entry(*TEXT_TO_INT)),
    more=text(5, E),
)
PACKED_TOLD = [
    "message p.M Plain",
    "id id 1 Text Single Implicit false",
    "a a 2 Int32 Many Implicit true",
    "b b 3 Int32 Many Implicit true",
    "c c 4 Int32 Many Implicit false",
    "d d 5 Bool Many Implicit true",
    "e e 6 enum p.E Many Implicit true",
    "f f 7 enum p.E Many Implicit false",
    "g g 8 Text Many Implicit false",
    "h h 9 Bytes Many Implicit false",
    "i i 10 message p.M Many Implicit false",
    "j j 11 Int32 Single Implicit false",
    "k k 12 Int32 Map(Text) Implicit false",
    "l l 13 Fixed64 Many Implicit true",
    "enum p.E A=0",
    *GET_OF_M,
]

# Which oneofs are real, and their numbers among these: the first has no members, the second an optional one alone, the
# third an optional one beside another, the fourth one member.
ONEOFS = a_set(
    [
        of("a", 2, STRING, more=in_oneof(1) + OPTIONAL),
        of("b", 3, STRING, more=in_oneof(2) + OPTIONAL),
        of("c", 4, MESSAGE, ".p.M", more=in_oneof(3)),
        of("d", 5, ENUM, ".p.E", more=in_oneof(2)),
        of("e", 6, MESSAGE, ".p.M", more=OPTIONAL),
        of("f", 7, STRING, more=num(17, 0)),
    ],
    inner=ONEOF + b"".join(text(8, text(1, name)) for name in "uvw"),
    more=text(5, E),
)
ONEOFS_TOLD = [
    "message p.M Plain",
    "id id 1 Text Single Implicit false",
    "a a 2 Text Single Explicit false",
    "b b 3 Text Member(0) Explicit false",
    "c c 4 message p.M Member(1) Explicit false",
    "d d 5 enum p.E Member(0) Explicit false",
    "e e 6 message p.M Single Explicit false",
    "f f 7 Text Single Implicit false",
    "enum p.E A=0",
    *GET_OF_M,
]

# Each key of a map, and values of each sort.
KEY_TOLD = [(kind, told) for kind, told in NUMBERED if told != "Bytes"]
KEYS = a_set(
    [of(f"x{kind}", kind, MESSAGE, f".p.M.X{kind}Entry", 3) for kind, _ in KEY_TOLD],
    inner=b"".join(text(3, entry(key(kind), value(MESSAGE, ".p.N"), name=f"X{kind}Entry")) for kind, _ in KEY_TOLD),
    messages=[N],
)
KEYS_TOLD = [
    "message p.M Plain",
    "id id 1 Text Single Implicit false",
    *(f"x{kind} x{kind} {kind} message p.N Map({told}) Implicit false" for kind, told in KEY_TOLD),
    "message p.N Plain",
    *GET_OF_M,
]

# The well-known messages.
KNOWN_SET = a_set(
    [of(f"x{at}", at + 2, MESSAGE, f".{P}.{name}") for at, (name, _) in enumerate(KNOWN_LEAVES)],
    files=[other([message(name, fields) for name, fields in KNOWN_LEAVES], "b.proto", P)],
)
STAMP_TOLD = ["seconds seconds 1 Int64 Single Implicit false", "nanos nanos 2 Int32 Single Implicit false"]
WRAPPED_TOLD = {"BoolValue": "Bool", "Int32Value": "Int32", "Int64Value": "Int64", "UInt32Value": "Uint32", "UInt64Value": "Uint64", "StringValue": "Text", "BytesValue": "Bytes"}
KNOWN_TOLD = [
    "message p.M Plain",
    "id id 1 Text Single Implicit false",
    *(f"x{at} x{at} {at + 2} message {P}.{name} Single Explicit false" for at, (name, _) in enumerate(KNOWN_LEAVES)),
    *(f"message {P}.Timestamp Timestamp", *STAMP_TOLD, f"message {P}.Duration Duration", *STAMP_TOLD),
    *(f"message {P}.FieldMask FieldMask", "paths paths 1 Text Many Implicit false"),
    *(line for name, told in WRAPPED_TOLD.items() for line in (f"message {P}.{name} Wrapper", f"value value 1 {told} Single Implicit false")),
    *GET_OF_M,
]

# Two files whose messages and enums name one another, out of the order in which they are declared.
LEAF, SHADE = message("Leaf", [of("name", 1, STRING), of("color", 2, ENUM, ".z.Color")]), enum("Shade", ("DARK", 0))
DEEP = message(
    "Deep",
    [of("up", 1, MESSAGE, ".a.In"), of("shades", 2, MESSAGE, ".a.In.Deep.ShadesEntry", 3), of("tag", 3, STRING)],
    text(3, entry(key(INT32), value(ENUM, ".z.Shade"), name="ShadesEntry")),
)
OUT = message(
    "Out",
    [of("leaves", 1, MESSAGE, ".z.Leaf", 3), of("deep", 2, MESSAGE, ".a.Out.DeepEntry", 3), of("mood", 3, ENUM, ".a.Out.Mood")],
    text(3, entry(key(), value(MESSAGE, ".a.In.Deep"), name="DeepEntry")) + text(4, enum("Mood", ("CALM", 0), ("WILD", -1))),
)
IN = message(
    "In",
    [
        of("leaf", 1, MESSAGE, ".z.Leaf"),
        of("made", 2, MESSAGE, f".{P}.Timestamp"),
        of("name", 4, STRING),
        of("one", 5, MESSAGE, ".z.Leaf", more=FIRST_ONEOF),
        of("two", 6, INT64, more=FIRST_ONEOF),
    ],
    text(3, DEEP) + ONEOF,
)
FIRST = method("First", ".z.Leaf", ".z.Leaf", custom("K", "/leaf/{name}:go") + text(7, "color"))
PUT = method("Put", ".a.In", ".a.Out", rules(post("/in/{leaf.name}/{name}", "leaf", "mood"), pattern(3, "/in/{name=a/*}", "*")), num(5, 1))
FREE = method("Free", ".z.Unused", ".z.Unused", b"")
ALL = method("All", ".a.Out", ".a.Out", get("/out"), num(6, 1))
NAMED = fileset(
    file("a.proto", "a", [OUT, IN], [service("One", [FIRST]), service("Two", [PUT, FREE, ALL])]),
    other([message("Unused", [of("f", 1, FLOAT)]), LEAF], "z.proto", "z", more=text(5, SHADE) + text(5, enum("Color", ("RED", 0), ("BLUE", 5)))),
    other([message("Timestamp", [NANOS, SECONDS])], "t.proto", P),
)
NAMED_TOLD = [
    "message z.Leaf Plain",
    "name name 1 Text Single Implicit false",
    "color color 2 enum z.Color Single Implicit false",
    "message a.In Plain",
    "leaf leaf 1 message z.Leaf Single Explicit false",
    f"made made 2 message {P}.Timestamp Single Explicit false",
    "name name 4 Text Single Implicit false",
    "one one 5 message z.Leaf Member(0) Explicit false",
    "two two 6 Int64 Member(0) Explicit false",
    "message a.Out Plain",
    "leaves leaves 1 message z.Leaf Many Implicit false",
    "deep deep 2 message a.In.Deep Map(Text) Implicit false",
    "mood mood 3 enum a.Out.Mood Single Implicit false",
    f"message {P}.Timestamp Timestamp",
    "nanos nanos 2 Int32 Single Implicit false",
    "seconds seconds 1 Int64 Single Implicit false",
    "message a.In.Deep Plain",
    "up up 1 message a.In Single Explicit false",
    "shades shades 2 enum z.Shade Map(Int32) Implicit false",
    "tag tag 3 Text Single Implicit false",
    "enum z.Color RED=0 BLUE=5",
    "enum a.Out.Mood CALM=0 WILD=-1",
    "enum z.Shade DARK=0",
    "method /a.One/First z.Leaf z.Leaf false false",
    "method /a.Two/Put a.In a.Out true false",
    "method /a.Two/All a.Out a.Out false true",
    "binding K 0 /.1 Part(2) None",
    "binding POST 1 /.1.1/.4 Part(1) Some(3)",
    "binding PUT 1 /.4 Whole None",
    "binding GET 2 - Nothing None",
]

# An entry that a method names, and a map of it: it is a message of its own there.
ENTRY_SET = by_methods(
    method(request=".p.M.XEntry", http=get("/{key}")),
    method("Put", http=post("/a", "x", "x")),
    fields=[x(MESSAGE, ".p.M.XEntry", label=3)],
    inner=text(3, entry(*TEXT_TO_INT)),
)
ENTRY_TOLD = [
    "message p.M.XEntry Plain",
    "key key 1 Text Single Implicit false",
    "value value 2 Int32 Single Implicit false",
    "message p.M Plain",
    "id id 1 Text Single Implicit false",
    "x x 2 Int32 Map(Text) Implicit false",
    "method /p.S/Get p.M.XEntry p.M false false",
    "method /p.S/Put p.M p.M false false",
    "binding GET 0 /.1 Nothing None",
    "binding POST 1 - Part(2) Some(2)",
]

# label, the set, what is linked of it
LINKED = [
    ("types_have_their_shapes", SHAPES, SHAPES_TOLD),
    ("scalars_have_their_kinds", SCALAR_SET, SCALARS_TOLD),
    ("lists_are_packed", PACKED, PACKED_TOLD),
    ("oneofs_that_are_real_are_numbered", ONEOFS, ONEOFS_TOLD),
    ("maps_have_their_keys", KEYS, KEYS_TOLD),
    ("well_known_types_are_known", KNOWN_SET, KNOWN_TOLD),
    ("ids_are_those_of_names", NAMED, NAMED_TOLD),
    ("entries_that_methods_name_are_messages", ENTRY_SET, ENTRY_TOLD),
]
