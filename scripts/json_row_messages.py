"""Rows of json_values on lists, maps, wrappers, oneofs, keys and messages in JSON."""
from json_row_forms import (
    BOOL_VALUE, BYTES_VALUE, CHOICE, INT32_VALUE, INT64_VALUE, LISTS, MAPS, NAMES, OPTIONALS, SCALARS, STRING_VALUE,
    TREE, UINT32_VALUE, UINT64_VALUE, WRAPPERS, WRAPPER_PARTS, bare, both, chunk, entry, fixed32, fixed64, num,
    reads, refused, section, varint, zigzag,
)
from json_row_scalars import SIGNED32, SIGNED64, UNSIGNED32, UNSIGNED64

# Lists: the field in Lists, its number, its texts, what they are as one record or several, and a fault.
LISTED = [
    ("i32", 1, ["-1", "0"], [chunk(1, varint(-1), varint(0))]), ("i64", 2, ['"-1"', '"0"'], [chunk(2, varint(-1), varint(0))]),
    ("u32", 3, ["4294967295"], [chunk(3, varint(2**32 - 1))]), ("u64", 4, ['"18446744073709551615"'], [chunk(4, varint(2**64 - 1))]),
    ("s32", 5, ["-2", "1"], [chunk(5, zigzag(-2), zigzag(1))]), ("s64", 6, ['"-2"'], [chunk(6, zigzag(-2))]),
    ("f32", 7, ["1", "0"], [bare(7, 5, fixed32(1)), bare(7, 5, fixed32(0))]), ("f64", 8, ['"1"', '"0"'], [chunk(8, fixed64(1), fixed64(0))]),
    ("sf32", 9, ["-1"], [chunk(9, fixed32(-1))]), ("sf64", 10, ['"-1"', '"1"'], [bare(10, 1, fixed64(-1)), bare(10, 1, fixed64(1))]),
    ("b", 11, ["true", "false"], [chunk(11, varint(1), varint(0))]), ("s", 12, ['"a"', '""'], [chunk(12, "a"), chunk(12)]),
    ("raw", 13, ['"+w=="', '""'], [chunk(13, b"\xfb"), chunk(13)]), ("colour", 14, ['"RED"', '"UNTOLD"', "9"], [chunk(14, varint(1), varint(0), varint(9))]),
    ("books", 15, ["{}", '{"pages":1}'], [chunk(15), chunk(15, num(3, 1))]), ("prices", 16, ['"0"', '"5"'], [chunk(16), chunk(16, num(1, 5))]),
    ("choices", 17, ['{"i32":0}'], [chunk(17, num(1, 0))]),
]


def lists():
    section("A list of each kind is an array, packed as declared; defaults stand in it, and an empty one is as unset.")
    for name, number, texts, records in LISTED:
        both(LISTS, f'{{"{name}":[{",".join(texts)}]}}', *records)
        reads(LISTS, f'{{"{name}":[]}}')
        reads(LISTS, f'{{"{name}":null}}')
        refused(LISTS, f'{{"{name}":[^null]}}', "NullInside")
        refused(LISTS, f'{{"{name}":[{texts[0]},^null]}}', "NullInside")
        refused(LISTS, f'{{"{name}":^{texts[0]}}}', "WrongShape")
        refused(LISTS, f'{{"{name}":[{texts[0]},^[]]}}', "WrongShape")
    section("No array, or a fault in its items: the first counts.")
    for text in ["1", '"1"', "true", "{", "{}"]:
        refused(LISTS, f'{{"i32":^{text}}}', "WrongShape")
    refused(LISTS, '{"i32":[1,^"x",null]}', "BadNumber")
    refused(LISTS, '{"i32":[1,^2147483648]}', "OutOfRange")
    refused(LISTS, '{"b":[true,^1]}', "WrongShape")
    refused(LISTS, '{"raw":["AA",^"A"]}', "BadText")
    refused(LISTS, '{"colour":["RED",^"red"]}', "BadEnum")
    refused(LISTS, '{"books":[{},^1]}', "WrongShape")
    refused(LISTS, '{"books":[{"pages":1,^"pages":1}]}', "KeyTwice")
    refused(LISTS, '{"choices":[{"i32":1},{"i32":1,"u64":^1}]}', "OneofTwice")
    refused(LISTS, '{"prices":["1",^{"value":1}]}', "WrongShape")
    reads(LISTS, '{"choices":[{"i32":1},{"u64":1}]}', chunk(17, num(1, 1)), chunk(17, num(2, 1)))


# Maps: the field in Maps, its number, entries by rising key as texts, and as records.
MAPPED = [
    ("byI32", 1, [("-2147483648", '"a"'), ("0", '""'), ("2147483647", '"b"')], [(num(1, -2**31), chunk(2, "a")), (num(1, 0), chunk(2)), (num(1, 2**31 - 1), chunk(2, "b"))]),
    ("byI64", 2, [("-9223372036854775808", '"1"'), ("9223372036854775807", '"0"')], [(num(1, -2**63), num(2, 1)), (num(1, 2**63 - 1), num(2, 0))]),
    ("byU32", 3, [("0", '"+w=="'), ("4294967295", '""')], [(num(1, 0), chunk(2, b"\xfb")), (num(1, 2**32 - 1), chunk(2))]),
    ("byU64", 4, [("9", '"9"'), ("10", '"10"'), ("18446744073709551615", '"0"')], [(num(1, 9), num(2, 9)), (num(1, 10), num(2, 10)), (num(1, 2**64 - 1), num(2, 0))]),
    ("byS32", 5, [("-1", "true"), ("1", "false")], [(bare(1, 0, zigzag(-1)), num(2, 1)), (bare(1, 0, zigzag(1)), num(2, 0))]),
    ("byS64", 6, [("-2", '"RED"'), ("2", "9")], [(bare(1, 0, zigzag(-2)), num(2, 1)), (bare(1, 0, zigzag(2)), num(2, 9))]),
    ("byF32", 7, [("1", "{}"), ("4294967295", '{"pages":2}')], [(bare(1, 5, fixed32(1)), chunk(2)), (bare(1, 5, fixed32(-1)), chunk(2, num(3, 2)))]),
    ("byF64", 8, [("1", "-1"), ("18446744073709551615", "0")], [(bare(1, 1, fixed64(1)), bare(2, 0, zigzag(-1))), (bare(1, 1, fixed64(-1)), bare(2, 0, zigzag(0)))]),
    ("bySf32", 9, [("-1", '"a"'), ("1", '""')], [(bare(1, 5, fixed32(-1)), chunk(2, chunk(1, "a"))), (bare(1, 5, fixed32(1)), chunk(2))]),
    ("bySf64", 10, [("-1", '"5"'), ("0", '"0"')], [(bare(1, 1, fixed64(-1)), bare(2, 1, fixed64(5))), (bare(1, 1, fixed64(0)), bare(2, 1, fixed64(0)))]),
    ("byBool", 11, [("false", "{}"), ("true", '{"b":true}')], [(num(1, 0), chunk(2)), (num(1, 1), chunk(2, num(11, 1)))]),
    ("byText", 12, [("", '""'), ("a", '"x"'), ("b", '"y"'), ("\u00e9", '"z"')], [(chunk(1), chunk(2)), (chunk(1, "a"), chunk(2, "x")), (chunk(1, "b"), chunk(2, "y")), (chunk(1, "\u00e9"), chunk(2, "z"))]),
    ("trees", 13, [("a", "{}"), ("b", '{"leafName":"l"}')], [(chunk(1, "a"), chunk(2)), (chunk(1, "b"), chunk(2, chunk(1, "l")))]),
]
KEY_RANGES = [("byI32", SIGNED32), ("byI64", SIGNED64), ("byU32", UNSIGNED32), ("byU64", UNSIGNED64), ("byS32", SIGNED32), ("byS64", SIGNED64), ("byF32", UNSIGNED32),
              ("byF64", UNSIGNED64), ("bySf32", SIGNED32), ("bySf64", SIGNED64)]


def object_of(entries):
    return "{" + ",".join(f'"{key}":{value}' for key, value in entries) + "}"


def maps():
    section("A map of each kind of key is an object; its entries are kept by rising key, with both records.")
    for name, number, entries, records in MAPPED:
        wanted = [entry(number, *one) for one in records]
        both(MAPS, f'{{"{name}":{object_of(entries)}}}', *wanted)
        reads(MAPS, f'{{"{name}":{object_of(entries[::-1])}}}', *wanted)
        reads(MAPS, f'{{"{name}":{{}}}}')
        reads(MAPS, f'{{"{name}":null}}')
        key, value = entries[0]
        refused(MAPS, f'{{"{name}":{{"{key}":^null}}}}', "NullInside")
        refused(MAPS, f'{{"{name}":{{"{key}":{value},^"{key}":{value}}}}}', "KeyTwice")
        refused(MAPS, f'{{"{name}":{{"{key}":^[]}}}}', "WrongShape")
        refused(MAPS, f'{{"{name}":^[]}}', "WrongShape")
        refused(MAPS, f'{{"{name}":^{value if value[0] != "{" else 1}}}', "WrongShape")
    section("Keys that are integers have the texts of numbers; no integer, and out of range, at the key.")
    for name, (low, high) in KEY_RANGES:
        for key in ["", "x", " 1", "1 ", "+1", "01", "0x1", "true", "1.5", "1e-1"]:
            refused(MAPS, f'{{"{name}":{{^"{key}":1}}}}', "BadNumber")
        for key in [low - 1, high + 1, "1e30"]:
            refused(MAPS, f'{{"{name}":{{^"{key}":1}}}}', "OutOfRange")
    reads(MAPS, '{"byI32":{"1e2":"a","-0":"b","\\u0037":"c"}}', entry(1, num(1, 0), chunk(2, "b")), entry(1, num(1, 7), chunk(2, "c")), entry(1, num(1, 100), chunk(2, "a")))
    for first, second in [("1", "1e0"), ("1.0", "1"), ("0", "-0"), ("100", "1e2"), ("1", "\\u0031")]:
        refused(MAPS, f'{{"byI32":{{"{first}":"a",^"{second}":"b"}}}}', "KeyTwice")
    section("Keys that are bools are true and false.")
    for key in ["True", "FALSE", "1", "0", "", " true", "null"]:
        refused(MAPS, f'{{"byBool":{{^"{key}":{{}}}}}}', "BadText")
    refused(MAPS, '{"byBool":{"true":{},"false":{},^"true":{}}}', "KeyTwice")
    section("Keys that are strings are any, and are one where their characters are.")
    reads(MAPS, '{"byText":{"null":"a","\\ud834\\udd1e":"b"}}', entry(12, chunk(1, "null"), chunk(2, "a")), entry(12, chunk(1, "\U0001d11e"), chunk(2, "b")))
    refused(MAPS, '{"byText":{"a":"x","b":"y",^"\\u0061":"z"}}', "KeyTwice")
    section("A fault in the value of an entry.")
    refused(MAPS, '{"byI64":{"1":^1.5}}', "BadNumber")
    refused(MAPS, '{"byU32":{"1":^"A"}}', "BadText")
    refused(MAPS, '{"byS32":{"1":^"true"}}', "WrongShape")
    refused(MAPS, '{"byS64":{"1":^"red"}}', "BadEnum")
    refused(MAPS, '{"byF64":{"1":^2147483648}}', "OutOfRange")
    refused(MAPS, '{"byF32":{"1":{^"no":1}}}', "UnknownKey")
    refused(MAPS, '{"bySf32":{"1":^1}}', "WrongShape")
    refused(MAPS, '{"trees":{"a":{"rest":[^null]}}}', "NullInside")


# Wrappers: the name in WrapperParts, the whole type, the record of its value, a text of it and one of its default, and faults.
WRAPPED = [
    ("flag", 1, BOOL_VALUE, num(1, 1), "true", "false", [('"true"', "WrongShape"), ("1", "WrongShape")]),
    ("i32", 2, INT32_VALUE, num(1, -5), "-5", "0", [("true", "WrongShape"), ('"x"', "BadNumber"), ("1.5", "BadNumber"), ("2147483648", "OutOfRange")]),
    ("i64", 3, INT64_VALUE, num(1, -5), '"-5"', '"0"', [("true", "WrongShape"), ('"x"', "BadNumber"), ('"9223372036854775808"', "OutOfRange")]),
    ("u32", 4, UINT32_VALUE, num(1, 5), "5", "0", [("true", "WrongShape"), ('""', "BadNumber"), ("-1", "OutOfRange")]),
    ("u64", 5, UINT64_VALUE, num(1, 5), '"5"', '"0"', [("true", "WrongShape"), ("5e-1", "BadNumber"), ('"-1"', "OutOfRange")]),
    ("text", 6, STRING_VALUE, chunk(1, "a"), '"a"', '""', [("true", "WrongShape"), ("1", "WrongShape")]),
    ("raw", 7, BYTES_VALUE, chunk(1, b"\xfb"), '"+w=="', '""', [("1", "WrongShape"), ('"A"', "BadText"), ('"+x"', "BadText")]),
]
LISTS_OF = {"flag": "flags", "i32": "i32s", "i64": "i64s", "u32": "u32s", "u64": "u64s"}
MAPS_OF = {"flag": "byFlag", "i32": "byI32", "i64": "byI64", "u32": "byU32", "raw": "byRaw"}


def one_wrapper(name, number, kind, record, told, default, faults):
    both(kind, told, record)
    both(kind, default)
    both(WRAPPERS, f'{{"{name}":{told}}}', chunk(number, record))
    both(WRAPPERS, f'{{"{name}":{default}}}', chunk(number))
    reads(WRAPPERS, f'{{"{name}":null}}')
    both(WRAPPER_PARTS, f'{{"{name}":{default}}}', chunk(20 + number))
    both(WRAPPER_PARTS, f'{{"{name}":{told}}}', chunk(20 + number, record))
    if name in LISTS_OF:
        both(WRAPPER_PARTS, f'{{"{LISTS_OF[name]}":[{told},{default}]}}', chunk(number, record), chunk(number))
        refused(WRAPPER_PARTS, f'{{"{LISTS_OF[name]}":[{told},^null]}}', "NullInside")
    if name in MAPS_OF:
        both(WRAPPER_PARTS, f'{{"{MAPS_OF[name]}":{{"1":{default},"2":{told}}}}}', entry(10 + number, num(1, 1), chunk(2)), entry(10 + number, num(1, 2), chunk(2, record)))
        refused(WRAPPER_PARTS, f'{{"{MAPS_OF[name]}":{{"1":{told},"2":^null}}}}', "NullInside")
    for text, fault in [*faults, ("{", "WrongShape"), ('{"value":1}', "WrongShape"), ("[", "WrongShape"), ("[]", "WrongShape")]:
        refused(kind, f"^{text}", fault)
        refused(WRAPPERS, f'{{"{name}":^{text}}}', fault)
        if name in LISTS_OF:
            refused(WRAPPER_PARTS, f'{{"{LISTS_OF[name]}":[^{text}]}}', fault)
        if name in MAPS_OF:
            refused(WRAPPER_PARTS, f'{{"{MAPS_OF[name]}":{{"1":^{text}}}}}', fault)
    refused(kind, "^null", "WrongShape")


def wrappers():
    for one in WRAPPED:
        section(f"The wrapper of {one[0]} is as its value: whole, in a field, in a oneof, in a list and as a map's value.")
        one_wrapper(*one)
    section("Of a oneof of wrappers a default is set too, and null is not.")
    refused(WRAPPER_PARTS, '{"flag":false,"i32":^0}', "OneofTwice")
    reads(WRAPPER_PARTS, '{"flag":null,"i32":0,"text":null}', chunk(22))
    both(WRAPPERS, '{"texts":["","a"],"sizes":{"":"0","a":"1"},"raws":["","+w=="]}', chunk(8), chunk(8, chunk(1, "a")), entry(9, chunk(1), chunk(2)),
         entry(9, chunk(1, "a"), chunk(2, num(1, 1))), chunk(10), chunk(10, chunk(1, b"\xfb")))


# Members of the first oneof of Choice: the name, a record and a text, and one of a default, which counts as a value.
MEMBERS = [
    ("i32", num(1, 0), "0"), ("u64", num(2, 0), '"0"'), ("s", chunk(3), '""'), ("raw", chunk(4), '""'), ("b", num(5, 0), "false"), ("colour", num(6, 0), '"UNTOLD"'),
    ("book", chunk(7), "{}"), ("flag", chunk(8), "false"), ("choice", chunk(9), "{}"),
]


def oneofs():
    section("Of a oneof one member has a value, a default too; the second is refused at its value, whatever token that is.")
    for name, record, text in MEMBERS:
        both(CHOICE, f'{{"{name}":{text}}}', record)
        reads(CHOICE, f'{{"{name}":null}}')
        for other, _, second in MEMBERS:
            if other != name:
                refused(CHOICE, f'{{"{name}":{text},"{other}":^{second}}}', "OneofTwice")
                reads(CHOICE, f'{{"{name}":{text},"{other}":null}}', record)
                reads(CHOICE, f'{{"{other}":null,"{name}":{text}}}', record)
    section("Members of another oneof and other fields do not count; nor does one that is null, but as its key.")
    both(CHOICE, '{"i32":1,"f32":2,"note":"n"}', num(1, 1), bare(11, 5, fixed32(2)), chunk(20, "n"))
    both(CHOICE, '{"nothing":{}}', chunk(10))
    refused(CHOICE, '{"nothing":{},"i32":1,"s64":^1}', "OneofTwice")
    refused(CHOICE, '{"choice":{"i32":1,"u64":^1}}', "OneofTwice")
    reads(CHOICE, '{"choice":{"i32":1}}', chunk(9, num(1, 1)))
    refused(CHOICE, '{"i32":null,^"i32":1}', "KeyTwice")
    refused(CHOICE, '{"i32":1,"u64":null,^"u64":1}', "KeyTwice")
    refused(CHOICE, '{"i32":1,^"i32":2}', "KeyTwice")


def keys():
    section("A key is a field's name in JSON or in the .proto file, in any escapes; nothing else is one.")
    both(NAMES, '{"camelCase":"x","UPPER":true,"with1Digit":1,"aB":1,"other":2,"snakeCaseName":1}', chunk(3, "x"), num(4, 1), num(5, 1), num(7, 1), num(18999, 2), num(536870911, 1))
    both(NAMES, '{"an own, \\"quoted\\" \\\\ n\u00e4me":"a"}', chunk(6, "a"))
    reads(NAMES, '{"own":"a"}', chunk(6, "a"))
    reads(NAMES, '{"snake_case_name":1,"with_1_digit":2,"a__b":3,"in_names":{"inNames":{}}}', num(5, 2), num(7, 3), chunk(8, chunk(8)), num(536870911, 1))
    reads(NAMES, '{"snake\\u005fcase_name":1,"\\u0061B":2}', num(7, 2), num(536870911, 1))
    for key in ["", "SnakeCaseName", "snakecasename", "snake_case_Name", "camelcase", "camel_case", "Upper", "with1digit", "a_b", "a_B", "own ", " own", "8", "inNames.other", "in_names.other",
                "[values.v1.names]", "@type", "$schema", "an own, 'quoted'"]:
        refused(NAMES, f'{{^"{key}":1}}', "UnknownKey")
        refused(NAMES, f'{{"UPPER":true,^"{key}":null}}', "UnknownKey")
    section("A key that came before, by either name, with any value, null too.")
    for first, second in [("snakeCaseName", "snakeCaseName"), ("snake_case_name", "snake_case_name"), ("snakeCaseName", "snake_case_name"), ("snake_case_name", "snakeCaseName"),
                          ("with1Digit", "with_1_digit"), ("aB", "a__b"), ("a__b", "\\u0061B")]:
        for value in ["1", "0", "null"]:
            refused(NAMES, f'{{"{first}":{value},"UPPER":true,^"{second}":1}}', "KeyTwice")
            refused(NAMES, f'{{"{first}":1,^"{second}":{value}}}', "KeyTwice")
    refused(NAMES, '{"own":"a",^"an own, \\"quoted\\" \\\\ n\u00e4me":"a"}', "KeyTwice")
    refused(NAMES, '{"inNames":{"other":1},^"in_names":{"UPPER":true}}', "KeyTwice")
    refused(LISTS, '{"i32":[1],^"i32":[2]}', "KeyTwice")
    refused(LISTS, '{"i32":[],^"i32":[]}', "KeyTwice")
    refused(MAPS, '{"byI32":{"1":"a"},^"by_i32":{"2":"b"}}', "KeyTwice")
    section("The same key in two objects is not given twice.")
    reads(NAMES, '{"inNames":{"inNames":{"other":1},"other":2},"other":3}', chunk(8, chunk(8, num(18999, 1)), num(18999, 2)), num(18999, 3))


def whole_messages():
    section("A message is an object, and no other token; white space may stand between tokens, and moves places.")
    for kind in [SCALARS, OPTIONALS, LISTS, MAPS, CHOICE, TREE, NAMES]:
        both(kind, "{}")
        for text in ["null", "true", "false", "0", '""', '"{}"', "[", "[]", "[{}]"]:
            refused(kind, f"^{text}", "WrongShape")
    reads(SCALARS, ' \t\r\n{ "i32"\n:\t1 ,\r"b" : true } ', num(1, 1), num(11, 1))
    refused(SCALARS, " \n^null", "WrongShape")
    refused(SCALARS, ' { "i32" : ^1.5 }', "BadNumber")
    refused(SCALARS, '{"s":"\u00e9",^"\u00e9":1}', "UnknownKey")
    section("Members in any order, and fields that are null, are the same message.")
    reads(SCALARS, '{"b":true,"i32":1,"s":"a","i64":null}', num(1, 1), num(11, 1), chunk(12, "a"))
    reads(OPTIONALS, '{"scalars":{},"i32":0,"raw":null}', num(1, 0), chunk(15))
    for name in ["b", "sf64", "sf32", "f64", "f32", "s64", "s32", "u64", "u32", "i64", "i32", "s", "raw", "colour", "scalars"]:
        reads(OPTIONALS, f'{{"{name}":null}}')
    section("A message in a message.")
    both(TREE, '{"left":{"leafName":"l"},"right":{},"rest":[{},{"leafName":"r"}]}', chunk(2, chunk(1, "l")), chunk(3), chunk(4), chunk(4, chunk(1, "r")))
    reads(TREE, '{"left":null,"rest":null}')
    for text in ["1", '"x"', "true", "[", "[{}]"]:
        refused(TREE, f'{{"left":^{text}}}', "WrongShape")
