"""Rows of descriptor sets about bindings, for link_sets.py: templates, the fields that a rule names, and routes. The
answers are worked out by hand from google/api/http.proto and the rules of linking in docs/DEFINITIONS.md.
"""
import itertools

from set_parts import *  # noqa: F403


def get(template, body="", response=""):
    """HttpRule with a GET, and what else is not empty."""
    return pattern(2, template, body, response)


def post(template, body="", response=""):
    """HttpRule with a POST, and what else is not empty."""
    return pattern(4, template, body, response)


def pattern(number, template, body="", response=""):
    """HttpRule with the pattern of this field."""
    return text(number, template) + (text(7, body) if body else b"") + (text(12, response) if response else b"")


def rules(first, *others):
    """HttpRule with additional ones."""
    return first + b"".join(also(one) for one in others)


def of_rules(*given, **more):
    """The set of one file, whose method Get has these bindings."""
    return by_rule(rules(*given), **more)


def of_bodies(body, response="", **more):
    """The same set, whose rule has a body and a response body."""
    return by_rule(get("/a", body, response), **more)


def at(offset, path=PATH):
    return f"TemplateAt {path} {offset}"


def path_fault(variable, path=PATH):
    return f"PathField {path} {variable}"


def strings(count):
    """So many fields that are strings: x0, x1 and so on."""
    return [of(f"x{at}", at + 2, STRING) for at in range(count)]


def variables(count):
    """A template of so many variables: x0, x1 and so on."""
    return "".join(f"/{{x{at}}}" for at in range(count))


# A text, and where it is wrong: the offset of the first byte after which it begins no template, or its length.
NO_TEMPLATES = [
    ("", 0), ("v1/{id}", 0), ("/", 1), ("/v1/", 4), ("/v1//{id}", 4), ("/v1/{id}/", 9), ("{id}", 0), ("*", 0),
    ("/v1/{}", 5), ("/v1/{id", 7), ("/v1/{id=", 8), ("/v1/{id=*", 9), ("/v1/{id}}", 8), ("/v1/{id}x", 8), ("/v1/x{id}", 5),
    ("/v1/{id=}", 8), ("/v1/{=*}", 5), ("/v1/{1d}", 5), ("/v1/{id.}", 8), ("/v1/{.id}", 5), ("/v1/{i-d}", 6), ("/v1/{id=/a}", 8), ("/v1/{id=a/}", 10),
    ("/v1/{id=x/{b}}", 10), ("/v1/{id=**}/a", 11), ("/v1/**/a", 6), ("/v1/***", 6), ("/v1/*a", 5), ("/v1/a*", 5), ("/v1/*/**/*", 8),
    ("/v1/{id=**/a}", 10), ("/v1/{id}:", 9), ("/v1/:go", 4), ("/:go", 1), ("/v1/{id}:go/a", 11), ("/v1/a:b:c", 7), ("/v1/{id:go}", 7), ("/v1/{id=*:go}", 9),
    ("/v1/a:*", 6), ("/v1/%41/{id}", 4), ("/v 1/{id}", 2), ("/v\u00e9/{id}", 2), ("/v1?x", 3), ("/v1#x", 3), ("/v1/}", 4), ("/v1/{id} ", 8), (" /v1/{id}", 0), ("/v1/{id}\n", 8),
]

# Texts that are templates of M, which has a string `id`.
ARE_TEMPLATES = [
    "/a", "/*", "/**", "/{id}", "/{id=*}", "/{id=**}", "/{id=a}", "/{id=a/b}", "/{id=a/*/b}", "/{id=a/**}", "/{id=*/*}", "/a/{id}/b",
    "/*/*", "/*/**", "/a/**", "/**:go", "/a:go", "/{id}:go", "/{id=**}:go", "/{id=a/*}/b/*/**:go", "/-._~!$&'()+,;=@/{id}", "/azAZ09/{id}:-._~!$&'()+,;=@",
]

TEMPLATES = [
    *((f"the text {one!r}", at(offset), by_rule(rule(one))) for one, offset in NO_TEMPLATES),
    *((f"the template {one!r}", "ok", by_rule(rule(one))) for one in ARE_TEMPLATES),
    # how many segments, and variables
    ("64 segments", "ok", by_rule(rule("/a" * 63 + "/{id}"))),
    ("65 segments", at("many"), by_rule(rule("/a" * 64 + "/{id}"))),
    ("64 segments and a verb", "ok", by_rule(rule("/a" * 64 + ":go"))),
    ("65 segments and a verb", at("many"), by_rule(rule("/a" * 65 + ":go"))),
    ("64 segments in a variable", "ok", by_rule(rule("/{id=a" + "/a" * 63 + "}"))),
    ("65 segments in a variable", at("many"), by_rule(rule("/{id=a" + "/a" * 64 + "}"))),
    ("64 segments around a variable of two", at("many"), by_rule(rule("/a" * 63 + "/{id=a/*}"))),
    ("63 segments and all that follow", "ok", by_rule(rule("/*" * 63 + "/**"))),
    ("64 segments and all that follow", at("many"), by_rule(rule("/*" * 64 + "/**"))),
    ("16 variables", "ok", by_rule(rule(variables(16)), fields=strings(16))),
    ("17 variables", at("many"), by_rule(rule(variables(17)), fields=strings(17))),
    ("17 variables of one name", at("many"), by_rule(rule("/{id}" * 17))),
    ("17 variables of no field", at("many"), by_rule(rule(variables(17)))),
    ("65 segments and a fault behind them", at(130), by_rule(rule("/a" * 65 + "%"))),
    ("65 segments and a slash", at(131), by_rule(rule("/a" * 65 + "/"))),
    ("17 variables and an open one", at(len(variables(17)) + 2), by_rule(rule(variables(17) + "/{"))),
    # each pattern, and additional rules
    *((f"no template of field {number}", at(0), by_rule(text(number, "v1"))) for number in range(2, 7)),
    ("no template of a custom kind", at(0), by_rule(custom("K", "v1"))),
    ("no template of a custom kind that says nothing more", at(0), by_rule(text(8, text(1, "K")))),
    ("no template of an additional rule", at(1), of_rules(get("/a"), get("/"))),
    ("the first of two", at(0), of_rules(get("v1"), get("/"))),
    ("the first of two, in the other order", at(1), of_rules(get("/"), get("v1"))),
    ("the first of two additional ones", at(1), of_rules(get("/a"), get("/"), get("v1"))),
    ("a rule's own before an additional one's", at("many"), of_rules(get("/a" * 65), get("v1"))),
    ("of the second method", at(0, "/p.S/Put"), by_methods(method(), put(http=get("v1")))),
    ("a template that a later one replaces", "ok", by_rule(get("v1") + get("/{id}"))),
    ("a template that replaces an earlier one", at(0), by_rule(get("/{id}") + get("v1"))),
    ("of a method without an annotation there is none", "ok", by_methods(method(), put(http=b""))),
]

# A field x that is no plain leaf: what it is, and what else the set has.
MESSAGES_OF_N = {"messages": [message("N", [field(), of("user_id", 2, STRING)])]}
INNER = [x(MESSAGE, ".p.N")]
STAMP = other([message("Timestamp", [SECONDS, NANOS])], "b.proto", P)
MOMENT = {"fields": [x(MESSAGE, f".{P}.Timestamp")], "files": [STAMP]}


def by_path(path, segments="", **given):
    """The same set, whose rule has a variable of this path."""
    return by_rule(rule(f"/v1/{{{path}{segments}}}"), **given)


def in_map(kind, type_name="", **given):
    """What a set has with a map x of values of a kind."""
    return {"fields": [x(MESSAGE, ".p.M.XEntry", label=3)], "inner": text(3, entry(key(), value(kind, type_name))), **given}


def of_known(name, *fields):
    """What a set has with a field x of a well-known type."""
    return {"fields": [x(MESSAGE, f".{P}.{name}")], "files": [other([message(name, fields)], "b.proto", P)]}


KNOWN_LEAVES = [
    ("Timestamp", [SECONDS, NANOS]),
    ("Duration", [SECONDS, NANOS]),
    ("FieldMask", [of("paths", 1, STRING, label=3)]),
    *((name, [wrapped(kind)]) for name, kind in WRAPPERS.items()),
]

PATHS = [
    # names
    ("a field of no such name", path_fault("name"), by_path("name")),
    ("a field of another case", path_fault("Id"), by_path("Id")),
    ("a field by its name", "ok", by_path("user_id", fields=[of("user_id", 2, STRING)])),
    ("a field by the JSON name that its name gives", path_fault("userId"), by_path("userId", fields=[of("user_id", 2, STRING)])),
    ("a field by its declared JSON name", path_fault("key"), by_path("key", fields=[of("user_id", 2, STRING, json="key")])),
    ("a field whose JSON name is another's name", "ok", by_path("x", fields=[of("y", 2, STRING, json="z"), x(number=3)])),
    ("a field in a message by the JSON name", path_fault("x.userId"), by_path("x.userId", fields=INNER, **MESSAGES_OF_N)),
    ("a field in a message by its name", "ok", by_path("x.user_id", fields=INNER, **MESSAGES_OF_N)),
    ("no such field in a message", path_fault("x.name"), by_path("x.name", fields=INNER, **MESSAGES_OF_N)),
    ("a field in a message, named alone", path_fault("user_id"), by_path("user_id", fields=INNER, **MESSAGES_OF_N)),
    ("a message by the name of its type", path_fault("N.id"), by_path("N.id", fields=INNER, **MESSAGES_OF_N)),
    ("a field of the output", path_fault("id"), by_methods(method(request=".p.N"), messages=[N])),
    ("a field of the input that the output has not", "ok", by_methods(method(response=".p.N"), messages=[N])),
    ("a declared name that is no name of a variable", path_fault("a"), by_path("a", fields=[of("a.b", 2, STRING)])),
    ("a declared name with a dot", path_fault("a.b"), by_path("a.b", fields=[of("a.b", 2, STRING)])),
    ("an extension's name", path_fault("y"), by_path("y", more=text(7, extension(".q.N")))),
    ("a oneof's name", path_fault("o"), by_path("o", fields=[x(more=FIRST_ONEOF)], inner=ONEOF)),
    # what a path passes through
    ("through a message", "ok", by_path("x.id", fields=[x(MESSAGE, ".p.M")])),
    ("through a message three times", "ok", by_path("x.x.x.id", fields=[x(MESSAGE, ".p.M")])),
    ("through two messages", "ok", by_path("x.y.id", fields=INNER, messages=[message("N", [of("y", 3, MESSAGE, ".p.M")])])),
    ("through a message of another file", "ok", by_path("x.id", fields=[x(MESSAGE, ".q.M")], files=[other([message()])])),
    ("through an optional message", "ok", by_path("x.id", fields=[x(MESSAGE, ".p.M", more=OPTIONAL)])),
    ("through a member of a oneof", "ok", by_path("x.id", fields=[x(MESSAGE, ".p.M", more=FIRST_ONEOF)], inner=ONEOF)),
    ("through a list", path_fault("x.id"), by_path("x.id", fields=[x(MESSAGE, ".p.M", label=3)])),
    ("through a list in a message", path_fault("x.y.id"), by_path("x.y.id", fields=INNER, messages=[message("N", [of("y", 3, MESSAGE, ".p.M", 3)])])),
    ("through a list of strings", path_fault("x.id"), by_path("x.id", fields=[x(label=3)])),
    ("through a map to a field of its values", path_fault("x.id"), by_path("x.id", **in_map(MESSAGE, ".p.M"))),
    ("through a map to the key", path_fault("x.key"), by_path("x.key", **in_map(STRING))),
    ("through a map to the value", path_fault("x.value"), by_path("x.value", **in_map(STRING))),
    ("through a map to a field of the value", path_fault("x.value.id"), by_path("x.value.id", **in_map(MESSAGE, ".p.M"))),
    ("through an entry that stands alone", "ok", by_path("x.key", fields=[x(MESSAGE, ".p.M.XEntry")], inner=text(3, entry(key(), value())))),
    ("through a Timestamp", path_fault("x.seconds"), by_path("x.seconds", **MOMENT)),
    ("through a message to a part of a Timestamp", path_fault("y.x.seconds"), by_path("y.x.seconds", fields=[x(MESSAGE, f".{P}.Timestamp"), of("y", 3, MESSAGE, ".p.M")], files=[STAMP])),
    ("through a wrapper", path_fault("x.value"), by_path("x.value", **of_known("StringValue", wrapped(STRING)))),
    ("through a Timestamp of another package", "ok", by_path("x.seconds", fields=[x(MESSAGE, ".q.Timestamp")], files=[other([message("Timestamp", [SECONDS, NANOS])])])),
    ("through a string", path_fault("id.id"), by_path("id.id")),
    ("through an enum", path_fault("x.A"), by_path("x.A", fields=[x(ENUM, ".p.E")], more=text(5, E))),
    ("into the input that is a well-known type", "ok", by_methods(method(request=f".{P}.Timestamp", http=rule("/v1/{seconds}")), files=[STAMP])),
    # where a path ends
    ("at each type of a number, a bool, a string and bytes", "ok", by_rule(rule("".join(f"/{{x{kind}}}" for kind in [*INTEGERS, BOOL, STRING, BYTES])), fields=[of(f"x{kind}", kind + 1, kind) for kind in [*INTEGERS, BOOL, STRING, BYTES]])),
    ("at an enum", "ok", by_path("x", fields=[x(ENUM, ".p.E")], more=text(5, E))),
    ("at an optional string", "ok", by_path("x", fields=[x(more=OPTIONAL)])),
    ("at a member of a oneof", "ok", by_path("x", fields=[x(more=FIRST_ONEOF)], inner=ONEOF)),
    *((f"at {name}", "ok", by_path("x", **of_known(name, *fields))) for name, fields in KNOWN_LEAVES),
    ("at a Timestamp in a message", "ok", by_path("y.x", fields=[x(MESSAGE, f".{P}.Timestamp"), of("y", 3, MESSAGE, ".p.M")], files=[STAMP])),
    ("at a plain message", path_fault("x"), by_path("x", fields=[x(MESSAGE, ".p.M")])),
    ("at a plain message without fields", path_fault("x"), by_path("x", fields=[x(MESSAGE, ".p.N")], messages=[N])),
    ("at google.protobuf.Empty", path_fault("x"), by_path("x", **of_known("Empty"))),
    ("at a plain message in a message", path_fault("x.x"), by_path("x.x", fields=[x(MESSAGE, ".p.M")])),
    ("at a list of strings", path_fault("x"), by_path("x", fields=[x(label=3)])),
    ("at a list of numbers in a message", path_fault("x.y"), by_path("x.y", fields=INNER, messages=[message("N", [of("y", 3, INT32, label=3)])])),
    ("at a list of enums", path_fault("x"), by_path("x", fields=[x(ENUM, ".p.E", label=3)], more=text(5, E))),
    ("at a list of Timestamps", path_fault("x"), by_path("x", fields=[x(MESSAGE, f".{P}.Timestamp", label=3)], files=[STAMP])),
    ("at a list of messages", path_fault("x"), by_path("x", fields=[x(MESSAGE, ".p.M", label=3)])),
    ("at a map", path_fault("x"), by_path("x", **in_map(STRING))),
    ("at a map of Timestamps", path_fault("x"), by_path("x", files=[STAMP], **in_map(MESSAGE, f".{P}.Timestamp"))),
    ("at an entry that stands alone", path_fault("x"), by_path("x", fields=[x(MESSAGE, ".p.M.XEntry")], inner=text(3, entry(key(), value())))),
    ("a list of segments does not make a list", path_fault("x"), by_path("x", "=**", fields=[x(label=3)])),
    ("a number of many segments", "ok", by_path("x", "=a/*/**", fields=[x(INT32)])),
    # two variables of one template
    ("two variables", "ok", by_rule(rule("/{id}/{x}"), fields=[x()])),
    ("one variable twice", path_fault("id"), by_rule(rule("/{id}/{id}"))),
    ("one variable twice, of other segments", path_fault("id"), by_rule(rule("/{id=a}/{id=**}"))),
    ("one path twice", path_fault("x.id"), by_rule(rule("/{x.id}/{x.id}"), fields=[x(MESSAGE, ".p.M")])),
    ("one path twice, and another between", path_fault("id"), by_rule(rule("/{id}/{x}/{id}"), fields=[x()])),
    ("a pair of paths inside another pair", path_fault("id"), by_rule(rule("/{id}/{x}/{x}/{id}"), fields=[x()])),
    ("a pair of paths before the second of another", path_fault("x"), by_rule(rule("/{x}/{id}/{x}/{id}"), fields=[x()])),
    ("one path in two fields", "ok", by_rule(rule("/{id}/{x.id}"), fields=[x(MESSAGE, ".p.M")])),
    ("two paths in one field", "ok", by_rule(rule("/{x.id}/{x.user_id}"), fields=INNER, **MESSAGES_OF_N)),
    ("two paths whose names begin alike", "ok", by_rule(rule("/{i}/{id}"), fields=[of("i", 2, STRING)])),
    ("two paths in a message whose names begin alike", "ok", by_rule(rule("/{x.i}/{x.id}"), fields=INNER, messages=[message("N", [field(), of("i", 2, STRING)])])),
    ("two members of one oneof", "ok", by_rule(rule("/{x}/{y}"), fields=[x(more=FIRST_ONEOF), of("y", 3, STRING, more=FIRST_ONEOF)], inner=ONEOF)),
    ("a path that begins another, of a message", path_fault("x"), by_rule(rule("/{x}/{x.id}"), fields=[x(MESSAGE, ".p.M")])),
    ("a path that another one begins, of a message", path_fault("x"), by_rule(rule("/{x.id}/{x}"), fields=[x(MESSAGE, ".p.M")])),
    ("a Timestamp that begins another path", path_fault("x"), by_rule(rule("/{x}/{x.seconds}"), **MOMENT)),
    ("a Timestamp behind a path that it begins", path_fault("x.seconds"), by_rule(rule("/{x.seconds}/{x}"), **MOMENT)),
    ("a string that begins another path", path_fault("id"), by_rule(rule("/{id}/{id.id}"))),
    ("a string behind a path that it begins", path_fault("id.id"), by_rule(rule("/{id.id}/{id}"))),
    ("a string that begins another path, and one between", path_fault("id"), by_rule(rule("/{id}/{x}/{id.id}"), fields=[x()])),
    ("a string that begins another path, behind a bad one", path_fault("name"), by_rule(rule("/{name}/{id}/{id.id}"))),
    ("the first of two bad paths", path_fault("b"), by_rule(rule("/{b}/{a}"))),
    ("a bad path behind a good one", path_fault("name"), by_rule(rule("/{id}/{name}"))),
    ("a bad path before a good one", path_fault("name"), by_rule(rule("/{name}/{id}"))),
    # bindings and methods
    ("one path in two bindings", "ok", of_rules(get("/a/{id}"), get("/b/{id}"))),
    ("a bad path of an additional rule", path_fault("name"), of_rules(get("/a/{id}"), get("/b/{name}"))),
    ("a bad path of the second method", path_fault("name", "/p.S/Put"), by_methods(method(), put(http=get("/b/{name}")))),
    ("each method's own input", path_fault("id", "/p.S/Put"), by_methods(method(), put(".p.N", http=get("/b/{id}")), messages=[N])),
    ("each method's own input, both good", "ok", by_methods(method(), put(".p.N", http=get("/b/{user_id}")), **MESSAGES_OF_N)),
    ("a path of a method without an annotation", "ok", by_methods(method(), put(".p.N", http=b""), messages=[N])),
    ("a streamed input", "ok", by_methods(method(more=num(5, 1)))),
    ("a streamed input without the field", path_fault("id"), by_methods(method(request=".p.N", more=num(5, 1)), messages=[N])),
]


def body_fault(name, path=PATH):
    return f"BodyField {path} {name}"


def response_fault(name, path=PATH):
    return f"ResponseField {path} {name}"


USER = [of("user_id", 2, STRING)]

BODIES = [
    ("no body", "ok", of_bodies("")),
    ("an empty body", "ok", by_rule(get("/a") + text(7, ""))),
    ("the whole message", "ok", of_bodies("*")),
    ("a string", "ok", of_bodies("id")),
    ("a message", "ok", of_bodies("x", fields=[x(MESSAGE, ".p.M")])),
    ("a list", "ok", of_bodies("x", fields=[x(label=3)])),
    ("a map", "ok", of_bodies("x", **in_map(STRING))),
    ("a Timestamp", "ok", of_bodies("x", **MOMENT)),
    ("a member of a oneof", "ok", of_bodies("x", fields=[x(more=FIRST_ONEOF)], inner=ONEOF)),
    ("the field of a variable", "ok", by_rule(get("/{id}", "id"))),
    ("the field in which a variable ends", "ok", by_rule(get("/{x.id}", "x"), fields=[x(MESSAGE, ".p.M")])),
    ("a field by its name", "ok", of_bodies("user_id", fields=USER)),
    ("a field by its JSON name", body_fault("userId"), of_bodies("userId", fields=USER)),
    ("a field by its declared JSON name", body_fault("key"), of_bodies("key", fields=[x(json="key")])),
    ("no such field", body_fault("name"), of_bodies("name")),
    ("a field of another case", body_fault("ID"), of_bodies("ID")),
    ("a field in a message", body_fault("x.id"), of_bodies("x.id", fields=[x(MESSAGE, ".p.M")])),
    ("a field of the output alone", body_fault("id"), by_methods(method(request=".p.N", http=get("/a", "id")), messages=[N])),
    ("a field of the input alone", "ok", by_methods(method(response=".p.N", http=get("/a", "id")), messages=[N])),
    ("two stars", body_fault("**"), of_bodies("**")),
    ("a star and a blank", body_fault("* "), of_bodies("* ")),
    ("a declared name with a dot", "ok", of_bodies("a.b", fields=[of("a.b", 2, STRING)])),
    ("a field that is named as a star", "ok", of_bodies("*", fields=[of("*", 2, STRING)])),
    ("a body twice, the last good", "ok", by_rule(get("/a", "name") + text(7, "id"))),
    ("a body twice, the last bad", body_fault("name"), by_rule(get("/a", "id") + text(7, "name"))),
    ("a body of an additional rule", body_fault("name"), of_rules(get("/a"), post("/a", "name"))),
    ("a body of the second method", body_fault("name", "/p.S/Put"), by_methods(method(), put(http=post("/a", "name")))),
    ("a body of a streamed input", body_fault("name"), by_methods(method(http=post("/a", "name"), more=num(5, 1)))),
    # responses
    ("an empty response", "ok", by_rule(get("/a") + text(12, ""))),
    ("a string as response", "ok", of_bodies("", "id")),
    ("a message as response", "ok", of_bodies("", "x", fields=[x(MESSAGE, ".p.M")])),
    ("a list as response", "ok", of_bodies("", "x", fields=[x(label=3)])),
    ("a map as response", "ok", of_bodies("", "x", **in_map(STRING))),
    ("a response by its name", "ok", of_bodies("", "user_id", fields=USER)),
    ("a response by its JSON name", response_fault("userId"), of_bodies("", "userId", fields=USER)),
    ("no such response", response_fault("name"), of_bodies("", "name")),
    ("a response of another case", response_fault("ID"), of_bodies("", "ID")),
    ("a star as response", response_fault("*"), of_bodies("", "*")),
    ("a star as response where a field is named so", "ok", of_bodies("", "*", fields=[of("*", 2, STRING)])),
    ("a response in a message", response_fault("x.id"), of_bodies("", "x.id", fields=[x(MESSAGE, ".p.M")])),
    ("a response of the input alone", response_fault("id"), by_methods(method(response=".p.N", http=get("/{id}", "", "id")), messages=[N])),
    ("a response of the output alone", "ok", by_methods(method(request=".p.N", http=get("/a", "", "id")), messages=[N])),
    ("a response of an additional rule", response_fault("name"), of_rules(get("/a"), get("/b", "", "name"))),
    ("a response of the second method", response_fault("name", "/p.S/Put"), by_methods(method(), put(http=get("/b", "", "name")))),
    ("one name as body and as response", "ok", of_bodies("id", "id")),
    ("one name of no field as body and as response", body_fault("name"), of_bodies("name", "name")),
]


def same(earlier="/p.S/Get", later="/p.S/Get"):
    return f"SameRoute {earlier} {later}"


def of_routes(*templates):
    """The set whose method Get has a GET of each template."""
    return of_rules(*map(get, templates), fields=[x()])


def spread(*letters):
    """The set of the methods A, B and so on of the service S, each with a GET of the path of its letter."""
    return by_methods(*(method(name, http=get(f"/{letter}")) for name, letter in zip("ABCDEF", letters)))


def by_files(first, second):
    """The set of two files, the second's package q, with these rules of their services' methods."""
    there = file("b.proto", "q", [], [service("T", [method("Put", ".p.M", ".p.M", second)])])
    return fileset(file(services=[service(methods=[method(http=first)])]), there)


ROUTES = [
    # one route
    ("a variable and its segment", same(), of_routes("/v1/{id}", "/v1/{id=*}")),
    ("a variable's segment and the variable", same(), of_routes("/v1/{id=*}", "/v1/{id}")),
    ("a variable and a wildcard", same(), of_routes("/v1/{id}", "/v1/*")),
    ("a wildcard and a variable's segment", same(), of_routes("/v1/*", "/v1/{id=*}")),
    ("two variables of other names", same(), of_routes("/v1/{id}", "/v1/{x}")),
    ("a variable and a wildcard before a literal", same(), of_routes("/v1/{id}/b", "/v1/*/b")),
    ("a variable of segments and its segments", same(), of_routes("/v1/{id=a/*/b}", "/v1/a/*/b")),
    ("a variable of a literal and the literal", same(), of_routes("/v1/{id=a}", "/v1/a")),
    ("a variable of all that follows and all that follows", same(), of_routes("/v1/{id=**}", "/v1/**")),
    ("one variable of two segments, and two", same(), of_routes("/{id=*/*}", "/{id}/{x}")),
    ("a verb of a variable and of a wildcard", same(), of_routes("/v1/{id}:go", "/v1/*:go")),
    ("one template twice", same(), of_routes("/v1/items", "/v1/items")),
    ("a body makes no other route", same(), of_rules(post("/a", "*"), post("/a", "id"))),
    ("a response makes no other route", same(), of_rules(get("/a"), get("/a", "", "id"))),
    ("a GET and the custom kind GET", same(), of_rules(get("/a"), custom("GET", "/a"))),
    ("a PATCH and the custom kind PATCH", same(), of_rules(custom("PATCH", "/a"), pattern(6, "/a"))),
    ("a custom kind twice", same(), of_rules(custom("K", "/a"), custom("K", "/a"))),
    ("the kind of all methods twice", same(), of_rules(custom("*", "/a"), custom("*", "/a"))),
    # two routes
    ("each of the five patterns", "ok", of_rules(*(pattern(number, "/a") for number in range(2, 7)))),
    ("a GET and the kind of all methods", "ok", of_rules(get("/a"), custom("*", "/a"))),
    ("a GET and the custom kind get", "ok", of_rules(get("/a"), custom("get", "/a"))),
    ("two custom kinds", "ok", of_rules(custom("K", "/a"), custom("KA", "/a"))),
    ("a verb and none", "ok", of_routes("/v1/*", "/v1/*:go")),
    ("two verbs", "ok", of_routes("/v1/*:go", "/v1/*:stop")),
    ("two verbs of two cases", "ok", of_routes("/v1/*:go", "/v1/*:Go")),
    ("a verb and a literal", "ok", of_routes("/v1/a:b", "/v1/a/b")),
    ("a wildcard and a literal", "ok", of_routes("/v1/*", "/v1/a")),
    ("a wildcard and all that follows", "ok", of_routes("/v1/*", "/v1/**")),
    ("two literals of two cases", "ok", of_routes("/v1/a", "/v1/A")),
    ("a route and a longer one", "ok", of_routes("/v1/a", "/v1/a/*")),
    ("a route and a longer one, the longer first", "ok", of_routes("/v1/a/*", "/v1/a")),
    ("all that follows, and all that follows behind a literal", "ok", of_routes("/**", "/v1/**")),
    ("literals with signs that segments are joined by", "ok", of_routes("/a,b", "/a/b", "/a=b", "/a;b")),
    ("two orders of segments", "ok", of_routes("/*/a", "/a/*")),
    # bindings of methods, services and files
    ("of two methods", same("/p.S/Get", "/p.S/Put"), by_methods(method(http=get("/a")), put(http=get("/a")))),
    ("of two methods, and another between", same("/p.S/Get", "/p.S/Put"), by_methods(method(http=get("/a")), method("Mid", http=get("/b")), put(http=get("/a")))),
    ("of two methods of one name", same(), by_methods(method(http=get("/a")), method(http=get("/a")))),
    ("other routes of two methods of one name", "ok", by_methods(method(http=get("/a")), method(http=get("/b")))),
    ("of two services", same("/p.S/Get", "/p.T/Get"), a_set(services=[S, service("T")])),
    ("of two services, by their order", same("/p.T/Get", "/p.S/Get"), a_set(services=[service("T"), S])),
    ("of two files", same("/p.S/Get", "/q.T/Put"), by_files(get("/a"), get("/a"))),
    ("other routes of two files", "ok", by_files(get("/a"), get("/b"))),
    ("an additional rule and the rule of the next method", same("/p.S/Get", "/q.T/Put"), by_files(rules(get("/a"), get("/b")), get("/b"))),
    ("a rule and an additional one of the next method", same("/p.S/Get", "/q.T/Put"), by_files(get("/a"), rules(get("/b"), get("/a")))),
    ("two additional rules of one method before two methods'", same(), by_files(rules(get("/a"), get("/b"), get("/b")), get("/a"))),
    ("of a method without an annotation there is none", "ok", by_methods(method(http=get("/a")), put(http=b""))),
    # which pair counts
    ("three of one route", same("/p.S/A", "/p.S/B"), spread(*"aaa")),
    ("three of one route, the last two of which stand together", same("/p.S/A", "/p.S/C"), spread(*"abaa")),
    ("three of one route, behind others", same("/p.S/C", "/p.S/D"), spread(*"bcaaa")),
    ("a pair around another", same("/p.S/B", "/p.S/C"), spread(*"abba")),
    ("a pair that overlaps another", same("/p.S/A", "/p.S/C"), spread(*"abab")),
    ("a pair before another", same("/p.S/A", "/p.S/B"), spread(*"aabb")),
    ("the pair whose later one comes first", same("/p.S/C", "/p.S/D"), spread(*"abccab")),
    ("a pair far apart", same("/p.S/A", "/p.S/F"), spread(*"abcdea")),
    ("no pair", "ok", spread(*"abcdef")),
    # 10,000 bindings
    ("10,000 routes", "ok", counted(lambda more: by_rule(get("/a") + more), NUMBERED_GET, 9_999)),
    ("9,999 routes, the last of which is the first", same(), counted(lambda more: by_rule(get("/a") + more + also(get("/a"))), NUMBERED_GET, 9_998)),
    ("9,999 routes, the last of which is that before it", same(), counted(lambda more: by_rule(get("/a") + more + also(get("/9997"))), NUMBERED_GET, 9_998)),
]

# Four bindings of two methods, each with a letter: the first that has an earlier equal, with the earliest such one.
METHOD_OF = ["/p.S/Get", "/p.S/Get", "/p.S/Put", "/p.S/Put"]


def first_pair(letters):
    """The answer to bindings of these routes."""
    for later in range(len(letters)):
        for earlier in range(later):
            if letters[earlier] == letters[later]:
                return same(METHOD_OF[earlier], METHOD_OF[later])
    return "ok"


def pairs():
    """All ways in which four bindings can be alike."""
    for letters in itertools.product("abcd", repeat=4):
        if all(letter in letters[:index] or letter == "abcd"[len(set(letters[:index]))] for index, letter in enumerate(letters)):
            first, second, third, fourth = (get(f"/{letter}") for letter in letters)
            yield f"the routes {''.join(letters)}", first_pair(letters), by_methods(method(http=rules(first, second)), put(http=rules(third, fourth)))


ROUTES += pairs()
