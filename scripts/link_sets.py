#!/usr/bin/env python3
"""Makes the rows of descriptor sets that crates/set_rows answers, with their answers.

usage: link_sets.py [--check]

It writes crates/set_rows/stdin, a line for each row, and crates/set_rows/stdout, its answers: what is read of
a set, its first fault or `ok`. The answers are worked out by hand from descriptor.proto,
google/api/http.proto and the rules of linking in docs/DEFINITIONS.md.
With --check it writes nothing, and fails where a file differs from what it would write.
"""
import pathlib
import re
import sys

ROOT = pathlib.Path(__file__).resolve().parent.parent
MADE = ROOT / "crates/set_rows"

sys.path.insert(0, str(ROOT / "scripts"))
from binding_sets import BODIES, PATHS, ROUTES, TEMPLATES  # noqa: E402
from name_sets import NAMES  # noqa: E402
from order_sets import IN_BINDINGS, IN_METHODS, IN_STEPS  # noqa: E402
from set_parts import *  # noqa: E402, F403
from shape_sets import LINKED  # noqa: E402

NAMES_AND_SIZES = [
    ("one GET", "ok", a_set()),
    ("an empty set", "NoRoute set", b""),
    # how many messages and enums
    ("10,000 messages", "ok", counted(lambda more: a_set(more=more), NAMED_MESSAGE, 9_999)),
    ("10,001 messages", "TooMany types", counted(lambda more: a_set(more=more), NAMED_MESSAGE, 10_000)),
    ("10,000 messages and enums of two names", "DoubleName p.", runs(a_set(more=EMPTY_MESSAGE * 5_000 + EMPTY_ENUM * 4_999), EMPTY_MESSAGE, EMPTY_ENUM)),
    ("10,001 messages and enums of two names", "TooMany types", runs(a_set(more=EMPTY_MESSAGE * 5_000 + EMPTY_ENUM * 5_000), EMPTY_MESSAGE, EMPTY_ENUM)),
    ("10,001 messages in two files", "TooMany types", runs(a_set(more=EMPTY_MESSAGE * 5_000, files=[other([b""] * 5_000)]), EMPTY_MESSAGE)),
    ("10,000 messages in a message", "TooMany types", runs(a_set(inner=EMPTY_NESTED * 10_000), EMPTY_NESTED)),
    ("10,000 enums in a message", "TooMany types", runs(a_set(inner=EMPTY_NESTED_ENUM * 10_000), EMPTY_NESTED_ENUM)),
    ("10,001 extensions are no types", "ok", runs(a_set(more=EMPTY_EXTENSION * 10_001), EMPTY_EXTENSION)),
    ("10,001 fields are no types", "BadField p.N.", runs(by_methods(method(), put(".p.N"), messages=[message("N", [b""] * 10_001)]), EMPTY_FIELD)),
    # how many bindings
    ("10,000 bindings", "ok", counted(lambda more: by_rule(rule("/a") + more), NUMBERED_GET, 9_999)),
    ("10,001 bindings of other routes", "TooMany bindings", counted(lambda more: by_rule(rule("/a") + more), NUMBERED_GET, 10_000)),
    ("10,000 bindings of one route", f"SameRoute {PATH} {PATH}", runs(by_rule(rule("/a", GET * 9_999)), GET)),
    ("10,001 bindings", "TooMany bindings", runs(by_rule(rule("/a", GET * 10_000)), GET)),
    ("10,000 bindings of two methods", "ok", counted(lambda more: by_methods(method(http=rule("/a")), put(http=rule("/b") + more)), NUMBERED_GET, 9_998)),
    ("10,000 bindings of one route and two methods", f"SameRoute {PATH} {PATH}", runs(by_methods(method(http=rule("/a", GET * 4_999)), put(http=rule("/a", GET * 4_999))), GET)),
    ("10,001 bindings of two methods", "TooMany bindings", runs(by_methods(method(http=rule("/a", GET * 4_999)), put(http=rule("/a", GET * 5_000))), GET)),
    ("10,000 bindings, most without a pattern", "NoPattern /p.S/Get", runs(by_rule(rule("/a", EMPTY_RULE * 9_999)), EMPTY_RULE)),
    ("10,001 bindings, most without a pattern", "TooMany bindings", runs(by_rule(rule("/a", EMPTY_RULE * 10_000)), EMPTY_RULE)),
    ("10,000 bindings, and one in an additional one", "NestedAdditional /p.S/Get", runs(by_rule(rule("/a", GET * 9_998 + also(rule("/a", GET)))), GET)),
    # how many methods
    ("64 methods", "ok", by_rule(custom("K") + kinds(63))),
    ("65 methods", "TooMany methods", by_rule(custom("K") + kinds(64))),
    ("64 methods, one of them twice", "ok", by_rule(custom("K0") + kinds(64))),
    ("GET as a pattern and as a custom kind", "ok", by_rule(rule("/a", also(custom("GET")) + kinds(63)))),
    ("GET as a pattern and get as a custom kind", "TooMany methods", by_rule(rule("/a", also(custom("get")) + kinds(63)))),
    ("the five patterns and 59 kinds", "ok", by_rule(b"".join(also(text(at, "/a")) for at in range(2, 7)) + custom("K0") + kinds(59))),
    ("the five patterns and 60 kinds", "TooMany methods", by_rule(b"".join(also(text(at, "/a")) for at in range(2, 7)) + custom("K0") + kinds(60))),
    ("the kind of all methods is the 64th", "ok", by_rule(custom("*") + kinds(63))),
    ("the kind of all methods is the 65th", "TooMany methods", by_rule(custom("*") + kinds(64))),
    ("64 methods and a rule without a pattern", "NoPattern /p.S/Get", by_rule(custom("K") + kinds(63) + EMPTY_RULE)),
    ("a kind that may not be is the 64th", "BadMethod /p.S/Get HEAD", by_rule(custom("HEAD") + kinds(63))),
    ("a kind that may not be is the 65th", "TooMany methods", by_rule(custom("HEAD") + kinds(64))),
    ("64 methods, and another in an additional rule of an additional one", f"NestedAdditional {PATH}", by_rule(custom("K") + kinds(62) + also(custom("K62", "/a") + also(custom("K63", "/a"))))),
    ("64 kinds of two methods", "ok", by_methods(method(http=custom("K0") + kinds(32)), put(http=custom("K32") + kinds(32, 32)))),
    ("65 kinds of two methods", "TooMany methods", by_methods(method(http=custom("K0") + kinds(32)), put(http=custom("K32") + kinds(33, 32)))),
    # types before bindings before methods
    ("10,001 messages and 10,001 bindings", "TooMany types", runs(by_rule(rule("/a", EMPTY_RULE * 10_000), more=EMPTY_MESSAGE * 10_000), EMPTY_MESSAGE, EMPTY_RULE)),
    ("10,001 messages and 65 methods", "TooMany types", runs(by_rule(custom("K") + kinds(64), more=EMPTY_MESSAGE * 10_000), EMPTY_MESSAGE)),
    ("10,001 bindings and 65 methods", "TooMany bindings", runs(by_rule(custom("K") + kinds(64) + EMPTY_RULE * 9_936), EMPTY_RULE)),
    # names of files
    ("two files of two names", "ok", a_set(files=[other([])])),
    ("two files of one name", "DoubleName a.proto", a_set(files=[other([], "a.proto")])),
    ("two files behind another of one name", "DoubleName b.proto", a_set(files=[other([]), other([])])),
    ("two files of no name", "DoubleName ", a_set(files=[other([], ""), other([], "")])),
    ("a file of a message's name", "ok", a_set(files=[other([], "p.M")])),
    ("a file of a service's name", "ok", a_set(files=[other([], "p.S")])),
    # full names
    ("two messages of one name", "DoubleName p.M", a_set(messages=[message("M", [])])),
    ("two messages of one name in two files", "DoubleName p.M", a_set(files=[other([message()], package="p")])),
    ("messages of one name in two packages", "ok", a_set(files=[other([message()])])),
    ("two messages of one name without a package", "DoubleName M", fileset(file(package=None, messages=[message(), message()], services=[service(methods=[method(request=".M", response=".M")])]))),
    ("names that differ by case", "ok", a_set(messages=[message("m", [])])),
    ("two nested messages of one name", "DoubleName p.M.N", a_set(inner=text(3, N) + text(3, N))),
    ("a nested message of a message's name", "ok", a_set(messages=[N], inner=text(3, N))),
    ("a nested message named as the one around it", "ok", a_set(inner=text(3, message("M", [])))),
    ("a message named as a nested one in full", "DoubleName p.M.N", a_set(messages=[message("M.N", [])], inner=text(3, N))),
    ("a package that is a message's full name", "DoubleName p.M.N", a_set(inner=text(3, N), files=[other([N], package="p.M")])),
    ("a message named as an enum", "DoubleName p.M", a_set(more=text(5, enum("M", ("A", 0))))),
    ("two enums of one name", "DoubleName p.E", a_set(more=text(5, E) + text(5, E))),
    ("two enums of one name in a message", "DoubleName p.M.E", a_set(inner=text(4, E) + text(4, E))),
    ("two enums of one name in a nested message", "DoubleName p.M.N.E", a_set(inner=text(3, message("N", [], text(4, E) + text(4, E))))),
    ("an enum and a message of one name in a message", "DoubleName p.M.N", a_set(inner=text(3, N) + text(4, enum("N", ("A", 0))))),
    ("an enum of one name in a message and a file", "ok", a_set(inner=text(4, E), more=text(5, E))),
    ("two services of one name", "DoubleName p.S", a_set(services=[S, service("S", [])])),
    ("a service named as a message", "DoubleName p.M", a_set(services=[S, service("M", [])])),
    ("a service named as a nested message", "DoubleName p.M.N", a_set(inner=text(3, N), services=[S, service("M.N", [])])),
    ("a service named as an enum in a message", "DoubleName p.M.E", a_set(inner=text(4, E), services=[S, service("M.E", [])])),
    ("a service named as an enum in a nested message", "DoubleName p.M.N.E", a_set(inner=text(3, message("N", [], text(4, E))), services=[S, service("M.N.E", [])])),
    ("a service named as a nested message without the one around it", "ok", a_set(inner=text(3, N), services=[S, service("N", [])])),
    ("a service of a file's name", "ok", a_set(files=[file("b.proto", "a", [], [service("proto", [])])])),
    ("a service named as a package", "ok", a_set(files=[file("b.proto", None, [], [service("p", [])])])),
    ("two methods of one name", "ok", by_methods(method(), method(http=rule("/b/{id}")))),
    ("two extensions of one name", "ok", a_set(more=text(7, extension(".q.N")) * 2)),
    ("an extension named as a message", "ok", a_set(messages=[message("y", [])], more=text(7, extension(".q.N")))),
    ("values of two enums of one name", "ok", a_set(more=text(5, E) + text(5, enum("F", ("A", 0))))),
    ("a value named as a message", "ok", a_set(more=text(5, enum("E", ("M", 0))))),
    # the order of names
    ("a file's name before its messages'", "DoubleName a.proto", a_set(files=[other([K, K], "a.proto")])),
    ("the messages of a file before the name of the next", "DoubleName p.K", a_set(messages=[K, K], files=[other([], "a.proto")])),
    ("a message's name before those in it", "DoubleName q.K", a_set(files=[other([K, message("K", [], text(3, N) * 2)])])),
    ("names in a message before those of the next", "DoubleName p.M.N", a_set(inner=text(3, N) * 2, messages=[K, K])),
    ("enums in a message before the next message", "DoubleName p.M.E", a_set(inner=text(4, E) * 2, messages=[K, K])),
    ("nested messages before the enums beside them", "DoubleName p.M.N", a_set(inner=text(4, E) * 2 + text(3, N) * 2)),
    ("enums in a nested message before the next one", "DoubleName p.M.N.E", a_set(inner=text(3, message("N", [], text(4, E) * 2)) + text(3, K) * 2)),
    ("messages before the enums of the file", "DoubleName p.K", a_set(more=text(5, E) * 2 + text(4, K) * 2)),
    ("names in messages before the enums of the file", "DoubleName p.M.N", a_set(inner=text(3, N) * 2, more=text(5, E) * 2)),
    ("enums before services", "DoubleName p.E", a_set(services=[S, S], more=text(5, E) * 2)),
    ("services before the next file's name", "DoubleName p.S", a_set(services=[S, S], files=[other([], "a.proto")])),
    ("the earlier of two names", "DoubleName p.K", a_set(messages=[K, L, K, L])),
    ("the name that is first seen twice", "DoubleName p.L", a_set(messages=[K, L, L, K])),
    # the size, names, and whether there is a route
    ("65 methods and a name twice", "TooMany methods", by_rule(custom("K") + kinds(64), messages=[K, K])),
    ("10,001 messages and no route", "TooMany types", runs(fileset(file(messages=[b""] * 10_001, services=[])), EMPTY_MESSAGE)),
    ("a name twice and no route", "DoubleName a.proto", fileset(other([], "a.proto"), other([], "a.proto"))),
    ("no service", "NoRoute set", a_set(services=[])),
    ("no method", "NoRoute set", by_methods()),
    ("no annotation", "NoRoute set", by_methods(method(http=b""))),
    ("options without an annotation", "NoRoute set", by_methods(method(http=b"", more=text(4, num(33, 1))))),
    ("no annotation, and nothing else is right", "NoRoute set", by_methods(method("Get", ".p.N", ".p.N", http=b""), fields=[x(FLOAT)], syntax="proto2")),
    ("an annotation of the second service", "ok", a_set(services=[service("R", [method(http=b"")]), S])),
    ("an annotation of the second file", "ok", fileset(other([]), file())),
    ("an annotation of the second method", "ok", by_methods(put(http=b""), method())),
]

BAD_KINDS = ["HEAD", "CONNECT", "a b", " GET", "a/b", "a:b", "(", "a\"", "a\u007f", "\u00e9", "A" * 33]
GOOD_KINDS = ["*", "**", "head", "Head", "HEADS", "connect", "GET", "OPTIONS", "0", "A" * 32]

METHODS_AND_RULES = [
    # input and output
    ("an unknown input", "UnknownType /p.S/Get .p.N", by_methods(method(request=".p.N"))),
    ("an unknown output", "UnknownType /p.S/Get .p.N", by_methods(method(response=".p.N"))),
    ("input before output", "UnknownType /p.S/Get .p.N", by_methods(method(request=".p.N", response=".p.O"))),
    ("an input without its dot", "UnknownType /p.S/Get p.M", by_methods(method(request="p.M"))),
    ("an output without its package", "UnknownType /p.S/Get .M", by_methods(method(response=".M"))),
    ("no input", "UnknownType /p.S/Get", by_methods(method(request=""))),
    ("an input of another case", "UnknownType /p.S/Get .p.m", by_methods(method(request=".p.m"))),
    ("an input that is an enum", "UnknownType /p.S/Get .p.E", by_methods(method(request=".p.E"), more=text(5, E))),
    ("an output that is a service", "UnknownType /p.S/Get .p.S", by_methods(method(response=".p.S"))),
    ("a nested input", "ok", by_methods(method(request=".p.M.N"), inner=text(3, message("N")))),
    ("a nested input without the message around it", "UnknownType /p.S/Get .p.N", by_methods(method(request=".p.N"), inner=text(3, message("N")))),
    ("an input of a later file", "ok", by_methods(method(request=".q.M"), files=[other([message()])])),
    ("no package", "UnknownType /S/Get .N", fileset(file(package=None, services=[service(methods=[method(request=".N")])]))),
    ("no package, and known types", "ok", fileset(file(package=None, services=[service(methods=[method(request=".M", response=".M")])]))),
    ("a package of two names", "UnknownType /a.b.S/Get .p.M", fileset(file(package="a.b"))),
    ("a method without an annotation is free", "ok", by_methods(method("Put", ".p.N", ".p.O", b""), method())),
    # patterns
    ("an empty rule", "NoPattern /p.S/Get", by_methods(empty_rule())),
    ("a rule with a body alone", "NoPattern /p.S/Get", by_rule(text(7, "*"))),
    ("an additional rule without a pattern", "NoPattern /p.S/Get", by_rule(rule(more=EMPTY_RULE))),
    ("a pattern with an empty template", f"TemplateAt {PATH} 0", by_rule(rule(""))),
    ("a rule whose additional one has one", "NestedAdditional /p.S/Get", by_rule(rule(more=also(rule(more=GET))))),
    ("a rule whose second additional one has one", "NestedAdditional /p.S/Get", by_rule(rule(more=GET + also(rule(more=GET))))),
    *((f"the kind {kind!r}", f"BadMethod /p.S/Get {kind}", by_rule(custom(kind))) for kind in BAD_KINDS),
    ("an empty kind", "BadMethod /p.S/Get", by_rule(custom(""))),
    ("a custom pattern that says nothing", "BadMethod /p.S/Get", by_rule(text(8, b""))),
    *((f"the kind {kind!r}", "ok", by_rule(custom(kind))) for kind in GOOD_KINDS),
    ("a kind of each sign of a token", "ok", by_rule(custom("!#$%&'*+-.^_`|~"))),
    ("an additional kind that may not be", "BadMethod /p.S/Get HEAD", by_rule(rule(more=also(custom("HEAD"))))),
    ("a GET behind a custom kind", "ok", by_rule(custom("HEAD") + rule())),
    ("a custom kind behind a GET", "BadMethod /p.S/Get HEAD", by_rule(rule() + custom("HEAD"))),
    # two faults of a method
    ("the output before the rule", "UnknownType /p.S/Get .p.N", by_methods(method(response=".p.N", http=custom("HEAD")))),
    ("the input before the rule", "UnknownType /p.S/Get .p.N", by_methods(method(request=".p.N", http=text(7, "*")))),
    ("no pattern before an additional kind", "NoPattern /p.S/Get", by_rule(also(custom("HEAD")) + text(7, "*"))),
    ("a kind before an additional rule without a pattern", "BadMethod /p.S/Get HEAD", by_rule(EMPTY_RULE + custom("HEAD"))),
    ("no pattern before an additional rule of an additional one", "NoPattern /p.S/Get", by_rule(also(rule(more=GET)))),
    ("a kind before an additional rule of an additional one", "BadMethod /p.S/Get HEAD", by_rule(custom("HEAD") + also(rule(more=GET)))),
    ("an additional rule of an additional one before its pattern", "NestedAdditional /p.S/Get", by_rule(rule(more=also(GET)))),
    ("an additional rule of an additional one before its kind", "NestedAdditional /p.S/Get", by_rule(rule(more=also(custom("HEAD") + GET)))),
    ("the first additional rule's pattern before the second's rules", "NoPattern /p.S/Get", by_rule(rule(more=EMPTY_RULE + also(rule(more=GET))))),
    ("the first additional rule's rules before the second's pattern", "NestedAdditional /p.S/Get", by_rule(rule(more=also(rule(more=GET)) + EMPTY_RULE))),
    ("the first additional kind before the second", "BadMethod /p.S/Get HEAD", by_rule(rule(more=also(custom("HEAD")) + also(custom("CONNECT"))))),
    # two methods
    ("the first method's rule before the second's input", "NoPattern /p.S/Get", by_methods(empty_rule(), put(".p.N"))),
    ("the first method's input before the second's rule", "UnknownType /p.S/Get .p.N", by_methods(method(request=".p.N"), put(http=text(7, "*")))),
    ("the second method", "UnknownType /p.S/Put .p.N", by_methods(method(), put(".p.N"))),
    ("the second method's kind", "BadMethod /p.S/Put HEAD", by_methods(method(), put(http=custom("HEAD")))),
    ("methods as declared, and not by name", "NoPattern /p.S/Put", by_methods(put(http=text(7, "*")), method(request=".p.N"))),
    ("the first service", "UnknownType /p.T/Put .p.N", a_set(services=[service("T", [put(".p.N")]), service("S", [method(response=".p.O")])])),
    ("the first file", "UnknownType /p.S/Get .p.N", fileset(file(services=[service(methods=[method(request=".p.N")])]), file("b.proto", "a", [], [service(methods=[method(response=".p.O")])]))),
    ("a method of the second file", "UnknownType /a.S/Get .p.O", a_set(files=[file("b.proto", "a", [], [service(methods=[method(response=".p.O")])])])),
    # names before methods, methods before messages
    ("a name twice before an unknown input", "DoubleName a.proto", by_methods(method(request=".p.N"), files=[other([], "a.proto")])),
    ("65 methods before an unknown input", "TooMany methods", by_methods(method(request=".p.N", http=custom("K") + kinds(64)))),
    ("an unknown output before a float", "UnknownType /p.S/Get .p.N", by_methods(method(response=".p.N"), fields=[x(FLOAT)])),
    ("the second method's output before the first one's float", "UnknownType /p.S/Put .p.N", by_methods(method(), put(response=".p.N"), fields=[x(FLOAT)])),
    ("the second method's kind before proto2", "BadMethod /p.S/Put HEAD", by_methods(method(), put(http=custom("HEAD")), syntax="proto2")),
    ("a name twice before a float", "DoubleName p.K", a_set([x(FLOAT)], [K, K])),
    ("65 methods before a float", "TooMany methods", by_rule(custom("K") + kinds(64), fields=[x(FLOAT)])),
    # methods without a fault
    ("two methods", "ok", by_methods(method(), put(http=rule("/b/{id}")))),
    ("a POST", "ok", by_rule(text(4, "/v1/items/{id}"))),
    ("an additional GET", "ok", by_rule(rule(more=GET))),
    ("a client that streams", "ok", by_methods(method(more=num(5, 1)))),
    ("a server that streams", "ok", by_methods(method(more=num(6, 1)))),
    ("both sides stream", "ok", by_methods(method(http=rule("/v1/{id}", text(7, "*")), more=num(5, 1) + num(6, 1)))),
]

MESSAGES_AND_FIELDS = [
    # syntax
    ("no syntax", "Proto2 p.M", a_set(syntax=None)),
    ("an empty syntax", "Proto2 p.M", a_set(syntax="")),
    ("syntax proto2", "Proto2 p.M", a_set(syntax="proto2")),
    ("syntax editions", "Edition p.M", a_set(syntax="editions", more=num(14, 1000))),
    ("syntax Proto3", "Edition p.M", a_set(syntax="Proto3")),
    ("syntax proto3 with an edition", "ok", a_set(more=num(14, 1000))),
    ("a file of proto2 that nothing reaches", "ok", a_set(files=[other([FLOATS], syntax="proto2")])),
    ("a file of proto2 that a field reaches", "Proto2 q.N", reach(".q.N", other([N], syntax="proto2"))),
    ("a file of editions that a field reaches", "Edition q.N", reach(".q.N", other([N], syntax="editions"))),
    ("a service in a file of proto2", "ok", fileset(other([message()], package="p"), file(messages=[], syntax="proto2"))),
    ("a message that is nested in one of proto2", "Proto2 q.N.K", reach(".q.N.K", other([message("N", [], text(3, K))], syntax="proto2"))),
    ("an enum in a file of proto2", "ok", a_set([x(ENUM, ".q.E")], files=[other([], syntax="proto2", more=text(5, E))])),
    # types that are never served
    ("Any", f"AnyType {P}.Any {PATH}", known("Any", of("type_url", 1, STRING), of("value", 2, BYTES))),
    ("Any without fields", f"AnyType {P}.Any {PATH}", known("Any")),
    ("Any of another package", "ok", reach(".q.Any", other([message("Any", [])]))),
    ("Any in a message of the package google", f"AnyType {P}.Any {PATH}", reach(f".{P}.Any", other([message("protobuf", [], text(3, message("Any", [])))], package="google"))),
    ("Any that nothing reaches", "ok", a_set(files=[other([message("Any", [])], package=P)])),
    ("Any of a method without an annotation", "ok", by_methods(method(), put(f".{P}.Any", http=b""), files=[other([message("Any", [])], package=P)])),
    ("Any as the input", f"AnyType {P}.Any {PATH}", by_methods(method(request=f".{P}.Any"), files=[other([message("Any", [])], package=P)])),
    ("Any as the second method's output", f"AnyType {P}.Any /p.S/Put", by_methods(method(), put(response=f".{P}.Any"), files=[other([message("Any", [])], package=P)])),
    ("a list of Any", f"AnyType {P}.Any {PATH}", reach(f".{P}.Any", other([message("Any", [])], package=P), label=3)),
    ("Any in a oneof", f"AnyType {P}.Any {PATH}", a_set([x(MESSAGE, f".{P}.Any", more=FIRST_ONEOF)], inner=ONEOF, files=[other([message("Any", [])], package=P)])),
    ("Struct", f"StructType {P}.Struct {PATH}", known("Struct")),
    ("Value", f"StructType {P}.Value {PATH}", known("Value")),
    ("ListValue", f"StructType {P}.ListValue {PATH}", known("ListValue", of("values", 1, MESSAGE, f".{P}.Value", 3))),
    ("Struct of another package", "ok", reach(".q.Struct", other([message("Struct", [])]))),
    # extensions
    ("an extension in the file", "Extension p.M", a_set(more=text(7, extension(".p.M")))),
    ("an extension in a message", "Extension p.M", a_set(messages=[message("O", [], text(6, extension(".p.M")))])),
    ("an extension in a nested message", "Extension p.M", a_set(inner=text(3, message("O", [], text(6, extension(".p.M")))))),
    ("an extension in another file", "Extension p.M", a_set(files=[other([], syntax="proto2", more=text(7, extension(".p.M")))])),
    ("an extension without its dot", "ok", a_set(more=text(7, extension("p.M")))),
    ("an extension of what is not declared", "ok", a_set(more=text(7, extension(".p.N")))),
    ("an extension of a message that nothing reaches", "ok", a_set(messages=[N], more=text(7, extension(".p.N", FLOAT)))),
    ("an extension of a message that a field reaches", "Extension p.N", a_set([x(MESSAGE, ".p.N")], [N], more=text(7, extension(".p.N")))),
    ("an extension of an enum's name", "ok", a_set([x(ENUM, ".p.E")], more=text(5, E) + text(7, extension(".p.E")))),
    ("an extension's type is not reached", "ok", a_set(messages=[FLOATS], more=text(7, of("y", 100, MESSAGE, ".p.N", more=text(2, ".p.N"))))),
    ("a message set", "Extension p.M", a_set(inner=MESSAGE_SET)),
    ("no message set, said", "ok", a_set(inner=text(7, num(1, 0)))),
    ("a message set that nothing reaches", "ok", a_set(messages=[message("N", [], MESSAGE_SET)])),
    ("a map's entry that is no field's type", "ok", a_set(inner=MAP_ENTRY)),
    # well-known types
    ("Timestamp", "ok", known("Timestamp", SECONDS, NANOS)),
    ("Duration", "ok", known("Duration", SECONDS, NANOS)),
    ("FieldMask", "ok", known("FieldMask", of("paths", 1, STRING, label=3))),
    *((name, "ok", known(name, wrapped(kind))) for name, kind in WRAPPERS.items()),
    ("FloatValue", f"Float {P}.FloatValue.value {PATH}", known("FloatValue", wrapped(FLOAT))),
    ("DoubleValue", f"Float {P}.DoubleValue.value {PATH}", known("DoubleValue", wrapped(DOUBLE))),
    ("FloatValue without fields", "ok", known("FloatValue")),
    ("Timestamp without fields", f"KnownShape {P}.Timestamp", known("Timestamp")),
    ("Timestamp without nanos", f"KnownShape {P}.Timestamp", known("Timestamp", SECONDS)),
    ("Timestamp with a third field", f"KnownShape {P}.Timestamp", known("Timestamp", SECONDS, NANOS, x(number=3))),
    ("Timestamp with seconds twice", f"KnownShape {P}.Timestamp", known("Timestamp", SECONDS, SECONDS)),
    ("Timestamp, the nanos first", "ok", known("Timestamp", NANOS, SECONDS)),
    ("Timestamp with seconds of another number", f"KnownShape {P}.Timestamp", known("Timestamp", of("seconds", 3, INT64), NANOS)),
    ("Timestamp with seconds of another name", f"KnownShape {P}.Timestamp", known("Timestamp", of("second", 1, INT64), NANOS)),
    ("Timestamp with seconds of another type", f"KnownShape {P}.Timestamp", known("Timestamp", of("seconds", 1, SINT64), NANOS)),
    ("Timestamp with lists", f"KnownShape {P}.Timestamp", known("Timestamp", of("seconds", 1, INT64, label=3), NANOS)),
    ("Timestamp with nanos of another type", f"KnownShape {P}.Timestamp", known("Timestamp", SECONDS, of("nanos", 2, INT64))),
    ("Timestamp with optional nanos", f"KnownShape {P}.Timestamp", known("Timestamp", SECONDS, of("nanos", 2, INT32, more=OPTIONAL))),
    ("Timestamp with seconds in a oneof", f"KnownShape {P}.Timestamp", known("Timestamp", of("seconds", 1, INT64, more=FIRST_ONEOF), NANOS, inner=ONEOF)),
    ("Timestamp with another JSON name", "ok", known("Timestamp", of("seconds", 1, INT64, json="s"), NANOS)),
    ("Timestamp with a required field", f"BadField {P}.Timestamp.seconds", known("Timestamp", of("seconds", 1, INT64, label=2), NANOS)),
    ("Timestamp with a field without a label", f"BadField {P}.Timestamp.nanos", known("Timestamp", SECONDS, of("nanos", 2, INT32, label=None))),
    ("Duration with nanos of another number", f"KnownShape {P}.Duration", known("Duration", SECONDS, of("nanos", 3, INT32))),
    ("FieldMask without a list", f"KnownShape {P}.FieldMask", known("FieldMask", of("paths", 1, STRING))),
    ("FieldMask with a required field", f"KnownShape {P}.FieldMask", known("FieldMask", of("paths", 1, STRING, label=2))),
    ("FieldMask of bytes", f"KnownShape {P}.FieldMask", known("FieldMask", of("paths", 1, BYTES, label=3))),
    ("FieldMask with path", f"KnownShape {P}.FieldMask", known("FieldMask", of("path", 1, STRING, label=3))),
    *((f"{name} of another type", f"KnownShape {P}.{name}", known(name, wrapped(FIXED64))) for name in WRAPPERS),
    ("BoolValue without fields", f"KnownShape {P}.BoolValue", known("BoolValue")),
    ("BoolValue with number 2", f"KnownShape {P}.BoolValue", known("BoolValue", value(BOOL))),
    ("BoolValue with two fields", f"KnownShape {P}.BoolValue", known("BoolValue", wrapped(BOOL), x())),
    ("BoolValue with a list", f"KnownShape {P}.BoolValue", known("BoolValue", wrapped(BOOL, label=3))),
    ("Timestamp of another shape that nothing reaches", "ok", a_set(files=[other([message("Timestamp", [])], package=P)])),
    ("Timestamp of another shape in another package", "ok", reach(".q.Timestamp", other([message("Timestamp", [])]))),
    ("Timestamp of another shape in a message of the package google", f"KnownShape {P}.Timestamp", reach(f".{P}.Timestamp", other([message("protobuf", [], text(3, message("Timestamp", [])))], package="google"))),
    # two faults of a message itself
    ("proto2 before Any", f"Proto2 {P}.Any", known("Any", syntax="proto2")),
    ("an edition before Any", f"Edition {P}.Any", known("Any", syntax="editions")),
    ("proto2 before an extension", "Proto2 p.M", a_set(syntax=None, more=text(7, extension(".p.M")))),
    ("Any before its extension", f"AnyType {P}.Any {PATH}", known("Any", more=text(7, extension(f".{P}.Any")))),
    ("Struct before its message set", f"StructType {P}.Struct {PATH}", known("Struct", inner=MESSAGE_SET)),
    ("an extension before a shape", f"Extension {P}.Timestamp", known("Timestamp", more=text(7, extension(f".{P}.Timestamp")))),
    ("an edition before a shape", f"Edition {P}.Timestamp", known("Timestamp", syntax="editions")),
    ("a shape before a field", f"KnownShape {P}.Timestamp", known("Timestamp", of("seconds", 0, FLOAT), NANOS)),
    ("an extension before a float", "Extension p.M", a_set([x(FLOAT)], more=text(7, extension(".p.M")))),
    ("proto2 before a group", "Proto2 p.M", a_set([x(GROUP)], syntax="proto2")),
    # numbers, labels, types and oneofs of fields
    ("field number 0", "BadField p.M.x", with_x(number=0)),
    ("no field number", "BadField p.M.x", with_x(number=None)),
    ("field number -1", "BadField p.M.x", with_x(number=-1)),
    ("field number 1 again", "BadField p.M.x", with_x(number=1)),
    ("field number 2", "ok", with_x(number=2)),
    ("field number 19,000", "ok", with_x(number=19_000)),
    ("field number 536,870,911", "ok", with_x(number=536_870_911)),
    ("field number 536,870,912", "BadField p.M.x", with_x(number=536_870_912)),
    ("field number 2,147,483,647", "BadField p.M.x", with_x(number=2_147_483_647)),
    ("a number of a field that is not the one before", "BadField p.M.z", a_set([x(), of("y", 3, STRING), of("z", 2, STRING)])),
    ("one number in two messages", "ok", a_set([x(MESSAGE, ".p.N")], [message("N", [x()])])),
    ("no label", "BadField p.M.x", with_x(label=None)),
    ("label 0", "BadField p.M.x", with_x(label=0)),
    ("label 2", "BadField p.M.x", with_x(label=2)),
    ("label 3", "ok", with_x(label=3)),
    ("label 4", "BadField p.M.x", with_x(label=4)),
    ("label -1", "BadField p.M.x", with_x(label=-1)),
    ("no type", "BadField p.M.x", with_x(None)),
    ("type 0", "BadField p.M.x", with_x(0)),
    ("type 19", "BadField p.M.x", with_x(19)),
    ("type -1", "BadField p.M.x", with_x(-1)),
    ("each type of a number, a bool, a string and bytes", "ok", a_set([of(f"x{kind}", kind, kind) for kind in [*INTEGERS, BOOL, BYTES]])),
    ("lists of each type of a number, a bool, a string and bytes", "ok", a_set([of(f"x{kind}", kind, kind, label=3) for kind in [*INTEGERS, BOOL, BYTES]])),
    ("a member of a oneof", "ok", with_x(more=FIRST_ONEOF)),
    ("an optional field in its oneof", "ok", with_x(more=FIRST_ONEOF + OPTIONAL)),
    ("an optional field in no oneof", "ok", with_x(more=OPTIONAL)),
    ("a oneof's index past the last", "BadField p.M.x", with_x(more=num(9, 1))),
    ("the index of the second of two oneofs", "ok", a_set([x(more=num(9, 1))], inner=ONEOF + text(8, text(1, "u")))),
    ("a oneof's index of -1", "BadField p.M.x", with_x(more=num(9, -1))),
    ("a oneof's index without oneofs", "BadField p.M.x", a_set([x(more=FIRST_ONEOF)])),
    ("a list in a oneof", "BadField p.M.x", with_x(label=3, more=FIRST_ONEOF)),
    ("an optional list", "BadField p.M.x", with_x(label=3, more=OPTIONAL)),
    ("a list, said not to be optional", "ok", with_x(label=3, more=num(17, 0))),
    # types of fields
    ("a group", "Group p.M.x", with_x(GROUP, ".p.M")),
    ("groups of an unknown type", "Group p.M.x", with_x(GROUP, ".p.N", label=3)),
    ("a double", f"Float p.M.x {PATH}", with_x(DOUBLE)),
    ("a float", f"Float p.M.x {PATH}", with_x(FLOAT)),
    ("floats", f"Float p.M.x {PATH}", with_x(FLOAT, label=3)),
    ("an optional double", f"Float p.M.x {PATH}", with_x(DOUBLE, more=OPTIONAL)),
    ("a float in a oneof", f"Float p.M.x {PATH}", with_x(FLOAT, more=FIRST_ONEOF)),
    ("a message", "ok", with_x(MESSAGE, ".p.M")),
    ("messages", "ok", with_x(MESSAGE, ".p.M", label=3)),
    ("an enum", "ok", with_x(ENUM, ".p.E")),
    ("enums", "ok", with_x(ENUM, ".p.E", label=3)),
    ("an unknown message", "UnknownType p.M.x .p.N", with_x(MESSAGE, ".p.N")),
    ("a message without its dot", "UnknownType p.M.x p.M", with_x(MESSAGE, "p.M")),
    ("a message that is an enum", "UnknownType p.M.x .p.E", with_x(MESSAGE, ".p.E")),
    ("a message without a name", "UnknownType p.M.x", with_x(MESSAGE)),
    ("an unknown enum", "UnknownType p.M.x .p.F", with_x(ENUM, ".p.F")),
    ("an enum without its dot", "UnknownType p.M.x p.E", with_x(ENUM, "p.E")),
    ("an enum that is a message", "UnknownType p.M.x .p.M", with_x(ENUM, ".p.M")),
    ("a string with an unknown type's name", "ok", with_x(STRING, ".p.N")),
    # two faults of one field
    ("a number before a group", "BadField p.M.x", with_x(GROUP, number=0)),
    ("a label before a float", "BadField p.M.x", with_x(FLOAT, label=2)),
    ("a number that came before, before an unknown type", "BadField p.M.x", with_x(MESSAGE, ".p.N", number=1)),
    ("a oneof's index before an unknown enum", "BadField p.M.x", with_x(ENUM, ".p.F", more=num(9, 1))),
    # two fields, and two messages
    ("a float before an unknown type", f"Float p.M.x {PATH}", a_set([x(FLOAT), of("y", 3, MESSAGE, ".p.N")])),
    ("an unknown type before a float", "UnknownType p.M.x .p.N", a_set([x(MESSAGE, ".p.N"), of("y", 3, FLOAT)])),
    ("fields as declared, and not by number", f"Float p.M.x {PATH}", a_set([x(FLOAT, number=5), of("y", 3, MESSAGE, ".p.N")])),
    ("a field before a message that an earlier one reaches", "UnknownType p.M.y .p.O", a_set([x(MESSAGE, ".p.N"), of("y", 3, MESSAGE, ".p.O")], [FLOATS])),
    ("a message that nothing reaches", "ok", a_set(messages=[FLOATS])),
    ("a nested message that nothing reaches", "ok", a_set(inner=text(3, FLOATS))),
    ("a float in another file that nothing reaches", "ok", a_set(files=[other([FLOATS])])),
    ("the input of a method without an annotation", "ok", by_methods(method(), put(".p.N", http=b""), messages=[FLOATS])),
    ("a message that a field reaches", f"Float p.N.f {PATH}", a_set([x(MESSAGE, ".p.N")], [FLOATS])),
    ("a message that a list reaches", f"Float p.N.f {PATH}", a_set([x(MESSAGE, ".p.N", label=3)], [FLOATS])),
    ("a nested message that a field reaches", f"Float p.M.N.f {PATH}", a_set([x(MESSAGE, ".p.M.N")], inner=text(3, FLOATS))),
    ("a message of another file that a field reaches", f"Float q.N.f {PATH}", reach(".q.N", other([FLOATS]))),
    ("a message without a package", f"Float N.f {PATH}", reach(".N", other([FLOATS], package=None))),
    ("the output", f"Float p.N.f {PATH}", by_methods(method(response=".p.N"), messages=[FLOATS])),
    ("a message that leads back to itself", "ok", a_set([x(MESSAGE, ".p.N")], [message("N", [x(MESSAGE, ".p.M")])])),
    ("the input before the output", f"Float p.N.f {PATH}", by_methods(method(request=".p.N", response=".p.O"), messages=[message("O", [x(GROUP)]), FLOATS])),
    ("the output before what the input reaches", "Group p.O.x", by_methods(method(response=".p.O"), fields=[x(MESSAGE, ".p.N")], messages=[message("O", [x(GROUP)]), FLOATS])),
    ("the second method's input before what the first's reaches", "Group p.O.x", by_methods(method(), put(".p.O"), fields=[x(MESSAGE, ".p.N")], messages=[message("O", [x(GROUP)]), FLOATS])),
    ("the first method's output before the second's input", f"Float p.N.f {PATH}", by_methods(method(response=".p.N"), put(".p.O"), messages=[message("O", [x(GROUP)]), FLOATS])),
    ("a later field's message before what an earlier one's reaches", "Group p.O.x", a_set([x(MESSAGE, ".p.K"), of("y", 3, MESSAGE, ".p.O")], [FLOATS, message("K", [x(MESSAGE, ".p.N")]), message("O", [x(GROUP)])])),
    ("an earlier field's message before a later one's", f"Float p.N.f {PATH}", a_set([x(MESSAGE, ".p.N"), of("y", 3, MESSAGE, ".p.O")], [message("O", [x(GROUP)]), FLOATS])),
    ("messages by the queue, and not as declared", "Group p.O.x", a_set([x(MESSAGE, ".p.O"), of("y", 3, MESSAGE, ".p.N")], [FLOATS, message("O", [x(GROUP)])])),
    # the method through which a message joined
    ("a message that both methods' messages reach", f"Float p.N.f {PATH}", by_methods(method(), put(".p.K"), fields=[x(MESSAGE, ".p.N")], messages=[message("K", [x(MESSAGE, ".p.N")]), FLOATS])),
    ("a message that the second method's message reaches", "Float p.N.f /p.S/Put", by_methods(method(), put(".p.K"), messages=[message("K", [x(MESSAGE, ".p.N")]), FLOATS])),
    ("the second method's input, which the first one's message reaches", "Float p.N.f /p.S/Put", by_methods(method(), put(".p.N"), fields=[x(MESSAGE, ".p.N")], messages=[FLOATS])),
    ("the input of both methods", f"Float p.N.f {PATH}", by_methods(method(request=".p.N"), put(".p.N"), messages=[FLOATS])),
    ("the second method's output, which the third one takes", "Float p.N.f /p.S/Put", by_methods(method(), put(response=".p.N"), method("Del", ".p.N"), messages=[FLOATS])),
    ("a message that an earlier place in the queue reaches", f"Float p.N.f {PATH}", by_methods(method(response=".p.K"), put(".p.L"), messages=[message("K", [x(MESSAGE, ".p.N")]), message("L", [x(MESSAGE, ".p.N")]), FLOATS])),
    ("the nearer of two ways", "Float p.N.f /p.S/Put", by_methods(method(), put(".p.L"), fields=[x(MESSAGE, ".p.K")], messages=[message("K", [x(MESSAGE, ".p.N")]), message("L", [x(MESSAGE, ".p.N")]), FLOATS])),
]


ENUMS_MAPS_AND_KEYS = [
    # enums
    ("an enum without values", "BadEnum p.E", enum_set()),
    ("an enum with the number 0", "ok", enum_set(("A", 0))),
    ("a number that is absent", "ok", a_set([x(ENUM, ".p.E")], more=text(5, text(1, "E") + text(2, text(1, "A"))))),
    ("a first number of 1", "BadEnum p.E", enum_set(("A", 1), ("B", 0))),
    ("a first number of -1", "BadEnum p.E", enum_set(("A", -1))),
    ("a later number below 0", "ok", enum_set(("A", 0), ("B", -1))),
    ("two names of one number", "ok", enum_set(("A", 0), ("B", 0))),
    ("a name twice", "BadEnum p.E", enum_set(("A", 0), ("B", 1), ("A", 2))),
    ("a name and a number twice", "BadEnum p.E", enum_set(("A", 0), ("A", 0))),
    ("names that differ by case", "ok", enum_set(("A", 0), ("a", 1))),
    ("an enum that no field names", "ok", a_set(more=text(5, BAD_ENUM))),
    ("an enum of a message that nothing reaches", "ok", a_set(messages=[message("N", [x(ENUM, ".p.E")])], more=text(5, BAD_ENUM))),
    ("a nested enum", "BadEnum p.M.E", a_set([x(ENUM, ".p.M.E")], inner=text(4, BAD_ENUM))),
    ("an enum of another file", "BadEnum q.E", a_set([x(ENUM, ".q.E")], files=[other([], more=text(5, BAD_ENUM))])),
    ("a list of an enum", "BadEnum p.E", a_set([x(ENUM, ".p.E", label=3)], more=text(5, BAD_ENUM))),
    ("an enum in a oneof", "BadEnum p.E", a_set([x(ENUM, ".p.E", more=FIRST_ONEOF)], inner=ONEOF, more=text(5, BAD_ENUM))),
    ("NullValue", f"StructType p.M.x {PATH}", a_set([x(ENUM, f".{P}.NullValue")], files=[NULL_VALUE])),
    ("NullValue of another package", "ok", a_set([x(ENUM, ".p.NullValue")], more=text(5, enum("NullValue", ("A", 0))))),
    ("NullValue that no field names", "ok", a_set(files=[NULL_VALUE])),
    ("NullValue before its values", f"StructType p.M.x {PATH}", a_set([x(ENUM, f".{P}.NullValue")], files=[other([], package=P, more=text(5, enum("NullValue")))])),
    ("NullValue that is not declared", f"UnknownType p.M.x .{P}.NullValue", a_set([x(ENUM, f".{P}.NullValue")])),
    ("a field's label before its enum", "BadField p.M.x", a_set([x(ENUM, ".p.E", label=2)], more=text(5, BAD_ENUM))),
    ("an enum before the next field", "BadEnum p.E", a_set([x(ENUM, ".p.E"), of("y", 3, FLOAT)], more=text(5, BAD_ENUM))),
    ("a field before the next one's enum", f"Float p.M.x {PATH}", a_set([x(FLOAT), of("y", 3, ENUM, ".p.E")], more=text(5, BAD_ENUM))),
    ("the enum of the earlier field", "BadEnum p.F", a_set([x(ENUM, ".p.F"), of("y", 3, ENUM, ".p.E")], more=text(5, BAD_ENUM) + text(5, enum("F")))),
    # entries of maps
    ("a map", "ok", map_of(*TEXT_TO_INT)),
    ("a map, the value first", "ok", map_of(value(), key())),
    *((f"a map whose keys have type {kind}", "ok", map_of(key(kind), value())) for kind in [*INTEGERS, BOOL, STRING]),
    *((f"a map whose keys have type {kind}", "BadField p.M.x", map_of(key(kind), value())) for kind in [None, 0, DOUBLE, FLOAT, GROUP, MESSAGE, BYTES, ENUM, 19]),
    *((f"a map whose values have type {kind}", "ok", map_of(key(), value(kind))) for kind in [*INTEGERS, BOOL, STRING, BYTES]),
    ("a map of messages", "ok", map_of(key(BOOL), value(MESSAGE, ".p.M"))),
    ("a map of enums", "ok", map_of(key(), value(ENUM, ".p.E"), more=text(5, E))),
    ("values of no type", "BadField p.M.x", map_of(key(), value(None))),
    ("values of type 19", "BadField p.M.x", map_of(key(), value(19))),
    ("an entry without fields", "BadField p.M.x", map_of()),
    ("an entry without a value", "BadField p.M.x", map_of(key())),
    ("an entry without a key", "BadField p.M.x", map_of(value())),
    ("an entry with two keys", "BadField p.M.x", map_of(key(), key())),
    ("an entry with two values", "BadField p.M.x", map_of(value(), value())),
    ("an entry with a third field", "BadField p.M.x", map_of(*TEXT_TO_INT, x(number=3))),
    ("a key of another name", "BadField p.M.x", map_of(key(name="k"), value())),
    ("a value of another name", "BadField p.M.x", map_of(key(), value(name="v"))),
    ("a key and a value whose names are exchanged", "BadField p.M.x", map_of(key(name="value"), value(name="key"))),
    ("a key of another number", "BadField p.M.x", map_of(key(number=3), value())),
    ("a value of another number", "BadField p.M.x", map_of(key(), value(number=3))),
    ("a key and a value whose numbers are exchanged", "BadField p.M.x", map_of(key(number=2), value(number=1))),
    ("a key without a label", "BadField p.M.x", map_of(key(label=None), value())),
    ("a required key", "BadField p.M.x", map_of(key(label=2), value())),
    ("a list of keys", "BadField p.M.x", map_of(key(label=3), value())),
    ("a required value", "BadField p.M.x", map_of(key(), value(label=2))),
    ("a list of values", "BadField p.M.x", map_of(key(), value(label=3))),
    ("an optional key", "BadField p.M.x", map_of(key(more=OPTIONAL), value())),
    ("an optional value", "BadField p.M.x", map_of(key(), value(more=OPTIONAL))),
    ("a key in a oneof", "BadField p.M.x", map_of(key(more=FIRST_ONEOF), value())),
    ("a value in a oneof", "BadField p.M.x", map_of(key(), value(more=FIRST_ONEOF))),
    ("a map in a oneof", "BadField p.M.x", map_of(*TEXT_TO_INT, field_more=FIRST_ONEOF, inner=ONEOF)),
    ("a map that is optional", "BadField p.M.x", map_of(*TEXT_TO_INT, field_more=OPTIONAL)),
    ("a map of a number that came before", "BadField p.M.x", map_of(*TEXT_TO_INT, number=1)),
    # values of maps
    ("a map of groups", "Group p.M.x", map_of(key(), value(GROUP, ".p.M"))),
    ("a map of floats", f"Float p.M.x {PATH}", map_of(key(), value(FLOAT))),
    ("a map of doubles", f"Float p.M.x {PATH}", map_of(key(), value(DOUBLE))),
    ("a map of an unknown message", "UnknownType p.M.x .p.N", map_of(key(), value(MESSAGE, ".p.N"))),
    ("a map of an unknown enum", "UnknownType p.M.x .p.E", map_of(key(), value(ENUM, ".p.E"))),
    ("a map of NullValue", f"StructType p.M.x {PATH}", a_set([x(MESSAGE, ".p.M.XEntry", label=3)], inner=text(3, entry(key(), value(ENUM, f".{P}.NullValue"))), files=[NULL_VALUE])),
    ("a map of an enum", "BadEnum p.E", map_of(key(), value(ENUM, ".p.E"), more=text(5, BAD_ENUM))),
    ("a map of a message that has a float", f"Float p.N.f {PATH}", map_of(key(), value(MESSAGE, ".p.N"), messages=[FLOATS])),
    ("a map of Any", f"AnyType {P}.Any {PATH}", a_set([x(MESSAGE, ".p.M.XEntry", label=3)], inner=text(3, entry(key(), value(MESSAGE, f".{P}.Any"))), files=[other([message("Any", [])], package=P)])),
    ("the key's type before the value's", "BadField p.M.x", map_of(key(BYTES), value(FLOAT))),
    ("a map's value before the next field", f"Float p.M.x {PATH}", a_set([x(MESSAGE, ".p.M.XEntry", label=3), of("y", 3, GROUP)], inner=text(3, entry(key(), value(FLOAT))))),
    ("a field before a map's value", "Group p.M.x", a_set([x(GROUP), of("y", 3, MESSAGE, ".p.M.XEntry", 3)], inner=text(3, entry(key(), value(FLOAT))))),
    ("the values of a map before the message of a later field", f"Float p.N.f {PATH}", a_set([x(MESSAGE, ".p.M.XEntry", label=3), of("y", 3, MESSAGE, ".p.O")], [message("O", [x(GROUP)]), FLOATS], text(3, entry(key(), value(MESSAGE, ".p.N"))))),
    # entries are not reached through their map
    ("an entry in a file of proto2", "ok", reach(".q.XEntry", other([entry(*TEXT_TO_INT)], syntax="proto2"), label=3)),
    ("an entry that is extended", "ok", map_of(*TEXT_TO_INT, more=text(7, extension(".p.M.XEntry")))),
    ("an entry whose two fields have one JSON name", "ok", map_of(key(json="value"), value())),
    ("an entry that is no map's", "ok", a_set(inner=text(3, entry(key(FLOAT), value(FLOAT))))),
    ("an entry beside the message", "ok", a_set([x(MESSAGE, ".p.XEntry", label=3)], [entry(*TEXT_TO_INT)])),
    ("an entry beside the message, of floats", f"Float p.M.x {PATH}", a_set([x(MESSAGE, ".p.XEntry", label=3)], [entry(key(), value(FLOAT))])),
    ("an entry as one message", f"Float p.M.XEntry.value {PATH}", map_of(key(), value(FLOAT), label=1)),
    ("an entry as one message, of no lawful map", "ok", map_of(key(BYTES), value(), label=1)),
    ("an entry as one message in a file of proto2", "Proto2 q.XEntry", reach(".q.XEntry", other([entry(*TEXT_TO_INT)], syntax="proto2"))),
    ("an entry that is the input", f"Float p.M.XEntry.value {PATH}", by_methods(method(request=".p.M.XEntry"), inner=text(3, entry(key(), value(FLOAT))))),
    ("an entry without its option", f"Float p.M.XEntry.value {PATH}", a_set([x(MESSAGE, ".p.M.XEntry", label=3)], inner=text(3, message("XEntry", [key(), value(FLOAT)])))),
    ("an entry said not to be one", f"Float p.M.XEntry.value {PATH}", a_set([x(MESSAGE, ".p.M.XEntry", label=3)], inner=text(3, message("XEntry", [key(), value(FLOAT)], text(7, num(7, 0)))))),
    ("an entry of a map and as one message in a file of proto2", "Proto2 q.XEntry", a_set([x(MESSAGE, ".q.XEntry", label=3), of("y", 3, MESSAGE, ".q.XEntry")], files=[other([entry(*TEXT_TO_INT)], syntax="proto2")])),
    # names and JSON names
    ("names that differ", "ok", pair("x", "y")),
    ("one name twice", "SameJsonName p.M user_id", pair("user_id", "y")),
    ("a name that is an earlier JSON name", "SameJsonName p.M userId", pair("userId", "y")),
    ("a JSON name that is an earlier one", "SameJsonName p.M userId", pair("x", "userId")),
    ("a JSON name that is an earlier name", "SameJsonName p.M user_id", pair("x", "user_id")),
    ("a JSON name that is its own name", "ok", pair("x", "x")),
    ("a given JSON name in place of that of the name", "ok", pair("userId", "y", "user_id", "z")),
    ("a given JSON name that is an earlier given one", "SameJsonName p.M z", pair("x", "z", "user_id", "z")),
    ("names that differ by case alone", "ok", pair("Ab", None, "ab")),
    ("the name before the JSON name", "SameJsonName p.M userId", pair("userId", "user_id")),
    ("the earlier of two fields", "SameJsonName p.M a", a_set([of("a", 2, STRING), of("b", 3, STRING), of("c", 4, STRING, json="a"), of("d", 5, STRING, json="b")])),
    ("the first field that shares a name, and not the first that is shared", "SameJsonName p.M b", a_set([of("a", 2, STRING), of("b", 3, STRING), of("c", 4, STRING, json="b"), of("d", 5, STRING, json="a")])),
    ("two empty JSON names", "SameJsonName p.M", pair("x", "", "user_id", "")),
    ("an empty JSON name", "ok", pair("x", "")),
    ("an underscore before a lower-case letter", "SameJsonName p.M aB", pair("aB", "x", "a_b")),
    ("two underscores before a lower-case letter", "SameJsonName p.M aB", pair("aB", "x", "a__b")),
    ("an underscore at the front", "SameJsonName p.M A", pair("A", "x", "_a")),
    ("an underscore before a capital letter", "SameJsonName p.M aB", pair("aB", "x", "a_B")),
    ("an underscore before a digit", "SameJsonName p.M a1", pair("a1", "x", "a_1")),
    ("an underscore at the end", "SameJsonName p.M a", pair("a", "x", "a_")),
    ("an underscore and nothing in its place", "ok", pair("ab", "x", "a_b")),
    ("two JSON names of two names", "SameJsonName p.M aB", pair("a__b", None, "a_b")),
    ("one name in two messages", "ok", a_set([x(MESSAGE, ".p.N")], [message("N", [x()])])),
    ("names of a message that nothing reaches", "ok", a_set(messages=[message("N", [x(), x(number=3)])])),
    ("names of a message that a field reaches", "SameJsonName p.N x", a_set([of("y", 2, MESSAGE, ".p.N")], [message("N", [x(), x(number=3)])])),
    ("a number before the name", "BadField p.M.user_id", a_set([of("user_id", 2, STRING), of("user_id", 2, STRING)])),
    ("a later field before an earlier name", f"Float p.M.y {PATH}", a_set([x(), x(number=3), of("y", 4, FLOAT)])),
    ("names before the messages that the fields reach", "SameJsonName p.M x", a_set([x(MESSAGE, ".p.N"), x(number=3)], [FLOATS])),
    ("a message that is taken before, before the names of the next", f"Float p.N.f {PATH}", by_methods(method(request=".p.N"), fields=[x(), x(number=3)], messages=[FLOATS])),
]

TABLES = [
    ("sizes_and_names_are_judged", "How large a set may be, its names, and whether it has a route.", NAMES_AND_SIZES),
    ("full_names_are_one_text", "Full names whose parts hold dots, or are empty.", NAMES),
    ("methods_are_judged", "Methods, and their rules.", METHODS_AND_RULES),
    ("messages_are_judged", "Messages that methods reach, and their fields.", MESSAGES_AND_FIELDS),
    ("enums_maps_and_keys_are_judged", "Enums, entries of maps, and the names of fields in JSON.", ENUMS_MAPS_AND_KEYS),
    ("templates_are_judged", "Templates.", TEMPLATES),
    ("paths_are_judged", "The fields that variables name.", PATHS),
    ("bodies_are_judged", "The fields that a body and a response body name.", BODIES),
    ("routes_are_judged", "Bindings that are one route.", ROUTES),
    ("the_first_fault_of_methods_counts", "Two faults of methods and their rules.", IN_METHODS),
    ("the_first_fault_of_bindings_counts", "Two faults of what bindings name.", IN_BINDINGS),
    ("the_earlier_step_counts", "Two faults of two steps, in two files.", IN_STEPS),
]

# A set of two files, the first with each listed field, its package, edition and options twice.
WHOLE = (
    "0ac3010a016612017112017022510a014d12200a017812022e4518052003280b32022e4e4202100042021001480252008801"
    "011a030a014e22130a0145120e0a014110ffffffffffffffffff0132030a01653a0208013a02380142030a016f2a130a0145"
    "120e0a014110ffffffffffffffffff01323b0a015312360a0347657412022e491a022e4f222382d3e493021d42070a014b12"
    "022f6b3a012a5a0c1a042f70757412042f676574620172280130013a030a0174620865646974696f6e7370e60770e7070a00"
)

# What is read of it.
CONTENTS = [
    ("files_are_read", "files", "file f p editions 999 1 messages 1 extensions;file - - - 0 0 messages 0 extensions;"),
    (
        "messages_are_read",
        "messages",
        "file message M set=true entry=true { message N set=false entry=false enum E A=-1 oneof o 1 extensions } enum E A=-1 ;file ;",
    ),
    (
        "fields_are_read",
        "fields",
        "file x .E 5 3 11 .N Some(true) Some(2) json= optional extension e - 0 0 0 - None None none plain ;file ;",
    ),
    ("services_are_read", "services", "file service S Get .I .O true true rule custom K /k * r rule GET /get - - ;file ;"),
]

# Sets that are refused while they are read, and sets beside them that are read.
FAULTS_OF_RECORDS = [
    ("0a020a", "Wire at 0 Short"),
    ("0a0c70|10*80|00", "Wire at 2 LongVarint"),
    ("0a020001", "Wire at 2 BadTag"),
    ("0a010b", "Wire at 2 BadGroup"),
    ("100*0b", "Wire at 99 TooDeep"),
    ("0a020b0c", "read"),
]
LISTED_STRINGS = [
    ("0a030a01ff", "NotUtf8 at 2"),
    ("0a031a01ff", "read"),
    ("0a050a01ff0001", "NotUtf8 at 2"),
    ("0a0500010a01ff", "Wire at 2 BadTag"),
]

KINDS = (
    "TooMany DoubleName NoRoute UnknownType NestedAdditional NoPattern BadMethod TemplateAt Proto2 Edition AnyType StructType "
    "Extension KnownShape BadField Group Float BadEnum SameJsonName PathField BodyField ResponseField SameRoute"
).split()

SET_FAULTS = [
    "Wire at 7 Short",
    "Wire at 7 LongVarint",
    "Wire at 7 BadTag",
    "Wire at 7 BadGroup",
    "Wire at 7 TooDeep",
    "NotUtf8 at 7",
    "TooLong",
    "out of memory",
]

# The texts of a bad method with two names.
LINK_FAULTS = [
    ("/p.S/Get HEAD", "BadMethod /p.S/Get HEAD"),
    ("/p.S/Get -", "BadMethod /p.S/Get"),
    ("- -", "BadMethod "),
    ("- HEAD", "BadMethod  HEAD"),
]


def word(data):
    """The word of a row for a set: its bytes in hexadecimal digits, or its pieces between bars."""
    if isinstance(data, bytes):
        return data.hex() or "-"
    pieces = []
    for piece in data.split(" "):
        digits, sign, count = re.fullmatch(r"([0-9a-f]*)(?:([*#])(\d+))?", piece).groups()
        pieces.append(f"{count}{sign}{digits}" if sign else digits)
    return "|".join(pieces) or "-"


def read_rows():
    for label, command, answer in CONTENTS:
        yield label, f"{command} {WHOLE}", answer
    for test, cases in [("faults_of_records_are_told", FAULTS_OF_RECORDS), ("listed_strings_are_utf8", LISTED_STRINGS)]:
        for at, (data, answer) in enumerate(cases, 1):
            yield f"{test}_{at}", f"read {data}", answer
    yield "long_sets_are_not_read", f"read 65536*{'0a' * 256}|0a", "TooLong"
    yield "faults_of_sets_have_their_texts", "set_faults", "".join(f"{text};" for text in SET_FAULTS)


def link_rows():
    for test, says, cases in TABLES:
        yield "#", says, None
        for label, answer, data in cases:
            yield f"{test}:{label.replace(' ', '_')}", f"link {word(data)}", answer
    yield "#", "What is linked, and texts.", None
    for label, data, told in LINKED:
        yield label, f"shapes {data.hex()}", "".join(f"{line};" for line in told)
    yield "kinds_have_their_texts", "kinds", "".join(f"{kind};" for kind in KINDS)
    for at, (names, answer) in enumerate(LINK_FAULTS, 1):
        yield f"faults_have_their_texts_{at}", f"link_fault {names}", answer
    yield "faults_have_their_texts_5", "no_memory", "out of memory"


def made():
    """The rows, and their answers."""
    rows = [("#", "What is read of sets, and their first faults.", None), *read_rows(), *link_rows()]
    labels = [label for label, _, answer in rows if answer is not None]
    assert len(set(labels)) == len(labels), [label for label in labels if labels.count(label) > 1]
    assert all("\n" not in label + asked and " " not in label for label, asked, _ in rows)
    return {
        MADE / "stdin": "".join(f"{label} {asked}\n" for label, asked, _ in rows),
        MADE / "stdout": "".join(f"{label} {answer}\n" for label, _, answer in rows if answer is not None),
    }


def main():
    stale = 0
    for path, data in made().items():
        if "--check" not in sys.argv[1:]:
            path.write_text(data)
        elif not path.exists() or path.read_text() != data:
            print(f"{path.relative_to(ROOT)} is not what scripts/link_sets.py makes")
            stale += 1
    return 1 if stale else 0


if __name__ == "__main__":
    sys.exit(main())
