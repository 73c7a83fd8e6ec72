"""Rows of descriptor sets for link_sets.py whose names hold dots or are empty: a full name is one text, however its scope and
its own name are cut. The answers are worked out by hand from descriptor.proto and docs/DEFINITIONS.md.
"""
from set_parts import *  # noqa: F403


def bound(message_type, *files, package="p", template="/a"):
    """The set of these files and one with a service, whose method takes and gives this message."""
    there = file("s.proto", package, [], [service(methods=[method("Get", message_type, message_type, rule(template))])])
    return fileset(*files, there)


def declares(package, *messages, name="a.proto", more=b""):
    """A file without a service."""
    return other(list(messages), name, package, more=more)


def inside(*names, fields=()):
    """A message in messages of these names; the innermost has the fields."""
    made = message(names[-1], fields)
    for name in reversed(names[:-1]):
        made = message(name, [], text(3, made))
    return made


F, T = [of("f", 1, FLOAT)], "b.proto"

NAMES = [
    # one full name in two ways
    ("a name that begins with a dot, and a package that ends with one", "DoubleName p..M", bound(".p..M", declares("p", message(".M")), declares("p.", message("M"), name=T))),
    ("a package that ends with a dot, and a name that begins with one", "DoubleName p..M", bound(".p..M", declares("p.", message("M")), declares("p", message(".M"), name=T))),
    ("two packages, one in the other, and a name with a dot", "DoubleName a.b.c", bound(".a.b.c", declares("a.b", message("c")), declares("a", message("b.c"), name=T))),
    ("a nested message, and a message of a deeper package", "DoubleName a.b.c.d", bound(".a.b.c.d", declares("a.b", inside("c", "d")), declares("a.b.c", message("d"), name=T))),
    ("a nested message, and one whose name has two dots", "DoubleName a.b.c.d", bound(".a.b.c.d", declares("a", inside("b", "c", "d")), declares("a", message("b.c.d"), name=T))),
    ("a nested message in one with a dot, and one beside it", "DoubleName a.b.c.d", bound(".a.b.c.d", declares("a", inside("b.c", "d")), declares("a", inside("b", "c.d"), name=T))),
    ("a nested enum, and an enum with a dot", "DoubleName p.M.E", bound(".p.M", declares("p", message("M", [field()], text(4, E)), more=text(5, enum("M.E", ("A", 0)))))),
    ("a service, and a message with a dot in no package", "DoubleName p.S", bound(".p.M", declares("p", message()), declares(None, message("p.S"), name=T))),
    ("a service with a dot, and a nested message", "DoubleName p.M.N", a_set(inner=text(3, N), services=[S, service("M.N", [])])),
    ("no package and no name, twice", "DoubleName ", bound(".", declares(None, message("")), declares(None, message(""), name=T))),
    ("a message in one without a name, and one beside that", "DoubleName N", bound(".N", declares(None, inside("", "N"), message("N")))),
    ("an empty package, and none", "DoubleName M", bound(".M", declares("", message()), declares(None, message(), name=T))),
    # names that differ where they begin, or where they end
    ("names that end alike", "ok", bound(".p.M", declares("p", message()), declares("xp", message(), name=T), declares(None, message("M"), name="c.proto"))),
    ("names that begin alike", "ok", bound(".p.M", declares("p", message(), message("Mx"), message("M.")), declares("p.M", message("M"), name=T))),
    ("one dot more at the end", "ok", bound(".p.M", declares("p", message(), message("M.")))),
    ("one dot more at the front", "ok", bound(".p.M", declares("p", message(), message(".M")))),
    ("one dot more between", "ok", bound(".p.M.N", declares("p", inside("M", "N"), message("M..N")))),
    # which message a type name names
    ("the nearer of two names that end alike", "ok", bound(".p.M", declares("xp", message("M", F)), declares("p", message(), name=T))),
    ("the longer of two names that end alike", "Float xp.M.f /p.S/Get", bound(".xp.M", declares("xp", message("M", F)), declares("p", message(), name=T))),
    ("a name in no package that ends alike", "Float M.f /p.S/Get", bound(".M", declares(None, message("M", F)), declares("p", message(), name=T))),
    ("a name whose package is that of no file", "UnknownType /p.S/Get .x.M", bound(".x.M", declares("p", message()), declares(None, message(), name=T))),
    ("a nested message by its last name", "UnknownType /p.S/Get .p.N", bound(".p.N", declares("p", inside("M", "N")))),
    ("a message with dots in its name", "Float a.b.c.d.f /p.S/Get", bound(".a.b.c.d", declares("a", message("b.c.d", F)))),
    ("a nested message of a package with dots", "Float a.b.c.d.f /p.S/Get", bound(".a.b.c.d", declares("a.b", inside("c", "d", fields=F)))),
    ("a message in one with dots", "Float a.b.c.d.f /p.S/Get", bound(".a.b.c.d", declares("a", inside("b.c", "d", fields=F)))),
    ("a message whose name begins with a dot", "Float p..M.f /p.S/Get", bound(".p..M", declares("p", message(".M", F)))),
    ("a message without a name", "Float p..f /p.S/Get", bound(".p.", declares("p", message("", F)))),
    ("a message without a name or a package", "Float .f /p.S/Get", bound(".", declares(None, message("", F)))),
    ("a message in one without a name", "Float p..N.f /p.S/Get", bound(".p..N", declares("p", inside("", "N", fields=F)))),
    ("a message in one without a name or a package", "Float N.f /p.S/Get", bound(".N", declares(None, inside("", "N", fields=F)))),
    ("the same by a name with two dots", "UnknownType /p.S/Get ..N", bound("..N", declares(None, inside("", "N", fields=F)))),
    ("a type name of one dot where each message has a name", "UnknownType /p.S/Get .", bound(".", declares("p", message()))),
    ("a type name with two dots at its front", "UnknownType /p.S/Get ..p.M", bound("..p.M", declares("p", message()))),
    ("a type name with a dot at its end", "UnknownType /p.S/Get .p.M.", bound(".p.M.", declares("p", message()))),
    ("an enum with dots in its name", "BadEnum p.M.E", bound(".p.M", declares("p", message("M", [x(ENUM, ".p.M.E")]), more=text(5, enum("M.E", ("A", 1)))))),
    ("an extension of a message with dots in its name", "Extension p.M.N", bound(".p.M.N", declares("p", message("M.N", []), more=text(7, extension(".p.M.N"))))),
    ("an extension of a name that ends alike", "ok", bound(".p.M", declares("p", message(), more=text(7, extension(".xp.M"))), declares("xp", message(), name=T))),
    # well-known types by their full names
    ("Any with a dot in its name", f"AnyType {P}.Any /p.S/Get", bound(f".{P}.Any", declares("google", message("protobuf.Any", [])))),
    ("Any in no package", f"AnyType {P}.Any /p.S/Get", bound(f".{P}.Any", declares(None, message(f"{P}.Any", [])))),
    ("a name that ends as that of Any", "ok", bound(f".x{P}.Any", declares(f"x{P}", message("Any", [])))),
    ("a name that begins as that of Any", "ok", bound(f".{P}.Any.x", declares(P, message("Any.x", [])))),
    ("Timestamp with a dot in its name", f"KnownShape {P}.Timestamp", bound(f".{P}.Timestamp", declares("google", message("protobuf.Timestamp", [SECONDS])))),
    ("a variable that ends at a Timestamp with a dot in its name", "ok", bound(".p.M", declares("p", message("M", [x(MESSAGE, f".{P}.Timestamp")])), declares("google", message("protobuf.Timestamp", [SECONDS, NANOS]), name=T), template="/{x}")),
    ("a variable that ends at a message whose name ends as that of Timestamp", "PathField /p.S/Get x", bound(".p.M", declares("p", message("M", [x(MESSAGE, f".x{P}.Timestamp")])), declares(f"x{P}", message("Timestamp", [SECONDS, NANOS]), name=T), template="/{x}")),
    # gRPC paths
    ("a path of a package with dots", "UnknownType /a.b.S/Get .x", bound(".x", package="a.b")),
    ("a path of a package that ends with a dot", "UnknownType /p..S/Get .x", bound(".x", package="p.")),
    ("a path without a package", "UnknownType /S/Get .x", bound(".x", package=None)),
    ("a path of a service without a name", "UnknownType /p./Get .x", fileset(file(messages=[], services=[service("", [method(request=".x")])]))),
    ("a path of a service without a name or a package", "UnknownType //Get .x", fileset(file(package=None, messages=[], services=[service("", [method(request=".x")])]))),
    ("a path of a method without a name", "UnknownType /p.S/ .x", fileset(file(messages=[], services=[service(methods=[method("", ".x")])]))),
    ("a path of a service with a slash", "UnknownType /p.S/T/Get .x", fileset(file(messages=[], services=[service("S/T", [method(request=".x")])]))),
]
