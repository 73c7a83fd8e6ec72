"""Rows of descriptor sets that have two faults, for link_sets.py: the one counts that is looked for first. Each pair of
faults stands in both orders of places. The answers follow from the order of the steps of linking in
docs/DEFINITIONS.md, and in one step from the order of what is judged.
"""
import itertools

from binding_sets import get, rules
from set_parts import *  # noqa: F403

PATHS_OF = ["/p.S/Get", "/p.S/Put"]


# A method's faults: what is judged of it in order, and in one rule what is tried first.
INPUT, OUTPUT, RULE, ADDITIONAL = range(4)
NESTED, MISSING, KIND, TEMPLATE = range(4)
PLACES = ["input", "output", "rule", "additional rule"]
KINDS_OF = {INPUT: [MISSING], OUTPUT: [MISSING], RULE: [MISSING, KIND, TEMPLATE], ADDITIONAL: [NESTED, MISSING, KIND, TEMPLATE]}
WORDS = ["nested rules", "no pattern", "a bad kind", "a bad template"]


def method_atoms():
    """The faults of two methods, in the order in which they count."""
    for which in range(2):
        for place in range(4):
            for kind in KINDS_OF[place]:
                yield which, place, kind


def together(one, two):
    """Two faults may stand together: in different places, or in one rule that has a pattern for both."""
    return one[:2] != two[:2] or one[2] == NESTED or (one[2], two[2]) == (KIND, TEMPLATE)


def faulty_rule(which, place, kinds):
    """A rule with these faults."""
    kind, template = ["HEAD", "CONNECT"][place - RULE], ["v1", "/"][place - RULE]
    used = template if TEMPLATE in kinds else f"/{which}/{place}"
    nested = also(get("/n")) if NESTED in kinds else b""
    if MISSING in kinds:
        return nested
    return (custom(kind, used) if KIND in kinds else get(used)) + nested


def faulty_methods(atoms):
    """The set of two methods with these faults."""
    made = []
    for which, name in enumerate(["Get", "Put"]):
        kinds = [[kind for at, there, kind in atoms if (at, there) == (which, place)] for place in range(4)]
        request, response = (".p.I" if kinds[INPUT] else ".p.M"), (".p.O" if kinds[OUTPUT] else ".p.M")
        http = rules(faulty_rule(which, RULE, kinds[RULE]), faulty_rule(which, ADDITIONAL, kinds[ADDITIONAL]))
        made.append(method(name, request, response, more=text(4, options(http)), http=b""))
    return by_methods(*made)


def told_of_method(which, place, kind):
    """The text of a fault of a method."""
    path = PATHS_OF[which]
    if place in (INPUT, OUTPUT):
        return f"UnknownType {path} {['.p.I', '.p.O'][place]}"
    if kind in (NESTED, MISSING):
        return f"{['NestedAdditional', 'NoPattern'][kind]} {path}"
    if kind == KIND:
        return f"BadMethod {path} {['HEAD', 'CONNECT'][place - RULE]}"
    return f"TemplateAt {path} {place - RULE}"


def named_atom(which, place, kind):
    """A fault of a method in words."""
    what = "unknown" if place in (INPUT, OUTPUT) else WORDS[kind]
    return f"{what} in the {PLACES[place]} of {['Get', 'Put'][which]}"


IN_METHODS = [
    (f"{named_atom(*one)} before {named_atom(*two)}", told_of_method(*one), faulty_methods([one, two]))
    for one, two in itertools.combinations(method_atoms(), 2)
    if together(one, two)
]

# A binding's faults in order: its variables, its body, its response.
PARTS_OF = ["first variable", "second variable", "body", "response"]
RULES_OF = ["the rule of Get", "the additional rule of Get", "the rule of Put"]


def faulty_binding(which, parts):
    """A rule whose parts with these numbers name no fields."""
    first, second, body, response = (f"n{which}{part}" if part in parts else good for part, good in enumerate(["id", "x", "", ""]))
    return get(f"/{which}/{{{first}}}/{{{second}}}", body, response)


def faulty_bindings(atoms):
    """The set of two methods, the first with two bindings, with these faults."""
    one, two, three = (faulty_binding(which, [part for at, part in atoms if at == which]) for which in range(3))
    return by_methods(method(http=rules(one, two)), put(http=three), fields=[x()])


def told_of_binding(which, part):
    """The text of a fault of a binding."""
    kind = ["PathField", "PathField", "BodyField", "ResponseField"][part]
    return f"{kind} {PATHS_OF[which // 2]} n{which}{part}"


IN_BINDINGS = [
    (f"{PARTS_OF[one[1]]} of {RULES_OF[one[0]]} before {PARTS_OF[two[1]]} of {RULES_OF[two[0]]}", told_of_binding(*one), faulty_bindings([one, two]))
    for one, two in itertools.combinations(itertools.product(range(3), range(4)), 2)
]

# One fault of each kind that can stand in each of two files, step by step: what it changes in a file, and its text for
# the file's package, message and method.
STEPS = [
    [("TooMany", {"also": kinds(64)}, lambda p, m, path: "TooMany methods")],
    [("DoubleName", {"more": text(5, E) * 2}, lambda p, m, path: f"DoubleName {p}.E")],
    [
        ("UnknownType", {"response": ".p.X"}, lambda p, m, path: f"UnknownType {path} .p.X"),
        ("NestedAdditional", {"also": also(get("/n") + also(get("/m")))}, lambda p, m, path: f"NestedAdditional {path}"),
        ("NoPattern", {"also": EMPTY_RULE}, lambda p, m, path: f"NoPattern {path}"),
        ("BadMethod", {"also": also(custom("HEAD"))}, lambda p, m, path: f"BadMethod {path} HEAD"),
        ("TemplateAt", {"also": also(get("v1"))}, lambda p, m, path: f"TemplateAt {path} 0"),
    ],
    [
        ("Proto2", {"syntax": None}, lambda p, m, path: f"Proto2 {m}"),
        ("Extension", {"inner": MESSAGE_SET}, lambda p, m, path: f"Extension {m}"),
        ("BadField", {"fields": [of("f", 0, STRING)]}, lambda p, m, path: f"BadField {m}.f"),
        ("Group", {"fields": [of("f", 3, GROUP)]}, lambda p, m, path: f"Group {m}.f"),
        ("Float", {"fields": [of("f", 3, FLOAT)]}, lambda p, m, path: f"Float {m}.f {path}"),
        ("BadEnum", {"fields": [of("f", 3, ENUM, ".p.F")]}, lambda p, m, path: "BadEnum p.F"),
        ("SameJsonName", {"fields": [of("f", 3, STRING, json="id")]}, lambda p, m, path: f"SameJsonName {m} id"),
    ],
    [
        ("PathField", {"template": "/{name}"}, lambda p, m, path: f"PathField {path} name"),
        ("BodyField", {"body": "name"}, lambda p, m, path: f"BodyField {path} name"),
        ("ResponseField", {"out": "name"}, lambda p, m, path: f"ResponseField {path} name"),
    ],
    [("SameRoute", {"also": also(get("/same")) * 2}, lambda p, m, path: f"SameRoute {path} {path}")],
]
PACKAGES = [("p", "p.M", "/p.S/Get"), ("q", "q.M", "/q.S/Get")]


def changed_file(which, changes):
    """A file with a message and a service, and with these changes."""
    package = PACKAGES[which][0]
    given = {key: value for change in changes for key, value in change.items()}
    template = f"/{package}" + given.get("template", "/{id}")
    http = get(template, given.get("body", ""), given.get("out", "")) + given.get("also", b"")
    bound = method("Get", f".{package}.M", given.get("response", f".{package}.M"), http)
    declared = message("M", [field(), *given.get("fields", [])], given.get("inner", b""))
    unused = text(5, enum("F", ("A", 1)))
    return file(f"{package}.proto", package, [declared], [service("S", [bound])], given.get("syntax", "proto3"), unused + given.get("more", b""))


def in_steps():
    """Two faults of two steps, each in a file of its own, in both orders."""
    for earlier, later in itertools.combinations(STEPS, 2):
        for (kind, change, told), (other_kind, other_change, _) in itertools.product(earlier, later):
            for where in range(2):
                changes = [[change], [other_change]] if where == 0 else [[other_change], [change]]
                names = ["the first file", "the second file"]
                label = f"{kind} in {names[where]} before {other_kind} in {names[1 - where]}"
                yield label, told(*PACKAGES[where]), fileset(*(changed_file(which, changes[which]) for which in range(2)))


IN_STEPS = list(in_steps())
