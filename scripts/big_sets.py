"""Large descriptor sets, for link_memory.py and speed.py: of many bindings and types, and of long names."""
from set_parts import *  # noqa: F403


def bound_types(count):
    """So many messages, each the input and output of a method of its own, which has a GET; each holds the next."""
    nexts = [f".p.M{(at + 1) % count}" for at in range(count)]
    messages = [message(f"M{at}", [field(), x(MESSAGE, nexts[at])]) for at in range(count)]
    methods = [method(f"Get{at}", f".p.M{at}", f".p.M{at}", rule(f"/v1/m{at}/{{id}}/{{x.id}}")) for at in range(count)]
    return fileset(file(messages=messages, services=[service("S", methods)]))


def many_bindings(count):
    """The sample set with so many bindings of its one method."""
    return of_rule("/v1/items/{id}", b"".join(also(rule(f"/v1/b{at}/{{id}}")) for at in range(count - 1)))


def many_variables(count):
    """A message of so many strings, and so many bindings of 16 variables, which are the last 16 fields."""
    fields = [of(f"f{at}", at + 1, STRING) for at in range(count)]
    template = "".join(f"/{{f{at}}}" for at in range(count - 16, count))
    first, *others = (rule(f"/b{at}{template}") for at in range(count))
    http = first + b"".join(also(one) for one in others)
    return fileset(file(messages=[message("M", fields)], services=[service(methods=[method(http=http)])]))


def nested(names, inner=b""):
    """Messages of these names, each in the one before it."""
    for name in reversed(names):
        inner = text(3, text(1, name) + inner)
    return inner


def long_names(count, size):
    """The sample set with so many messages in one another, the first in its own, with names of so many bytes."""
    names = [f"{at:04}" + "n" * (size - 4) for at in range(count)]
    return a_set(inner=nested(names))


def reached_names(count, size):
    """The same set, whose method's output is the innermost of these messages."""
    names = [f"{at:04}" + "n" * (size - 4) for at in range(count)]
    return by_methods(method(response=".p.M." + ".".join(names)), inner=nested(names))


def under_scope(count, size):
    """The sample set with so many messages of short names in a message whose name has so many bytes."""
    inner = b"".join(text(3, text(1, f"m{at}")) for at in range(count))
    return a_set(messages=[text(1, "s" * size) + inner])


def named_messages(count, size):
    """The sample set with so many messages more, whose names have so many bytes."""
    return a_set(messages=[text(1, f"{at:06}" + "n" * (size - 6)) for at in range(count)])


def like_scopes(scopes, size, count):
    """The sample set with so many scopes, whose long names differ in their first bytes alone, and in each of them so many
    messages of the same names."""
    inner = b"".join(text(3, text(1, f"m{at}")) for at in range(count))
    return a_set(messages=[text(1, f"{at:04}" + "s" * (size - 4)) + inner for at in range(scopes)])


def doubled_names(count, size):
    """The sample set with so many messages of one name in a message whose name has so many bytes."""
    return a_set(messages=[text(1, "s" * size) + text(3, text(1, "m")) * count])


def long_paths(count, size):
    """A set of a package whose name has so many bytes, with so many methods."""
    name = "p" * size
    methods = [method(f"G{at}", ".M", ".M", rule(f"/{at}/{{id}}")) for at in range(count)]
    return fileset(file(package=None, services=[]), file("b.proto", name, [], [service(methods=methods)]))


def long_templates(count):
    """The sample set with so many bindings of 64 segments."""
    first, *others = (rule(f"/b{at}" + "/a" * 63) for at in range(count))
    return of_method(http=first + b"".join(also(one) for one in others))
