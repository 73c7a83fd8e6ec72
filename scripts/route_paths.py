#!/usr/bin/env python3
"""Makes the rows of route_rows: bindings, requests, and the answers of a plain reading of the choice of a route.

The reading cuts a path at its slashes and tries each template on the pieces. Among the bindings that fit, those of
exactly the request's method come first, and only if there is none those of the method `*`. Among these, templates with
a verb come first, and then the first position at which two differ decides: the end, a literal, `*`, `**`.

usage: route_paths.py [--check]

With --check it compares the files with what it makes.
"""
import pathlib
import random
import sys

ROOT = pathlib.Path(__file__).resolve().parent.parent
LITERALS = ["a", "b", "c"]
VERBS = ["go", "a"]
METHODS = ["GET", "POST", "DELETE", "*"]
DEPTH = 5
TEMPLATES = 500
PATHS = 2_400
IN_ONE_ROW = 20
SEED = 20


class Template:
    """Segments, the verb, and the range of each variable's segments."""

    def __init__(self, segments, verb=None, ranges=()):
        self.segments, self.verb, self.ranges = segments, verb, list(ranges)

    def text(self):
        parts, at = [], 0
        for number, (start, end) in enumerate(self.ranges):
            parts += self.segments[at:start]
            inner = "/".join(self.segments[start:end])
            parts.append(f"{{v{number}}}" if inner == "*" else f"{{v{number}={inner}}}")
            at = end
        parts += self.segments[at:]
        return "/" + "/".join(parts) + (f":{self.verb}" if self.verb is not None else "")

    def flat(self):
        return tuple(self.segments), self.verb

    def key(self):
        ranks = tuple({"*": 2, "**": 3}.get(segment, 1) for segment in self.segments)
        return self.verb is None, ranks


def pieces_of(path):
    """The segments of a path, or None where it does not begin with a slash."""
    if path == "":
        return []
    return path[1:].split("/") if path[0] == "/" else None


def shares_of(segments, pieces):
    """What each segment takes, or None where they do not take all pieces."""
    if not segments:
        return [] if not pieces else None
    first, rest = segments[0], segments[1:]
    if first == "**":
        return [pieces] if all(pieces) else None
    if not pieces or (pieces[0] != first if first != "*" else not pieces[0]):
        return None
    shares = shares_of(rest, pieces[1:])
    return None if shares is None else [pieces[:1], *shares]


def spans_of(template, path):
    """The spans of the variables, or None where the template does not fit."""
    end = len(path)
    if template.verb is not None:
        ending = ":" + template.verb
        last = path.rsplit("/", 1)[-1]
        if not last.endswith(ending) or last == ending or "/" not in path:
            return None
        end -= len(ending)
    pieces = pieces_of(path[:end])
    shares = None if pieces is None else shares_of(template.segments, pieces)
    if shares is None:
        return None
    starts = [0]
    for share in shares:
        starts.append(starts[-1] + sum(1 + len(piece) for piece in share))
    return [(starts[i] + 1, starts[j]) if starts[i] < starts[j] else (end, end) for i, j in template.ranges]


def answer(bindings, method, path):
    """What is found, or the methods of those that fit, or none."""
    fitting = [(i, m, t, spans_of(t, path)) for i, (m, t) in enumerate(bindings) if spans_of(t, path) is not None]
    if not fitting:
        return "none"
    for wanted in (method, "*"):
        served = [one for one in fitting if one[1] == wanted]
        if served:
            index, _, _, spans = min(served, key=lambda one: one[2].key())
            return " ".join([f"found {index}", *(f"{start}-{end}" for start, end in spans)])
    return " ".join(["wrong", *sorted({m for _, m, _, _ in fitting})])


def word(text):
    """Text as a word of a row. A character is a byte."""
    if text == "":
        return "-"
    return "'" + text if all(33 <= ord(c) < 127 and c != "|" for c in text) else text.encode("latin-1").hex()


def random_template(r):
    segments = [r.choice(LITERALS * 3 + ["*"]) for _ in range(r.choice([1, 2, 3, 3, 4, 4, 4, 5, 5, 5]))]
    if len(segments) > 2 and r.random() < 0.1:
        segments[-1] = "**"
    ranges, at = [], 0
    while at < len(segments):
        if r.random() < 0.4:
            end = r.randrange(at + 1, len(segments) + 1)
            ranges.append((at, end))
            at = end
        else:
            at += 1
    return Template(segments, r.choice(VERBS) if r.random() < 0.25 else None, ranges)


def random_bindings(r):
    bindings, routes = [], set()
    while len(bindings) < TEMPLATES:
        method, template = r.choice(METHODS[:3] * 4 + METHODS[3:]), random_template(r)
        if (method, template.flat()) not in routes and (method != "*" or len(template.segments) > 2):
            routes.add((method, template.flat()))
            bindings.append((method, template))
    return bindings


def random_path(r):
    pieces = [r.choice(LITERALS + ["d", "aa", "a:no", ":go"]) if r.random() < 0.2 else r.choice(LITERALS) for _ in range(r.choice([0, 1, 2, 3, 3, 4, 4, 4, 5, 5, 5, 6]))]
    if pieces and r.random() < 0.08:
        pieces[r.randrange(len(pieces))] = ""
    path = "".join("/" + piece for piece in pieces)
    return path + (":" + r.choice(VERBS + ["no"]) if r.random() < 0.35 else "")


def plain(*texts):
    """Bindings of GET, or of the method before a space, whose templates have no variables."""
    made = []
    for text in texts:
        method, _, text = text.rpartition(" ")
        text, _, verb = text.partition(":")
        made.append((method or "GET", Template(text[1:].split("/"), verb or None)))
    return made


WORKED = [
    ("a_verb_comes_first", plain("/v1/*", "/v1/*:go", "/v1/a"), [("GET", "/v1/a:go", "found 1"), ("GET", "/v1/a", "found 2"),
     ("GET", "/v1/a:no", "found 0"), ("POST", "/v1/a:go", "wrong GET"), ("GET", "/v1/:go", "found 0"), ("GET", "/v1/b:go:go", "found 1")]),
    ("the_first_position_that_differs_decides", plain("/v1/*/b", "/v1/a/*"), [("GET", "/v1/a/b", "found 1"), ("GET", "/v1/c/b", "found 0")]),
    ("the_end_comes_first", plain("/v1/**", "/v1"), [("GET", "/v1", "found 1"), ("GET", "/v1/a", "found 0"), ("GET", "/v1/", "none")]),
    ("a_star_comes_before_two", plain("/v1/**", "/v1/*"), [("GET", "/v1/a", "found 1"), ("GET", "/v1/a/b", "found 0")]),
    ("an_empty_segment_is_matched_by_nothing", [("GET", Template(["v1", "files", "**"], None, [(2, 3)]))],
     [("GET", "/v1/files/", "none"), ("GET", "/v1/files", "found 0 9-9"), ("GET", "/v1/files/a//b", "none"), ("GET", "/v1/files/a/b", "found 0 10-13")]),
    ("the_exact_method_comes_first", plain("* /v1/a", "GET /v1/*", "POST /v1/a"), [("GET", "/v1/a", "found 1"), ("POST", "/v1/a", "found 2"),
     ("PUT", "/v1/a", "found 0"), ("*", "/v1/a", "found 0"), ("PUT", "/v1/b", "wrong GET"), ("get", "/v1/b", "wrong GET")]),
    ("methods_are_told_in_byte_order", plain("PUT /v1", "GET /v1", "Get /v1", "DELETE /v1", "PATCH /v2"),
     [("POST", "/v1", "wrong DELETE GET Get PUT"), ("POST", "/v2", "wrong PATCH"), ("POST", "/v3", "none")]),
    ("spans_end_before_the_verb", [("GET", Template(["v1", "*", "b", "**"], "go", [(0, 2), (3, 4)]))],
     [("GET", "/v1/a/b:go", "found 0 1-5 7-7"), ("GET", "/v1/a/b/c/d:go", "found 0 1-5 8-11"), ("GET", "/v1/a/b/:go", "none"), ("GET", "/v1/a/b/c", "none")]),
    ("a_path_begins_with_a_slash", plain("/**", "/a:go"), [("GET", "", "found 0"), ("GET", "/", "none"), ("GET", "a", "none"), ("GET", "a:go", "none"),
     ("GET", ":go", "none"), ("GET", "/:go", "found 0"), ("GET", "/a:go", "found 1")]),
    ("a_byte_outside_ascii_is_one_of_its_segment", [("GET", Template(["v1", "*"], None, [(1, 2)])), ("GET", Template(["v1", "*"], "go", [(1, 2)]))],
     [("GET", "/v1/a\xff\x80b", "found 0 4-8"), ("GET", "/v1/\xc3\xa9:go", "found 1 4-6"), ("GET", "/v1\xff/a", "none"), ("G\xc9T", "/v1/a", "wrong GET"), ("\xff", "/v1/\xff", "wrong GET")]),
    ("a_template_of_literals_fits_its_bytes", plain("/v1/A", "/v1/a"), [("GET", "/v1/a", "found 1"), ("GET", "/v1/%61", "none"), ("GET", "/V1/a", "none")]),
]


def binding_rows(bindings, name):
    yield f"{name}:clear clear", "0"
    for count, (method, template) in enumerate(bindings, 1):
        yield f"{name}:binding_{count} binding {word(method)} {word(template.text())}", str(count)


def route_row(label, bindings, asked):
    words = " ".join(f"{word(method)} {word(path)}" for method, path in asked)
    return f"{label} route {words}", " | ".join(answer(bindings, method, path) for method, path in asked)


def rows():
    for name, bindings, asked in WORKED:
        yield from binding_rows(bindings, name)
        for at, (method, path, wanted) in enumerate(asked, 1):
            assert answer(bindings, method, path) == wanted, (name, method, path, answer(bindings, method, path))
            yield route_row(f"{name}_{at}", bindings, [(method, path)])
    name = "what_is_no_set_of_routes"
    yield from binding_rows(plain("/v1/*", "POST /v1/*"), f"{name}_1")
    yield f"{name}_1:again binding 'GET '/v1/{{id}}", "3"
    yield f"{name}_1:route route 'GET '/v1/a", "not routable"
    for count, wanted in ((64, "found 0"), (65, "not routable")):
        yield from binding_rows([(f"M{i}", Template(["v1"])) for i in range(count)], f"{name}_{count}")
        yield f"{name}_{count}:route route 'M0 '/v1", wanted
    name = "bits_of_64_methods"
    bindings = [(f"M{i:02}", Template(["v1" if i % 2 else "v2"])) for i in range(64)]
    yield from binding_rows(bindings, name)
    for at, path in enumerate(("/v1", "/v2", "/v3"), 1):
        yield route_row(f"{name}_{at}", bindings, [("GET", path)])
    yield from binding_rows(bindings[:63] + [("M63", Template(["v3"]))], f"{name}_highest")
    yield f"{name}_highest:route route 'GET '/v3 'M63 '/v3", "wrong M63 | found 63"
    name = "what_is_no_template"
    for number, text in enumerate(("v1", "/v1/", "/v1/{a", "/**/a", "/v1:"), 1):
        yield f"{name}_{number}:clear clear", "0"
        yield f"{name}_{number}:binding binding 'GET {word(text)}", "1"
        yield f"{name}_{number}:route route 'GET '/v1", "no template"
    r = random.Random(SEED)
    bindings = random_bindings(r)
    yield from binding_rows(bindings, "plain_reading")
    asked = [(r.choice(METHODS[:3] + ["PUT"]), random_path(r)) for _ in range(PATHS)]
    for at in range(0, PATHS, IN_ONE_ROW):
        yield route_row(f"plain_reading_{at // IN_ONE_ROW + 1}", bindings, asked[at:at + IN_ONE_ROW])


def main():
    made = list(rows())
    labels = [asked.split(" ", 1)[0] for asked, _ in made]
    assert len(set(labels)) == len(labels)
    folder = ROOT / "crates/route_rows"
    files = {
        folder / "stdin": "".join(f"{asked}\n" for asked, _ in made),
        folder / "stdout": "".join(f"{label} {told}\n" for label, (_, told) in zip(labels, made)),
    }
    stale = [path for path, text in files.items() if not path.exists() or path.read_text() != text]
    if "--check" in sys.argv[1:]:
        for path in stale:
            print(f"{path.relative_to(ROOT)} is not what scripts/route_paths.py makes")
        return 1 if stale else 0
    folder.mkdir(parents=True, exist_ok=True)
    for path, text in files.items():
        path.write_text(text)
    return 0


if __name__ == "__main__":
    sys.exit(main())
