"""Sets of which `check` and `routes` tell, for sample_sets.py, with the lines of `routes`; and sets with a fault. The lines are
worked out by hand from google/api/http.proto and the form of `routes` in docs/REFERENCE.md.
"""
from binding_sets import pattern
from library_set import LIB, LIB_OF_DOUBLES, LIB_ROUTES
from set_parts import *  # noqa: F403

ITEM_ROUTE = "GET /v1/items/{id=*} /p.S/Get - -"

# Fields whose order is not that of their numbers, one of them with another JSON name.
FIELDS = [of("b", 7, STRING), x(MESSAGE, ".p.M"), of("user_id", 3, STRING, json="user"), field()]


def of_rules(first, *others):
    """The set of one file with these fields, whose method has these bindings."""
    return of_fields(method(http=first + b"".join(also(one) for one in others)))


def of_fields(*methods):
    """The set of one file with these fields and methods."""
    return fileset(file(messages=[message(fields=FIELDS)], services=[service(methods=methods)]))


# A template, and how it is printed.
FORMS = [
    ("/{id}", "/{id=*}"),
    ("/{id=*}/a", "/{id=*}/a"),
    ("/{id=**}", "/{id=**}"),
    ("/**:all", "/**:all"),
    ("/a/{id=b/*/c}/d:go", "/a/{id=b/*/c}/d:go"),
    ("/*/{x.id}", "/*/{x.id=*}"),
    ("/{x.x.id}:go", "/{x.x.id=*}:go"),
    ("/{id}/{x.user_id=e/**}", "/{id=*}/{x.user_id=e/**}"),
    ("/{id=f}:v", "/{id=f}:v"),
    ("/{b}/{id}/{user_id}", "/{b=*}/{id=*}/{user_id=*}"),
    ("/a:b", "/a:b"),
    ("/-._~!$&'()+,;=@", "/-._~!$&'()+,;=@"),
]
PATTERNS = [pattern(number, "/a") for number in range(2, 7)] + [custom("K", "/a"), custom("*", "/a")]
TWO_FILES = fileset(
    file("a.proto", "p", [message()], [service("T", [method("Z", http=rule("/z")), method("A", http=rule("/a"))]), service("S", [method(http=b""), method("Free", http=b"")])]),
    file("b.proto", None, [message("N")], [service("S", [method("Get", ".p.M", ".N", pattern(4, "/n", "*", "id"), num(6, 1))])]),
)

# label, set, the lines of `routes`
SERVED = [
    ("the sample set", fileset(file()), [ITEM_ROUTE]),
    ("each pattern", of_rules(*PATTERNS), [f"{name} /a /p.S/Get - -" for name in ["GET", "PUT", "POST", "DELETE", "PATCH", "K", "*"]]),
    ("each form of a template", of_rules(*(rule(one) for one, _ in FORMS)), [f"GET {told} /p.S/Get - -" for _, told in FORMS]),
    (
        "bodies and responses",
        of_rules(pattern(2, "/a", "x", "b"), pattern(4, "/b", "*"), pattern(3, "/c", "", "x"), pattern(6, "/d", "user_id", "user_id"), pattern(4, "/e", "b", "id")),
        ["GET /a /p.S/Get x b", "POST /b /p.S/Get * -", "PUT /c /p.S/Get - x", "PATCH /d /p.S/Get user_id user_id", "POST /e /p.S/Get b id"],
    ),
    ("two files", TWO_FILES, ["GET /z /p.T/Z - -", "GET /a /p.T/A - -", "POST /n /S/Get * id"]),
    ("methods of one name", of_fields(method(http=rule("/a")), method(http=rule("/b"))), ["GET /a /p.S/Get - -", "GET /b /p.S/Get - -"]),
    ("the library", LIB, LIB_ROUTES),
]

# label, set, its fault
FAULTY = [
    ("the sample set without its last byte", fileset(file())[:-1], "Wire at 0 Short"),
    ("an empty set", b"", "NoRoute set"),
    ("a file's name that is not UTF-8", fileset(file(name=b"\xff")), "NotUtf8 at 2"),
    ("a template that is none", of_rule("/"), "TemplateAt /p.S/Get 1"),
    ("a template with too many segments", of_rule("/a" * 65), "TemplateAt /p.S/Get many"),
    ("a path that ends at a message", of_rules(rule("/{x}")), "PathField /p.S/Get x"),
    ("a body by its JSON name", of_rules(pattern(4, "/a", "user")), "BodyField /p.S/Get user"),
    ("a star as response", of_rules(pattern(4, "/a", "*", "*")), "ResponseField /p.S/Get *"),
    ("one route twice", of_rules(rule("/{id}"), rule("/*")), "SameRoute /p.S/Get /p.S/Get"),
    ("the library with a double", LIB_OF_DOUBLES, "Float lib.v1.Book.weight /lib.v1.Library/PatchBook"),
]
