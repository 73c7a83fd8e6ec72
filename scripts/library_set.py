"""The set of scripts/library.proto: what `protoc --include_imports --descriptor_set_out` writes of it, where the files that
it imports are reduced to messages that are used, and descriptor.proto to MethodOptions and a message with a double.
"""
from set_parts import *  # noqa: F403


def after(*names):
    """The files that a file imports."""
    return b"".join(text(3, name) for name in names)


def made_of(name, package, more, messages, syntax="proto3", enums=b"", services=b"", extensions=b""):
    """FileDescriptorProto, its fields by rising number, as protoc writes them."""
    declared = b"".join(text(4, one) for one in messages)
    said = text(12, syntax) if syntax == "proto3" else b""
    return text(1, name) + text(2, package) + more + declared + enums + services + extensions + said


def one(name, number, kind, type_name="", label=1, more=b"", json=None):
    """FieldDescriptorProto with its JSON name, as protoc writes it."""
    return of(name, number, kind, type_name, label, more, json or name)


PATTERN = num(9, 0)
HTTP = made_of(
    "google/api/http.proto",
    "google.api",
    b"",
    [
        message(
            "HttpRule",
            [
                *(one(name, at, STRING, more=PATTERN) for at, name in enumerate(["get", "put", "post", "delete", "patch"], 2)),
                one("custom", 8, MESSAGE, ".google.api.CustomHttpPattern", more=PATTERN),
                one("body", 7, STRING),
                one("response_body", 12, STRING, json="responseBody"),
                one("additional_bindings", 11, MESSAGE, ".google.api.HttpRule", 3, json="additionalBindings"),
            ],
            text(8, text(1, "pattern")),
        ),
        message("CustomHttpPattern", [one("kind", 1, STRING), one("path", 2, STRING)]),
    ],
)
DESCRIPTOR = made_of(
    "google/protobuf/descriptor.proto",
    P,
    b"",
    [message("MethodOptions", []), message("UninterpretedOption", [one("double_value", 6, DOUBLE, json="doubleValue")])],
    syntax="proto2",
)
ANNOTATIONS = made_of(
    "google/api/annotations.proto",
    "google.api",
    after("google/api/http.proto", "google/protobuf/descriptor.proto"),
    [],
    extensions=text(7, of("http", 72295728, MESSAGE, ".google.api.HttpRule", more=text(2, f".{P}.MethodOptions"), json="http")),
)
TIMESTAMP = made_of("google/protobuf/timestamp.proto", P, b"", [message("Timestamp", [one("seconds", 1, INT64), one("nanos", 2, INT32)])])
DURATION = made_of("google/protobuf/duration.proto", P, b"", [message("Duration", [one("seconds", 1, INT64), one("nanos", 2, INT32)])])
FIELD_MASK = made_of("google/protobuf/field_mask.proto", P, b"", [message("FieldMask", [one("paths", 1, STRING, label=3)])])
WRAPPERS_FILE = made_of("google/protobuf/wrappers.proto", P, b"", [message("DoubleValue", [one("value", 1, DOUBLE)]), message("Int64Value", [one("value", 1, INT64)])])


def book(*fields):
    """The message Book, with these fields behind its own."""
    return message(
        "Book",
        [
            one("name", 1, STRING),
            one("title", 2, STRING),
            one("pages", 3, INT32),
            one("marks", 4, INT64, label=3),
            one("kind", 5, ENUM, ".lib.v1.Kind"),
            one("made", 6, MESSAGE, f".{P}.Timestamp"),
            one("loan", 7, MESSAGE, f".{P}.Duration"),
            one("cover", 8, BYTES),
            one("stock", 9, MESSAGE, ".lib.v1.Book.StockEntry", 3),
            one("person", 10, STRING, more=num(9, 0)),
            one("card", 11, INT64, more=num(9, 0)),
            one("lent", 12, BOOL, more=num(9, 1) + num(17, 1)),
            one("price", 13, MESSAGE, f".{P}.Int64Value"),
            one("sequel", 14, MESSAGE, ".lib.v1.Book"),
            *fields,
        ],
        text(3, message("StockEntry", [one("key", 1, STRING), one("value", 2, INT32)], MAP_ENTRY)) + text(8, text(1, "owner")) + text(8, text(1, "_lent")),
    )


def bound(name, request, response, template, pattern=2, body="", streams=b""):
    """MethodDescriptorProto with a rule."""
    http = text(pattern, template) + (text(7, body) if body else b"")
    return method(name, f".lib.v1.{request}", f".lib.v1.{response}", http, streams)


LIBRARY = service(
    "Library",
    [
        bound("GetShelf", "Shelf", "Shelf", "/v1/{name=shelves/*}"),
        bound("GetFile", "FileName", "FileName", "/v1/files/{p=**}"),
        bound("PatchBook", "PatchBookRequest", "Book", "/v1/{book.name=books/*}", 6, "book"),
        bound("ListBooks", "ListBooksRequest", "Book", "/v1/{name=shelves/*}/books", streams=num(6, 1)),
        bound("AddBook", "Book", "Book", "/v1/books", 4, "*"),
        bound("AddMany", "Book", "Item", "/v1/books:many", 4, "*", num(5, 1)),
        bound("GetItem", "Item", "Item", "/v1/x/{id}"),
    ],
)


def library(*fields):
    """The file of the library, with these fields behind those of Book."""
    imported = ["timestamp", "duration", "field_mask", "wrappers"]
    messages = [
        book(*fields),
        message("Shelf", [one("name", 1, STRING)]),
        message("FileName", [one("p", 1, STRING)]),
        message("PatchBookRequest", [one("book", 1, MESSAGE, ".lib.v1.Book"), one("update_mask", 2, MESSAGE, f".{P}.FieldMask", json="updateMask")]),
        message("ListBooksRequest", [one("name", 1, STRING), one("page", 2, INT32), one("tag", 3, STRING, label=3)]),
        message("Item", [one("id", 1, STRING)]),
    ]
    more = after("google/api/annotations.proto", *(f"google/protobuf/{name}.proto" for name in imported))
    kinds_of = text(5, enum("Kind", ("NONE", 0), ("NOVEL", 1), ("POEM", 2)))
    return made_of("library.proto", "lib.v1", more, messages, enums=kinds_of, services=text(6, LIBRARY))


IMPORTED = [HTTP, DESCRIPTOR, ANNOTATIONS, TIMESTAMP, DURATION, FIELD_MASK, WRAPPERS_FILE]
LIB = fileset(*IMPORTED, library())
LIB_OF_DOUBLES = fileset(*IMPORTED, library(one("weight", 15, DOUBLE)))

# What `routes` prints of it.
LIB_ROUTES = [
    "GET /v1/{name=shelves/*} /lib.v1.Library/GetShelf - -",
    "GET /v1/files/{p=**} /lib.v1.Library/GetFile - -",
    "PATCH /v1/{book.name=books/*} /lib.v1.Library/PatchBook book -",
    "GET /v1/{name=shelves/*}/books /lib.v1.Library/ListBooks - -",
    "POST /v1/books /lib.v1.Library/AddBook * -",
    "POST /v1/books:many /lib.v1.Library/AddMany * -",
    "GET /v1/x/{id=*} /lib.v1.Library/GetItem - -",
]
