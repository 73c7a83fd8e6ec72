#!/usr/bin/env python3
"""Makes the sample descriptor sets of the repository, byte for byte, from a readable form.

usage: sample_sets.py [--check]

It writes
  crates/grpcjson/data/items.bin the set of items.proto, without imports
  crates/bind_rows/stdin         the rows of `bind`, `check` and `routes`: requests, words, inputs, faults of the
                                 outside, and sets: for faults of reading, of linking and each point of the form that
                                 `bind` serves, one that breaks it alone and one at its edge; and the library's set
  crates/bind_rows/stdout        their answers
With --check it writes nothing, and fails where a file differs from what it would write.
"""
import pathlib
import sys

ROOT = pathlib.Path(__file__).resolve().parent.parent

sys.path.insert(0, str(ROOT / "scripts"))
from set_parts import *  # noqa: E402, F403
from library_set import LIB  # noqa: E402
from told_sets import FAULTY, ITEM_ROUTE, SERVED  # noqa: E402

ITEMS = fileset(file())
ENUM = text(1, "E") + text(2, text(1, "ZERO") + num(2, 0))
NAMES = [field(), field("b_c", 2, json="bC")]
SHORT = "/v1/items/x"

# What `bind` answers: the request means a message with the text "x" as field 1; or it is refused, or means another
# message; every other answer is a fault of the set.
READ = "read"
NOT_BUILT, UNKNOWN, NOT_ALLOWED = "refused 501 not built", "refused 404 path unknown", "refused 405 method not allowed"
NOT_SERVED, BODY_TOO_LONG = "refused 501 method not served", "refused 413 body too long"
NOT_UTF8, BAD_NUMBER = "refused 400 path variable 1: not UTF-8", "refused 400 path variable 1: bad number"


def means(payload):
    """The message of these bytes, in hexadecimal."""
    return "means " + payload



def nested(depth):
    """DescriptorProto with so many levels of messages."""
    out = message("N", [])
    for _ in range(depth - 1):
        out = message("N", [], text(3, out))
    return out


def groups(depth):
    """So many groups in one another."""
    return tag(100, 3) * depth + tag(100, 4) * depth


# label, set, target, whether `bind` serves it, or why not
CASES = [
    ("the sample set", ITEMS, SHORT, READ),
    ("without its last byte", ITEMS[:-1], SHORT, "Wire at 0 Short"),
    ("empty", b"", SHORT, "NoRoute set"),
    ("two files without a name", fileset(file(name=""), file(name="")), SHORT, "DoubleName "),
    ("two files", fileset(file(), file(name="b.proto")), SHORT, "DoubleName p.M"),
    # records
    ("an unlisted LEN record", fileset(file(more=text(9, b"\xff"))), SHORT, READ),
    ("an unlisted VARINT record", fileset(file(more=num(100, 7))), SHORT, READ),
    ("an unlisted I64 record", fileset(file(more=tag(100, 1) + bytes(8))), SHORT, READ),
    ("an unlisted I32 record", fileset(file(more=tag(100, 5) + bytes(4))), SHORT, READ),
    ("an unlisted group", fileset(file(more=tag(100, 3) + tag(100, 4))), SHORT, READ),
    ("an unlisted wire type 6", fileset(file(more=tag(100, 6))), SHORT, "Wire at 83 BadTag"),
    ("a record at the set's level", ITEMS + num(2, 1), SHORT, READ),
    ("an I32 record at the set's level", ITEMS + tag(2, 5) + bytes(4), SHORT, READ),
    ("a tag of two bytes", fileset(file(more=num(16, 1))), SHORT, READ),
    ("a tag of one byte more than it needs", fileset(file(more=tag(15, 0, 2) + b"\x01")), SHORT, READ),
    ("the tag number 0", fileset(file(more=num(0, 1))), SHORT, "Wire at 83 BadTag"),
    ("the tag number 536,870,911", fileset(file(more=num(536870911, 1))), SHORT, READ),
    ("the tag number 536,870,912", fileset(file(more=num(536870912, 1))), SHORT, "Wire at 83 BadTag"),
    ("a varint of 10 bytes", fileset(file(more=num(100, 1, 10))), SHORT, READ),
    ("a varint of 11 bytes", fileset(file(more=num(100, 1, 11))), SHORT, "Wire at 83 LongVarint"),
    ("a length of 10 bytes", fileset(file(more=tag(100, 2) + varint(1, 10) + b"a")), SHORT, READ),
    ("a length of 11 bytes", fileset(file(more=tag(100, 2) + varint(1, 11) + b"a")), SHORT, "Wire at 83 LongVarint"),
    ("a length past the end of its file", fileset(file() + tag(100, 2) + varint(1)), SHORT, "Wire at 91 Short"),
    ("a length past the end", fileset(file(more=tag(100, 2) + varint(2) + b"a")), SHORT, "Wire at 88 BadTag"),
    ("a number of 10 bytes", of_field(number=None, more=num(3, 1, 10)), SHORT, READ),
    ("a number of 11 bytes", of_field(number=None, more=num(3, 1, 11)), SHORT, "Wire at 29 LongVarint"),
    ("a number cut to 32 bits", of_field(number=(1 << 32) + 1), SHORT, READ),
    ("a text that is not UTF-8", fileset(file(name=b"\xff.proto")), SHORT, "NotUtf8 at 2"),
    ("a text that is cut in a character", fileset(file(name=b"\xe2\x82")), SHORT, "NotUtf8 at 2"),
    ("a text of all lengths of characters", fileset(file(name="a\u00e9\u20ac\U0001f600")), SHORT, READ),
    ("a template that is not UTF-8", of_rule(b"/v1/\xff/{id}"), SHORT, "NotUtf8 at 67"),
    ("an unlisted text that is not UTF-8", of_field(more=text(7, b"\xff")), SHORT, READ),
    ("a listed text as VARINT", fileset(file(more=num(2, 1), package=None)), SHORT, "UnknownType /S/Get .p.M"),
    ("a listed number as LEN", of_field(label=None, more=text(4, "a")), SHORT, "BadField p.M.id"),
    ("a listed message as VARINT", fileset(file(more=num(5, 1))), SHORT, READ),
    ("a file's name twice", fileset(file(more=text(1, "a.proto"))), SHORT, READ),
    ("a field's number twice", of_field(more=num(3, 1)), SHORT, READ),
    ("a rule's body twice", of_rule(more=text(7, "") + text(7, "")), SHORT, READ),
    ("method options twice", of_method(more=text(4, b"")), SHORT, READ),
    ("an unlisted field twice", of_field(more=text(7, "a") + text(7, "b")), SHORT, READ),
    # faults of groups and of depth
    ("a group that is open", fileset(file(more=tag(100, 3))), SHORT, "Wire at 83 BadGroup"),
    ("a group's end alone", fileset(file(more=tag(100, 4))), SHORT, "Wire at 83 BadGroup"),
    ("a group with the end of another", fileset(file(more=tag(100, 3) + tag(101, 4))), SHORT, "Wire at 85 BadGroup"),
    ("groups in 100 levels", fileset(file(more=groups(98))), SHORT, READ),
    ("groups in 101 levels", fileset(file(more=groups(99))), SHORT, "Wire at 280 TooDeep"),
    ("messages in 100 levels", fileset(file(more=text(4, nested(98)))), SHORT, READ),
    ("messages in 101 levels", fileset(file(more=text(4, nested(99)))), SHORT, "Wire at 648 TooDeep"),
    # two faults: the first counts
    ("a text that is not UTF-8 before a bad tag", fileset(file(name=b"\xff", more=num(0, 1))), SHORT, "NotUtf8 at 2"),
    ("a bad tag before a text that is not UTF-8", fileset(num(0, 1) + file(name=b"\xff")), SHORT, "Wire at 2 BadTag"),
    ("a cut record before a text that is not UTF-8", text(1, file(name=b"\xff"))[:-1], SHORT, "Wire at 0 Short"),
    ("a text that is not UTF-8 before a cut record", fileset(file(name=b"\xff")) + ITEMS[:-1], SHORT, "NotUtf8 at 2"),
    ("a file that is not UTF-8 behind one that is", fileset(file(), file(name=b"\xff")), SHORT, "NotUtf8 at 93"),
    ("a fault in a message that a later record replaces", of_method(http=b"", more=text(4, options(text(2, b"\xff"))) + text(4, options(rule()))), SHORT, "NotUtf8 at 67"),
    # singular fields twice: the last counts, and messages merge
    ("two templates, the last that of the target", of_rule("/v2/{id}", text(2, "/v1/items/{id}")), SHORT, READ),
    ("two templates in the other order", of_rule("/v1/items/{id}", text(2, "/v2/{id}")), "/v2/x", READ),
    ("two syntaxes, the last proto3", fileset(file(more=text(12, "proto2"))), SHORT, READ),
    ("two syntaxes, the last proto2", fileset(file() + text(12, "proto2")), SHORT, "Proto2 p.M"),
    ("method options in two records, one with a body", of_method(more=text(4, options(text(7, "*")))), SHORT, NOT_BUILT),
    ("method options in two records, one without a rule", of_method(more=text(4, num(33, 1))), SHORT, READ),
    # the file
    ("no syntax", fileset(file(syntax=None)), SHORT, "Proto2 p.M"),
    ("syntax proto2", fileset(file(syntax="proto2")), SHORT, "Proto2 p.M"),
    ("syntax editions", fileset(file(syntax="editions")), SHORT, "Edition p.M"),
    ("package google", fileset(file(package="google")), SHORT, "UnknownType /google.S/Get .p.M"),
    ("a package that begins with google", fileset(file(package="google.p")), SHORT, "UnknownType /google.p.S/Get .p.M"),
    ("package googl", fileset(file(package="googl", services=[service(methods=[method(request=".googl.M", response=".googl.M")])])), SHORT, READ),
    ("no package", fileset(file(package=None, services=[service(methods=[method(request=".M", response=".M")])])), SHORT, READ),
    ("an enum in the file", fileset(file(more=text(5, ENUM))), SHORT, READ),
    ("an extension in the file", fileset(file(more=text(7, field()))), SHORT, READ),
    # messages
    ("a nested type", of_message(more=text(3, message("N"))), SHORT, READ),
    ("an enum in a message", of_message(more=text(4, ENUM)), SHORT, READ),
    ("an extension in a message", of_message(more=text(6, field())), SHORT, READ),
    ("message options", of_message(more=text(7, b"")), SHORT, READ),
    ("a message set", of_message(more=text(7, num(1, 1))), SHORT, "Extension p.M"),
    ("a map's entry", of_message(more=text(7, num(7, 1))), SHORT, READ),
    ("neither of both, said", of_message(more=text(7, num(1, 0) + num(7, 0))), SHORT, READ),
    ("a map's entry in the first of two records of options", of_message(more=text(7, num(7, 1)) + text(7, num(3, 1))), SHORT, READ),
    ("another option of a message", of_message(more=text(7, num(3, 1))), SHORT, READ),
    ("an oneof without members", of_message(more=text(8, text(1, "o"))), SHORT, READ),
    ("two messages of two names", fileset(file(messages=[message(), message("N")])), SHORT, READ),
    ("two messages of one name", fileset(file(messages=[message(), message("M", [])])), SHORT, "DoubleName p.M"),
    ("a message that no method names, with a number", fileset(file(messages=[message(), message("N", [field(kind=5)])])), SHORT, READ),
    # fields
    ("type double", of_field(kind=1), SHORT, "Float p.M.id /p.S/Get"),
    ("type int32", of_field(kind=5), SHORT, BAD_NUMBER),
    ("type bytes", of_field(kind=12), SHORT, NOT_BUILT),
    ("no type", of_field(kind=None), SHORT, "BadField p.M.id"),
    ("label required", of_field(label=2), SHORT, "BadField p.M.id"),
    ("label repeated", of_field(label=3), SHORT, "PathField /p.S/Get id"),
    ("no label", of_field(label=None), SHORT, "BadField p.M.id"),
    ("an oneof index", of_message(fields=[field(more=num(9, 0))], more=text(8, text(1, "o"))), SHORT, READ),
    ("proto3 optional", of_field(more=num(17, 1)), SHORT, READ),
    ("proto3 optional said to be false", of_field(more=num(17, 0)), SHORT, READ),
    ("field number 0", of_field(number=0), SHORT, "BadField p.M.id"),
    ("field number -1", of_field(number=-1), SHORT, "BadField p.M.id"),
    ("field number 536,870,911", of_field(number=536870911), SHORT, READ),
    ("field number 536,870,912", of_field(number=536870912), SHORT, "BadField p.M.id"),
    ("two fields", of_message(fields=NAMES), SHORT, READ),
    ("two fields of one number", of_message(fields=[field(), field("b", 1, json="b")]), SHORT, "BadField p.M.b"),
    ("two fields of one name", of_message(fields=[field(), field("id", 2, json="b")]), SHORT, "SameJsonName p.M id"),
    ("two fields of one JSON name", of_message(fields=[field(), field("b", 2, json="id")]), SHORT, "SameJsonName p.M id"),
    ("a name that is another's JSON name", of_message(fields=[field(json="b"), field("b", 2, json="c")]), SHORT, "SameJsonName p.M b"),
    ("two names that give one JSON name", of_message(fields=[field(json=None), field("i_d", 2, json=None), field("iD", 3, json=None)]), SHORT, "SameJsonName p.M iD"),
    ("an absent JSON name", of_field(json=None), SHORT, READ),
    ("a present, empty JSON name", of_field(json=""), SHORT, READ),
    # the service
    ("no service", fileset(file(services=[])), SHORT, "NoRoute set"),
    ("two services", fileset(file(services=[service(), service("T", [])])), SHORT, READ),
    ("no method", fileset(file(services=[service(methods=[])])), SHORT, "NoRoute set"),
    ("two methods", fileset(file(services=[service(methods=[method(), method("Put", http=b"")])])), SHORT, READ),
    ("two methods with rules", fileset(file(services=[service(methods=[method(), method("Put", http=rule("/v2/{id}"))])])), SHORT, READ),
    ("two methods with one route", fileset(file(services=[service(methods=[method(), method("Put")])])), SHORT, "SameRoute /p.S/Get /p.S/Put"),
    ("a client that streams", of_method(more=num(5, 1)), SHORT, NOT_BUILT),
    ("a server that streams", of_method(more=num(6, 1)), SHORT, READ),
    ("neither streams, said", of_method(more=num(5, 0) + num(6, 0)), SHORT, READ),
    ("a request of another name", of_method(request=".p.N"), SHORT, "UnknownType /p.S/Get .p.N"),
    ("a request without its leading dot", of_method(request="p.M"), SHORT, "UnknownType /p.S/Get p.M"),
    ("a response of another name", of_method(response=".q.M"), SHORT, "UnknownType /p.S/Get .q.M"),
    ("a response that is another message", fileset(file(messages=[message(), message("N")], services=[service(methods=[method(response=".p.N")])])), SHORT, READ),
    # the rule
    ("no rule", of_method(http=b""), SHORT, "NoRoute set"),
    ("an empty rule", of_method(http=b"", more=text(4, options(b""))), SHORT, "NoPattern /p.S/Get"),
    ("a POST", of_method(http=text(4, "/v1/items/{id}")), SHORT, NOT_ALLOWED),
    ("a GET behind a PUT", of_method(http=text(3, "/v1/{id}") + rule()), SHORT, READ),
    ("a PUT behind a GET", of_rule(more=text(3, "/v1/{id}")), SHORT, UNKNOWN),
    ("a custom kind GET", of_method(http=text(8, text(1, "GET") + text(2, "/v1/items/{id}"))), SHORT, READ),
    ("a custom kind", of_method(http=text(8, text(1, "K") + text(2, "/v1/items/{id}"))), SHORT, NOT_ALLOWED),
    ("a body", of_rule(more=text(7, "*")), SHORT, NOT_BUILT),
    ("a body of no field", of_rule(more=text(7, "name")), SHORT, "BodyField /p.S/Get name"),
    ("an empty body", of_rule(more=text(7, "")), SHORT, READ),
    ("a response body", of_rule(more=text(12, "id")), SHORT, READ),
    ("a response body of no field", of_rule(more=text(12, "*")), SHORT, "ResponseField /p.S/Get *"),
    ("an additional binding", of_rule(more=text(11, rule("/v2/{id}"))), SHORT, READ),
    # the template
    ("a variable alone", of_rule("/{id}"), "/x", READ),
    ("a literal behind the variable", of_rule("/{id}/b"), "/x/b", READ),
    ("each literal byte", of_rule("/azAZ09-._~!$&'()+,;=@/{id}"), "/azAZ09-._~!$&'()+,;=@/x", READ),
    ("64 segments", of_rule("/a" * 63 + "/{id}"), "/a" * 63 + "/x", READ),
    ("65 segments", of_rule("/a" * 64 + "/{id}"), "/a" * 64 + "/x", "TemplateAt /p.S/Get many"),
    ("no variable", of_rule("/v1/items"), SHORT, UNKNOWN),
    ("two variables", fileset(file(messages=[message(fields=NAMES)], services=[service(methods=[method(http=rule("/v1/{id}/{b_c}"))])])), SHORT, means("0a056974656d73120178")),
    ("one variable twice", of_rule("/v1/{id}/{id}"), SHORT, "PathField /p.S/Get id"),
    ("a variable of another name", of_rule("/v1/items/{name}"), SHORT, "PathField /p.S/Get name"),
    ("a variable with its segment", of_rule("/v1/items/{id=*}"), SHORT, READ),
    ("a variable of a literal", of_rule("/v1/items/{id=x}"), SHORT, READ),
    ("a variable of two segments", of_rule("/v1/{id=items/*}"), SHORT, means("0a076974656d732f78")),
    ("a variable of all that follows", of_rule("/v1/items/{id=**}"), SHORT, READ),
    ("a variable in a message", of_message(fields=[field(), field("x", 2, 1, 11, "x", text(6, ".p.M"))]), SHORT, READ),
    ("a variable of a field in a message", fileset(file(messages=[message(fields=[field("x", 2, 1, 11, "x", text(6, ".p.N"))]), message("N")], services=[service(methods=[method(http=rule("/v1/items/{x.id}"))])])), SHORT, means("12030a0178")),
    ("a variable of no name", of_rule("/v1/items/{}"), SHORT, "TemplateAt /p.S/Get 11"),
    ("an open brace", of_rule("/v1/items/{id"), SHORT, "TemplateAt /p.S/Get 13"),
    ("a verb", of_rule("/v1/items/{id}:go"), SHORT, UNKNOWN),
    ("a wildcard", of_rule("/v1/*/{id}"), SHORT, READ),
    ("a wildcard behind the variable", of_rule("/v1/{id}/*"), "/v1/x/items", READ),
    ("all that follows behind the variable", of_rule("/v1/items/{id}/**"), SHORT, READ),
    ("a slash at the end", of_rule("/v1/items/{id}/"), SHORT, "TemplateAt /p.S/Get 15"),
    ("no slash at the front", of_rule("v1/items/{id}"), SHORT, "TemplateAt /p.S/Get 0"),
    ("two slashes", of_rule("/v1//{id}"), SHORT, "TemplateAt /p.S/Get 4"),
    ("an escape", of_rule("/v%31/{id}"), SHORT, "TemplateAt /p.S/Get 2"),
    ("a blank", of_rule("/v 1/{id}"), SHORT, "TemplateAt /p.S/Get 2"),
    ("a letter that is not ASCII", of_rule("/v\u00e9/{id}"), SHORT, "TemplateAt /p.S/Get 2"),
    ("an empty template", of_rule(""), SHORT, "TemplateAt /p.S/Get 0"),
]


# Served sets whose path or payload is another than that of the sample set.
OTHER_ANSWERS = {
    "field number 536,870,911": ("/p.S/Get", "faffffff0f0178"),
    "package googl": ("/googl.S/Get", "0a0178"),
    "no package": ("/S/Get", "0a0178"),
}

# A target, and the payload that is bound of it.
BOUND = [
    ("/v1/items/a%2Fb", "0a03612f62"),
    ("/v1/items/a%2fb", "0a03612f62"),
    ("/v1/items/x", "0a0178"),
    ("/v1/items/%zz", "0a03257a7a"),
    ("/v1/items/%", "0a0125"),
    ("/v1/items/%C3%A9", "0a02c3a9"),
    ("/v1/items/a+b:c", "0a05612b623a63"),
    ("/v1/items/a#b", "0a03612362"),
    # a target in absolute form (RFC 9112, section 3.2.2)
    ("http://h/v1/items/x", "0a0178"),
    ("HTTP://h:80/v1/items/x", "0a0178"),
    ("hTTp:///v1/items/a%2Fb", "0a03612f62"),
]

# A method and a target, and what refuses them.
REFUSED = [
    ("GET", "/v1/items/%ff", NOT_UTF8),
    ("GET", "/v1/items/%C3", NOT_UTF8),
    ("GET", "/v1/items/", UNKNOWN),
    ("GET", "/v1/items", UNKNOWN),
    ("GET", "/v1/items/x/", UNKNOWN),
    ("GET", "/v1//items/x", UNKNOWN),
    ("GET", "/V1/items/x", UNKNOWN),
    ("GET", "/v1/%69tems/x", UNKNOWN),
    ("GET", "/", UNKNOWN),
    ("POST", "/v1/items/x", NOT_ALLOWED),
    ("get", "/v1/items/x", NOT_ALLOWED),
    ("GET", "/v1/items/x?", NOT_BUILT),
    ("GET", "v1/items/x", UNKNOWN),
    ("GET", "http://h/v1/items/", UNKNOWN),
    ("GET", "", UNKNOWN),
    ("GET", "*", UNKNOWN),
    ("GET", "h:80", UNKNOWN),
    ("GET", "ftp://h/v1/items/x", UNKNOWN),
    ("GET", "https://h/v1/items/x", UNKNOWN),
    ("GET", "http:/h/v1/items/x", UNKNOWN),
    ("GET", "http://h", UNKNOWN),
    ("GET", "http://h?x", UNKNOWN),
    ("GET", "http://h/v1/items/x?", NOT_BUILT),
    ("POST", "/v1/items/x?", NOT_ALLOWED),
    ("GET", "/other?", UNKNOWN),
    # HEAD and CONNECT come first, whatever the target is, and byte for byte
    ("HEAD", "/v1/items/x", NOT_SERVED),
    ("CONNECT", "h:80", NOT_SERVED),
    ("HEAD", "/other", NOT_SERVED),
    ("head", "/v1/items/x", NOT_ALLOWED),
    ("HEADS", "/v1/items/x", NOT_ALLOWED),
]

# Words that are no command.
USAGE = [
    [],
    ["bind"],
    ["bind", "items.bin"],
    ["bind", "items.bin", "GET"],
    ["bind", "items.bin", "GET", "/v1/items/x", "x-a:b"],
    ["bind", "items.bin", "", "/v1/items/x"],
    ["bind", "items.bin", "G T", "/v1/items/x"],
    ["bind", "items.bin", "GET", "/v1/items/ x"],
    ["bind", "items.bin", "GET", "/v1/items/\u00e9"],
    ["bind", "items.bin", "GET", "/v1/items/\x7f"],
    ["Bind", "items.bin", "GET", "/v1/items/x"],
    ["serve", "items.bin", "l", "u"],
    ["routes"],
    ["check"],
    ["routes", "items.bin", "GET"],
    ["check", "items.bin", "items.bin"],
    ["check", "items.bin", "GET", "/v1/items/x"],
    ["Check", "items.bin"],
    ["route", "items.bin"],
    ["routes", "items.bin", ""],
    ["answer", "items.bin", "GET", "/v1/items/x", "0", ""],
    ["load", "1"],
    ["expand", "items.bin", "0"],
    ["openapi", "items.bin"],
    ["fetch", "u"],
    ["--help"],
]


def word(data):
    """A word of bytes: visible text, or hexadecimal digits."""
    data = data.encode() if isinstance(data, str) else data
    if data and all(0x21 <= b <= 0x7E and b != ord("|") for b in data):
        return "'" + data.decode()
    return data.hex() or "-"


def frame(payload, path="/p.S/Get"):
    """The output of `bind` for a payload in hexadecimal."""
    return f"path {path}\nframe 00{len(payload) // 2:08x}{payload}\n"


def debugged(line):
    return '"' + line.replace("\n", "\\n") + '"'


def many(size):
    """The word of so many blanks."""
    times, rest = divmod(size, 256)
    return f"{times}*{'20' * 256}" + (f"|{rest}*20" if rest else "")


def padded(size):
    """The word of the sample set with an unlisted record behind it, of so many bytes."""
    payload = size - len(ITEMS) - 5
    head = tag(2, 2) + varint(payload, 4)
    assert len(head) == 5
    times, rest = divmod(payload, 256)
    return f"{(ITEMS + head).hex()}|{times}*{'00' * 256}|{rest}*00"


def row(label, words, status, out="", err="", data=ITEMS, room=70_000, failing="-", body="-", cut="-", left=0):
    """A row and its answer: words over a set and an input, the status, what is written, the error line, and how many
    bytes of the input are left."""
    data = data if isinstance(data, str) else data.hex() or "-"
    asked = " ".join([f"{room} {failing} {data} {body} {cut}", *map(word, words)])
    return label.replace(" ", "_"), asked, f"{status} {debugged(out)} {debugged(err)} {left}"


def bind(target, method="GET"):
    return ["bind", "items.bin", method, target]


def told_rows():
    """Rows of `check` and `routes`."""
    for at, (label, data, routes) in enumerate(SERVED, 1):
        lines = "".join(f"{line}\n" for line in routes)
        yield row(f"sets_are_told:check_{label}", ["check", "items.bin"], 0, f"bindings {len(routes)}\n", data=data)
        yield row(f"sets_are_told:routes_{label}", ["routes", "items.bin"], 0, lines, data=data)
    long = ("a set that is too long", padded(16_777_217), "TooLong")
    for label, data, fault in [*FAULTY, long]:
        for command in ["check", "routes"]:
            yield row(f"faulty_sets_are_not_told:{command}_{label}", [command, "items.bin"], 3, "", f"descriptors: {fault}\n", data)
    test = "faults_of_the_outside_end_check_and_routes"
    for at, (command, whole) in enumerate([("check", "bindings 1\n"), ("routes", f"{ITEM_ROUTE}\n")]):
        words = [command, "items.bin"]
        yield row(f"{test}_{command}_1", words, 0, whole, room=len(whole))
        yield row(f"{test}_{command}_2", [command, "lost.bin"], 4, "", "read fault\n")
        yield row(f"{test}_{command}_3", words, 5, "", "write fault\n", failing=0)
        yield row(f"{test}_{command}_4", words, 5, "", "write fault\n", room=0)
        yield row(f"{test}_{command}_5", words, 5, whole[:-1], "write fault\n", room=len(whole) - 1)
        yield row(f"{test}_{command}_6", [command, ""], 4, "", "read fault\n")


def input_rows():
    """Rows of what is read of the input, and when."""
    test = "the_input_is_read_behind_the_set_and_before_a_refusal"
    yield row(f"{test}_1", bind(SHORT), 0, frame("0a0178"), body="'abc")
    yield row(f"{test}_2", bind(SHORT), 4, "", "read fault\n", body="'abc", cut=0, left=3)
    yield row(f"{test}_3", bind(SHORT), 4, "", "read fault\n", body="'abc", cut=1)
    yield row(f"{test}_4", bind("/other"), 4, "", "read fault\n", body="'abc", cut=0, left=3)
    yield row(f"{test}_5", bind("/other"), 9, "", f"{UNKNOWN}\n", body="'abc")
    yield row(f"{test}_6", bind(SHORT), 3, "", "descriptors: Wire at 0 Short\n", ITEMS[:-1], body="'abc", cut=0, left=3)
    yield row(f"{test}_7", ["bind", "lost.bin", "GET", SHORT], 4, "", "read fault\n", body="'abc", left=3)
    yield row(f"{test}_8", ["bind", "items.bin", "GET"], 2, "", "usage\n", body="'abc", cut=0, left=3)
    yield row(f"{test}_9", ["check", "items.bin"], 0, "bindings 1\n", body="'abc", cut=0, left=3)
    yield row(f"{test}_10", ["routes", "items.bin"], 0, f"{ITEM_ROUTE}\n", body="'abc", cut=0, left=3)
    yield row(f"{test}_11", bind(SHORT), 5, "", "write fault\n", body="'abc", failing=0)
    yield row(f"{test}_12", bind(SHORT), 4, "", "read fault\n", body=many(20_000), cut=1, left=20_000 - 16_384)
    test = "a_body_has_at_most_1048576_bytes"
    yield row(f"{test}_1", bind(SHORT), 0, frame("0a0178"), body=many(1_048_576))
    yield row(f"{test}_2", bind(SHORT), 9, "", f"{BODY_TOO_LONG}\n", body=many(1_048_577))
    yield row(f"{test}_3", bind(SHORT), 9, "", f"{BODY_TOO_LONG}\n", body=many(1_048_578), left=1)
    yield row(f"{test}_4", bind("/v1/items/%ff"), 9, "", f"{NOT_UTF8}\n", body=many(1_048_577))
    yield row(f"{test}_5", bind("/other"), 9, "", f"{UNKNOWN}\n", body=many(1_060_000), left=1_060_000 - 1_048_577)


ENUM_KIND = 14

# Fields of several kinds, each taken by a variable of its own.
KINDS = fileset(
    file(
        messages=[message(fields=[of("n", 1, INT32), of("b", 2, BOOL), of("e", 3, ENUM_KIND, ".p.E"), of("t", 4, STRING), of("y", 5, BYTES), of("u", 6, UINT64), of("m", 7, MESSAGE, ".p.M")])],
        more=text(5, enum("E", ("ZERO", 0), ("ONE", 1), ("LOW", -2))),
        services=[
            service(
                methods=[
                    method("Number", http=rule("/n/{n}")),
                    method("Bool", http=rule("/b/{b}")),
                    method("Enum", http=rule("/e/{e}")),
                    method("Bytes", http=rule("/y/{y}")),
                    method("Unsigned", http=rule("/u/{u}")),
                    method("Two", http=rule("/two/{n}/{m.e}")),
                    method("Star", http=rule("/v1/*")),
                    method("StarGo", http=rule("/v1/*:go")),
                    method("A", http=rule("/v1/a")),
                    method("StarB", http=rule("/v2/*/b")),
                    method("AStar", http=rule("/v2/a/*")),
                    method("Rest", http=rule("/v3/**")),
                    method("Bare", http=rule("/v3")),
                    method("Posted", http=text(4, "/post/{t}") + text(7, "*")),
                ]
            )
        ],
    )
)
INT32_FAULT = "refused 400 path variable 1: "

# A target over KINDS, the method that is called, and the payload; or what refuses it.
OF_KINDS = [
    ("/n/0", "Number", ""),
    ("/n/7", "Number", "0807"),
    ("/n/-1", "Number", "08ffffffffffffffffff01"),
    ("/n/2147483647", "Number", "08ffffffff07"),
    ("/n/-2147483648", "Number", "0880808080f8ffffffff01"),
    ("/n/2147483648", INT32_FAULT + "out of range", None),
    ("/n/-2147483649", INT32_FAULT + "out of range", None),
    ("/n/1e2", "Number", "0864"),
    ("/n/1.5", INT32_FAULT + "bad number", None),
    ("/n/+1", INT32_FAULT + "bad number", None),
    ("/n/x", INT32_FAULT + "bad number", None),
    ("/b/true", "Bool", "1001"),
    ("/b/false", "Bool", ""),
    ("/b/1", INT32_FAULT + "bad text", None),
    ("/e/ONE", "Enum", "1801"),
    ("/e/1", "Enum", "1801"),
    ("/e/ZERO", "Enum", ""),
    ("/e/LOW", "Enum", "18feffffffffffffffff01"),
    ("/e/-2", "Enum", "18feffffffffffffffff01"),
    ("/e/7", "Enum", "1807"),
    ("/e/TWO", INT32_FAULT + "bad enum", None),
    ("/e/one", INT32_FAULT + "bad enum", None),
    ("/y/AA", NOT_BUILT, None),
    ("/u/18446744073709551615", "Unsigned", "30ffffffffffffffffff01"),
    ("/u/18446744073709551616", INT32_FAULT + "out of range", None),
    ("/u/-1", INT32_FAULT + "out of range", None),
    ("/two/7/ONE", "Two", "08073a021801"),
    ("/two/7/ZERO", "Two", "08073a00"),
    # the first variable that is wrong is told
    ("/two/x/TWO", INT32_FAULT + "bad number", None),
    ("/two/7/TWO", "refused 400 path variable 2: bad enum", None),
    # which of several bindings is chosen
    ("/v1/a:go", "StarGo", ""),
    ("/v1/a", "A", ""),
    ("/v1/a:no", "Star", ""),
    ("/v2/a/b", "AStar", ""),
    ("/v3", "Bare", ""),
    ("/v3/a", "Rest", ""),
    ("/v3/", UNKNOWN, None),
    ("/post/x", NOT_ALLOWED, None),
]

# A method and a target over the library's set, and the payload and the method that is called; or what refuses it.
OF_LIBRARY = [
    ("GET", "/v1/shelves/7", "GetShelf", "0a097368656c7665732f37"),
    ("GET", "/v1/shelves/a%2Fb", "GetShelf", "0a0d7368656c7665732f6125324662"),
    ("GET", "/v1/x/a%2Fb", "GetItem", "0a03612f62"),
    ("GET", "/v1/files", "GetFile", ""),
    ("GET", "/v1/files/a/b", "GetFile", "0a03612f62"),
    ("GET", "/v1/files/", UNKNOWN, None),
    ("GET", "/v1/shelves/7/books", "ListBooks", "0a097368656c7665732f37"),
    ("GET", "http://lib.example/v1/shelves/7", "GetShelf", "0a097368656c7665732f37"),
    ("GET", "/v1/books", NOT_ALLOWED, None),
    ("PATCH", "/v1/books/9", NOT_BUILT, None),
    ("POST", "/v1/books", NOT_BUILT, None),
    ("POST", "/v1/books:many", NOT_BUILT, None),
    ("GET", "/v1/shelves/7/books?page=1", NOT_BUILT, None),
    ("HEAD", "/v1/shelves/7", NOT_SERVED, None),
]


def request_rows():
    """Rows of requests over sets of several methods."""
    for at, (target, called, payload) in enumerate(OF_KINDS, 1):
        label, words = f"values_are_read_and_routes_chosen_{at}", bind(target)
        if payload is None:
            yield row(label, words, 9, "", f"{called}\n", KINDS)
        else:
            yield row(label, words, 0, frame(payload, f"/p.S/{called}"), data=KINDS)
    yield row("values_are_read_and_routes_chosen:a_body_is_not_built", bind("/post/x", "POST"), 9, "", f"{NOT_BUILT}\n", KINDS)
    for at, (method_word, target, called, payload) in enumerate(OF_LIBRARY, 1):
        label, words = f"the_library_is_served_{at}", bind(target, method_word)
        if payload is None:
            yield row(label, words, 9, "", f"{called}\n", LIB)
        else:
            yield row(label, words, 0, frame(payload, f"/lib.v1.Library/{called}"), data=LIB)


def bind_rows():
    for at, (target, payload) in enumerate(BOUND, 1):
        yield row(f"bound_requests_print_their_frame_{at}", bind(target), 0, frame(payload))
    for at, (method, target, why) in enumerate(REFUSED, 1):
        yield row(f"refused_requests_print_one_line_{at}", bind(target, method), 9, "", f"{why}\n")
    test = "a_target_is_of_any_length"
    long = "/v1/items/" + "x" * 16_374
    yield row(f"{test}_1", bind(long), 0, frame("0af67f" + "78" * 16_374))
    yield row(f"{test}_2", bind(long + "x"), 0, frame("0af77f" + "78" * 16_375))
    test = "a_set_has_at_most_16777216_bytes"
    yield row(f"{test}_1", bind(SHORT), 0, frame("0a0178"), data=padded(16_777_216))
    yield row(f"{test}_2", bind(SHORT), 3, "", "descriptors: TooLong\n", padded(16_777_217))
    for at, words in enumerate(USAGE, 1):
        yield row(f"words_that_are_no_command_are_usage_{at}", words, 2, "", "usage\n", room=64)
    test, whole = "faults_of_the_outside_are_named", frame("0a0178")
    yield row(f"{test}_1", bind(SHORT), 0, whole, room=64)
    yield row(f"{test}_2", ["bind", "lost.bin", "GET", SHORT], 4, "", "read fault\n", room=64)
    yield row(f"{test}_3", bind(SHORT), 5, "", "write fault\n", room=64, failing=0)
    yield row(f"{test}_4", bind(SHORT), 5, "", "write fault\n", room=0)
    yield row(f"{test}_5", bind(SHORT), 5, whole[:10], "write fault\n", room=10)
    for label, data, target, verdict in CASES:
        path, payload = OTHER_ANSWERS.get(label, ("/p.S/Get", "0a0178"))
        label = f"each_fault_and_each_point_of_the_form_is_judged:{label}"
        if verdict == READ:
            yield row(label, bind(target), 0, frame(payload, path), data=data)
        elif verdict.startswith("means "):
            yield row(label, bind(target), 0, frame(verdict.split()[1]), data=data)
        elif verdict.startswith("refused "):
            yield row(label, bind(target), 9, "", f"{verdict}\n", data)
        else:
            yield row(label, bind(target), 3, "", f"descriptors: {verdict}\n", data)
    for at, (method_word, target, why) in enumerate([("GET", SHORT, UNKNOWN), ("POST", f"{SHORT}:go", NOT_ALLOWED), ("GET", "/v1/items/%ff:go", NOT_UTF8)], 1):
        words = bind(target, method_word)
        yield row(f"verbs_are_judged_{at}", words, 9, "", f"{why}\n", of_rule("/v1/items/{id}:go"))
    yield row("verbs_are_judged_4", bind(f"{SHORT}:go"), 0, frame("0a0178"), data=of_rule("/v1/items/{id}:go"))
    test, short_set = "the_set_counts_before_the_request_and_the_request_before_writing", ITEMS[:-1]
    yield row(f"{test}_1", bind(SHORT, "POST"), 3, "", "descriptors: Wire at 0 Short\n", short_set, failing=0)
    yield row(f"{test}_2", ["bind", "lost.bin", "POST", SHORT], 4, "", "read fault\n", short_set, failing=0)
    yield row(f"{test}_3", bind(SHORT, "POST"), 9, "", f"{NOT_ALLOWED}\n", failing=0)
    yield row(f"{test}_4", bind("/other"), 9, "", f"{UNKNOWN}\n", failing=0)
    yield row(f"{test}_5", ["check", "items.bin"], 3, "", "descriptors: Wire at 0 Short\n", short_set, failing=0)
    yield row(f"{test}_6", ["routes", "lost.bin"], 4, "", "read fault\n", failing=0)
    yield row(f"{test}_7", ["bind", "lost.bin", "G T", SHORT], 2, "", "usage\n", failing=0)
    yield from input_rows()
    yield from request_rows()
    yield from told_rows()


def main():
    rows = list(bind_rows())
    assert len({label for label, _, _ in rows}) == len(rows)
    folder = ROOT / "crates/bind_rows"
    made = {
        ROOT / "crates/grpcjson/data/items.bin": ITEMS,
        folder / "stdin": "".join(f"{label} {asked}\n" for label, asked, _ in rows).encode(),
        folder / "stdout": "".join(f"{label} {answer}\n" for label, _, answer in rows).encode(),
    }
    stale = []
    for path, data in made.items():
        if "--check" in sys.argv[1:]:
            if not path.exists() or path.read_bytes() != data:
                stale.append(path.relative_to(ROOT))
        else:
            path.parent.mkdir(parents=True, exist_ok=True)
            path.write_bytes(data)
    for path in stale:
        print(f"{path} is not what scripts/sample_sets.py makes")
    return 1 if stale else 0


if __name__ == "__main__":
    sys.exit(main())
