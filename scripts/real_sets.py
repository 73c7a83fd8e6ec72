#!/usr/bin/env python3
"""Gives sets that the real protoc writes to the built program, and compares its answers.

usage: real_sets.py [PROGRAM]

The sets are those of the files of google/api, google/rpc and google/protobuf, each with a service of one
GET that reaches some of their messages, and files of 1,000 and 8,000 messages, whose times are printed.
Each answer is worked out by hand from descriptor.proto, google/api/http.proto and the rules of linking in
docs/DEFINITIONS.md. Exit status 77 says that protoc or one of the files is missing.
"""
import pathlib
import subprocess
import sys
import tempfile
import time

ROOT = pathlib.Path(__file__).resolve().parent.parent

sys.path.insert(0, str(ROOT / "scripts"))
from program import built  # noqa: E402
from protoc_set import google_api  # noqa: E402

PROTOBUF = pathlib.Path("/usr/include")
GRPC_PATH = "/real.Real/Get"

# What `bind` prints of /v1/x: the request's field 1 is the string `x`.
SERVED = f"path {GRPC_PATH}\nframe 00000000030a0178\n"


def service(*imports, fields="", response="Request", more="", declared="", syntax="proto3"):
    """A file with one GET whose request has a name and further fields."""
    lines = [f'syntax = "{syntax}";', "package real;", 'import "google/api/annotations.proto";']
    lines += [f'import "{name}";' for name in imports]
    name = "optional string name = 1;" if syntax == "proto2" else "string name = 1;"
    lines += [f"message Request {{ {name} {fields} }}", declared]
    get = '{ option (google.api.http) = { get: "/v1/{name}" }; }'
    lines += [f"service Real {{ rpc Get(Request) returns ({response}) {get} {more} }}"]
    return "\n".join(lines) + "\n"


def reaching(name, file):
    """The same file, whose request has a field `x` of a message or an enum of another file."""
    return service(file, fields=f"{name} x = 2;")


ANY, DESCRIPTOR, STRUCT = "google/protobuf/any.proto", "google/protobuf/descriptor.proto", "google/protobuf/struct.proto"
TYPE, API, WRAPPERS = "google/protobuf/type.proto", "google/protobuf/api.proto", "google/protobuf/wrappers.proto"
TIMESTAMP, DURATION, MASK = "google/protobuf/timestamp.proto", "google/protobuf/duration.proto", "google/protobuf/field_mask.proto"
EMPTY, SOURCE = "google/protobuf/empty.proto", "google/protobuf/source_context.proto"
HTTP, STATUS, CODE, DETAILS = "google/api/http.proto", "google/rpc/status.proto", "google/rpc/code.proto", "google/rpc/error_details.proto"
FILES = [ANY, DESCRIPTOR, STRUCT, TYPE, API, WRAPPERS, TIMESTAMP, DURATION, MASK, EMPTY, SOURCE, HTTP, STATUS, CODE, DETAILS]

IS_ANY = f"AnyType google.protobuf.Any {GRPC_PATH}"
KNOWN = [
    ("google.protobuf.Timestamp", TIMESTAMP),
    ("google.protobuf.Duration", DURATION),
    ("google.protobuf.FieldMask", MASK),
    ("google.protobuf.Empty", EMPTY),
    *((f"google.protobuf.{name}", WRAPPERS) for name in ["Int64Value", "UInt64Value", "Int32Value", "UInt32Value", "BoolValue", "StringValue", "BytesValue"]),
]
EACH_KNOWN = " ".join(f"{name} x{at} = {at + 10}; repeated {name} y{at} = {at + 30}; map<string, {name}> z{at} = {at + 50};" for at, (name, _) in enumerate(KNOWN))
ERRORS = ["RetryInfo", "DebugInfo", "QuotaFailure", "PreconditionFailure", "BadRequest", "RequestInfo", "ResourceInfo", "Help", "LocalizedMessage"]
EACH_ERROR = " ".join(f"google.rpc.{name} x{at} = {at + 10};" for at, name in enumerate(ERRORS))

# label, the file, the answer: None where the set is served, else the first fault
CASES = [
    ("a GET alone", service(), None),
    ("all files, which nothing reaches", service(*FILES), None),
    ("each well-known type that is served", service(*sorted({file for _, file in KNOWN}), fields=EACH_KNOWN), None),
    ("Any", reaching("google.protobuf.Any", ANY), IS_ANY),
    ("Struct", reaching("google.protobuf.Struct", STRUCT), f"StructType google.protobuf.Struct {GRPC_PATH}"),
    ("Value", reaching("google.protobuf.Value", STRUCT), f"StructType google.protobuf.Value {GRPC_PATH}"),
    ("ListValue", reaching("google.protobuf.ListValue", STRUCT), f"StructType google.protobuf.ListValue {GRPC_PATH}"),
    ("NullValue", reaching("google.protobuf.NullValue", STRUCT), f"StructType real.Request.x {GRPC_PATH}"),
    ("FloatValue", reaching("google.protobuf.FloatValue", WRAPPERS), f"Float google.protobuf.FloatValue.value {GRPC_PATH}"),
    ("DoubleValue", reaching("google.protobuf.DoubleValue", WRAPPERS), f"Float google.protobuf.DoubleValue.value {GRPC_PATH}"),
    ("SourceContext", reaching("google.protobuf.SourceContext", SOURCE), None),
    ("Syntax", reaching("google.protobuf.Syntax", TYPE), None),
    # options hold an Any
    *((name, reaching(f"google.protobuf.{name}", TYPE), IS_ANY) for name in ["Type", "Field", "Enum", "EnumValue", "Option"]),
    *((name, reaching(f"google.protobuf.{name}", API), IS_ANY) for name in ["Api", "Method"]),
    ("Mixin", reaching("google.protobuf.Mixin", API), None),
    ("FileDescriptorSet", reaching("google.protobuf.FileDescriptorSet", DESCRIPTOR), "Proto2 google.protobuf.FileDescriptorSet"),
    ("MethodOptions, which annotations.proto extends", reaching("google.protobuf.MethodOptions", DESCRIPTOR), "Proto2 google.protobuf.MethodOptions"),
    *((name, reaching(f"google.api.{name}", HTTP), None) for name in ["Http", "HttpRule", "CustomHttpPattern"]),
    ("Code", reaching("google.rpc.Code", CODE), None),
    ("each message of error_details.proto", service(DETAILS, fields=EACH_ERROR), None),
    ("Status", reaching("google.rpc.Status", STATUS), IS_ANY),
    ("Status as the response", service(STATUS, response="google.rpc.Status"), IS_ANY),
    ("Status of a method without an annotation", service(STATUS, more="rpc Put(google.rpc.Status) returns (Request);"), None),
    ("Any behind a list, a map and a oneof", service(ANY, fields="repeated A a = 2;", declared="message A { map<int32, B> b = 1; } message B { oneof o { C c = 1; string s = 2; } } message C { google.protobuf.Any any = 1; }"), IS_ANY),
    ("a Struct nearer than an Any", service(ANY, STRUCT, fields="A a = 2; google.protobuf.Struct s = 3;", declared="message A { google.protobuf.Any any = 1; }"), f"StructType google.protobuf.Struct {GRPC_PATH}"),
    ("an Any nearer than a float", service(ANY, fields="A a = 2; google.protobuf.Any any = 3;", declared="message A { B b = 1; } message B { float f = 1; }"), IS_ANY),
    ("a map of doubles", service(fields="map<string, double> prices = 2;"), f"Float real.Request.prices {GRPC_PATH}"),
    ("a map of an enum that nests a message and a oneof", service(fields="map<bool, E> es = 2; oneof o { Inner inner = 3; bytes raw = 4; } optional int32 least = 5; message Inner { repeated E es = 1; }", declared="enum E { A = 0; B = 1; }"), None),
    ("an enum with two names of one number", service(fields="E e = 2;", declared="enum E { option allow_alias = true; A = 0; B = 0; }"), None),
    ("proto2", service(syntax="proto2"), "Proto2 real.Request"),
    ("proto2 with a group", service(fields="optional group G = 2 { optional float f = 1; }", syntax="proto2"), "Proto2 real.Request"),
]


def generated(count, last=""):
    """A file of so many messages, all of which the request reaches: message K has messages 2K+1 and
    2K+2, one of them in a list; each tenth has a map of one, each twentieth an enum and a message in it."""
    lines = ['syntax = "proto3";', "package real;", 'import "google/api/annotations.proto";']
    for at in range(count):
        one = ["string name = 1;", "repeated int32 marks = 2;", "optional bool lent = 3;"]
        nexts = [n for n in (2 * at + 1, 2 * at + 2) if n < count]
        for number, n in enumerate(nexts):
            kind = f"map<string, M{n}>" if at % 10 == 0 and number == 0 else f"repeated M{n}" if number == 0 else f"M{n}"
            one += [f"{kind} part_{number} = {number + 4};"]
        if at % 20 == 0:
            one += ["enum Kind { NONE = 0; SOME = 1; }", "message Inner { int64 size = 1; }", "oneof o { Kind kind = 6; Inner inner = 7; }"]
        one += [last] if at == count - 1 else []
        lines += [f"message M{at} {{ {' '.join(one)} }}"]
    return "\n".join([*lines, f'service Real {{ rpc Get(M0) returns (M0) {{ option (google.api.http) = {{ get: "/v1/{{name}}" }}; }} }}', ""])


def flat(count):
    """A file of so many messages, one of which is the request."""
    lines = [service()] + [f"message M{at} {{}}" for at in range(count - 1)]
    return "\n".join(lines) + "\n"


def compiled(folder, include, source, *words):
    """The set that protoc writes of a file."""
    (folder / "real.proto").write_text(source)
    made = ["protoc", f"-I{folder}", f"-I{include}", f"-I{PROTOBUF}", f"--descriptor_set_out={folder}/real.bin", *words, "real.proto"]
    run = subprocess.run(made, cwd=folder, capture_output=True, text=True)
    if run.returncode:
        sys.exit(f"protoc refuses a file: {run.stderr}")
    return (folder / "real.bin").read_bytes()


def bound(program, path):
    """What `bind` answers of a set: status, output and errors, and the seconds that it took."""
    start = time.monotonic()
    run = subprocess.run([program, "bind", path, "GET", "/v1/x"], stdin=subprocess.DEVNULL, capture_output=True, text=True)
    return (run.returncode, run.stdout, run.stderr), time.monotonic() - start


def wanted(fault):
    """The status, output and errors of a served set, or of a fault."""
    return (0, SERVED, "") if fault is None else (3, "", f"descriptors: {fault}\n")


def differs(program, folder, label, data, fault):
    """Prints where the answer is another, and tells whether it is."""
    (folder / "case.bin").write_bytes(data)
    found, _ = bound(program, folder / "case.bin")
    if found != wanted(fault):
        print(f"{label}: {found} in place of {wanted(fault)}")
    return found != wanted(fault)


def seconds(program, folder, data):
    """The least time of three runs over a set."""
    (folder / "case.bin").write_bytes(data)
    return min(bound(program, folder / "case.bin")[1] for _ in range(3))


def answers(folder, include):
    """The sets with their labels and answers."""
    imports = "--include_imports"
    for label, source, fault in CASES:
        yield label, compiled(folder, include, source, imports), fault
    whole = compiled(folder, include, service(), imports)
    yield "a set behind itself", whole + whole, "DoubleName google/api/http.proto"
    yield "a set without its imports", compiled(folder, include, service()), None
    moment = compiled(folder, include, reaching("google.protobuf.Timestamp", TIMESTAMP))
    yield "a field of a file that is not imported", moment, "UnknownType real.Request.x .google.protobuf.Timestamp"
    yield "no annotation", compiled(folder, include, 'syntax = "proto3"; message M {} service S { rpc Get(M) returns (M); }'), "NoRoute set"
    yield "10,000 messages", compiled(folder, include, flat(10_000)), None
    yield "10,001 messages", compiled(folder, include, flat(10_001)), "TooMany types"
    for count in [1_000, 8_000]:
        yield f"{count} messages", compiled(folder, include, generated(count), imports), None
        last = compiled(folder, include, generated(count, "float f = 9;"), imports)
        yield f"{count} messages, the last with a float", last, f"Float real.M{count - 1}.f {GRPC_PATH}"


def times(program, folder, include):
    """Prints the times of 1,000 and 8,000 messages, and tells whether the second is over 40 times the first."""
    small, large = (seconds(program, folder, compiled(folder, include, generated(count), "--include_imports")) for count in [1_000, 8_000])
    print(f"1,000 messages take {small:.3f} s, 8,000 messages {large:.3f} s, {large / small:.1f} times as long")
    if large > 40 * small:
        print("8 times the messages take over 40 times as long")
    return large > 40 * small


def main():
    include = google_api()
    missing = [name for name in FILES if include is None or not ((include / name).exists() or (PROTOBUF / name).exists())]
    if missing:
        print(f"missing: {' '.join(missing)}")
        return 77
    program = sys.argv[1] if len(sys.argv) > 1 else built()
    with tempfile.TemporaryDirectory() as name:
        folder = pathlib.Path(name)
        sets = list(answers(folder, include))
        bad = sum(differs(program, folder, *one) for one in sets)
        slow = times(program, folder, include)
    print(f"{len(sets) - bad} of {len(sets)} real sets are answered as they are to be")
    return 1 if bad or slow else 0


if __name__ == "__main__":
    sys.exit(main())
