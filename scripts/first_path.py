#!/usr/bin/env python3
"""Runs the built program on real files and streams, and compares output, error line and status.

usage: first_path.py [PROGRAM]

Without PROGRAM it builds the program from the checked crate.
"""
import itertools
import pathlib
import subprocess
import sys
import tempfile

ROOT = pathlib.Path(__file__).resolve().parent.parent
ITEMS = ROOT / "crates/grpcjson/data/items.bin"

sys.path.insert(0, str(ROOT / "scripts"))
from library_set import LIB  # noqa: E402
from program import built  # noqa: E402
from set_parts import file, fileset, method, rule, service, text  # noqa: E402

USAGE, READ, WRITE = "usage\n", "read fault\n", "write fault\n"
CUT, NO_ROUTE, LONG = ("descriptors: Wire at 0 Short\n", "descriptors: NoRoute set\n", "descriptors: TooLong\n")
LONG_BODY = "refused 413 body too long\n"
TOLD = {"check": "bindings 1\n", "routes": "GET /v1/items/{id=*} /p.S/Get - -\n"}


# Requests of the library's set: a method, a target, the gRPC method and the frame, or the refusal.
LIBRARY = [
    ("GET", "/v1/shelves/7", "GetShelf", "000000000b0a097368656c7665732f37"),
    ("GET", "/v1/shelves/a%2Fb", "GetShelf", "000000000f0a0d7368656c7665732f6125324662"),
    ("GET", "/v1/x/a%2Fb", "GetItem", "00000000050a03612f62"),
    ("GET", "/v1/files", "GetFile", "0000000000"),
    ("GET", "/v1/files/a/b", "GetFile", "00000000050a03612f62"),
    ("GET", "HTTP://h:80/v1/files/a/b", "GetFile", "00000000050a03612f62"),
    ("GET", "/v1/shelves/7/books", "ListBooks", "000000000b0a097368656c7665732f37"),
    ("GET", "/v1/files/", None, "refused 404 path unknown\n"),
    ("DELETE", "/v1/books", None, "refused 405 method not allowed\n"),
    ("CONNECT", "/v1/books", None, "refused 501 method not served\n"),
    ("POST", "/v1/books", None, "refused 501 not built\n"),
    ("POST", "/v1/books:many", None, "refused 501 not built\n"),
    ("PATCH", "/v1/books/9", None, "refused 501 not built\n"),
    ("GET", "/v1/shelves/7/books?page=1", None, "refused 501 not built\n"),
]

# Templates of GETs, and of paths the template that is found; None where none fits.
CHOICES = [
    (["/v1/*", "/v1/*:go", "/v1/a"], {"/v1/a:go": 1, "/v1/a": 2, "/v1/a:no": 0, "/v1/b": 0, "/v1/:go": 0, "/v1": None}),
    (["/v1/*/b", "/v1/a/*"], {"/v1/a/b": 1, "/v1/c/b": 0, "/v1/a/c": 1, "/v1/c/d": None}),
    (["/v1/**", "/v1"], {"/v1": 1, "/v1/a": 0, "/v1/a/b": 0, "/v1/": None}),
]


def choice_set(templates):
    """A set with a method of its own for each template."""
    return fileset(file(services=[service(methods=[method(f"M{at}", http=rule(one)) for at, one in enumerate(templates)])]))


def choices(folder):
    """As rows, for requests of the library and for paths that several templates fit."""
    library = folder / "library.bin"
    library.write_bytes(LIB)
    for verb, target, name, told in LIBRARY:
        out = f"path /lib.v1.Library/{name}\nframe {told}\n" if name else ""
        yield f"{verb} {target} of the library", ["bind", str(library), verb, target], out, "" if name else told, 0 if name else 9
    for at, (templates, paths) in enumerate(CHOICES):
        path = folder / f"choice{at}.bin"
        path.write_bytes(choice_set(templates))
        for target, found in paths.items():
            out = "" if found is None else f"path /p.S/M{found}\nframe 0000000000\n"
            line = "refused 404 path unknown\n" if found is None else ""
            yield f"{target} among {templates}", ["bind", str(path), "GET", target], out, line, 9 if found is None else 0
        yield f"POST among {templates}", ["bind", str(path), "POST", "/v1/a/b" if at else "/v1/a"], "", "refused 405 method not allowed\n", 9


def frame(payload):
    return f"path /p.S/Get\nframe {payload}\n"


def rows(folder):
    """label, words, output, error line, status"""
    items = str(folder / "items.bin")
    for target, payload in [
        ("/v1/items/a%2Fb", "00000000050a03612f62"),
        ("/v1/items/x", "00000000030a0178"),
        ("/v1/items/%zz", "00000000050a03257a7a"),
    ]:
        yield target, ["bind", items, "GET", target], frame(payload), "", 0
    for method, target, line in [
        ("GET", "/v1/items/%ff", "refused 400 path variable 1: not UTF-8\n"),
        ("GET", "/v1/items/", "refused 404 path unknown\n"),
        ("GET", "/v1/items", "refused 404 path unknown\n"),
        ("POST", "/v1/items/x", "refused 405 method not allowed\n"),
        ("GET", "/v1/items/x?a", "refused 501 not built\n"),
        ("GET", "v1/items/x", "refused 404 path unknown\n"),
        ("HEAD", "/v1/items/x", "refused 501 method not served\n"),
    ]:
        yield f"{method} {target[:20]}", ["bind", items, method, target], "", line, 9
    yield "a target of 100,010 bytes", ["bind", items, "GET", "/v1/items/" + "x" * 100_000], None, "", 0
    for label, name, line, status in [
        ("the set without its last byte", "short.bin", CUT, 3),
        ("an empty set", "empty.bin", NO_ROUTE, 3),
        ("a set of 16,777,216 bytes", "edge.bin", "", 0),
        ("a set of 16,777,217 bytes", "long.bin", LONG, 3),
        ("a set of 17 MiB", "longer.bin", LONG, 3),
        ("a missing set", "lost.bin", READ, 4),
        ("a directory as set", ".", READ, 4),
        ("an empty name", None, READ, 4),
    ]:
        path = "" if name is None else str(folder / name)
        out = frame("00000000030a0178") if status == 0 else ""
        yield label, ["bind", path, "GET", "/v1/items/x"], out, line, status
        for command, told in TOLD.items():
            yield f"{command}: {label}", [command, path], told if status == 0 else "", line, status
    yield "check of the sample set", ["check", items], TOLD["check"], "", 0
    yield "routes of the sample set", ["routes", items], TOLD["routes"], "", 0
    words = ["bind", items, "GET", "/v1/items/x", "x-a:b", "x-c:d"]
    for count in range(7):
        if count != 4:
            yield f"{count} words", words[:count], "", USAGE, 2
    for label, given in [
        ("a word that is not UTF-8", ["bind", items, "GET", b"/v1/items/\xff"]),
        ("a path that is not UTF-8", ["bind", b"\xff", "GET", "/v1/items/x"]),
        ("a method that is no token", ["bind", items, "G T", "/v1/items/x"]),
        ("a target with a blank", ["bind", items, "GET", "/v1/ items/x"]),
        ("an empty word", [""]),
        ("an unknown command", ["bound", items, "GET", "/v1/items/x"]),
        ("a command that is not there yet", ["serve", items, "localhost:0", "localhost:1"]),
        ("an unknown option", ["--verbose"]),
        ("check without a set", ["check"]),
        ("routes without a set", ["routes"]),
        ("check of two sets", ["check", items, items]),
        ("routes with a method and a target", ["routes", items, "GET", "/v1/items/x"]),
        ("check with a path that is not UTF-8", ["check", b"\xff"]),
    ]:
        yield label, given, "", USAGE, 2
    for word in ["--help", "-h", "--version", "-V"]:
        yield word, [word], None, "", 0
    for command in ["bind", "check", "routes"]:
        yield f"{command} --help", [command, "--help"], None, "", 0


def padded(size):
    """The sample set with an unlisted record behind it."""
    data = ITEMS.read_bytes()
    return data + text(2, bytes(size - len(data) - 5))


def main():
    program = sys.argv[1] if len(sys.argv) > 1 else built()
    wrong = []

    def judge(label, got, want):
        if got != want:
            wrong.append(label)
            print(f"{label}: {got!r}, and not {want!r}")

    with tempfile.TemporaryDirectory() as name:
        folder = pathlib.Path(name)
        data = ITEMS.read_bytes()
        (folder / "items.bin").write_bytes(data)
        (folder / "short.bin").write_bytes(data[:-1])
        (folder / "empty.bin").write_bytes(b"")
        (folder / "edge.bin").write_bytes(padded(16_777_216))
        (folder / "long.bin").write_bytes(padded(16_777_217))
        (folder / "longer.bin").write_bytes(padded(17 << 20))
        count = 0
        for label, words, out, err, status in itertools.chain(rows(folder), choices(folder)):
            run = subprocess.run([program, *words], stdin=subprocess.DEVNULL, capture_output=True)
            judge(f"{label}: status", run.returncode, status)
            judge(f"{label}: error line", run.stderr.decode(), err)
            if out is None:
                judge(f"{label}: has output", bool(run.stdout), True)
            else:
                judge(f"{label}: output", run.stdout.decode(), out)
            count += 1

        set_path = str(folder / "items.bin")
        for size, status, err in [(0, 0, ""), (1_048_576, 0, ""), (1_048_577, 9, LONG_BODY), (3_000_000, 9, LONG_BODY)]:
            run = subprocess.run([program, "bind", set_path, "GET", "/v1/items/x"], input=b" " * size, capture_output=True)
            judge(f"a body of {size} bytes", (run.returncode, run.stderr.decode()), (status, err))
            count += 1

        calls = [["bind", set_path, "GET", "/v1/items/x"], ["check", set_path], ["routes", set_path]]
        closed = 'exec "$@"'
        for call, (label, shell, status, err) in itertools.product(
            calls,
            [
                ("standard input closed", closed + " <&-", 0, ""),
                ("standard output closed", closed + " >&-", 5, WRITE),
                ("standard output full", closed + " >/dev/full", 5, WRITE),
                ("standard error closed", closed + " 2>&-", 0, ""),
            ],
        ):
            run = subprocess.run(["bash", "-c", shell, "bash", program, *call], stdin=subprocess.DEVNULL, capture_output=True)
            # `bind` reads its input; the other commands do not see that it is closed.
            if call[0] == "bind" and label == "standard input closed":
                status, err = 4, READ
            judge(f"{call[0]}: {label}: status", run.returncode, status)
            judge(f"{call[0]}: {label}: error line", run.stderr.decode(), err)
            count += 1
        shell = 'exec "$@" 2>&-'
        run = subprocess.run(["bash", "-c", shell, "bash", program], stdin=subprocess.DEVNULL, capture_output=True)
        judge("usage with standard error closed: status", run.returncode, 2)
    print(f"{count + 1} runs of the program, {len(wrong)} differences")
    return 1 if wrong else 0


if __name__ == "__main__":
    sys.exit(main())
