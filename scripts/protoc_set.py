#!/usr/bin/env python3
"""Compares the sample set and the library's set with what the real protoc writes of their .proto files, and what the
program tells of both.

usage: protoc_set.py [PROGRAM]

Exit status 77 says that protoc or the files of google/api are missing.
"""
import pathlib
import subprocess
import sys
import tempfile

ROOT = pathlib.Path(__file__).resolve().parent.parent
DATA = ROOT / "crates/grpcjson/data"

sys.path.insert(0, str(ROOT / "scripts"))
from program import built  # noqa: E402
from library_set import LIB, LIB_OF_DOUBLES, LIB_ROUTES  # noqa: E402
from set_parts import text  # noqa: E402

DEPENDENCY = text(3, "google/api/annotations.proto")


def google_api():
    """The folder that has google/api/annotations.proto, as Debian's packages lay it."""
    for folder in pathlib.Path("/usr/share/gocode/src").glob("**/third_party/googleapis"):
        if (folder / "google/api/annotations.proto").exists():
            return folder
    return None


def file_of(data):
    """The one file of a set: what stands behind its tag and its length."""
    length, shift, at = 0, 0, 1
    while True:
        length |= (data[at] & 0x7F) << shift
        at, shift = at + 1, shift + 7
        if data[at - 1] < 0x80:
            break
    assert data[0] == 0x0A and at + length == len(data), "not one file"
    return data[at:]


def told(program, *words):
    """Status, output and error line of a run."""
    run = subprocess.run([program, *words], stdin=subprocess.DEVNULL, capture_output=True, text=True)
    return run.returncode, run.stdout, run.stderr


def compiled(folder, include, source, *words):
    """The set that protoc writes of the file `library.proto` with this text."""
    (folder / "library.proto").write_text(source)
    made = ["protoc", f"-I{folder}", f"-I{include}", "-I/usr/include", f"--descriptor_set_out={folder}/library.bin", *words, "library.proto"]
    subprocess.run(made, check=True)
    return (folder / "library.bin").read_bytes()


def decoded(data):
    """A set in protobuf's text format, as protoc prints it."""
    words = ["protoc", "-I/usr/include", "--decode=google.protobuf.FileDescriptorSet", "google/protobuf/descriptor.proto"]
    return subprocess.run(words, input=data, capture_output=True, check=True).stdout


def last_file(data):
    """The last file of a set in text format."""
    return decoded(data).rpartition(b"\nfile {")[2]


def library_differs(program, folder, include):
    """Prints where the library's set is another than protoc's, or is told of otherwise, and tells whether it is."""
    source = (ROOT / "scripts/library.proto").read_text()
    with_double = source.replace("Book sequel = 14;", "Book sequel = 14; double weight = 15;")
    fault = "descriptors: Float lib.v1.Book.weight /lib.v1.Library/PatchBook\n"
    routes = "".join(f"{line}\n" for line in LIB_ROUTES)
    bad = 0
    for text_of, sample, want in [
        (source, LIB, [(0, "bindings 7\n", ""), (0, routes, "")]),
        (with_double, LIB_OF_DOUBLES, [(3, "", fault)] * 2),
    ]:
        real = compiled(folder, include, text_of, "--include_imports")
        if last_file(real) != last_file(sample):
            print("the library's set differs from what protoc writes")
            bad += 1
        for label, data in [("protoc's", real), ("the sample", sample)]:
            (folder / "case.bin").write_bytes(data)
            got = [told(program, command, folder / "case.bin") for command in ["check", "routes"]]
            if got != want:
                print(f"{label} set of the library: {got}, and not {want}")
                bad += 1
    return bad > 0


def main():
    include = google_api()
    if include is None:
        print("google/api/annotations.proto is missing")
        return 77
    program = sys.argv[1] if len(sys.argv) > 1 else built()
    with tempfile.TemporaryDirectory() as name:
        folder = pathlib.Path(name)
        (folder / "a.proto").write_bytes((DATA / "items.proto").read_bytes())
        subprocess.run(
            ["protoc", f"-I{folder}", f"-I{include}", "-I/usr/include", f"--descriptor_set_out={folder}/a.bin", "a.proto"],
            check=True,
        )
        real, sample = file_of((folder / "a.bin").read_bytes()), file_of((DATA / "items.bin").read_bytes())
        if real.count(DEPENDENCY) != 1 or real.replace(DEPENDENCY, b"") != sample:
            print("the sample set differs from what protoc writes in more than the dependency")
            return 1
        for target in ["/v1/items/a%2Fb", "/v1/items/x", "/v1/items/%ff", "/v1/items/", "/other", "/v1/items/x?a"]:
            both = told(program, "bind", folder / "a.bin", "GET", target), told(program, "bind", DATA / "items.bin", "GET", target)
            if both[0] != both[1]:
                print(f"{target}: {both[0]}, and {both[1]} of the sample set")
                return 1
        if library_differs(program, folder, include):
            return 1
    print("protoc writes the sample set and the dependency, and the library's set; the program tells the same of both")
    return 0


if __name__ == "__main__":
    sys.exit(main())
