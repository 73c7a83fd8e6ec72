#!/usr/bin/env python3
"""Gives the annotated services of real packages to the built program, and compares `routes` and `check` with what Python's
protobuf tells of the same sets (set_listing.py).

usage: service_sets.py [--sources FOLDER] [PROGRAM]

Each .proto file with a service under the folder of Go packages, and Cloud Pub/Sub's where google-cloud-cli is installed, is
compiled by protoc with its imports. Its set is given as it is; mended, with integers for floats and without fields and
annotations that are refused; and changed at random in one to four places, by a fixed seed. Exit status 77 says that
protoc, Python's protobuf or google/api is missing.
"""
import pathlib
import random
import re
import shutil
import subprocess
import sys
import tempfile

ROOT = pathlib.Path(__file__).resolve().parent.parent

sys.path.insert(0, str(ROOT / "scripts"))
from option_protos import write_options  # noqa: E402
from program import built  # noqa: E402
from protoc_set import google_api  # noqa: E402
from set_changes import changed, mended  # noqa: E402
from set_listing import listing  # noqa: E402

# Where Debian's packages of Go lay their sources, and the folders in it in which imports are looked for.
SOURCES = pathlib.Path("/usr/share/gocode/src")
FOLDERS = ["github.com/grpc-ecosystem/grpc-gateway", "go.etcd.io", "github.com/gogo/protobuf"]
# Where google-cloud-cli has the files of google/pubsub/v1.
PUBSUB = pathlib.Path("/usr/lib/google-cloud-sdk/lib/third_party/google/cloud/pubsub_v1/proto")
CHANGES = 1_000
SEED = 72295728


def service_files(roots):
    """Folders and files with a service, in order."""
    for root in roots:
        for path in sorted(root.rglob("*.proto")):
            if re.search(r"^service\s", path.read_text(errors="replace"), re.MULTILINE):
                yield root, path


def compiled(includes, path, out):
    """The set of a file with its imports, or None where protoc refuses it."""
    words = ["protoc", *(f"-I{one}" for one in includes if one.exists()), "--include_imports", f"--descriptor_set_out={out}", path]
    run = subprocess.run(words, capture_output=True, text=True)
    return out.read_bytes() if run.returncode == 0 else None


def real_sets(sources, folder):
    """Labels and sets of real services."""
    options, pubsub = folder / "options", folder / "pubsub"
    write_options(options)
    if PUBSUB.exists():
        shutil.copytree(PUBSUB, pubsub / "google/pubsub/v1", copy_function=shutil.copyfile)
    roots = [*(sources / one for one in FOLDERS), pubsub]
    for root, path in service_files(roots):
        data = compiled([root, google_api(), pathlib.Path("/usr/include"), options, *roots], path, folder / "one.bin")
        if data is None:
            print(f"protoc refuses {path.relative_to(root)}")
        else:
            yield str(path.relative_to(root)), data


def sets(sources, folder):
    """Labels and sets: each as it is and mended; then changed ones, of those that are mended and have a route."""
    whole = []
    for label, data in real_sets(sources, folder):
        better = mended(data)
        yield label, data
        yield f"{label}, mended", better
        whole += [(label, better)] if listing(better)[0] else []
    draw = random.Random(SEED)
    for at in range(CHANGES if whole else 0):
        label, data = whole[at % len(whole)]
        yield f"{label}, change {at}", changed(data, draw)


def wanted(data):
    """Status, output and error line of `routes` and of `check`."""
    routes, fault = listing(data)
    if routes is None:
        return [(3, "", f"descriptors: {fault}\n")] * 2
    return [(0, routes, ""), (0, f"bindings {routes.count(chr(10))}\n", "")]


def told(program, path):
    """The same of the program."""
    for command in ["routes", "check"]:
        run = subprocess.run([program, command, path], stdin=subprocess.DEVNULL, capture_output=True)
        yield run.returncode, run.stdout.decode(errors="replace"), run.stderr.decode(errors="replace")


def main():
    words = sys.argv[1:]
    sources = pathlib.Path(words[1]) if words[:1] == ["--sources"] else SOURCES
    words = words[2:] if words[:1] == ["--sources"] else words
    if shutil.which("protoc") is None or google_api() is None:
        print("missing: protoc, or google/api/annotations.proto")
        return 77
    program = words[0] if words else built()
    counts, bad = {"served": 0, "refused": 0}, 0
    with tempfile.TemporaryDirectory() as name:
        folder = pathlib.Path(name)
        for label, data in sets(sources, folder):
            want = wanted(data)
            if "change" not in label:
                print(f"{label}: {want[1][1] or want[1][2]}", end="")
            (folder / "case.bin").write_bytes(data)
            got = list(told(program, folder / "case.bin"))
            counts["served" if want[0][0] == 0 else "refused"] += 1
            if got != want:
                bad += 1
                print(f"{label}: {got}, and not {want}")
    print(f"{counts['served']} sets of real services are served and {counts['refused']} refused, {bad} differences")
    return 1 if bad else 0


if __name__ == "__main__":
    sys.exit(main())
