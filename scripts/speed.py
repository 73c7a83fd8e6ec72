"""How fast the parts are: runs the program `speed`, `check` over large sets and requests over sets, and prints a table. It is no check: it fails
on nothing.

Usage: python3 scripts/speed.py [MIB]
"""
import pathlib
import subprocess
import sys
import tempfile
import time

import program
from big_sets import bound_types, like_scopes, many_bindings, many_variables, named_messages, under_scope
from library_set import LIB
from set_parts import a_set

ROWS = [
    ("JSON tokens, pieces of 16,384 bytes", "tokens"),
    ("JSON tokens, byte by byte", "tokens-by-byte"),
    ("books decoded", "decode"),
    ("books encoded", "encode"),
    ("header blocks of Huffman-coded values", "huffman"),
    ("header blocks of indexed fields", "indexed"),
    ("JSON of books of 1 KB, tokens alone", "json-tokens-small"),
    ("JSON of books of 1 KB, read as values", "json-read-small"),
    ("JSON of books of 1 KB, written of values", "json-show-small"),
    ("JSON of books of 64 KB, tokens alone", "json-tokens-large"),
    ("JSON of books of 64 KB, read as values", "json-read-large"),
    ("JSON of books of 64 KB, written of values", "json-show-large"),
]


# Sets that are linked: a label, how one of a size is made, and two sizes.
SETS = [
    ("types, each with a binding", bound_types, 1_000, 10_000),
    ("bindings of one method", many_bindings, 1_000, 10_000),
    ("bindings of 16 variables over as many fields", many_variables, 100, 1_000),
    ("messages under a name of 100 KB", lambda count: under_scope(count - 2, 100_000), 1_000, 10_000),
    ("messages with names of 1,600 bytes", lambda count: named_messages(count - 1, 1_600), 1_000, 10_000),
    ("bytes in each name of 16 messages that end alike, around the same 600,", lambda size: like_scopes(16, size, 600), 10_000, 100_000),
]


# Requests of the library's set that `bind` takes: a method and a target.
REQUESTS = [("GET", "/v1/shelves/7"), ("GET", "/v1/files/a/b"), ("GET", "/v1/x/a%2Fb"), ("GET", "/v1/shelves/7/books")]


def shortest(words, given=b""):
    """The shortest of three runs with this input."""
    best = None
    for _ in range(3):
        start = time.monotonic()
        subprocess.run(words, input=given, stdout=subprocess.DEVNULL, check=True)
        taken = time.monotonic() - start
        best = taken if best is None else min(best, taken)
    return best


def seconds(path, what, size):
    """The time of a part of `speed`."""
    return shortest([path, what, str(size)])


def linking(path, folder, data):
    """The time in which `check` reads and links a set."""
    (folder / "set.bin").write_bytes(data)
    return shortest([path, "check", folder / "set.bin"])


def print_sets():
    """The times of linking, and how much longer ten times as many take."""
    path = program.built()
    with tempfile.TemporaryDirectory() as name:
        folder = pathlib.Path(name)
        least = linking(path, folder, a_set())
        for title, make, small, large in SETS:
            few, many = (linking(path, folder, make(count)) - least for count in (small, large))
            print(f"{large:,} {title} linked in {many:.3f} s, {small:,} in {few:.3f} s: {many / max(few, 0.0005):.1f} times as long")


def rounds(path, what, count, given, method, target):
    """The time of one round of a request over a set, by so many rounds and by one."""
    first, many = (shortest([path, what, str(n), method, target], given) for n in (1, count))
    return (many - first) / (count - 1)


def print_requests(path):
    """The times of a route among many bindings, the last of which it is, and of requests of the library's set."""
    for bindings in [10, 100, 1_000]:
        taken = rounds(path, "route", 2_000_000 // bindings, many_bindings(bindings), "GET", f"/v1/b{bindings - 2}/x")
        print(f"a route among {bindings:,} bindings: {taken * 1e6:.2f} microseconds")
    for method, target in REQUESTS:
        taken = rounds(path, "bind", 200_000, LIB, method, target)
        print(f"{method} {target} of the library: {1 / taken:,.0f} a second")


def main():
    size = int(sys.argv[1]) if len(sys.argv) > 1 else 64
    path = program.built("speed")
    for title, what in ROWS:
        taken = seconds(path, what, size) - seconds(path, what, 0)
        print(f"{title}: {size} MiB in {taken:.2f} s, {size * 1.048576 / taken:.0f} MB/s")
    for items in [100_000, 200_000, 400_000]:
        print(f"{items:,} list items twice and {items // 10:,} map entries by falling key: {seconds(path, 'many', items):.3f} s")
    print_requests(path)
    print_sets()


if __name__ == "__main__":
    main()
