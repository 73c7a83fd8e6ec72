#!/usr/bin/env python3
"""Runs the built program where one allocation fails, for each allocation of a call.

A call whose memory fails says so with status 7, and writes no byte of an answer. Where a block is refused, the arena of
names asks for a smaller one: then the call gives its whole answer, as with all memory.

usage: out_of_memory.py [PROGRAM]
"""
import os
import pathlib
import subprocess
import sys
import tempfile

ROOT = pathlib.Path(__file__).resolve().parent.parent
ITEMS = ROOT / "crates/grpcjson/data/items.bin"

sys.path.insert(0, str(ROOT / "scripts"))
from library_set import LIB, LIB_OF_DOUBLES  # noqa: E402
from program import built  # noqa: E402

# Stands before malloc and realloc of the C library. FAIL_AT names the call that fails, from 1;
# the number of calls goes to the file that COUNT_TO names.
SHIM = r"""
#define _GNU_SOURCE
#include <dlfcn.h>
#include <errno.h>
#include <stdio.h>
#include <stdlib.h>
static long calls;
static int fails(void) {
    const char *at = getenv("FAIL_AT");
    calls++;
    if (at && atol(at) == calls) { errno = ENOMEM; return 1; }
    return 0;
}
void *malloc(size_t size) {
    static void *(*real)(size_t);
    if (!real) real = dlsym(RTLD_NEXT, "malloc");
    return fails() ? NULL : real(size);
}
void *realloc(void *old, size_t size) {
    static void *(*real)(void *, size_t);
    if (!real) real = dlsym(RTLD_NEXT, "realloc");
    return fails() ? NULL : real(old, size);
}
__attribute__((destructor)) static void tell(void) {
    const char *name = getenv("COUNT_TO");
    long counted = calls;
    FILE *file = name ? fopen(name, "w") : NULL;
    if (file) { fprintf(file, "%ld", counted); fclose(file); }
}
"""

CALLS = [
    ["bind", str(ITEMS), "GET", "/v1/items/a%2Fb"],
    ["bind", str(ITEMS), "GET", "/v1/items/%ff"],
    ["bind", str(ITEMS), "GET", "/v1/other"],
    ["check", str(ITEMS)],
    ["routes", str(ITEMS)],
    ["bind", "/nowhere/items.bin", "GET", "/v1/items/x"],
    ["bind"],
    ["--help"],
]


def main():
    program = sys.argv[1] if len(sys.argv) > 1 else built()
    wrong, failed, whole = 0, 0, 0
    with tempfile.TemporaryDirectory() as name:
        folder = pathlib.Path(name)
        (folder / "shim.c").write_text(SHIM)
        shim, count = folder / "shim.so", folder / "count"
        subprocess.run(["cc", "-shared", "-fPIC", "-o", shim, folder / "shim.c", "-ldl"], check=True)

        def run(words, **more):
            env = {**os.environ, "LD_PRELOAD": str(shim), **more}
            return subprocess.run([program, *words], stdin=subprocess.DEVNULL, capture_output=True, env=env)

        (folder / "library.bin").write_bytes(LIB)
        (folder / "doubles.bin").write_bytes(LIB_OF_DOUBLES)
        library = [["check", folder / "library.bin"], ["routes", folder / "library.bin"], ["check", folder / "doubles.bin"]]
        for words in [*CALLS, *library]:
            ample = run(words, COUNT_TO=str(count))
            allocations = int(count.read_text())
            if allocations == 0:
                sys.exit("the program's allocations are not seen")
            for at in range(1, allocations + 1):
                got = run(words, FAIL_AT=str(at))
                failed += 1
                answer = (got.returncode, got.stdout, got.stderr)
                if answer == (ample.returncode, ample.stdout, ample.stderr):
                    whole += 1
                elif answer != (7, b"", b"out of memory\n"):
                    wrong += 1
                    print(f"{words}: allocation {at}: {got.returncode} {got.stdout!r} {got.stderr!r}")
    print(f"{failed} allocations failed one at a time, {wrong} differences")
    return 1 if wrong else 0


if __name__ == "__main__":
    sys.exit(main())
