#!/usr/bin/env python3
"""Measures the memory that the built program takes to link sets of long names, and fails where it is over 10 times the set.

usage: link_memory.py [PROGRAM]

The memory of a set is the peak of what `check` has of the heap at one time, less that over the sample set, as counted by
a library that stands before malloc (a child's peak in rusage is never below that of the script that starts it). Where a set
has many small messages, what the long name around them adds is compared with what it adds to the set. Two sets are
measured and not judged: an API holds the gRPC path of each method in full, and each segment of a template as a value.
"""
import os
import pathlib
import subprocess
import sys
import tempfile
import time

ROOT = pathlib.Path(__file__).resolve().parent.parent
MOST = 10

sys.path.insert(0, str(ROOT / "scripts"))
from big_sets import doubled_names, like_scopes, long_names, long_paths, long_templates, named_messages, reached_names, under_scope  # noqa: E402
from program import built  # noqa: E402
from set_parts import a_set  # noqa: E402

# Stands before the C library's allocations, and writes the most bytes that were in use at one time to the file PEAK_TO.
SHIM = r"""
#define _GNU_SOURCE
#include <dlfcn.h>
#include <malloc.h>
#include <stdio.h>
#include <stdlib.h>
static long live, peak;
static void grown(long bytes) { live += bytes; if (live > peak) peak = live; }
void *malloc(size_t size) {
    static void *(*real)(size_t);
    if (!real) real = dlsym(RTLD_NEXT, "malloc");
    void *got = real(size);
    if (got) grown(malloc_usable_size(got));
    return got;
}
void *realloc(void *old, size_t size) {
    static void *(*real)(void *, size_t);
    if (!real) real = dlsym(RTLD_NEXT, "realloc");
    long before = old ? malloc_usable_size(old) : 0;
    void *got = real(old, size);
    if (got) grown((long)malloc_usable_size(got) - before);
    return got;
}
void free(void *old) {
    static void (*real)(void *);
    if (!real) real = dlsym(RTLD_NEXT, "free");
    if (old) live -= malloc_usable_size(old);
    real(old);
}
__attribute__((destructor)) static void tell(void) {
    const char *name = getenv("PEAK_TO");
    long counted = peak;
    FILE *file = name ? fopen(name, "w") : NULL;
    if (file) { fprintf(file, "%ld", counted); fclose(file); }
}
"""

# A label, a set, a set beside it, what `check` answers of it, and whether it is judged.
SERVED, MANY = (0, "bindings 1\n", ""), (3, "", "descriptors: TooMany types\n")
DOUBLED = (3, "", f"descriptors: DoubleName p.{'s' * 100_000}.m\n")
CASES = [
    ("52 messages in one another, with names of 4,000 bytes", long_names(52, 4_000), a_set(), SERVED, True),
    ("the same, the innermost of which is the output", reached_names(52, 4_000), a_set(), SERVED, True),
    ("9,998 messages in one whose name has 100 KB", under_scope(9_998, 100_000), under_scope(9_998, 1), SERVED, True),
    ("10,000 messages in one whose name has 100 KB", under_scope(10_000, 100_000), under_scope(10_000, 1), MANY, True),
    ("9,000 messages of one name in one whose name has 100 KB", doubled_names(9_000, 100_000), doubled_names(9_000, 1), DOUBLED, True),
    ("10,000 messages with names of 1,600 bytes, beside another", named_messages(10_000, 1_600), a_set(), MANY, True),
    ("9,999 messages with names of 1,600 bytes, beside another", named_messages(9_999, 1_600), a_set(), SERVED, True),
    ("16 messages with names of 100 KB that end alike, each around the same 600", like_scopes(16, 100_000, 600), like_scopes(16, 5, 600), SERVED, True),
    ("1,000 methods of a package whose name has 10 KB", long_paths(1_000, 10_000), a_set(), (0, "bindings 1000\n", ""), False),
    ("10,000 templates of 64 segments", long_templates(10_000), a_set(), (0, "bindings 10000\n", ""), False),
]


def run(program, folder, data):
    """Status, output and error line of `check`, its peak in bytes, and its seconds."""
    (folder / "case.bin").write_bytes(data)
    env = {**os.environ, "LD_PRELOAD": str(folder / "shim.so"), "PEAK_TO": str(folder / "peak")}
    start = time.monotonic()
    got = subprocess.run([program, "check", folder / "case.bin"], stdin=subprocess.DEVNULL, capture_output=True, text=True, env=env)
    seconds = time.monotonic() - start
    return (got.returncode, got.stdout, got.stderr), int((folder / "peak").read_text()), seconds


def main():
    program = sys.argv[1] if len(sys.argv) > 1 else built()
    bad = 0
    with tempfile.TemporaryDirectory() as name:
        folder = pathlib.Path(name)
        (folder / "shim.c").write_text(SHIM)
        subprocess.run(["cc", "-shared", "-fPIC", "-o", folder / "shim.so", folder / "shim.c", "-ldl"], check=True)
        for label, data, beside, want, is_judged in CASES:
            told, peak, seconds = run(program, folder, data)
            least = run(program, folder, beside)[1]
            if least == 0:
                sys.exit("the program's allocations are not seen")
            times = (peak - least) / (len(data) - len(beside))
            print(f"{label}: {len(data):,} bytes, {peak - least:,} bytes of memory more, {times:.1f} times, {seconds:.2f} s")
            if told != want or is_judged and times > MOST:
                print(f"{label}: {str(told)[:200]}, and not {str(want)[:200]}, or over {MOST} times the set")
                bad += 1
    return 1 if bad else 0


if __name__ == "__main__":
    sys.exit(main())
