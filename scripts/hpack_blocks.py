#!/usr/bin/env python3
"""Compares header blocks with nghttp2: those that its deflater writes are decoded to the same fields,
and its inflater reads the same fields from those that `encode` writes.

usage: hpack_blocks.py [CONNECTIONS [SEED]]

The blocks and the fields are rows of the program hpack_rows. Exit status 77 says that libnghttp2 is missing.
"""
import ctypes
import pathlib
import random
import re
import subprocess
import sys

ROOT = pathlib.Path(__file__).resolve().parent.parent

sys.path.insert(0, str(ROOT / "scripts"))
from program import built  # noqa: E402

NAMES = [
    b":authority", b":method", b":path", b":scheme", b":status", b"accept", b"cache-control", b"content-length",
    b"content-type", b"cookie", b"date", b"etag", b"grpc-status", b"grpc-message", b"location", b"server", b"set-cookie",
    b"te", b"user-agent", b"vary", b"www-authenticate", b"x-trace-id",
]
VALUES = [b"", b"GET", b"POST", b"/", b"/index.html", b"http", b"https", b"200", b"404", b"application/grpc", b"trailers", b"no-cache"]


class Field(ctypes.Structure):
    """nghttp2_nv."""

    _fields_ = [
        ("name", ctypes.c_char_p), ("value", ctypes.c_char_p),
        ("namelen", ctypes.c_size_t), ("valuelen", ctypes.c_size_t), ("flags", ctypes.c_uint8),
    ]


def library():
    """libnghttp2, or None."""
    for name in ["libnghttp2.so.14", "libnghttp2.so"]:
        try:
            loaded = ctypes.CDLL(name)
        except OSError:
            continue
        loaded.nghttp2_hd_deflate_hd.restype = ctypes.c_ssize_t
        loaded.nghttp2_hd_inflate_hd2.restype = ctypes.c_ssize_t
        loaded.nghttp2_hd_deflate_bound.restype = ctypes.c_size_t
        return loaded
    return None


def text_of(rng):
    """Bytes of a name or a value that is not of the lists."""
    if rng.random() < 0.2:
        return rng.randbytes(rng.randrange(40))
    size = rng.choice([1, 3, 8, 20, 60, 126, 127, 128, 300, 1500])
    return bytes(rng.choice(b"abcdefghijklmnopqrstuvwxyz0123456789-_/.=;:%& ") for _ in range(rng.randrange(size) + 1))


def fields_of(rng, used):
    """The fields of a block: of the lists, new ones, and those of earlier blocks."""
    fields = []
    for _ in range(rng.randrange(13)):
        if used and rng.random() < 0.4:
            fields.append(rng.choice(used))
        else:
            name = rng.choice(NAMES) if rng.random() < 0.8 else text_of(rng)
            value = rng.choice(VALUES) if rng.random() < 0.4 else text_of(rng)
            fields.append((name, value))
    used.extend(fields)
    return fields


def deflated(nghttp2, deflater, fields, rng):
    """The block that nghttp2 writes. Some fields are never indexed."""
    given = (Field * max(1, len(fields)))()
    for i, (name, value) in enumerate(fields):
        given[i] = Field(name, value, len(name), len(value), 1 if rng.random() < 0.1 else 0)
    room = nghttp2.nghttp2_hd_deflate_bound(deflater, given, ctypes.c_size_t(len(fields))) + 64
    block = ctypes.create_string_buffer(room)
    size = nghttp2.nghttp2_hd_deflate_hd(deflater, block, ctypes.c_size_t(room), given, ctypes.c_size_t(len(fields)))
    assert size >= 0, f"nghttp2 does not write: {size}"
    return block.raw[:size]


def inflated(nghttp2, inflater, block):
    """The fields that nghttp2 reads."""
    fields, field, flags, at = [], Field(), ctypes.c_int(), 0
    kept = ctypes.create_string_buffer(block, len(block) + 1)
    while True:
        rest = ctypes.cast(ctypes.addressof(kept) + at, ctypes.c_char_p)
        size = nghttp2.nghttp2_hd_inflate_hd2(inflater, ctypes.byref(field), ctypes.byref(flags), rest, ctypes.c_size_t(len(block) - at), 1)
        assert size >= 0, f"nghttp2 does not read {block.hex()}: {size}"
        at += size
        if flags.value & 2:
            raw = Field.from_buffer(field)
            fields.append((raw_bytes(raw, "name", raw.namelen), raw_bytes(raw, "value", raw.valuelen)))
        if flags.value & 1:
            nghttp2.nghttp2_hd_inflate_end_headers(inflater)
            return fields


def raw_bytes(field, part, size):
    """Bytes of a field, which may hold zeros."""
    offset = getattr(Field, part).offset
    address = ctypes.c_void_p.from_address(ctypes.addressof(field) + offset).value
    return ctypes.string_at(address, size) if size else b""


def shown(data):
    """Bytes as the programs that answer rows write them."""
    if not data:
        return "-"
    if re.fullmatch(rb"[ -~]+", data):
        return "'" + data.decode().replace("|", "\0").replace(" ", "|20|'").replace("\0", "|7c|'")
    parts = re.sub(rb"(?s)(.)\1{15,}|.", lambda m: digits(m[0]), data).decode()
    return re.sub(r"\|+", "|", parts).strip("|")


def digits(run):
    """Hexadecimal digits of bytes that are alike, or of one byte."""
    return (f"|{len(run)}*{run[:1].hex()}|" if len(run) > 1 else run.hex()).encode()


def bytes_of(word):
    """The bytes that a word in digits spells."""
    parts = [re.fullmatch(r"(?:(\d+)\*)?([0-9a-f]+)", part) for part in word.split("|")]
    return b"".join(bytes.fromhex(part[2]) * int(part[1] or 1) for part in parts)


def words_of(fields):
    """Fields as words of a row."""
    return " ".join(f"{shown(name)} {shown(value)}" for name, value in fields)


def connection(nghttp2, rng):
    """The words of a row, and the answer that is wanted."""
    deflater = ctypes.c_void_p()
    nghttp2.nghttp2_hd_deflate_new(ctypes.byref(deflater), ctypes.c_size_t(rng.choice([0, 40, 200, 1000, 4096, 4096])))
    blocks, wanted, used = [], [], []
    for _ in range(rng.randrange(6) + 1):
        if rng.random() < 0.3:
            nghttp2.nghttp2_hd_deflate_change_table_size(deflater, ctypes.c_size_t(rng.randrange(4097)))
        fields = fields_of(rng, used)
        blocks.append(deflated(nghttp2, deflater, fields, rng).hex() or "-")
        wanted.append(" ".join(shown(name + b"=" + value) for name, value in fields))
    nghttp2.nghttp2_hd_deflate_del(deflater)
    return "blocks " + " ".join(blocks), "; ".join(wanted)


def is_read(nghttp2, block, first, fields):
    """Whether nghttp2 reads these fields from a block, which begins with `20` exactly where it is the first."""
    inflater = ctypes.c_void_p()
    nghttp2.nghttp2_hd_inflate_new(ctypes.byref(inflater))
    read = inflated(nghttp2, inflater, block)
    nghttp2.nghttp2_hd_inflate_del(inflater)
    if read != fields or block.startswith(b"\x20") != first:
        print(f"nghttp2 reads {read} from {block.hex()}, which is to be {fields}")
        return False
    return True


def answers(rows):
    """What the program answers to these rows."""
    text = "".join(f"{i} {row}\n" for i, row in enumerate(rows))
    run = subprocess.run([built("hpack_rows")], input=text, capture_output=True, text=True)
    lines = run.stdout.split("\n")[:-1]
    if run.returncode or len(lines) != len(rows):
        sys.exit(f"status {run.returncode}, {len(lines)} lines: {run.stderr}")
    return [line.removeprefix(f"{i} ") for i, line in enumerate(lines)]


def main():
    nghttp2 = library()
    if nghttp2 is None:
        print("libnghttp2 is missing")
        return 77
    count = int(sys.argv[1]) if len(sys.argv) > 1 else 1000
    rng = random.Random(int(sys.argv[2]) if len(sys.argv) > 2 else 7541)
    rows, wanted = [], []
    for _ in range(count):
        row, answer = connection(nghttp2, rng)
        rows.append(row)
        wanted.append(answer)
    written = []
    for i in range(min(count, 200)):
        fields = fields_of(rng, [])
        written.append((i % 2 == 0, fields))
        rows.append(f"encoded {'first' if i % 2 == 0 else 'later'} {words_of(fields)}".rstrip())
    got = answers(rows)
    for row, answer, want in zip(rows, got, wanted):
        if answer != want:
            print(f"{row}: {answer}, not {want}"[:2000])
            return 1
    for (first, fields), answer in zip(written, got[len(wanted):]):
        if not is_read(nghttp2, bytes_of(answer)[1:], first, fields):
            return 1
    print(f"{count} connections of nghttp2 are decoded, and {len(written)} blocks of our own are read by nghttp2")
    return 0


if __name__ == "__main__":
    sys.exit(main())
