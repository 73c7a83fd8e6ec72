"""Forms of the rows of json_values: the records of the encoding guide, texts in the words of rows, and the table that rows
are put into, with their wanted answers.
"""

# The input types of the methods of scripts/values.proto.
(BOOK, SCALARS, OPTIONALS, LISTS, MAPS, CHOICE, WRAPPERS, TREE, NAMES, INT64_VALUE, BOOL_VALUE, INT32_VALUE, UINT32_VALUE, UINT64_VALUE,
 STRING_VALUE, BYTES_VALUE, WRAPPER_PARTS, DEEP, KNOWN, MAYBE_WRAPPERS, TIMESTAMP, DURATION, FIELD_MASK) = range(23)


# Records of the encoding guide.

def varint(number):
    number %= 2**64
    out = bytearray()
    while number >= 128:
        out.append(number % 128 + 128)
        number //= 128
    return bytes(out) + bytes([number])


def zigzag(number):
    return varint(2 * number if number >= 0 else -2 * number - 1)


def fixed32(number):
    return (number % 2**32).to_bytes(4, "little")


def fixed64(number):
    return (number % 2**64).to_bytes(8, "little")


def bare(number, wire, data):
    """A record whose bytes stand behind the tag as they are."""
    return varint(8 * number + wire) + data


def num(number, value):
    return bare(number, 0, varint(value))


def chunk(number, *parts):
    """A record of a string, of bytes, of a message or of packed numbers."""
    data = b"".join(part.encode() if isinstance(part, str) else part for part in parts)
    return bare(number, 2, varint(len(data)) + data)


def entry(number, key, value):
    """An entry of a map: the records of its key and of its value."""
    return chunk(number, key, value)


# Texts, in the words of rows.

class Times:
    """A text that stands so many times."""

    def __init__(self, count, text):
        self.count, self.text = count, text


def part_word(data):
    """Bytes as parts of a word."""
    try:
        text = data.decode()
    except UnicodeDecodeError:
        return data.hex()
    if any(one < " " or one == "\x7f" or one in "\x85\u2028\u2029\ufeff" for one in text):
        return data.hex()
    words = []
    for piece in text.replace(" ", "\0 \0").replace("|", "\0|\0").split("\0"):
        if piece:
            words.append({" ": "20", "|": "7c"}.get(piece) or "'" + piece)
    return "|".join(words)


def word(parts):
    told = []
    for one in parts:
        if isinstance(one, Times):
            told.append(f"{one.count}*{part_word(one.text.encode())}")
        elif one:
            told.append(part_word(one))
    return "|".join(told) or "-"


def parts_of(text):
    """A text as a list of bytes and of texts that stand many times."""
    text = text if isinstance(text, list) else [text]
    return [one.encode() if isinstance(one, str) else one for one in text]


def length(part):
    return part.count * len(part.text) if isinstance(part, Times) else len(part)


# The table.

LINES, ANSWERS, TOLD = [], [], {}


def section(told):
    LINES.append(f"# {told}")


def row(line, answer):
    """Adds a row, but where it stands already."""
    if line in TOLD:
        assert TOLD[line] == answer, line
        return
    TOLD[line] = answer
    LINES.append(line)
    ANSWERS.append(answer)


def hexed(records):
    return b"".join(records).hex() or "-"


def reads(kind, text, *records, part=None):
    """The text means the message of these records; with a part, it is the text of that field of it."""
    verb = f"read {kind}" if part is None else f"read_part {kind} {part}"
    row(f"{verb} {word(parts_of(text))}", hexed(records))


def shows(kind, text, *records, part=None):
    """The text is written of the message of these records."""
    verb = f"show {kind}" if part is None else f"part {kind} {part}"
    row(f"{verb} {hexed(records)}", text)


def unshown(kind, *records, part=None):
    """The message of these records has no text, or not the field of it."""
    verb = f"show {kind}" if part is None else f"part {kind} {part}"
    row(f"{verb} {hexed(records)}", "Unprintable")


def both(kind, text, *records, part=None):
    reads(kind, text, *records, part=part)
    shows(kind, text, *records, part=part)


def refused(kind, text, fault, part=None):
    """The text has this fault at its mark."""
    place, kept = None, []
    for one in parts_of(text):
        if isinstance(one, bytes) and b"^" in one:
            assert place is None and one.count(b"^") == 1, text
            place = sum(map(length, kept)) + one.index(b"^")
            one = one.replace(b"^", b"")
        kept.append(one)
    assert place is not None, text
    verb = f"read {kind}" if part is None else f"read_part {kind} {part}"
    row(f"{verb} {word(kept)}", f"{fault} {place}")


# Texts and records of so many levels.

def nested(levels, opens, inside, closes="}"):
    """A text in which the inner text stands in so many messages."""
    return [Times(levels, opens), inside, Times(levels, closes)]


def chunks(levels, number, *inside):
    """The record of a field, in as many messages."""
    out = b"".join(inside)
    for _ in range(levels):
        out = chunk(number, out)
    return out


def deep_maps(levels, inside=b""):
    """The records of entries of the key 1 in so many levels of messages."""
    for _ in range(levels):
        inside = entry(3, num(1, 1), chunk(2, inside))
    return inside
