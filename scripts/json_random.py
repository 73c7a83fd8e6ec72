"""Random values of the types of scripts/values.proto, for scripts/json_values.py."""
from json_known import fill_known, known_kind

# How deep random values are, and trees: 100 levels are the most that have a value.
MAX_DEPTH, MAX_LEVELS = 5, 100

CHARACTERS = "ab zZ09\"\\/'<>&{}[]:,\x00\x01\x08\t\n\x0b\x0c\r\x1b\x1f\x7f\x80\x9f\xe9\u07ff\u0800\u2028\u2029\u20ac\ud7ff\ue000\ufeff\ufffe\uffff\U00010000\U0001d11e\U0010ffff"
WORDS = ["", "null", "true", "1", "-1", "NaN", "\u00e9", "\u00e9" * 40, "\uffff", "\U00010000", "RED", "a b", '{"a":1}', "\\u0041"]


def random_text(r):
    if r.random() < 0.2:
        return r.choice(WORDS)
    return "".join(r.choice(CHARACTERS) for _ in range(r.choice([1, 1, 2, 3, 5, 8, 30])))


def random_bytes(r):
    return bytes(r.choice([0, 251, 255, 62, 63, r.randrange(256)]) for _ in range(r.choice([0, 1, 2, 3, 4, 5, 6, 7, 30])))


def random_integer(r, low, high):
    """An integer of a range: near an end of it, near one of 32 bits, small, or any."""
    near = r.choice([low, high, 0, 0, 1, -1, 2**31, 2**32, 10 ** r.randrange(19), r.randrange(low, high + 1)])
    return min(high, max(low, near + r.choice([0, 0, 0, 1, -1, 9])))


def random_enum(r, declared):
    """A number of an enum, named or not."""
    if r.random() < 0.7:
        return r.choice(list(declared.values)).number
    return random_integer(r, -2**31, 2**31 - 1)


def random_scalar(r, field):
    kind = field.type
    if kind == field.TYPE_BOOL:
        return r.random() < 0.5
    if kind == field.TYPE_STRING:
        return random_text(r)
    if kind == field.TYPE_BYTES:
        return random_bytes(r)
    if kind == field.TYPE_ENUM:
        return random_enum(r, field.enum_type)
    if kind in (field.TYPE_INT64, field.TYPE_SINT64, field.TYPE_SFIXED64):
        return random_integer(r, -2**63, 2**63 - 1)
    if kind in (field.TYPE_UINT64, field.TYPE_FIXED64):
        return random_integer(r, 0, 2**64 - 1)
    if kind in (field.TYPE_UINT32, field.TYPE_FIXED32):
        return random_integer(r, 0, 2**32 - 1)
    assert kind in (field.TYPE_INT32, field.TYPE_SINT32, field.TYPE_SFIXED32), field.full_name
    return random_integer(r, -2**31, 2**31 - 1)


def is_map(field):
    return field.message_type is not None and field.message_type.GetOptions().map_entry


def fill_map(r, entries, field, depth):
    key, value = field.message_type.fields_by_name["key"], field.message_type.fields_by_name["value"]
    for _ in range(r.choice([1, 1, 2, 3, 5])):
        one = random_scalar(r, key)
        if value.message_type is not None:
            fill(r, entries[one], depth + 1)
        else:
            entries[one] = random_scalar(r, value)


def fill_field(r, message, field, depth):
    held = getattr(message, field.name)
    if is_map(field):
        fill_map(r, held, field, depth)
    elif field.label == field.LABEL_REPEATED:
        for _ in range(r.choice([1, 1, 2, 3])):
            if field.message_type is not None:
                fill(r, held.add(), depth + 1)
            else:
                held.append(random_scalar(r, field))
    elif field.message_type is not None:
        held.SetInParent()
        fill(r, held, depth + 1)
    else:
        setattr(message, field.name, random_scalar(r, field))


def fill(r, message, depth=0):
    """Sets some fields of a message, fewer the deeper it is; a later member of a oneof clears an earlier one."""
    if known_kind(message.DESCRIPTOR) is not None:
        fill_known(r, message)
        return
    fields = list(message.DESCRIPTOR.fields)
    share = r.choice([0.1, 0.3, 0.3, 0.6, 1]) if depth == 0 else 0.5 if len(fields) == 1 else r.choice([0, 0.1, 0.3, 0.5])
    for field in r.sample(fields, len(fields)):
        if r.random() < share and not (depth >= MAX_DEPTH and field.message_type is not None):
            fill_field(r, message, field, depth)


def chain(made, depth):
    """A tree of so many levels, itself counted."""
    whole = made()
    at = whole
    for level in range(depth - 1):
        at = getattr(at, ["left", "right"][level % 2])
        at.SetInParent()
    at.leaf_name = "leaf"
    return whole


def values(r, types, count):
    """So many values with the number of their type: of each type in turn, and some trees of all levels."""
    trees = [made.DESCRIPTOR.name for made in types].index("Tree")
    for at in range(count):
        if at % 500 == 0:
            yield trees, chain(types[trees], MAX_LEVELS - at // 500 % 40)
            continue
        made = types[at % len(types)]()
        fill(r, made)
        yield at % len(types), made
