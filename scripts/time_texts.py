#!/usr/bin/env python3
"""Compares the texts of durations and of instants with Python's protobuf, and makes the answers of time_rows.

What a text says is read here by a pattern (the ProtoJSON guide; RFC 3339, section 5.6) and by the calendar of Python's
`datetime`. The program must say the same of each text, and so must protobuf's FromJsonString and ToJsonString, which
refuse what is no text or has none. Where protobuf takes more, or takes other texts, the difference stands by name in
DIFFERENCES, with examples; a text on which both differ otherwise is an error.

usage: time_texts.py [PROGRAM [COUNT [SEED]]] | --rows | --check

Without PROGRAM it builds the program from the checked crate. --rows prints the answers of the rows, --check compares
them.
"""
import datetime
import pathlib
import random
import re
import subprocess
import sys

ROOT = pathlib.Path(__file__).resolve().parent.parent
ROWS = ROOT / "crates/time_rows"

sys.path.insert(0, str(ROOT / "scripts"))
from program import built  # noqa: E402

MOST_SECONDS = 315_576_000_000
BILLION = 1_000_000_000
FIRST = datetime.datetime(1, 1, 1)
FIRST_SECOND, LAST_SECOND = -62_135_596_800, 253_402_300_799

FRONT = r"[0-9]{4}-[0-9]{2}-[0-9]{2}T[0-9]{2}:[0-9]{2}:[0-9]{2}"
FRACTION = r"(?:\.[0-9]{1,9})?"
DURATION = re.compile(r"(-?)([0-9]+)(?:\.([0-9]{1,9}))?s")
TIMESTAMP = re.compile(
    r"([0-9]{4})-([0-9]{2})-([0-9]{2})T([0-9]{2}):([0-9]{2}):([0-9]{2})(?:\.([0-9]{1,9}))?"
    r"(?:Z|([+-])([0-9]{2}):([0-9]{2}))")


# What texts say.

def nanos_of(digits):
    return int((digits or "").ljust(9, "0"))


def duration_said(text):
    found = DURATION.fullmatch(text)
    if found is None:
        return "BadText"
    sign = -1 if found[1] else 1
    if int(found[2]) > MOST_SECONDS:
        return "OutOfRange"
    return f"{sign * int(found[2])} {sign * nanos_of(found[3])}"


def timestamp_said(text):
    """The year 0000 has the days of the year 400, a leap year too."""
    found = TIMESTAMP.fullmatch(text)
    if found is None:
        return "BadText"
    year, month, day, hour, minute, second = map(int, found.groups()[:6])
    zone_hours, zone_minutes = int(found[9] or 0), int(found[10] or 0)
    if zone_hours > 23 or zone_minutes > 59:
        return "BadText"
    try:
        time = datetime.datetime(year or 400, month, day, hour, minute, second)
    except ValueError:
        return "BadText"
    ahead = (zone_hours * 3600 + zone_minutes * 60) * (-1 if found[8] == "-" else 1)
    seconds = (time - FIRST) // datetime.timedelta(seconds=1) + FIRST_SECOND - ahead
    if year == 0 or not FIRST_SECOND <= seconds <= LAST_SECOND:
        return "OutOfRange"
    return f"{seconds} {nanos_of(found[7])}"


def fraction_text(nanos):
    """In as few of 3, 6 and 9 digits as tell it, or none."""
    digits = f"{nanos:09}"
    for length in (0, 3, 6):
        if not digits[length:].strip("0"):
            return "." + digits[:length] if length else ""
    return "." + digits


def duration_text(seconds, nanos):
    if abs(seconds) > MOST_SECONDS or abs(nanos) >= BILLION or seconds * nanos < 0:
        return None
    minus = "-" if seconds < 0 or nanos < 0 else ""
    return f"{minus}{abs(seconds)}{fraction_text(abs(nanos))}s"


def timestamp_text(seconds, nanos):
    if not FIRST_SECOND <= seconds <= LAST_SECOND or not 0 <= nanos < BILLION:
        return None
    time = FIRST + datetime.timedelta(seconds=seconds - FIRST_SECOND)
    return time.isoformat() + fraction_text(nanos) + "Z"


SAID = {"duration": duration_said, "timestamp": timestamp_said}
TEXTS = {"duration": duration_text, "timestamp": timestamp_text}


# Rows.

def bytes_of(word):
    """The bytes that a word of a row spells."""
    if word == "-":
        return b""
    return b"".join(part[1:].encode() if part.startswith("'") else bytes.fromhex(part) for part in word.split("|"))


def answer(kind, words):
    if kind.startswith("show_"):
        text = TEXTS[kind.removeprefix("show_")](*map(int, words))
        return "Unprintable" if text is None else f"'{text}"
    return SAID[kind](bytes_of(words[0]).decode("utf-8", "surrogateescape"))


def answers():
    lines = [line.split(" ") for line in (ROWS / "stdin").read_text().splitlines() if line and not line.startswith("#")]
    return "".join(f"{label} {answer(kind, words)}\n" for label, kind, *words in lines)


# What protobuf takes otherwise, by name: the texts, and examples with what protobuf reads of them (or refuses, as later
# versions of it do).

DIFFERENCES = {
    # The seconds of a duration are whatever Python's int() takes.
    "duration: seconds in another form": ("duration", r"\s*[+-]?\d+(?:_\d+)*\s*(?:\.[0-9]{1,9})?s", [
        ("+1s", "1 0"), (" 1s", "1 0"), ("1 s", "1 0"), ("1_000s", "1000 0"), ("\u0661s", "1 0"),
        ("\uff11.5s", "1 500000000")]),
    # Its fraction is whatever float() takes behind a 0, which is rounded.
    "duration: fraction in another form": ("duration", r"-?[0-9]+\..*s", [
        ("1.s", "1 0"), ("1.0000000000s", "1 0"), ("1.1234567891s", "1 123456789"), ("1.5e-1s", "1 50000000"),
        ("1.5 s", "1 500000000")]),
    # The numbers of a zone are what int() takes, of any size.
    "timestamp: zone in another form": ("timestamp", FRONT + FRACTION + r"[+-][^:]*:.*", [
        ("2023-01-01T00:00:00+24:00", "1672444800 0"), ("2023-01-01T00:00:00-24:00", "1672617600 0"),
        ("2023-01-01T00:00:00+00:60", "1672527600 0"), ("2023-01-01T00:00:00+1:2", "1672527480 0"),
        ("2023-01-01T00:00:00+ 1:00", "1672527600 0")]),
    # The numbers of date and clock are what strptime takes, whatever stands behind them.
    "timestamp: numbers in another form": (
        "timestamp", f"(?!{FRONT})" + r"\d{4}-\d{1,2}-[ \d]?\d{1,2}T\d{1,2}:\d{1,2}:\d{1,2}(?:\..*)?(?:Z|[+-].*)", [
            ("2023-1-01T00:00:00Z", "1672531200 0"), ("2023-01-1T00:00:00Z", "1672531200 0"),
            ("2023-01- 1T00:00:00Z", "1672531200 0"), ("2023-01-01T0:0:0Z", "1672531200 0")]),
    # A fraction is whatever float() takes behind `0.`.
    "timestamp: fraction in another form": ("timestamp", FRONT + r"\..{0,9}(?:Z|[+-].*)", [
        ("2023-01-01T00:00:00.Z", "1672531200 0"), ("2023-01-01T00:00:00.1e-1Z", "1672531200 10000000"),
        ("2023-01-01T00:00:00.5 Z", "1672531200 500000000")]),
    # An instant that its zone moves out of the range.
    "timestamp: out of range by its zone": ("timestamp", r"(?:0001-01-0[12]|9999-12-3[01])T.*[+-].*", [
        ("0001-01-01T00:00:00+00:01", "-62135596860 0"), ("9999-12-31T23:59:59-00:01", "253402300859 0")]),
}
# Billionths out of range are carried into the seconds.
CARRIED = [
    ((0, -1), "1969-12-31T23:59:59.999999999Z"), ((0, BILLION), "1970-01-01T00:00:01Z"),
    ((-1, -1), "1969-12-31T23:59:58.999999999Z"),
]


def message_of(kind, **fields):
    from google.protobuf import duration_pb2, timestamp_pb2
    return {"duration": duration_pb2.Duration, "timestamp": timestamp_pb2.Timestamp}[kind](**fields)


def protobuf_said(kind, text):
    """What protobuf reads of a text, or None where it refuses."""
    message = message_of(kind)
    try:
        message.FromJsonString(text)
    except (ValueError, OverflowError):
        return None
    return f"{message.seconds} {message.nanos}"


def protobuf_text(kind, seconds, nanos):
    """What protobuf writes, or None where it refuses."""
    try:
        return message_of(kind, seconds=seconds, nanos=nanos).ToJsonString()
    except (ValueError, OverflowError):
        return None


def wanted_difference(kind, text):
    """The name of the wanted difference that a text is of, or None. The last one is of texts that are out of range."""
    names = list(DIFFERENCES)[:-1] if SAID[kind](text) == "BadText" else list(DIFFERENCES)[-1:]
    for name in names:
        of, pattern, _ = DIFFERENCES[name]
        if of == kind and re.fullmatch(pattern, text):
            return name
    return None


# Random moments and texts.

def moment(r, kind):
    """A moment that is printable most often."""
    low, high = (-MOST_SECONDS, MOST_SECONDS) if kind == "duration" else (FIRST_SECOND, LAST_SECOND)
    near = r.choice([0, low, high, 951_782_400, -2_203_891_200, *(r.randint(low, high) for _ in range(3))])
    seconds = near + r.choice([0, 0, 1, -1, r.randint(-200_000, 200_000)])
    few = r.randrange(1_000)
    nanos = r.choice([0, few * 1_000_000, r.randrange(1_000_000) * 1_000, r.randrange(BILLION), BILLION - 1, 1])
    if kind == "duration" and (seconds < 0 or seconds == 0 and r.random() < 0.5):
        nanos = -nanos
    return seconds, nanos if r.random() < 0.97 else r.choice([-1, -nanos, BILLION, -BILLION, 2**31 - 1, -2**31])


def fraction_spelled(r, nanos):
    """The digits of a fraction, with some of the zeros behind them."""
    digits = f"{nanos:09}"
    least = len(digits.rstrip("0"))
    length = r.randint(least, 9)
    return "." + digits[:length] if length else ""


def duration_spelled(r, seconds, nanos):
    minus = "-" if seconds < 0 or nanos < 0 else ""
    return f"{minus}{'0' * r.choice([0, 0, 0, 1, 30])}{abs(seconds)}{fraction_spelled(r, abs(nanos))}s"


def timestamp_spelled(r, seconds, nanos):
    """An instant in any zone in which its year has four digits and is not 0000."""
    zone = r.choice(["Z", None, None])
    ahead = 0 if zone else r.choice([0, 1439, -1439, r.randint(-1439, 1439)])
    if not FIRST_SECOND <= seconds + ahead * 60 <= LAST_SECOND:
        zone, ahead = "Z", 0
    time = FIRST + datetime.timedelta(seconds=seconds + ahead * 60 - FIRST_SECOND)
    sign = "-" if ahead < 0 else "+" if ahead else r.choice("+-")
    return time.isoformat() + fraction_spelled(r, nanos) + (zone or f"{sign}{abs(ahead) // 60:02}:{abs(ahead) % 60:02}")


SPELLED = {"duration": duration_spelled, "timestamp": timestamp_spelled}
ALPHABET = [*"0123456789--++::..TTZZtzsS e_", "\0", "\u0663", "00", "60", "99", "24"]


def spoiled(r, text):
    """A text that is changed at one place."""
    at = r.randrange(len(text) + 1)
    return text[:at] + r.choice(["", *ALPHABET]) + text[at + r.choice([0, 1, 1, 2]):]


# The comparison.

def read_asked(kind, text, protobuf=None):
    """A line, its wanted answer, and what is wrong with what protobuf reads: it reads the same, or refuses what is
    refused, or the text is of a wanted difference; of an example of one it reads what is told."""
    wanted, given = SAID[kind](text), protobuf_said(kind, text)
    if wanted not in ("BadText", "OutOfRange"):
        agrees = given == wanted
    elif protobuf is not None:
        agrees = given in (None, protobuf)
    else:
        agrees = given is None or wanted_difference(kind, text) is not None
    wrong = None if agrees else f"{kind} {text!r}: {wanted}, and protobuf reads {given}"
    return f"{kind} {text.encode().hex() or '-'}", wanted, wrong


def show_asked(kind, seconds, nanos, protobuf=None):
    """The same of a text that is written."""
    wanted, given = TEXTS[kind](seconds, nanos), protobuf_text(kind, seconds, nanos)
    if wanted is not None:
        agrees = given == wanted
    elif protobuf is not None:
        agrees = given in (None, protobuf)
    else:
        agrees = given is None or kind == "timestamp" and not 0 <= nanos < BILLION
    wrong = None if agrees else f"{kind} {seconds} {nanos}: {wanted}, and protobuf writes {given}"
    return f"show_{kind} {seconds} {nanos}", "Unprintable" if wanted is None else f"'{wanted}", wrong


def asked_of(r, count):
    """So many moments of each kind: their text, a text of each that is lawful, and one that is spoiled."""
    for _ in range(count):
        for kind in SAID:
            seconds, nanos = moment(r, kind)
            yield show_asked(kind, seconds, nanos)
            if TEXTS[kind](seconds, nanos) is not None:
                text = SPELLED[kind](r, seconds, nanos)
                assert SAID[kind](text) == f"{seconds} {nanos}", text
                yield read_asked(kind, text)
                yield read_asked(kind, spoiled(r, text))


def differences_asked():
    """The texts that are read otherwise than by protobuf."""
    for name, (kind, _, examples) in DIFFERENCES.items():
        for text, protobuf in examples:
            assert SAID[kind](text) in ("BadText", "OutOfRange") and wanted_difference(kind, text) == name, text
            yield read_asked(kind, text, protobuf)
    for (seconds, nanos), text in CARRIED:
        yield show_asked("timestamp", seconds, nanos, text)


def told_of(program, asked):
    """What the program answers to each line."""
    lines = "".join(f"{at} {line}\n" for at, (line, _, _) in enumerate(asked))
    run = subprocess.run([program], input=lines.encode(), capture_output=True)
    told = [line.partition(" ")[2] for line in run.stdout.decode().splitlines()]
    if run.returncode or len(told) != len(asked):
        sys.exit(f"status {run.returncode}, {len(told)} lines of {len(asked)}: {run.stderr.decode()[-500:]}")
    return told


def main():
    if sys.argv[1:] == ["--rows"]:
        print(answers(), end="")
        return 0
    if sys.argv[1:] == ["--check"]:
        same = (ROWS / "stdout").read_text() == answers()
        print("the answers of time_rows are those that are made" if same else "the answers of time_rows are others")
        return 0 if same else 1
    program = sys.argv[1] if len(sys.argv) > 1 else built("time_rows")
    count = int(sys.argv[2]) if len(sys.argv) > 2 else 20_000
    r = random.Random(int(sys.argv[3]) if len(sys.argv) > 3 else 3339)
    asked = [*asked_of(r, count), *differences_asked()]
    wrong = [told for _, _, told in asked if told is not None]
    for (line, wanted, _), given in zip(asked, told_of(program, asked)):
        if given != wanted:
            wrong.append(f"{line}: {given}, wanted {wanted}")
    for one in wrong[:20]:
        print(one[:500], file=sys.stderr)
    print(f"{count} durations, {count} instants, {len(asked)} lines, {len(DIFFERENCES) + 1} known differences, "
          f"{len(wrong)} otherwise than wanted")
    return 1 if wrong else 0


if __name__ == "__main__":
    sys.exit(main())
