#!/usr/bin/env python3
"""Makes the rows of json_values on how JSON maps to values: the ProtoJSON guide's table from both sides, and each fault.

The wanted answers are put here by hand, as the records of the encoding guide that a text means, or as the fault, whose
place in the text a `^` marks. Where a text is also what is written of its value, the row stands in both directions.

What the guide leaves open is decided as docs/DECISIONS.md says: keys given twice, and the order of causes at one token.

usage: json_rows.py --rows | --check

--rows writes the rows behind those that are written by hand in crates/json_values, --check compares them.
"""
import pathlib
import sys

ROOT = pathlib.Path(__file__).resolve().parent.parent
CRATE = ROOT / "crates/json_values"

sys.path.insert(0, str(ROOT / "scripts"))
from json_row_faults import books, causes, nesting, parts, texts  # noqa: E402
from json_row_forms import ANSWERS, LINES  # noqa: E402
from json_row_known import field_masks, known_depth, known_places, moments, optional_wrappers, unprintable_values  # noqa: E402
from json_row_messages import keys, lists, maps, oneofs, whole_messages, wrappers  # noqa: E402
from json_row_scalars import byte_strings, enums, integers, truths_and_strings  # noqa: E402

HEAD = "# From here on the rows are made by scripts/json_rows.py, which has the wanted answers too."
PUTS = [integers, truths_and_strings, byte_strings, enums, lists, maps, wrappers, oneofs, keys, whole_messages, texts, nesting, causes, parts, books,
        moments, field_masks, known_places, unprintable_values, known_depth, optional_wrappers]


def made():
    """The lines and the answers that are made."""
    for put in PUTS:
        put()
    return "".join(f"{line}\n" for line in LINES), "".join(f"{answer}\n" for answer in ANSWERS)


def by_hand():
    """The lines before those that are made, and their answers."""
    lines, _, _ = (CRATE / "stdin").read_text().partition(f"{HEAD}\n")
    rows = [line for line in lines.splitlines()[1:] if line and not line.startswith("#")]
    answers = (CRATE / "stdout").read_text().splitlines(keepends=True)
    return lines, "".join(answers[: len(rows)])


def main():
    lines, answers = made()
    first, told = by_hand()
    wanted = {"stdin": f"{first}{HEAD}\n{lines}", "stdout": told + answers}
    if sys.argv[1:] == ["--rows"]:
        for name, text in wanted.items():
            (CRATE / name).write_text(text)
        return 0
    if sys.argv[1:] != ["--check"]:
        sys.exit("usage: json_rows.py --rows | --check")
    other = [name for name, text in wanted.items() if (CRATE / name).read_text() != text]
    print(f"{len(ANSWERS)} rows of json_values are made", *[f"otherwise than {name} has them" for name in other])
    return 1 if other else 0


if __name__ == "__main__":
    sys.exit(main())
