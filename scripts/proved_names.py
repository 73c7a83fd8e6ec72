#!/usr/bin/env python3
"""Whether what docs/PROVED.md and docs/DEFINITIONS.md name is there.

usage: proved_names.py

Of each row of PROVED: the calls and clauses of the second column stand in the files of the third (or are parts of a
record of the fourth), and the definitions of the fourth in the spec files behind them in brackets. Of each row of DEFINITIONS: what the last column names stands
in the spec file before it. Prints each name that does not, and fails where there is one.
"""

import re
import sys
from pathlib import Path

TOP = Path(__file__).resolve().parent.parent
CRATES = TOP / "crates"
# words of the second column that are no names of the files
PLAIN = {"law", "laws", "lemmas", "examples", "trait", "Ok", "Err", "At", "Display", "Ord", "PartialOrd", "Eq", "PartialEq"}


def cells(line):
    return [cell.strip() for cell in re.split(r"(?<!\\)\|", line)[1:-1]]


def sections(page):
    """The lines of each section of a page, with the crates that its heading names."""
    crates = []
    for line in page.read_text().splitlines():
        if line.startswith("## "):
            crates = [name for name in re.findall(r"\w+", line) if (CRATES / name).is_dir()]
        elif line.startswith("|") and crates:
            yield crates, line


def has(text, name):
    return re.search(rf"(?<![\w-]){re.escape(name)}(?![\w-])", text) is not None


def source(crates, names):
    """The text of files of src/ or proofs/ without their endings."""
    text = ""
    for name in names:
        for crate in crates:
            for path in (CRATES / crate / f"{name}.rt", CRATES / crate / f"{name}.antt"):
                if path.exists():
                    text += path.read_text()
    return text


def specs(crates, names):
    """The text of spec files, each by its name alone or behind that of its crate."""
    text = ""
    for name in names:
        crate, _, file = name.rpartition("/")
        for home in [crate] if crate else crates:
            path = CRATES / home / "specs" / f"{file}.antt"
            if path.exists():
                text += path.read_text()
    return text


def proved():
    for crates, line in sections(TOP / "docs" / "PROVED.md"):
        row = cells(line)
        if len(row) != 5 or row[0] in ("Claim", "---"):
            continue
        text = source(crates, re.findall(r"[\w/]+/[\w/]+", row[2]))
        files = re.findall(r"[\w/]+", " ".join(re.findall(r"\(([^()]*)\)", row[3])))
        cited = specs(crates, files)
        if not text:
            yield f"PROVED: no file `{row[2]}` of {crates[0]}"
        for name in re.findall(r"`([^`]+)`", row[1]):
            for word in re.findall(r"\w+", name):
                if word not in PLAIN and not has(text, word) and not has(cited, word):
                    yield f"PROVED: `{word}` is not in {row[2]} of {crates[0]}"
        if not files:
            continue
        for name in re.findall(r"`([^`]+)`", row[3]):
            if not has(cited, name):
                yield f"PROVED: `{name}` is not in {', '.join(files)} of {crates[0]}"


def definitions():
    for crates, line in sections(TOP / "docs" / "DEFINITIONS.md"):
        row = cells(line)
        if len(row) != 4 or row[0] in ("Term", "---"):
            continue
        for part in row[3].split(";"):
            match = re.match(r"\s*((?:\w+/specs/)?\w+) `", part)
            if not match or match[1] == "std":
                continue
            file = match[1].replace("/specs/", "/")
            text = specs(crates, [file])
            for name in re.findall(r"`([^`]+)`", part):
                if not has(text, name):
                    yield f"DEFINITIONS: `{name}` is not in {file} of {crates[0]}"


def main():
    wrong = list(proved()) + list(definitions())
    for line in wrong:
        print(line)
    return 1 if wrong else 0


if __name__ == "__main__":
    sys.exit(main())
