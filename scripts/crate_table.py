#!/usr/bin/env python3
"""The table of crates and their files in docs/STYLE.md.

usage: crate_table.py [--check]

Writes the table anew from the tree, in the order of crates.txt. With --check it writes nothing, and fails where
the table is not that of the tree.
"""

import re
import sys
from pathlib import Path

TOP = Path(__file__).resolve().parent.parent
PAGE = TOP / "docs" / "STYLE.md"
HEAD = "| Crate | src/ | specs/ | proofs/ |\n|---|---|---|---|\n"


def declared(file, word):
    """The modules that a root file declares, in order."""
    if not file.exists():
        return []
    return re.findall(rf"^(?:pub(?:\(crate\))? )?{word} (\w+)", file.read_text(), re.M)


def sources(crate):
    """The modules of src/, each with those in its folder."""
    names = []
    for name in sorted(path.stem for path in (crate / "src").glob("*.rt")):
        if name in ("lib", "main", "tests"):
            continue
        within = sorted(path.stem for path in (crate / "src" / name).glob("*.rt"))
        names.append(f"{name} ({', '.join(within)})" if within else name)
    return names or [path.stem for path in (crate / "src").glob("*.rt") if path.stem != "tests"]


def lemmas(crate):
    """The lemma files of proofs/, and those of each folder of lemmas."""
    folder = crate / "proofs"
    groups = [path for path in sorted(folder.glob("*.antt")) if path.stem[:1].islower()]
    names = [", ".join(sorted(path.stem for path in folder.glob("*.antt") if path.stem[:1].isupper() and path.stem != "Lib"))]
    for group in groups:
        within = sorted(path.stem for path in (folder / group.stem).glob("*.antt"))
        names.append(f"{group.stem}: {', '.join(within)}")
    return "; ".join(name for name in names if name)


def row(name):
    crate = TOP / "crates" / name
    specs = [name for name in declared(crate / "specs" / "Lib.antt", "mod") if name[:1].isupper()]
    cells = [name, ", ".join(sources(crate)), ", ".join(specs) or "none", lemmas(crate) or "none"]
    return "| " + " | ".join(cells) + " |\n"


def main():
    crates = re.findall(r"^(\w+)(?: \w+)*:", (TOP / "crates.txt").read_text(), re.M)
    page = PAGE.read_text()
    start = page.index(HEAD)
    end = page.index("\n\n", start) + 1
    table = HEAD + "".join(row(name) for name in crates)
    if "--check" in sys.argv[1:]:
        if page[start:end] != table:
            print("the table of crates in docs/STYLE.md is not that of the tree: run scripts/crate_table.py")
            return 1
        return 0
    PAGE.write_text(page[:start] + table + page[end:])
    return 0


if __name__ == "__main__":
    sys.exit(main())
