"""Holds the rules of the house (docs/STYLE.md) that a program can see, in a second or two.

usage: python3 scripts/house_rules.py [--counts]

Each line that it prints names a place and the rule that it breaks; the status is 1 where there is one.
--counts prints how many places break each rule, in place of the places.
"""
import collections
import pathlib
import re
import sys

ROOT = pathlib.Path(__file__).resolve().parent.parent
CRATES = ROOT / "crates"
MADE = ("Answers.antt", "Invariants.antt", "Proof.antt")
MAX_FILE, MAX_BODY, MAX_LINE, MAX_FUNCTIONS = 400, 25, 120, 100
# Words of std that are names of functions on lists and numbers, as in `frames_of-append`.
STD_WORDS = set("add append cons drop eq filter filter_map flat_map fold insert le length lt map max min mul nil range remove reverse take zero".split())
# Where the checker does not take `?`: the exit's goal stays open.
KEPT_REWRAPS = {"json_events/src/progress.rt"}
# Crates of which another's proofs may import any file, and the one file that they may import of every other.
OPEN_PROOFS, LAWS_FILE = {"base"}, "Theorems"
DECLARED = re.compile(r"^( *)((?:abbrev |unfoldable |pub |data |record |ruleset )*)([A-Za-z_][^\s:(){}\[\]=]*)((?: |\().*)?$")
FUNCTION = re.compile(r"^\s*(?:pub(?:\([a-z]+\))? )?(?:const )?fn ([a-z_0-9]+)")


def files(suffix, *folders):
    """The files of crates with a suffix, in these folders of each."""
    for crate in sorted(path for path in CRATES.iterdir() if path.is_dir()):
        for folder in folders:
            for path in sorted((crate / folder).rglob("*" + suffix)):
                yield crate.name, path


def declarations(text):
    """Name, line, whether public, and type of each declaration of an antt file."""
    lines = text.split("\n")
    for at, line in enumerate(lines):
        found = DECLARED.match(line)
        if not found or line.lstrip().startswith(("--", "use ", "mod ", "module ", "pub use ", "pub mod ", "infix", "unfolding")):
            continue
        depth, rest = 0, found[4] or ""
        for index, char in enumerate(rest):
            depth += (char in "({[") - (char in ")}]")
            if depth == 0 and char == "=":
                break
            if depth == 0 and char == ":":
                yield found[3], at + 1, "pub " in found[2], len(found[1]), rest
                break


def names(broken):
    """A dash joins names of definitions; a plain word is joined by `_`."""
    known = set(STD_WORDS)
    for _, path in files(".antt", "specs"):
        known |= {name for name, *_ in declarations(path.read_text()) if "_" in name or name[0].isupper()}
    for _, path in files(".rt", "src"):
        found = re.findall(r"\b(?:fn|struct|enum|trait|const)\s+([A-Za-z_][A-Za-z0-9_]*)", path.read_text())
        known |= {name for name in found if "_" in name or name[0].isupper()}
    for _, path in files(".antt", "specs", "proofs"):
        if path.name in MADE:
            continue
        for name, line, *_ in declarations(path.read_text()):
            if "-" in name and not all(part in known for part in name.split("-")):
                broken("names", path, line, f"`{name}`: a dash joins names of definitions, a plain word is joined by `_`")


def comments(broken):
    """One line over each public definition and lemma."""
    for _, path in files(".antt", "specs", "proofs"):
        if path.name in MADE or "formers" in path.parts:
            continue
        lines = path.read_text().split("\n")
        for name, line, is_public, indent, _ in declarations("\n".join(lines)):
            above = line - 2
            while above >= 0 and lines[above].strip().startswith(("unfolding", "infix")):
                above -= 1
            if is_public and indent == 0 and not (above >= 0 and lines[above].startswith("--")):
                broken("comments", path, line, f"`{name}` is public and has no line over it that says what it means")


def twice(broken):
    """No definition or lemma stands in two crates."""
    seen = collections.defaultdict(list)
    for crate, path in files(".antt", "specs", "proofs"):
        if path.name in MADE or "formers" in path.parts or crate == "base":
            continue
        text = path.read_text()
        lines = text.split("\n")
        for name, line, _, indent, kind in declarations(text):
            body = []
            for more in lines[line:]:
                if not more.strip() or more.startswith(("--", "pub ", "abbrev ", "unfoldable ")):
                    break
                body.append(more.strip())
            key = re.sub(r"\s+", " ", kind.strip() + " " + " ".join(body)).replace(name, "?")
            if indent == 0 and len(key) > 60:
                seen[key].append((crate, path, line, name))
    for places in seen.values():
        if len({crate for crate, *_ in places}) > 1:
            first = places[0]
            for crate, path, line, name in places[1:]:
                if crate != first[0]:
                    broken("twice", path, line, f"`{name}` stands in {first[1].relative_to(ROOT)}:{first[2]} too")


def imports(broken):
    """No crate imports another's private proofs."""
    ours = {path.name for path in CRATES.iterdir()}
    for crate, path in files(".antt", "specs", "proofs"):
        for at, line in enumerate(path.read_text().split("\n"), 1):
            found = re.match(r"(?:pub )?use Rattle\.([a-z_0-9]+)\.proofs\.([A-Za-z_0-9]+)", line)
            if found and found[1] in ours and found[1] != crate and found[1] not in OPEN_PROOFS and found[2] != LAWS_FILE:
                broken("imports", path, at, f"imports private proofs of {found[1]}")


def is_table(above, body):
    """Rows laid out by hand, or one `match` of one line an arm."""
    arms = [line for line in body if line.strip()]
    is_match = len(arms) > 2 and arms[0].lstrip().startswith("match ") and all(" => " in line for line in arms[1:-1])
    return is_match or any("rattlefmt::skip" in line for line in above)


def sizes(broken):
    """No file over 400 lines, no body over 25."""
    for _, path in [*files(".antt", "specs", "proofs"), *files(".rt", "src")]:
        count = path.read_text().count("\n")
        if count > MAX_FILE:
            broken("sizes", path, 1, f"{count} lines, over {MAX_FILE}")
    for _, path in files(".rt", "src"):
        lines = path.read_text().split("\n")
        start = name = None
        for at, line in enumerate(lines):
            found = FUNCTION.match(line)
            if found:
                name, indent, start = found[1], len(line) - len(line.lstrip()), None
                if line.endswith("{"):
                    start = at
            elif name and start is None and line == " " * indent + "{":
                start = at
            elif name and start is not None and line == " " * indent + "}":
                if at - start - 1 > MAX_BODY and not is_table(lines[max(0, start - 12):start], lines[start + 1:at]):
                    broken("sizes", path, start + 1, f"the body of `{name}` has {at - start - 1} lines, over {MAX_BODY}")
                name = start = None


def privacy(broken):
    """In a private module items are `pub(crate)` or private."""
    for crate in sorted(path for path in CRATES.iterdir() if (path / "src" / "lib.rt").is_file()):
        root = (crate / "src" / "lib.rt").read_text()
        shown = set(re.findall(r"[A-Za-z_][A-Za-z0-9_]*", " ".join(re.findall(r"pub use [^;]*;", root))))
        open_modules = set(re.findall(r"pub mod ([a-z_0-9]+)", root))
        for path in sorted((crate / "src").rglob("*.rt")):
            inside = path.relative_to(crate / "src").with_suffix("").parts
            if path.name == "lib.rt" or inside[0] in open_modules:
                continue
            for at, line in enumerate(path.read_text().split("\n"), 1):
                found = re.match(r"pub (?:const )?(?:fn|struct|enum|trait|const|type) ([A-Za-z_0-9]+)", line)
                if found and found[1] not in shown:
                    broken("privacy", path, at, f"`{found[1]}` is not shown by lib.rt, so it is `pub(crate)`")


def laws(broken):
    """Laws and examples stand in modules of these names."""
    for _, path in files(".rt", "src"):
        lines = path.read_text().split("\n")
        name = None
        for at, line in enumerate(lines):
            found = FUNCTION.match(line)
            if found:
                name = found[1]
            empty = line == "{}" or (found and line.endswith(") {}"))
            if empty and name and not {"laws", "examples"} & set(path.with_suffix("").parts):
                broken("laws", path, at + 1, f"`{name}` has an empty body: laws stand in `laws`, examples in `examples`")
            if empty or line == "}":
                name = None


def rewraps(broken):
    """`?` in place of a matched re-wrap."""
    for _, path in files(".rt", "src"):
        for at, line in enumerate(path.read_text().split("\n"), 1):
            found = re.match(r"\s*Err\(([a-z_]+)\) => return Err\(\1\),", line)
            if found and str(path.relative_to(CRATES)) not in KEPT_REWRAPS:
                broken("rewraps", path, at, "a matched re-wrap: write `?`")


def long_lines(broken):
    """Lines of at most 120 characters, but for listed files: of before the rule, or cut from one of these."""
    listed = ROOT / "scripts" / "long_lines.txt"
    old = set(listed.read_text().split()) if listed.is_file() else set()
    for _, path in [*files(".antt", "specs", "proofs"), *files(".rt", "src")]:
        if path.name in old or path.name in MADE:
            continue
        for at, line in enumerate(path.read_text().split("\n"), 1):
            if len(line) > MAX_LINE and not line.startswith(("use ", "ghost use ", "pub use ")):
                broken("long lines", path, at, f"{len(line)} characters, over {MAX_LINE}")
                break


def functions(broken):
    """No crate over 100 functions of its own, laws and examples apart, which have no body."""
    for crate in sorted(path for path in CRATES.iterdir() if path.is_dir()):
        count = 0
        for path in (crate / "src").rglob("*.rt"):
            if not {"tests", "laws", "examples"} & set(path.with_suffix("").parts) and "test" not in path.stem:
                count += sum(1 for line in path.read_text().split("\n") if FUNCTION.match(line))
        if count > MAX_FUNCTIONS:
            broken("functions", crate, 0, f"{count} functions, over {MAX_FUNCTIONS}")


RULES = (names, comments, twice, imports, sizes, privacy, laws, rewraps, long_lines, functions)


def main(words):
    found = []
    for rule in RULES:
        rule(lambda kind, path, line, text: found.append((kind, f"{path.relative_to(ROOT)}:{line}: {text}")))
    if words == ["--counts"]:
        for kind, count in collections.Counter(kind for kind, _ in found).most_common():
            print(f"{count:5} {kind}")
    else:
        for kind, line in found:
            print(f"{line} ({kind})")
    print(f"{len(found)} places break a rule of the house")
    return 1 if found else 0


if __name__ == "__main__":
    sys.exit(main(sys.argv[1:]))
