"""The built programs, for the checks that run them."""
import os
import pathlib
import subprocess
import sys

ROOT = pathlib.Path(__file__).resolve().parent.parent


def executables(name):
    """The programs that the gate or `rt run` left, those that LLVM built first."""
    found = []
    for path in sorted((ROOT / "crates" / name / "out").glob(f"{name}*")):
        if path.is_file() and os.access(path, os.X_OK) and path.read_bytes()[:4] == b"\x7fELF":
            found.append(path)
    return found


def built(name="grpcjson"):
    """A built program: one that is there, or one that is built now."""
    if not executables(name):
        words = ["--", "--version"] if name == "grpcjson" else []
        made = subprocess.run(["rt", "run", *words], cwd=ROOT / "crates" / name, stdin=subprocess.DEVNULL, capture_output=True, text=True)
        if made.returncode or not executables(name):
            sys.exit(f"the program could not be built: {made.stdout[-500:]}{made.stderr[-500:]}")
    return str(executables(name)[0])
