"""The program under test, for the scripts here and in bench/: where it is, and one run of it. Importing this finds the model too."""
import os
import pathlib
import subprocess
import sys

ROOT = pathlib.Path(__file__).resolve().parents[2]
SAMPLE = ROOT / "crates/calls"

sys.path.insert(0, str(ROOT / "tests/model"))
from calls import argument


def find(given=None):
    """The program named by the argument, else by CALLS, else target/bin/calls."""
    path = pathlib.Path(given or os.environ.get("CALLS") or ROOT / "target/bin/calls").resolve()
    if not os.access(path, os.X_OK) or path.is_dir():
        sys.exit(f"no program at {path}: `make calls` proves and builds it, CALLS=PATH names another")
    return path


def run(path, text, seconds=60, denied=None):
    """The program's answers to the whole text, with its text of denied prefixes, and what is wrong with how it ended (empty: nothing)."""
    try:
        with argument(denied) as file:
            ended = subprocess.run([path, *file], input=text, capture_output=True, timeout=seconds)
    except subprocess.TimeoutExpired as hang:
        return hang.stdout or b"", f"did not end in {seconds} seconds"
    if ended.returncode != 0:
        return ended.stdout, f"ended with status {ended.returncode}"
    if ended.stderr:
        return ended.stdout, f"wrote to standard error: {ended.stderr[:80]!r}"
    return ended.stdout, ""
