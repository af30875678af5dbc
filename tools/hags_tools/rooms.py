"""The files of the repository, and what each of them is."""
import pathlib
import re
import subprocess

TOP = pathlib.Path(__file__).resolve().parents[2]

# Code, definitions and proofs of the product; what tests it, its tools and clients, and pages. The others are wrong bodies,
# stored scripts and pictures, which are no text that one reads.
KINDS = ("product", "definitions", "proofs", "tests", "tools", "pages")
IN_CRATE = {"src": "product", "specs": "definitions", "proofs": "proofs"}
TOOLS = (".ci", "bench", "clients", "packaging", "tools", "hags")


def tracked() -> list[pathlib.PurePath]:
    """The files of the repository, those that are not committed yet too."""
    command = ["git", "-C", str(TOP), "ls-files", "--cached", "--others", "--exclude-standard"]
    said = subprocess.run(command, capture_output=True, text=True, check=True).stdout
    return [pathlib.PurePath(line) for line in said.splitlines() if (TOP / line).exists()]


def is_test(path: pathlib.PurePath) -> bool:
    """Is a file of a crate one of its tests and examples, or of a crate on which nothing stands?"""
    crate = path.parts[1]
    return bool(re.search(r"_(tests|bench|examples)$|^two_daemons$", crate)) or path.stem in ("tests", "samples", "examples")


def kind_of(path: pathlib.PurePath) -> str:
    """One of KINDS, or `other`."""
    first = path.parts[0]
    if path.suffix == ".md":
        return "pages"
    if first == "crates" and len(path.parts) > 3 and path.parts[2] in IN_CRATE:
        return "tests" if is_test(path) else IN_CRATE[path.parts[2]]
    if path.parts[:2] in (("tests", "cases"), ("tools", "edits")):
        return "other"
    if "tests" in path.parts:
        return "tests"
    if first in TOOLS:
        return "tools"
    return "other"
