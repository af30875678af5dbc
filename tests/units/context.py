"""Puts the tools on the path of the unit tests beside this file."""
import pathlib
import sys

sys.dont_write_bytecode = True
TOP = pathlib.Path(__file__).resolve().parents[2]
sys.path.insert(0, str(TOP / "tools"))
STORED = sorted(path for path in (TOP / "tests" / "cases").glob("*/*.out") if path.parent.name not in ("kinds", "load", "tables"))


def lines_of(name):
    """The lines of the stored transcript of this name."""
    return (TOP / "tests" / "cases" / f"{name}.out").read_text(encoding="ascii").splitlines()
