"""The word --program, by which every tool, test and bench is told which program to run."""
import argparse
import pathlib
import shutil

Program = str | pathlib.Path
TOP = pathlib.Path(__file__).resolve().parents[2]
IS_CLONE = (TOP / "crates").is_dir()
# In a clone the start script, which builds an unproved program where there is no other; else what is installed.
START_SCRIPT = TOP / "hags" if IS_CLONE else pathlib.Path("/usr/bin/hags")
PROVED = TOP / "crates" / "hags" / "out" / "hags"  # what `rt ci` builds


def add_word(parser: argparse.ArgumentParser, default: pathlib.Path = START_SCRIPT) -> None:
    """Adds the word to a parser of words; its value is a whole path, or a name that the shell would find."""
    shown = f"./{default.relative_to(TOP)}" if IS_CLONE else default
    parser.add_argument("--program", metavar="FILE", type=as_path, default=default, help=f"the program ({shown})")


def as_path(word: str) -> pathlib.Path:
    """A file, or as in a shell the name of a program."""
    found = shutil.which(word) if "/" not in word and not pathlib.Path(word).exists() else None
    return pathlib.Path(found or word).absolute()
