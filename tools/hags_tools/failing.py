"""Runs a command while calls of it to the C library fail (failing.c): requests for memory, takes of standard input,
puts to standard output, what it says on standard error, and the opens, sends and receives of its sockets. Wants a C
compiler and Linux."""
import os
import pathlib
import shutil
import subprocess

SOURCE = pathlib.Path(__file__).resolve().parent / "failing.c"
KINDS = ("memory", "take", "put", "say", "open", "send", "recv")


def can_fail() -> bool:
    return shutil.which("cc") is not None


class Failing:
    """The library, built in this folder."""

    def __init__(self, folder: str | pathlib.Path) -> None:
        self.library = pathlib.Path(folder) / "failing.so"
        self.counts = pathlib.Path(folder) / "counts"
        words = ["cc", "-shared", "-fPIC", "-O1", "-o", str(self.library), str(SOURCE), "-ldl"]
        subprocess.run(words, check=True)

    def run(self, words: list[str], given: bytes, **told: str) -> "subprocess.CompletedProcess[bytes]":
        environment = {**os.environ, "LD_PRELOAD": str(self.library), **told}
        return subprocess.run(words, input=given, capture_output=True, timeout=300, env=environment)

    def count(self, words: list[str], given: bytes) -> tuple["subprocess.CompletedProcess[bytes]", dict[str, int]]:
        """What the command does where nothing fails, and how many calls of each kind it makes."""
        ran = self.run(words, given, COUNT_CALLS=str(self.counts))
        lines = self.counts.read_text().split()
        return ran, dict(zip(lines[::2], map(int, lines[1::2])))

    def fail(
        self, words: list[str], given: bytes, kind: str, first: int, last: int | None = None
    ) -> "subprocess.CompletedProcess[bytes]":
        """What it does where the calls of this kind from the first number to the last fail, or the first alone."""
        return self.run(words, given, FAIL_CALLS=f"{kind} {first} {last or first}")
