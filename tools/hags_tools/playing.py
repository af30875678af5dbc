"""What the tools of this folder share: it plays scripts through hags, and says which records each line caused.

Each prefix of a script is a script, and its transcript is a prefix of the whole one. So the records of a line are those
by which the transcript grows when the line is added."""
import os
import pathlib
import subprocess
import sys
from concurrent.futures import ThreadPoolExecutor
from dataclasses import dataclass, field

from hags_tools.programs import Program

SETTINGS = {"mode", "node", "adapter", "hb", "port", "level", "domain"}
DONE, BAD_LINE = 0, 2


class PlayError(Exception):
    """The program could not be started, or is none that plays scripts."""


@dataclass(frozen=True)
class Played:
    """One play of a script: the exit status, the records, and what was said on standard error of a failure."""

    status: int
    records: list[str]
    said: str


@dataclass
class Step:
    """A line of a script, by its number from 1, with the records that it caused."""

    number: int
    line: bytes
    records: list[str] = field(default_factory=list)

    def text(self) -> str:
        """The line to be shown; a byte that is not printed is shown as \\xNN."""
        return "".join(chr(byte) if 0x20 <= byte < 0x7F else f"\\x{byte:02x}" for byte in self.line)

    def words(self) -> list[str]:
        return self.text().split()

    def is_event(self) -> bool:
        """Can the line cause records? A blank line, a comment and a setting cause none."""
        words = self.words()
        return bool(words) and not words[0].startswith("#") and words[0] not in SETTINGS


@dataclass
class Steps:
    """The lines of a script that were played, and why the play ended before the last one, if it did. `failed` is the
    line that is in no script, or that was played last; `said` is what the program said of it, with its `status`."""

    steps: list[Step]
    failed: Step | None = None
    said: str = ""
    status: int = DONE


def wake(program: Program) -> None:
    """Plays the empty script, so that a start script builds its program now, and says so on standard error."""
    try:
        ran = subprocess.run([str(program), "run"], stdin=subprocess.DEVNULL, stdout=subprocess.DEVNULL, check=False)
    except OSError as error:
        raise PlayError(f"{program}: {error.strerror}") from error
    if ran.returncode != DONE:
        raise PlayError(f"{program} ended with status {ran.returncode}")


def play(program: Program, script: bytes) -> Played:
    """Plays a script, given as bytes."""
    try:
        ran = subprocess.run([str(program), "run"], input=script, capture_output=True, check=False)
    except OSError as error:
        raise PlayError(f"{program}: {error.strerror}") from error
    said = ran.stderr.decode("ascii", "replace").strip().splitlines()
    if ran.returncode not in (0, 2, 3, 4, 5, 7):
        raise PlayError(f"{program}: status {ran.returncode}" + "".join(f"\n  {line}" for line in said[-5:]))
    records = ran.stdout.decode("ascii", "replace").splitlines()
    return Played(ran.returncode, records, said[-1] if ran.returncode and said else "")


def lines_of(script: bytes) -> list[Step]:
    """The lines of a script as steps without records."""
    lines = script.split(b"\n")
    if lines[-1] == b"":
        lines.pop()
    return [Step(number, line) for number, line in enumerate(lines, 1)]


def prefix(steps: list[Step], length: int) -> bytes:
    """The script of the first lines."""
    return b"".join(step.line + b"\n" for step in steps[:length])


def bad_line_number(said: str) -> int:
    """The L of `hags: line L: WHY`."""
    return int(said.split(":")[1].split()[1])


def play_steps(program: Program, script: bytes) -> Steps:
    """Plays a script and each of its prefixes, and answers its lines with their records."""
    wake(program)
    steps = lines_of(script)
    whole = play(program, script)
    result = Steps(steps, said=whole.said, status=whole.status)
    if whole.status == BAD_LINE:
        number = bad_line_number(whole.said)
        result.failed = steps[number - 1]
        result.steps = steps = steps[: number - 1]
        whole = play(program, prefix(steps, number - 1))
    _share_out(program, whole, result)
    return result


def _share_out(program: Program, whole: Played, result: Steps) -> None:
    """Gives each step its records of the whole play, and ends the steps with the one where that play failed."""
    events = [step for step in result.steps if step.is_event()]
    with ThreadPoolExecutor(os.cpu_count()) as pool:
        plays = pool.map(lambda step: play(program, prefix(result.steps, step.number)), events)
        have = 0
        for step, played in zip(events, plays):
            count = len(played.records)
            if count < have or played.records != whole.records[:count]:
                raise PlayError(f"{program}: the transcript up to line {step.number} is no prefix of the whole one")
            step.records = whole.records[have:count]
            have = count
            if played.status != DONE:
                result.steps = result.steps[: step.number]
                result.failed = step
                break


def read_script(name: str) -> bytes:
    """The bytes of the script of this name, `-` for standard input."""
    if name == "-":
        return sys.stdin.buffer.read()
    return pathlib.Path(name).read_bytes()
