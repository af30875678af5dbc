"""What a daemon says of itself, by `hags status`."""
import subprocess

from hags_tools import records
from hags_tools.programs import Program

NO_REPLY = 9


def ask(program: Program, what: str, node: int, settings: bytes, turns: int = 50) -> list[records.Status] | None:
    """The lines of the daemon's answer, as records of a status; None where none comes within so many turns of 20
    milliseconds. The settings are bytes."""
    words = [str(program), "status", what, "--node", str(node), "--turns", str(turns)]
    ran = subprocess.run(words, input=settings, capture_output=True, check=False)
    if ran.returncode:
        return None
    return [records.read_status(line) for line in ran.stdout.decode("ascii", "replace").splitlines()]


def view(program: Program, node: int, settings: bytes, turns: int = 50) -> records.ViewStatus | None:
    """The view in which the daemon is; None where it does not answer."""
    lines = ask(program, "hagsns", node, settings, turns)
    return lines[0] if lines and isinstance(lines[0], records.ViewStatus) else None
