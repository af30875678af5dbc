"""The UDP sockets of this machine, as /proc shows them: who has a port, and what was lost there."""
import pathlib
from typing import NamedTuple

PROC = pathlib.Path("/proc")


class Socket(NamedTuple):
    inode: int
    waiting: int  # bytes that came and were not taken yet
    dropped: int  # datagrams that found no room


class Holder(NamedTuple):
    process: int
    command: str
    is_stopped: bool
    writes_to_pipe: bool


def at_port(port: int) -> list[Socket]:
    """The sockets at a UDP port, on whatever address."""
    found = []
    for line in (PROC / "net" / "udp").read_text().splitlines()[1:]:
        words = line.split()
        if int(words[1].split(":")[1], 16) == port:
            found.append(Socket(int(words[9]), int(words[4].split(":")[1], 16), int(words[12])))
    return found


def holder(port: int) -> Holder | None:
    """The process that has a UDP port; None where none has, or where one may not see it."""
    names = {f"socket:[{it.inode}]" for it in at_port(port)}
    for folder in PROC.iterdir() if names else ():
        if folder.name.isdigit() and names & _files_of(folder):
            return _holder_of(folder)
    return None


def _files_of(folder: pathlib.Path) -> set[str]:
    try:
        return {str(file.readlink()) for file in (folder / "fd").iterdir()}
    except OSError:
        return set()


def _holder_of(folder: pathlib.Path) -> Holder:
    command = (folder / "cmdline").read_bytes().replace(b"\0", b" ").decode(errors="replace").strip()
    state = (folder / "stat").read_text().rsplit(")", 1)[1].split()[0]
    return Holder(int(folder.name), command, state in "Tt", str((folder / "fd" / "1").readlink()).startswith("pipe:"))


def addresses() -> list[str]:
    """The IPv4 addresses of this machine, as far as /proc shows them; all of 127 are."""
    found = []
    lines = (PROC / "net" / "fib_trie").read_text().splitlines()
    for line, below in zip(lines, lines[1:]):
        if "host LOCAL" in below and "|--" in line:
            found.append(line.split("|--")[1].strip())
    return found
