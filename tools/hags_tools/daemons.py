"""Daemons on this machine, at loopback addresses: their settings, their ports, each one's lives, and what they answer.

Node N has 127.0.0.N on network 1, 127.0.1.N on network 2 and so on."""
import ctypes
import os
import pathlib
import random
import resource
import signal
import socket
import subprocess
import time
from collections import Counter
from collections.abc import Callable, Collection, Iterable
from dataclasses import dataclass
from typing import TypeVar

from hags_tools import records
from hags_tools.programs import TOP, Program

# below those that the system gives to sockets that ask for none: so no client takes one before its daemon has it
PORTS = range(12_000, 32_000)
LINK_FAULT, NO_REPLY = 6, 9
STARTS = 5
DIE_WITH_PARENT = 1  # PR_SET_PDEATHSIG of Linux
T = TypeVar("T")
libc = ctypes.CDLL(None)


class DaemonError(Exception):
    """A daemon did what it should not."""


def bound(port: int) -> socket.socket:
    """A UDP socket at this port on all addresses; at any free one for 0."""
    opened = socket.socket(socket.AF_INET, socket.SOCK_DGRAM)
    try:
        opened.bind(("0.0.0.0", port))
    except OSError:
        opened.close()
        raise
    return opened


def row_of_sockets(count: int) -> list[socket.socket]:
    """Sockets at so many ports in a row that are free."""
    for _ in range(1000):
        first, row = random.choice(PORTS[: len(PORTS) - count]), []
        try:
            for port in range(first, first + count):
                row.append(bound(port))
        except OSError:
            for one in row:
                one.close()
        else:
            return row
    raise DaemonError(f"the system has no {count} free ports in a row")


def free_port(nodes: int) -> int:
    """What the settings can have as `port`, so that the ports of nodes 1 to so many are free."""
    row = row_of_sockets(nodes)
    port: int = row[0].getsockname()[1] - 1
    for one in row:
        one.close()
    return port


@dataclass(frozen=True)
class Plan:
    """What the settings of all daemons have in common."""

    nodes: int
    networks: int = 1
    heartbeat: tuple[int, int] = (1, 4)
    levels: tuple[int, ...] = ()
    calls: tuple[str, ...] = ()

    def settings(self, port: int) -> str:
        numbers = range(1, self.nodes + 1)
        lines = [f"node {node}" for node in numbers]
        for network in range(1, self.networks + 1):
            lines += [f"adapter {node} {network} 127.0.{network - 1}.{node}" for node in numbers]
        lines += ["hb {} {}".format(*self.heartbeat), f"port {port}"]
        lines += [f"level {node} 1" for node in self.levels]
        return "".join(f"{line}\n" for line in [*lines, "begin", *self.calls])


class Daemon:
    """The daemon of a node. `lives` are the transcripts of its starts, in their order; all of its files are in `folder`.
    `words` are words more for each start, as --remote; it has no others of a service."""

    STARTED = ("--plain",)  # how tools/hags-daemon starts it

    def __init__(
        self, program: Program, node: int, settings: str, folder: pathlib.Path, turns: int | None = None, words: Iterable[str] = ()
    ) -> None:
        self.program, self.node, self.folder = str(program), node, folder
        self.settings = folder / f"settings-{node}"
        self.settings.write_text(settings)
        self.turns, self.words = turns, words
        self.started: subprocess.Popen[bytes] | None = None
        self.lives: list[pathlib.Path] = []

    def start(self) -> None:
        """Starts it by tools/hags-daemon, which raises its incarnation. It ends where this process ends."""
        life = len(self.lives) + 1
        transcript = self.folder / f"node-{self.node}-life-{life}"
        kept = self.folder / f"incarnation-{self.node}"
        words: list[Program] = [TOP / "tools" / "hags-daemon", *self.STARTED, "--kept", kept, "--program", self.program, "--node", str(self.node)]
        words += [*self.words, *(["--turns", str(self.turns)] if self.turns else [])]
        said = transcript.with_suffix(".said")
        with self.settings.open() as settings, transcript.open("w") as out, said.open("w") as err:
            self.started = subprocess.Popen(words, stdin=settings, stdout=out, stderr=err, preexec_fn=die_with_parent)
        self.lives.append(transcript)

    @property
    def process(self) -> "subprocess.Popen[bytes]":
        if self.started is None:
            raise DaemonError(f"the daemon of node {self.node} was never started")
        return self.started

    def end(self) -> str:
        """How its last life ended."""
        said = self.lives[-1].with_suffix(".said").read_text(errors="replace").strip()
        return f"the daemon of node {self.node} has ended with status {self.process.returncode}: {said}"

    def is_alive(self) -> bool:
        return self.started is not None and self.started.poll() is None

    def lines(self) -> list[str]:
        """What its last life has written so far, but for a line that has no end yet."""
        return self.lives[-1].read_text(encoding="ascii").split("\n")[:-1]

    def member(self) -> str | None:
        """The node with its incarnation, once its last life has written it."""
        with self.lives[-1].open() as transcript:
            first = transcript.readline()
        words = first.split()
        return f"{words[1]}.{words[2]}" if first.endswith("\n") and words[0] == "up" else None

    def signal(self, number: int) -> None:
        self.process.send_signal(number)

    def memory(self) -> int:
        """How many bytes of memory it has now."""
        return memory_of(self.process.pid)

    def kill(self) -> None:
        if self.started is not None:
            self.started.kill()
            self.started.wait()

    def ask(self, what: str, turns: int = 50) -> "subprocess.Popen[bytes]":
        """Begins to ask it, by `hags status`, and waits so many turns of 20 milliseconds for what it answers."""
        words = [self.program, "status", what, "--node", str(self.node), "--turns", str(turns)]
        pipe = subprocess.PIPE
        with self.settings.open() as settings:
            return subprocess.Popen(words, stdin=settings, stdout=pipe, stderr=pipe, preexec_fn=die_with_parent)

    def answer(self, asking: "subprocess.Popen[bytes]") -> list[str] | None:
        """The lines of its answer to a question that has ended; None where there was no reply."""
        lines, said = asking.communicate()
        if asking.returncode not in (0, NO_REPLY):
            why = said.decode(errors="replace").strip()
            raise DaemonError(f"hags status of node {self.node}: status {asking.returncode}: {why}")
        return None if asking.returncode else lines.decode("ascii").splitlines()


class Supervised(Daemon):
    """A daemon with its supervisor, which starts it as a service is started, and anew after each pause. What it writes then
    stands in one transcript, as of one life."""

    STARTED = ("--supervise",)

    def member(self) -> str | None:
        last = next((line.split() for line in reversed(self.lines()) if line.startswith("up ")), None)
        return f"{last[1]}.{last[2]}" if last else None

    def child(self) -> int:
        """The process of the daemon itself. It is waited for where the supervisor starts another one just now."""
        while not (process := daemon_of(self.process.pid)):
            if not self.is_alive():
                raise DaemonError(self.end())
            time.sleep(0.01)
        return process

    def memory(self) -> int:
        return memory_of(self.child())

    def pause(self, seconds: float, with_supervisor: bool) -> None:
        """Stops the daemon for so long, alone or with its supervisor, and lets it go on."""
        stopped = [self.child(), *([self.process.pid] if with_supervisor else [])]
        for process in stopped:
            os.kill(process, signal.SIGSTOP)
        time.sleep(seconds)
        for process in stopped:
            os.kill(process, signal.SIGCONT)


def memory_of(process: int) -> int:
    return int(pathlib.Path(f"/proc/{process}/statm").read_text().split()[1]) * resource.getpagesize()


def daemon_of(supervisor: int) -> int:
    """The process of the daemon beside which this process stands; 0 where there is none now."""
    children = pathlib.Path(f"/proc/{supervisor}/task/{supervisor}/children").read_text().split()
    return next((int(it) for it in children if b"\0daemon\0" in pathlib.Path(f"/proc/{it}/cmdline").read_bytes()), 0)


def die_with_parent() -> None:
    libc.prctl(DIE_WITH_PARENT, signal.SIGKILL)


class Cluster:
    """Daemons by their nodes, ended at the end of a `with`. Whatever is waited for is waited for by `pause`, which is a
    function of seconds as time.sleep."""

    def __init__(self, daemons: Iterable[Daemon], pause: Callable[[float], object] = time.sleep) -> None:
        self.daemons = {daemon.node: daemon for daemon in daemons}
        self.pause = pause

    def __enter__(self) -> "Cluster":
        return self

    def __exit__(self, *_: object) -> None:
        for daemon in self.daemons.values():
            daemon.kill()

    def start(self, nodes: Iterable[int] | None = None, seconds: float = 120) -> None:
        """Starts these daemons, all where none is named, and waits until each has written that it is up."""
        starting = [self.daemons[node] for node in nodes or self.daemons]
        tries = dict.fromkeys(starting, 1)
        for daemon in starting:
            daemon.start()

        def are_up() -> bool:
            for daemon in starting:
                if not daemon.is_alive():
                    # Another program may have got its port between two of its lives.
                    if daemon.process.returncode != LINK_FAULT or tries[daemon] == STARTS:
                        raise DaemonError(daemon.end())
                    tries[daemon] += 1
                    daemon.start()
            return all(daemon.member() for daemon in starting)

        self.wait_for("the first lines", seconds, are_up)

    def ask(self, what: str, nodes: Iterable[int]) -> dict[int, list[str] | None]:
        """What each of these nodes answers, None where it does not."""
        askings = {node: self.daemons[node].ask(what) for node in nodes}
        while any(asking.poll() is None for asking in askings.values()):
            self.pause(0.001)
        return {node: self.daemons[node].answer(asking) for node, asking in askings.items()}

    def wait_for(self, what: str, seconds: float, found: Callable[[], T | None]) -> T:
        """Waits until this function finds something, and answers that. `what` says for what is waited."""
        end = time.monotonic() + seconds
        while True:
            thing = found()
            if thing:
                return thing
            if time.monotonic() > end:
                raise DaemonError(f"waited {seconds} s for {what}")
            self.pause(0.01)

    def views(self, nodes: Iterable[int]) -> list[records.ViewStatus | None]:
        """The view of each of these nodes, None where it does not answer."""
        return [records.read_view(lines[0]) if lines else None for lines in self.ask("hagsns", nodes).values()]

    def view_of(self, nodes: Collection[int]) -> records.ViewStatus | None:
        """The view in which these nodes are, they alone, each in its last incarnation and none frozen; None where there
        is no such view."""
        for node in nodes:
            daemon = self.daemons[node]
            if not daemon.is_alive():
                raise DaemonError(daemon.end())
        view, *others = self.views(nodes)
        if not view or view.frozen or any(other != view for other in others):
            return None
        return view if view.members == tuple(self.daemons[node].member() for node in sorted(nodes)) else None

    def rings_of(self, nodes: Collection[int]) -> set[int]:
        """The networks on which each of these nodes says that they, and they alone, are its ring."""
        answers = [lines for lines in self.ask("hats", nodes).values() if lines is not None]
        if len(answers) < len(nodes):
            return set()
        wanted = f"members={','.join(map(str, sorted(nodes)))}"
        are_whole = zip(*([line.split()[3] == wanted for line in lines] for lines in answers))
        return {network for network, said in enumerate(are_whole, 1) if all(said)}

    def left_behind(self, nodes: Collection[int]) -> int | None:
        """One of the fewest of these nodes with a view of their own, where all are in one ring of a network, and the least
        node is in a view of all: then it asks for no other view, and nobody else does. None elsewhere."""
        nodes = sorted(nodes)
        views = [view for view in self.views(nodes) if view]
        if len(views) < len(nodes) or views[0].members != tuple(self.daemons[node].member() for node in nodes):
            return None
        holders = Counter(views)
        if len(holders) == 1 or not self.rings_of(nodes):
            return None
        return min(zip(nodes, views), key=lambda pair: holders[pair[1]])[0]

    def help_left_behind(self, nodes: Collection[int]) -> int | None:
        """Does what docs/operating.md tells the operator to do where views stay apart: starts the daemon anew that was left
        behind. Answers its node; None where there is none."""
        node = self.left_behind(nodes)
        if node:
            self.daemons[node].kill()
            self.start([node])
        return node

    def wait_for_view(self, nodes: Collection[int], seconds: float = 120) -> records.ViewStatus:
        names = ", ".join(map(str, sorted(nodes)))
        return self.wait_for(f"one view of nodes {names}", seconds, lambda: self.view_of(nodes))


def call(daemon: Daemon, calls: Iterable[str], turns: int = 5_000) -> tuple[int, list[str]]:
    """Makes these calls at a daemon with --remote, by `hags client`, and answers its status and what it wrote. The client, and
    what it joined, stays there when the program has ended."""
    settings = daemon.settings.read_text().split("begin\n")[0]
    given = "".join(f"{line}\n" for line in [*settings.splitlines(), "begin", *calls])
    words = [daemon.program, "client", "--node", str(daemon.node), "--turns", str(turns)]
    ran = subprocess.run(words, input=given, capture_output=True, text=True, check=False, preexec_fn=die_with_parent)
    return ran.returncode, ran.stdout.splitlines()
