"""Stays beside a daemon: tells systemd that it is ready and alive, hands signals on, starts it anew where it was paused, and
says what to do where it ends otherwise."""
import ctypes
import os
import select
import signal
import socket
import subprocess
import sys
from collections.abc import Callable, Iterator

from hags_tools import asking, checking, reading, records

DIE_WITH_PARENT = 1  # PR_SET_PDEATHSIG of Linux
SOON, SELDOM = 0.2, 10  # seconds from one question to the next, until it is ready and then
TURNS = 50  # of 20 milliseconds, for an answer
PAUSED = 12  # the status of a daemon at a pause (--gap)
TOLD = {signal.SIGTERM, signal.SIGINT, signal.SIGHUP}
ENDS = {
    3: "Memory has run out, or the limit of its memory (MemoryMax= of the unit). What it knew of groups is gone with it; it may start again.",
    4: "Standard input could not be read: is it a folder?",
    5: "What it writes finds no place: the disk is full, or the reader of its pipe is gone.",
}
libc = ctypes.CDLL(None)


def tell_systemd(text: str) -> None:
    """Sends this to systemd, where that started us and wants to be told."""
    name = os.environ.get("NOTIFY_SOCKET")
    if name:
        with socket.socket(socket.AF_UNIX, socket.SOCK_DGRAM) as told:
            told.connect("\0" + name[1:] if name.startswith("@") else name)
            told.sendall(text.encode())


def before_start() -> None:
    """In the daemon, before it is one: it ends with us, and a terminal that closes is ours to hear of."""
    libc.prctl(DIE_WITH_PARENT, signal.SIGKILL)
    signal.signal(signal.SIGHUP, signal.SIG_IGN)


def file_of(settings: bytes) -> int:
    """The settings as a file that can be read again."""
    file = os.memfd_create("settings")
    os.write(file, settings)
    return file


class Supervisor:
    """Beside the daemon of a node that these words start with these settings, each time in the next incarnation, which the
    function `raise_incarnation` keeps and gives. The settings are bytes, or None where standard input cannot be read."""

    def __init__(self, words: list[str], node: int, settings: bytes | None, raise_incarnation: Callable[[], int]) -> None:
        self.words, self.node, self.settings, self.raise_incarnation = words, node, settings or b"", raise_incarnation
        self.input = 0 if settings is None else file_of(settings)
        self.program = words[0]
        self.is_ready = self.is_ending = False
        self.view: records.ViewStatus | None = None  # of this incarnation, as it was told last
        watchdog = int(os.environ.get("WATCHDOG_USEC", 0)) / 1_000_000
        self.pause = min(SELDOM, watchdog / 4) if watchdog else SELDOM

    def run(self) -> int:
        """Runs the daemon to its end, anew after each pause, and answers its status; of one that a signal has ended 128 and the
        signal's number."""
        self.wake, wakes = socket.socketpair()
        for end in (self.wake, wakes):
            end.setblocking(False)
        signal.set_wakeup_fd(wakes.fileno(), warn_on_full_buffer=False)
        for number in TOLD:
            signal.signal(number, lambda *_: None)
        while (status := self.live()) == PAUSED and not self.is_ending:
            self.say(
                "the daemon was paused for as long as --gap says, or longer, and has ended before it disturbed anybody. It "
                "starts anew at once, in the next incarnation; what its clients had joined is gone"
            )
        return self.end(status)

    def live(self) -> int:
        """Runs the daemon once, and answers how it ended."""
        incarnation = self.raise_incarnation()
        self.member, self.view = f"{self.node}.{incarnation}", None
        words = [*self.words, "--inc", str(incarnation)]
        if self.input:
            os.lseek(self.input, 0, os.SEEK_SET)
        with subprocess.Popen(words, stdin=self.input, preexec_fn=before_start) as self.daemon:
            end = os.pidfd_open(self.daemon.pid)
            while True:
                ready, _, _ = select.select([end, self.wake], [], [], self.pause if self.is_ready and self.view else SOON)
                if end in ready:
                    break
                if self.wake in ready:
                    self.hear(self.wake.recv(4096))
                elif not self.is_ending:
                    self.look()
            os.close(end)
        return self.daemon.returncode

    def hear(self, signals: bytes) -> None:
        for number in signals:
            if number == signal.SIGHUP:
                self.say("settings are read at a start alone: start it anew to change them")
            else:
                self.stop()

    def stop(self) -> None:
        """Ends the daemon. No packet of hags says farewell in a node's name, so the others miss it as they miss a dead one."""
        if self.is_ending:
            return
        self.is_ending = True
        tell_systemd("STOPPING=1")
        settings, _ = reading.read(self.settings, reading.DAEMON, self.node)
        every, misses = settings.heartbeat
        self.say(f"it was told to end; the other nodes miss it after {every * misses / 10:.1f} s, and its members with it")
        self.daemon.terminate()

    def look(self) -> None:
        """Asks the daemon for its view, and tells systemd of it."""
        view = asking.view(self.program, self.node, self.settings, TURNS)
        if view is None or self.member not in view.members:
            return
        if not self.is_ready and not view.frozen:
            self.is_ready = True
            tell_systemd("READY=1")
        if self.is_ready:
            tell_systemd("WATCHDOG=1")
        if view != self.view:
            self.view = view
            nodes = ", ".join(member.split(".")[0] for member in view.members)
            tell_systemd(f"STATUS=view {view.view} of nodes {nodes}{', frozen' if view.frozen else ''}")

    def end(self, status: int) -> int:
        if self.is_ending:
            return 0
        if status < 0:
            self.say(f"the daemon was ended by {signal.Signals(-status).name}")
            return 128 - status
        for sentence in self.sentences(status):
            self.say(sentence)
        return status

    def sentences(self, status: int) -> Iterator[str]:
        """What to do about a daemon that has ended with this status."""
        if status == 2:
            yield checking.of_settings(self.settings, reading.DAEMON, self.node)[1]
        elif status == 6:
            settings, _ = reading.read(self.settings, reading.DAEMON, self.node)
            found = list(checking.of_port(settings, self.node))
            yield from found or ["Its UDP socket failed 16 times in a row. The port is free now; it may start again."]
        elif status in ENDS:
            yield ENDS[status]

    def say(self, text: str) -> None:
        print(f"hags-daemon: {text}", file=sys.stderr, flush=True)
