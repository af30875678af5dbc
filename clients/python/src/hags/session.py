"""One session with the daemon of a node, without a socket and a clock: datagrams and moments go in, datagrams come out.
`Connection` is a session over a socket."""

from __future__ import annotations

import secrets
import select
import socket
import time
from collections import deque
from collections.abc import Callable, Sequence
from contextlib import suppress

from .calls import line_bytes
from .errors import BadArgument, DaemonFull, SessionEnded, SessionLost
from .events import Asked, Event, event_of
from .settings import Place
from .wire import FULL, MOST_EVENTS, TAKEN, Down, Joiner, Reply, datagram_of, message_of, query_of, up_of

SHORTEST, IDLE = 0.001, 0.02  # seconds from one Up to the next, while something happens and while nothing does
LONGEST_IDLE = 1.0  # at most so many: daemons may end a session that was silent for as few as ten ticks of 0.1 seconds
SILENT = 0.1  # seconds without a word from the daemon, after which its other networks are tried too
ASK_AGAIN = 0.1  # seconds until a question is asked again


class Question:
    """A question of `hags status` to the daemon of a node, asked on all of its networks in turn until it is
    answered."""

    def __init__(self, node: int, places: Sequence[Place], what: str, answer: Callable[[list[str]], None]) -> None:
        self.node, self.places, self.what, self.answer = node, tuple(places), what, answer
        self.is_answered, self.due = False, 0.0
        self._number, self._joiner, self._sent = secrets.randbits(32), Joiner(node), 0

    def datagrams(self, now: float) -> list[tuple[Place, bytes]]:
        if now < self.due:
            return []
        place = self.places[self._sent % len(self.places)]
        self._sent, self.due = self._sent + 1, now + ASK_AGAIN
        query = query_of(place.network, self.node, self._number, self.what)
        return [(place, datagram_of(place.network, self._sent, query))]

    def take(self, datagram: bytes) -> None:
        message = self._joiner.take(datagram[1:])
        said = message_of(message) if message else None
        if isinstance(said, Reply) and said.answers(self.what, self._number) and not self.is_answered:
            self.is_answered = True
            self.answer(said.text.splitlines())


class Session:
    """Makes calls, one at a time, and hears events, each once and in order. Of the daemon's networks the one that
    answered last is used, and all of them in turn while none does."""

    def __init__(self, node: int, places: Sequence[Place], now: float, idle: float = IDLE) -> None:
        if not SHORTEST <= idle <= LONGEST_IDLE:
            raise BadArgument(f"idle is from {SHORTEST:g} to {LONGEST_IDLE:g} seconds, not {idle!r}")
        self.node, self.places, self.idle = node, tuple(places), idle
        self.key, self.incarnation = secrets.token_bytes(4), 0  # the incarnation is 0 until the daemon has answered
        self.events: deque[Event] = deque()  # those heard and not taken out
        self.is_settled, self.taken = True, False  # has the last call its answer, and was it taken?
        self.asked: Asked | None = None  # what the last call asked of a group
        self.why = ""  # the code by which it was refused
        self.lines: list[str] | None = None  # where a list stands here, each line that is heard goes there as it came
        self.last = now  # when the daemon was heard last, or the session began
        self.due = now  # when the next datagram is to go out
        self._joiner, self._network = Joiner(node), self.places[0].network
        self._sent, self._number, self._heard, self._line, self._pause = 0, 0, 0, b"", SHORTEST

    def begin(self, line: str) -> None:
        """Makes a call, a line of docs/formats.md. The last one has its answer."""
        spelled = line_bytes(line)
        if not self.is_settled:
            raise ValueError("the last call has no answer yet")
        self._number, self._line, self.is_settled, self.taken = self._number + 1, spelled, False, False
        self.asked, self.why, self._pause, self.due = None, "", SHORTEST, 0.0

    def silence(self, now: float) -> float:
        """For how many seconds the daemon was silent."""
        return now - self.last

    def datagrams(self, now: float) -> list[tuple[Place, bytes]]:
        """What is to go out now, and where to."""
        if now < self.due:
            return []
        place = self._place(now)
        self.due, self._pause = now + self._pause, min(2 * self._pause, self.idle)
        self._sent += 1
        up = up_of(self.key, self._number, self._heard, self._line)
        return [(place, datagram_of(place.network, self._sent, up))]

    def _place(self, now: float) -> Place:
        if self.silence(now) > max(SILENT, 3 * self.idle):
            return self.places[self._sent % len(self.places)]
        return next(place for place in self.places if place.network == self._network)

    def take(self, datagram: bytes, now: float) -> None:
        """Takes a datagram that came, whatever it is. Raises SessionLost or DaemonFull, and then the session is
        over."""
        message = self._joiner.take(datagram[1:])
        said = message_of(message) if message else None
        if isinstance(said, Down) and said.key == self.key:
            self._network = next((it.network for it in self.places if it.network == datagram[0]), self._network)
            self._take_down(said, now)

    def _take_down(self, down: Down, now: float) -> None:
        self.last = now
        if down.answer == FULL and down.incarnation == 0:
            raise SessionEnded(
                f"the daemon of node {self.node} has ended the session, since nothing came from this client for too "
                "long. What it held others may hold now. Join again"
            )
        was = self.incarnation = self.incarnation or down.incarnation
        if down.incarnation != was:
            raise SessionLost(
                f"the daemon of node {self.node} was started anew: {was} is {down.incarnation} now. Join again"
            )
        if down.answer == FULL:
            raise DaemonFull(
                f"the daemon of node {self.node} has 1,024 clients, and takes no more. "
                "Use another node, or start it anew, with --silence"
            )
        before = self._heard
        for number, line in enumerate(down.events, down.first):
            if number == self._heard + 1:
                self._heard = number
                self._hear(line.decode("ascii"))
        if self._line and down.done == self._number:
            self._line, self.taken = b"", down.answer == TAKEN
        # An answer may come before the events of its call, where more of them wait than a Down can carry.
        count = len(down.events)
        has_all = count < MOST_EVENTS and down.first + count <= self._heard + 1
        if not self._line and down.done == self._number and has_all:
            self.is_settled = True
        if self._heard > before:
            self._pause, self.due = SHORTEST, 0.0 if count == MOST_EVENTS else now + SHORTEST

    def _hear(self, line: str) -> None:
        if self.lines is not None:
            self.lines.append(line)
        if line.startswith("refused "):
            self.why = line.split(" ", 2)[2]
            return
        try:
            event = event_of(line)
        except ValueError:
            return  # of a kind that daemons to come may have
        self.events.append(event)
        if isinstance(event, Asked):
            self.asked = event


class Connection:
    """A socket, and the session that is held over it. `turn` sends and receives; nothing else waits. It is for one
    thread, and what a Client and an AsyncClient are built on; programs that have a loop of their own may use it as it
    is."""

    def __init__(self, node: int, places: Sequence[Place], idle: float = IDLE) -> None:
        self.socket = socket.socket(socket.AF_INET, socket.SOCK_DGRAM)
        self.socket.setblocking(False)
        self.session = Session(node, places, time.monotonic(), idle)
        self.leaving: list[Session] = []  # sessions that were given up, whose daemon may still hear a goodbye
        self.questions: list[Question] = []

    def begin_session(self, node: int, places: Sequence[Place]) -> None:
        """Begins a session, with a new key, in place of the one that is there."""
        self.session = Session(node, places, time.monotonic(), self.session.idle)

    def fileno(self) -> int:
        return self.socket.fileno()

    def close(self) -> None:
        self.socket.close()

    @property
    def due(self) -> float:
        """When the next datagram is to go out."""
        return min(sender.due for sender in self._senders())

    def _senders(self) -> list[Session | Question]:
        return [self.session, *self.leaving, *self.questions]

    def turn(self, seconds: float = 0) -> None:
        """Sends what is due, waits for at most so many seconds, and takes what came. Raises SessionLost or
        DaemonFull."""
        self.send()
        if seconds > 0:
            wait = max(0.0, min(seconds, self.due - time.monotonic()))
            poll = select.poll()
            poll.register(self.socket, select.POLLIN)
            poll.poll(wait * 1000)
        self.receive()

    def send(self) -> None:
        now = time.monotonic()
        for sender in self._senders():
            for place, datagram in sender.datagrams(now):
                with suppress(OSError):  # then it is lost, as any datagram may be, and goes again
                    self.socket.sendto(datagram, (place.address, place.port))

    def drop(self) -> None:
        """Drops what came: it is lost, as any datagram may be, and comes again."""
        with suppress(OSError):
            while True:
                self.socket.recv(65536)

    def receive(self) -> None:
        """Takes what came. Raises SessionLost or DaemonFull."""
        session = self.session
        for _ in range(64):
            try:
                datagram = self.socket.recv(65536)
            except OSError:
                return
            for question in self.questions:
                question.take(datagram)
            self.questions = [it for it in self.questions if not it.is_answered]
            for gone in self.leaving:
                with suppress(SessionLost, DaemonFull):
                    gone.take(datagram, time.monotonic())
            session.take(datagram, time.monotonic())
