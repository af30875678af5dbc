"""A client that one uses from plain code, with a thread of its own behind it."""

from __future__ import annotations

import atexit
import os
import secrets
import select
import socket
import threading
import time
from collections.abc import Callable, Iterable, Iterator, Sequence
from concurrent.futures import CancelledError, Future
from concurrent.futures import TimeoutError as FutureTimeout
from contextlib import AbstractContextManager, contextmanager, suppress
from dataclasses import replace
from types import TracebackType
from typing import Union

from . import calls
from .calls import PLAIN, Attributes, Bytes
from .core import Answer, Core, Membership
from .errors import BadArgument, CallRefused, ClientClosed, HagsError, NoReply, Rejected, SessionLost, TimedOut
from .events import HOSTS, Asked, Event, Hosts, Noted
from .ids import Member
from .session import IDLE
from .settings import Settings
from .status import noted_of
from .wire import QUESTIONS

FOREVER = float("inf")
PATIENCE = 3.0  # seconds of a daemon's silence, after which another one is used
AGAIN = 0.2  # seconds from one try of a join to the next
LONGEST_TURN = 0.5
GOODBYE = 1.0  # seconds that a goodbye may take

SettingsLike = Union[Settings, str, "os.PathLike[str]"]
NodeLike = Union[int, Sequence[int], None]


def settings_of(settings: SettingsLike) -> Settings:
    """Settings as they are, or read from the file of this name."""
    if isinstance(settings, Settings):
        return settings
    if not isinstance(settings, (str, os.PathLike)) or "\n" in os.fspath(settings):
        raise BadArgument("settings are a file's name or hags.Settings: for a text take hags.Settings.parse(TEXT)")
    return Settings.read(settings)


def nodes_of(settings: Settings, node: NodeLike) -> tuple[int, ...]:
    """The nodes whose daemons may be used, in the order in which they are tried."""
    nodes = settings.nodes if node is None else (node,) if isinstance(node, int) else tuple(node)
    return tuple(calls.number("a node", it, 1, 32) for it in nodes)


def own_name(name: str | None) -> str:
    """The name of a client; of one without, one of its process."""
    return f"py{os.getpid()}-{secrets.token_hex(2)}" if name is None else name


def no_reply(core: Core, more: str = "") -> NoReply:
    places = ", ".join(str(place) for place in core.places[core.node])
    nodes = ", ".join(map(str, core.nodes))
    others = f"; the daemons of nodes {nodes} are tried in turn" if len(core.nodes) > 1 else ""
    return NoReply(f"no daemon of node {core.node} with --remote answers at {places}{others}{more}")


def outcome_of(membership: Membership | None, asked: Asked, instance: int | None) -> bool:
    """What has come of a join that is decided: is it to be tried again? Else it is a membership, or an error."""
    if membership is None or membership.own != asked.provider or membership.ended == "SessionLost":
        raise SessionLost("the session was lost while the join was under way. Join again")
    code = membership.ended.split(" ")[0]
    if code == "reject":
        raise Rejected(f"the members of {asked.group} rejected the join")
    if code in ("DISSOLVED", "LIST_FULL") or (code, instance) == ("DUPLICATE_INSTANCE_NUMBER", None):
        return True
    if code.isupper():
        raise CallRefused(f"the leader of {asked.group}", f"join {asked.group}", membership.ended)
    return False


def is_decided(core: Core, asked: Asked) -> bool:
    """Has a join come to something?"""
    found = core.memberships.get(asked.group)
    return found is None or found.own != asked.provider or found.is_member or bool(found.ended)


class Client(AbstractContextManager["Client"]):
    """A client of a cluster: it joins groups, sets their values, votes, and hears what every member hears, in one
    order.

        with hags.Client("settings", node=1, name="web") as client:
            client.join("db")
            client.state("db", "red")
            for event in client.events():
                print(event)

    `settings` is the daemons' file, or a `Settings`. `node` is the node whose daemon is used, which runs with
    `--remote`; with several nodes, or None for all, the first one whose daemon answers is used, and the next one after
    `patience` seconds of its silence. A daemon is looked for on all of its networks. `name`, of 1 to 16 letters,
    digits, `_`, `-` and `.`, is one that no other client of that daemon has; None takes one of its own.

    A call returns once the daemon has taken it, or raises: NoReply where none answers for `seconds`, CallRefused, or
    SessionLost. The group's leader may refuse it later: `Told` comes, with its request. `idle` is how often a client at
    rest asks its daemon for news, in seconds: so long an event may take, and so many datagrams it costs. It is at most
    one second, since a daemon with `--silence` ends a session of which nothing came for so many tenths of a second.

    **Threads.** A thread of the client's own sends and receives, so nothing has to be called again and again. All
    methods may be called by any thread, also at once; an event goes to whoever asks first. After a `fork` the child has
    no client. **The end.** At the end of a `with`, by `close`, and at the end of the process the client says goodbye,
    by which its memberships end. One that is killed says none: a daemon with `--silence` says it in its stead after
    that time, and one without keeps it a member. Of one that was stopped for so long, and goes on, the session was
    ended: SessionEnded comes, which is a SessionLost.
    """

    def __init__(
        self,
        settings: SettingsLike,
        node: NodeLike = None,
        name: str | None = None,
        *,
        seconds: float = 10.0,
        idle: float = IDLE,
        patience: float = PATIENCE,
        reopen: bool = True,
    ) -> None:
        self.settings = settings_of(settings)
        self.seconds = seconds  #: how long an answer is waited for
        nodes = nodes_of(self.settings, node)
        self._lock = threading.RLock()
        self._news = threading.Condition(self._lock)
        self._core = Core(self.settings, nodes, own_name(name), idle, patience, reopen)
        self._readable, self._bell = socket.socketpair()
        self._woken, self._waker = socket.socketpair()
        for end in (self._readable, self._bell, self._woken, self._waker):
            end.setblocking(False)
        self._has_rung, self._is_closing, self._is_closed = False, False, False
        self._thread = threading.Thread(target=self._run, name=f"hags client {self.name}", daemon=True)
        self._thread.start()
        atexit.register(self.close)
        try:
            self._wait_open(seconds)
        except BaseException:
            self._stop()
            raise

    # What it is

    @property
    def name(self) -> str:
        """Its name at its daemon. Where it had to leave one behind it has a number behind it."""
        return self._core.name

    @property
    def node(self) -> int:
        """The node whose daemon is used now."""
        return self._core.node

    @property
    def incarnation(self) -> int:
        """That daemon's incarnation; 0 until it has answered."""
        return self._core.session.incarnation

    @property
    def is_open(self) -> bool:
        """Has it a session now?"""
        return self._core.is_open

    def silence(self) -> float:
        """For how many seconds the daemon was silent. One that lives answers whenever it is asked for news."""
        return self._core.silence()

    def fileno(self) -> int:
        """A descriptor that is readable while an event waits, for `select`, `poll` and the like. Nothing is read from
        it: `next_event(0)` takes the event."""
        self._check_closed()
        return self._readable.fileno()

    def membership(self, group: str) -> Membership | None:
        """What was heard last of a group that it has joined: its members and its value. None where it has not."""
        with self._lock:
            found = self._core.memberships.get(group)
            return None if found is None or found.ended else replace(found)

    def hosts(self) -> Hosts | None:
        """The nodes of the view in which its daemon is, as far as that is known; None where nobody answers."""
        with self.locked() as core:
            core.follow_hosts()
        with suppress(TimedOut):
            self.wait_until("the nodes of the view", lambda: core.hosts is not None, self.seconds)
        return core.hosts

    def has_majority(self) -> bool:
        """Is its daemon, as far as is known, in a view of more than half of the nodes of the settings?"""
        hosts = self.hosts()
        return hosts is not None and len(hosts.hosts) >= self.settings.majority

    # Calls

    def join(
        self, group: str, attributes: Attributes = PLAIN, *, instance: int | None = None, seconds: float | None = None
    ) -> Member:
        """Joins a group, and returns once this client is a member: that membership. Where two sides of a partition
        merge meanwhile it joins again. All members give the same attributes; those of one node have different instance
        numbers, 1 to 65,535, and None takes one that is free. Raises CallRefused where the join is refused, Rejected
        where it is voted down, and TimedOut where it is not decided in so many seconds (None: as many as an answer may
        take): then it may be decided yet."""
        end = time.monotonic() + (self.seconds if seconds is None else seconds)
        while True:
            asked = self.start_join(group, attributes, instance=instance)
            with self._lock:
                what = f"the join of {group} to be decided"
                self._wait(what, lambda: is_decided(self._core, asked), end - time.monotonic())
                if not outcome_of(self._core.memberships.get(group), asked, instance):
                    return asked.provider
            time.sleep(AGAIN)

    def start_join(self, group: str, attributes: Attributes = PLAIN, *, instance: int | None = None) -> Asked:
        """Joins a group, and returns once the daemon has taken the call: what comes of it is heard."""
        line = calls.join_line(group, attributes, instance)
        if self._core.has_recipe(group):
            raise BadArgument(f"{group} is looked after by a recipe of this client: use another client")
        return self._asked(line)

    def leave(self, group: str, *, by_vote: bool = False) -> Asked:
        """Leaves a group, at once or where the others' vote approves it."""
        return self._asked(calls.leave_line(group, by_vote))

    def state(self, group: str, value: Bytes, *, by_vote: bool = False) -> Asked:
        """Sets the group's value, of up to 256 bytes, at once or where the members' vote approves it."""
        return self._asked(calls.state_line(group, value, by_vote))

    def message(self, group: str, text: Bytes, *, by_vote: bool = False) -> Asked:
        """Sends a message, of up to 1,024 bytes. Its text is in the `Entered` that each member hears whose daemon runs
        with `--entries`; others hear that there was one."""
        return self._asked(calls.message_line(group, text, by_vote))

    def expel(self, group: str, members: Member | str | Iterable[Member | str], *, by_vote: bool = False) -> Asked:
        """Removes members from a group, at once or where the others' vote approves it."""
        return self._asked(calls.expel_line(group, members, by_vote))

    def set_attributes(self, group: str, attributes: Attributes, *, by_vote: bool = False) -> Asked:
        """Gives the group other attributes, at once or where the members' vote approves it."""
        return self._asked(calls.attributes_line(group, attributes, by_vote))

    def vote(self, group: str, vote: str, value: Bytes | None = None) -> None:
        """Votes, once a phase was heard to begin: APPROVE, CONTINUE or REJECT. With a value it proposes that one in
        place of the one proposed. What is voted on is in the `Entered` before the `Heard` that begins it, and in the
        `membership`, where the daemon runs with `--entries`."""
        self.call(calls.vote_line(group, vote, value))

    def subscribe(self, group: str) -> None:
        """From now on each change of the group's members or value is noted, and what they are as a view begins; of
        HOSTS the nodes of each view. How it stands now is not noted: `look` asks for that, and `hags.Watch` tells it
        first."""
        line = calls.subscribe_line(group)
        with self._lock:
            self._core.wants_hosts = self._core.wants_hosts or group == HOSTS
            is_there = group == HOSTS and self._core.follows_hosts
        if not is_there:
            self.call(line)

    def unsubscribe(self, group: str) -> None:
        """Ends a subscription."""
        line = calls.unsubscribe_line(group)
        with self._lock:
            self._core.wants_hosts = self._core.wants_hosts and group != HOSTS
            is_kept = group == HOSTS and self._core.follows_hosts
        if not is_kept:
            self.call(line)

    def call(self, line: str) -> Asked | None:
        """Makes a call, a line of docs/formats.md, in which `{}` as the second word is this client's name, and waits
        for its answer. Gives what it asked of a group, if anything."""
        with self.locked() as core:
            future = core.post(line)
        return self._answer(future)

    def _answer(self, future: Future[Answer]) -> Asked | None:
        try:
            return future.result(self.seconds)
        except FutureTimeout:
            raise no_reply(self._core, ". The call " + ("was not sent" if future.cancel() else "goes on")) from None
        except CancelledError:
            raise ClientClosed("the client was closed meanwhile") from None
        except SessionLost as lost:
            with self._lock:
                self._core.forget(lost)
                self._ring()
            raise

    def _asked(self, line: str) -> Asked:
        asked = self.call(line)
        if asked is None:
            raise HagsError(f"the daemon has taken `{line}`, and has not said what it asked")
        return asked

    def status(self, what: str, node: int | None = None, seconds: float | None = None) -> list[str]:
        """Asks the daemon of a node, its own one unless said, what `hags status` would: `hats`, `hagsns`, `hagsgr`,
        `hagsvote`, `hagscl` or `hagsd`. Gives its lines, or raises NoReply."""
        calls.one_of("what to ask", what, QUESTIONS)
        answers: list[list[str]] = []
        with self.locked() as core:
            question = core.ask(what, answers.append, node)
        try:
            allowed = self.seconds if seconds is None else seconds
            self.wait_until("an answer", lambda: bool(answers or core.over), allowed)
        except TimedOut:
            places = ", ".join(map(str, question.places))
            raise NoReply(f"the daemon of node {question.node} does not answer at {places}") from None
        finally:
            with self.locked():
                core.withdraw(question)
        if core.over and not answers:
            raise core.over
        return answers[0]

    def look(self, group: str, seconds: float | None = None) -> Noted | None:
        """How a group stands now at the daemon, which a subscription does not tell, as it would be noted; what is noted
        of a later view, or of a later place in it, is newer. None where the daemon knows no such group. It is no call.
        Raises NoReply. How the nodes stand is told by `hosts`."""
        calls.group_name(group)
        node = self.node
        before, view = None, self.status("hagsns", node, seconds)
        while before != view:  # so that the groups are those of this view
            before, groups = view, self.status("hagsgr", node, seconds)
            view = self.status("hagsns", node, seconds)
        return noted_of(f"{node}.{self.name}", group, view, groups)

    # Events

    def next_event(self, seconds: float = FOREVER) -> Event | None:
        """The next event; None where none comes within so many seconds. 0 is a good number: it gives what has come.
        Raises SessionLost, once, at the place where the session was lost: then a new one is there or on its way."""
        with self._lock:
            self._check_closed()
            with suppress(TimedOut):
                self._wait("an event", lambda: bool(self._core.events or self._core.over), seconds)
            if not self._core.events:
                if self._core.over:
                    raise self._core.over
                return None
            event = self._core.events.popleft()
            self._ring()
        if isinstance(event, HagsError):
            raise event
        return event

    def events(self, seconds: float = FOREVER) -> Iterator[Event]:
        """All events, until none comes for so many seconds."""
        while (event := self.next_event(seconds)) is not None:
            yield event

    # The end

    def open(self) -> None:
        """Begins a session where the last one was lost and the client has `reopen=False`, and waits until it is
        there."""
        with self.locked() as core:
            core.open()
        self._wait_open(self.seconds)

    def close(self) -> None:
        """Says goodbye, by which all memberships end, where the daemon answers within a second. A second time it does
        nothing."""
        with self._lock:
            if self._is_closing:
                return
            self._is_closing = True
            future = self._core.post("goodbye {}") if self._core.is_open else None
            self._wake()
        if future is not None and threading.current_thread() is not self._thread:
            with suppress(HagsError, FutureTimeout, CancelledError):
                future.result(GOODBYE)
        self._stop()

    def __exit__(
        self, kind: type[BaseException] | None, error: BaseException | None, trace: TracebackType | None
    ) -> None:
        self.close()

    def _stop(self) -> None:
        with self._lock:
            self._is_closing = self._is_closed = True
            self._core.close()
            self._news.notify_all()
            self._wake()
        atexit.unregister(self.close)
        if threading.current_thread() is not self._thread:
            self._thread.join()

    # The thread

    def _run(self) -> None:
        poll = select.poll()
        poll.register(self._core.connection, select.POLLIN)
        poll.register(self._woken, select.POLLIN)
        try:
            while not self._is_closed:
                due = min(self._step(), time.monotonic() + LONGEST_TURN)
                poll.poll(max(0.0, due - time.monotonic()) * 1000)
                with suppress(BlockingIOError):
                    self._woken.recv(4096)
        finally:
            with self._lock:
                self._is_closed = True
                self._core.close()
                self._news.notify_all()
            self._core.connection.close()
            for end in (self._readable, self._bell, self._woken, self._waker):
                end.close()

    def _step(self) -> float:
        with self._lock:
            due = self._core.step()
            if self._core.has_news:
                self._core.has_news = False
                self._ring()
                self._news.notify_all()
            return due

    def _wake(self) -> None:
        with suppress(OSError):
            self._waker.send(b"\0")

    def _ring(self) -> None:
        """Lets the descriptor be readable just where something waits."""
        has = bool(self._core.events)
        with suppress(OSError):
            if has and not self._has_rung:
                self._bell.send(b"\0")
            elif self._has_rung and not has:
                self._readable.recv(1)
        self._has_rung = has

    # Waiting

    def _wait(self, what: str, is_so: Callable[[], bool], seconds: float) -> None:
        """Waits until this is so, or the client is closed. The lock is held."""
        end = time.monotonic() + seconds
        while not is_so():
            self._check_closed()
            left = end - time.monotonic()
            if left <= 0:
                raise TimedOut(f"waited {max(0, seconds):.3g} s for {what}")
            self._news.wait(min(left, threading.TIMEOUT_MAX))

    def _wait_open(self, seconds: float) -> None:
        with self._lock:
            try:
                self._wait("a session", lambda: self._core.is_open or self._core.over is not None, seconds)
            except TimedOut:
                raise no_reply(self._core) from None
            if self._core.over:
                raise self._core.over

    def _check_closed(self) -> None:
        if self._is_closed:
            raise ClientClosed("the client was closed. Make another one")

    @contextmanager
    def locked(self) -> Iterator[Core]:
        """For recipes: what the client is made of, while nobody else acts on it."""
        with self._lock:
            self._check_closed()
            yield self._core
            self._wake()

    def wait_until(self, what: str, is_so: Callable[[], bool], seconds: float) -> None:
        """For recipes: waits until this is so. Raises TimedOut, and ClientClosed where the client is closed."""
        with self._lock:
            self._wait(what, is_so, seconds)
