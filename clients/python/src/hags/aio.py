"""A client for asyncio, on the loop that runs when it is made."""

from __future__ import annotations

import asyncio
import time
from collections.abc import AsyncIterator, Callable, Iterable
from concurrent.futures import Future
from contextlib import AbstractAsyncContextManager, suppress
from dataclasses import replace
from types import TracebackType

from . import calls
from .calls import PLAIN, Attributes, Bytes
from .client import (
    AGAIN,
    FOREVER,
    GOODBYE,
    LONGEST_TURN,
    PATIENCE,
    NodeLike,
    SettingsLike,
    is_decided,
    no_reply,
    nodes_of,
    outcome_of,
    own_name,
    settings_of,
)
from .core import Answer, Core, Membership
from .errors import ClientClosed, HagsError, NoReply, SessionLost, TimedOut
from .events import HOSTS, Asked, Event, Hosts, Noted
from .ids import Member
from .session import IDLE
from .status import noted_of
from .wire import QUESTIONS


class AsyncClient(AbstractAsyncContextManager["AsyncClient"]):
    """The same as `Client`, for asyncio: methods that wait are coroutines, and events come by `async for`.

        async with hags.AsyncClient("settings", node=1, name="web") as client:
            await client.join("db")
            await client.state("db", "red")
            async for event in client.events():
                print(event)

    It has no thread: the loop sends and receives for it, and is not to be blocked for long. Blocked for as long as the
    daemon's `--silence` says, it has lost its session by SessionEnded. It is for the loop that runs when it is entered,
    and for no other thread. The recipes take a plain `Client`.
    """

    def __init__(
        self,
        settings: SettingsLike,
        node: NodeLike = None,
        name: str | None = None,
        *,
        seconds: float = 10.0,
        idle: float = IDLE,
        patience: float = PATIENCE,
        reopen: bool = True,
    ) -> None:
        self.settings = settings_of(settings)
        self.seconds = seconds  #: how long an answer is waited for
        self._nodes, self._name = nodes_of(self.settings, node), own_name(name)
        self._idle, self._patience, self._reopen = idle, patience, reopen
        self._made: Core | None = None
        self._loop: asyncio.AbstractEventLoop | None = None
        self._timer: asyncio.TimerHandle | None = None
        self._waiters: set[asyncio.Future[None]] = set()
        self._is_closed = False

    # What it is

    @property
    def _core(self) -> Core:
        if self._made is None or self._is_closed:
            raise ClientClosed("the client is not open: use it in an `async with`, and another one after that")
        return self._made

    @property
    def name(self) -> str:
        """Its name at its daemon."""
        return self._made.name if self._made else self._name

    @property
    def node(self) -> int:
        """The node whose daemon is used now."""
        return self._core.node

    @property
    def incarnation(self) -> int:
        """That daemon's incarnation; 0 until it has answered."""
        return self._core.session.incarnation

    @property
    def is_open(self) -> bool:
        """Has it a session now?"""
        return self._made is not None and self._made.is_open

    def silence(self) -> float:
        """For how many seconds the daemon was silent."""
        return self._core.silence()

    def membership(self, group: str) -> Membership | None:
        """What was heard last of a group that it has joined. None where it has not."""
        found = self._core.memberships.get(group)
        return None if found is None or found.ended else replace(found)

    async def hosts(self) -> Hosts | None:
        """The nodes of the view in which its daemon is, as far as that is known; None where nobody answers."""
        core = self._core
        core.follow_hosts()
        self._act()
        with suppress(TimedOut):
            await self._wait("the nodes of the view", lambda: core.hosts is not None, self.seconds)
        return core.hosts

    async def has_majority(self) -> bool:
        """Is its daemon, as far as is known, in a view of more than half of the nodes of the settings?"""
        hosts = await self.hosts()
        return hosts is not None and len(hosts.hosts) >= self.settings.majority

    # Calls

    async def join(
        self, group: str, attributes: Attributes = PLAIN, *, instance: int | None = None, seconds: float | None = None
    ) -> Member:
        """Joins a group, and returns once this client is a member, as `Client.join`."""
        end = time.monotonic() + (self.seconds if seconds is None else seconds)
        while True:
            asked = await self.start_join(group, attributes, instance=instance)
            core = self._core
            what = f"the join of {group} to be decided"
            await self._wait(what, lambda: is_decided(core, asked), end - time.monotonic())
            if not outcome_of(core.memberships.get(group), asked, instance):
                return asked.provider
            await asyncio.sleep(AGAIN)

    async def start_join(self, group: str, attributes: Attributes = PLAIN, *, instance: int | None = None) -> Asked:
        """Joins a group, and returns once the daemon has taken the call."""
        return await self._asked(calls.join_line(group, attributes, instance))

    async def leave(self, group: str, *, by_vote: bool = False) -> Asked:
        """Leaves a group, at once or where the others' vote approves it."""
        return await self._asked(calls.leave_line(group, by_vote))

    async def state(self, group: str, value: Bytes, *, by_vote: bool = False) -> Asked:
        """Sets the group's value, at once or where the members' vote approves it."""
        return await self._asked(calls.state_line(group, value, by_vote))

    async def message(self, group: str, text: Bytes, *, by_vote: bool = False) -> Asked:
        """Sends a message, whose text is in the `Entered` of members whose daemon runs with `--entries`."""
        return await self._asked(calls.message_line(group, text, by_vote))

    async def expel(
        self, group: str, members: Member | str | Iterable[Member | str], *, by_vote: bool = False
    ) -> Asked:
        """Removes members from a group, at once or where the others' vote approves it."""
        return await self._asked(calls.expel_line(group, members, by_vote))

    async def set_attributes(self, group: str, attributes: Attributes, *, by_vote: bool = False) -> Asked:
        """Gives the group other attributes, at once or where the members' vote approves it."""
        return await self._asked(calls.attributes_line(group, attributes, by_vote))

    async def vote(self, group: str, vote: str, value: Bytes | None = None) -> None:
        """Votes, once a phase was heard to begin: APPROVE, CONTINUE or REJECT, with another value or without."""
        await self.call(calls.vote_line(group, vote, value))

    async def subscribe(self, group: str) -> None:
        """From now on each change of the group's members or value is noted; of HOSTS the nodes of each view."""
        line, core = calls.subscribe_line(group), self._core
        core.wants_hosts = core.wants_hosts or group == HOSTS
        if group != HOSTS or not core.follows_hosts:
            await self.call(line)

    async def unsubscribe(self, group: str) -> None:
        """Ends a subscription."""
        line, core = calls.unsubscribe_line(group), self._core
        core.wants_hosts = core.wants_hosts and group != HOSTS
        if group != HOSTS or not core.follows_hosts:
            await self.call(line)

    async def call(self, line: str) -> Asked | None:
        """Makes a call, a line of docs/formats.md, in which `{}` as the second word is this client's name, and waits
        for its answer. Gives what it asked of a group, if anything."""
        core = self._core
        future: Future[Answer] = core.post(line)
        self._act()
        try:
            await self._wait("an answer", future.done, self.seconds)
        except TimedOut:
            raise no_reply(core, ". The call " + ("was not sent" if future.cancel() else "goes on")) from None
        try:
            return future.result()
        except SessionLost as lost:
            core.forget(lost)
            raise

    async def _asked(self, line: str) -> Asked:
        asked = await self.call(line)
        if asked is None:
            raise HagsError(f"the daemon has taken `{line}`, and has not said what it asked")
        return asked

    async def status(self, what: str, node: int | None = None, seconds: float | None = None) -> list[str]:
        """Asks the daemon of a node, its own one unless said, what `hags status` would. Raises NoReply."""
        calls.one_of("what to ask", what, QUESTIONS)
        answers: list[list[str]] = []
        core = self._core
        question = core.ask(what, answers.append, node)
        self._act()
        try:
            allowed = self.seconds if seconds is None else seconds
            await self._wait("an answer", lambda: bool(answers or core.over), allowed)
        except TimedOut:
            places = ", ".join(map(str, question.places))
            raise NoReply(f"the daemon of node {question.node} does not answer at {places}") from None
        finally:
            core.withdraw(question)
        if core.over and not answers:
            raise core.over
        return answers[0]

    async def look(self, group: str, seconds: float | None = None) -> Noted | None:
        """How a group stands now at the daemon, as `Client.look`. Raises NoReply."""
        calls.group_name(group)
        node = self.node
        before, view = None, await self.status("hagsns", node, seconds)
        while before != view:
            before, groups = view, await self.status("hagsgr", node, seconds)
            view = await self.status("hagsns", node, seconds)
        return noted_of(f"{node}.{self.name}", group, view, groups)

    # Events

    async def next_event(self, seconds: float = FOREVER) -> Event | None:
        """The next event; None where none comes within so many seconds. Raises SessionLost, once, at the place where
        the session was lost: then a new one is there or on its way."""
        core = self._core
        with suppress(TimedOut):
            await self._wait("an event", lambda: bool(core.events or core.over), seconds)
        if not core.events:
            if core.over:
                raise core.over
            return None
        event = core.events.popleft()
        if isinstance(event, HagsError):
            raise event
        return event

    async def events(self, seconds: float = FOREVER) -> AsyncIterator[Event]:
        """All events, until none comes for so many seconds."""
        while (event := await self.next_event(seconds)) is not None:
            yield event

    # The beginning and the end

    async def open(self) -> None:
        """Begins a session, at first and where the last one was lost and the client has `reopen=False`."""
        if self._made is None and not self._is_closed:
            self._loop = asyncio.get_running_loop()
            self._made = Core(self.settings, self._nodes, self._name, self._idle, self._patience, self._reopen)
            self._loop.add_reader(self._made.connection.fileno(), self._act)
        core = self._core
        core.open()
        self._act()
        try:
            await self._wait("a session", lambda: core.is_open or core.over is not None, self.seconds)
        except TimedOut:
            raise no_reply(core) from None
        if core.over:
            raise core.over

    async def close(self) -> None:
        """Says goodbye, by which all memberships end, where the daemon answers within a second."""
        if self._made is None or self._is_closed:
            return
        core = self._made
        try:
            if core.is_open:
                future = core.post("goodbye {}")
                self._act()
                with suppress(HagsError):
                    await self._wait("the goodbye", future.done, GOODBYE)
        finally:
            self._is_closed = True
            core.close()
            if self._timer:
                self._timer.cancel()
            if self._loop:
                self._loop.remove_reader(core.connection.fileno())
            core.connection.close()
            self._tell()

    async def __aenter__(self) -> AsyncClient:
        try:
            await self.open()
        except BaseException:
            await self.close()
            raise
        return self

    async def __aexit__(
        self, kind: type[BaseException] | None, error: BaseException | None, trace: TracebackType | None
    ) -> None:
        await self.close()

    # Turns

    def _act(self) -> None:
        """Does what is due, and comes again when the next thing is."""
        if self._is_closed or self._made is None or self._loop is None:
            return
        due = min(self._made.step(), time.monotonic() + LONGEST_TURN)
        if self._timer:
            self._timer.cancel()
        self._timer = self._loop.call_later(max(0.0, due - time.monotonic()), self._act)
        if self._made.has_news:
            self._made.has_news = False
            self._tell()

    def _tell(self) -> None:
        waiters, self._waiters = self._waiters, set()
        for waiter in waiters:
            if not waiter.done():
                waiter.set_result(None)

    async def _wait(self, what: str, is_so: Callable[[], bool], seconds: float) -> None:
        """Waits until this is so. Raises TimedOut, and ClientClosed where the client is closed."""
        end = time.monotonic() + seconds
        while not is_so():
            if self._is_closed:
                raise ClientClosed("the client was closed. Make another one")
            left = end - time.monotonic()
            if left <= 0:
                raise TimedOut(f"waited {max(0, seconds):.3g} s for {what}")
            waiter = asyncio.get_running_loop().create_future()
            self._waiters.add(waiter)
            try:
                await asyncio.wait_for(waiter, None if left == FOREVER else left)
            except asyncio.TimeoutError:
                pass
            finally:
                self._waiters.discard(waiter)
