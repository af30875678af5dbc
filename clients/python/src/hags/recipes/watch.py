"""Following a group, or the nodes of the cluster, without being a member."""

from __future__ import annotations

import time
from collections import deque
from collections.abc import Iterator
from contextlib import AbstractContextManager, suppress
from types import TracebackType
from typing import NamedTuple

from ..calls import group_name, subscribe_line, unsubscribe_line
from ..client import FOREVER, Client
from ..core import Core
from ..errors import CallRefused, ClientClosed, HagsError, TimedOut
from ..events import HOSTS, Event, Noted
from ..ids import Host, Member, View
from ..status import groups_of, nodes_of

LOOK = 1.0  # seconds from one look for a group that is not there to the next


class Change(NamedTuple):
    """How a group stands, and what is new since the last change. Of HOSTS the members are nodes."""

    group: str
    view: View
    members: tuple[Member | Host, ...]
    value: bytes
    joined: tuple[Member | Host, ...]
    left: tuple[Member | Host, ...]
    is_first: bool  #: it is how it stood when the watch began, or began anew after a session was lost


_State = tuple[View, int, "tuple[Member | Host, ...]", bytes]  # the place counts from 0, and is -1 as a view begins


class _Follower:
    """Subscribes, and asks how it stands, in each session anew."""

    def __init__(self, client: Client, group: str) -> None:
        self.group, self.client = group, client
        self.changes: deque[Change] = deque()
        self._newest: _State | None = None
        self._known: tuple[Member | Host, ...] = ()
        self._is_subscribed, self._is_asking, self._is_first, self._look_at = False, False, True, 0.0
        self._view: View | None = None
        with client.locked() as core:
            self._core: Core = core
            core.claim(self)
            self.see_hosts()

    def take(self, event: Event) -> None:
        if isinstance(event, Noted):
            self._see((event.view, -1 if event.place is None else event.place, event.members, event.value))

    def see_hosts(self) -> None:
        hosts = self._core.hosts
        if self.group == HOSTS and hosts is not None:
            self._see((hosts.view, -1, hosts.hosts, b""))

    def tick(self, now: float) -> None:
        if self.group == HOSTS or not self._core.is_open or self._is_asking or now < self._look_at:
            return
        if not self._is_subscribed:
            self._is_asking = True
            self._core.post_quietly(subscribe_line(self.group), self._subscribed)
        elif self._newest is None:
            self._is_asking, self._look_at = True, now + LOOK
            self._core.ask("hagsns", self._asked_view)

    def _subscribed(self, error: HagsError | None) -> None:
        self._is_asking = False
        self._is_subscribed = error is None or (isinstance(error, CallRefused) and error.code == "EXISTS")
        if not self._is_subscribed:
            self._look_at = time.monotonic() + LOOK  # nobody has joined it yet

    def _asked_view(self, lines: list[str]) -> None:
        self._view = nodes_of(lines).view if lines else None
        self._core.ask("hagsgr", self._asked_group)

    def _asked_group(self, lines: list[str]) -> None:
        """A subscription tells changes alone, so how it stands is asked for; what was noted meanwhile is newer."""
        self._is_asking = False
        for group in groups_of(lines):
            if group.name == self.group and self._view is not None and self._newest is None:
                self._see((self._view, group.length - 1, group.members, group.value))

    def _see(self, state: _State) -> None:
        view, place, members, value = state
        if self._newest is not None and (view, place) <= self._newest[:2]:
            return
        has_changed = self._newest is None or (members, value) != self._newest[2:]
        self._newest = state
        if has_changed or self._is_first:
            joined = tuple(it for it in members if it not in self._known)
            left = tuple(it for it in self._known if it not in members)
            self.changes.append(Change(self.group, view, members, value, joined, left, self._is_first))
            self._known, self._is_first, self._core.has_news = members, False, True

    def lose(self, why: HagsError) -> None:
        self._is_subscribed, self._is_asking, self._is_first, self._newest = False, False, True, None
        self._core.has_news = True

    def end(self) -> None:
        with suppress(ClientClosed), self.client.locked() as core:
            core.release(self)
            if self._is_subscribed:
                core.post_quietly(unsubscribe_line(self.group))


class Watch(AbstractContextManager["Watch"]):
    """Follows a group, or with HOSTS the nodes of the cluster: first how it stands, then each change.

        with hags.Watch(client, "db") as watch:
            for change in watch:
                print(change.members, change.value)

    It waits for a group that is not there yet, and goes on in a new session where one is lost. What happens meanwhile
    is seen in its result; while a session lasts, each change comes.
    """

    def __init__(self, client: Client, group: str = HOSTS) -> None:
        self.group = group_name(group)
        self._client = client
        self._follower = _Follower(client, group)

    def next_change(self, seconds: float = FOREVER) -> Change | None:
        """The next change; None where none comes within so many seconds."""
        changes = self._follower.changes
        with suppress(TimedOut):
            self._client.wait_until(f"a change of {self.group}", lambda: bool(changes), seconds)
        with self._client.locked():
            return changes.popleft() if changes else None

    def __iter__(self) -> Iterator[Change]:
        while (change := self.next_change()) is not None:
            yield change

    def close(self) -> None:
        """Follows it no more."""
        self._follower.end()

    def __exit__(
        self, kind: type[BaseException] | None, error: BaseException | None, trace: TracebackType | None
    ) -> None:
        self.close()
