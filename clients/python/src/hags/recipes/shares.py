"""Work in parts, shared among the members of a group."""

from __future__ import annotations

import hashlib
from collections.abc import Iterator
from contextlib import AbstractContextManager
from functools import lru_cache
from types import TracebackType
from typing import NamedTuple

from ..calls import APPROVE, Attributes, message_line, number
from ..client import FOREVER, Client
from ..events import Heard
from ..ids import Member, Token
from .joined import AGAIN, token_of
from .voter import LIMIT, Voter


class Share(NamedTuple):
    """A part, from 0 on, and the fencing number by which this worker has it."""

    part: int
    token: Token


@lru_cache(4096)
def _weight(member: Member, part: int) -> bytes:
    return hashlib.blake2b(f"{member} {part}".encode(), digest_size=8).digest()


def owner_of(part: int, members: tuple[Member, ...]) -> Member:
    """Whose part it is. Where a member goes its parts alone go to others, and where one comes it takes parts alone."""
    return max(members, key=lambda member: (_weight(member, part), member))


class _Worker(Voter):
    """A member that has its parts while nobody joins. A join waits until all have put down what they work on."""

    def __init__(self, client: Client, name: str, parts: int) -> None:
        self.parts, self.is_working = parts, False
        self.owned: tuple[int, ...] = ()
        self.token: Token | None = None  # the newest entry by which it has them
        self._is_join, self._mark_at = False, 0.0
        attributes = Attributes(by_vote=True, batch="both", default="approve", limit=LIMIT)
        super().__init__(client, f"shares.{name}", attributes)

    def held(self) -> tuple[int, ...]:
        """The parts that it may begin to work on now."""
        if self._is_join or self.token is None or not self._core.has_majority():
            return ()
        every, missed = self._core.settings.heartbeat
        return self.owned if self._core.silence() <= max(every * missed / 10, 3 * self._core.session.idle) else ()

    def opinion(self) -> str | None:
        return None if self.is_working and self._is_join else APPROVE

    def begun(self, event: Heard) -> None:
        self._is_join = self._is_join or event.what == "begin-join"
        self.news()

    def settled(self, event: Heard) -> None:
        self._is_join = False
        members = self.members
        if self.is_decisive(event) and self.own in members:
            self.owned = tuple(part for part in range(self.parts) if owner_of(part, members) == self.own)
            self.token = token_of(event)
        else:
            self.owned, self.token = (), None
        self.news()

    def gone(self, why: str) -> None:
        super().gone(why)
        self.owned, self.token, self._is_join = (), None, False

    def see_hosts(self) -> None:
        """In a new view an entry is needed, by which all have their parts anew."""
        self.token = None
        self.news()

    def act(self, now: float) -> None:
        super().act(now)
        if self.token is not None or self.is_voting or not self._core.has_majority():
            self._mark_at = now
        elif now > self._mark_at + AGAIN * (1 + self.members.index(self.own or self.members[0])):
            self._mark_at = now
            self.say(message_line(self.group, "", False))


class Shares(AbstractContextManager["Shares"]):
    """A worker of the pool of this name, which shares `parts` parts of its work: the group `shares.NAME`.

        with hags.Shares(client, "jobs", parts=60) as shares:
            for share in shares:
                work(share.part, share.token)

    The loop goes through this worker's own parts again and again, and waits where it has none. Each part is some
    worker's, and no two workers have one: where a worker comes, it is voted on, and each worker approves only once it
    has finished the turn of the loop that it is in. Where one goes, or its node dies, its parts alone go to others. On
    a side of half of the nodes or fewer nobody works. Let all workers give the same `parts`, and make turns of the loop
    short against ten seconds or so, since newcomers wait for them.

    A worker whose daemon has died, or whose process was paused, may still be in a turn while another one has its part
    already: what the work acts on checks `share.token`, as with a `Lock`.
    """

    def __init__(self, client: Client, name: str, parts: int) -> None:
        self.name = name
        self._client = client
        self._worker = _Worker(client, name, number("parts", parts, 1, 100_000))
        self._worker.want()

    @property
    def owned(self) -> tuple[int, ...]:
        """This worker's own parts, none while they are shared anew."""
        with self._client.locked():
            return self._worker.held()

    def holds(self, share: Share) -> bool:
        """Is the part still this worker's, as far as is known here and now?"""
        with self._client.locked():
            return share.part in self._worker.held()

    def take(self, after: int = -1, seconds: float = FOREVER) -> Share:
        """Takes the next of this worker's parts after that one, in a circle, and works on it until `put_down`. Waits
        where there is none, and raises TimedOut."""
        worker = self._worker
        self.put_down()
        self._client.wait_until(f"a part of {self.name}", lambda: bool(worker.held() or worker.error), seconds)
        worker.check()
        with self._client.locked():
            held = worker.held()
            if held and worker.token is not None:
                worker.is_working = True
                return Share(next((part for part in held if part > after), held[0]), worker.token)
        return self.take(after, seconds)

    def put_down(self) -> None:
        """Works on nothing: others may join now."""
        with self._client.locked():
            self._worker.is_working = False
            self._worker.vote()

    def __iter__(self) -> Iterator[Share]:
        part = -1
        try:
            while True:
                share = self.take(part)
                part = share.part
                yield share
        finally:
            self.put_down()

    def close(self) -> None:
        """Works no more; its parts go to others."""
        self.put_down()
        self._worker.end()

    def __exit__(
        self, kind: type[BaseException] | None, error: BaseException | None, trace: TracebackType | None
    ) -> None:
        self.close()
