"""A value that all agree on, changed by compare-and-set."""

from __future__ import annotations

import secrets
import time
from collections.abc import Callable
from contextlib import AbstractContextManager, suppress
from types import TracebackType
from typing import NamedTuple

from ..calls import APPROVE, REJECT, Attributes, Bytes, bytes_of, message_line, state_line
from ..client import FOREVER, Client
from ..errors import BadArgument, CallRefused, ClientClosed, HagsError, NoMajority, SessionLost, TimedOut
from ..events import Asked, Event, Heard, Told
from ..ids import Token
from .joined import AGAIN, token_of
from .voter import LIMIT, Voter

MOST_DATA = 230  # bytes, so that its version and its mark have room beside it in 256


class Versioned(NamedTuple):
    """A value, and how often it was set."""

    data: bytes
    version: int


def versioned(value: bytes) -> Versioned | None:
    """What the group's value has: the version, the mark of the change, and the data. None where it was never set."""
    words = value.split(b" ", 2)
    return Versioned(words[2], int(words[0])) if len(words) == 3 and words[0].isdigit() else None


class _Change:
    """A change that one member wants, until it is decided."""

    def __init__(self, old: bytes | None, new: bytes) -> None:
        self.old, self.new, self.mark = old, new, secrets.token_hex(4).encode()
        self.request: int | None = None  # its number, until it has begun or was refused
        self.is_posted = False  # was it proposed, and is not known to have come to nothing?
        self.is_own = False  # is it what is voted on?
        self.is_abandoned = False  # does nobody wait for it any more?
        self.has_failed = False
        self.token: Token | None = None
        self.error: HagsError | None = None

    def is_decided(self) -> bool:
        return bool(self.token or self.has_failed or self.error)


class _Keeper(Voter):
    """A member that keeps the value. It approves each change, where its node is in a view of more than half of the
    nodes; its own one where the value is still the one that it expects. While a vote runs the value does not change."""

    def __init__(self, client: Client, name: str) -> None:
        self.change: _Change | None = None
        self._propose_at = 0.0
        self._has_probed, self._is_foreign = False, False
        super().__init__(client, f"value.{name}", Attributes(default="reject", limit=LIMIT))

    def now(self) -> Versioned | None:
        return versioned(self.membership.value) if self.membership else None

    def _fits(self, change: _Change) -> bool:
        now = self.now()
        return change.old == (now.data if now else None)

    def opinion(self) -> str | None:
        change = self.change
        if not self._core.has_majority():
            return REJECT
        if change and change.is_own:
            return APPROVE if self._fits(change) and not change.is_abandoned else REJECT
        if change and change.request is not None and not self._is_foreign:
            self._probe()
            return None
        return APPROVE

    def _probe(self) -> None:
        """Is what has begun this member's own change? A daemon that tells no entries shows it so: just then nothing of
        its own is under way any more, and its node takes another call, which the leader will refuse."""
        if not self._has_probed:
            self._has_probed = True
            self._core.post_quietly(message_line(self.group, "", False), self._probed)

    def _probed(self, error: HagsError | None) -> None:
        change = self.change
        if change and change.request is not None and self.is_voting:
            if error is None:
                change.request, change.is_own = None, True
            self._is_foreign = isinstance(error, CallRefused) and error.code.startswith("COLLIDE")
        self.vote()

    def begun(self, event: Heard) -> None:
        if event.what == "phase":
            return
        self._has_probed, self._is_foreign = False, False
        proposal, change = self.proposal, self.change
        if proposal is not None and change is not None and change.request is not None:
            self._is_foreign = (proposal.asker, proposal.request) != (self.own, change.request)
            if not self._is_foreign:
                change.request, change.is_own = None, True

    def other(self, event: Event) -> None:
        change = self.change
        if change and isinstance(event, Asked) and event.kind == "state":
            change.request = event.request
        elif change and isinstance(event, Told) and event.request == change.request:
            change.request, change.is_posted = None, False
            self._let_go()

    def settled(self, event: Heard) -> None:
        change = self.change
        if change and event.what == "approve" and event.value.split(b" ", 2)[1:2] == [change.mark]:
            change.token = token_of(event)
        elif change and change.is_own and event.what == "reject":
            change.is_own, change.is_posted = False, False
        self._let_go()
        self.news()

    def _let_go(self) -> None:
        """Forgets a change for which nobody waits, once it cannot begin any more."""
        if self.change and self.change.is_abandoned and self.change.request is None and not self.change.is_own:
            self.change = None
            self.news()

    def begin(self, change: _Change) -> bool:
        """Begins a change, where none of this member's is under way."""
        if self.change is None:
            self.change = change
        return self.change is change

    def abandon(self, change: _Change) -> None:
        change.is_abandoned = True
        if self.change is not change:
            return
        if change.is_decided() or not change.is_posted:
            self.change = None

    def act(self, now: float) -> None:
        super().act(now)
        change = self.change
        if not change or change.is_decided() or change.is_abandoned or self.is_voting or change.is_posted:
            return
        if not self._fits(change):
            change.has_failed = True
            self.news()
        elif now >= self._propose_at and self._core.has_majority():
            self._propose_at = now + AGAIN * (0.2 + secrets.randbelow(100) / 100)
            change.is_posted = True
            before = self.now()
            version = str(before.version + 1 if before else 1).encode()
            value = b" ".join((version, change.mark, change.new))
            self._core.post_quietly(state_line(self.group, value, True), self._posted)

    def _posted(self, error: HagsError | None) -> None:
        if error and self.change:
            self.change.is_posted = False
            self._let_go()
        if error and self.change:
            if isinstance(error, CallRefused) and error.code.startswith("BAD_PARAMETER"):
                self.change.error = error

    def gone(self, why: str) -> None:
        super().gone(why)
        change = self.change
        if change and not change.is_decided() and change.is_posted:
            change.error = SessionLost(f"the membership was lost, {why}: it is not known whether the value was set")
        if change:
            change.request, change.is_own = None, False
            self._let_go()


class Value(AbstractContextManager["Value"]):
    """A value of this name, of up to 230 bytes, that all of its members keep: the group `value.NAME`.

        with hags.Value(client, "config") as config:
            config.set("blue")
            config.compare_and_set("blue", "green")

    It changes by vote alone, one change at a time, on the side of more than half of the nodes, and all members hear the
    changes in one order. It lives as long as one member does. Where a partition heals the group goes on from the side
    with more members: so let each node have as many as any other, and the majority of nodes has the most members too.
    """

    def __init__(self, client: Client, name: str) -> None:
        self.name = name
        self._client = client
        self._keeper = _Keeper(client, name)
        self._keeper.want()

    def get(self, seconds: float | None = None) -> bytes | None:
        """The value as this member has heard it last, which may be a moment behind; None where it was never set. Waits
        until this client is a member."""
        now = self.get_versioned(seconds)
        return now.data if now else None

    def get_versioned(self, seconds: float | None = None) -> Versioned | None:
        """The same, with how often it was set. That falls only where the group went on from a side with fewer
        changes."""
        self._wait_member(seconds)
        with self._client.locked():
            return self._keeper.now()

    def compare_and_set(self, old: Bytes | None, new: Bytes, seconds: float | None = None) -> Token | None:
        """Sets the value where it is `old`, None being never set; gives the change's token, which rises from change to
        change, or None where the value was another one. Raises NoMajority, and TimedOut where it is not decided in
        time: then it may be set yet."""
        end = time.monotonic() + (self._client.seconds if seconds is None else seconds)
        self._wait_member(seconds)
        keeper, change = self._keeper, _Change(None if old is None else bytes_of(old), self._spelled(new))
        what = f"the vote on {self.name}"
        try:
            self._client.wait_until(what, lambda: keeper.begin(change), end - time.monotonic())
            self._client.wait_until(what, change.is_decided, end - time.monotonic())
        except TimedOut:
            if not self._client.has_majority():
                raise NoMajority(f"{self.name} cannot be set: node {self._client.node} has no majority") from None
            raise
        finally:
            with suppress(ClientClosed), self._client.locked():
                keeper.abandon(change)
        if change.error:
            raise change.error
        return change.token

    def set(self, new: Bytes, seconds: float | None = None) -> Token:
        """Sets the value, whatever it is."""
        return self.update(lambda _: bytes_of(new), seconds)

    def update(self, function: Callable[[bytes | None], Bytes], seconds: float | None = None) -> Token:
        """Sets the value to what the function makes of it, as often as it takes for nobody else to come between."""
        end = time.monotonic() + (self._client.seconds if seconds is None else seconds)
        while True:
            left = max(0.0, end - time.monotonic())
            old = self.get(left)
            token = self.compare_and_set(old, function(old), left)
            if token is not None:
                return token

    def wait_change(self, seconds: float = FOREVER) -> bytes | None:
        """Waits until the value is another one, or for so long, and gives it."""
        before = self.get()
        with suppress(TimedOut):
            self._client.wait_until(f"a change of {self.name}", lambda: self._now() not in (before, None), seconds)
        return self._now()

    @property
    def keepers(self) -> int:
        """How many members keep the value, this one included."""
        with self._client.locked():
            return len(self._keeper.members)

    def _now(self) -> bytes | None:
        now = self._keeper.now()
        return now.data if now else None

    def _spelled(self, new: Bytes) -> bytes:
        data = bytes_of(new)
        if len(data) > MOST_DATA:
            raise BadArgument(f"a value has at most {MOST_DATA} bytes, and this one {len(data):,}")
        return data

    def _wait_member(self, seconds: float | None) -> None:
        keeper = self._keeper
        wait = self._client.seconds if seconds is None else seconds
        self._client.wait_until(f"{self.name} to be joined", lambda: bool(keeper.membership or keeper.error), wait)
        keeper.check()

    def close(self) -> None:
        """Keeps the value no more."""
        self._keeper.end()

    def __exit__(
        self, kind: type[BaseException] | None, error: BaseException | None, trace: TracebackType | None
    ) -> None:
        self.close()
