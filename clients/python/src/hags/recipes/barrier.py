"""A barrier, at which processes wait for one another."""

from __future__ import annotations

from contextlib import AbstractContextManager
from types import TracebackType

from ..calls import APPROVE, REJECT, Attributes, number, state_line
from ..client import FOREVER, Client
from ..errors import BrokenBarrier
from ..events import Heard
from ..ids import Token
from .joined import AGAIN, token_of
from .voter import LIMIT, Voter


class _Party(Voter):
    """A member of the group, which proposes the number of the next opening once it has arrived, and approves it
    then."""

    def __init__(self, client: Client, name: str, parties: int) -> None:
        self.parties, self.has_arrived, self.is_broken = parties, False, False
        self.openings: list[Token] = []
        self._propose_at = 0.0
        super().__init__(client, f"barrier.{name}", Attributes(default="reject", limit=LIMIT))

    def opinion(self) -> str | None:
        if len(self.members) < self.parties or not self._core.has_majority():
            return REJECT
        return APPROVE if self.has_arrived else None

    def act(self, now: float) -> None:
        super().act(now)
        if self.has_arrived and not self.is_voting and now >= self._propose_at and len(self.members) >= self.parties:
            self._propose_at = now + 2 * AGAIN
            self.say(state_line(self.group, str(self._count() + 1), True))

    def settled(self, event: Heard) -> None:
        if event.what == "approve" and self.has_arrived and self.is_decisive(event):
            self.has_arrived = False
            self.openings.append(token_of(event))
        self.news()

    def gone(self, why: str) -> None:
        super().gone(why)
        if self.has_arrived:
            self.has_arrived, self.is_broken = False, True

    def _count(self) -> int:
        value = self.membership.value if self.membership else b""
        return int(value) if value.isdigit() else 0


class Barrier(AbstractContextManager["Barrier"]):
    """A barrier of this name for so many `parties` at least: the group `barrier.NAME`.

        with hags.Barrier(client, "loaded", parties=3) as barrier:
            load()
            barrier.wait()
            serve()

    `wait` returns once all members of the group, and no fewer than `parties`, have called it. It opens again and again,
    each time for all. It is a vote: whoever has arrived approves, whoever has not keeps the vote open; so no party can
    pass before all have arrived, whatever is lost or late. A party that is silent for some five seconds, since it was
    killed, is expelled.
    """

    def __init__(self, client: Client, name: str, parties: int) -> None:
        self.name = name
        self._client = client
        self._party = _Party(client, name, number("parties", parties, 1, 64))
        self._party.want()

    def wait(self, seconds: float = FOREVER) -> Token:
        """Arrives, and waits until all have. The token is the same for all who pass together, and rises with each
        opening. Raises TimedOut, after which the barrier may have opened all the same, as for whoever else has arrived;
        and BrokenBarrier where this client has lost its membership meanwhile."""
        party = self._party
        with self._client.locked():
            party.has_arrived, party.is_broken = True, False
            party.openings.clear()
        try:
            self._client.wait_until(
                f"the others at {self.name}", lambda: bool(party.openings or party.is_broken or party.error), seconds
            )
        finally:
            with self._client.locked():
                party.has_arrived = False
        party.check()
        if not party.openings:
            raise BrokenBarrier(f"the membership was lost while waiting at {self.name}. Wait again")
        return party.openings[0]

    @property
    def waiting_for(self) -> int:
        """How many parties are missing as members."""
        with self._client.locked():
            return max(0, self._party.parties - len(self._party.members))

    def close(self) -> None:
        """Takes part no more."""
        self._party.end()

    def __exit__(
        self, kind: type[BaseException] | None, error: BaseException | None, trace: TracebackType | None
    ) -> None:
        self.close()
