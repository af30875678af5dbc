"""What a lock and an election have in common: an office that the first member of a group holds."""

from __future__ import annotations

import time

from ..calls import state_line
from ..client import Client
from ..events import Heard
from ..ids import Member, Token
from .joined import AGAIN, Joined, token_of

BEATS = 3  # signs of life in the time after which one is expelled


class Office(Joined):
    """A member that holds the office where it is the first one. It holds it from an entry on that it has heard in a
    view of more than half of the nodes, and that entry is its token. As it holds the office it gives a sign of life by
    the group's value, which has its id, a count and `data`; the others expel who gives none for `patience` seconds."""

    def __init__(self, client: Client, group: str, patience: float, data: bytes = b"") -> None:
        self._data = data
        self._token: Token | None = None
        self.why = "it was never held"  #: why it is not held
        self._before: tuple[Member, ...] = ()  # who was a member after the entry before
        self._beats, self._beat_at = 0, 0.0
        self._sign_at = time.monotonic()  # when a sign of life was heard
        super().__init__(client, group, patience=patience)
        every, missed = self._core.settings.heartbeat
        # After so long a silence of its daemon the other nodes may have taken that for dead.
        self._lease = max(every * missed / 10, 3 * self._core.session.idle)

    def held(self) -> Token | None:
        """The token, where the office is held now."""
        if self._token and self._core.silence() > self._lease:
            self._drop(f"the daemon of node {self._core.node} is silent")
        return self._token

    @property
    def first(self) -> Member | None:
        """Who holds the office, as this member has heard last."""
        return self.members[0] if self.members else None

    def signed_data(self) -> bytes | None:
        """What the holder has said beside its last sign of life; None where it has given none."""
        signed = self.membership.value.split(b" ", 2) if self.membership else []
        return signed[2] if len(signed) == 3 and signed[0] == str(self.first).encode() else None

    def heard(self, event: Heard) -> None:
        if event.what == "once-state" or event.members[:1] != self._before[:1]:
            self._sign_at = time.monotonic()
        if event.members[:1] != self._before[:1]:
            self.news()
        self._before = event.members
        if self.first is None or self.first != self.own:
            self._drop("another member was first")
        elif self._token is None and self.is_decisive(event) and self.may_hold():
            self._token = token_of(event)
            self.news()

    def may_hold(self) -> bool:
        return self._is_wanted and not self._is_leaving

    def act(self, now: float) -> None:
        self.held()
        if self._core.silence() > self._lease:
            self._sign_at = now
        elif self.first == self.own:
            if now >= self._beat_at and self.may_hold():
                again = self.patience / BEATS if self._token else 2 * AGAIN
                self._beats, self._beat_at = self._beats + 1, now + again
                self.say(state_line(self.group, f"{self.own} {self._beats} ".encode() + self._data, False))
        elif now - self._sign_at > self.patience and self.first:
            self._sign_at = now
            self.expel_silent([self.first])

    def gone(self, why: str) -> None:
        self._before = ()
        self._drop(f"the membership has ended: {why}")

    def see_hosts(self) -> None:
        self._sign_at = time.monotonic()
        if not self._core.has_majority():
            self._drop("its node is in a view of half of the nodes or fewer")
        elif self._token is None:
            self._beat_at = 0.0

    def unwanted(self) -> None:
        self._drop("it was released")

    def _drop(self, why: str) -> None:
        if self._token is not None:
            self._token, self.why = None, why
            self.dropped()
            self.news()

    def dropped(self) -> None:
        """The office was held, and is not any more."""
