"""What recipes that vote have in common. A voter that is not ready yet votes CONTINUE, and so begins another phase,
once a second: so who does not vote for longer is silent. Who that is the daemon of the group's leader says."""

from __future__ import annotations

import time
from functools import partial

from ..calls import CONTINUE, Attributes, vote_line
from ..client import Client
from ..events import Heard
from ..ids import Member
from ..status import groups_of, votes_of
from .joined import Joined

PHASE = 1.0  # seconds until who is not ready votes CONTINUE
SILENT = 2.5  # seconds without a vote after which a member is silent
LIMIT = 50  # ticks of 100 ms until the default stands for who does not vote


class Voter(Joined):
    """A member that votes whenever it is asked, by its `opinion`."""

    def __init__(self, client: Client, group: str, attributes: Attributes) -> None:
        self._phase: str | None = None  # the entry that began the phase that is open
        self._began, self._look_at, self._has_voted = 0.0, 0.0, True
        self._silent: set[Member] = set()
        super().__init__(client, group, attributes)

    @property
    def is_voting(self) -> bool:
        """Does a vote run?"""
        return self._phase is not None

    def opinion(self) -> str | None:
        """The vote on what has begun; None where it is not ready."""
        raise NotImplementedError

    def heard(self, event: Heard) -> None:
        if event.what.startswith("begin-") or event.what == "phase":
            self._phase, self._has_voted, self._began = f"{event.view}/{event.place}", False, time.monotonic()
            self._look_at = self._began + SILENT
            self.begun(event)
        elif self._phase is not None and event.what in ("approve", "reject"):
            self._phase, self._has_voted = None, True
        if self._phase is None:
            self._expel()
            self.settled(event)
        self.vote()

    def begun(self, event: Heard) -> None:
        """A phase has begun."""

    def settled(self, event: Heard) -> None:
        """An entry was heard after which no vote runs."""

    def vote(self) -> None:
        """Votes, once for each phase, where there is something to say."""
        if self._phase is None or self._has_voted:
            return
        opinion = self.opinion()
        if opinion is None and time.monotonic() > self._began + PHASE:
            opinion = CONTINUE
        if opinion is not None:
            self._has_voted = True
            self.say(vote_line(self.group, opinion, None))

    def act(self, now: float) -> None:
        self.vote()
        if self._phase is not None and now > self._look_at:
            self._look_at = now + PHASE
            self._core.ask("hagsgr", partial(self._find_leader, self._phase))

    def gone(self, why: str) -> None:
        self._phase, self._has_voted = None, True
        self._silent.clear()

    def _find_leader(self, phase: str, lines: list[str]) -> None:
        leaders = [group.leader for group in groups_of(lines) if group.name == self.group and group.leader]
        if leaders and phase == self._phase and leaders[0] in self._core.settings.nodes:
            self._core.ask("hagsvote", partial(self._find_silent, phase), leaders[0])

    def _find_silent(self, phase: str, lines: list[str]) -> None:
        if phase == self._phase:
            waiting = [vote.waiting for vote in votes_of(lines) if vote.group == self.group]
            self._silent |= set(waiting[0] or ()) if waiting else set()

    def _expel(self) -> None:
        silent = [it for it in self._silent if it in self.members and it != self.own]
        self._silent.clear()
        if silent:
            self.expel_silent(silent)
