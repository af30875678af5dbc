"""What recipes have in common: to be a member of a group for as long as that is wanted.

**Members that are dead.** A daemon with `--silence` takes a client that was killed out of its groups by itself, and one
without keeps it as a member for as long as the daemon lives. So members here find out who is silent, by signs of life
(`office.py`) or by votes that do not come (`voter.py`), and expel it after `patience` seconds, whichever comes first.
That also removes who lives and hangs: its client's thread goes on, and no daemon sees it."""

from __future__ import annotations

import random
import time
from collections.abc import Iterable
from contextlib import suppress

from ..calls import PLAIN, Attributes, expel_line, join_line, leave_line
from ..client import Client
from ..core import Core, Membership
from ..errors import CallRefused, ClientClosed, HagsError, TimedOut
from ..events import Entered, Event, Heard, Proposal
from ..ids import Member, Token

AGAIN = 0.1  # seconds from one try of a call to the next, and somewhat more by chance
LEAVING = 2.0  # seconds that leaving a group may take
FATAL = ("BAD_GROUP_ATTRIBUTES", "GROUP_FULL", "GROUPS_FULL", "NO_SOURCE_GROUP_PROVIDER", "NAME_TOO_LONG", "SPENT")


class Joined:
    """A member of a group, by a client that looks after nothing else there. Its methods below `take` are called by the
    client's thread, and whoever else calls them holds the client's lock."""

    def __init__(self, client: Client, group: str, attributes: Attributes = PLAIN, patience: float = 3.0) -> None:
        self.client, self.group, self.patience = client, group, patience
        self.error: HagsError | None = None  #: why it cannot be a member
        self._attributes = attributes
        self._join_line = join_line(group, attributes, None)
        self._is_wanted, self._is_leaving, self._is_asking, self._again = False, False, False, 0.0
        with client.locked() as core:
            self._core: Core = core
            core.claim(self)

    # What it is

    @property
    def membership(self) -> Membership | None:
        found = self._core.memberships.get(self.group)
        return found if found is not None and found.is_member else None

    @property
    def members(self) -> tuple[Member, ...]:
        """Who is a member, as this one has heard last; empty where it is none."""
        return self.membership.members if self.membership else ()

    @property
    def proposal(self) -> Proposal | None:
        """What is voted on, also as this one joins; None where nothing is, or the daemon does not tell."""
        found = self._core.memberships.get(self.group)
        return found.proposal if found else None

    @property
    def own(self) -> Member | None:
        """This member."""
        return self.membership.own if self.membership else None

    def is_decisive(self, event: Heard) -> bool:
        """Was this entry heard in a view of more than half of the nodes?"""
        return self._core.has_majority() and self._core.hosts is not None and self._core.hosts.view == event.view

    # What one does with it

    def want(self) -> None:
        with self.client.locked():
            self._is_wanted, self.error, self._again = True, None, 0.0

    def unwant(self, seconds: float = LEAVING) -> None:
        """Leaves, and waits a while for that."""
        with self.client.locked() as core:
            self._is_wanted, self._is_leaving, self._again = False, core.is_member(self.group), 0.0
            self.unwanted()
        with suppress(TimedOut, ClientClosed):
            self.client.wait_until("the leave", lambda: not self._core.is_member(self.group), seconds)

    def end(self) -> None:
        """Leaves for good: the client may join the group in another way."""
        with suppress(ClientClosed):
            self.unwant()
            with self.client.locked() as core:
                core.release(self)

    def check(self) -> None:
        if self.error:
            raise self.error

    def news(self) -> None:
        """Lets everybody look who waits for something."""
        self._core.has_news = True

    # What the client's thread calls

    def take(self, event: Event) -> None:
        if isinstance(event, Entered):
            return  # what it says is in the membership
        membership = self._core.memberships.get(self.group)
        if membership and membership.ended:
            self._is_leaving = False
            self._ended(membership.ended)
        elif isinstance(event, Heard) and membership:
            self.heard(event)
        else:
            self.other(event)

    def tick(self, now: float) -> None:
        is_member = self._core.is_member(self.group)
        if self._core.is_open and not self._is_asking and now >= self._again:
            if self._is_wanted and not is_member and self.error is None:
                self._ask(self._join_line)
            elif (self._is_leaving or not self._is_wanted) and self.membership:
                self._ask(leave_line(self.group, False))
        if self.membership:
            self.act(now)

    def lose(self, why: HagsError) -> None:
        self._is_leaving, self._is_asking, self._again = False, False, time.monotonic() + AGAIN
        self.gone(str(why))
        self.news()

    def _ask(self, line: str) -> None:
        self._is_asking = True
        self._core.post_quietly(line, self._answered)

    def _answered(self, error: HagsError | None) -> None:
        self._is_asking = False
        self._again = time.monotonic() + AGAIN * (1 + random.random())
        if isinstance(error, CallRefused) and error.code.split(" ")[0] in FATAL:
            self.error = error
            self.news()

    def _ended(self, code: str) -> None:
        self._again = time.monotonic() + AGAIN * (1 + random.random())
        if code.split(" ")[0] in FATAL:
            self.error = CallRefused(f"the leader of {self.group}", f"join {self.group}", code)
        self.gone(code)
        self.news()

    # What each recipe has of its own

    def heard(self, event: Heard) -> None:
        """An entry was heard, after which this one is a member, or is to be one."""

    def other(self, event: Event) -> None:
        """Another event was heard."""

    def act(self, now: float) -> None:
        """Time has passed for a member."""

    def gone(self, why: str) -> None:
        """It is no member any more."""

    def unwanted(self) -> None:
        """It is to leave."""

    def see_hosts(self) -> None:
        """The nodes of the view are others."""

    # What recipes do with others

    def say(self, line: str) -> None:
        """Makes a call of which nobody is to be told what comes."""
        self._core.post_quietly(line)

    def expel_silent(self, silent: Iterable[Member]) -> None:
        """Removes members that give no sign of life."""
        if self._core.has_majority():
            self.say(expel_line(self.group, silent, False))


def token_of(event: Heard) -> Token:
    return Token(event.view, event.place)
