"""The election of a leader."""

from __future__ import annotations

from contextlib import AbstractContextManager, suppress
from types import TracebackType

from ..calls import Bytes, bytes_of
from ..client import FOREVER, Client
from ..errors import BadArgument, TimedOut
from ..ids import Member, Token
from .office import Office

MOST_DATA = 180


class Leader(AbstractContextManager["Leader"]):
    """A candidate of the election of this name: the group `leader.NAME`, whose first member leads.

        with hags.Leader(client, "billing", data="10.1.0.3:8080") as election:
            while True:
                token = election.wait_elected()
                while election.token == token:
                    work(token)

    It stands for election until it is closed: one that has lost its office goes to the end of the line. `data`, of up
    to 180 bytes, is what the others are told of who leads. A leader that is killed is expelled after `patience`
    seconds.

    **Leadership is no lock**: for a moment the old leader may not know that there is a new one. What leaders act on has
    to check `token`, as with a `Lock`.
    """

    def __init__(self, client: Client, name: str, *, data: Bytes = b"", patience: float = 3.0) -> None:
        self.name = name
        self._client = client
        if len(bytes_of(data)) > MOST_DATA:
            raise BadArgument(f"what a leader says of itself has at most {MOST_DATA} bytes")
        self._office = Office(client, f"leader.{name}", patience, bytes_of(data))
        self._office.want()

    @property
    def token(self) -> Token | None:
        """The fencing number of this leader; None where this one does not lead."""
        with self._client.locked():
            return self._office.held()

    @property
    def leads(self) -> bool:
        """Does this one lead, as far as is known here and now?"""
        return self.token is not None

    @property
    def own(self) -> Member | None:
        """This candidate; None while it is no member."""
        with self._client.locked():
            return self._office.own

    @property
    def leader(self) -> Member | None:
        """Who leads, as this one has heard last; None where it is no member."""
        with self._client.locked():
            return self._office.first

    @property
    def data(self) -> bytes | None:
        """What the leader says of itself; None until it has said it."""
        with self._client.locked():
            return self._office.signed_data()

    def wait_elected(self, seconds: float = FOREVER) -> Token:
        """Waits until this one leads, and gives its token. Raises TimedOut."""
        self._client.wait_until(f"the office of {self.name}", lambda: bool(self.leads or self._office.error), seconds)
        self._office.check()
        token = self.token
        return token if token is not None else self.wait_elected(seconds)

    def wait_change(self, seconds: float = FOREVER) -> bool:
        """Waits until somebody else leads, or this one leads or does so no more; or for so long. Has it changed?"""
        before = (self.leads, self.leader)
        with suppress(TimedOut):
            self._client.wait_until("a change", lambda: (self.leads, self._office.first) != before, seconds)
        return (self.leads, self.leader) != before

    def resign(self) -> None:
        """Gives the office up, and goes to the end of the line."""
        self._office.unwant()
        self._office.want()

    def close(self) -> None:
        """Stands no more."""
        self._office.end()

    def __exit__(
        self, kind: type[BaseException] | None, error: BaseException | None, trace: TracebackType | None
    ) -> None:
        self.close()
