"""A lock that one process of the cluster holds at a time."""

from __future__ import annotations

from contextlib import AbstractContextManager, suppress
from types import TracebackType

from ..client import FOREVER, Client
from ..errors import ClientClosed, LockLost, TimedOut
from ..ids import Token
from .office import Office


class _Seat(Office):
    is_lost = False

    def may_hold(self) -> bool:
        return super().may_hold() and not self.is_lost

    def dropped(self) -> None:
        self.is_lost, self._is_wanted = True, False  # so that it is not held again without anybody noticing


class Lock(AbstractContextManager["Lock"]):
    """A lock of this name, over the whole cluster: the group `lock.NAME`, whose first member holds it.

        with hags.Lock(client, "reports") as lock:
            write(report, lock.token)

    Who waits stands in line, in one order for all. A holder that is killed, or hangs with its whole process, is
    expelled after `patience` seconds; one whose daemon dies loses the lock as soon as the other daemons miss that. It
    is held on the side of more than half of the nodes alone.

    **The lock can be lost while it is held**, and whoever pauses cannot know that in time. So what it guards has to
    check `token`, which is a greater one for each later holder, and refuse one that is less than the greatest it has
    seen: docs/recipes.md says how. A client holds a lock of one name once; its threads share it.
    """

    def __init__(self, client: Client, name: str, *, patience: float = 3.0) -> None:
        self.name = name
        self._client = client
        self._seat = _Seat(client, f"lock.{name}", patience)

    def acquire(self, seconds: float = FOREVER) -> Token:
        """Waits until the lock is held, and gives its token. After TimedOut it stands in line no more."""
        seat = self._seat
        with self._client.locked():
            if seat.is_lost:
                raise LockLost(f"the lock {self.name} was lost: {seat.why}. Release it, and acquire it again")
        seat.want()
        try:
            what = f"the lock {self.name}"
            self._client.wait_until(what, lambda: bool(seat.held() or seat.is_lost or seat.error), seconds)
        except BaseException:
            with suppress(ClientClosed):
                self.release()
            raise
        seat.check()
        return self.token

    def release(self) -> None:
        """Gives the lock up; the next in line has it."""
        self._seat.unwant()
        with self._client.locked():
            self._seat.is_lost = False

    @property
    def token(self) -> Token:
        """The fencing number of the holder. Raises LockLost where the lock is not held."""
        with self._client.locked():
            token = self._seat.held()
            if token is None:
                why = self._seat.why
                raise LockLost(f"the lock {self.name} is not held: {why}. Stop, and acquire it again")
            return token

    @property
    def is_held(self) -> bool:
        """Is it held, as far as is known here and now?"""
        with self._client.locked():
            return self._seat.held() is not None

    @property
    def why_lost(self) -> str:
        """Why it is not held."""
        return self._seat.why

    def wait_lost(self, seconds: float = FOREVER) -> bool:
        """Waits until the lock is lost, or for so long. Is it lost?"""
        with suppress(TimedOut):
            self._client.wait_until("the lock's loss", lambda: self._seat.held() is None, seconds)
        return not self.is_held

    def close(self) -> None:
        """Releases the lock; its name may be used by another `Lock` of this client."""
        self._seat.end()

    def __enter__(self) -> Lock:
        self.acquire()
        return self

    def __exit__(
        self, kind: type[BaseException] | None, error: BaseException | None, trace: TracebackType | None
    ) -> None:
        self.close()
