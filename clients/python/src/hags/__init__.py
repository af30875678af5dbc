"""Clients of hags, group membership for clusters. `Client` is for plain code and `AsyncClient` for asyncio; recipes are
what programs mostly build on them: a `Lock`, the election of a `Leader`, a `Barrier`, a `Value` that changes by vote, a
`Watch`, and work in `Shares`. docs/clients/python.md has all of it, and docs/recipes.md how the recipes are used."""

from __future__ import annotations

from typing import TYPE_CHECKING

from .calls import APPROVE, CONTINUE, REJECT, Attributes
from .client import Client
from .core import Membership
from .errors import (
    BadArgument,
    BadSettings,
    BrokenBarrier,
    CallRefused,
    ClientClosed,
    DaemonFull,
    HagsError,
    LockLost,
    NoMajority,
    NoReply,
    Rejected,
    SessionEnded,
    SessionLost,
    TimedOut,
)
from .events import HOSTS, Asked, Cast, Entered, Event, Heard, Hosts, Noted, Proposal, Row, Told
from .ids import Host, Member, Token, View
from .recipes import Barrier, Change, Leader, Lock, Share, Shares, Value, Watch
from .settings import Adapter, Place, Settings

if TYPE_CHECKING:
    from .aio import AsyncClient

__all__ = [
    "APPROVE",
    "Adapter",
    "Asked",
    "AsyncClient",
    "Attributes",
    "BadArgument",
    "BadSettings",
    "Barrier",
    "BrokenBarrier",
    "CONTINUE",
    "CallRefused",
    "Cast",
    "Change",
    "Client",
    "ClientClosed",
    "DaemonFull",
    "Entered",
    "Event",
    "HOSTS",
    "HagsError",
    "Heard",
    "Host",
    "Hosts",
    "Leader",
    "Lock",
    "LockLost",
    "Member",
    "Membership",
    "NoMajority",
    "NoReply",
    "Noted",
    "Place",
    "Proposal",
    "REJECT",
    "Rejected",
    "Row",
    "SessionEnded",
    "SessionLost",
    "Settings",
    "Share",
    "Shares",
    "TimedOut",
    "Token",
    "Told",
    "Value",
    "View",
    "Watch",
]


def __getattr__(name: str) -> object:
    """Reads `AsyncClient` where it is used first, since asyncio takes as long to load as all the rest."""
    if name == "AsyncClient":
        from .aio import AsyncClient

        return AsyncClient
    raise AttributeError(f"module {__name__!r} has no attribute {name!r}")
