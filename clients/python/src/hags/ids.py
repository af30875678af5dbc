"""Ids as values: members, nodes with their incarnations, views, and fencing numbers. Each is written as in a
transcript, by `str`, and read by `parse`."""

from __future__ import annotations

from functools import lru_cache
from typing import NamedTuple

from .errors import BadArgument


def _numbers(text: str, count: int, what: str) -> list[int]:
    parts = text.split(".")
    if len(parts) != count or not all(part.isascii() and part.isdecimal() for part in parts):
        raise BadArgument(f"{what} is {count} numbers with points between them, not `{text}`")
    return [int(part) for part in parts]


class Member(NamedTuple):
    """One membership of a client in a group. A client that joins again is another member."""

    node: int
    incarnation: int  #: of the node's daemon
    instance: int  #: the number that the client chose when it joined, 1 to 65,535
    request: int  #: the number of its join at the node

    @classmethod
    def parse(cls, text: str) -> Member:
        return cls(*_numbers(text, 4, "a member"))

    def __str__(self) -> str:
        return f"{self.node}.{self.incarnation}.{self.instance}.{self.request}"


class Host(NamedTuple):
    """A node of a view, with the incarnation of its daemon."""

    node: int
    incarnation: int

    @classmethod
    def parse(cls, text: str) -> Host:
        return cls(*_numbers(text, 2, "a node with its incarnation"))

    def __str__(self) -> str:
        return f"{self.node}.{self.incarnation}"


class View(NamedTuple):
    """The id of a view. Views compare by number, then coordinator, then its incarnation, as the daemons order them."""

    number: int
    coordinator: int
    incarnation: int

    @classmethod
    def parse(cls, text: str) -> View:
        return cls(*_numbers(text, 3, "a view"))

    def __str__(self) -> str:
        return f"{self.number}.{self.coordinator}.{self.incarnation}"


class Token(NamedTuple):
    """A fencing number: the view, and the place in the group's list there, of the entry that gave an office, a lock or
    a part to somebody. No two entries have the same one. Tokens compare as they rise; docs/recipes.md says when they
    do."""

    view: View
    place: int

    @classmethod
    def parse(cls, text: str) -> Token:
        view, slash, place = text.partition("/")
        if not slash or not place.isdecimal():
            raise BadArgument(f"a token is VIEW/PLACE, as 3.1.7/4, not `{text}`")
        return cls(View.parse(view), int(place))

    def __str__(self) -> str:
        return f"{self.view}/{self.place}"

    def __int__(self) -> int:
        """One number of at most 104 bits, which rises as tokens do."""
        view = self.view
        return (view.number << 72) | (view.coordinator << 64) | (view.incarnation << 32) | self.place

    @property
    def key(self) -> str:
        """26 hexadecimal digits, which compare as tokens do: for resources that keep a text, as a database's column."""
        return f"{int(self):026x}"


@lru_cache(1024)
def members_of(word: str) -> tuple[Member, ...]:
    """The members of a list as a line spells it. Events of a group mostly name the same ones."""
    return () if word == "-" else tuple(map(Member.parse, word.split(",")))


@lru_cache(64)
def hosts_of(word: str) -> tuple[Host, ...]:
    return () if word == "-" else tuple(map(Host.parse, word.split(",")))


@lru_cache(64)
def view_of(word: str) -> View:
    return View.parse(word)


@lru_cache(1024)
def member_of(word: str) -> Member:
    return Member.parse(word)
