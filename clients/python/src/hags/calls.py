"""The lines of calls, as docs/formats.md has them, from values that are looked at first. `{}` stands for the name of
the client."""

from __future__ import annotations

import re
import secrets
from collections.abc import Iterable
from dataclasses import dataclass
from urllib.parse import quote_from_bytes

from .errors import BadArgument
from .ids import Member
from .words import TEXT

APPROVE, CONTINUE, REJECT = "A", "C", "R"  #: votes
MOST_LINE = 1100  # bytes of a call
LONGEST_LIMIT = 10_000
Bytes = bytes | str  #: what a value or a text may be; a str is its UTF-8


@dataclass(frozen=True)
class Attributes:
    """How a group votes and waits. All of its members give the same ones when they join."""

    by_vote: bool = False  #: joins and failures are voted on, in phases
    batch: str = "none"  #: which of those that wait begin together: none, joins, failures or both
    default: str = "approve"  #: what counts for who is late, failed or gone: approve or reject
    limit: int = 0  #: ticks of 100 ms until a voter is late, up to 10,000; 0 for none
    source: str | None = None  #: the group that this one follows
    source_by_vote: bool = False  #: reflections of the source's value are voted on
    source_limit: int = 0  #: the limit of those

    def words(self) -> str:
        """The words of a call, those alone that are not the default, each behind a space."""
        one_of("batch", self.batch, ("none", "joins", "failures", "both"))
        one_of("default", self.default, ("approve", "reject"))
        words = ["phases=n"] if self.by_vote else []
        words += [f"batch={self.batch}"] if self.batch != "none" else []
        words += [f"default={self.default}"] if self.default != "approve" else []
        words += [f"limit={number('limit', self.limit, 0, LONGEST_LIMIT)}"] if self.limit else []
        words += [f"source={group_name(self.source)}"] if self.source is not None else []
        words += ["sphases=n"] if self.source_by_vote else []
        words += [f"slimit={number('source_limit', self.source_limit, 0, LONGEST_LIMIT)}"] if self.source_limit else []
        return "".join(f" {word}" for word in words)

    @classmethod
    def of_words(cls, words: Iterable[str]) -> Attributes:
        """Attributes as a line spells them, NAME=VALUE each. Names that daemons to come may have are left out."""
        given = dict(word.split("=", 1) for word in words)
        return cls(
            by_vote=given.get("phases") == "n",
            batch=given.get("batch", "none"),
            default=given.get("default", "approve"),
            limit=int(given.get("limit", 0)),
            source=given.get("source"),
            source_by_vote=given.get("sphases") == "n",
            source_limit=int(given.get("slimit", 0)),
        )


PLAIN = Attributes()


def one_of(what: str, given: object, allowed: tuple[str, ...]) -> None:
    if given not in allowed:
        raise BadArgument(f"{what} is {' or '.join(allowed)}, not {given!r}")


def number(what: str, given: object, least: int, most: int) -> int:
    if not isinstance(given, int) or isinstance(given, bool) or not least <= given <= most:
        raise BadArgument(f"{what} is a number from {least:,} to {most:,}, not {given!r}")
    return given


def _name(what: str, given: object, longest: int) -> str:
    if not isinstance(given, str) or not re.fullmatch(rf"[A-Za-z0-9_.-]{{1,{longest}}}", given):
        raise BadArgument(f"{what} is 1 to {longest} letters, digits, `_`, `-` and `.`, not {given!r}")
    return given


def client_name(given: object) -> str:
    return _name("the name of a client", given, 16)


def group_name(given: object) -> str:
    return _name("the name of a group", given, 32)


def bytes_of(given: object) -> bytes:
    if isinstance(given, str):
        return given.encode()
    if isinstance(given, (bytes, bytearray, memoryview)):
        return bytes(given)
    raise BadArgument(f"a value is bytes or str, not {given!r}")


def text_of(given: object) -> str:
    """A value as a word of a call."""
    text = quote_from_bytes(bytes_of(given), safe=TEXT)
    return {"": "~", "~": "%7E"}.get(text, text)


def one_instance(given: int | None) -> int:
    return secrets.randbelow(65_535) + 1 if given is None else number("an instance number", given, 1, 65_535)


def _at(verb: str, group: object, by_vote: bool) -> str:
    return f"{verb} {{}} {group_name(group)} {'n' if by_vote else 1}"


def join_line(group: str, attributes: Attributes, instance: int | None) -> str:
    return f"join {{}} {group_name(group)} {one_instance(instance)}{attributes.words()}"


def leave_line(group: str, by_vote: bool) -> str:
    return _at("leave", group, by_vote)


def state_line(group: str, value: object, by_vote: bool) -> str:
    return f"{_at('state', group, by_vote)} {text_of(value)}"


def message_line(group: str, text: object, by_vote: bool) -> str:
    return f"{_at('message', group, by_vote)} {text_of(text)}"


def expel_line(group: str, members: Member | str | Iterable[Member | str], by_vote: bool) -> str:
    ones = [members] if isinstance(members, (Member, str)) else members
    words = [str(Member.parse(str(it))) for it in ones]
    if not words:
        raise BadArgument("whom to expel is missing: name one member at least")
    return f"{_at('expel', group, by_vote)} {' '.join(words)}"


def attributes_line(group: str, attributes: Attributes, by_vote: bool) -> str:
    return _at("attrs", group, by_vote) + attributes.words()


def vote_line(group: str, vote: object, value: object | None) -> str:
    if vote not in (APPROVE, CONTINUE, REJECT):
        raise BadArgument(f"a vote is hags.APPROVE, hags.CONTINUE or hags.REJECT, not {vote!r}")
    return f"vote {{}} {group_name(group)} {vote}" + ("" if value is None else f"={text_of(value)}")


def subscribe_line(group: str) -> str:
    return f"subscribe {{}} {group_name(group)}"


def unsubscribe_line(group: str) -> str:
    return f"unsubscribe {{}} {group_name(group)}"


def line_bytes(line: str) -> bytes:
    """The bytes of a call."""
    if not line.isascii() or not line.isprintable():
        raise BadArgument(f"a call is a line of printable ASCII, not {line!r}")
    if not 0 < len(line) <= MOST_LINE:
        raise BadArgument(
            f"a call has 1 to {MOST_LINE:,} bytes, and this one {len(line):,}: make the value or text shorter. "
            "Of it each byte that is no printable ASCII, and each blank, takes three"
        )
    return line.encode("ascii")
