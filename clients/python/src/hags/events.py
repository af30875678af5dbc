"""What a client hears, as values. docs/formats.md has the lines that they are read from."""

from __future__ import annotations

from typing import NamedTuple, Union

from .calls import Attributes
from .ids import Host, Member, View, hosts_of, member_of, members_of, view_of
from .words import value_of, value_word

HOSTS = "HostMembership"  #: the group whose members are the nodes of the view, to which one subscribes


class Asked(NamedTuple):
    """A call was taken. The provider is the caller's membership; the kind is join, leave, state, message and so on."""

    provider: Member
    request: int
    group: str
    kind: str


class Proposal(NamedTuple):
    """What an entry proposes, or does at once. `kind` is join, leave, fail, expel, state, message, attrs or reflect. A
    part that the kind has not is None, or empty."""

    kind: str
    asker: Member | None = None  #: who asked for it: of leave, expel, state, message and attrs
    request: int | None = None  #: the number of that call, which `Asked` has too
    members: tuple[Member, ...] = ()  #: who joins, has failed or is to be expelled
    causes: tuple[str, ...] = ()  #: of fail, why each of them: died, gone (its client is), or cast (out)
    value: bytes | None = None  #: of state, the proposed value; of any kind one that votes have brought since
    text: bytes | None = None  #: of message
    attributes: Attributes | None = None  #: of join, those that the joiners give; of attrs, the new ones
    source: str | None = None  #: of reflect, VIEW/PLACE of the source group's entry
    source_value: bytes | None = None  #: of reflect, the value of the source group
    source_length: int | None = None  #: of a join that names a source group, how long that group's list was


class Row(NamedTuple):
    """What counted for a member as a phase closed: A, C or R as it voted; LA or LR, the default, where it was late; FA
    or FR, the default, where it had failed."""

    member: Member
    vote: str


class Entered(NamedTuple):
    """An entry of a group's list itself. It comes directly before the `Heard` of that view and place, once, and only
    from daemons that run with `--entries`. `step` is once or begin, and then it has the proposal; phase, approve or
    reject, and then what closed; or late, and then who has not voted in time."""

    node: int  #: the client's own
    view: View
    group: str
    place: int
    step: str
    proposal: Proposal | None = None
    proto: str | None = None  #: VIEW/PLACE of the entry that began what is voted on
    phase: int | None = None  #: which closed, or in which they are late
    rows: tuple[Row, ...] = ()  #: the votes of that phase
    late: tuple[Member, ...] = ()
    value: bytes | None = None  #: of phase and approve, where a vote has brought one


class Heard(NamedTuple):
    """The entry at a place of a group's list, and the members and the value after it. `what` is once-join and the like;
    begin-state and the like, or phase, by which a phase of voting begins; or approve, reject."""

    provider: Member
    view: View
    group: str
    place: int
    what: str
    members: tuple[Member, ...]
    value: bytes


class Cast(NamedTuple):
    """This client's vote was cast. `proto` is VIEW/PLACE of the entry that began what is voted on."""

    provider: Member
    proto: str
    phase: int
    vote: str
    value: bytes | None


class Told(NamedTuple):
    """A call that was taken was refused later. Where it was a join, and at DISSOLVED, the membership is no more."""

    provider: Member
    request: int
    code: str
    detail: str


class Noted(NamedTuple):
    """The members and the value of a group to which the client subscribes, as they are now; `place` is None as a view
    begins."""

    client: str
    view: View
    group: str
    place: int | None
    members: tuple[Member, ...]
    value: bytes


class Hosts(NamedTuple):
    """The nodes of the view that begins, of a client that subscribes to HOSTS."""

    client: str
    view: View
    hosts: tuple[Host, ...]


Event = Union[Asked, Entered, Heard, Cast, Told, Noted, Hosts]


def event_of(line: str) -> Event:
    """The event that a line of a transcript is. Words behind those that it has are left out, as daemons to come may
    have more to tell. Raises ValueError where it is no line of an event."""
    try:
        return _event_of(line)
    except (IndexError, TypeError) as error:
        raise ValueError(f"no line of an event: {line}") from error


def _event_of(line: str) -> Event:
    kind, *words = line.split(" ")
    if kind == "heard":
        provider, view, group, place, what, members, value, *_ = words
        return Heard(member_of(provider), view_of(view), group, int(place), what, members_of(members), value_of(value))
    if kind == "asked":
        return Asked(member_of(words[0]), int(words[1]), words[2], words[3])
    if kind == "told":
        return Told(member_of(words[0]), int(words[1]), words[2], " ".join(words[3:]))
    if kind == "put":
        return _entered_of(*words)
    if kind == "cast":
        value = words[3][1:]
        return Cast(member_of(words[0]), words[1], int(words[2]), words[3][0], value_of(value) if value else None)
    if kind != "noted":
        raise ValueError(f"no line of an event: {line}")
    client, view, group, place, members, value, *_ = words
    if group == HOSTS:
        return Hosts(client, view_of(view), hosts_of(members))
    at = None if place == "-" else int(place)
    return Noted(client, view_of(view), group, at, members_of(members), value_of(value))


def _entered_of(node: str, view: str, group: str, place: str, step: str, *words: str) -> Entered:
    where = int(node), view_of(view), group, int(place), step
    if step in ("once", "begin"):
        return Entered(*where, _proposal_of(*words))
    proto, phase, said, *more = words
    if step == "late":
        return Entered(*where, None, proto, int(phase), (), members_of(said))
    if step not in ("phase", "approve", "reject"):
        raise ValueError(f"no step of an entry: {step}")
    value = None if step == "reject" or more[0] == "-" else value_of(more[0])
    rows = () if said == "-" else tuple(map(_row_of, said.split(",")))
    return Entered(*where, None, proto, int(phase), rows, (), value)


def _row_of(word: str) -> Row:
    member, _, vote = word.partition("=")
    return Row(member_of(member), vote)


def _proposal_of(kind: str, first: str, *words: str) -> Proposal:
    if kind == "join":
        lengths = [int(word[4:]) for word in words if word.startswith("src=")]
        attributes = Attributes.of_words(word for word in words if not word.startswith("src="))
        length = lengths[0] if lengths else None
        return Proposal(kind, members=members_of(first), attributes=attributes, source_length=length)
    if kind == "fail":
        pairs = [pair.partition(":") for pair in first.split(",")]
        members, causes = tuple(member_of(pair[0]) for pair in pairs), tuple(pair[2] for pair in pairs)
        return Proposal(kind, members=members, causes=causes)
    if kind == "reflect":
        return Proposal(kind, source=first, source_value=value_of(words[0]))
    member, _, number = first.partition("/")
    asked = Proposal(kind, member_of(member), int(number))
    if kind == "leave":
        return asked
    if kind == "attrs":
        return asked._replace(attributes=Attributes.of_words(words))
    if kind == "expel":
        return asked._replace(members=members_of(words[0]))
    if kind == "state":
        return asked._replace(value=value_of(words[0]))
    if kind == "message":
        return asked._replace(text=value_of(words[0]))
    raise ValueError(f"no kind of a proposal: {kind}")


def _list(items: tuple[Member, ...] | tuple[Host, ...]) -> str:
    return ",".join(map(str, items)) or "-"


def _line_of_entered(event: Entered) -> str:
    where = f"put {event.node} {event.view} {event.group} {event.place} {event.step}"
    if event.proposal is not None:
        return f"{where} {_proposal(event.proposal)}"
    closed = f"{where} {event.proto} {event.phase}"
    if event.step == "late":
        return f"{closed} {_list(event.late)}"
    rows = ",".join(f"{row.member}={row.vote}" for row in event.rows) or "-"
    value = "" if event.step == "reject" else " -" if event.value is None else f" {value_word(event.value)}"
    return f"{closed} {rows}{value}"


def _proposal(it: Proposal) -> str:
    attributes = it.attributes.words() if it.attributes else ""
    if it.kind == "join":
        length = "" if it.source_length is None else f" src={it.source_length}"
        return f"join {_list(it.members)}{attributes}{length}"
    if it.kind == "fail":
        return "fail " + ",".join(f"{member}:{cause}" for member, cause in zip(it.members, it.causes))
    if it.kind == "reflect":
        return f"reflect {it.source} {value_word(it.source_value or b'')}"
    asked = f"{it.kind} {it.asker}/{it.request}{attributes}"
    if it.kind == "expel":
        return f"{asked} {_list(it.members)}"
    said = it.value if it.kind == "state" else it.text
    return asked if said is None else f"{asked} {value_word(said)}"


def line_of(event: Event) -> str:
    """The line of a transcript that an event is, as docs/formats.md spells it."""
    if isinstance(event, Heard):
        state = f"{event.what} {_list(event.members)} {value_word(event.value)}"
        return f"heard {event.provider} {event.view} {event.group} {event.place} {state}"
    if isinstance(event, Entered):
        return _line_of_entered(event)
    if isinstance(event, Asked):
        return f"asked {event.provider} {event.request} {event.group} {event.kind}"
    if isinstance(event, Told):
        return f"told {event.provider} {event.request} {event.code} {event.detail}".rstrip()
    if isinstance(event, Cast):
        value = "" if event.value is None else value_word(event.value)
        return f"cast {event.provider} {event.proto} {event.phase} {event.vote}{value}"
    if isinstance(event, Hosts):
        return f"noted {event.client} {event.view} {HOSTS} - {_list(event.hosts)} ="
    place = "-" if event.place is None else str(event.place)
    return f"noted {event.client} {event.view} {event.group} {place} {_list(event.members)} {value_word(event.value)}"
