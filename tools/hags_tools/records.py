"""The one reader of transcripts and of what `hags status` answers: a line is a value of the class of its kind.

docs/formats.md has the lines. Ids (views, providers, requests, protocols) stay the words that they are. A value is the text
behind its `=`, in which %XX stands for a byte, and None where the line has `-`; `bytes_of` gives its bytes."""
from collections.abc import Callable, Iterable, Sequence
from typing import NamedTuple
from urllib.parse import unquote_to_bytes

HOSTS = "HostMembership"  # the group whose members are the nodes of the view


class NoRecord(ValueError):
    """A line that is no record of a transcript."""


class Proposal(NamedTuple):
    """What an entry proposes. `asker` and `number` are those of the request that a call made; a join has none of its own,
    since each joiner is its own request. `rest` are the attributes of `join` and `attrs`, and the `src=` of a join."""

    kind: str
    providers: tuple[str, ...] = ()  # who joins, leaves, has failed or is expelled
    causes: tuple[str, ...] = ()  # of `fail`, for each provider
    asker: str | None = None
    number: int | None = None
    value: str | None = None
    source: str | None = None  # of `reflect`, the view and place of the value
    rest: tuple[str, ...] = ()

    @property
    def requests(self) -> list[str]:
        """The requests that it carries, each as PROVIDER/NUMBER."""
        if self.kind == "join":
            return [f"{it}/{it.split('.')[3]}" for it in self.providers]
        return [f"{self.asker}/{self.number}"] if self.asker else []

    @property
    def joiners(self) -> tuple[str, ...]:
        return self.providers if self.kind == "join" else ()

    @property
    def leaving(self) -> tuple[str, ...]:
        return self.providers if self.kind in ("leave", "fail", "expel") else ()


class Entry(NamedTuple):
    """An entry of a group's list. `once` and `begin` have a proposal; `phase`, `approve` and `reject` have the rows of the
    phase that they close, each a provider and its vote; `late` has who was late."""

    kind: str
    proposal: Proposal | None = None
    protocol: str | None = None
    phase: int = 0
    rows: tuple[tuple[str, str], ...] = ()
    value: str | None = None
    late: tuple[str, ...] = ()


class Up(NamedTuple):
    node: int
    incarnation: int


class Down(NamedTuple):
    node: int


class Ring(NamedTuple):
    node: int
    network: int
    ring: str
    nodes: tuple[int, ...]
    neighbour: int


class In(NamedTuple):
    """A node has entered a view; the members are nodes with their incarnations, as 1.5."""

    node: int
    view: str
    members: tuple[str, ...]


class Base(NamedTuple):
    """What a view takes over of a group: the state after so many entries of an older view's list. `running` is the protocol
    that runs and its phase."""

    node: int
    view: str
    group: str
    old_view: str
    length: int
    members: tuple[str, ...]
    value: str
    failed: tuple[str, ...]
    running: tuple[str, int] | None


class Put(NamedTuple):
    node: int
    view: str
    group: str
    place: int
    entry: Entry


class Heard(NamedTuple):
    provider: str
    view: str
    group: str
    place: int
    what: str
    members: tuple[str, ...]
    value: str

    @property
    def node(self) -> int:
        return node_of(self.provider)


class Cast(NamedTuple):
    provider: str
    protocol: str
    phase: int
    vote: str
    value: str | None

    @property
    def node(self) -> int:
        return node_of(self.provider)


class Asked(NamedTuple):
    provider: str
    request: int
    group: str
    kind: str

    @property
    def node(self) -> int:
        return node_of(self.provider)


class Told(NamedTuple):
    provider: str
    request: int
    code: str
    detail: tuple[str, ...]

    @property
    def node(self) -> int:
        return node_of(self.provider)


class Noted(NamedTuple):
    """`client` is the node and the name; the place is None as a view begins, and of the hosts."""

    client: str
    view: str
    group: str
    place: int | None
    members: tuple[str, ...]
    value: str

    @property
    def node(self) -> int:
        return node_of(self.client)

    @property
    def name(self) -> str:
        return self.client.split(".", 1)[1]


class Refused(NamedTuple):
    client: str
    code: str
    detail: tuple[str, ...]

    @property
    def node(self) -> int:
        return node_of(self.client)

    @property
    def name(self) -> str:
        return self.client.split(".", 1)[1]


class RingStatus(NamedTuple):
    """A line of `hags status hats`."""

    network: int
    ring: str
    members: tuple[int, ...]
    neighbour: int


class ViewStatus(NamedTuple):
    """The line of `hags status hagsns`."""

    view: str
    coordinator: int
    members: tuple[str, ...]
    frozen: bool


class GroupStatus(NamedTuple):
    """A line of `hags status hagsgr`; the leader is None where the node does not know it."""

    group: str
    leader: int | None
    length: int
    members: tuple[str, ...]
    value: str


class VoteStatus(NamedTuple):
    """A line of `hags status hagsvote`; who is waited for is None where another node leads."""

    group: str
    protocol: str
    phase: int
    kind: str
    waiting: tuple[str, ...] | None


class DaemonStatus(NamedTuple):
    """The line of `hags status hagsd`. All counts are of the daemon's life."""

    member: str  # the node with its incarnation
    version: str
    settings: str  # the digest of their lines up to `begin`
    turns: int
    ticks: int
    received: int
    strays: int
    sent: int
    failed: int
    keys: int
    ended: int


class ClientStatus(NamedTuple):
    """A line of `hags status hagscl`; of a client of the settings the key and what goes with it is None."""

    name: str
    key: int | None
    silent: int | None  # ticks
    unread: int | None  # events
    members: tuple[str, ...]


Shown = RingStatus | ViewStatus | GroupStatus | VoteStatus  # what a line of a transcript may show
Status = Shown | DaemonStatus | ClientStatus


class Show(NamedTuple):
    node: int
    status: Shown


Record = Up | Down | Ring | In | Base | Put | Heard | Cast | Asked | Told | Noted | Refused | Show


def node_of(word: str) -> int:
    """The node of a provider, of a member of a view or of a client, as 2 of 2.1795943417.35066.1."""
    return int(word.split(".", 1)[0])


def member_of(provider: str) -> str:
    """The node with its incarnation of a provider, as 1.5 of 1.5.7.1."""
    return ".".join(provider.split(".", 2)[:2])


def view_order(view: str) -> tuple[int, ...]:
    return tuple(map(int, view.split(".")))


def bytes_of(value: str) -> bytes:
    return unquote_to_bytes(value)


def items(word: str) -> tuple[str, ...]:
    return () if word == "-" else tuple(word.split(","))


def _numbers(word: str) -> tuple[int, ...]:
    return tuple(map(int, items(word)))


def _value(word: str) -> str:
    """A value that a line always has."""
    if not word.startswith("="):
        raise ValueError(word)
    return word[1:]


def _maybe_value(word: str) -> str | None:
    return None if word == "-" else _value(word)


def _request(word: str) -> tuple[str, int]:
    provider, number = word.split("/")
    return provider, int(number)


def _proposal(words: Sequence[str]) -> Proposal:
    kind, who, *rest = words
    if kind == "join":
        return Proposal(kind, items(who), rest=tuple(rest))
    if kind == "fail":
        pairs = [pair.split(":") for pair in items(who)]
        return Proposal(kind, tuple(it for it, _ in pairs), tuple(cause for _, cause in pairs))
    if kind == "reflect":
        return Proposal(kind, source=who, value=_value(*rest))
    asker, number = _request(who)
    if kind == "leave":
        return Proposal(kind, (asker,), asker=asker, number=number)
    if kind == "expel":
        return Proposal(kind, items(*rest), asker=asker, number=number)
    if kind in ("state", "message"):
        return Proposal(kind, asker=asker, number=number, value=_value(*rest))
    if kind == "attrs":
        return Proposal(kind, asker=asker, number=number, rest=tuple(rest))
    raise ValueError(kind)


def _entry(words: Sequence[str]) -> Entry:
    kind = words[0]
    if kind in ("once", "begin"):
        return Entry(kind, _proposal(words[1:]))
    if kind == "late":
        _, protocol, phase, late = words
        return Entry(kind, protocol=protocol, phase=int(phase), late=items(late))
    if kind == "reject":
        _, protocol, phase, rows = words
        return Entry(kind, protocol=protocol, phase=int(phase), rows=_rows(rows))
    if kind in ("phase", "approve"):
        _, protocol, phase, rows, value = words
        return Entry(kind, protocol=protocol, phase=int(phase), rows=_rows(rows), value=_maybe_value(value))
    raise ValueError(kind)


def _rows(word: str) -> tuple[tuple[str, str], ...]:
    rows = (row.split("=") for row in items(word))
    return tuple((provider, vote) for provider, vote in rows)


def _running(word: str) -> tuple[str, int] | None:
    if word == "-":
        return None
    protocol, phase = word.rsplit(":", 1)
    return protocol, int(phase)


def _vote(word: str) -> tuple[str, str | None]:
    return word[0], _value(word[1:]) if len(word) > 1 else None


def _fields(words: Iterable[str]) -> dict[str, str]:
    """The words NAME=VALUE of a status line, by their names."""
    return dict(word.split("=", 1) for word in words)


def _maybe_number(word: str) -> int | None:
    return None if word == "?" else int(word)


def _ring_status(words: list[str]) -> RingStatus:
    own = _fields(words[2:])
    return RingStatus(int(words[0]), words[1], _numbers(own["members"]), int(own["neighbour"]))


def _view_status(words: list[str]) -> ViewStatus:
    own = _fields(words[1:])
    return ViewStatus(words[0], int(own["coord"]), items(own["members"]), own["frozen"] == "yes")


def _group_status(words: list[str]) -> GroupStatus:
    own = _fields(words[1:])
    return GroupStatus(words[0], _maybe_number(own["leader"]), int(own["len"]), items(own["members"]), own["value"])


def _vote_status(words: list[str]) -> VoteStatus:
    own = _fields(words[2:])
    waiting = None if own["waiting"] == "?" else items(own["waiting"])
    return VoteStatus(words[0], words[1], int(own["phase"]), own["kind"], waiting)


def _daemon_status(words: list[str]) -> DaemonStatus:
    own = _fields(words[1:])
    return DaemonStatus(words[0], own["version"], own["settings"], *(int(own[it]) for it in DaemonStatus._fields[3:]))


def _client_status(words: list[str]) -> ClientStatus:
    own = _fields(words[1:])
    key, silent, unread = (None if own[it] == "-" else int(own[it]) for it in ("key", "silent", "unread"))
    return ClientStatus(words[0], key, silent, unread, items(own["members"]))


_STATUSES: dict[str, Callable[[list[str]], Shown]] = {"hats": _ring_status, "hagsns": _view_status, "hagsgr": _group_status, "hagsvote": _vote_status}
_OF_DAEMONS: dict[str, Callable[[list[str]], Status]] = {"hagsd": _daemon_status, "hagscl": _client_status}  # no line of a transcript shows these


def _status(words: Sequence[str]) -> Shown:
    return _STATUSES[words[0]](list(words[1:]))


def _read_put(node: str, view: str, group: str, place: str, *entry: str) -> Put:
    return Put(int(node), view, group, int(place), _entry(entry))


def _read_base(
    node: str, view: str, group: str, old_view: str, length: str, members: str, value: str, failed: str, running: str
) -> Base:
    state = items(members), _value(value), items(failed), _running(running)
    return Base(int(node), view, group, old_view, int(length), *state)


def _read_heard(provider: str, view: str, group: str, place: str, what: str, members: str, value: str) -> Heard:
    return Heard(provider, view, group, int(place), what, items(members), _value(value))


def _read_noted(client: str, view: str, group: str, place: str, members: str, value: str) -> Noted:
    at = None if place == "-" else int(place)
    return Noted(client, view, group, at, items(members), _value(value))


_READERS: dict[str, Callable[..., Record]] = {
    "up": lambda node, incarnation: Up(int(node), int(incarnation)),
    "down": lambda node: Down(int(node)),
    "ring": lambda node, net, ring, nodes, next_: Ring(int(node), int(net), ring, _numbers(nodes), int(next_)),
    "in": lambda node, view, members: In(int(node), view, items(members)),
    "base": _read_base,
    "put": _read_put,
    "heard": _read_heard,
    "cast": lambda provider, protocol, phase, vote: Cast(provider, protocol, int(phase), *_vote(vote)),
    "asked": lambda provider, request, group, kind: Asked(provider, int(request), group, kind),
    "told": lambda provider, request, code, *detail: Told(provider, int(request), code, tuple(detail)),
    "noted": _read_noted,
    "refused": lambda client, code, *detail: Refused(client, code, tuple(detail)),
    "show": lambda node, *status: Show(int(node), _status(status)),
}
KINDS = tuple(_READERS)


def read(line: str) -> Record:
    """The record of a line, which comes without its line feed."""
    kind, *words = line.split(" ")
    try:
        record = _READERS[kind](*words)
        record.node  # each record is of a node
        return record
    except (KeyError, ValueError, TypeError, IndexError) as error:
        raise NoRecord(f"no record of a transcript: {line}") from error


def kind_of(record: Record) -> str:
    return type(record).__name__.lower()


def read_view(line: str) -> ViewStatus:
    """What the line of `hags status hagsns` says."""
    view = read_status(line)
    if not isinstance(view, ViewStatus):
        raise NoRecord(f"no view: {line}")
    return view


def read_status(line: str) -> Status:
    """What a line of `hags status` says."""
    words = line.split(" ")
    try:
        return _OF_DAEMONS[words[0]](words[1:]) if words[0] in _OF_DAEMONS else _status(words)
    except (KeyError, ValueError, IndexError) as error:
        raise NoRecord(f"no line of a status: {line}") from error

