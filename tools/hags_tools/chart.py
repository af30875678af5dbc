"""What a picture of a run shows: the rows of its records, the arrows between them, and which views its nodes were in.

Everything is read off the records. An arrow joins two records that name the same thing: an entry at the node that put it
first and at another, a request and the entry that carries it, a ballot and the entry that counts it. It is no packet."""
import re
from collections.abc import Iterable
from dataclasses import dataclass, field

from hags_tools import playing, records

PROVIDER = re.compile(r"\b\d+\.\d+\.\d+\.\d+\b")
LONGEST_VALUE = 24

BLACK, GREY, NAVY = "#222222", "#6b6b6b", "#002a55"
RED, GREEN, BLUE, ORANGE = "#c00000", "#007000", "#0055cc", "#b85c00"
ENTRY_COLOURS = {"approve": GREEN, "reject": RED, "phase": BLUE, "late": ORANGE}
VOTE_COLOURS = {"A": GREEN, "C": BLUE, "R": RED}


@dataclass(frozen=True)
class Label:
    text: str
    colour: str = BLACK
    bold: bool = False
    size: float = 10.5


@dataclass
class Row:
    """A record as it is drawn: a mark on its node's line, with labels beside it. The places are set by the layout."""

    node: int
    mark: str
    colour: str = BLACK
    labels: list[Label] = field(default_factory=list)
    heard: bool = False
    view: str = ""
    order: int = 0
    shown: bool = True
    lines: list[Label] = field(default_factory=list)
    top: float = 0
    centre: float = 0
    bottom: float = 0


@dataclass(frozen=True)
class Arrow:
    kind: str
    source: Row
    target: Row


@dataclass
class Stay:
    """A node's stay in a view, or the time that it is up: from a row to another, or to the end."""

    node: int
    view: str
    first: Row
    last: Row | None = None


@dataclass
class Part:
    """A line of the script, or None for a transcript alone, with the rows of its records."""

    step: playing.Step | None
    rows: list[Row] = field(default_factory=list)


@dataclass(frozen=True)
class Choice:
    """What is shown: of which group alone, and whether rings are."""

    group: str | None = None
    rings: bool = True


def shortened(value: str) -> str:
    """A value behind its `=`, where it is long by its first bytes and its length."""
    if len(value) < LONGEST_VALUE:
        return f"={value}"
    return f"={value[:15]}.. ({len(records.bytes_of(value))} bytes)"


class Chart:
    """Reads the records of a run, one after another."""

    def __init__(self, choice: Choice) -> None:
        self.choice = choice
        self.parts: list[Part] = []
        self.arrows: list[Arrow] = []
        self.stays: list[Stay] = []
        self.lives: list[Stay] = []
        self.nodes: set[int] = set()
        self._count = 0
        self._names: dict[str, str] = {}
        self._group_of: dict[str, str] = {}
        self._stay: dict[int, Stay] = {}
        self._life: dict[int, Stay] = {}
        self._state: dict[tuple[int, str], tuple[tuple[str, ...], str]] = {}
        self._last_put: dict[tuple[int, str, str, int], Row] = {}
        self._first_put: dict[tuple[str, str, int], Row] = {}
        self._asked: dict[str, Row] = {}
        self._cast: dict[tuple[str, str | None, int], Row] = {}

    def add_step(self, step: playing.Step) -> None:
        """Adds a line of the script with its records; a step without a line is a piece of a transcript."""
        part = Part(step if step.line else None)
        self.parts.append(part)
        words = step.words()
        if words[:1] == ["node"]:
            self.nodes.add(int(words[1]))
        for line in step.records:
            try:
                record = records.read(line)
            except records.NoRecord as error:
                raise records.NoRecord(f"line {step.number}: {error}") from error
            self.nodes.add(record.node)
            self._learn_name(words, record)
            row = self._show(line) if isinstance(record, records.Show) else self._row(record)
            if row:
                row.order = self._count = self._count + 1
                part.rows.append(row)

    def _learn_name(self, call: list[str], record: records.Record) -> None:
        if isinstance(record, records.Asked) and record.kind == "join":
            self._group_of[record.provider] = record.group
            if call[:1] == ["join"]:
                self._names[record.provider] = call[1]

    def named(self, text: str) -> str:
        """The text with the names of clients in place of the ids of their providers."""
        return PROVIDER.sub(lambda found: self._names.get(found[0], found[0]), text)

    def listed(self, providers: Iterable[str]) -> str:
        return ",".join(self._names.get(it, it) for it in providers)

    def _is_shown(self, group: str | None) -> bool:
        """Is what is of this group shown? What is of no known group is."""
        return group is None or self.choice.group in (None, group)

    def _row(self, record: records.Record) -> Row | None:
        row: Row | None = getattr(self, f"_read_{records.kind_of(record)}")(record)
        return row

    def _read_up(self, record: records.Up) -> Row:
        row = Row(record.node, "up", GREEN, [Label(f"up, incarnation {record.incarnation}", GREEN)])
        self._life[record.node] = Stay(record.node, "", row)
        self.lives.append(self._life[record.node])
        return row

    def _read_down(self, record: records.Down) -> Row:
        row = Row(record.node, "down", RED, [Label("down", RED, bold=True)])
        for stays in (self._stay, self._life):
            if record.node in stays:
                stays.pop(record.node).last = row
        for key in [key for key in self._state if key[0] == record.node]:
            del self._state[key]
        return row

    def _read_ring(self, record: records.Ring) -> Row | None:
        if not self.choice.rings:
            return None
        nodes, leader = ",".join(map(str, record.nodes)), record.ring.split(".")[0]
        text = f"ring {record.network}: {{{nodes}}}, led by {leader}"
        return Row(record.node, "ring", GREY, [Label(text, GREY, size=8.5)])

    def _read_in(self, record: records.In) -> Row:
        node, view = record.node, record.view
        members = ",".join(str(records.node_of(member)) for member in record.members)
        row = Row(node, "view", NAVY, [Label(f"view {view} {{{members}}}", NAVY, bold=True)], view=view)
        if node in self._stay:
            self._stay[node].last = row
        self._stay[node] = Stay(node, view, row)
        self.stays.append(self._stay[node])
        return row

    def _read_base(self, record: records.Base) -> Row | None:
        if not self._is_shown(record.group):
            return None
        entries = "1 entry" if record.length == 1 else f"{record.length} entries"
        labels = [Label(f"{record.group} from {record.old_view} ({entries})", GREY, size=9.5)]
        if record.running:
            protocol, phase = record.running
            labels.append(Label(f"phase {phase} of {protocol} runs", GREY, size=9.5))
        if record.failed:
            labels.append(Label(f"failed: {self.listed(record.failed)}", RED, size=9.5))
        return Row(record.node, "none", GREY, labels + self._state_labels(record))

    def _read_put(self, record: records.Put) -> Row | None:
        if not self._is_shown(record.group):
            return None
        entry = record.entry
        colour = ENTRY_COLOURS.get(entry.kind, BLACK)
        text = f"{record.group}#{record.place} {self._entry_text(entry)}"
        row = Row(record.node, "put", colour, [Label(text, colour, bold=entry.kind in ("approve", "reject"))])
        key = record.view, record.group, record.place
        self._last_put[record.node, *key] = row
        if key in self._first_put:
            self.arrows.append(Arrow("entry", self._first_put[key], row))
        else:
            self._first_put[key] = row
            self._add_causes(entry, row)
        return row

    def _add_causes(self, entry: records.Entry, row: Row) -> None:
        """Arrows from the requests that an entry carries, and from the ballots that it counts."""
        for request in entry.proposal.requests if entry.proposal else ():
            if request in self._asked:
                self.arrows.append(Arrow("request", self._asked[request], row))
        for provider, vote in entry.rows:
            source = self._cast.get((provider, entry.protocol, entry.phase))
            if source and vote in VOTE_COLOURS:
                self.arrows.append(Arrow("vote", source, row))

    def _entry_text(self, entry: records.Entry) -> str:
        if entry.proposal:
            return ("begin " if entry.kind == "begin" else "") + self._proposal_text(entry.proposal)
        if entry.kind == "late":
            return f"late: {self.listed(entry.late)}"
        what = f"phase {entry.phase} ends:" if entry.kind == "phase" else entry.kind
        rows = ",".join(f"{self._names.get(provider, provider)}={vote}" for provider, vote in entry.rows)
        value = "" if entry.value is None else f" {shortened(entry.value)}"
        return what + (f" {rows}" if rows else "") + value

    def _proposal_text(self, proposal: records.Proposal) -> str:
        words = [proposal.kind]
        if proposal.kind in ("join", "expel"):
            words.append(self.listed(proposal.providers))
        elif proposal.kind == "fail":
            pairs = zip(proposal.providers, proposal.causes)
            words.append(",".join(f"{self._names.get(provider, provider)}:{cause}" for provider, cause in pairs))
        elif proposal.kind == "leave":
            words.append(self.listed(proposal.providers))
        words += proposal.rest
        if proposal.value is not None:
            words.append(shortened(proposal.value))
        if proposal.asker and proposal.kind != "leave":
            words += ["by", self._names.get(proposal.asker, proposal.asker)]
        return " ".join(words)

    def _state_labels(self, record: records.Base | records.Heard) -> list[Label]:
        """The members and the value, where they are not what was last shown of the group at the node."""
        key, state = (record.node, record.group), (record.members, record.value)
        if self._state.get(key, ((), "")) == state:
            return []
        self._state[key] = state
        return [Label(self._state_text(*state), GREY, size=9.5)]

    def _state_text(self, members: Iterable[str], value: str) -> str:
        return f"[{self.listed(members)}]" + (f" {shortened(value)}" if value else "")

    def _read_heard(self, record: records.Heard) -> None:
        row = self._last_put.get((record.node, record.view, record.group, record.place))
        if row and self._is_shown(record.group):
            row.heard = True
            row.labels += self._state_labels(record)

    def _read_cast(self, record: records.Cast) -> Row | None:
        if not self._is_shown(self._group_of.get(record.provider)):
            return None
        colour = VOTE_COLOURS[record.vote]
        value = "" if record.value is None else shortened(record.value)
        text = f"{self.listed([record.provider])} votes {record.vote}{value}"
        row = Row(record.node, "cast", colour, [Label(text, colour)])
        self._cast[record.provider, record.protocol, record.phase] = row
        return row

    def _read_asked(self, record: records.Asked) -> Row | None:
        if not self._is_shown(record.group):
            return None
        text = f"{self.listed([record.provider])} asks: {record.kind} {record.group}"
        row = Row(record.node, "asked", BLUE, [Label(text, BLUE)])
        self._asked[f"{record.provider}/{record.request}"] = row
        return row

    def _read_told(self, record: records.Told) -> Row | None:
        if not self._is_shown(self._group_of.get(record.provider)):
            return None
        text = f"told {self.listed([record.provider])}: {' '.join([record.code, *record.detail])}"
        return Row(record.node, "told", RED, [Label(text, RED, bold=True)])

    def _read_refused(self, record: records.Refused) -> Row:
        text = f"refused {record.name}: {' '.join([record.code, *record.detail])}"
        return Row(record.node, "told", RED, [Label(text, RED, bold=True)])

    def _read_noted(self, record: records.Noted) -> Row | None:
        if not self._is_shown(record.group):
            return None
        where = record.group if record.place is None else f"{record.group}#{record.place}"
        text = f"noted {record.name}: {where} {self._state_text(record.members, record.value)}"
        return Row(record.node, "none", GREY, [Label(text, GREY, size=9.5)])

    def _show(self, line: str) -> Row | None:
        _, node, *words = line.split(" ")
        if words[0] in ("hagsgr", "hagsvote") and not self._is_shown(words[1]):
            return None
        told, has_value, value = " ".join(words).partition(" value=")
        text = self.named(told) + (f" value{shortened(value)}" if has_value else "")
        return Row(int(node), "none", GREY, [Label(text, GREY, size=9)])
