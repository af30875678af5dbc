"""Compares what the daemons of one cluster wrote.

Each life of a daemon has a transcript. Over all of them there is one list for each group and view, of which each node
has a front; and from that list and the base with which the view began follow the members and the value at each place. So
every line can be judged by the lists, whatever was lost on the network and whoever was killed."""
import pathlib
from collections import Counter, defaultdict
from collections.abc import Callable, Iterable
from dataclasses import dataclass, field
from functools import cached_property
from typing import Any

from hags_tools import records
from hags_tools.records import HOSTS, Proposal, member_of, view_order

Where = tuple[str, int]  # the name of a life, and the number of its line from 1
OfGroup = tuple[str, str]  # a view and a group
Begun = tuple[str, int, tuple[str, ...], str, tuple[str, ...], tuple[str, int] | None]  # what stands behind the group in a `base`
Ballot = tuple[str, str | None, int]  # a provider, a protocol and its phase


class Fault(Exception):
    """What a line of a transcript should not say. Where it contradicts another line, `other` is that: the name of its life
    and its number from 1."""

    def __init__(self, text: str, other: Where | None = None) -> None:
        super().__init__(text)
        self.other = other
        self.life: Life | None = None  # where it stands itself
        self.number = 0


@dataclass
class Life:
    """One life of a node's daemon, with the lines that it wrote to their ends. It may have ended at any moment."""

    node: int
    name: str
    lines: list[str]

    @staticmethod
    def read(node: int, file: pathlib.Path) -> "Life":
        return Life(node, file.name, file.read_text(encoding="ascii").split("\n")[:-1])

    @cached_property
    def member(self) -> str:
        """The node with its incarnation, as in the lists of members."""
        first = self.records[0][1] if self.records else None
        if not isinstance(first, records.Up) or first.node != self.node:
            raise Fault(f"{self.name}: does not begin with `up {self.node} ..`")
        return f"{first.node}.{first.incarnation}"

    @property
    def incarnation(self) -> int:
        return int(self.member.split(".")[1])

    @cached_property
    def records(self) -> list[tuple[int, records.Record]]:
        """The records of its lines, each with its number from 1."""
        found = []
        for number, line in enumerate(self.lines, 1):
            try:
                found.append((number, records.read(line)))
            except records.NoRecord as error:
                raise placed(Fault(str(error)), self, number) from error
        return found


@dataclass(frozen=True)
class State:
    """A group's state as far as transcripts show it."""

    members: tuple[str, ...] = ()
    value: str = ""
    protocol: str | None = None
    phase: int = 0
    proposal: Proposal = Proposal("none")
    proposed: str | None = None

    @property
    def joiners(self) -> tuple[str, ...]:
        return self.proposal.joiners if self.protocol else ()

    @property
    def running(self) -> tuple[str, int] | None:
        return (self.protocol, self.phase) if self.protocol else None

    def voters(self) -> list[str]:
        return [it for it in self.members if it not in self.proposal.leaving] + list(self.joiners)


def listed(members: Iterable[str]) -> str:
    return ",".join(members) or "-"


def after_effect(state: State, value: str | None) -> State:
    """The state after what runs was approved. It has this value where one was proposed."""
    proposal = state.proposal
    members = tuple(it for it in state.members if it not in proposal.leaving) + proposal.joiners
    return State(members, state.value if value is None else value)


def outcome_of(rows: Iterable[tuple[str, str]]) -> str:
    votes = {vote[-1] for _, vote in rows}
    return "reject" if "R" in votes else "phase" if "C" in votes else "approve"


def after_entry(state: State, view: str, place: int, entry: records.Entry) -> State:
    """The state after an entry at this place."""
    if entry.proposal:
        return after_beginning(state, f"{view}/{place}", entry.kind, entry.proposal)
    if (state.protocol, state.phase) != (entry.protocol, entry.phase):
        raise Fault(f"{state.protocol} runs in phase {state.phase}" if state.protocol else "nothing runs")
    if entry.kind == "late":
        return state
    if [provider for provider, _ in entry.rows] != state.voters():
        raise Fault(f"the voters are {listed(state.voters())}")
    outcome = outcome_of(entry.rows)
    if entry.kind != ("reject" if outcome == "phase" and state.phase == 200 else outcome):
        raise Fault("these rows have another outcome")
    if entry.kind == "reject":
        failed = state.proposal.leaving if state.proposal.kind == "fail" else ()
        return State(tuple(it for it in state.members if it not in failed), state.value)
    value = state.proposed if entry.value is None else entry.value
    if entry.kind == "phase":
        return State(state.members, state.value, state.protocol, state.phase + 1, state.proposal, value)
    return after_effect(state, value)


def after_beginning(state: State, protocol: str, kind: str, proposal: Proposal) -> State:
    if state.protocol:
        raise Fault(f"{state.protocol} runs already")
    if set(proposal.joiners) & set(state.members):
        raise Fault("a joiner is a member already")
    if not set(proposal.leaving) <= set(state.members):
        raise Fault("who leaves is no member")
    proposed = proposal.value if proposal.kind == "state" else None
    begun = State(state.members, state.value, protocol, 1, proposal, proposed)
    return begun if kind == "begin" else after_effect(begun, proposed)


@dataclass
class Shared:
    """What all lives have in common: each thing stands here as the first that wrote it has it."""

    members: dict[str, tuple[str, ...]] = field(default_factory=dict)  # of a view
    bases: dict[OfGroup, Begun] = field(default_factory=dict)
    entries: dict[OfGroup, dict[int, records.Entry]] = field(default_factory=lambda: defaultdict(dict))  # by place
    rings: dict[tuple[int, str], tuple[int, ...]] = field(default_factory=dict)  # of a network and ring
    groups: dict[str, list[str]] = field(default_factory=dict)  # of a view, the groups with a base
    left: dict[tuple[str, str], dict[str, int]] = field(default_factory=dict)  # of two views, the lengths of the lists that one left for the other
    views: dict[str, list[str]] = field(default_factory=lambda: defaultdict(list))  # by member, those that it entered, in their order
    opened: set[Ballot] = field(default_factory=set)  # the provider has heard that the phase began
    casts: dict[Ballot, str] = field(default_factory=dict)  # the vote
    counts: Counter[str] = field(default_factory=Counter)
    states: dict[OfGroup, list[State]] = field(default_factory=dict)  # after so many entries
    first: dict[tuple[int, object], Where] = field(default_factory=dict)  # of a thing, where the first that wrote it did
    here: Where = ("", 0)  # the life and the line that are read

    def agree(self, table: dict[Any, Any], key: object, value: object, what: str) -> None:
        known = table.setdefault(key, value)
        where = self.first.setdefault((id(table), key), self.here)
        if known != value:
            raise Fault(f"{where[0]}, line {where[1]}, has {what}", where)

    def view_before(self, member: str, view: str) -> str | None:
        """The view from which a member of a view answered, though it may not have entered it: its greatest one before."""
        before = [it for it in self.views[member] if view_order(it) < view_order(view)]
        return before[-1] if before else None

    def base_state(self, view: str, group: str) -> State:
        if (view, group) not in self.bases:
            return State()
        old_view, length, members, value, _, running = self.bases[view, group]
        if running is None:
            return State(members, value)
        before = self.state(old_view, group, length)
        return State(members, value, running[0], before.phase, before.proposal, before.proposed)

    def state(self, view: str, group: str, length: int) -> State:
        """The state after the first entries of a list."""
        states = self.states.setdefault((view, group), [])
        if not states:
            states.append(self.base_state(view, group))
        entries = self.entries[view, group]
        while len(states) <= length:
            place = len(states) - 1
            if place not in entries:
                raise Fault(f"nobody has put place {place} of {group} in {view}")
            try:
                states.append(after_entry(states[-1], view, place, entries[place]))
            except Fault as fault:
                raise Fault(f"place {place} of {group} in {view} does not fit: {fault}") from fault
        return states[length]


class Gathering:
    """Goes through a life for the first time, and gathers what all have in common."""

    def __init__(self, shared: Shared, life: Life) -> None:
        self.shared, self.life = shared, life
        self.view: str | None = None
        self.groups: list[str] | None = None
        self.lengths: Counter[OfGroup] = Counter()

    def read(self, record: records.Record) -> None:
        kind = records.kind_of(record)
        self.shared.counts[kind] += 1
        read = getattr(self, f"read_{kind}", None)
        if read:
            read(record)

    def end_bases(self) -> None:
        if self.groups is not None:
            self.shared.agree(self.shared.groups, self.view, sorted(self.groups), "other groups with a base")
        self.groups = None

    def read_in(self, record: records.In) -> None:
        self.end_bases()
        shared, view = self.shared, record.view
        if not {self.life.member, "{1}.{2}".format(*view.split("."))} <= set(record.members):
            raise Fault("the node or the coordinator is no member of the view")
        if self.view:
            if view_order(view) <= view_order(self.view):
                raise Fault(f"not above the node's view {self.view}")
            lengths = {group: length for (of, group), length in self.lengths.items() if of == self.view}
            shared.agree(shared.left, (self.view, view), lengths, "other lengths of the lists that it leaves")
        shared.agree(shared.members, view, record.members, "other members")
        self.view, self.groups = view, []
        shared.views[self.life.member].append(view)

    def read_base(self, record: records.Base) -> None:
        if record.view != self.view or self.groups is None or record.group in self.groups:
            raise Fault("does not follow the node's entering of that view, or comes again")
        self.groups.append(record.group)
        self.shared.agree(self.shared.bases, (record.view, record.group), record[3:], "another base")

    def read_put(self, record: records.Put) -> None:
        self.end_bases()
        if record.view != self.view:
            raise Fault(f"the node is in {self.view}")
        key = record.view, record.group
        if record.place != self.lengths[key]:
            raise Fault(f"the node has {self.lengths[key]} entries of that list")
        self.lengths[key] += 1
        self.shared.agree(self.shared.entries[key], record.place, record.entry, "another entry there")

    def read_ring(self, record: records.Ring) -> None:
        self.end_bases()
        leader = int(record.ring.split(".")[0])
        if not {self.life.node, record.neighbour, leader} <= set(record.nodes):
            raise Fault("the node, its neighbour or the leader is not in the ring")
        self.shared.agree(self.shared.rings, (record.network, record.ring), record.nodes, "other members")

    def read_heard(self, record: records.Heard) -> None:
        entry = self.shared.entries[record.view, record.group].get(record.place)
        if entry and entry.kind == "begin":
            self.shared.opened.add((record.provider, f"{record.view}/{record.place}", 1))
        if entry and entry.kind == "phase":
            self.shared.opened.add((record.provider, entry.protocol, entry.phase + 1))

    def read_cast(self, record: records.Cast) -> None:
        cast = record[:3]
        if cast in self.shared.casts or cast not in self.shared.opened:
            raise Fault("the provider has cast this vote, or has not heard that the phase began")
        self.shared.casts[cast] = record.vote


class Judging:
    """Goes through a life for the second time, and judges each line by what all have in common."""

    def __init__(self, shared: Shared, life: Life, may_have_gone: Callable[[str], bool]) -> None:
        self.shared, self.life, self.may_have_gone = shared, life, may_have_gone
        self.view: str | None = None
        self.lengths: Counter[OfGroup] = Counter()
        self.present: dict[str, set[str]] = defaultdict(set)  # of a group, the own providers that take part
        self.due: list[str] = []  # who hears the last entry, in order
        self.asked: dict[str, tuple[str, str]] = {}
        self.told: set[str] = set()
        self.begun: set[str] = set()

    def read(self, record: records.Record) -> None:
        kind = records.kind_of(record)
        if kind not in ("heard", "cast"):
            self.pass_over(len(self.due))
        read = getattr(self, f"read_{kind}", None)
        if not read and kind not in ("up", "ring", "cast", "refused"):
            raise Fault("no daemon writes such a line")
        if read:
            read(record)

    def pass_over(self, count: int) -> None:
        """So many of those who are due have not heard the last entry: they said goodbye, or something is wrong."""
        for provider in self.due[:count]:
            if not self.may_have_gone(provider):
                raise Fault(f"{provider} has not heard the entry before")
            for present in self.present.values():
                present.discard(provider)
        del self.due[:count]

    def read_in(self, record: records.In) -> None:
        self.view = record.view
        self.lengths.clear()
        gone = [group for group in self.present if (record.view, group) not in self.shared.bases]
        for group in gone:
            del self.present[group]
        for group in self.present:
            failed = self.shared.bases[record.view, group][4]
            state = self.shared.state(record.view, group, 0)
            self.present[group] &= {it for it in state.members + state.joiners if it not in failed}

    def read_base(self, record: records.Base) -> None:
        shared = self.shared
        state = shared.state(record.old_view, record.group, record.length)
        if (state.members, state.value, state.running) != (record.members, record.value, record.running):
            runs = state.protocol or "nothing"
            raise Fault(f"the old list has the members {listed(state.members)}, the value ={state.value} and runs {runs}")
        came = [it for it in shared.members[record.view] if shared.view_before(it, record.view) == record.old_view]
        if not came:
            raise Fault("no member came from the old view")
        dead = tuple(it for it in state.members + state.joiners if member_of(it) not in came)
        if dead != record.failed:
            raise Fault(f"failed are {listed(dead)}")

    def read_put(self, record: records.Put) -> None:
        view, group, place, entry = record[1:]
        before = self.shared.state(view, group, place)
        after = self.shared.state(view, group, place + 1)
        self.lengths[view, group] = place + 1
        if entry.proposal:
            self.begin(entry.proposal, group)
        self.judge_rows(entry)
        new = [it for it in after.joiners + after.members if it not in before.members + before.joiners]
        mine = self.present[group]
        mine |= {it for it in new if member_of(it) == self.life.member}
        order = dict.fromkeys([*before.members, *before.joiners, *new])
        self.due = [it for it in order if it in mine]
        what = f"{entry.kind}-{entry.proposal.kind}" if entry.proposal else entry.kind
        self.heard_now = (view, group, place, what, after.members, after.value)
        mine &= set(after.members + after.joiners)

    def begin(self, proposal: Proposal, group: str) -> None:
        """A request of this node begins once, as it was asked, and not after its refusal was told."""
        for request in proposal.requests:
            if member_of(request) != self.life.member:
                continue
            if self.asked.get(request) != (group, proposal.kind):
                raise Fault(f"{request} was not asked")
            if request in self.begun or request in self.told:
                raise Fault(f"{request} has begun or was refused")
            self.begun.add(request)

    def judge_rows(self, entry: records.Entry) -> None:
        """Each vote in an entry was cast. Where its provider's life ended before it wrote so, nothing can be said."""
        for provider, vote in entry.rows:
            key = (provider, entry.protocol, entry.phase)
            if len(vote) == 1 and self.shared.casts.get(key) != vote and key in self.shared.opened:
                raise Fault(f"{provider}={vote} was not cast")

    def read_heard(self, record: records.Heard) -> None:
        if record.provider not in self.due:
            raise Fault("the provider does not take part, or not in this order")
        self.pass_over(self.due.index(record.provider))
        self.due.pop(0)
        if record[1:] != self.heard_now:
            view, group, place, what, members, value = self.heard_now
            raise Fault(f"what was put there is {view} {group} {place} {what} {listed(members)} ={value}")

    def read_asked(self, record: records.Asked) -> None:
        request = f"{record.provider}/{record.request}"
        if member_of(record.provider) != self.life.member or request in self.asked:
            raise Fault("of another node, or asked already")
        self.asked[request] = (record.group, record.kind)

    def read_told(self, record: records.Told) -> None:
        request = f"{record.provider}/{record.request}"
        if record.request and (request not in self.asked or request in self.told or request in self.begun):
            raise Fault("was not asked, has begun or was told already")
        self.told.add(request)

    def read_noted(self, record: records.Noted) -> None:
        if record.group == HOSTS:
            wanted = (self.shared.members[record.view], "")
        else:
            state = self.shared.state(record.view, record.group, 0 if record.place is None else record.place + 1)
            wanted = (state.members, state.value)
        if record.view != self.view or (record.members, record.value) != wanted:
            raise Fault(f"the list has {listed(wanted[0])} ={wanted[1]}")


def begun_in(lives: Iterable[Life]) -> dict[str, set[str | None]]:
    """By request, as PROVIDER/NUMBER, the values with which it begins in the lists of these lives, None without one."""
    begun: dict[str, set[str | None]] = {}
    for life in lives:
        for _, record in life.records:
            if isinstance(record, records.Put) and (proposal := record.entry.proposal):
                for request in proposal.requests:
                    begun.setdefault(request, set()).add(proposal.value if proposal.kind == "state" else None)
    return begun


def lives_of(lines: Iterable[str]) -> list[Life]:
    """The lives in a transcript of several nodes, as `hags run` writes it, or several daemons' one after the other. What the
    script shows, that a node is down and what is refused there no daemon writes."""
    lives, current = [], {}
    for line in lines:
        record = records.read(line)
        if isinstance(record, records.Up):
            current[record.node] = Life(record.node, f"node-{record.node}.{record.incarnation}", [])
            lives.append(current[record.node])
        elif isinstance(record, records.Down):
            current.pop(record.node, None)
        elif isinstance(record, records.Show):
            continue
        if record.node in current:
            current[record.node].lines.append(line)
        elif not isinstance(record, records.Refused | records.Down):
            raise Fault(f"node {record.node} is not up: {line}")
    return lives


def placed(fault: Fault, life: Life, number: int) -> Fault:
    """The fault with the line where it stands."""
    found = Fault(f"{life.name}, line {number}: {life.lines[number - 1]}\n  {fault}", fault.other)
    found.life, found.number = life, number
    return found


def gone_through(shared: Shared, life: Life, reader: Gathering | Judging) -> None:
    for number, record in life.records:
        shared.here = (life.name, number)
        try:
            reader.read(record)
        except Fault as fault:
            raise placed(fault, life, number) from fault
        except KeyError as error:
            raise placed(Fault(f"names what no line before has: {error}"), life, number) from error


def nobody(provider: str) -> bool:
    """Of clients that say no goodbye: each of their providers hears all."""
    return False


def anybody(provider: str) -> bool:
    """Of clients that may all have said goodbye."""
    return True


def compare(lives: list[Life], may_have_gone: Callable[[str], bool] = nobody) -> Counter[str]:
    """Compares the lives of all nodes, each node's in their order, and counts their lines by kind. Raises Fault where
    they do not agree. A life's last step may be missing in part, as it is where its daemon was killed. Where a provider's
    client may have said goodbye, the provider may miss an entry, and then hears none of that group any more."""
    shared = Shared()
    last: dict[int, int] = {}
    lives = [life for life in lives if life.lines]
    for life in lives:
        if life.incarnation <= last.get(life.node, 0):
            raise Fault(f"{life.name}: the incarnation has not risen")
        last[life.node] = life.incarnation
        gone_through(shared, life, Gathering(shared, life))
    for life in lives:
        gone_through(shared, life, Judging(shared, life, may_have_gone))
    return shared.counts
