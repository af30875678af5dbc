"""What Prometheus is told of the daemons of this machine, from `hags status` and /proc alone.

A `Watch` looks at one daemon again and again, since how long something lasts, and how often something changed, is seen in no
single answer. An older daemon does not answer what is asked of itself (`hagsd`, `hagscl`): then what these have is not told,
and it is not asked again until it was started anew."""
import os
import pathlib
import time
from collections.abc import Hashable, Iterable, Iterator
from typing import Any, NamedTuple

from hags_tools import asking, reading, records, sockets
from hags_tools.programs import Program

Sample = tuple[str, dict[str, str], float]  # a name, labels and a number
Thing = Hashable  # what lasts, by its name
TURNS = 50  # of 20 milliseconds, for an answer
PROC = pathlib.Path("/proc")
TICKS, PAGE = os.sysconf("SC_CLK_TCK"), os.sysconf("SC_PAGE_SIZE")
PARENT, USER_TIME, SYSTEM_TIME, BEGAN, RESIDENT = 1, 11, 12, 19, 21  # words of /proc/PID/stat, from the state on
TICKS_OF_A_SECOND = 10  # of a daemon
LASTING, TURNS_UNTOLD = 2**64 - 1, 2**32 - 1  # turns of a daemon with --lasting, and of one that was told nothing


class Metric(NamedTuple):
    """A name, its kind for Prometheus, and what it is."""

    name: str
    kind: str
    help: str


METRICS = (
    Metric("hags_up", "gauge", "1 where the daemon answers hags status, else 0"),
    Metric("hags_answer_seconds", "gauge", "how long its answers to all questions took"),
    Metric("hags_nodes", "gauge", "nodes in the settings"),
    Metric("hags_view_number", "gauge", "the number of its view"),
    Metric("hags_view_members", "gauge", "members of its view"),
    Metric("hags_view_info", "gauge", "1; its view is a label, so that the views of nodes can be compared"),
    Metric("hags_view_frozen_seconds", "gauge", "for how long it has been seen frozen, 0 where it is not"),
    Metric("hags_view_apart_seconds", "gauge", "for how long its view has lacked a node that a ring of it has, 0 where it lacks none"),
    Metric("hags_views_entered_total", "counter", "views that it was seen to enter, at least"),
    Metric("hags_ring_members", "gauge", "nodes in its ring of a network"),
    Metric("hags_rings_formed_total", "counter", "rings that it was seen in, at least, by the numbers of rings"),
    Metric("hags_groups", "gauge", "groups of which it holds a list"),
    Metric("hags_group_members", "gauge", "members of a group"),
    Metric("hags_group_entries", "gauge", "entries of a group's list in this view; at 4,096 the list is full"),
    Metric("hags_group_value_bytes", "gauge", "bytes of a group's value"),
    Metric("hags_vote_seconds", "gauge", "for how long this phase of a vote has been seen"),
    Metric("hags_daemon_info", "gauge", "1; its version and the digest of its settings are labels, so that those of nodes can be compared"),
    Metric("hags_sessions", "gauge", "clients on other machines that it keeps, of 1,024 at most"),
    Metric("hags_sessions_ended_total", "counter", "sessions that it has ended, since their clients were silent"),
    Metric("hags_client_silent_seconds", "gauge", "for how long nothing came of a client"),
    Metric("hags_client_unread_events", "gauge", "events that it keeps for a client, which has not heard them"),
    Metric("hags_turns_total", "counter", "turns that it has done"),
    Metric("hags_turns_left", "gauge", "turns until it ends, by the words that it was started with"),
    Metric("hags_ticks_total", "counter", "ticks of its node"),
    Metric("hags_datagrams_received_total", "counter", "datagrams that it has received"),
    Metric("hags_strays_total", "counter", "datagrams among them that brought no message and were no piece of one"),
    Metric("hags_receives_failed_total", "counter", "receives that failed; after 16 in a row it ends"),
    Metric("hags_datagrams_sent_total", "counter", "datagrams that it has sent"),
    Metric("hags_socket_dropped_total", "counter", "datagrams for which its socket had no room"),
    Metric("hags_socket_waiting_bytes", "gauge", "bytes that its socket holds and it has not taken yet"),
    Metric("hags_process_up", "gauge", "1 where there is a process of the daemon, else 0"),
    Metric("hags_pauses_total", "counter", "times that its supervisor was seen to start it anew, as it does after a pause"),
    Metric("hags_process_cpu_seconds_total", "counter", "processor time of the process"),
    Metric("hags_process_resident_bytes", "gauge", "memory of the process"),
    Metric("hags_process_start_seconds", "gauge", "when the process began, in seconds since 1970"),
    Metric("hags_receive_buffer_errors_total", "counter", "datagrams for which a UDP socket of this machine had no room"),
)


class Lasting:
    """Since when a thing is as it is, by its name."""

    def __init__(self) -> None:
        self.since: dict[Thing, float] = {}

    def seconds(self, names: set[Thing], now: float) -> dict[Thing, float]:
        """For how long each of these has been there without a break."""
        self.since = {name: self.since.get(name, now) for name in names}
        return {name: now - since for name, since in self.since.items()}


class Watch:
    """Looks at the daemon of a node on this machine."""

    def __init__(self, program: Program, settings: reading.Settings, data: bytes, node: int) -> None:
        self.program, self.settings, self.data, self.node = program, settings, data, node
        self.view: str | None = None
        self.entered = 0
        self.rings: dict[int, tuple[str, int]] = {}
        self.formed: dict[int, int] = {}
        self.lasting = Lasting()
        self.began: dict[str, str] = {}  # by the parent of a daemon, when that daemon began
        self.pauses = 0
        self.mute: str | None = None  # the daemon, as NODE.INC, that did not answer what it was asked of itself
        self.samples: list[Sample] = []

    def look(self) -> None:
        """Looks once, and keeps what is told: a name, labels and a number each."""
        began = time.monotonic()
        views, rings = self.ask("hagsns"), self.ask("hats")
        is_up = bool(views) and rings is not None
        answers = {"hagsns": views or [], "hats": rings or []}
        if is_up:
            answers |= {what: self.ask(what) or [] for what in ("hagsgr", "hagsvote")}
            answers |= self.of_itself(answers["hagsns"][0])
        now = time.monotonic()
        found: list[Sample] = [("hags_up", {}, int(is_up)), ("hags_nodes", {}, len(self.settings.nodes))]
        found += self.of_machine()
        if is_up:
            found.append(("hags_answer_seconds", {}, now - began))
            found += self.of_daemon(answers, now)
        self.samples = [(name, {"node": str(self.node), **labels}, number) for name, labels, number in found]

    def ask(self, what: str) -> list[Any] | None:
        return asking.ask(self.program, what, self.node, self.data, TURNS)

    def of_itself(self, view: records.ViewStatus) -> dict[str, list[Any]]:
        """What the daemon says of itself, where it does."""
        member = next((it for it in view.members if records.node_of(it) == self.node), None)
        said = None if member == self.mute else self.ask("hagsd")
        self.mute = None if said else member
        return {"hagsd": said, "hagscl": self.ask("hagscl") or []} if said else {}

    def of_daemon(self, answers: dict[str, list[Any]], now: float) -> Iterator[Sample]:
        view, rings = answers["hagsns"][0], answers["hats"]
        self.entered += view.view != self.view
        self.view = view.view
        in_rings = {node for ring in rings for node in ring.members}
        in_view = {int(member.split(".")[0]) for member in view.members}
        phases = {(vote.group, vote.protocol, vote.phase) for vote in answers["hagsvote"]}
        states = {"frozen": view.frozen, "apart": bool(in_rings - in_view)}
        lasts = self.lasting.seconds({name for name, holds in states.items() if holds} | phases, now)
        yield "hags_view_number", {}, int(view.view.split(".")[0])
        yield "hags_view_members", {}, len(view.members)
        yield "hags_view_info", {"view": view.view}, 1
        yield "hags_view_frozen_seconds", {}, lasts.get("frozen", 0)
        yield "hags_view_apart_seconds", {}, lasts.get("apart", 0)
        yield "hags_views_entered_total", {}, self.entered
        for ring in rings:
            self.note_ring(ring)
            yield "hags_ring_members", {"network": str(ring.network)}, len(ring.members)
            yield "hags_rings_formed_total", {"network": str(ring.network)}, self.formed[ring.network]
        yield "hags_groups", {}, len(answers["hagsgr"])
        for group in answers["hagsgr"]:
            yield "hags_group_members", {"group": group.group}, len(group.members)
            yield "hags_group_entries", {"group": group.group}, group.length
            yield "hags_group_value_bytes", {"group": group.group}, len(group.value) - 2 * group.value.count("%")
        for group, protocol, phase in phases:
            yield "hags_vote_seconds", {"group": group}, lasts[group, protocol, phase]
        for said in answers.get("hagsd", ()):
            yield from of_counts(said, self.turns_told())
        for client in answers.get("hagscl", ()):
            if client.key is not None:
                yield "hags_client_silent_seconds", {"client": client.name}, client.silent / TICKS_OF_A_SECOND
                yield "hags_client_unread_events", {"client": client.name}, client.unread

    def turns_told(self) -> int | None:
        """How many turns the daemon was started for; None where that is not seen."""
        process = process_of(self.settings.port + self.node, self.node)
        words = words_of(process) if process else []
        if b"--lasting" in words:
            return LASTING
        told = [int(after) for word, after in zip(words, words[1:]) if word == b"--turns" and after.isdigit()]
        return told[0] if told else TURNS_UNTOLD if words else None

    def note_ring(self, ring: records.RingStatus) -> None:
        """Counts the rings since the last look: those of one leader are numbered one after another."""
        leader, number = ring.ring.rsplit(".", 1)
        before = self.rings.get(ring.network)
        more = int(number) - before[1] if before and before[0] == leader else 1
        self.formed[ring.network] = self.formed.get(ring.network, 0) + max(more, 0)
        self.rings[ring.network] = leader, int(number)

    def of_machine(self) -> Iterator[Sample]:
        port = self.settings.port + self.node
        for socket in sockets.at_port(port)[:1]:
            yield "hags_socket_dropped_total", {}, socket.dropped
            yield "hags_socket_waiting_bytes", {}, socket.waiting
        process = process_of(port, self.node)
        words = stat_of(process) if process else []
        self.note_process(words)
        yield "hags_process_up", {}, int(bool(words))
        yield "hags_pauses_total", {}, self.pauses
        if words:
            yield from of_process(words)

    def note_process(self, words: list[str]) -> None:
        """Counts another daemon of the same supervisor: that one starts it anew after a pause alone, else it ends too."""
        if not words:
            return
        parent, began = words[PARENT], words[BEGAN]
        before = self.began.setdefault(parent, began)
        self.began[parent] = began
        if before != began and b"--supervise" in words_of(PROC / parent):
            self.pauses += 1


def of_counts(said: records.DaemonStatus, turns: int | None) -> Iterator[Sample]:
    """What a daemon has counted, of so many turns for which it was started."""
    yield "hags_daemon_info", {"version": said.version, "settings": said.settings}, 1
    yield "hags_sessions", {}, said.keys
    yield "hags_sessions_ended_total", {}, said.ended
    yield "hags_turns_total", {}, said.turns
    if turns is not None:
        yield "hags_turns_left", {}, max(0, turns - said.turns)
    yield "hags_ticks_total", {}, said.ticks
    yield "hags_datagrams_received_total", {}, said.received
    yield "hags_strays_total", {}, said.strays
    yield "hags_receives_failed_total", {}, said.failed
    yield "hags_datagrams_sent_total", {}, said.sent


def process_of(port: int, node: int) -> pathlib.Path | None:
    """The folder under /proc of the process that has the port; where one may not see whose that is, of one that was started as
    the daemon of the node."""
    if not sockets.at_port(port):
        return None
    holder = sockets.holder(port)
    if holder:
        return PROC / str(holder.process)
    for folder in PROC.iterdir():
        if folder.name.isdigit() and is_daemon(folder, node):
            return folder
    return None


def words_of(folder: pathlib.Path) -> list[bytes]:
    """The words that started the process of this folder."""
    try:
        return (folder / "cmdline").read_bytes().split(b"\0")
    except OSError:
        return []


def is_daemon(folder: pathlib.Path, node: int) -> bool:
    words = words_of(folder)
    return words[1:2] == [b"daemon"] and any(pair == (b"--node", b"%d" % node) for pair in zip(words, words[1:]))


def stat_of(folder: pathlib.Path) -> list[str]:
    """What the system says of the process of this folder, in words from its state on; none where it has ended."""
    try:
        return (folder / "stat").read_text().rsplit(")", 1)[1].split()
    except OSError:
        return []


def of_process(words: list[str]) -> Iterator[Sample]:
    booted = next(int(line.split()[1]) for line in (PROC / "stat").read_text().splitlines() if line.startswith("btime"))
    yield "hags_process_cpu_seconds_total", {}, (int(words[USER_TIME]) + int(words[SYSTEM_TIME])) / TICKS
    yield "hags_process_resident_bytes", {}, int(words[RESIDENT]) * PAGE
    yield "hags_process_start_seconds", {}, booted + int(words[BEGAN]) / TICKS


def receive_buffer_errors() -> int:
    names, numbers = [line.split() for line in (PROC / "net" / "snmp").read_text().splitlines() if line.startswith("Udp:")]
    return int(dict(zip(names, numbers))["RcvbufErrors"])


def text_of(samples: Iterable[Sample]) -> str:
    """The text of Prometheus: each metric with what it is, and its samples."""
    lines = []
    for metric in METRICS:
        own = [(labels, number) for name, labels, number in samples if name == metric.name]
        if own:
            lines += [f"# HELP {metric.name} {metric.help}", f"# TYPE {metric.name} {metric.kind}"]
        for labels, number in own:
            shown = ",".join(f'{name}="{value}"' for name, value in labels.items())
            lines.append(f"{metric.name}{{{shown}}} {round(number, 3)}" if shown else f"{metric.name} {number}")
    return "\n".join(lines) + "\n"
