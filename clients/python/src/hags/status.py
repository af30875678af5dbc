"""What daemons say of themselves, as `hags status` asks it, of several at once and without a client."""

from __future__ import annotations

import select
import socket
import time
from collections.abc import Iterable
from contextlib import suppress
from functools import partial
from typing import NamedTuple

from .calls import one_of
from .events import Noted
from .ids import Host, Member, View, hosts_of, members_of
from .session import Question
from .settings import Settings
from .wire import QUESTIONS
from .words import value_of


class Network(NamedTuple):
    """What a daemon says of its ring on a network."""

    network: int
    ring: str
    members: tuple[int, ...]
    neighbour: int


class Nodes(NamedTuple):
    """What a daemon says of its view. One that is frozen has promised to go into another view, and changes nothing."""

    view: View
    coordinator: int
    hosts: tuple[Host, ...]
    is_frozen: bool


class Group(NamedTuple):
    """What a daemon says of a group. The leader is None where it is not known there."""

    name: str
    leader: int | None
    length: int
    members: tuple[Member, ...]
    value: bytes


class Vote(NamedTuple):
    """A vote that runs. Who has not voted is None where another node leads."""

    group: str
    proto: str
    phase: int
    kind: str
    waiting: tuple[Member, ...] | None


class Session(NamedTuple):
    """What a daemon says of one of its clients. Of one that its settings have, or an object of its program, the key and
    what goes with it is None."""

    name: str
    key: int | None
    silent: int | None  #: ticks of 0.1 seconds since something came from it
    unread: int | None  #: events that it has not heard yet
    members: tuple[Member, ...]


class Daemon(NamedTuple):
    """What a daemon says of itself. All counts are of its life."""

    node: int
    incarnation: int
    version: str
    settings: str  #: the digest of its settings; `Settings.digest` is that of a file here
    turns: int
    ticks: int
    received: int  #: datagrams
    strays: int  #: datagrams that were none of hags
    sent: int
    failed: int  #: sends that the system refused
    keys: int  #: clients on other machines that it keeps
    ended: int  #: those that it has ended, since they were silent


def _fields(words: list[str]) -> dict[str, str]:
    return dict(word.split("=", 1) for word in words)


def networks_of(lines: list[str]) -> list[Network]:
    found = []
    for line in lines:
        _, network, ring, *words = line.split(" ")
        fields = _fields(words)
        members = tuple(map(int, fields["members"].split(",")))
        found.append(Network(int(network), ring, members, int(fields["neighbour"])))
    return found


def nodes_of(lines: list[str]) -> Nodes:
    _, view, *words = lines[0].split(" ")
    fields = _fields(words)
    return Nodes(View.parse(view), int(fields["coord"]), hosts_of(fields["members"]), fields["frozen"] == "yes")


def groups_of(lines: list[str]) -> list[Group]:
    found = []
    for line in lines:
        _, name, *words = line.split(" ")
        fields = _fields(words)
        leader = None if fields["leader"] == "?" else int(fields["leader"])
        members = members_of(fields["members"])
        found.append(Group(name, leader, int(fields["len"]), members, value_of("=" + fields["value"])))
    return found


def noted_of(client: str, name: str, view: list[str], groups: list[str]) -> Noted | None:
    """How a group stands by the answers `hagsns` and `hagsgr` of one view, as it would be noted to this client. None
    where it is not there."""
    found = next((group for group in groups_of(groups) if group.name == name), None)
    if found is None:
        return None
    place = found.length - 1 if found.length else None
    return Noted(client, nodes_of(view).view, name, place, found.members, found.value)


def votes_of(lines: list[str]) -> list[Vote]:
    found = []
    for line in lines:
        _, name, proto, *words = line.split(" ")
        fields = _fields(words)
        waiting = None if fields["waiting"] == "?" else members_of(fields["waiting"])
        found.append(Vote(name, proto, int(fields["phase"]), fields["kind"], waiting))
    return found


def sessions_of(lines: list[str]) -> list[Session]:
    found = []
    for line in lines:
        _, name, *words = line.split(" ")
        fields = _fields(words)
        key, silent, unread = (None if fields[it] == "-" else int(fields[it]) for it in ("key", "silent", "unread"))
        found.append(Session(name, key, silent, unread, members_of(fields["members"])))
    return found


def daemon_of(lines: list[str]) -> Daemon:
    _, name, *words = lines[0].split(" ")
    fields, host = _fields(words), Host.parse(name)
    counts = (int(fields[it]) for it in Daemon._fields[4:])
    return Daemon(host.node, host.incarnation, fields["version"], fields["settings"], *counts)


def ask(settings: Settings, what: str, nodes: Iterable[int], seconds: float = 1.0) -> dict[int, list[str] | None]:
    """Asks the daemons of these nodes, all at once. Gives the lines of each answer, None where none came in so many
    seconds."""
    one_of("what to ask", what, QUESTIONS)
    answers: dict[int, list[str] | None] = {node: None for node in nodes}
    asking = [Question(node, settings.places(node), what, partial(answers.__setitem__, node)) for node in answers]
    end = time.monotonic() + seconds
    with socket.socket(socket.AF_INET, socket.SOCK_DGRAM) as opened:
        opened.setblocking(False)
        poll = select.poll()
        poll.register(opened, select.POLLIN)
        while asking and (now := time.monotonic()) < end:
            for question in asking:
                for place, datagram in question.datagrams(now):
                    with suppress(OSError):
                        opened.sendto(datagram, (place.address, place.port))
            poll.poll(max(0.0, min(end, *(it.due for it in asking)) - now) * 1000)
            with suppress(OSError):
                while True:
                    datagram = opened.recv(65536)
                    for question in asking:
                        question.take(datagram)
            asking = [it for it in asking if not it.is_answered]
    return answers


def view_of_all(settings: Settings, seconds: float = 1.0) -> dict[int, Nodes | None]:
    """The view of each node of the settings, as its daemon says it."""
    said = ask(settings, "hagsns", settings.nodes, seconds)
    return {node: nodes_of(lines) if lines else None for node, lines in said.items()}
