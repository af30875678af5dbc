"""The settings of a cluster as a value: the file that its daemons read."""

from __future__ import annotations

import hashlib
import ipaddress
import os
from collections.abc import Callable, Sequence
from dataclasses import dataclass, field, replace
from pathlib import Path
from typing import NamedTuple

from .errors import BadSettings

NODES, NETWORKS, LAST_PORT = range(1, 33), range(1, 5), 65_000
DEFAULT_PORT = 12347


class Place(NamedTuple):
    """Where a daemon is heard: the network, and the address and the UDP port there."""

    network: int
    address: str
    port: int

    def __str__(self) -> str:
        return f"{self.address}:{self.port}"


class Adapter(NamedTuple):
    """A node's address on a network."""

    node: int
    network: int
    address: str


@dataclass(frozen=True)
class Settings:
    """What the daemons of a cluster, and all who ask them, have in common. `Settings.read(FILE)` reads it from the
    daemons' own file; it is a value, which compares equal where the settings say the same."""

    nodes: tuple[int, ...]  #: in the order of the file
    adapters: tuple[Adapter, ...] = ()  #: where there is none, node N has 10.1.0.N on network 1
    port: int = DEFAULT_PORT  #: node N listens at this number plus N
    heartbeat: tuple[int, int] = (1, 4)  #: ticks of 100 ms from one to the next, and how many are missed
    levels: tuple[tuple[int, int], ...] = ()  #: nodes that speak level 2, and from which incarnation on
    domain: int = 1
    digest: str = field(default="", compare=False)  #: of the lines that were read, as daemons say it

    @classmethod
    def read(cls, file: str | os.PathLike[str]) -> Settings:
        """Reads a file of settings. Raises OSError where it cannot be read, and BadSettings where it is none."""
        return cls.parse(Path(file).read_bytes().decode("ascii", errors="replace"))

    @classmethod
    def parse(cls, text: str) -> Settings:
        """Reads the lines of settings up to `begin`; what stands behind it is for daemons alone."""
        reading, lines = _Reading(), []
        for number, line in enumerate(text.split("\n"), 1):
            words = line.split()
            if words == ["begin"]:
                break
            if words and not line.startswith("#"):
                lines.append(words)
                try:
                    reading.take(*words)
                except _Bad as fault:
                    raise BadSettings(f"settings, line {number}, `{line.strip()}`: {fault}") from None
        return replace(reading.settings(), digest=_digest_of(lines))

    @property
    def majority(self) -> int:
        """How many nodes are more than half of them."""
        return len(self.nodes) // 2 + 1

    def places(self, node: int) -> tuple[Place, ...]:
        """Where the daemon of a node is heard, on each of its networks, the least first."""
        if node not in self.nodes:
            known = ", ".join(map(str, self.nodes)) or "none"
            raise BadSettings(f"the settings have no node {node}. Nodes there: {known}")
        own = sorted((it.network, it.address) for it in self.adapters if it.node == node)
        if not self.adapters:
            own = [(1, f"10.1.0.{node}")]
        if not own:
            raise BadSettings(f"the settings have no address of node {node}. Add `adapter {node} NETWORK A.B.C.D`")
        return tuple(Place(network, address, self.port + node) for network, address in own)


def _digest_of(lines: Sequence[Sequence[str]]) -> str:
    """What daemons call the digest of settings: of their lines in order, each with a blank between its words and a line
    feed behind them."""
    text = "".join(" ".join(words) + "\n" for words in lines)
    return hashlib.sha256(text.encode()).hexdigest()[:16]


class _Bad(Exception):
    """Why a line is none of settings."""


def _number(word: str, allowed: range, what: str) -> int:
    if not (word.isascii() and word.isdecimal()) or str(int(word)) != word or int(word) not in allowed:
        raise _Bad(f"{what} is a number from {allowed[0]:,} to {allowed[-1]:,}, not `{word}`")
    return int(word)


class _Reading:
    """The lines that were read so far."""

    def __init__(self) -> None:
        self.nodes: list[int] = []
        self.adapters: list[Adapter] = []
        self.levels: list[tuple[int, int]] = []
        self.port: int | None = None
        self.heartbeat: tuple[int, int] | None = None
        self.domain: int | None = None

    def take(self, kind: str, *words: str) -> None:
        forms: dict[str, tuple[str, Callable[..., None]]] = {
            "node": ("node N", self.take_node),
            "adapter": ("adapter N NETWORK A.B.C.D", self.take_adapter),
            "port": ("port P", self.take_port),
            "hb": ("hb F S", self.take_heartbeat),
            "level": ("level N J", self.take_level),
            "domain": ("domain D", self.take_domain),
            "mode": ("mode rings", self.take_mode),
        }
        if kind not in forms:
            raise _Bad(f"`{kind}` begins no line of settings. Lines: {', '.join(form for form, _ in forms.values())}")
        form, take = forms[kind]
        if len(words) != len(form.split()) - 1:
            raise _Bad(f"write `{form}`")
        take(*words)

    def take_node(self, node: str) -> None:
        number = _number(node, NODES, "a node")
        if number in self.nodes:
            raise _Bad(f"node {number} stands there already")
        self.nodes.append(number)

    def take_adapter(self, node: str, network: str, address: str) -> None:
        try:
            spelled = str(ipaddress.IPv4Address(address))
        except ValueError:
            raise _Bad(f"an address is four numbers from 0 to 255, as 10.1.0.3, not `{address}`") from None
        adapter = Adapter(_number(node, NODES, "a node"), _number(network, NETWORKS, "a network"), spelled)
        if any(adapter[1:] == it[1:] or adapter[:2] == it[:2] for it in self.adapters):
            raise _Bad("a node has one address on a network, and an address there is of one node")
        self.adapters.append(adapter)

    def take_port(self, port: str) -> None:
        if self.port is not None:
            raise _Bad("the port stands there already")
        self.port = _number(port, range(1, LAST_PORT + 1), "a port")

    def take_heartbeat(self, every: str, missed: str) -> None:
        if self.heartbeat is not None:
            raise _Bad("`hb` stands there already")
        self.heartbeat = _number(every, range(1, 101), "F"), _number(missed, range(2, 101), "S")

    def take_level(self, node: str, incarnation: str) -> None:
        self.levels.append((_number(node, NODES, "a node"), _number(incarnation, range(1, 2**32), "an incarnation")))

    def take_domain(self, domain: str) -> None:
        if self.domain is not None:
            raise _Bad("the domain stands there already")
        self.domain = _number(domain, range(1, 2**32), "a domain")

    def take_mode(self, mode: str) -> None:
        if mode != "rings":
            raise _Bad("daemons are in `mode rings` alone; leave the line out")

    def settings(self) -> Settings:
        if not self.nodes:
            raise BadSettings("the settings name no node. Write a line `node N` for each")
        for adapter in self.adapters:
            if adapter.node not in self.nodes:
                node = adapter.node
                raise BadSettings(f"the settings have an adapter of node {node}, and no line `node {node}`")
        port = DEFAULT_PORT if self.port is None else self.port
        heartbeat = (1, 4) if self.heartbeat is None else self.heartbeat
        domain = 1 if self.domain is None else self.domain
        return Settings(tuple(self.nodes), tuple(self.adapters), port, heartbeat, tuple(self.levels), domain)
