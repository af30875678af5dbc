"""Packets and pieces, written and read as docs/formats.md and docs/pieces.md say, apart from the program.

`is_packet` and `is_piece` say whether bytes are one. `samples` has a packet of each kind, at both levels where there are
two. Whatever is read raises NotSpelled where the bytes are no spelling."""
import struct
from collections.abc import Callable, Container, Sequence
from typing import Any, TypeVar

T = TypeVar("T")
View = tuple[int, int, int]
Provider = tuple[int, int, int, int]
KINDS = {
    1: "HEARTBEAT", 2: "PROCLAIM", 3: "JOIN", 4: "PTC", 5: "PTC_ACK", 6: "COMMIT", 7: "DEATH", 8: "REPORT",
    9: "PREPARE", 10: "ANSWER", 11: "REFUSE", 12: "INSTALL", 13: "TAKEN", 14: "LOOKUP", 15: "NAME", 16: "REQUEST",
    17: "TELL", 18: "ENTRY", 19: "ACK", 20: "VOTE", 21: "GONE", 22: "QUERY", 23: "REPLY",
}
GROUP_KINDS = range(14, 22)
NAME_BYTES = frozenset(b"abcdefghijklmnopqrstuvwxyzABCDEFGHIJKLMNOPQRSTUVWXYZ0123456789_-.")
JOIN, FAIL, EXPEL = 1, 3, 4
REJECT, LATE = 5, 6
PIECE_DATA = 1_176
MOST_PIECES = 60_000


class NotSpelled(Exception):
    """The bytes are no spelling of what is read."""


def need(holds: bool) -> None:
    if not holds:
        raise NotSpelled


class Fields:
    """What is left of bytes that are read field by field."""

    def __init__(self, left: bytes) -> None:
        self.left = left

    def part(self, length: int) -> bytes:
        need(len(self.left) >= length)
        part, self.left = self.left[:length], self.left[length:]
        return part

    def number(self, size: int) -> int:
        return int.from_bytes(self.part(size), "big")

    def one_of(self, numbers: Container[int]) -> int:
        number = self.number(1)
        need(number in numbers)
        return number

    def node(self) -> int:
        return self.one_of(range(1, 33))

    def data(self) -> bytes:
        return self.part(self.number(2))

    def name(self) -> bytes:
        name = self.part(self.number(1))
        need(1 <= len(name) <= 32 and NAME_BYTES.issuperset(name))
        return name

    def optional(self, read: Callable[[], T]) -> T | None:
        return read() if self.one_of((0, 1)) else None

    def view(self) -> View:
        return self.number(4), self.node(), self.number(4)

    ring = view

    def member(self) -> tuple[int, int]:
        return self.node(), self.number(4)

    def provider(self) -> Provider:
        return self.node(), self.number(4), self.number(2), self.number(4)

    def proto(self) -> tuple[View, int]:
        return self.view(), self.number(4)

    def items(self, read: Callable[[], T]) -> list[T]:
        return [read() for _ in range(self.number(1))]

    def different(self, read: Callable[[], T], fewest: int = 1) -> list[T]:
        """A list of so many to 64 items that differ."""
        items = self.items(read)
        need(fewest <= len(items) <= 64 and len(set(items)) == len(items))
        return items

    def attributes(self) -> None:
        self.one_of((1, 2)), self.one_of(range(4)), self.one_of((1, 3)), self.number(2)
        self.one_of((1, 2)), self.number(2), self.one_of((0,))
        if self.left[:1] == b"\0":
            self.part(1)
        else:
            self.name()

    def proposal(self) -> tuple[int, list[Provider]]:
        """The proposal's kind, and who joins by it."""
        kind = self.one_of(range(1, 9))
        joiners: list[Provider] = []
        if kind == JOIN:
            joiners = self.different(self.provider)
            self.attributes()
            self.optional(lambda: self.number(4))
        elif kind == FAIL:
            self.different(lambda: (self.provider(), self.one_of((1, 2, 3))))
        elif kind == 8:
            self.view(), self.number(4), self.data()
        else:
            self.provider(), self.number(4)
            if kind == EXPEL:
                self.different(self.provider)
            elif kind in (5, 6):
                self.data()
            elif kind == 7:
                self.attributes()
        return kind, joiners

    def entry(self) -> None:
        kind = self.one_of(range(1, 7))
        if kind <= 2:
            self.proposal()
            return
        self.proto(), self.number(2)
        if kind == LATE:
            self.different(self.provider)
            return
        self.items(lambda: (self.provider(), self.one_of(range(1, 8))))
        value = self.optional(self.data)
        need(kind != REJECT or value is None)
        self.optional(self.data)

    def running(self) -> list[Provider]:
        """Who joins by what runs."""
        self.proto()
        need(1 <= self.number(2) <= 200)
        _, joiners = self.proposal()
        self.optional(self.data)
        return joiners

    def state(self) -> None:
        members = self.different(self.provider, fewest=0)
        self.data()
        self.attributes()
        failed = self.different(self.provider, fewest=0)
        self.optional(self.proto), self.optional(self.proto)
        joiners = self.optional(self.running) or []
        need(not set(members) & set(joiners) and len(members) + len(joiners) <= 64)
        need(set(failed) <= set(members) | set(joiners))

    def part_of_group(self) -> bytes:
        name, start = self.name(), self.number(4)
        self.state()
        count = self.number(4)
        need(start + count < 1 << 32)
        for _ in range(count):
            entry = Fields(self.part(self.number(4)))
            entry.entry()
            need(not entry.left)
        return name

    def groups(self) -> None:
        need_ascending(self.items(self.part_of_group))

    def source(self) -> tuple[View, int]:
        view, mask = self.view(), self.number(4)
        self.groups()
        return view, mask

    def answer(self) -> None:
        self.view(), self.view()
        self.groups()

    def appended(self) -> None:
        self.view(), self.name(), self.number(8)
        self.entry()

    def install(self) -> None:
        self.view()
        members = self.items(self.member)
        need_ascending([node for node, _ in members])
        sources = self.items(self.source)
        need_ascending([view for view, _ in sources])
        masks = sum(mask for _, mask in sources)
        need(masks == sum(1 << node - 1 for node, _ in members))
        need(sum(mask.bit_count() for _, mask in sources) == len(members))

    def request(self) -> None:
        self.view(), self.name(), self.provider(), self.number(4)
        phases = self.one_of((1, 2))
        kind, _ = self.proposal()
        need(phases == 1 or kind != JOIN)

    def tell(self) -> None:
        self.view(), self.name(), self.provider(), self.number(4)
        code = self.one_of((7, 9, 10, 12, 13, 15, 16))
        if code == 12:
            self.proto()
        self.part({13: 4, 15: 8, 16: 4}.get(code, 0))

    def vote(self) -> None:
        self.view(), self.name(), self.proto(), self.number(2), self.provider(), self.one_of((1, 2, 3))
        self.optional(self.data), self.optional(self.data)

    def body(self, kind: int) -> None:
        readers: dict[int, Callable[[], object]] = {
            1: self.ring, 2: self.ring, 5: self.ring, 13: self.view, 12: self.install,
            16: self.request, 17: self.tell, 20: self.vote,
            3: lambda: self.number(4),
            4: lambda: (self.ring(), self.number(4)),
            6: lambda: (self.ring(), self.number(4)),
            7: lambda: (self.ring(), self.node()),
            8: lambda: need_ascending([row[0] for row in self.items(lambda: (self.node(), self.part(12)))]),
            9: lambda: (self.view(), self.number(4)),
            10: self.answer,
            11: lambda: (self.view(), self.number(4)),
            14: lambda: (self.view(), self.name()),
            15: lambda: (self.view(), self.name(), self.one_of(range(33))),
            18: self.appended,
            19: lambda: (self.view(), self.name(), self.number(4)),
            21: lambda: (self.view(), self.name(), self.provider()),
            22: lambda: (self.number(4), self.one_of((1, 2, 3, 4))),
            23: lambda: (self.number(4), self.part(len(self.left))),
        }
        readers[kind]()


def need_ascending(keys: Sequence[Any]) -> None:
    need(all(before < after for before, after in zip(keys, keys[1:])))


def read_packet(data: bytes) -> None:
    fields = Fields(data)
    need(fields.part(2) == b"RG")
    level, kind = fields.one_of((1, 2)), fields.one_of(KINDS)
    need(level == 1 or kind in GROUP_KINDS)
    fields.one_of((1, 2, 3, 4))
    sender = fields.one_of(range(33))
    fields.one_of(range(33)), fields.one_of((0,))
    need((sender == 0) == (fields.number(4) == 0))
    length = fields.number(4)
    need(level == 1 or fields.number(4) >= 1)
    need(len(fields.left) == length)
    fields.body(kind)
    need(not fields.left)


def is_packet(data: bytes) -> bool:
    try:
        read_packet(data)
    except NotSpelled:
        return False
    return True


def is_piece(data: bytes) -> bool:
    if len(data) < 25 or data[:2] != b"RP" or data[2] > 32 or data[3]:
        return False
    index, count = struct.unpack(">II", data[16:24])
    if not 1 <= count <= MOST_PIECES or index >= count:
        return False
    length = len(data) - 24
    return length <= PIECE_DATA if index == count - 1 else length == PIECE_DATA


# ---- what is written


def packet(
    kind: int, body: bytes, sender: int, receiver: int, incarnation: int, network: int = 1, domain: int | None = None
) -> bytes:
    """A packet of level 2 where a domain is named, else of level 1."""
    level = 1 if domain is None else 2
    head = struct.pack(">2sBBBBBBII", b"RG", level, kind, network, sender, receiver, 0, incarnation, len(body))
    return head + (b"" if domain is None else struct.pack(">I", domain)) + body


def pieces(sender: int, incarnation: int, number: int, message: bytes) -> list[bytes]:
    """The pieces of a message that is not empty."""
    parts = [message[at : at + PIECE_DATA] for at in range(0, len(message), PIECE_DATA)]
    head = struct.pack(">2sBBIQ", b"RP", sender, 0, incarnation, number)
    return [head + struct.pack(">II", index, len(parts)) + part for index, part in enumerate(parts)]


def datagram(piece: bytes, network: int = 1) -> bytes:
    """What is on the wire: a byte for the network goes before."""
    return bytes([network]) + piece


def view(number: int, node: int, incarnation: int) -> bytes:
    """Of a view and of a ring."""
    return struct.pack(">IBI", number, node, incarnation)


def provider(node: int, incarnation: int, instance: int, join: int) -> bytes:
    return struct.pack(">BIHI", node, incarnation, instance, join)


def name(word: bytes) -> bytes:
    return bytes([len(word)]) + word


def text(value: bytes) -> bytes:
    return struct.pack(">H", len(value)) + value


def question(number: int, what: int, node: int) -> bytes:
    """The datagram by which a status client asks a node."""
    asked = packet(22, struct.pack(">IB", number, what), 0, node, 0)
    return datagram(pieces(0, 0, 1, asked)[0])


def session(node: int, key: int, number: int) -> bytes:
    """The datagram by which a client on another machine begins at a node. The numbers of such have to rise."""
    line = b"client %d n%d -" % (node, key)
    up = b"RS\1\0" + struct.pack(">IIIH", key, 1, 0, len(line)) + line
    return datagram(pieces(0, 0, number, up)[0])


def samples(sender: int, incarnation: int, receiver: int, peer: int, of_view: bytes | None = None) -> dict[str, bytes]:
    """A packet of each kind from a node to another, named by kind and level. `peer` is the receiver's incarnation. What
    they say is of a group db in this view, which is 2.S.I of the sender where none is named, and of a ring that it
    leads."""
    ring, of_view = view(3, sender, incarnation), of_view or view(2, sender, incarnation)
    group = of_view + name(b"db")
    who, other = provider(sender, incarnation, 7, 1), provider(receiver, peer, 8, 2)
    attributes = bytes([2, 1, 3, 0, 9, 1, 0, 3, 0]) + name(b"disk")
    join = b"\1\1" + who + attributes + b"\1" + struct.pack(">I", 5)
    once = b"\1\2" + who + struct.pack(">I", 2)
    proto = of_view + bytes(4)
    change = b"\5" + who + struct.pack(">I", 3) + text(b"up")
    running = proto + b"\0\1" + change + b"\1" + text(b"up")
    state = b"\2" + who + other + text(b"red") + attributes + b"\1" + who + b"\1" + proto + b"\0\1" + running
    part = name(b"db") + bytes(4) + state + struct.pack(">II", 1, len(once)) + once
    nodes = sorted({(sender, incarnation), (receiver, peer)})
    members = bytes([len(nodes)]) + b"".join(struct.pack(">BI", *it) for it in nodes)
    mask = struct.pack(">I", sum(1 << node - 1 for node, _ in nodes))
    rows = bytes([len(nodes)]) + b"".join(struct.pack(">BII", node, number, 9) + mask for node, number in nodes)
    approve = b"\4" + proto + b"\0\1\2" + who + b"\1" + other + b"\4" + b"\1" + text(b"up") + b"\0"
    bodies = {
        1: ring, 2: ring, 3: mask, 4: ring + mask, 5: ring, 6: ring + mask, 7: ring + bytes([receiver]), 8: rows,
        9: of_view + mask, 10: of_view + view(1, 1, 1) + b"\1" + part, 11: of_view + struct.pack(">I", 9),
        12: of_view + members + b"\1" + view(1, 1, 1) + mask + b"\1" + part, 13: of_view, 14: group,
        15: group + bytes([sender]), 16: group + who + struct.pack(">I", 1) + b"\1" + join,
        17: group + who + struct.pack(">I", 1) + b"\x0c" + proto, 18: group + bytes(8) + approve,
        19: group + struct.pack(">I", 1),
        20: group + proto + b"\0\1" + who + b"\2" + b"\1" + text(b"up") + b"\1" + text(b"hi"), 21: group + who,
        22: struct.pack(">IB", 7, 3), 23: struct.pack(">I", 7) + b"hags 1\n",
    }
    found = {}
    for kind, body in bodies.items():
        found[f"{KINDS[kind]} 1"] = packet(kind, body, sender, receiver, incarnation)
        if kind in GROUP_KINDS:
            found[f"{KINDS[kind]} 2"] = packet(kind, body, sender, receiver, incarnation, domain=1)
    return found
