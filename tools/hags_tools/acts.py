"""What daemons did, act by act, as strace tells it, and one order of it in which nothing is received before it is sent."""
import collections
import heapq
import re
import struct
from collections.abc import Iterable
from dataclasses import dataclass, field

Piece = tuple[int, int, int, int]  # sender, incarnation, number, index
Place = tuple[int, int]  # of an act: its daemon, and where it stands there
HEAD = struct.Struct(">B2sBBIQII")  # a network, and the head of a piece
HEARTBEAT = 1
CALL = re.compile(r"(?:\d+ +)?(\d+\.\d+) (sendto|recvfrom)\(\d+, (?:\"([^\"]*)\")?.*= (-?\d+).*<(\d+\.\d+)>")


class Wrong(Exception):
    """There is no such order."""


class Unknown(Exception):
    """It could not look."""


@dataclass
class Act:
    """A receive, or the start, and what was sent behind it. `began` is when the receive was over."""

    daemon: int
    place: int
    began: float
    got: Piece | None = None
    sends: list[tuple[Piece | None, bool]] = field(default_factory=list)  # of each its piece, and whether it goes out in a tick


def piece_of(text: str) -> Piece | None:
    """Sender, incarnation, number and index of a piece, as strace writes its bytes; None for what is none."""
    data = bytes.fromhex(text.replace("\\x", "")) if text else b""
    if len(data) < HEAD.size or data[1:3] != b"RP":
        return None
    _, _, sender, _, incarnation, number, index, _ = HEAD.unpack_from(data)
    return sender, incarnation, number, index


def is_heartbeat(text: str) -> bool:
    """Is it the first piece of a HEARTBEAT, which nothing but a tick sends?"""
    data = bytes.fromhex(text.replace("\\x", ""))[HEAD.size :]
    return data[:2] == b"RG" and len(data) > 3 and data[3] == HEARTBEAT


def acts_of(daemon: int, lines: Iterable[str]) -> list[Act]:
    acts = [Act(daemon, 0, 0.0)]
    ticks = True  # behind the start, and behind a receive that brought nothing, only a tick sends
    for line in lines:
        call = CALL.match(line)
        if not call:
            continue
        began, name, text, result, took = call.groups()
        if name == "sendto":
            ticks = ticks or is_heartbeat(text)
            acts[-1].sends.append((piece_of(text), ticks))
        else:
            got = piece_of(text) if int(result) > 0 else None
            acts.append(Act(daemon, len(acts), float(began) + float(took), got))
            ticks = got is None
    return acts


def edges_of(acts: list[list[Act]], senders: dict[Piece, Place]) -> dict[Place, list[Place]]:
    """For each act those that come before it: its daemon's last, and the sender of what it received."""
    before = {}
    for own in acts:
        for act in own:
            before[act.daemon, act.place] = [(act.daemon, act.place - 1)] if act.place else []
            sender = senders.get(act.got) if act.got else None
            if sender:
                before[act.daemon, act.place].append(sender)
    return before


def ordered(before: dict[Place, list[Place]]) -> tuple[list[Place], list[Place]]:
    """An order of all, each behind those before it, and what is left that waits for each other."""
    waiting = {act: len(earlier) for act, earlier in before.items()}
    behind = collections.defaultdict(list)
    for act, earlier in before.items():
        for one in earlier:
            behind[one].append(act)
    free = [act for act, count in waiting.items() if not count]
    heapq.heapify(free)
    order = []
    while free:
        act = heapq.heappop(free)
        order.append(act)
        for later in behind[act]:
            waiting[later] -= 1
            if not waiting[later]:
                heapq.heappush(free, later)
    return order, [act for act, count in waiting.items() if count]


def knots(before: dict[Place, list[Place]]) -> tuple[int, int]:
    """How many sets of several wait for each other, and how many are in them (Tarjan, without recursion)."""
    index: dict[Place, int] = {}
    low: dict[Place, int] = {}
    on: set[Place] = set()
    stack: list[Place] = []
    sets: list[int] = []
    for root in before:
        if root in index:
            continue
        work = [(root, iter(before[root]))]
        index[root] = low[root] = len(index)
        stack.append(root)
        on.add(root)
        while work:
            node, left = work[-1]
            for one in left:
                if one not in index:
                    index[one] = low[one] = len(index)
                    stack.append(one)
                    on.add(one)
                    work.append((one, iter(before[one])))
                    break
                if one in on:
                    low[node] = min(low[node], index[one])
            else:
                work.pop()
                if work:
                    low[work[-1][0]] = min(low[work[-1][0]], low[node])
                if low[node] == index[node]:
                    found = []
                    while True:
                        one = stack.pop()
                        on.discard(one)
                        found.append(one)
                        if one == node:
                            break
                    sets.append(len(found))
    several = [size for size in sets if size > 1]
    return len(several), sum(several)


def found(traces: Iterable[Iterable[str]]) -> list[str]:
    """Says of the traces of daemons, each its lines, what order their acts have; raises Wrong where they have none."""
    acts = [acts_of(number, lines) for number, lines in enumerate(traces)]
    senders, turns = {}, {}
    for own in acts:
        for act in own:
            for piece, ticks in act.sends:
                if piece and piece[0]:
                    senders[piece] = (act.daemon, act.place)
                    # turn k is the tick before receive k, that receive, and its answers
                    turns[piece] = (act.daemon, act.place + ticks)
    received = [(act, act.got) for own in acts for act in own if act.got]
    known = [(act, got) for act, got in received if got in senders]
    if not known:
        raise Unknown("no daemon received what another sent")
    order, left = ordered(edges_of(acts, senders))
    if left:
        raise Wrong(f"{len(left)} acts wait for each other, the first {left[:5]}")
    place = {act: at for at, act in enumerate(order)}
    for act, got in known:
        sender = senders[got]
        if place[sender] >= place[act.daemon, act.place]:
            raise Wrong(f"{got} is received before it is sent")
        if acts[sender[0]][sender[1]].began >= act.began:
            raise Wrong(f"{got} is received before the act began that sent it")
    count, inside = knots(edges_of(acts, turns))
    return [
        f"order  {len(order)} acts of {len(acts)} daemons: {len(known)} of {len(received)} datagrams received are theirs",
        "times  an order of all acts as well",
        f"turns  {count} sets of whole turns wait for each other, {inside} turns in them",
    ]
