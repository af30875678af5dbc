"""The bytes of client sessions, as docs/remote-sessions.md and docs/pieces.md have them: Ups and Downs, the questions
of `hags status`, and the pieces that carry them."""

from __future__ import annotations

import struct
from typing import NamedTuple

TAKEN, FULL = 1, 3  # answers of a Down
MOST_EVENTS = 16  # in one Down
LONGEST_MESSAGE = 65_536
_OF_THE_NODE, _OF_ITSELF = ("hats", "hagsns", "hagsgr", "hagsvote"), ("hagscl", "hagsd")
QUESTIONS = (*_OF_THE_NODE, *_OF_ITSELF)
_UP, _DOWN, _PIECE, _PACKET = b"RS\1\0", b"RS\2\0", b"RP", b"RG\1"
_ASKED, _TOLD = b"RI\1", b"RI\2"  # what a daemon is asked of itself, and says; no packets of a node
_QUERY, _REPLY = 22, 23
_PIECE_HEAD = struct.Struct(">2sBBIQII")
_DOWN_HEAD = struct.Struct(">4sIIBIB")
_PACKET_HEAD = struct.Struct(">3sBBBBBII")


class Down(NamedTuple):
    """What a daemon says to a key."""

    key: bytes
    incarnation: int
    done: int
    answer: int
    first: int
    events: tuple[bytes, ...]


class Reply(NamedTuple):
    """The answer to a question, and to which where a daemon says it of itself."""

    question: int
    text: str
    what: str | None = None

    def answers(self, what: str, question: int) -> bool:
        return self.question == question and self.what == (what if what in _OF_ITSELF else None)


def up_of(key: bytes, number: int, heard: int, line: bytes) -> bytes:
    return _UP + key + struct.pack(">IIH", number, heard, len(line)) + line


def query_of(network: int, node: int, question: int, what: str) -> bytes:
    if what in _OF_ITSELF:
        return _ASKED + struct.pack(">BI", 1 + _OF_ITSELF.index(what), question)
    head = _PACKET_HEAD.pack(_PACKET, _QUERY, network, 0, node, 0, 0, 5)
    return head + struct.pack(">IB", question, 1 + _OF_THE_NODE.index(what))


def datagram_of(network: int, number: int, message: bytes) -> bytes:
    """The datagram of a client's message, which is one piece of sender 0."""
    return bytes([network]) + _PIECE_HEAD.pack(_PIECE, 0, 0, 0, number, 0, 1) + message


def message_of(message: bytes) -> Down | Reply | None:
    """The Down or the reply that a daemon's message is, if it is one."""
    try:
        if message.startswith(_DOWN) and len(message) >= 4 + _DOWN_HEAD.size:
            return _down_of(message)
        if message.startswith(_PACKET) and len(message) >= 20 and message[3] == _REPLY:
            return _reply_of(message[16:])
        if message.startswith(_TOLD) and len(message) >= 8 and 1 <= message[3] <= len(_OF_ITSELF):
            return _reply_of(message[4:], _OF_ITSELF[message[3] - 1])
    except (struct.error, ValueError):
        pass
    return None


def _reply_of(message: bytes, what: str | None = None) -> Reply:
    return Reply(int.from_bytes(message[:4], "big"), message[4:].decode("ascii", errors="replace"), what)


def _down_of(message: bytes) -> Down:
    key, incarnation, done, answer, first, count = _DOWN_HEAD.unpack_from(message, 4)
    events, at = [], 4 + _DOWN_HEAD.size
    for _ in range(count):
        (length,) = struct.unpack_from(">H", message, at)
        event = message[at + 2 : at + 2 + length]
        if len(event) != length or not event.isascii():
            raise ValueError("an event that is cut")
        events.append(event)
        at += 2 + length
    if at != len(message):
        raise ValueError("bytes behind the last event")
    return Down(key, incarnation, done, answer, first, tuple(events))


class Joiner:
    """Puts the pieces of one daemon's messages together. Those of its newest message alone are kept."""

    def __init__(self, node: int) -> None:
        self._head = _PIECE + bytes([node, 0])
        self._newest = (0, 0, 0)
        self._pieces: dict[int, bytes] = {}

    def take(self, piece: bytes) -> bytes | None:
        """The message whose last missing piece this is."""
        if len(piece) <= _PIECE_HEAD.size or not piece.startswith(self._head):
            return None
        _, _, _, incarnation, number, index, count = _PIECE_HEAD.unpack_from(piece)
        if (incarnation, number) > self._newest[:2]:
            self._newest, self._pieces = (incarnation, number, count), {}
        if (incarnation, number, count) != self._newest or index in self._pieces or index >= count:
            return None
        self._pieces[index] = piece[_PIECE_HEAD.size :]
        if len(self._pieces) < count:
            return None
        return b"".join(self._pieces[it] for it in range(count))
