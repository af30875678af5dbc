"""A daemon in the test's own process, which answers calls as it is told to."""

from __future__ import annotations

import socket
import struct
import threading
from collections.abc import Callable
from contextlib import suppress

from hags import Settings

Answer = tuple[bool, list[str]]  # is the call taken, and the lines of what is heard


def take_all(line: str) -> Answer:
    return True, []


class FakeDaemon:
    """Serves sessions at a loopback address. `answer` says what comes of a call; `is_silent` lets it be silent; `lose`
    drops so many of the datagrams that come; `of_itself` is what it says of itself, where it does; `groups` are its
    lines `hagsgr`, and `views` its views, of which the next one comes behind each of these answers."""

    def __init__(self, address: str, port: int, node: int, answer: Callable[[str], Answer] = take_all) -> None:
        self.node, self.answer, self.incarnation, self.is_silent, self.lose = node, answer, 5, False, 0
        self.of_itself: dict[str, str] = {}
        self.views, self.groups = ["3.1.5"], ""
        self.calls: list[str] = []
        self.networks: list[int] = []
        self._kept: dict[bytes, list[object]] = {}
        self._ended: set[bytes] = set()
        self._sent = 0
        self._socket = socket.socket(socket.AF_INET, socket.SOCK_DGRAM)
        self._socket.bind((address, port))
        self._socket.settimeout(0.05)
        self.port = self._socket.getsockname()[1]
        self._is_over = False
        self._thread = threading.Thread(target=self._run, daemon=True)
        self._thread.start()

    def restart(self) -> None:
        self._kept.clear()
        self.incarnation += 1

    def end(self) -> None:
        """Ends the sessions of all of its clients, as a daemon does of those that were silent."""
        self._ended |= set(self._kept)
        self._kept.clear()

    def close(self) -> None:
        self._is_over = True
        self._thread.join()
        self._socket.close()

    def hear(self, line: str) -> None:
        """Lets all of its clients hear this."""
        for kept in self._kept.values():
            kept[2].append(line)  # type: ignore[attr-defined]

    def _run(self) -> None:
        while not self._is_over:
            with suppress(socket.timeout):
                datagram, whom = self._socket.recvfrom(65536)
                if self.lose:
                    self.lose -= 1
                elif not self.is_silent:
                    self._take(datagram, whom)

    def _take(self, datagram: bytes, whom: tuple[str, int]) -> None:
        message = datagram[25:]
        self.networks.append(datagram[0])
        if message.startswith(b"RG\1\x16"):
            question, what = struct.unpack(">IB", message[16:21])
            hosts = "1.5,2.5,3.5"
            view = self.views[0]
            if what == 3 and len(self.views) > 1:
                del self.views[0]
            texts = [
                "hats 1 3.5.1 members=1,2,3 neighbour=2\n",
                f"hagsns {view} coord=1 members={hosts} frozen=no\n",
                self.groups,
                "",
            ]
            head = struct.pack(">3sBBBBBIII", b"RG\1", 23, datagram[0], self.node, 0, 0, self.incarnation, 0, question)
            self._send(datagram[0], head + texts[what - 1].encode(), whom)
            return
        if message.startswith(b"RI\1"):
            text = self.of_itself.get(("hagscl", "hagsd")[message[3] - 1])
            if text is not None:
                self._send(datagram[0], b"RI\2" + message[3:] + text.encode(), whom)
            return
        key = message[4:8]
        if key in self._ended:
            self._send(datagram[0], b"RS\2\0" + key + struct.pack(">IIBIB", 0, 0, 3, 1, 0), whom)
            return
        number, heard, length = struct.unpack(">IIH", message[8:18])
        line = message[18 : 18 + length].decode()
        kept = self._kept.setdefault(key, [0, 0, []])
        done, answer, events = kept
        if line and number == done + 1:  # type: ignore[operator]
            self.calls.append(line)
            taken, lines = self.answer(line)
            kept[0], kept[1] = number, 1 if taken else 2
            events += lines  # type: ignore[operator]
        rest = [it.encode() for it in events[heard : heard + 16]]  # type: ignore[index]
        down = b"RS\2\0" + key + struct.pack(">IIBIB", self.incarnation, kept[0], kept[1], heard + 1, len(rest))
        self._send(datagram[0], down + b"".join(struct.pack(">H", len(it)) + it for it in rest), whom)

    def _send(self, network: int, message: bytes, whom: tuple[str, int]) -> None:
        self._sent += 1
        count = -(-len(message) // 1176)
        for index in range(count):
            data = message[index * 1176 : (index + 1) * 1176]
            piece = struct.pack(">2sBBIQII", b"RP", self.node, 0, self.incarnation, self._sent, index, count) + data
            self._socket.sendto(bytes([network]) + piece, whom)


def settings_of(port: int, *lines: str, nodes: int = 1) -> Settings:
    """Settings with a daemon of node 1 at this port of 127.0.0.1, and these lines more."""
    own = [f"node {node}\nadapter {node} 1 127.0.0.{node}" for node in range(1, nodes + 1)]
    return Settings.parse("\n".join([*own, f"port {port - 1}", *lines, "begin\n"]))
