"""A network between daemons of this machine that loses, repeats, reorders and cuts off, by a seed.

Each daemon has settings of its own, which differ in `port` alone: what node A sends to node B goes to the port of A's
settings plus B. There this network listens, and passes it on to where B listens, the port of B's settings plus B. So it
knows of each datagram who sent it, to whom and, by the first byte, on which network."""
import heapq
import itertools
import select
import time
from dataclasses import dataclass

from hags_tools import daemons

MOST_BYTES = 65_536


@dataclass(frozen=True)
class Weather:
    """What becomes of a datagram, in percent; what is held back comes after up to so many milliseconds."""

    lost: int = 0
    repeated: int = 0
    held_back: int = 0
    longest: int = 0


CALM = Weather()


class RoughNetwork:
    def __init__(self, nodes, chance):
        self.chance = chance
        self.weather = CALM
        self.cuts = set()
        self.ports, self.sockets, self.pairs, self.senders = {}, {}, {}, {}
        self.waiting, self.order = [], itertools.count()
        self.passed = self.lost = self.repeated = self.held_back = self.cut_off = 0
        for node in range(1, nodes + 1):
            row = daemons.row_of_sockets(nodes)
            self.ports[node] = row[0].getsockname()[1] - 1
            for to, opened in enumerate(row, 1):
                opened.setblocking(False)
                self.sockets[node, to] = opened
        for node in range(1, nodes + 1):
            self.sockets.pop((node, node)).close()
        self.poll = select.poll()
        for pair, opened in self.sockets.items():
            self.poll.register(opened, select.POLLIN)
            self.pairs[opened.fileno()] = pair

    def close(self):
        for opened in self.sockets.values():
            opened.close()

    def cut(self, ones, others, networks):
        """Cuts these nodes off from those on these networks, both ways."""
        for network in networks:
            self.cuts |= {(network, *pair) for one in ones for other in others for pair in ((one, other), (other, one))}

    def heal(self):
        self.cuts.clear()

    def pause(self, seconds):
        """Passes on what comes, for so long."""
        end = time.monotonic() + seconds
        while True:
            now = time.monotonic()
            while self.waiting and self.waiting[0][0] <= now:
                self.send(*heapq.heappop(self.waiting)[2:])
            until = min(end, self.waiting[0][0]) if self.waiting else end
            for ready, _ in self.poll.poll(max(0, (until - now) * 1000)):
                self.take(ready)
            if now >= end:
                return

    def take(self, ready):
        pair = self.pairs[ready]
        opened = self.sockets[pair]
        for _ in range(64):
            try:
                datagram, self.senders[pair] = opened.recvfrom(MOST_BYTES)
            except BlockingIOError:
                return
            if datagram:
                self.carry(pair, datagram)

    def carry(self, pair, datagram):
        if (datagram[0], *pair) in self.cuts:
            self.cut_off += 1
            return
        if self.chance.happens(self.weather.lost):
            self.lost += 1
            return
        copies = 1 + self.chance.happens(self.weather.repeated)
        self.repeated += copies - 1
        for _ in range(copies):
            if self.chance.happens(self.weather.held_back):
                self.held_back += 1
                late = self.chance.between(1, self.weather.longest) / 1000
                heapq.heappush(self.waiting, (time.monotonic() + late, next(self.order), pair, datagram))
            else:
                self.send(pair, datagram)

    def send(self, pair, datagram):
        to = pair[1]
        try:
            self.sockets[pair].sendto(datagram, (f"127.0.0.{to}", self.ports[to] + to))
            self.passed += 1
        except BlockingIOError:
            self.lost += 1
