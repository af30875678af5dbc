"""A rough network between daemons in which clients have a lane each: what goes to its daemon, and what comes back."""
import select
import time

import rough_network
from hags_tools import daemons

SLICE = 0.002  # seconds from one turn of a client to the next


class Lanes(rough_network.RoughNetwork):
    """Who stands in `actors` has `act`, which it does while this passes on what comes, and `close`."""

    def __init__(self, nodes, chance):
        super().__init__(nodes, chance)
        self.ends, self.actors = [], []  # the node of each lane; who acts

    def lane(self, node):
        """Opens a lane to a node. The client's settings have the daemon where the lane begins."""
        number = len(self.ends)
        self.ends.append(node)
        front, back = daemons.bound(0), daemons.bound(0)
        for opened, pair in ((front, ("up", number)), (back, ("down", number))):
            opened.setblocking(False)
            self.sockets[pair], self.pairs[opened.fileno()] = opened, pair
            self.poll.register(opened, select.POLLIN)
        port = front.getsockname()[1] - node
        return f"node {node}\nadapter {node} 1 127.0.0.1\nport {port}\nbegin\n"

    def send(self, pair, datagram):
        way, number = pair
        if way not in ("up", "down"):
            super().send(pair, datagram)
            return
        node = self.ends[number]
        up = ("down", number), (f"127.0.0.{node}", self.ports[node] + node)
        by, to = up if way == "up" else (("up", number), self.senders["up", number])
        try:
            self.sockets[by].sendto(datagram, to)
            self.passed += 1
        except OSError:
            self.lost += 1

    def pause(self, seconds):
        """Passes on what comes, for so long, and lets the clients act."""
        end = time.monotonic() + seconds
        while True:
            for actor in self.actors:
                actor.act()
            left = end - time.monotonic()
            super().pause(max(0, min(left, SLICE)))
            if left <= SLICE:
                return

    def close(self):
        super().close()
        for actor in self.actors:
            actor.close()
