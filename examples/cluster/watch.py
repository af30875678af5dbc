#!/usr/bin/env python3
"""Follows a cluster in the terminal: its nodes, and the members and the value of each group, until Ctrl-C.
docs/first-cluster.md shows it at work.

It asks the daemon of its node which groups there are, and watches the nodes and every group: so it hears each change at
once. Where its output is no terminal it writes a line for each change."""
import argparse
import os
import pathlib
import signal
import sys
import time

sys.path.insert(0, str(pathlib.Path(__file__).resolve().parents[2] / "clients" / "python" / "src"))
import hags
from hags import HOSTS

SECONDS = 2  # from one look for new groups to the next
TURN = 0.1  # from one look for changes to the next
CLEAR = "\x1b[H\x1b[J"


class Board:
    """What is known: by group its watch and its last change, and by HOSTS the nodes."""

    def __init__(self, client):
        self.client, self.watches, self.rows, self.shown = client, {HOSTS: hags.Watch(client)}, {}, {}

    def look(self):
        """Watches the groups that are new."""
        for line in self.client.status("hagsgr"):
            group = line.split(" ")[1]
            if group not in self.watches:
                self.watches[group] = hags.Watch(self.client, group)

    def read(self):
        for group, watch in self.watches.items():
            while change := watch.next_change(0):
                self.rows[group] = self.row(change)

    def row(self, change):
        """The line of a group, or of the nodes."""
        nodes = ", ".join(f"node {it.node}" for it in change.members) or "nobody"
        if change.group == HOSTS:
            return f"nodes       {nodes}"
        return f"{change.group:11} {nodes:24} {change.value.decode(errors='replace')}".rstrip()

    def show(self):
        """Shows all in a terminal; elsewhere what has changed."""
        rows = {group: self.rows[group] for group in sorted(self.rows, key=lambda it: (it != HOSTS, it))}
        if self.client.silence() > 1:
            rows["silence"] = "the daemon is silent"
        if rows != self.shown and sys.stdout.isatty():
            print("\n".join([f"{CLEAR}as node {self.client.node} sees it:", *rows.values()]), flush=True)
        elif new := [row for group, row in rows.items() if self.shown.get(group) != row]:
            print("\n".join(new), flush=True)
        self.shown = rows

    def follow(self):
        """Shows what there is and what changes, until the process ends."""
        due = 0
        while True:
            try:
                if time.monotonic() > due:
                    due = time.monotonic() + SECONDS
                    self.look()
                self.client.next_event(TURN)
            except hags.NoReply:
                pass
            except hags.SessionLost as lost:
                print(lost, flush=True)
            self.read()
            self.show()


def main():
    parser = argparse.ArgumentParser(description=__doc__, formatter_class=argparse.RawDescriptionHelpFormatter)
    parser.add_argument("--node", metavar="N", type=int, required=True, help="the node whose daemon it uses")
    parser.add_argument("--settings", metavar="FILE", type=pathlib.Path, default="settings", help="settings")
    options = parser.parse_args()
    with hags.Client(options.settings, options.node, f"watch-{os.getpid()}") as client:
        client.seconds = 1
        Board(client).follow()


if __name__ == "__main__":
    for number in (signal.SIGHUP, signal.SIGTERM):
        signal.signal(number, lambda *_: sys.exit())  # so that it says goodbye
    try:
        main()
    except (hags.HagsError, OSError) as error:
        sys.exit(f"watch.py: {error}")
    except KeyboardInterrupt:
        pass
