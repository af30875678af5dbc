#!/usr/bin/env python3
"""One candidate of a leader election, which says who leads, until Ctrl-C. docs/first-cluster.md shows it at work.

The candidates are the members of the group `leader.demo`, and the first member leads. All hear the same members in the
same order, so all say the same. When the leader says goodbye, or its daemon dies, the next one leads. A leader that is
killed or hangs while its daemon lives would stay a member; so the leader sets the group's value each second, and the
others expel it where they have not heard that for three seconds, or as many as `--patience` says.

Where its daemon is in a view of half of the nodes or fewer, nobody leads: so of a cluster that has parted one side at
most has a leader, as soon as its daemons have missed each other."""
import argparse
import os
import pathlib
import signal
import sys

sys.path.insert(0, str(pathlib.Path(__file__).resolve().parents[2] / "clients" / "python" / "src"))
import hags

SILENT = "the daemon is silent, so this candidate knows of no leader"
FEW = "nobody leads: the daemon is in a view of half of the nodes or fewer"


def standing(client, election):
    """Who leads, as this candidate knows it, in a sentence; None where that is not known yet."""
    if client.silence() > 1:
        return SILENT
    if election.leader is None:
        return None
    if not client.has_majority():
        return FEW
    if election.leads:
        return f"node {client.node} leads, and it is this one"
    return f"node {election.leader.node} leads" if election.leader != election.own else None


def follow(client, election):
    """Says who leads, whenever that changes, until the process ends."""
    said = None
    while True:
        try:
            election.wait_change(0.2)
            client.next_event(0)
            text = standing(client, election)
        except hags.SessionLost as lost:
            text = str(lost)
        if text not in (None, said):
            print(f"at node {client.node}: {text}\n", end="", flush=True)  # whole, also beside others
            said = text


def main():
    parser = argparse.ArgumentParser(description=__doc__, formatter_class=argparse.RawDescriptionHelpFormatter)
    parser.add_argument("--node", metavar="N", type=int, required=True, help="the node whose daemon it uses")
    parser.add_argument("--settings", metavar="FILE", type=pathlib.Path, default="settings", help="settings")
    parser.add_argument("--patience", metavar="S", type=float, default=3, help="seconds until a leader is missed (3)")
    options = parser.parse_args()
    with hags.Client(options.settings, options.node, f"leader-{os.getpid()}") as client:
        with hags.Leader(client, "demo", patience=options.patience) as election:
            follow(client, election)


if __name__ == "__main__":
    for number in (signal.SIGHUP, signal.SIGTERM):
        signal.signal(number, lambda *_: sys.exit())  # so that it says goodbye
    try:
        main()
    except (hags.HagsError, OSError) as error:
        sys.exit(f"leader.py: {error}")
    except KeyboardInterrupt:
        pass
