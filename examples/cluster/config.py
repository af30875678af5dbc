#!/usr/bin/env python3
"""One of those who agree on a value by vote. docs/first-cluster.md shows it at work.

The value is that of the group `config`. It is changed in two steps: the proposer sets it to `NOW|NEXT|PROPOSER`, which
all hear, and then asks for a vote on NEXT. So each one knows what it votes on. It approves whatever does not have the
word of `--never` in it, as long as the members are those of more than half of the nodes. One rejection rejects, and so
does silence for ten seconds; then the proposer sets the value back to NOW.

Without `--propose` it follows and votes until Ctrl-C. With it, it ends with 0 where all agreed and with 1 elsewhere."""
import argparse
import os
import pathlib
import signal
import sys
import time

sys.path.insert(0, str(pathlib.Path(__file__).resolve().parents[2] / "clients" / "python" / "src"))
import hags
from hags import APPROVE, REJECT, Asked, CallRefused, Heard, NoReply, SessionLost, Told

GROUP = "config"


class Voter:
    """A client that is a member of the group, in a cluster of so many nodes. It rejects what has `never` in it, and
    proposes what is `wanted`, if anything."""

    def __init__(self, client, nodes, never, wanted):
        self.client, self.nodes, self.never, self.wanted = client, nodes, never, wanted
        self.is_refused, self.is_to_join = False, True

    def begin(self):
        """Joins, at first and whenever the membership is gone."""
        self.is_to_join = False
        self.me, self.request, self.is_member, self.has_proposed, self.has_asked = None, None, False, False, False
        self.now, self.next, self.proposer = "", None, None
        self.client.start_join(GROUP, hags.Attributes(limit=100, default="reject"))

    def say(self, text):
        print(f"at node {self.client.node}: {text}\n", end="", flush=True)  # whole, also beside others

    def read(self, value):
        """Takes the group's value apart."""
        self.now, *proposed = value.decode(errors="replace").split("|")
        self.next, self.proposer = proposed if len(proposed) == 2 else (None, None)

    def opinion(self, members):
        """The vote on what was proposed, where these are the members."""
        here = {member.node for member in members}
        if self.next is None or 2 * len(here) <= self.nodes:
            return REJECT
        if self.has_asked and self.proposer != str(self.me):
            return REJECT  # what the others have heard is not what this one asked for
        return REJECT if self.never and self.never in self.next else APPROVE

    def hear(self, heard):
        """Takes what was heard. Answers whether the own proposal was agreed on, once that is decided."""
        before = (self.now, self.next, self.proposer)
        self.read(heard.value)
        if self.me in heard.members and not self.is_member:
            self.is_member = True
            self.say(f"is a member, and the value is {self.now or '(none)'}")
        if heard.what == "begin-state":
            vote = self.opinion(heard.members)
            self.say(f"{'approves' if vote == APPROVE else 'rejects'} {self.next}")
            self.client.vote(GROUP, vote)
        elif heard.what == "approve":
            self.say(f"agreed: the value is {self.now}")
            return True if self.ends_own(before[2]) else None
        elif heard.what == "reject":
            self.say(f"rejected: {before[1]}")
            if self.ends_own(before[2]):
                self.client.state(GROUP, self.now)
                self.is_refused = True
        elif heard.what == "once-state" and self.is_refused:
            return False
        elif heard.what == "once-state" and self.proposer == str(self.me):
            self.client.state(GROUP, self.next, by_vote=True)
            self.has_asked = True
        if self.is_member and self.wanted and not (self.has_proposed or self.is_refused):
            self.client.state(GROUP, f"{self.now}|{self.wanted}|{self.me}")
            self.has_proposed = True
        return None

    def ends_own(self, proposer):
        """A vote has ended, on what this proposer had proposed. Was it the one that this voter asked for?"""
        is_own = self.has_asked and proposer == str(self.me)
        self.has_proposed = self.has_asked = False
        return is_own

    def told(self, told):
        """A call was refused after all, as where a vote runs already; or the membership is gone."""
        self.say(f"told {told.code}")
        if told.code == "DISSOLVED" or told.request == self.request:
            time.sleep(0.5)
            self.is_to_join = True
        else:
            self.has_proposed = self.has_asked = False


def follow(voter, client):
    """Follows the group, to the end of the own proposal where there is one. Answers whether all agreed on that."""
    while True:
        try:
            if voter.is_to_join:
                voter.begin()
            event = client.next_event(1)
            if isinstance(event, Asked) and event.kind == "join":
                voter.me, voter.request = event.provider, event.request
            if isinstance(event, Told) and event.provider == voter.me:
                voter.told(event)
            if isinstance(event, Heard) and event.provider == voter.me:
                agreed = voter.hear(event)
                if agreed is not None:
                    return agreed
        except CallRefused as refused:
            voter.say(str(refused))  # as of a vote that came too late, or a call while another one waits
        except (NoReply, SessionLost) as error:
            voter.say(str(error))
            voter.is_to_join = voter.is_to_join or isinstance(error, SessionLost)


def main():
    parser = argparse.ArgumentParser(description=__doc__, formatter_class=argparse.RawDescriptionHelpFormatter)
    parser.add_argument("--node", metavar="N", type=int, required=True, help="the node whose daemon it uses")
    parser.add_argument("--settings", metavar="FILE", type=pathlib.Path, default="settings", help="settings")
    parser.add_argument("--never", metavar="WORD", help="reject values that have this in them")
    parser.add_argument("--propose", metavar="VALUE", help="propose this")
    options = parser.parse_args()
    if options.propose and "|" in options.propose:
        parser.error("a value has no |")
    with hags.Client(options.settings, options.node, f"config-{os.getpid()}") as client:
        return follow(Voter(client, len(client.settings.nodes), options.never, options.propose), client)


if __name__ == "__main__":
    for number in (signal.SIGHUP, signal.SIGTERM):
        signal.signal(number, lambda *_: sys.exit())  # so that it says goodbye
    try:
        sys.exit(0 if main() else 1)
    except (hags.HagsError, OSError) as error:
        sys.exit(f"config.py: {error}")
    except KeyboardInterrupt:
        pass
