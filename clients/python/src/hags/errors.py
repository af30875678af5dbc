"""What goes wrong. Each says what to do; docs/clients/python.md has a table of all."""

from __future__ import annotations

WHAT_TO_DO = {
    "EXISTS": "there is one already: a client of this name, a membership of this group, or a subscription to it. "
    "Use that one, or take another name",
    "COLLIDE": "a call of this membership is not decided yet, or a vote runs in the group. Ask again after that",
    "VOTE_NOT_EXPECTED": "no vote is open here, or this vote is cast. Vote once after a begin- or a phase was heard",
    "BAD_MEMBER_TOKEN": "this client is no member of the group. Join it first",
    "UNKNOWN_GROUP": "nobody has joined the group yet in this view. Subscribe after the first join",
    "NAME_TOO_LONG": "the group's name has more than 32 bytes. Take a shorter one",
    "BAD_PARAMETER value": "a value has at most 256 bytes, and 1,024 where all nodes speak level 2. Make it shorter",
    "BAD_PARAMETER message": "a message has at most 1,024 bytes. Send it in parts",
    "BAD_PARAMETER targets": "expel names each member once, and at most 64",
    "BAD_PARAMETER subscription": "this client does not subscribe to the group",
    "BAD_PARAMETER name": "nobody joins HostMembership. Subscribe to it",
    "BAD_GROUP_ATTRIBUTES": "the attributes are not those of the group. All members give the same ones",
    "DUPLICATE_INSTANCE_NUMBER": "a member of this node has that instance number. Take another one, or none",
    "NO_SOURCE_GROUP_PROVIDER": "this node has no member of the source group. Join that one first",
    "NOT_A_MEMBER": "whoever asked, or is to be expelled, is no member. Look at the members",
    "GROUP_FULL": "the group has 64 members, those that wait included. Wait until one leaves",
    "GROUPS_FULL": "the view has 64 groups. Use one that is there",
    "LIST_FULL": "the group had as many entries as one view takes. A new view comes by itself: ask again",
    "SESSIONS_FULL": "this node has 64 clients. Use another node",
    "DISSOLVED": "the group goes on from another side of a partition. Join again",
    "": "this client may make no such call there. docs/formats.md has the lines of calls",
}


def advice(code: str) -> str:
    """What to do about a code, which may have more words behind it."""
    known = WHAT_TO_DO.get(code) or WHAT_TO_DO.get(code.split(" ")[0])
    return known or "docs/messages.md explains it"


class HagsError(Exception):
    """What a client could not do."""


class BadSettings(HagsError, ValueError):
    """The settings cannot be read, or have no such node. Mend them; the message has the line."""


class BadArgument(HagsError, ValueError):
    """An argument that no call can have. Nothing was sent."""


class NoReply(HagsError, TimeoutError):
    """No daemon answered in time. The call is still under way: start the daemon, with `--remote`, and it goes on."""


class TimedOut(HagsError, TimeoutError):
    """What was waited for did not come in time. Nothing is undone by that."""


class SessionLost(HagsError):
    """The daemon was started anew, or is silent and another one is used: nothing of this client is known there.
    Memberships and subscriptions are gone, and of the last call it is not known whether it was carried out. The client
    has begun a new session by itself (or begins one at `open`, with `reopen=False`): join again."""


class SessionEnded(SessionLost):
    """The daemon has ended the session, since nothing came from this client for as long as its `--silence` says, five
    seconds as daemons are shipped: the process was stopped, an AsyncClient's loop was blocked, or the network was cut.
    It was taken out of its groups meanwhile, and others may hold what it held. Do what SessionLost says, and before
    that drop whatever rests on a membership. Where it comes again and again, let the process run more often."""


class ClientClosed(HagsError):
    """The client was closed. Make another one."""


class DaemonFull(HagsError):
    """The daemon has 1,024 clients, and takes no more. Use another node. With `--silence` it forgets clients that are
    gone by itself; without, it keeps each until it is started anew."""


class CallRefused(HagsError):
    """A call was refused, and has done nothing. `code` is one of docs/messages.md with what belongs to it, as `EXISTS`
    or `BAD_PARAMETER value`; it is empty where the line is no call that this client may make there."""

    def __init__(self, who: str, line: str, code: str):
        super().__init__(f"{who} refused `{line}`: {f'{code}, ' if code else ''}{advice(code)}")
        self.line, self.code = line, code


class Rejected(HagsError):
    """The members voted against it. Nothing has changed."""


class NoMajority(HagsError):
    """This side has half of the cluster's nodes or fewer, so it may not decide. Mend the network, or start nodes."""


class LockLost(HagsError):
    """The lock is not held any more, or cannot be known to be: the message says why. Stop, and acquire it again."""


class BrokenBarrier(HagsError):
    """The barrier did not open: somebody was silent, or this client has lost its membership. Wait again."""
