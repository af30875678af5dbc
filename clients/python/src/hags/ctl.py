"""hagsctl: a cluster from the command line."""

from __future__ import annotations

import argparse
import json
import os
import signal
import subprocess
import sys
import time
from collections.abc import Callable, Sequence
from pathlib import Path
from typing import NoReturn

from .calls import PLAIN, Attributes
from .client import FOREVER, Client
from .errors import CallRefused, HagsError, NoReply, SessionLost, TimedOut
from .events import HOSTS
from .ids import Member, Token
from .recipes import Change, Leader, Lock, Value, Watch
from .recipes.value import versioned
from .recipes.voter import LIMIT
from .settings import Settings
from .status import (
    Daemon,
    Group,
    Network,
    Nodes,
    Session,
    ask,
    daemon_of,
    groups_of,
    networks_of,
    nodes_of,
    sessions_of,
)

WHOLE, PARTED, NO_ANSWER = 0, 1, 2  # statuses; 1 is also that something was refused or not found
NOT_HELD, LOST = 3, 4  # a lock that did not come in time; one that was lost while the command ran
IDLE = 0.25  # seconds from one datagram to the next, where nothing happens
ASKING = 1.0  # seconds that daemons have for an answer
GRACE = 5.0  # seconds from a command's SIGTERM to its SIGKILL
PLACES = ("settings", "/etc/hags/settings")  # where settings are looked for
TICK = 0.1  # seconds
OLDER = "its daemon is an older one, which does not say who its clients are"
OF_RECIPES = {  # the attributes of groups that recipes have
    "lock.": PLAIN,
    "leader.": PLAIN,
    "barrier.": Attributes(default="reject", limit=LIMIT),
    "value.": Attributes(default="reject", limit=LIMIT),
    "shares.": Attributes(by_vote=True, batch="both", default="approve", limit=LIMIT),
}


class Said(Exception):
    """What ends the command, with its status."""

    def __init__(self, status: int, text: str) -> None:
        super().__init__(text)
        self.status = status


def settings_from(file: str | None) -> Settings:
    """The settings of --settings, of HAGS_SETTINGS, or of the first place that has some."""
    found = file or os.environ.get("HAGS_SETTINGS") or next((it for it in PLACES if Path(it).is_file()), None)
    if found is None:
        raise Said(PARTED, f"no settings: name the daemons' file with --settings. Looked for: {', '.join(PLACES)}")
    return Settings.read(found)


def client_of(options: argparse.Namespace) -> Client:
    settings = settings_from(options.settings)
    return Client(settings, options.node, f"ctl-{os.getpid()}", seconds=options.seconds, idle=IDLE)


def nodes_from(text: str) -> list[int]:
    return [int(word) for word in text.split(",")]


def asked_of_one(options: argparse.Namespace, what: str) -> list[str]:
    """The answer of the first daemon that gives one."""
    settings = settings_from(options.settings)
    nodes = options.node or settings.nodes
    said = [lines for lines in ask(settings, what, nodes, ASKING).values() if lines is not None]
    if not said:
        raise NoReply(f"no daemon of nodes {', '.join(map(str, nodes))} answers")
    return said[0]


def numbers(items: Sequence[int]) -> str:
    return ",".join(map(str, items)) or "-"


# status


def standing(settings: Settings, views: dict[int, Nodes | None]) -> tuple[int, str]:
    """How the cluster stands, as a status and a sentence."""
    said = {node: view for node, view in views.items() if view is not None}
    if not said:
        return NO_ANSWER, "no daemon answers: see that they run, and that this machine reaches their ports"
    missing = [node for node in settings.nodes if node not in said]
    if len({view.view for view in said.values()}) > 1:
        return PARTED, "parted: the daemons are in different views"
    if missing:
        return PARTED, f"not whole: no answer of node {numbers(missing)}"
    inside = next(iter(said.values()))
    if sorted(host.node for host in inside.hosts) != sorted(settings.nodes):
        return PARTED, "not whole: the view is not of all nodes"
    if any(view.is_frozen for view in said.values()):
        return PARTED, "not whole: a daemon is on its way into another view"
    return WHOLE, f"whole: all {len(settings.nodes)} nodes are in the view {inside.view}"


def see_status(options: argparse.Namespace) -> int:
    settings = settings_from(options.settings)
    end = time.monotonic() + options.wait
    while True:
        answers = ask(settings, "hagsns", settings.nodes, ASKING)
        views = {node: nodes_of(lines) if lines else None for node, lines in answers.items()}
        status, sentence = standing(settings, views)
        if status == WHOLE or time.monotonic() >= end:
            break
        time.sleep(0.2)
    said = ask(settings, "hagsgr", [node for node, view in views.items() if view], ASKING)
    groups = {node: groups_of(lines) for node, lines in said.items() if lines}
    if options.json:
        print(json.dumps(status_json(status, sentence, views, groups)))
    else:
        print_status(views, groups)
        print(sentence)
    return status


def status_json(
    status: int, sentence: str, views: dict[int, Nodes | None], groups: dict[int, list[Group]]
) -> dict[str, object]:
    nodes: dict[str, object] = {}
    for node, view in views.items():
        nodes[str(node)] = view and {
            "view": str(view.view),
            "nodes": [host.node for host in view.hosts],
            "frozen": view.is_frozen,
            "groups": len(groups.get(node, [])),
            "own_members": own_members(node, groups.get(node, [])),
        }
    words = {WHOLE: "whole", PARTED: "parted", NO_ANSWER: "no answer"}
    return {"status": words[status], "said": sentence, "nodes": nodes}


def own_members(node: int, groups: list[Group]) -> int:
    return sum(member.node == node for group in groups for member in group.members)


def print_table(rows: Sequence[tuple[str, ...]]) -> None:
    widths = [max(map(len, column)) for column in zip(*rows)]
    for row in rows:
        print("  ".join(word.ljust(width) for word, width in zip(row, widths)).rstrip())


def print_status(views: dict[int, Nodes | None], groups: dict[int, list[Group]]) -> None:
    rows = [("node", "view", "nodes in it", "frozen", "groups", "own members")]
    for node, view in views.items():
        if view is None:
            rows.append((str(node), "no answer", "", "", "", ""))
            continue
        known = groups.get(node, [])
        frozen = "yes" if view.is_frozen else "no"
        hosts = numbers([host.node for host in view.hosts])
        rows.append((str(node), str(view.view), hosts, frozen, str(len(known)), str(own_members(node, known))))
    print_table(rows)


# clients


def see_clients(options: argparse.Namespace) -> int:
    settings = settings_from(options.settings)
    nodes = options.node or settings.nodes
    said = ask(settings, "hagscl", nodes, ASKING)
    mute = [node for node, lines in said.items() if lines is None]
    older = [node for node, lines in ask(settings, "hagsns", mute, ASKING).items() if lines is not None] if mute else []
    sessions = {node: sessions_of(lines) for node, lines in said.items() if lines is not None}
    if options.json:
        print(json.dumps({str(node): clients_json(sessions.get(node)) for node in nodes}))
    elif sessions:
        print_clients(sessions)
    for node in mute:
        print(f"hagsctl: node {node}: {OLDER if node in older else 'no answer'}", file=sys.stderr)
    return NO_ANSWER if len(mute) == len(nodes) and not older else PARTED if mute else WHOLE


def clients_json(sessions: list[Session] | None) -> list[dict[str, object]] | None:
    if sessions is None:
        return None
    return [{**one._asdict(), "members": list(map(str, one.members))} for one in sessions]


def print_clients(said: dict[int, list[Session]]) -> None:
    rows = [("node", "client", "key", "silent", "unread", "members")]
    for node, sessions in said.items():
        for one in sessions:
            key = "-" if one.key is None else str(one.key)
            silent = "-" if one.silent is None else f"{one.silent * TICK:.1f} s"
            unread = "-" if one.unread is None else str(one.unread)
            rows.append((str(node), one.name, key, silent, unread, ",".join(map(str, one.members)) or "-"))
    print_table(rows)


# check


def check(options: argparse.Namespace) -> int:
    settings = settings_from(options.settings)
    rings = ask(settings, "hats", settings.nodes, ASKING)
    views = ask(settings, "hagsns", settings.nodes, ASKING)
    answering = [node for node in settings.nodes if views[node]]
    if not answering:
        print("no daemon answers")
        return NO_ANSWER
    said = ask(settings, "hagsd", answering, ASKING)
    daemons = {node: daemon_of(lines) for node, lines in said.items() if lines}
    found = [fault for node in settings.nodes for fault in faults_of(settings, node, rings[node], views[node])]
    found += faults_of_settings(settings, daemons) + faults_of_versions(daemons)
    print("\n".join(found) if found else "nothing is seen that differs from these settings")
    older = [node for node in answering if node not in daemons]
    if older:
        why = "settings and version, which an older daemon does not say of itself"
        print(f"Not compared of node {numbers(older)}: {why}")
    return PARTED if found else WHOLE


def alike(daemons: dict[int, Daemon], what: Callable[[Daemon], str]) -> dict[str, list[int]]:
    """The nodes whose daemons say the same, by what they say."""
    found: dict[str, list[int]] = {}
    for node, daemon in daemons.items():
        found.setdefault(what(daemon), []).append(node)
    return found


def faults_of_settings(settings: Settings, daemons: dict[int, Daemon]) -> list[str]:
    """Which daemons have read other settings than these, all their lines up to `begin` compared."""
    return [
        f"node {numbers(nodes)}: started with other settings ({digest}) than these ({settings.digest}). Compare the "
        "files by `hags-daemon --check FILE FILE`, let all have one, and start each daemon anew whose file was another"
        for digest, nodes in alike(daemons, lambda it: it.settings).items()
        if digest != settings.digest
    ]


def faults_of_versions(daemons: dict[int, Daemon]) -> list[str]:
    versions = alike(daemons, lambda it: it.version)
    if len(versions) < 2:
        return []
    said = "; ".join(f"{version} at node {numbers(nodes)}" for version, nodes in versions.items())
    return [f"daemons are of different versions: {said}. Install one version, and start each daemon anew in turn"]


def faults_of(settings: Settings, node: int, rings: list[str] | None, view: list[str] | None) -> list[str]:
    """What a daemon says that does not fit the settings."""
    if not rings or not view:
        places = ", ".join(map(str, settings.places(node)))
        return [f"node {node}: no answer at {places}. Is it down, or are its port and address other ones?"]
    faults = []
    known, networks = set(settings.nodes), networks_of(rings)
    own, here = [place.network for place in settings.places(node)], [ring.network for ring in networks]
    if own != here:
        faults.append(f"node {node}: it has networks {numbers(here)}, and by these settings {numbers(own)}")
    faults += [fault for ring in networks for fault in faults_of_ring(settings, node, ring)]
    strangers = sorted({host.node for host in nodes_of(view).hosts} - known)
    if strangers:
        faults.append(f"node {node}: its view has node {numbers(strangers)}, which these settings have not")
    missing = sorted(known - {host.node for host in nodes_of(view).hosts})
    if missing:
        faults.append(f"node {node}: its view lacks node {numbers(missing)}")
    return faults


def faults_of_ring(settings: Settings, node: int, ring: Network) -> list[str]:
    there = {it for it in settings.nodes if any(place.network == ring.network for place in settings.places(it))}
    missing = sorted(there - set(ring.members))
    if not missing or node not in there:
        return []
    return [f"node {node}: on network {ring.network} it does not hear node {numbers(missing)}"]


# groups


def see_members(options: argparse.Namespace) -> int:
    if options.group is None:
        hosts = nodes_of(asked_of_one(options, "hagsns")).hosts
        print_list(list(map(str, hosts)), options.json)
        return WHOLE
    members = group_named(options, options.group).members
    print_list(list(map(str, members)), options.json)
    return WHOLE


def print_list(words: list[str], as_json: bool) -> None:
    for line in [json.dumps(words)] if as_json else words:
        print(line)


def group_named(options: argparse.Namespace, name: str) -> Group:
    groups = groups_of(asked_of_one(options, "hagsgr"))
    found = next((group for group in groups if group.name == name), None)
    if found is None:
        there = ", ".join(group.name for group in groups) or "none"
        raise Said(PARTED, f"there is no group {name}. Groups there: {there}")
    return found


def watch(options: argparse.Namespace) -> int:
    with client_of(options) as client:
        watches = {group: Watch(client, group) for group in options.groups or (HOSTS,)}
        look_at = 0.0
        while True:
            if not options.groups and time.monotonic() > look_at:
                look_at = time.monotonic() + 2
                for group in groups_of(client.status("hagsgr")):
                    if group.name not in watches:
                        watches[group.name] = Watch(client, group.name)
            for one in watches.values():
                while change := one.next_change(0):
                    print(line_of(change, options.json), flush=True)
            try:
                client.next_event(IDLE)
            except SessionLost as lost:
                print(f"hagsctl: {lost}", file=sys.stderr)


def line_of(change: Change, as_json: bool) -> str:
    name = "nodes" if change.group == HOSTS else change.group
    members = list(map(str, change.members))
    value = change.value.decode(errors="backslashreplace")
    if as_json:
        return json.dumps({"group": name, "view": str(change.view), "members": members, "value": value})
    return f"{name} {','.join(members) or '-'} {value}".rstrip()


def get(options: argparse.Namespace) -> int:
    groups = groups_of(asked_of_one(options, "hagsgr"))
    now = next((versioned(group.value) for group in groups if group.name == f"value.{options.name}"), None)
    if now is None:
        raise Said(PARTED, f"{options.name} was never set, or nobody keeps it any more")
    sys.stdout.buffer.write(now.data + b"\n")
    return WHOLE


def set_value(options: argparse.Namespace) -> int:
    with client_of(options) as client, Value(client, options.name) as value:
        value.get()
        if value.keepers == 1 and not options.stay:
            alone = f"nobody else keeps {options.name}, so the value would end with this command"
            raise Said(PARTED, f"{alone}: run a program with hags.Value, or give --stay")
        if options.expect is None:
            token: Token | None = value.set(options.value)
        else:
            token = value.compare_and_set(options.expect, options.value)
        if token is None:
            raise Said(PARTED, f"{options.name} is not {options.expect}")
        print(token, flush=True)
        while options.stay:
            try:
                client.next_event()
            except SessionLost as lost:
                print(f"hagsctl: {lost}", file=sys.stderr)
    return WHOLE


def expel(options: argparse.Namespace) -> int:
    attributes = next((it for start, it in OF_RECIPES.items() if options.group.startswith(start)), PLAIN)
    if options.limit is not None or options.default or options.by_vote or options.batch:
        batch, default = options.batch or "none", options.default or "approve"
        attributes = Attributes(options.by_vote, batch, default, options.limit or 0)
    there = group_named(options, options.group).members
    wanted = [it for it in there if options.member in (str(it), str(it.node))]
    if not wanted:
        raise Said(PARTED, f"{options.member} is no member of {options.group}. Members: {', '.join(map(str, there))}")
    with client_of(options) as client:
        try:
            client.join(options.group, attributes, seconds=options.seconds)
        except CallRefused as refused:
            if not refused.code.startswith("BAD_GROUP_ATTRIBUTES"):
                raise
            raise Said(PARTED, f"{refused}: give the group's --limit, --default, --batch, --by-vote") from None
        client.expel(options.group, wanted)
        wait_gone(client, options.group, wanted, options.seconds)
        print(f"expelled: {', '.join(map(str, wanted))}")
        client.leave(options.group)
    return WHOLE


def wait_gone(client: Client, group: str, wanted: list[Member], seconds: float) -> None:
    def are_gone() -> bool:
        found = client.membership(group)
        return found is not None and not set(wanted) & set(found.members)

    try:
        client.wait_until("the expulsion", are_gone, seconds)
    except TimedOut:
        runs = f"a vote runs in {group}" if has_vote(client, group) else "no answer of the group's leader"
        raise Said(PARTED, f"not expelled: {runs}. Start the daemon of the member's node anew") from None


def has_vote(client: Client, group: str) -> bool:
    return any(line.split(" ")[1] == group for line in client.status("hagsvote"))


# commands under a lock or in an office


def command_of(options: argparse.Namespace) -> list[str]:
    command: list[str] = options.command
    if not command:
        raise Said(PARTED, f"no command: write `hagsctl {options.verb} {options.name} -- COMMAND ..`")
    return command


def run_while(command: list[str], token: Token, is_held: Callable[[float], bool]) -> int | None:
    """Runs a command, which has the token in its environment, while something is held. Gives its status, None where
    it had to be ended."""
    environment = {**os.environ, "HAGS_TOKEN": str(token), "HAGS_TOKEN_KEY": token.key}
    process = subprocess.Popen(command, env=environment)
    try:
        while process.poll() is None:
            if not is_held(0.1):
                return None
        return process.returncode if process.returncode >= 0 else 128 - process.returncode
    finally:
        end(process)


def end(process: subprocess.Popen[bytes]) -> None:
    if process.poll() is None:
        process.terminate()
        try:
            process.wait(GRACE)
        except subprocess.TimeoutExpired:
            process.kill()
            process.wait()


def lock(options: argparse.Namespace) -> int:
    command = command_of(options)
    with client_of(options) as client:
        held = Lock(client, options.name, patience=options.patience)
        try:
            token = held.acquire(options.wait)
        except TimedOut:
            raise Said(NOT_HELD, f"the lock {options.name} did not come in {options.wait:g} s") from None
        status = run_while(command, token, lambda seconds: not held.wait_lost(seconds))
        if status is None:
            raise Said(LOST, f"the lock {options.name} was lost, so the command was ended: {held.why_lost}")
        held.close()
        return status


def elect(options: argparse.Namespace) -> int:
    command = command_of(options)
    with client_of(options) as client:
        with Leader(client, options.name, data=options.data, patience=options.patience) as election:
            while True:
                token = election.wait_elected()

                def is_held(seconds: float, mine: Token = token) -> bool:
                    election.wait_change(seconds)
                    return election.token == mine

                status = run_while(command, token, is_held)
                if status is not None:
                    return status
                print("hagsctl: another one leads now; the command was ended", file=sys.stderr)


# words


class Parser(argparse.ArgumentParser):
    """One whose faulty words end with status 1, since 2 says that nobody answers."""

    def error(self, message: str) -> NoReturn:
        self.print_usage(sys.stderr)
        self.exit(PARTED, f"{self.prog}: {message}\n")


def parser_of() -> argparse.ArgumentParser:
    about = "What a cluster of hags does, and what can be done with it, from the command line."
    ends = "Status: 0 done (of `status`: whole), 1 refused, not found, or not whole, 2 no daemon answers."
    parser = Parser(prog="hagsctl", description=about, epilog=ends)
    places = ", then ".join(("$HAGS_SETTINGS", *PLACES))
    parser.add_argument("--settings", metavar="FILE", help=f"the daemons' settings ({places})")
    parser.add_argument("--node", metavar="N,..", type=nodes_from, help="use the daemons of these nodes (all, in turn)")
    parser.add_argument("--seconds", metavar="S", type=float, default=10.0, help="so long an answer may take (10)")
    verbs = parser.add_subparsers(dest="verb", metavar="COMMAND", required=True)

    def verb(
        name: str, what: str, act: Callable[[argparse.Namespace], int], *, json: bool = False
    ) -> argparse.ArgumentParser:
        added = verbs.add_parser(name, help=what, description=what)
        added.set_defaults(act=act)
        if json:
            added.add_argument("--json", action="store_true", help="write JSON")
        return added

    status = verb("status", "all nodes in one table: 0 whole, 1 not, 2 no answer", see_status, json=True)
    status.add_argument("--wait", metavar="S", type=float, default=0.0, help="so many seconds for it to be whole")
    verb("check", "whether the daemons have these settings, one version, and hear each other", check)
    verb("clients", "the clients of all daemons: silent for how long, events unread, members", see_clients, json=True)
    members = verb("members", "the nodes of the view, or the members of a group", see_members, json=True)
    members.add_argument("group", metavar="GROUP", nargs="?")
    watching = verb("watch", "a line for each change of the nodes and all groups, or of these", watch, json=True)
    watching.add_argument("groups", metavar="GROUP", nargs="*")
    getting = verb("get", "the value of this name", get)
    getting.add_argument("name", metavar="NAME")
    setting = verb("set", "sets the value of this name by vote, and writes its token", set_value)
    setting.add_argument("name", metavar="NAME")
    setting.add_argument("value", metavar="VALUE")
    setting.add_argument("--if", dest="expect", metavar="OLD", help="only where it is OLD")
    setting.add_argument("--stay", action="store_true", help="go on keeping it, until Ctrl-C")
    electing = verb("elect", "runs COMMAND while this one leads; `elect NAME -- COMMAND ..`", elect)
    electing.add_argument("--data", metavar="TEXT", default="", help="what the others are told of this leader")
    locking = verb("lock", "runs COMMAND under the lock of this name; `lock NAME -- COMMAND ..`", lock)
    locking.add_argument("--wait", metavar="S", type=float, default=FOREVER, help="so many seconds at most")
    for added in (electing, locking):
        added.add_argument("--patience", metavar="S", type=float, default=3.0, help="seconds until one is missed (3)")
        added.add_argument("name", metavar="NAME")
    expelling = verb("expel", "removes a member, or those of a node, from a group", expel)
    expelling.add_argument("group", metavar="GROUP")
    expelling.add_argument("member", metavar="MEMBER", help="as 2.1795943417.35066.1, or a node")
    expelling.add_argument("--limit", metavar="T", type=int, help="the group's limit, where it is none of a recipe")
    expelling.add_argument("--default", choices=["approve", "reject"], help="the group's default")
    expelling.add_argument("--batch", choices=["none", "joins", "failures", "both"], help="the group's batch")
    expelling.add_argument("--by-vote", action="store_true", help="the group votes on joins")
    return parser


def main(words: Sequence[str] | None = None) -> int:
    """Does what the words say, and gives the status."""
    given = list(sys.argv[1:] if words is None else words)
    at = given.index("--") if "--" in given else len(given)
    options = parser_of().parse_args(given[:at])
    options.command = given[at + 1 :]
    try:
        if options.command and options.verb not in ("lock", "elect"):
            raise Said(PARTED, f"`{options.verb}` runs no command: leave out what stands behind `--`")
        status: int = options.act(options)
        return status
    except Said as said:
        print(f"hagsctl: {said}", file=sys.stderr)
        return said.status
    except NoReply as error:
        print(f"hagsctl: {error}", file=sys.stderr)
        return NO_ANSWER
    except (HagsError, OSError) as error:
        print(f"hagsctl: {error}", file=sys.stderr)
        return PARTED
    except KeyboardInterrupt:
        return 130


def end_by_signal(number: int, _: object) -> NoReturn:
    sys.exit(128 + number)


def run() -> NoReturn:
    """The program `hagsctl`."""
    for number in (signal.SIGHUP, signal.SIGTERM):
        signal.signal(number, end_by_signal)  # so that it says goodbye
    sys.exit(main())


if __name__ == "__main__":
    run()
