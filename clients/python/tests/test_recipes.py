"""What recipes compute without a cluster; with one they are tried in tests/failover and tests/recipes."""

from __future__ import annotations

import json
from pathlib import Path

import pytest

from fake import FakeDaemon, settings_of
from hags import BadArgument, Client, Host, Lock, LockLost, Member, Settings, Token, Value, View, Watch
from hags.ctl import NO_ANSWER, PARTED, WHOLE, faults_of, faults_of_settings, faults_of_versions, main, standing
from hags.recipes.shares import owner_of
from hags.recipes.value import versioned
from hags.status import Nodes, daemon_of

MEMBERS = tuple(Member(node, 5, 7, node) for node in range(1, 8))


def test_who_comes_or_goes_moves_its_own_parts_alone() -> None:
    before = {part: owner_of(part, MEMBERS) for part in range(500)}
    assert set(before.values()) == set(MEMBERS)
    for gone in MEMBERS:
        after = {part: owner_of(part, tuple(it for it in MEMBERS if it != gone)) for part in before}
        assert all(after[part] == owner for part, owner in before.items() if owner != gone)
    assert all(owner_of(part, MEMBERS[::-1]) == owner for part, owner in before.items())


def test_a_value_has_its_version() -> None:
    assert versioned(b"12 ab a b c") == (b"a b c", 12)
    assert versioned(b"12 ab ") == (b"", 12)
    assert versioned(b"") is None and versioned(b"red") is None and versioned(b"x y z") is None


def view(*nodes: int, number: int = 3, frozen: bool = False) -> Nodes:
    return Nodes(View(number, 1, 5), 1, tuple(Host(node, 5) for node in nodes), frozen)


def test_how_a_cluster_stands() -> None:
    settings = Settings.parse("node 1\nnode 2\nnode 3\nbegin\n")
    whole = view(1, 2, 3)
    assert standing(settings, {1: whole, 2: whole, 3: whole})[0] == WHOLE
    assert standing(settings, {1: None, 2: None, 3: None})[0] == NO_ANSWER
    for views in (
        {1: whole, 2: whole, 3: None},
        {1: whole, 2: whole, 3: view(1, 2, 3, number=4)},
        {1: whole, 2: whole, 3: view(1, 2, 3, frozen=True)},
        {1: view(1, 2), 2: view(1, 2), 3: view(1, 2)},
    ):
        assert standing(settings, views)[0] == PARTED


def test_what_does_not_fit_the_settings() -> None:
    settings = Settings.parse("node 1\nnode 2\nadapter 1 1 10.0.0.1\nadapter 2 1 10.0.0.2\nbegin\n")
    good = ["hats 1 2.5.1 members=1,2 neighbour=2"]
    nodes = ["hagsns 3.1.5 coord=1 members=1.5,2.5 frozen=no"]
    assert faults_of(settings, 1, good, nodes) == []
    assert "no answer at 10.0.0.1:12348" in faults_of(settings, 1, None, None)[0]
    assert "has networks 1,2" in faults_of(settings, 1, [*good, "hats 2 1.5.1 members=1 neighbour=1"], nodes)[0]
    assert "does not hear node 2" in faults_of(settings, 1, ["hats 1 1.5.1 members=1 neighbour=1"], nodes)[0]
    assert "has node 3" in faults_of(settings, 1, good, [nodes[0].replace("2.5", "2.5,3.5")])[0]
    assert "lacks node 2" in faults_of(settings, 1, good, [nodes[0].replace(",2.5", "")])[0]


def of_keeper(line: str) -> tuple[bool, list[str]]:
    """A daemon whose client is the one member of a group, and the state that it proposes begins."""
    verb, _, group, *more = [*line.split(" "), "", ""]
    if verb == "join":
        own = f"1.5.{more[0]}.1"
        entry = f"put 1 3.1.5 {group} 0 once join {own} default=reject limit=50"
        return True, [f"asked {own} 1 {group} join", entry, f"heard {own} 3.1.5 {group} 0 once-join {own} ="]
    return True, ["noted 1.a 3.1.5 HostMembership - 1.5 ="] if verb == "subscribe" else []


def test_a_value_sees_by_its_entry_whose_change_begins(daemon: FakeDaemon) -> None:
    """And asks nothing of the group to find that out."""
    daemon.answer = of_keeper
    with Client(settings_of(daemon.port), 1, "a") as client, Value(client, "x") as value:
        assert value.get() is None
        own = str(value._keeper.own)

        def answer(line: str) -> tuple[bool, list[str]]:
            verb, _, group, *more = [*line.split(" "), "", ""]
            if verb == "state":
                spelled = more[1].replace("~", "%7E")
                lines = [f"asked {own} 2 {group} state", f"put 1 3.1.5 {group} 1 begin state 2.6.8.1/9 =foreign"]
                lines += [f"heard {own} 3.1.5 {group} 1 begin-state {own} ="]
                lines += [f"put 1 3.1.5 {group} 2 reject 3.1.5/1 1 {own}=A"]
                lines += [f"heard {own} 3.1.5 {group} 2 reject {own} ="]
                lines += [f"put 1 3.1.5 {group} 3 begin state {own}/2 ={spelled}"]
                lines += [f"heard {own} 3.1.5 {group} 3 begin-state {own} ="]
                lines += [f"put 1 3.1.5 {group} 4 approve 3.1.5/3 1 {own}=A -"]
                return True, [*lines, f"heard {own} 3.1.5 {group} 4 approve {own} ={spelled}"]
            return True, []

        daemon.answer = answer
        assert value.compare_and_set(None, "red") == Token(View(3, 1, 5), 4)
        assert value.get() == b"red"
    verbs = [line.split(" ")[0] for line in daemon.calls]
    assert "message" not in verbs and verbs.count("state") == 1 and "expel" not in verbs


DAEMON = "hagsd 1.5 version=0.2.0 settings={} turns=900 ticks=80 received=70 strays=2 sent=60 failed=1 keys=1 ended=4\n"


def written(settings: str, folder: Path) -> str:
    file = folder / "settings"
    file.write_text(settings)
    return str(file)


@pytest.fixture
def one_node(daemon: FakeDaemon, tmp_path: Path) -> str:
    """The file of settings in which that daemon is node 1."""
    return written(f"node 1\nadapter 1 1 127.0.0.1\nport {daemon.port - 1}\nbegin\n", tmp_path)


def test_check_compares_settings_and_versions(
    daemon: FakeDaemon, one_node: str, capsys: pytest.CaptureFixture[str]
) -> None:
    own = Settings.read(one_node)
    daemon.of_itself["hagsd"] = DAEMON.format(own.digest)
    main(["--settings", one_node, "check"])
    assert "settings" not in capsys.readouterr().out.replace("settings have not", "")
    daemon.of_itself["hagsd"] = DAEMON.format("0123456789abcdef")
    assert main(["--settings", one_node, "check"]) == PARTED
    said = capsys.readouterr().out
    assert f"node 1: started with other settings (0123456789abcdef) than these ({own.digest})" in said
    daemon.of_itself.clear()
    main(["--settings", one_node, "check"])
    assert "Not compared of node 1: settings and version, which an older daemon" in capsys.readouterr().out


def test_versions_that_differ_are_named() -> None:
    said = {node: daemon_of([DAEMON.format("x").strip().replace("1.5 ", f"{node}.5 ")]) for node in (1, 2, 3)}
    assert faults_of_versions(said) == [] and said[2].node == 2 and said[2].ended == 4
    said[3] = said[3]._replace(version="0.3.0")
    assert "0.2.0 at node 1,2; 0.3.0 at node 3" in faults_of_versions(said)[0]
    assert len(faults_of_settings(Settings.parse("node 1\nbegin\n"), said)) == 1


CLIENTS = (
    "hagscl a key=7 silent=12 unread=3 members=1.5.7.1,1.5.8.2\n"
    "hagscl own key=- silent=- unread=- members=-\n"
)


def test_clients_are_shown(daemon: FakeDaemon, one_node: str, capsys: pytest.CaptureFixture[str]) -> None:
    daemon.of_itself["hagscl"] = CLIENTS
    assert main(["--settings", one_node, "clients"]) == WHOLE
    assert capsys.readouterr().out == (
        "node  client  key  silent  unread  members\n"
        "1     a       7    1.2 s   3       1.5.7.1,1.5.8.2\n"
        "1     own     -    -       -       -\n"
    )
    assert main(["--settings", one_node, "clients", "--json"]) == WHOLE
    [first, second] = json.loads(capsys.readouterr().out)["1"]
    assert first == {"name": "a", "key": 7, "silent": 12, "unread": 3, "members": ["1.5.7.1", "1.5.8.2"]}
    assert second["key"] is None and second["members"] == []
    daemon.of_itself["hagscl"] = ""
    assert main(["--settings", one_node, "clients"]) == WHOLE
    assert capsys.readouterr().out == "node  client  key  silent  unread  members\n"


def test_an_older_daemon_and_one_that_is_down_are_told_apart(
    daemon: FakeDaemon, one_node: str, capsys: pytest.CaptureFixture[str]
) -> None:
    assert main(["--settings", one_node, "clients"]) == PARTED
    assert "node 1: its daemon is an older one" in capsys.readouterr().err
    daemon.is_silent = True
    assert main(["--settings", one_node, "clients"]) == NO_ANSWER
    assert "node 1: no answer" in capsys.readouterr().err


def test_a_lock_that_is_not_held_says_so(daemon: FakeDaemon) -> None:
    with Client(settings_of(daemon.port), 1) as client:
        lock = Lock(client, "x")
        assert not lock.is_held
        with pytest.raises(LockLost, match="never held"):
            lock.token
        with pytest.raises(BadArgument, match="a client of its own"):
            Lock(client, "x")
        lock.close()
        Lock(client, "x").close()


def test_the_nodes_are_watched_from_the_beginning(daemon: FakeDaemon) -> None:
    with Client(settings_of(daemon.port, nodes=3), 1, "a") as client, Watch(client) as watch:
        first = watch.next_change(10)
        assert first and first.is_first and [it.node for it in first.members] == [1, 2, 3]
        daemon.hear("noted 1.a 4.1.5 HostMembership - 1.5,2.5 =")
        change = watch.next_change(10)
        assert change and not change.is_first and change.left == (Host(3, 5),) and change.joined == ()
