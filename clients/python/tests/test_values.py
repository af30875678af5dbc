"""Settings, ids, events and the lines of calls, as values."""

from __future__ import annotations

import hashlib
from pathlib import Path

import pytest

from hags import (
    Attributes,
    BadArgument,
    BadSettings,
    Entered,
    Host,
    Hosts,
    Member,
    Proposal,
    Row,
    Settings,
    Token,
    View,
    calls,
)
from hags.events import event_of, line_of

ADAPTERS = "adapter 1 1 10.0.0.1\nadapter 2 1 10.0.0.2\nadapter 2 2 10.2.0.2\n"
THREE = f"# three\nnode 1\nnode 2\n{ADAPTERS}hb 2 5\nport 400\nbegin\nx"

EVENTS = [
    "asked 1.5.7.1 1 db join",
    "heard 1.5.7.1 3.1.5 db 0 once-join 1.5.7.1 =",
    "heard 1.5.7.1 3.1.5 db 12 begin-join - =%00%20%25~,=",
    "heard 2.1.1.1 4.2.1 db 1 phase 1.5.7.1,2.1.1.1 =red",
    "cast 1.5.7.1 3.1.5/0 1 A",
    "cast 1.5.7.1 3.1.5/0 200 C=%7Ba%7D".replace("%7B", "{").replace("%7D", "}"),
    "cast 1.5.7.1 3.1.5/0 2 R=",
    "told 1.5.7.1 3 COLLIDE 3.1.5/2",
    "told 1.5.7.1 0 DISSOLVED",
    "noted 1.a 3.1.5 db - 1.5.7.1 =x",
    "noted 1.a 3.1.5 db 4 - =",
    "noted 1.a 3.1.5 HostMembership - 1.5,2.6 =",
    "put 1 3.1.5 db 0 once join 1.5.7.1",
    "put 1 3.1.5 db 0 begin join 1.5.7.1,2.6.8.1 phases=n batch=both default=reject limit=20 source=disk src=4",
    "put 1 3.1.5 db 1 begin leave 1.5.7.1/2",
    "put 1 3.1.5 db 2 once fail 2.6.8.1:died,3.1.1.1:gone,3.1.2.2:cast",
    "put 2 3.1.5 db 3 begin expel 1.5.7.1/3 2.6.8.1,3.1.1.1",
    "put 2 3.1.5 db 4 once state 1.5.7.1/4 =%00a%20%25~",
    "put 2 3.1.5 db 5 once state 1.5.7.1/4 =",
    "put 2 3.1.5 db 6 begin message 1.5.7.1/5 =a,b=c",
    "put 2 3.1.5 db 7 once attrs 1.5.7.1/6",
    "put 2 3.1.5 db 7 once attrs 1.5.7.1/6 sphases=n slimit=10000",
    "put 2 3.1.5 db 8 begin reflect 3.1.5/12 =red",
    "put 2 3.1.5 db 9 phase 3.1.5/8 1 1.5.7.1=A,2.6.8.1=C =",
    "put 2 3.1.5 db 10 phase 3.1.5/8 2 - -",
    "put 2 3.1.5 db 11 approve 3.1.5/8 3 1.5.7.1=LA,2.6.8.1=FA =new",
    "put 2 3.1.5 db 12 reject 3.1.5/8 200 1.5.7.1=R,2.6.8.1=LR,3.1.1.1=FR",
    "put 2 3.1.5 db 13 late 3.1.5/8 1 1.5.7.1,2.6.8.1",
]


@pytest.mark.parametrize("line", [it for it in EVENTS if it != "cast 1.5.7.1 3.1.5/0 2 R="])
def test_events_are_spelled_as_they_are_read(line: str) -> None:
    assert line_of(event_of(line)) == line


def test_an_event_has_its_parts() -> None:
    heard = event_of("heard 1.5.7.1 3.1.5 db 12 begin-join - =%00 ".rstrip())
    assert heard[1:] == (View(3, 1, 5), "db", 12, "begin-join", (), b"\0")
    noted = event_of("noted 1.a 3.1.5 HostMembership - 1.5,2.6 =")
    assert noted == Hosts("1.a", View(3, 1, 5), (Host(1, 5), Host(2, 6)))
    assert event_of("cast 1.5.7.1 3.1.5/0 1 A")[4] is None
    assert event_of("cast 1.5.7.1 3.1.5/0 1 C=")[4] == b""


def test_an_entry_has_its_parts() -> None:
    where, ann, bob = (2, View(3, 1, 5), "db", 4), Member(1, 5, 7, 1), Member(2, 6, 8, 1)
    join = event_of("put 2 3.1.5 db 4 begin join 1.5.7.1,2.6.8.1 phases=n source=disk src=4 more=5")
    attributes = Attributes(by_vote=True, source="disk")
    proposal = Proposal("join", members=(ann, bob), attributes=attributes, source_length=4)
    assert join == Entered(*where, "begin", proposal)
    said = event_of("put 2 3.1.5 db 4 once message 1.5.7.1/5 =a%20b")
    assert said == Entered(*where, "once", Proposal("message", ann, 5, text=b"a b"))
    failed = event_of("put 2 3.1.5 db 4 once fail 1.5.7.1:died,2.6.8.1:cast")
    assert failed == Entered(*where, "once", Proposal("fail", members=(ann, bob), causes=("died", "cast")))
    closed = event_of("put 2 3.1.5 db 4 approve 3.1.5/2 1 1.5.7.1=A,2.6.8.1=LA =new")
    assert closed == Entered(*where, "approve", None, "3.1.5/2", 1, (Row(ann, "A"), Row(bob, "LA")), (), b"new")


@pytest.mark.parametrize(
    "line",
    ["", "put", "put 1", "put 1 3.1.5 db 4", "put 1 3.1.5 db 4 once", "put 1 3.1.5 db 4 once state 1.5.7.1/4"]
    + ["put 1 3.1.5 db 4 once sing 1.5.7.1/4", "put 1 3.1.5 db 4 begun state 1.5.7.1/4 =x", "asked 1.5.7.1 1"]
    + ["put 1 3.1.5 db 4 phase 3.1.5/2 1", "put 1 3.1.5 db x late 3.1.5/2 1 -", "heard 1.5.7.1", "cast 1.5.7.1 3/0"],
)
def test_other_lines_are_none_of_events(line: str) -> None:
    with pytest.raises(ValueError):
        event_of(line)


def test_ids_are_read_as_they_are_written() -> None:
    for kind, text in ((Member, "1.5.7.2"), (Host, "2.9"), (View, "3.1.7"), (Token, "3.1.7/4")):
        assert str(kind.parse(text)) == text
    for text in ("", "1.2.3", "1.2.3.x", "1.2.3.4.5", "1..2.3", "1.2.3.-4"):
        with pytest.raises(BadArgument):
            Member.parse(text)


def test_tokens_rise_as_their_numbers_do() -> None:
    tokens = [
        Token(View(*view), place)
        for view in ((1, 1, 1), (1, 1, 9), (1, 2, 1), (2, 1, 1))
        for place in (0, 1, 2**32 - 1)
    ]
    assert tokens == sorted(tokens)
    numbers = list(map(int, tokens))
    assert numbers == sorted(set(numbers)) and max(numbers) < 2**104
    keys = [token.key for token in tokens]
    assert keys == sorted(set(keys)) and {len(key) for key in keys} == {26}


def test_settings_are_read() -> None:
    settings = Settings.parse(THREE)
    assert (settings.nodes, settings.port, settings.heartbeat, settings.majority) == ((1, 2), 400, (2, 5), 2)
    assert list(map(str, settings.places(2))) == ["10.0.0.2:402", "10.2.0.2:402"]
    assert settings == Settings.parse(THREE) and settings != Settings.parse(THREE.replace("400", "401"))
    assert str(Settings.parse("node 7\nbegin\n").places(7)[0]) == "10.1.0.7:12354"


def test_settings_have_the_digest_that_daemons_say() -> None:
    text = "node 1\nnode 2\nadapter 1 1 10.0.0.1\nadapter 2 1 10.0.0.2\nadapter 2 2 10.2.0.2\nhb 2 5\nport 400\n"
    digest = hashlib.sha256(text.encode()).hexdigest()[:16]
    spaced = THREE.replace("node 1", "  node   1 ").replace("hb", "\n# beats\nhb")
    assert Settings.parse(THREE).digest == digest == Settings.parse(spaced).digest
    assert Settings.parse(THREE.replace("400", "401")).digest != digest
    shipped = Path(__file__).parents[3] / "examples" / "cluster" / "settings"
    assert Settings.read(shipped).digest == "b7da72dacec04881"  # as docs/formats.md has it


@pytest.mark.parametrize(
    ("text", "said"),
    [
        ("", "name no node"),
        ("nod 1\n", "begins no line of settings"),
        ("node 33\n", "a node is a number from 1 to 32"),
        ("node 01\n", "a node is a number"),
        ("node 1\nnode 1\n", "line 2, `node 1`: node 1 stands there already"),
        ("node 1\nadapter 1 1 10.0.0.300\n", "four numbers from 0 to 255"),
        ("node 1\nadapter 1 5 10.0.0.3\n", "a network is a number from 1 to 4"),
        ("node 1\nadapter 2 1 10.0.0.3\n", "no line `node 2`"),
        ("node 1\nport 65001\n", "a port is a number from 1 to 65,000"),
        ("node 1\nmode fixed\n", "mode rings"),
        ("node 1 2\n", "write `node N`"),
    ],
)
def test_faulty_settings_say_what_to_write(text: str, said: str) -> None:
    with pytest.raises(BadSettings, match=said.replace("(", r"\(")):
        Settings.parse(text)


def test_settings_have_no_other_node() -> None:
    with pytest.raises(BadSettings, match="no node 9. Nodes there: 1, 2"):
        Settings.parse(THREE).places(9)


def test_lines_of_calls() -> None:
    all_of_them = Attributes(True, "both", "reject", 20, "disk", True, 30)
    words = "phases=n batch=both default=reject limit=20 source=disk sphases=n slimit=30"
    assert calls.join_line("db", all_of_them, 7) == f"join {{}} db 7 {words}"
    assert calls.join_line("db", Attributes(), 7) == "join {} db 7"
    assert calls.state_line("db", "a b%~", True) == "state {} db n a%20b%25~"
    assert calls.state_line("db", b"", False) == "state {} db 1 ~"
    assert calls.state_line("db", "~", False) == "state {} db 1 %7E"
    assert calls.vote_line("db", "C", b"\0") == "vote {} db C=%00"
    assert calls.expel_line("db", "1.5.7.1", False) == calls.expel_line("db", [Member(1, 5, 7, 1)], False)


@pytest.mark.parametrize(
    "make",
    [
        lambda: calls.join_line("a b", Attributes(), 1),
        lambda: calls.join_line("x" * 33, Attributes(), 1),
        lambda: calls.join_line("db", Attributes(), 0),
        lambda: calls.join_line("db", Attributes(limit=-1), 1),
        lambda: calls.join_line("db", Attributes(default="no"), 1),
        lambda: calls.state_line("db", 5, False),
        lambda: calls.state_line("db", None, False),
        lambda: calls.vote_line("db", "yes", None),
        lambda: calls.expel_line("db", [], False),
        lambda: calls.client_name("a" * 17),
        lambda: calls.line_bytes("message a db 1 " + "%20" * 1024),
    ],
)
def test_bad_arguments_are_told_before_anything_is_sent(make: object) -> None:
    with pytest.raises(BadArgument):
        make()  # type: ignore[operator]
