"""Clients with a daemon of the test's own."""

from __future__ import annotations

import asyncio
import resource
import select
import socket
import threading
import time
from contextlib import ExitStack

import pytest

from fake import Answer, FakeDaemon, settings_of
from hags import (
    AsyncClient,
    BadArgument,
    CallRefused,
    Client,
    ClientClosed,
    Entered,
    HagsError,
    Member,
    NoReply,
    Noted,
    Rejected,
    SessionEnded,
    SessionLost,
    TimedOut,
    View,
)


def joins(line: str) -> Answer:
    """What comes of a join: this client is the one member."""
    verb, _, group, *more = [*line.split(" "), "", ""]
    if verb == "join":
        own = f"1.5.{more[0]}.1"
        return True, [f"asked {own} 1 {group} join", f"heard {own} 3.1.5 {group} 0 once-join {own} ="]
    return True, [f"asked 1.5.7.1 2 {group} {verb}"] if verb in ("state", "leave", "message") else []


def test_join_waits_until_it_is_a_member(daemon: FakeDaemon) -> None:
    daemon.answer = joins
    with Client(settings_of(daemon.port), 1, "a") as client:
        assert client.join("db", instance=7) == Member(1, 5, 7, 1)
        membership = client.membership("db")
        assert membership and membership.is_member and membership.members == (Member(1, 5, 7, 1),)
        assert client.state("db", "red").kind == "state"
        assert [type(event).__name__ for event in client.events(0.1)] == ["Asked", "Heard", "Asked"]
    assert daemon.calls[0] == "client 1 a -" and daemon.calls[-1] == "goodbye a"


ENTRY = "put 1 3.1.5 db"
HEARD = "heard 1.5.7.1 3.1.5 db"


def test_an_entry_comes_before_it_is_heard(daemon: FakeDaemon) -> None:
    daemon.answer = joins
    with Client(settings_of(daemon.port), 1, "a") as client:
        client.join("db", instance=7)
        lines = [f"{ENTRY} 1 once message 2.6.8.1/4 =a%20text", f"{HEARD} 1 once-message 1.5.7.1 ="]
        lines += [f"{ENTRY} 2 begin state 2.6.8.1/5 =red", f"{HEARD} 2 begin-state 1.5.7.1 ="]
        for line in lines:
            daemon.hear(line)
        events = [event for event in client.events(0.2)][2:]
        assert [type(event).__name__ for event in events] == ["Entered", "Heard"] * 2
        message, vote = events[0], events[2]
        assert isinstance(message, Entered) and message.proposal and message.proposal.text == b"a text"
        assert isinstance(vote, Entered) and vote.proposal and vote.proposal.asker == Member(2, 6, 8, 1)
        membership = client.membership("db")
        assert membership and membership.proposal == vote.proposal
        for line in (f"{ENTRY} 3 phase 3.1.5/2 1 1.5.7.1=C =blue", f"{HEARD} 3 phase 1.5.7.1 ="):
            daemon.hear(line)
        assert len(list(client.events(0.2))) == 2
        membership = client.membership("db")
        assert membership and membership.proposal and membership.proposal.value == b"blue"
        for line in (f"{ENTRY} 4 approve 3.1.5/2 2 1.5.7.1=A -", f"{HEARD} 4 approve 1.5.7.1 =blue"):
            daemon.hear(line)
        assert len(list(client.events(0.2))) == 2
        membership = client.membership("db")
        assert membership and membership.proposal is None and membership.value == b"blue"


def test_a_session_that_was_ended_is_told_once_and_another_begins(daemon: FakeDaemon) -> None:
    daemon.answer = joins
    with Client(settings_of(daemon.port), 1, "a") as client:
        client.join("db", instance=7)
        assert len(list(client.events(0.2))) == 2
        daemon.end()
        with pytest.raises(SessionEnded, match="Join again"):
            client.next_event(10)
        assert client.membership("db") is None
        client.join("db", instance=7)
        assert client.name == "a" and client.is_open
    assert [line for line in daemon.calls if line.startswith("client ")] == ["client 1 a -"] * 2


def test_a_dissolved_join_is_made_again(daemon: FakeDaemon) -> None:
    tries = []

    def answer(line: str) -> Answer:
        if line.startswith("join ") and not tries:
            tries.append(line)
            return True, ["asked 1.5.7.1 1 db join", "told 1.5.7.1 1 DISSOLVED"]
        return joins(line)

    daemon.answer = answer
    with Client(settings_of(daemon.port), 1) as client:
        assert client.join("db", instance=7).instance == 7
    assert sum(line.startswith("join ") for line in daemon.calls) == 2


@pytest.mark.parametrize(
    ("lines", "error", "said"),
    [
        (["told 1.5.7.1 1 BAD_GROUP_ATTRIBUTES"], CallRefused, "All members give the same ones"),
        (
            ["heard 1.5.7.1 3.1.5 db 0 begin-join - =", "heard 1.5.7.1 3.1.5 db 1 reject - ="],
            Rejected,
            "rejected the join",
        ),
        ([], TimedOut, "the join of db to be decided"),
    ],
)
def test_joins_that_fail_say_why(daemon: FakeDaemon, lines: list[str], error: type[HagsError], said: str) -> None:
    daemon.answer = lambda line: (True, ["asked 1.5.7.1 1 db join", *lines] if line.startswith("join") else [])
    with Client(settings_of(daemon.port), 1) as client, pytest.raises(error, match=said):
        client.join("db", instance=7, seconds=0.3)


def test_refusals_have_their_code_and_what_to_do(daemon: FakeDaemon) -> None:
    daemon.answer = lambda line: (line.startswith("client"), ["refused 1.a EXISTS"] if line.startswith("join") else [])
    with Client(settings_of(daemon.port), 1, "a") as client:
        with pytest.raises(CallRefused, match="Use that one, or take another name") as refused:
            client.join("db")
        assert refused.value.code == "EXISTS"
        with pytest.raises(CallRefused, match="may make no such call") as refused:
            client.call("flow")
        assert refused.value.code == ""


def test_polling_with_0_hears(daemon: FakeDaemon) -> None:
    with Client(settings_of(daemon.port), 1) as client:
        daemon.hear("noted 1.a 3.1.5 db 4 - =x")
        end = time.monotonic() + 10
        while (event := client.next_event(0)) is None:
            assert time.monotonic() < end
            time.sleep(0.001)
        assert event[-1] == b"x"
        assert client.silence() < 1


def test_the_descriptor_is_readable_while_an_event_waits(daemon: FakeDaemon) -> None:
    with Client(settings_of(daemon.port), 1) as client:
        assert not select.select([client], [], [], 0.1)[0]
        for text in ("x", "y"):
            daemon.hear(f"noted 1.a 3.1.5 db 4 - ={text}")
        assert select.select([client], [], [], 10)[0]
        while client.next_event(0.2):
            pass
        assert not select.select([client], [], [], 0.1)[0]


def test_a_closed_client_says_so(daemon: FakeDaemon) -> None:
    client = Client(settings_of(daemon.port), 1)
    client.close()
    client.close()
    for use in (
        lambda: client.next_event(0),
        lambda: client.join("db"),
        client.fileno,
        lambda: client.status("hagsns"),
    ):
        with pytest.raises(ClientClosed, match="Make another one"):
            use()
    assert not client.is_open


def test_close_ends_what_waits(daemon: FakeDaemon) -> None:
    client = Client(settings_of(daemon.port), 1)
    ended: list[HagsError] = []

    def wait() -> None:
        with pytest.raises(ClientClosed):
            client.next_event()
        ended.append(ClientClosed())

    thread = threading.Thread(target=wait)
    thread.start()
    client.close()
    thread.join(10)
    assert ended


def test_a_daemon_started_anew_is_told_once(daemon: FakeDaemon) -> None:
    daemon.answer = joins
    with Client(settings_of(daemon.port), 1, "a") as client:
        client.join("db", instance=7)
        daemon.restart()
        heard = []
        with pytest.raises(SessionLost, match="5 is 6 now"):
            while True:
                heard.append(client.next_event(10))
        assert len(heard) == 2 and client.membership("db") is None
        assert client.next_event(0.1) is None
        assert client.join("db", instance=8).instance == 8


def test_a_call_that_is_told_it_drops_what_was_heard_before(daemon: FakeDaemon) -> None:
    daemon.answer = joins
    with Client(settings_of(daemon.port), 1, "a", reopen=False) as client:
        client.join("db", instance=7)
        daemon.is_silent = True
        daemon.restart()
        asking = threading.Timer(0.1, lambda: setattr(daemon, "is_silent", False))
        asking.start()
        with pytest.raises(SessionLost):
            client.state("db", "x")
        with pytest.raises(SessionLost):
            client.next_event(0.1)
        with pytest.raises(SessionLost):
            client.look("db")
        client.open()
        assert client.next_event(0.1) is None and client.is_open


def test_nobody_there_is_said_with_address_and_port() -> None:
    with socket.socket(socket.AF_INET, socket.SOCK_DGRAM) as free:
        free.bind(("127.0.0.1", 0))
        port = free.getsockname()[1]
        with pytest.raises(NoReply, match=f"no daemon of node 1 with --remote answers at 127.0.0.1:{port}"):
            Client(settings_of(port), 1, seconds=0.2)


def test_a_call_without_an_answer_goes_on(daemon: FakeDaemon) -> None:
    with Client(settings_of(daemon.port), 1, seconds=5) as client:
        daemon.is_silent, client.seconds = True, 0.2
        with pytest.raises(NoReply, match="goes on"):
            client.subscribe("db")
        with pytest.raises(NoReply, match="was not sent"):
            client.subscribe("other")
        daemon.is_silent, client.seconds = False, 5
        client.subscribe("third")
        assert [line.split(" ")[2] for line in daemon.calls if line.startswith("subscribe")] == ["db", "third"]


def test_lost_datagrams_come_again(daemon: FakeDaemon) -> None:
    daemon.answer = joins
    with Client(settings_of(daemon.port), 1) as client:
        for count in range(5):
            daemon.lose = count
            client.subscribe(f"g{count}")
    assert [line.split(" ")[2] for line in daemon.calls if line.startswith("subscribe")] == [
        f"g{it}" for it in range(5)
    ]


def test_the_second_network_is_tried(daemon: FakeDaemon) -> None:
    settings = settings_of(daemon.port, "adapter 1 2 127.0.0.1").places(1)
    assert [place.network for place in settings] == [1, 2]
    away = settings_of(daemon.port, "adapter 1 2 127.0.0.1", nodes=1)
    moved = type(away)(
        away.nodes,
        tuple(it._replace(address="127.0.0.99") if it.network == 1 else it for it in away.adapters),
        away.port,
    )
    with Client(moved, 1, seconds=5) as client:
        client.subscribe("db")
    assert set(daemon.networks) == {2}


def test_another_daemon_is_tried() -> None:
    with ExitStack() as stack:
        first = FakeDaemon("127.0.0.1", 0, 1, joins)
        stack.callback(first.close)
        try:
            second = FakeDaemon("127.0.0.2", first.port + 1, 2, joins)
        except OSError:
            pytest.skip("the port beside it is taken")
        stack.callback(second.close)
        settings = settings_of(first.port, nodes=2)
        with Client(settings, patience=1.5, seconds=20) as client:
            client.join("db", instance=7)
            assert client.node == 1
            first.is_silent = True
            with pytest.raises(SessionLost, match="that of node 2 is tried"):
                while True:
                    client.next_event(5)
            client.join("db", instance=7)
            assert client.node == 2 and second.calls[0].startswith("client 2 ")
            first.is_silent = False
            end = time.monotonic() + 10
            while not any(line.startswith("goodbye") for line in first.calls):
                assert time.monotonic() < end
                time.sleep(0.01)


def test_threads_share_a_client(daemon: FakeDaemon) -> None:
    daemon.answer = joins
    with Client(settings_of(daemon.port), 1) as client:
        threads = [
            threading.Thread(target=lambda at=at: [client.subscribe(f"g{at}") for _ in range(20)]) for at in range(8)
        ]
        for thread in threads:
            thread.start()
        for thread in threads:
            thread.join(30)
    assert sum(line.startswith("subscribe") for line in daemon.calls) == 160


def test_more_than_1024_descriptors(daemon: FakeDaemon) -> None:
    soft, hard = resource.getrlimit(resource.RLIMIT_NOFILE)
    if hard < 1200:
        pytest.skip("this system lets a process have no more than 1,200 descriptors")
    resource.setrlimit(resource.RLIMIT_NOFILE, (max(soft, 1200), hard))
    with ExitStack() as stack:
        for _ in range(1050):
            stack.enter_context(socket.socket(socket.AF_INET, socket.SOCK_DGRAM))
        with Client(settings_of(daemon.port), 1) as client:
            client.subscribe("db")
            assert client.fileno() > 1024


def test_status_and_hosts(daemon: FakeDaemon) -> None:
    with Client(settings_of(daemon.port, nodes=3), 1) as client:
        began = time.monotonic()
        assert client.status("hagsns", seconds=60) == ["hagsns 3.1.5 coord=1 members=1.5,2.5,3.5 frozen=no"]
        assert time.monotonic() - began < 30  # it ends with the answer
        hosts = client.hosts()
        assert hosts and [host.node for host in hosts.hosts] == [1, 2, 3] and client.has_majority()
        with pytest.raises(BadArgument):
            client.status("all")
        with pytest.raises(NoReply, match="node 2 does not answer"):
            client.status("hagsns", node=2, seconds=0.1)


def test_look(daemon: FakeDaemon) -> None:
    daemon.groups = (
        "hagsgr a leader=? len=0 members=- value=\nhagsgr db leader=1 len=3 members=1.5.7.1,2.5.8.2 value=a%20b\n"
    )
    members = (Member(1, 5, 7, 1), Member(2, 5, 8, 2))
    with Client(settings_of(daemon.port, nodes=3), 1, "a") as client:
        assert client.look("db") == Noted("1.a", View(3, 1, 5), "db", 2, members, b"a b")
        assert client.look("a") == Noted("1.a", View(3, 1, 5), "a", None, (), b"")
        assert client.look("b") is None
        daemon.views = ["3.1.5", "4.1.5"]
        found = client.look("db")
        assert found and found.view == View(4, 1, 5)
        with pytest.raises(BadArgument):
            client.look("d b")


def test_settings_given_in_another_way() -> None:
    with pytest.raises(BadArgument, match="Settings.parse"):
        Client("node 1\nbegin\n", 1)
    with pytest.raises(OSError):
        Client("/nowhere/settings", 1)
    with pytest.raises(BadArgument, match="a node is a number"):
        Client(settings_of(2), "1")  # type: ignore[arg-type]


def test_asyncio(daemon: FakeDaemon) -> None:
    daemon.answer = joins

    async def use() -> None:
        async with AsyncClient(settings_of(daemon.port, nodes=3), 1, "a") as client:
            daemon.groups = "hagsgr db leader=1 len=1 members=1.5.7.1 value=x\n"
            found = await client.look("db")
            assert found and (found.place, found.value) == (0, b"x") and await client.look("b") is None
            assert await client.join("db", instance=7) == Member(1, 5, 7, 1)
            assert [type(event).__name__ async for event in client.events(0.1)] == ["Asked", "Heard"]
            waiting = asyncio.create_task(client.next_event(10))
            await asyncio.sleep(0.05)
            daemon.hear("noted 1.a 3.1.5 db 4 - =x")
            heard = await waiting
            assert heard and heard[-1] == b"x" and await client.has_majority()
            daemon.restart()
            with pytest.raises(SessionLost):
                await client.next_event(10)
            await client.join("db", instance=8)
        with pytest.raises(ClientClosed):
            await client.next_event(0)

    asyncio.run(use())
    assert daemon.calls[-1] == "goodbye a"


def test_asyncio_hears_entries_and_that_its_session_was_ended(daemon: FakeDaemon) -> None:
    daemon.answer = joins

    async def play() -> None:
        async with AsyncClient(settings_of(daemon.port), 1, "a") as client:
            await client.join("db", instance=7)
            daemon.hear(f"{ENTRY} 1 once message 2.6.8.1/4 =hello")
            daemon.hear(f"{HEARD} 1 once-message 1.5.7.1 =")
            events = [event async for event in client.events(0.2)]
            assert isinstance(events[2], Entered) and events[2].proposal and events[2].proposal.text == b"hello"
            daemon.end()
            with pytest.raises(SessionEnded):
                await client.next_event(10)
            assert client.membership("db") is None
            await client.join("db", instance=7)

    asyncio.run(play())
    with pytest.raises(BadArgument, match="idle is from"):
        asyncio.run(AsyncClient(settings_of(daemon.port), 1, "a", idle=5).open())
