"""Sessions and their bytes, without a socket."""

from __future__ import annotations

import random
import struct

import pytest

from hags import BadArgument, DaemonFull, SessionEnded, SessionLost
from hags.session import IDLE, LONGEST_IDLE, Question, Session
from hags.settings import Place
from hags.wire import QUESTIONS, Joiner, Reply, datagram_of, message_of, query_of, up_of

PLACES = [Place(1, "127.0.0.1", 1), Place(2, "127.0.1.1", 1)]
HEAD = "01 5250 00 00 00000000 0000000000000001 00000000 00000001 "
UP = HEAD + "52530100 00000007 00000001 00000000 000C 636C69656E7420312061202D"
DOWN = "01 5250 01 00 00000005 0000000000000001 00000000 00000001 52530200 00000007 00000005 00000001 01 00000001 00"


def down(
    session: Session, number: int, done: int, first: int, events: list[str], answer: int = 1, incarnation: int = 5
) -> bytes:
    """A Down as a datagram, the message of this number of node 1."""
    message = b"RS\2\0" + session.key + struct.pack(">IIBIB", incarnation, done, answer, first, len(events))
    message += b"".join(struct.pack(">H", len(it)) + it.encode() for it in events)
    return b"\1" + struct.pack(">2sBBIQII", b"RP", 1, 0, incarnation or 5, number, 0, 1) + message


def opened() -> Session:
    session = Session(1, PLACES, 0.0)
    session.begin("client 1 a -")
    session.take(down(session, 1, 1, 1, []), 0.0)
    assert session.is_settled and session.taken and session.incarnation == 5
    return session


def test_the_datagrams_of_the_page() -> None:
    session = Session(1, PLACES, 0.0)
    session.key = bytes.fromhex("00000007")
    session.begin("client 1 a -")
    [(place, datagram)] = session.datagrams(0.0)
    assert (place, datagram) == (PLACES[0], bytes.fromhex(UP))
    session.take(bytes.fromhex(DOWN), 0.0)
    assert session.is_settled and session.taken


def test_events_are_heard_once_and_in_order() -> None:
    session = opened()
    lines = [f"told 1.5.7.1 {number} DISSOLVED" for number in range(40)]
    chance = random.Random(1)
    downs = [
        down(session, number, 1, first, lines[first - 1 : first + 15]) for number, first in enumerate(range(1, 26), 2)
    ]
    for _ in range(200):
        for number, datagram in enumerate(chance.sample(downs, len(downs))):
            # each as a newer message, as daemons number them
            session.take(
                datagram[:9] + struct.pack(">Q", 1000 + chance.randrange(10**9) + number) + datagram[17:], 0.0
            )
    assert [event[1] for event in session.events] == sorted(event[1] for event in session.events)
    assert len({event[1] for event in session.events}) == len(session.events)


def test_an_answer_waits_for_the_events_of_its_call() -> None:
    session = opened()
    session.begin("subscribe a db")
    lines = [f"told 1.5.7.1 {number} DISSOLVED" for number in range(16)]
    session.take(down(session, 2, 2, 1, lines, answer=2), 0.0)
    assert not session.is_settled
    session.take(down(session, 3, 2, 17, ["refused 1.a UNKNOWN_GROUP"], answer=2), 0.0)
    assert session.is_settled and not session.taken and session.why == "UNKNOWN_GROUP"
    assert len(session.events) == 16


def test_lines_of_daemons_to_come_are_borne() -> None:
    session = opened()
    known = "heard 1.5.7.1 3.1.5 db 0 once-state 1.5.7.1 =red"
    session.take(down(session, 2, 1, 1, ["entirely new", f"{known} once state 1.5.7.1/2 =red", known]), 0.0)
    first, second = session.events
    assert first == second and first[-1] == b"red"


def test_a_daemon_that_was_started_anew_is_told() -> None:
    session = opened()
    with pytest.raises(SessionLost, match="5 is 6 now"):
        session.take(down(session, 1, 1, 1, [], incarnation=6), 0.0)


def test_a_full_daemon_is_told() -> None:
    session = Session(1, PLACES, 0.0)
    session.begin("client 1 a -")
    with pytest.raises(DaemonFull, match="another node"):
        session.take(down(session, 1, 0, 1, [], answer=3), 0.0)


@pytest.mark.parametrize("has_answered", [True, False])
def test_a_session_that_was_ended_for_its_silence_is_told(has_answered: bool) -> None:
    session = opened() if has_answered else Session(1, PLACES, 0.0)
    with pytest.raises(SessionEnded, match="Join again"):
        session.take(down(session, 2, 0, 1, [], answer=3, incarnation=0), 0.0)


@pytest.mark.parametrize("idle", [IDLE, LONGEST_IDLE])
def test_no_daemon_ends_a_client_that_lives(idle: float) -> None:
    """The shortest silence that a daemon may be told is a second, and that of daemons as they are shipped five."""
    session = Session(1, PLACES, 0.0, idle)
    session.begin("client 1 a -")
    session.take(down(session, 1, 1, 1, []), 0.0)
    sent = [at / 100 for at in range(6000) if session.datagrams(at / 100)]
    assert max(after - before for before, after in zip(sent, sent[1:])) <= idle + 0.011
    for wrong in (0, 1.5, 5):
        with pytest.raises(BadArgument, match="idle is from"):
            Session(1, PLACES, 0.0, wrong)


def test_all_networks_are_tried_where_the_daemon_is_silent() -> None:
    session = opened()
    used = [place.network for at in range(40) for place, _ in session.datagrams(at / 10)]
    assert used[0] == 1 and {1, 2} == set(used[5:])
    answer = bytearray(down(session, 2, 1, 1, []))
    answer[0] = 2
    session.take(bytes(answer), 4.0)
    assert {place.network for at in range(4) for place, _ in session.datagrams(4.0 + at * IDLE)} == {2}


def test_a_client_at_rest_is_quiet() -> None:
    session = Session(1, PLACES[:1], 0.0, idle=0.25)
    session.begin("client 1 a -")
    session.take(down(session, 1, 1, 1, []), 0.0)
    sent = [at for at in range(11_000) if session.datagrams(at / 1000)]
    assert sum(at >= 1000 for at in sent) <= 41  # in ten seconds


def test_questions_that_a_daemon_is_asked_of_itself() -> None:
    assert query_of(1, 3, 7, "hagscl") == bytes.fromhex("5249 01 01 00000007")
    assert query_of(1, 3, 256, "hagsd") == bytes.fromhex("5249 01 02 00000100")
    reply = message_of(bytes.fromhex("5249 02 02 00000007") + b"a\n")
    assert reply == Reply(7, "a\n", "hagsd")
    assert [what for what in QUESTIONS if reply.answers(what, 7)] == ["hagsd"] and not reply.answers("hagsd", 8)
    packet = message_of(b"RG\1\x17" + bytes(12) + b"\0\0\0\7hats")
    assert isinstance(packet, Reply) and packet.answers("hats", 7) and not packet.answers("hagsd", 7)
    assert message_of(bytes.fromhex("5249 02 03 00000007")) is None and message_of(b"RI\2\1\0\0") is None


def test_noise_is_nothing() -> None:
    session, chance = opened(), random.Random(2)
    question = Question(1, PLACES, "hagsns", lambda _: pytest.fail("an answer of noise"))
    good = down(session, 3, 1, 1, ["told 1.5.7.1 1 DISSOLVED"])
    for _ in range(20_000):
        noise = bytearray(good if chance.random() < 0.7 else chance.randbytes(chance.randrange(80)))
        for _ in range(chance.randrange(1, 4)):
            if noise:
                noise[chance.randrange(len(noise))] ^= 1 << chance.randrange(8)
        del noise[chance.randrange(len(noise) + 1) :]
        message_of(bytes(noise))
        question.take(bytes(noise))
    assert message_of(good[25:]) is not None


def test_pieces_join_in_any_order() -> None:
    message, chance = random.Random(3).randbytes(5000), random.Random(4)
    pieces = [message[at : at + 1176] for at in range(0, 5000, 1176)]
    for number in range(1, 50):
        joiner = Joiner(1)
        heads = [struct.pack(">2sBBIQII", b"RP", 1, 0, 5, number, at, len(pieces)) for at in range(len(pieces))]
        whole = [head + piece for head, piece in zip(heads, pieces)] * 2
        chance.shuffle(whole)
        assert [it for it in map(joiner.take, whole) if it] == [message]


def test_an_up_is_one_piece() -> None:
    assert datagram_of(1, 1, up_of(b"\0\0\0\7", 1, 0, b"client 1 a -")) == bytes.fromhex(UP)
