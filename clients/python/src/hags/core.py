"""What a Client and an AsyncClient have in common: the calls that wait for their turn, the groups of which the client
is a member, the recipes that look after theirs, and which daemon is used. It is for one thread at a time."""

from __future__ import annotations

import time
from collections import deque
from collections.abc import Callable, Sequence
from concurrent.futures import Future
from dataclasses import dataclass
from typing import Optional, Protocol

from .calls import client_name, line_bytes
from .errors import BadArgument, CallRefused, ClientClosed, DaemonFull, HagsError, SessionLost
from .events import HOSTS, Asked, Entered, Event, Heard, Hosts, Noted, Proposal, Told
from .ids import Member, View, hosts_of
from .session import Connection, Question, Session
from .settings import Settings

FAREWELL = 10.0  # seconds for which a daemon that was given up is told goodbye
AT_REST = 1.0  # seconds from one step to the next without a session
PAUSED = 0.2  # seconds without a step, after which the process was paused
Answer = Optional[Asked]


class Recipe(Protocol):
    """Who looks after a group in the client's stead: it gets all that is heard of that group, and the client's program
    none of it."""

    group: str

    def take(self, event: Event) -> None:
        """An event of the group was heard."""

    def tick(self, now: float) -> None:
        """Time has passed, of which this is the moment."""

    def see_hosts(self) -> None:
        """The nodes of the view are others."""

    def lose(self, why: HagsError) -> None:
        """The session is lost, and with it the membership."""


@dataclass
class Membership:
    """What was heard last of a group that the client has joined."""

    own: Member
    request: int  #: of the join
    view: View | None = None
    place: int = -1
    members: tuple[Member, ...] = ()
    value: bytes = b""
    proposal: Proposal | None = None  #: what is voted on, of daemons with `--entries`
    is_member: bool = False
    ended: str = ""  #: the code, or the kind of entry, by which the membership has ended

    def take(self, event: Event) -> None:
        if isinstance(event, Entered):
            if event.step == "begin":
                self.proposal = event.proposal
            elif self.proposal is not None and event.value is not None:
                self.proposal = self.proposal._replace(value=event.value)
        elif isinstance(event, Heard) and event.provider == self.own:
            self.view, self.place = event.view, event.place
            if event.what in ("approve", "reject"):
                self.proposal = None
            self.members, self.value = event.members, event.value
            was, self.is_member = self.is_member, self.own in event.members
            if not self.is_member and (was or event.what == "reject"):
                self.ended = event.what
        elif isinstance(event, Told) and event.provider == self.own:
            if event.code == "DISSOLVED" or event.request == self.request:
                self.is_member, self.ended = False, f"{event.code} {event.detail}".rstrip()


class Call:
    """A call that waits for its turn or its answer: a line, with the client's name behind its first word where it has
    `{}` there, since that may be another one in the next session."""

    def __init__(self, line: str) -> None:
        self.line = line
        self.future: Future[Answer] = Future()

    def line_of(self, name: str) -> str:
        verb, blank, rest = self.line.partition(" {}")
        return f"{verb} {name}{rest}" if blank else self.line

    def fail(self, error: HagsError) -> None:
        if self.future.running() or self.future.set_running_or_notify_cancel():
            self.future.set_exception(error)


@dataclass
class _Farewell:
    """A session with a daemon that was silent, which may still be there and keep this client a member."""

    session: Session
    name: str
    until: float
    is_said: bool = False


class Core:
    """A client of one of some daemons: of the first one that answers, and of the next one once that is silent for
    `patience` seconds. Where a session is lost it begins the next one, unless `reopen` is false."""

    def __init__(self, settings: Settings, nodes: Sequence[int], name: str, idle: float, patience: float, reopen: bool):
        self.settings, self.nodes, self.name = settings, tuple(nodes), client_name(name)
        if not self.nodes:
            raise BadArgument("no node to use: name one, or none for any")
        self.patience, self.reopen = patience, reopen
        self.places = {node: settings.places(node) for node in self.nodes}
        self.connection = Connection(self.nodes[0], self.places[self.nodes[0]], idle)
        self.events: deque[Event | HagsError] = deque()  # those that no recipe takes, and why a session was lost
        self.memberships: dict[str, Membership] = {}
        self.hosts: Hosts | None = None  # the nodes of the view, where they are followed
        self.is_open = False
        self.over: HagsError | None = None  # why there is no session, and none is begun by itself
        self.has_news = False
        self.wants_hosts = False  # has the client's program itself subscribed to HOSTS?
        self._own_name, self._names, self._sessions = self.name, 0, 0
        self._calls: deque[Call] = deque()
        self._current: Call | None = None
        self._opening: Call | None = None
        self._tries, self._stepped = 0, time.monotonic()
        self.is_closed = False
        self.follows_hosts = False
        self._recipes: dict[str, Recipe] = {}
        self._farewells: list[_Farewell] = []
        self._open()

    @property
    def session(self) -> Session:
        return self.connection.session

    @property
    def node(self) -> int:
        return self.session.node

    def silence(self) -> float:
        return self.session.silence(time.monotonic())

    # Calls

    def post(self, line: str) -> Future[Answer]:
        """Makes a call once those before it have their answers. `{}` as its second word is the client's name."""
        call = Call(line)
        line_bytes(call.line_of(self.name))
        if self.over:
            call.fail(self.over)
        else:
            self._calls.append(call)
        return call.future

    def post_quietly(self, line: str, then: Callable[[HagsError | None], None] | None = None) -> None:
        """Makes a call, and tells a recipe alone what came of it."""

        def done(future: Future[Answer]) -> None:
            error = None if future.cancelled() else future.exception()
            if then:
                then(error if isinstance(error, HagsError) else None)

        self.post(line).add_done_callback(done)

    def ask(self, what: str, answer: Callable[[list[str]], None], node: int | None = None) -> Question:
        """Asks the daemon of a node, the client's own one unless said, and hands the lines over once they come."""

        def take(lines: list[str]) -> None:
            self.has_news = True
            answer(lines)

        node = self.node if node is None else node
        question = Question(node, self.settings.places(node), what, take)
        self.connection.questions.append(question)
        return question

    def withdraw(self, question: Question) -> None:
        if question in self.connection.questions:
            self.connection.questions.remove(question)

    # Turns

    def step(self) -> float:
        """Sends, receives, and does what is due. Answers when the next step is due."""
        now = time.monotonic()
        if self.over:
            return now + AT_REST
        if now - self._stepped > max(PAUSED, 3 * self.session.idle):
            self.connection.drop()  # what came while this process was paused says nothing of how it stands now
        self._stepped = now
        self.connection.send()
        try:
            self.connection.receive()
            self._take_events()
            self._finish()
        except (SessionLost, DaemonFull) as error:
            self._take_events()
            self._lose(error, self._next_node() if isinstance(error, DaemonFull) else self.node)
        if len(self.nodes) > 1 and self.session.silence(now) > self.patience and not self.over:
            after = self._next_node()
            silent = f"the daemon of node {self.node} is silent for {self.patience:g} s"
            self._lose(SessionLost(f"{silent}, so that of node {after} is tried. Join again"), after)
        self._say_farewell(now)
        for recipe in list(self._recipes.values()):
            recipe.tick(now)
        self._begin_next()
        self.connection.send()
        return self.connection.due

    def _begin_next(self) -> None:
        while self._current is None and not self.over and self.session.is_settled:
            call = self._opening or (self._calls.popleft() if self._calls and self.is_open else None)
            if call is None:
                return
            if call.future.set_running_or_notify_cancel():
                self._current = call
                self.session.begin(call.line_of(self.name))

    def _finish(self) -> None:
        session, call = self.session, self._current
        if call is None or not session.is_settled:
            return
        self._current, self.has_news = None, True
        refused = None
        if not session.taken:
            refused = CallRefused(f"the daemon of node {self.node}", call.line_of(self.name), session.why)
        if call is self._opening:
            self._opening = None
            self._opened(refused)
        elif refused:
            call.future.set_exception(refused)
        else:
            call.future.set_result(session.asked)

    # Sessions

    def open(self) -> None:
        """Begins a session where the last one is lost and none is begun by itself."""
        if self.over and not self.is_closed:
            self.over, self._tries = None, 0
            self._begin_session(self.node)

    def close(self) -> None:
        """Ends all that goes on."""
        self.is_closed = True
        self._lose(ClientClosed("the client was closed. Make another one"), self.node)

    def _open(self) -> None:
        self._sessions += 1
        self._opening = Call(f"client {self.node} {self.name} -")

    def _opened(self, refused: CallRefused | None) -> None:
        if refused is None:
            self.is_open, self._tries = True, 0
            if self.follows_hosts:
                self._ask_hosts()
        elif refused.code == "EXISTS" and self._names < 99 and self._sessions > 1:
            self._names += 1  # its name may be that of a session of its own which could not say goodbye
            end = f".{self._names}"
            self.name = self._own_name[: 16 - len(end)] + end
            self._open()
        else:
            self._lose(refused, self._next_node())

    def _next_node(self) -> int:
        return self.nodes[(self.nodes.index(self.node) + 1) % len(self.nodes)]

    def _begin_session(self, node: int) -> None:
        self.connection.begin_session(node, self.places[node])
        self._open()

    def _lose(self, error: HagsError, node: int) -> None:
        """The session is over. All that hung on it is told, and the next one begins, with the daemon of this node."""
        old, was_open = self.session, self.is_open
        self.is_open, self.hosts, self.wants_hosts, self.has_news = False, None, False, True
        for membership in self.memberships.values():
            membership.is_member, membership.ended = False, membership.ended or "SessionLost"
        failed = [call for call in (self._current,) if call and call is not self._opening]
        self._current = self._opening = None
        self.connection.questions = [it for it in self.connection.questions if it.node != old.node]
        if node != old.node and old.incarnation and isinstance(error, SessionLost):
            self._farewells.append(_Farewell(old, self.name, time.monotonic() + FAREWELL))
            self.connection.leaving.append(old)
        if self.is_closed or (was_open and not self.reopen):
            self.over = error
        elif not was_open and not isinstance(error, SessionLost):  # this daemon takes no such client: perhaps others do
            self._tries += 1
            self.over = error if self._tries >= len(self.nodes) else None
        if was_open:
            self.events.append(error)
        if was_open or self.over:  # what waits is of the session that is gone
            failed += self._calls
            self._calls.clear()
        if not self.over:
            self._begin_session(node)
        for call in failed:
            call.fail(error)
        for recipe in list(self._recipes.values()):
            recipe.lose(error)

    def forget(self, error: BaseException) -> None:
        """Somebody was told that a session is lost: nobody is told again, nor what was heard before that."""
        if any(it is error for it in self.events):
            while self.events.popleft() is not error:
                pass

    def _say_farewell(self, now: float) -> None:
        for farewell in list(self._farewells):
            session = farewell.session
            if now > farewell.until or (farewell.is_said and session.is_settled):
                self._farewells.remove(farewell)
                self.connection.leaving.remove(session)
            elif session.is_settled:
                session.begin(f"goodbye {farewell.name}")
                farewell.is_said = True

    # Events

    def claim(self, recipe: Recipe) -> None:
        """From now on this recipe looks after its group."""
        if recipe.group in self._recipes or self.is_member(recipe.group):
            raise BadArgument(f"this client is in {recipe.group} already: a second one takes a client of its own")
        self._recipes[recipe.group] = recipe
        self.follow_hosts()

    def release(self, recipe: Recipe) -> None:
        if self._recipes.get(recipe.group) is recipe:
            del self._recipes[recipe.group]

    def is_member(self, group: str) -> bool:
        """Has the client a membership of the group, or a join that is under way?"""
        return group in self.memberships and not self.memberships[group].ended

    def has_recipe(self, group: str) -> bool:
        return group in self._recipes

    def _take_events(self) -> None:
        session = self.session
        while session.events:
            self.has_news = True
            self._take(session.events.popleft())

    def _take(self, event: Event) -> None:
        if isinstance(event, Asked) and event.kind == "join":
            self.memberships[event.group] = Membership(event.provider, event.request)
        group = self._group_of(event)
        membership = self.memberships.get(group)
        if membership:
            membership.take(event)
        if isinstance(event, Hosts):
            self._see_hosts(event)
        recipe = self._recipes.get(group)
        if recipe:
            recipe.take(event)
        elif self.wants_hosts or not (self.follows_hosts and isinstance(event, Hosts)):
            self.events.append(event)

    def _group_of(self, event: Event) -> str:
        if isinstance(event, (Asked, Entered, Heard, Noted)):
            return event.group
        if isinstance(event, Hosts):
            return HOSTS
        return next((group for group, it in self.memberships.items() if it.own == event.provider), "")

    # Nodes

    def follow_hosts(self) -> None:
        """Keeps `hosts`, from now on."""
        if not self.follows_hosts:
            self.follows_hosts = True
            if self.is_open:
                self._ask_hosts()

    def _ask_hosts(self) -> None:
        self.post_quietly(f"subscribe {{}} {HOSTS}")
        self.ask("hagsns", self._hosts_answered)

    def _hosts_answered(self, lines: list[str]) -> None:
        """A subscription tells changes alone, so how it stands is asked for."""
        for line in lines:
            words = line.split(" ")
            if words[0] == "hagsns" and len(words) == 5:
                self._see_hosts(Hosts(self.name, View.parse(words[1]), hosts_of(words[3].partition("=")[2])))

    def _see_hosts(self, hosts: Hosts) -> None:
        if self.hosts is None or hosts.view > self.hosts.view:
            self.hosts, self.has_news = hosts, True
            for recipe in list(self._recipes.values()):
                recipe.see_hosts()

    def has_majority(self) -> bool:
        """Is the client's daemon, as far as is known, in a view of more than half of the nodes?"""
        return self.hosts is not None and len(self.hosts.hosts) >= self.settings.majority
