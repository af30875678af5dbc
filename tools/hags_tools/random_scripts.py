"""Scripts by chance, over the whole grammar of scripts. A seed gives the same script everywhere and always: the numbers
come from a generator of its own, and nothing depends on a library's.

A script begins with its settings, brings its nodes up and most of them together, and goes on at random. What a call names
is mostly there and sometimes not, so that calls are taken, refused and told; no line is outside the grammar."""
import argparse
from collections.abc import Callable, Iterable, Sequence
from dataclasses import dataclass, field
from typing import TypeVar

T = TypeVar("T")
NAMES = ("ann", "bob", "cat", "dan", "eve", "fay", "gus", "hal", "ida", "jo-1", "k.2", "a_name_of_16byte")
# The groups, and the attributes that most of their joins have.
GROUPS: dict[str, list[str]] = {
    "db": [],
    "disk": ["default=reject", "limit=3"],
    "a": ["phases=n", "limit=3"],
    "log.x-1_y": ["batch=both", "source=disk"],
}
STATUSES = ("hats", "hagsns", "hagsgr", "hagsvote")
TEXTS = ("red", "green", "blue", "x=1", "~", "%00%FF", "a%20b", "%2C", "up")
LONG_GROUP = "g" * 33
# The group of tables, whose joins are voted on, and the keys that its messages put and take out.
TABLE_GROUP = "db"
KEYS = tuple(f"key{number}" for number in range(6))
MASK = (1 << 64) - 1


class Chance:
    """Random numbers by splitmix64."""

    def __init__(self, seed: int) -> None:
        self.state = seed & MASK

    def below(self, limit: int) -> int:
        """A number below this one, which is at least 1."""
        self.state = (self.state + 0x9E3779B97F4A7C15) & MASK
        mixed = self.state
        mixed = ((mixed ^ (mixed >> 30)) * 0xBF58476D1CE4E5B9) & MASK
        mixed = ((mixed ^ (mixed >> 27)) * 0x94D049BB133111EB) & MASK
        return (mixed ^ (mixed >> 31)) % limit

    def between(self, low: int, high: int) -> int:
        return low + self.below(high - low + 1)

    def happens(self, percent: int) -> bool:
        return self.below(100) < percent

    def one_of(self, items: Sequence[T]) -> T:
        return items[self.below(len(items))]

    def some_of(self, items: Iterable[T], percent: int) -> list[T]:
        return [item for item in items if self.happens(percent)]

    def weighted(self, weights: dict[T, int]) -> T:
        """A key of a dict, as often as its weight says."""
        at = self.below(sum(weights.values()))
        for key, weight in weights.items():
            if at < weight:
                return key
            at -= weight
        raise AssertionError("the weights are positive")


@dataclass(frozen=True)
class Wanted:
    """What is asked of a script; what is None is left to the seed. A fault is one line that is outside the grammar. With
    tables the messages to one group put pairs into a map and take them out, and newcomers are sent the map in phases."""

    mode: str | None = None
    nodes: int | None = None
    level: int | None = None
    lines: int | None = None
    fault: bool = False
    table: bool = False


@dataclass
class Provider:
    """A provider as it may be called when its join is taken."""

    client: str
    group: str
    word: str


@dataclass
class Script:
    """A script that is being written, and what is known of its nodes and clients."""

    chance: Chance
    mode: str
    nodes: list[int]
    lines: list[str] = field(default_factory=list)
    up: set[int] = field(default_factory=set)
    incarnations: dict[int, int] = field(default_factory=dict)
    requests: dict[int, int] = field(default_factory=dict)
    clients: dict[str, int] = field(default_factory=dict)
    sessions: set[str] = field(default_factory=set)
    providers: list[Provider] = field(default_factory=list)
    table: bool = False

    def add(self, *words: object) -> None:
        self.lines.append(" ".join(str(word) for word in words))

    def node(self) -> int:
        """A node, mostly one that is up."""
        if self.up and self.chance.happens(90):
            return self.chance.one_of(sorted(self.up))
        return self.chance.one_of(self.nodes)

    def two_nodes(self) -> tuple[int, int]:
        """Two nodes, mostly different ones."""
        first, second = self.node(), self.chance.one_of(self.nodes)
        if first == second and len(self.nodes) > 1 and self.chance.happens(95):
            second = self.chance.one_of([node for node in self.nodes if node != first])
        return first, second


def add_words(parser: argparse.ArgumentParser) -> None:
    """Adds the words of a command that say what is asked of a script."""
    parser.add_argument("--mode", choices=("fixed", "asked", "rings"), help="the mode")
    parser.add_argument("--nodes", type=int, choices=range(1, 33), metavar="N", help="how many nodes, from 1 to 32")
    parser.add_argument("--level", type=int, choices=(1, 2), help="the level that the nodes speak")
    parser.add_argument("--lines", type=int, metavar="N", help="how many random lines, about")
    parser.add_argument("--fault", action="store_true", help="one line is outside the grammar")
    parser.add_argument("--table", action="store_true", help=f"messages to the group {TABLE_GROUP} write a table")


def wanted_of(options: argparse.Namespace) -> Wanted:
    return Wanted(options.mode, options.nodes, options.level, options.lines, options.fault, options.table)


def random_script(seed: int, wanted: Wanted = Wanted()) -> str:
    """The script of a seed, as a text."""
    chance = Chance(seed)
    count = chance.between(1, 5)
    nodes = list(range(1, 1 + (wanted.nodes or count)))
    mode = chance.one_of(("fixed", "asked", "rings"))
    script = Script(chance, wanted.mode or mode, nodes, table=wanted.table)
    length = chance.between(30, 120)
    _settings(script, wanted.level)
    _beginning(script)
    for _ in range(wanted.lines or length):
        _random_line(script)
    script.add("flow")
    for node in nodes:
        script.add("show", node, "hagsgr")
    if wanted.fault:
        return _with_fault(script)
    return "".join(line + "\n" for line in script.lines)


# Settings and the beginning.


def _settings(script: Script, level: int | None) -> None:
    chance, nodes = script.chance, script.nodes
    if chance.happens(20):
        script.add("# a comment")
    if script.mode != "rings" or chance.happens(80):
        script.add("mode", script.mode)
    for node in nodes:
        script.add("node", node)
    if chance.happens(50):
        _adapters(script)
    if script.mode == "rings" or chance.happens(20):
        script.add("hb", chance.between(1, 2), chance.between(2, 3))
    if chance.happens(10):
        script.add("port", chance.between(1, 65000))
    _levels(script, level)
    if chance.happens(20):
        script.add("domain", chance.between(1, 9))
    script.add("begin")
    if chance.happens(20):
        script.add("")


def _adapters(script: Script) -> None:
    """Adapters by which each two nodes share a network: all on one network and some on others, or each of three nodes
    with each other on a network of their own."""
    chance, nodes = script.chance, script.nodes
    if len(nodes) == 3 and chance.happens(30):
        pairs = [(1, 1), (2, 1), (2, 2), (3, 2), (1, 3), (3, 3)]
    else:
        common = chance.between(1, 4)
        pairs = [(node, net) for net in (1, 2, 3, 4) for node in nodes if net == common or chance.happens(30)]
    turn = chance.below(200)
    for node, net in pairs:
        script.add("adapter", node, net, f"10.{net}.0.{1 + (turn + 7 * node) % 250}")


def _levels(script: Script, level: int | None) -> None:
    for node in script.nodes:
        if level == 2:
            script.add("level", node, 1)
        elif level is None and script.chance.happens(30):
            script.add("level", node, script.chance.between(1, 2))


def _beginning(script: Script) -> None:
    """Brings most nodes up, and together."""
    if script.mode == "fixed":
        script.up = set(script.nodes)
        script.incarnations = {node: 1 for node in script.nodes}
    else:
        for node in script.nodes:
            if script.chance.happens(95):
                _start(script, node)
    if script.mode == "asked":
        _ask(script, sorted(script.up))
        script.add("flow")
    elif script.mode == "rings":
        script.add("run", script.chance.between(6, 14))


def _start(script: Script, node: int) -> None:
    script.add("start", node)
    if node not in script.up:
        script.up.add(node)
        script.incarnations[node] = script.incarnations.get(node, 0) + 1
        script.requests[node] = 0


def _ask(script: Script, members: list[int]) -> None:
    if members:
        script.add("ask", script.chance.one_of(members), *members)


# Lines.


def _random_line(script: Script) -> None:
    weights = {"flow": 22, "call": 40, "network": 14, "time": 8, "deliver": 8, "show": 4, "rest": 4}
    if script.mode == "fixed":
        weights["call"] = 50
    lines: dict[str, Callable[[], None]] = {
        "flow": lambda: script.add("flow"),
        "call": lambda: _call(script),
        "network": lambda: _network(script),
        "time": lambda: _time(script),
        "deliver": lambda: _deliver(script),
        "show": lambda: script.add("show", script.node(), script.chance.one_of(STATUSES)),
        "rest": lambda: _rest(script),
    }
    lines[script.chance.weighted(weights)]()


def _time(script: Script) -> None:
    if script.chance.happens(40):
        script.add("tick", script.node())
    else:
        script.add("run", script.chance.between(1, 8 if script.mode == "rings" else 3))


def _deliver(script: Script) -> None:
    first, second = script.two_nodes()
    for _ in range(script.chance.between(1, 3)):
        script.add("deliver", first, second, script.chance.between(0 if script.chance.happens(5) else 1, 30))


def _network(script: Script) -> None:
    chance = script.chance
    weights = {"cut": 3, "heal": 4, "drop": 3}
    if script.mode != "fixed":
        weights |= {"nodes": 4, "split": 4 if len(script.nodes) > 1 else 0}
    kind = chance.weighted(weights)
    if kind == "nodes":
        _nodes(script)
    elif kind == "split":
        _split(script)
    elif kind == "drop":
        script.add("drop", *script.two_nodes())
    else:
        net = [chance.between(1, 4)] if chance.happens(30) else []
        script.add(kind, *script.two_nodes(), *net)


def _split(script: Script) -> None:
    """Parts the nodes, or brings them together, by orders or by cuts."""
    chance = script.chance
    side = chance.some_of(script.nodes, 50)
    other = [node for node in script.nodes if node not in side]
    together = chance.happens(50)
    if script.mode == "asked":
        for members in [script.nodes] if together else [side, other]:
            _ask(script, members)
        script.add("flow")
    else:
        for first in side:
            for second in other:
                script.add("heal" if together else "cut", first, second)
        script.add("run", chance.between(6, 14))


def _nodes(script: Script) -> None:
    """A node stops or starts, or asks for a view."""
    chance = script.chance
    if script.mode == "asked" and chance.happens(60):
        members = chance.some_of(script.nodes, 70)
        _ask(script, members)
    elif chance.happens(50):
        node = script.node()
        script.add("stop", node)
        script.up.discard(node)
        _forget(script, [name for name in script.clients if script.clients[name] == node])
    else:
        _start(script, chance.one_of(script.nodes))


def _rest(script: Script) -> None:
    chance = script.chance
    if chance.happens(30):
        script.add(chance.one_of(("", "   ", "# nothing")))
    else:
        first = chance.one_of(("5247", "00", f"{chance.below(0x52):02x}", "ff"))
        rest = "".join(f"{chance.below(256):02X}" for _ in range(chance.below(9)))
        script.add("garbage", script.node(), first + rest)


# Calls.


def _forget(script: Script, names: list[str]) -> None:
    """These clients have no session any more, and so no providers."""
    script.sessions -= set(names)
    script.providers = [provider for provider in script.providers if provider.client not in names]


def _call(script: Script) -> None:
    """A call, mostly of a client that has a session, and of a provider that is there where it needs one."""
    chance = script.chance
    if not script.sessions or chance.happens(12):
        _client(script)
    elif not script.providers or chance.happens(25):
        _join(script)
    else:
        _provider_call(script)


def _client(script: Script) -> None:
    """A new client, or one that had a session before, or one that has one."""
    chance = script.chance
    without = [name for name in sorted(script.clients) if name not in script.sessions]
    if without and chance.happens(50):
        name = chance.one_of(without)
    elif len(script.clients) == len(NAMES) or chance.happens(10 if script.clients else 0):
        name = chance.one_of(sorted(script.clients))
    else:
        name = NAMES[len(script.clients)]
        script.clients[name] = script.node()
    items = [_vote_item(chance) for _ in range(chance.between(1, 3))]
    if items[-1].startswith("C") and chance.happens(90):
        items.append("A")
    script.add("client", script.clients[name], name, ",".join(items))
    if script.clients[name] in script.up:
        script.sessions.add(name)


def _vote_item(chance: Chance) -> str:
    if chance.happens(12):
        return "-"
    vote = chance.weighted({"A": 6, "C": 3, "R": 2})
    return vote + ("=" + chance.one_of(TEXTS) if chance.happens(25) else "")


def _join(script: Script) -> None:
    chance = script.chance
    name = chance.one_of(sorted(script.sessions if chance.happens(90) else script.clients))
    group = chance.weighted({"db": 40, "disk": 30, "a": 20, "log.x-1_y": 15, LONG_GROUP: 1, "HostMembership": 1})
    instance = chance.between(0, 5)
    if script.table:
        group, instance = TABLE_GROUP if chance.happens(80) else group, chance.between(0, 50)
    script.add("join", name, group, instance, *_attributes_in(script, group))
    node = script.clients[name]
    script.requests[node] = script.requests.get(node, 0) + 1
    word = f"{node}.{script.incarnations.get(node, 1)}.{instance}.{script.requests[node]}"
    script.providers.append(Provider(name, group, word))


def _attributes_in(script: Script, group: str) -> list[str]:
    """Joins of the group of tables are mostly voted on: else nobody is sent the map."""
    if script.table and group == TABLE_GROUP and script.chance.happens(95):
        return ["phases=n"]
    return _attributes(script.chance, group)


def _attributes(chance: Chance, group: str) -> list[str]:
    """Attributes that are mostly the same for a group, so that joins are taken."""
    if chance.happens(75):
        return GROUPS.get(group, [])
    limit = chance.between(0, 4) if chance.happens(95) else 10001
    choices = [
        f"phases={chance.one_of('1n')}",
        f"batch={chance.one_of(('none', 'joins', 'failures', 'both'))}",
        f"default={chance.one_of(('approve', 'reject'))}",
        f"limit={limit}",
        f"source={chance.one_of(list(GROUPS))}",
        f"sphases={chance.one_of('1n')}",
        f"slimit={limit}",
    ]
    return chance.some_of(choices, 35)


def _text(chance: Chance) -> str:
    if chance.happens(95):
        return chance.one_of(TEXTS)
    return "v" * chance.one_of((255, 256, 257, 1024, 1025))


def _write(chance: Chance) -> str:
    """A message to a table: a pair, mostly with a long value, so that the map goes in several pieces; a key that is taken
    out; or a text as another group has it."""
    kind = chance.weighted({"long": 8, "short": 4, "out": 2, "text": 1})
    key = chance.one_of(KEYS)
    if kind == "text":
        return _text(chance)
    if kind == "out":
        return key
    length = chance.between(400, 1000) if kind == "long" else chance.between(0, 9)
    return key + "=" + chance.one_of("vwx") * length


PROVIDER_CALLS = {
    "state": 20, "message": 14, "vote": 14, "leave": 6, "expel": 8, "attrs": 5, "subscribe": 7, "unsubscribe": 3, "goodbye": 4,
}


def _provider_call(script: Script) -> None:
    chance = script.chance
    provider = chance.one_of(script.providers)
    name, group = provider.client, provider.group
    if chance.happens(5):
        name, group = chance.one_of(sorted(script.clients)), chance.one_of(list(GROUPS))
    phases = chance.one_of("1n")
    kind = chance.weighted(PROVIDER_CALLS)
    if script.table and group == TABLE_GROUP and chance.happens(60):
        script.add("message", name, group, phases, _write(chance))
        script.requests[script.clients[name]] = script.requests.get(script.clients[name], 0) + 1
        return
    if kind in ("state", "message"):
        script.add(kind, name, group, phases, _text(chance))
    elif kind == "vote":
        vote = _vote_item(chance)
        script.add(kind, name, group, "A" if vote == "-" else vote)
    elif kind == "expel":
        script.add(kind, name, group, phases, *_targets(script, group))
    elif kind == "attrs":
        script.add(kind, name, group, phases, *_attributes(chance, group))
    elif kind == "goodbye":
        script.add(kind, name)
        _forget(script, [name])
    elif kind == "leave":
        script.add(kind, name, group, phases)
    else:
        script.add(kind, name, "HostMembership" if chance.happens(20) else group)
    if kind in ("state", "message", "leave", "expel", "attrs"):
        script.requests[script.clients[name]] = script.requests.get(script.clients[name], 0) + 1


def _targets(script: Script, group: str) -> list[str]:
    """Providers to be expelled: one or two of the group, or one by chance."""
    there = [provider.word for provider in script.providers if provider.group == group]
    if there and script.chance.happens(85):
        first = script.chance.one_of(there)
        return [first, script.chance.one_of(there)] if script.chance.happens(25) else [first]
    return [f"{script.chance.one_of(script.nodes)}.1.{script.chance.between(0, 5)}.{script.chance.between(1, 9)}"]


# Faults.


def _with_fault(script: Script) -> str:
    """The script with one line behind `begin` that is outside the grammar."""
    chance = script.chance
    unknown = 32 if 32 not in script.nodes else None
    heartbeat = "52470101" + "01010100" + "00000001" + "00000009" + "00000001" + "01" + "00000001"
    bad = [
        "fly 1", "tick", "flow now", "run 01", "run 0", "show 1 all", "tick\t1", "flow\r", "mode rings", "begin", "join",
        "client 1 zed boxed", "client 1 zed B", "leave nobody db 1", "deliver 1 1 -1", f"garbage 1 {heartbeat}",
    ] + ([f"tick {unknown}"] if unknown else [])
    begin = script.lines.index("begin")
    script.lines.insert(chance.between(begin + 1, len(script.lines)), chance.one_of(bad))
    text = "".join(line + "\n" for line in script.lines)
    return text if chance.happens(90) else "".join(line + "\n" for line in script.lines[: begin + 1]) + "flow"
