"""Scripts and settings, read as the program reads them; of the first bad line the reason, and what to write in its place.

docs/formats.md has the rules. A text is read for one of four things: to be played (`SCRIPT`), to run the daemon of a node, to
ask it, or to be its client. tests/wrong-inputs compares what is said here with what the program says."""
import difflib
import itertools
import re
from collections.abc import Callable
from dataclasses import dataclass, field
from typing import NamedTuple, NoReturn

from hags_tools import packets

SCRIPT, DAEMON, STATUS, CLIENT = "script", "daemon", "status", "client"
INPUT_LIMIT, CALL_LIMIT, OBJECTS, LAST_U32 = 16_777_216, 1_100, 4, 4_294_967_295
NUMBER = re.compile(r"0|[1-9][0-9]{0,19}")
TEXT = re.compile(r"(?:[^%]|%[0-9A-Fa-f]{2})+")
VOTE = re.compile(r"[ACR](?:=(?:[^%]|%[0-9A-Fa-f]{2})+)?")


class Word(NamedTuple):
    """A word of a line: its name in the form, what is good there, and whether it takes a word."""

    name: str
    good: str
    takes: Callable[[str], object]


def _number(name: str, low: int, high: int, what: str = "a number") -> Word:
    def takes(word: str) -> bool:
        return bool(NUMBER.fullmatch(word)) and low <= int(word) <= high

    return Word(name, f"{what} from {low} to {high:,}, digits without a zero in front", takes)


def _one_of(name: str, *words: str) -> Word:
    return Word(name, " or ".join(filter(None, [", ".join(words[:-1]), words[-1]])), lambda word: word in words)


def _is_address(word: str) -> bool:
    parts = word.split(".")
    in_range = [bool(NUMBER.fullmatch(part)) and int(part) <= 255 for part in parts]
    return len(parts) == 4 and all(in_range) and word != "0.0.0.0"


def _is_provider(word: str) -> bool:
    parts = word.split(".")
    most = ((1, 32), (0, LAST_U32), (0, 65535), (0, LAST_U32))
    return len(parts) == 4 and all(NUMBER.fullmatch(part) and low <= int(part) <= high for part, (low, high) in zip(parts, most))


def _name(name: str, most: int) -> Word:
    return Word(name, f"1 to {most} letters, digits, `_`, `-` and `.`", re.compile(rf"[A-Za-z0-9_.-]{{1,{most}}}").fullmatch)


def _are_votes(word: str) -> bool:
    return word == "boxed" or all(item == "-" or VOTE.fullmatch(item) for item in word.split(","))


_LIMIT = _number("", 0, 65535)
ATTRIBUTES = {
    "phases": _one_of("", "1", "n"), "batch": _one_of("", "none", "joins", "failures", "both"),
    "default": _one_of("", "approve", "reject"), "limit": _LIMIT, "source": _name("", 32), "sphases": _one_of("", "1", "n"),
    "slimit": _LIMIT,
}
ATTRIBUTE_FORMS = "phases=1|n, batch=none|joins|failures|both, default=approve|reject, limit=T, source=GROUP, sphases=1|n or slimit=T"


def _is_attribute(word: str) -> bool:
    key, equals, value = word.partition("=")
    return bool(equals) and key in ATTRIBUTES and bool(ATTRIBUTES[key].takes(value))


N, NET = _number("N", 1, 32, "a node's number"), _number("NET", 1, 4, "a network's number")
A, B = _number("A", 1, 32, "a node's number"), _number("B", 1, 32, "a node's number")
NAME, GROUP, PH = _name("NAME", 16), _name("GROUP", 64), Word("PH", "1 (at once) or n (by votes)", lambda word: word in ("1", "n"))
VALUE = Word("TEXT", "a text, in which %XX stands for any byte and ~ alone is the empty text", TEXT.fullmatch)
ATTRS = Word("ATTR..", f"one of {ATTRIBUTE_FORMS}, each at most once", _is_attribute)
WHAT = _one_of("WHAT", "hats", "hagsns", "hagsgr", "hagsvote")
# The words behind each head; a word whose name ends with `..` stands any number of times, one in brackets once or not.
FORMS: dict[str, tuple[Word, ...]] = {
    "mode": (_one_of("fixed|asked|rings", "fixed", "asked", "rings"),),
    "node": (N,),
    "adapter": (N, NET, Word("A.B.C.D", "an IPv4 address as 10.1.0.3, not 0.0.0.0", _is_address)),
    "hb": (_number("F", 1, 100), _number("S", 2, 100)),
    "port": (_number("P", 1, 65000),),
    "level": (N, _number("J", 1, LAST_U32)),
    "domain": (_number("D", 1, LAST_U32),),
    "begin": (),
    "start": (N,),
    "stop": (N,),
    "ask": (N, _number("M..", 1, 32, "a node's number")),
    "tick": (N,),
    "run": (_number("K", 1, 10000),),
    "deliver": (A, B, _number("K", 0, LAST_U32)),
    "drop": (A, B),
    "flow": (),
    "cut": (A, B, NET._replace(name="[NET]")),
    "heal": (A, B, NET._replace(name="[NET]")),
    "garbage": (N, Word("HEX", "pairs of hex digits", re.compile("(?:[0-9A-Fa-f]{2})+").fullmatch)),
    "show": (N, WHAT),
    "client": (N, NAME, Word("VOTES", "words like A, C, R (with =TEXT behind it or not) and -, joined by commas", _are_votes)),
    "join": (NAME, GROUP, _number("INSTANCE", 0, 65535), ATTRS),
    "leave": (NAME, GROUP, PH),
    "expel": (NAME, GROUP, PH, Word("P..", "a provider as 1.1.7.1", _is_provider)),
    "state": (NAME, GROUP, PH, VALUE),
    "message": (NAME, GROUP, PH, VALUE),
    "attrs": (NAME, GROUP, PH, ATTRS),
    "vote": (NAME, GROUP, Word("V", "A, C or R, with =TEXT behind it or not", VOTE.fullmatch)),
    "subscribe": (NAME, GROUP),
    "unsubscribe": (NAME, GROUP),
    "goodbye": (NAME,),
}
SETTINGS = ("mode", "node", "adapter", "hb", "port", "level", "domain")
CALLS = ("client", "join", "leave", "expel", "state", "message", "attrs", "vote", "subscribe", "unsubscribe", "goodbye")
CARRIED = ("client", "join", "subscribe")  # of a daemon's own clients
NODES_OF: dict[str, int | None] = {"start": 1, "stop": 1, "tick": 1, "ask": None, "deliver": 2, "drop": 2, "cut": 2, "heal": 2, "garbage": 1, "show": 1}


def form_of(head: str) -> str:
    return " ".join([head, *(word.name for word in FORMS[head])])


def least_of(head: str) -> int:
    """How few words follow the head."""
    words = FORMS[head]
    return len(words) - sum(word.name == "ATTR.." or word.name.startswith("[") for word in words)


def _places(head: str, count: int) -> list[Word]:
    """The word of the form for each of so many words, as far as the form goes."""
    form = FORMS[head]
    if form and form[-1].name.endswith(".."):
        return [*form[:-1], *[form[-1]] * (count - len(form) + 1)][:count]
    return list(form[:count])


class Fault(NamedTuple):
    """The first bad line: its number from 1, the reason as the program says it, and what to write."""

    number: int
    reason: str
    advice: str


class _Bad(Exception):
    def __init__(self, reason: str, advice: str) -> None:
        self.reason, self.advice = reason, advice


@dataclass
class Settings:
    """What was read. An address is that of a node and a network."""

    nodes: list[int] = field(default_factory=list)
    addresses: dict[tuple[int, int], str] = field(default_factory=dict)
    heartbeat: tuple[int, int] = (1, 4)
    port: int = 12347
    levels: dict[int, int] = field(default_factory=dict)
    domain: int = 1
    mode: str = "rings"
    clients: dict[str, int] = field(default_factory=dict)  # the node of each name

    def places(self, node: int) -> dict[int, tuple[str, int]]:
        """The networks of a node with its address and port there."""
        found = {network: (address, self.port + node) for (of, network), address in self.addresses.items() if of == node}
        return found or ({} if self.addresses else {1: (f"10.1.0.{node}", self.port + node)})

    def networks(self, node: int) -> set[int]:
        return set(self.places(node))


class Reading:
    """Reads line by line, for one of the four things."""

    def __init__(self, aim: str, node: int | None = None) -> None:
        self.aim, self.node = aim, node
        self.settings = Settings()
        self.where: dict[tuple[str, ...], int] = {}  # the line of each setting, and of `begin`
        self.begun = 0
        self.objects = OBJECTS
        self.called = 0

    def read(self, data: bytes) -> Fault | None:
        """The first fault; None where there is none."""
        at, lines = 0, data.split(b"\n")
        for number, line in enumerate(lines, 1):
            is_whole = number < len(lines)
            if not is_whole and not line:
                break
            at += len(line) + is_whole
            try:
                self.read_line(number, line, is_whole, at > INPUT_LIMIT)
            except _Bad as bad:
                return Fault(number, bad.reason, bad.advice)
        if self.aim == SCRIPT or self.begun:
            return None
        empty = "It is empty: there are no settings. " if not data.strip() else ""
        advice = f"{empty}There is no `begin` line: put one behind the last setting, also where no call follows."
        return Fault(len(lines), "missing word", advice)

    def read_line(self, number: int, line: bytes, is_whole: bool, is_long: bool) -> None:
        if is_long:
            raise _Bad("long", f"The input has at most {INPUT_LIMIT:,} bytes, and passes them in this line.")
        text = line.decode("latin-1")
        is_comment = text.startswith("#")
        words = [] if is_comment else [word for word in text.split(" ") if word]
        if self.aim == CLIENT and self.begun and words and len(line) > CALL_LIMIT:
            raise _Bad("long", f"The line of a call has at most {CALL_LIMIT:,} bytes. This one has {len(line):,}.")
        self.need_bytes(line, number)
        if words and words[0] not in FORMS:
            raise _Bad("unknown word", _of_unknown_word(words[0]))
        if not is_whole:
            raise _Bad("missing word", "The last line ends without a line feed. End it with one (in an editor, press Enter).")
        if words:
            self.need_words(words[0], words[1:])
            self.take(number, words[0], words[1:])

    def need_bytes(self, line: bytes, number: int) -> None:
        for byte in line:
            if not 0x20 <= byte < 0x7F:
                raise _Bad("bad byte", _of_bad_byte(line, byte, number))

    def need_words(self, head: str, words: list[str]) -> None:
        least, form = least_of(head), f"Write `{form_of(head)}`"
        if len(words) < least:
            names = [word.name for word in FORMS[head]][len(words) : least]
            have = f"{len(words)} word{'s follow' if len(words) != 1 else ' follows'} `{head}`"
            raise _Bad("missing word", f"{have}, and {least} are wanted: {' and '.join(names)} is missing. {form}.")
        places = _places(head, len(words))
        if len(places) < len(words):
            raise _Bad("extra word", _of_extra_word(head, words[len(places)]))
        seen = set()
        for word, place in zip(words, places):
            if not place.takes(word):
                raise _Bad("bad word", f"`{word}` is not good for {place.name}: {_why_bad(word, place)}. {form}.")
            if place is ATTRS and word.split("=")[0] in seen:
                raise _Bad("bad word", f"The attribute `{word.split('=')[0]}` stands twice. Give it once.")
            seen.add(word.split("=")[0])

    def take(self, number: int, head: str, words: list[str]) -> None:
        self.need_nodes(head, words)
        if head in CALLS and head != "client" and words[0] not in self.settings.clients:
            known = ", ".join(self.settings.clients) or "none so far"
            advice = f"No line above makes the client {words[0]} (there are: {known}). Write `client N {words[0]} VOTES` before it."
            raise _Bad("unknown client", advice)
        if head in SETTINGS:
            self.take_setting(number, head, words)
        elif head == "begin":
            self.take_begin(number)
        else:
            self.need_place(head, words)
            if head == "client":
                self.take_client(words)
            self.called += 1

    def need_nodes(self, head: str, words: list[str]) -> None:
        if head == "begin" and self.aim != SCRIPT and self.node is not None and self.node not in self.settings.nodes:
            there = ", ".join(map(str, self.settings.nodes)) or "none"
            advice = f"The node that was asked for, {self.node}, has no line `node {self.node}` above `begin`; there are: {there}."
            raise _Bad("unknown node", advice)
        count = 1 if head in ("adapter", "level", "client") else NODES_OF.get(head, 0)
        for word in words[:count]:
            if int(word) not in self.settings.nodes:
                raise _Bad("unknown node", f"Node {word} has no `node` line above. Write `node {word}` before `begin`.")

    def misplaced(self, advice: str) -> NoReturn:
        raise _Bad("out of place", advice)

    def take_setting(self, number: int, head: str, words: list[str]) -> None:
        settings, where = self.settings, self.where
        if self.begun:
            self.misplaced(f"Settings come before `begin`, which is line {self.begun}.")
        key = (head, *words[:1]) if head in ("node", "level") else (head, *words[:2]) if head == "adapter" else (head,)
        if key in where:
            self.misplaced(f"`{' '.join(key)}` stands in line {where[key]} already. Keep one of the two.")
        if head == "adapter":
            self.take_adapter(number, int(words[0]), int(words[1]), words[2])
        if head == "mode" and self.aim != SCRIPT and words[0] != "rings":
            self.misplaced("Daemons are in mode rings alone. Leave the line out.")
        where[key] = number
        if head == "node":
            settings.nodes.append(int(words[0]))
        elif head == "hb":
            settings.heartbeat = (int(words[0]), int(words[1]))
        elif head == "port":
            settings.port = int(words[0])
        elif head == "level":
            settings.levels[int(words[0])] = int(words[1])
        elif head == "domain":
            settings.domain = int(words[0])
        elif head == "mode":
            settings.mode = words[0]

    def take_adapter(self, number: int, node: int, network: int, address: str) -> None:
        for (other, of), known in self.settings.addresses.items():
            if of == network and known == address:
                line = self.where["adapter", str(other), str(network)]
                self.misplaced(f"Node {other} has the address {address} on network {network} already, in line {line}.")
        self.settings.addresses[node, network] = address

    def take_begin(self, number: int) -> None:
        if self.begun:
            self.misplaced(f"There is a `begin` in line {self.begun} already.")
        networks = {node: self.settings.networks(node) for node in self.settings.nodes}
        for node in networks:
            if not networks[node]:
                advice = f"Node {node} has no `adapter` line, and others have. Where one node has one, each needs one."
                raise _Bad("no shared network", advice)
        for one, other in itertools.combinations(networks, 2):
            if not networks[one] & networks[other]:
                advice = f"Nodes {one} and {other} have adapters on no network in common. Each two nodes need one."
                raise _Bad("no shared network", advice)
        self.begun = number

    def need_place(self, head: str, words: list[str]) -> None:
        settings = self.settings
        if not self.begun:
            self.misplaced("Events and calls come after `begin`, and settings before it.")
        if head in ("start", "stop", "ask") and settings.mode == "fixed":
            self.misplaced("In mode fixed all nodes are up from the start and stay. Use mode asked or rings.")
        if head == "ask" and (settings.mode == "rings" or words[0] not in words[1:]):
            self.misplaced("Views are ordered in mode asked alone, and the node asks for a view that it is in: `ask 1 1 2`.")
        if head == "client" and settings.clients.get(words[1], int(words[0])) != int(words[0]):
            self.misplaced(f"An earlier line has {words[1]} at node {settings.clients[words[1]]}. Each name has one node.")
        if self.aim == DAEMON:
            self.need_served(head, words)
        if self.aim == CLIENT:
            self.need_handed_on(head, words)
        if head == "garbage" and packets.is_packet(bytes.fromhex(words[1])):
            reason = "is a packet" if self.aim != CLIENT else "out of place"
            raise _Bad(reason, "These bytes spell a packet, and `garbage` takes none. Use `deliver` for packets that were sent.")
        if head == "client" and words[2] == "boxed":
            self.need_object(int(words[0]))

    def need_served(self, head: str, words: list[str]) -> None:
        if head not in CALLS:
            self.misplaced("This is a line of a script. Behind `begin` a daemon takes calls of clients alone.")
        if head != "client" and head not in CARRIED and self.is_own(words[0]):
            advice = "Behind `begin` the clients of this node may `join` and `subscribe` alone."
            self.misplaced(f"{advice} For other calls use `hags client` or `hagsctl`, while the daemon runs.")

    def is_own(self, name: str) -> bool:
        return self.node is not None and self.settings.clients[name] == self.node

    def need_handed_on(self, head: str, words: list[str]) -> None:
        if (head == "client") != (self.called == 0) or head not in CALLS or (head == "client" and words[2] != "-"):
            self.misplaced("Behind `begin` the first line is `client N NAME -`, and each later one is a call of that client.")

    def need_object(self, node: int) -> None:
        if self.aim == SCRIPT:
            raise _Bad("boxed client", "A script cannot play a boxed client. Say how it votes, as A or C,A or -.")
        if self.aim == DAEMON and node == self.node:
            if not self.objects:
                raise _Bad("boxed client", f"A daemon has {OBJECTS} boxed clients, and this is one more. Write A in place of boxed.")
            self.objects -= 1

    def take_client(self, words: list[str]) -> None:
        self.settings.clients.setdefault(words[1], int(words[0]))


def _of_unknown_word(word: str) -> str:
    if word.startswith("#"):
        return "A comment has its # as the first byte of the line."
    if word[0] in "{[":
        return "This looks like JSON. Settings are lines of words, as `node 1`; hags-settings(5) has them."
    if word in ("totem", "nodelist", "quorum", "logging"):
        return "This looks like a file of corosync. Settings are lines of words, as `node 1`; hags-settings(5) has them."
    near = difflib.get_close_matches(word.lower(), FORMS, 1)
    guess = f" Is it `{near[0]}`?" if near else ""
    return f"No line begins with `{word}`.{guess} A line begins with one of: {' '.join(FORMS)}; or with # for a comment."


def _of_extra_word(head: str, word: str) -> str:
    if word.startswith("#"):
        return "A comment stands on a line of its own, with its # as the first byte."
    more = " In a text write %20 for a blank." if head in ("state", "message") else ""
    return f"`{word}` is one word too many. Write `{form_of(head)}`.{more}"


def _why_bad(word: str, place: Word) -> str:
    if place.name == "A.B.C.D":
        if ":" in word:
            return f"it looks like IPv6, and is to be {place.good}"
        if re.search("[A-Za-z]", word):
            return f"no names are looked up; it is to be {place.good}"
    if place.name == "ATTR..":
        key, equals, value = word.partition("=")
        if key in ATTRIBUTES and equals:
            return f"`{value}` is to be {ATTRIBUTES[key].good}"
    return f"it is to be {place.good}"


def _of_bad_byte(line: bytes, byte: int, number: int) -> str:
    if line.startswith(b"\xef\xbb\xbf"):
        return "The text begins with a mark of UTF-8 (EF BB BF). Save it without that mark (\"UTF-8 without BOM\"), or as ASCII."
    if line.endswith(b"\r") and byte == 0x0D:
        return "The line ends with a carriage return (CR LF, as of Windows). End lines with a line feed alone: tr -d '\\r' < FILE."
    if byte == 0x09:
        return "There is a tab in the line. Part words by spaces."
    if any(it < 0x20 for it in line):
        return f"This is no text: the byte {byte:02X} (hex) stands in it. Was it the right file?"
    shown = line.decode("utf-8", "replace").encode("ascii", "replace").decode()
    return (
        f"The byte {byte:02X} (hex) stands in the line, as of a letter that is not ASCII: `{shown.strip()[:60]}`. Only printable "
        f"ASCII is allowed, in comments too; in a text write %{byte:02X}."
    )


def read(data: bytes, aim: str, node: int | None = None) -> tuple[Settings, Fault | None]:
    """The settings as far as they were read, and the first fault or None."""
    reading = Reading(aim, node)
    fault = reading.read(data)
    return reading.settings, fault
