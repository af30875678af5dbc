"""What is wrong with a call of hags, in sentences that say what to write: its words, its input, and this machine."""
import difflib
import os
import re
import resource
import select
import stat
import time
from collections.abc import Iterable, Iterator

from hags_tools import asking, reading, sockets
from hags_tools.programs import Program

COMMANDS = ("run", "load", "daemon", "status", "client", "table")
KINDS = ("up", "down", "ring", "in", "base", "put", "heard", "cast", "asked", "told", "noted", "refused", "show")
STATUSES = ("hats", "hagsns", "hagsgr", "hagsvote", "hagscl", "hagsd")
RANGES = {
    "--node": (1, 32), "--inc": (1, 4_294_967_295), "--turns": (1, 4_294_967_295), "--key": (1, 4_294_967_295),
    "--silence": (10, 1_000_000), "--mend": (10, 10_000), "--gap": (100, 3_600_000),
}
OPTIONS = {
    "run": ("--kinds",), "load": (), "daemon": ("--node", "--inc", "--turns", "--silence", "--mend", "--gap"),
    "status": ("--node", "--turns"), "client": ("--node", "--turns", "--key"), "table": (),
}
FLAGS = {"daemon": ("--lasting", "--remote", "--entries")}  # they have no value
MODES = {
    "run": reading.SCRIPT, "daemon": reading.DAEMON, "status": reading.STATUS, "client": reading.CLIENT,
    "table": reading.SCRIPT,
}
GROUP = re.compile(r"[A-Za-z0-9_.-]{1,32}")
PATIENCE = 2  # seconds until standard input is taken for one that never ends
FIRST_FREE_PORT = 1024


class Words:
    """The words of a call behind `hags`, as docs/command-line.md has them. `fault` is a sentence, or empty."""

    def __init__(self, words: Iterable[str]) -> None:
        self.command = ""
        self.node: int | None = None
        self.operand: str | None = None
        self.given: dict[str, str] = {}
        self.fault = self._fault(list(words))

    def _fault(self, words: list[str]) -> str:
        for word in words:
            if any(0xDC80 <= ord(letter) <= 0xDCFF for letter in word):
                return f"The word {word!r} is no UTF-8."
        if not words:
            return f"There is no command. Write one of {', '.join(COMMANDS)} behind `hags`; `hags --help` explains them."
        self.command = words.pop(0)
        if self.command in ("--help", "--version"):
            return f"`{self.command}` is the only word, or stands behind a command: `hags {words[0]} {self.command}`." if words else ""
        if self.command not in COMMANDS:
            return self._of_unknown_command()
        if words in (["--help"], ["--version"]):
            return ""
        return self._of_rest(words)

    def _of_unknown_command(self) -> str:
        if self.command in ("help", "-h", "-?", "-help"):
            return "Write `hags --help`, or `hags COMMAND --help`."
        if self.command in ("-v", "-V", "version"):
            return "Write `hags --version`."
        near = difflib.get_close_matches(self.command.lower(), COMMANDS, 1)
        guess = f" Is it `{near[0]}`?" if near else ""
        return f"`{self.command}` is no command.{guess} The first word is one of {', '.join(COMMANDS)}; `hags --help` explains them."

    def _of_rest(self, words: list[str]) -> str:
        operands = []
        while words:
            word = words.pop(0)
            if word == "--":
                operands += words
                break
            if not word.startswith("-") or word == "-":
                operands.append(word)
            elif fault := self._of_option(word, words):
                return fault
        return self._of_operands(operands) or self._of_missing()

    def _of_option(self, word: str, words: list[str]) -> str:
        name, equals, value = word.partition("=")
        flags = FLAGS.get(self.command, ())
        known = OPTIONS[self.command] + flags
        if name in ("--help", "--version"):
            return f"`{name}` stands alone: `hags {self.command} {name}`."
        if name not in known:
            return self._of_unknown_option(name, known)
        if name in self.given:
            return f"`{name}` stands twice. Give it once."
        if name in flags:
            self.given[name] = ""
            return f"`{name}` has no value. Write it alone." if equals else ""
        if not equals:
            if not words or words[0].startswith("-"):
                return f"`{name}` wants a value behind it: {self._good(name)}."
            value = words.pop(0)
        self.given[name] = value
        return self._of_value(name, value)

    def _of_unknown_option(self, name: str, known: tuple[str, ...]) -> str:
        if name == "--port":
            return "The port stands in the settings, as a line `port P`; node N has the UDP port P + N. There is no `--port`."
        meant = [it for it in known if it[1:3] == name[:2] or it.startswith(name)] or difflib.get_close_matches(name, known, 1)
        guess = f" Is it `{meant[0]}`? Options have no short forms." if meant else ""
        there = ", ".join(known) or "none"
        return f"`hags {self.command}` has no option `{name}`.{guess} It has: {there}."

    def _good(self, name: str) -> str:
        if name == "--kinds":
            return f"kinds of lines joined by commas, each once, of {', '.join(KINDS)}"
        low, high = RANGES[name]
        return f"a number from {low} to {high:,}, digits without a zero in front"

    def _of_value(self, name: str, value: str) -> str:
        if name == "--kinds":
            kinds = value.split(",")
            good = set(kinds) <= set(KINDS) and len(set(kinds)) == len(kinds)
        else:
            low, high = RANGES[name]
            good = bool(reading.NUMBER.fullmatch(value)) and low <= int(value) <= high
            self.node = int(value) if good and name == "--node" else self.node
        return "" if good else f"`{value}` is not good for `{name}`: it is to be {self._good(name)}."

    def _of_operands(self, operands: list[str]) -> str:
        most = 1 if self.command in ("load", "status", "table") else 0
        if len(operands) > most:
            word = operands[most]
            if word.startswith("-"):
                return f"Behind `--` each word is an operand, so `{word}` is no option there. Leave the `--` out."
            if self.command in ("run", "daemon", "client"):
                return f"`{word}` is one word too many. The input comes on standard input: `hags {self.command} .. < {word}`."
            return f"`{word}` is one word too many."
        if self.command == "status":
            self.operand = operands[0] if operands else None
            if self.operand not in STATUSES:
                said = f"`{self.operand}` is nothing to ask for" if operands else "It is not said what to ask for"
                return f"{said}. Write one of hats (rings), hagsns (the view), hagsgr (groups), hagsvote (votes), hagscl (clients), hagsd (the daemon) behind `status`."
        if self.command == "load" and not (operands and reading.NUMBER.fullmatch(operands[0]) and 1 <= int(operands[0]) <= 2000):
            return "Behind `load` comes a number from 1 to 2,000."
        if self.command == "table" and not (operands and GROUP.fullmatch(operands[0])):
            return "Behind `table` comes a group's name: 1 to 32 letters, digits, `_`, `-` and `.`."
        return ""

    def _of_missing(self) -> str:
        if self.command in ("daemon", "status", "client") and "--node" not in self.given:
            return f"The node is not said. Write `--node N`, N being its number in the settings, from 1 to 32."
        if {"--lasting", "--turns"} <= self.given.keys():
            return "`--lasting` and `--turns` both say how long the daemon is to run. Give one of them."
        for it in ("--entries", "--silence"):
            if it in self.given and "--remote" not in self.given:
                return f"`{it}` is for clients on other machines. Write `--remote` too, or leave it out."
        return ""


def of_standard_input(seconds: float = PATIENCE) -> tuple[bytes | None, str]:
    """The bytes on standard input, or a sentence that says why there are none."""
    try:
        mode = os.fstat(0).st_mode
    except OSError:
        return None, "Standard input is closed. Give the input by `< FILE`."
    if stat.S_ISDIR(mode):
        return None, "Standard input is a folder. Give a file by `< FILE`."
    if os.isatty(0):
        return None, "Standard input is this terminal, and would be read to its end. Give the input by `< FILE`."
    data = b""
    while True:
        ready, _, _ = select.select([0], [], [], seconds)
        if not ready:
            have = f"{len(data):,} bytes came" if data else "Nothing came"
            return None, f"{have} on standard input, which then stayed open. It is read to its end: let its writer close it, or give `< FILE`."
        block = os.read(0, 1 << 20)
        if not block:
            return data, ""
        data += block


def of_settings(data: bytes, aim: str, node: int | None) -> tuple[reading.Settings, str]:
    """A line for the first bad line of an input, empty where there is none; and what was read."""
    settings, fault = reading.read(data, aim, node)
    if not fault:
        return settings, ""
    lines = data.split(b"\n")
    line = lines[fault.number - 1][:80].decode("ascii", "backslashreplace") if fault.number <= len(lines) else ""
    return settings, f"line {fault.number}: {fault.reason}" + (f": `{line}`" if line else "") + f"\n  {fault.advice}"


def of_port(settings: reading.Settings, node: int) -> Iterator[str]:
    """Whether this daemon can have its port, and its addresses are this machine's."""
    port = settings.port + node
    if sockets.at_port(port):
        holder = sockets.holder(port)
        who = f": process {holder.process}, {holder.command}" if holder else ""
        again = "`port` of the settings moves all nodes, or end that process."
        yield f"The UDP port {port}, which node {node} is to have, is taken{who}. {again}"
    elif port < FIRST_FREE_PORT and os.geteuid() != 0:
        yield f"The UDP port {port} is below {FIRST_FREE_PORT}, which only root may have. Give the settings a `port` of 1024 or more."
    here = sockets.addresses()
    for network, (address, _) in sorted(settings.places(node).items()):
        if here and address not in here and not address.startswith("127."):
            own = ", ".join(sorted(it for it in set(here) if not it.startswith("127."))) or "none but those of 127"
            yield f"Node {node} is to have {address} on network {network}, which is no address of this machine; it has: {own}."


def of_incarnation(given: str | None) -> Iterator[str]:
    """Whether the incarnation that is given is one that a start without it has passed."""
    now = int(time.time())
    if given and int(given) < now:
        yield (
            f"`--inc {given}` has to be greater than in all starts of this node before, and one without `--inc` takes the seconds since 1970, "
            f"{now} now. Where it is not, the others take this daemon for an old one. `hags-daemon --kept FILE` in place of `hags daemon` sees to it."
        )


def of_standard_output() -> Iterator[str]:
    """What will keep a daemon from writing."""
    try:
        about = os.fstat(1)
    except OSError:
        yield "Standard output is closed. Let it be a file, by `>> FILE`."
        return
    if stat.S_ISCHR(about.st_mode) and about.st_rdev == os.makedev(1, 7):
        yield "Standard output is /dev/full, which takes nothing."
    if stat.S_ISFIFO(about.st_mode) and select.select([], [1], [], 0)[1]:
        poll = select.poll()
        poll.register(1, select.POLLERR)
        if poll.poll(0):
            yield "Standard output is a pipe whose reader is gone."
    if stat.S_ISREG(about.st_mode) and os.fstatvfs(1).f_bavail == 0:
        yield "The disk of standard output is full."
    limit = resource.getrlimit(resource.RLIMIT_FSIZE)[0]
    if limit != resource.RLIM_INFINITY:
        yield f"Files may grow to {limit:,} bytes here (ulimit -f), and a daemon that passes that is killed (SIGXFSZ). Raise it."


def of_limits() -> Iterator[str]:
    """What keeps a daemon from its memory."""
    memory = resource.getrlimit(resource.RLIMIT_AS)[0]
    if memory != resource.RLIM_INFINITY and memory < 16 << 20:
        yield f"The memory is limited to {memory:,} bytes (ulimit -v). A daemon starts with some 4,000,000; give it 64,000,000."


def of_daemon(program: Program, settings: reading.Settings, data: bytes, node: int, is_client: bool) -> Iterator[str]:
    """Why the daemon of a node does not answer, as far as this machine shows."""
    port = settings.port + node
    addresses = [address for address, _ in settings.places(node).values()]
    is_here = any(it.startswith("127.") or it in sockets.addresses() for it in addresses)
    if is_here and not sockets.at_port(port):
        yield f"No program has the UDP port {port} on this machine, so the daemon of node {node} does not run: start it."
        return
    holder = sockets.holder(port) if is_here else None
    if holder and holder.is_stopped:
        yield f"The process {holder.process} at port {port} is stopped (SIGSTOP). `kill -CONT {holder.process}` lets it go on."
    elif asking.view(program, node, until_begin(data)) is None:
        where = f"at {' or '.join(addresses)}, UDP port {port}"
        holds = f" The process {holder.process} has that port: {holder.command}." if holder else ""
        yield (
            f"The daemon of node {node} does not answer {where}.{holds} It may be stopped or wait for who reads its output, a filter "
            "may lie between, or its settings have another port or address."
        )
        if holder and holder.writes_to_pipe:
            yield f"The output of process {holder.process} is a pipe: it stands still while nobody reads that. Read it, or let the output be a file."
    elif is_client:
        yield f"The daemon of node {node} answers `hags status`. If it takes no clients, start it with `--remote`."


def until_begin(data: bytes) -> bytes:
    """The settings of an input, without the calls behind them."""
    found = re.search(rb"^begin *$", data, re.MULTILINE)
    return data[: found.end()] + b"\n" if found else data


def differences(named: dict[str, reading.Settings]) -> Iterator[str]:
    """What settings that were read from several files say otherwise, as sentences; by name the settings."""
    (first, one), *others = named.items()
    for name, other in others:
        for what, own, its in (
            ("nodes", sorted(one.nodes), sorted(other.nodes)),
            ("hb", one.heartbeat, other.heartbeat),
            ("port", one.port, other.port),
            ("domain", one.domain, other.domain),
            ("level", sorted(one.levels.items()), sorted(other.levels.items())),
        ):
            if own != its:
                yield f"{what}: {first} has {shown(own)}, and {name} has {shown(its)}"
        for node in sorted({*one.nodes} & {*other.nodes}):
            own, its = one.places(node), other.places(node)
            for network in sorted({*own} | {*its}):
                pair = [(places.get(network) or ("no address",))[0] for places in (own, its)]
                if pair[0] != pair[1]:
                    yield f"adapter of node {node} on network {network}: {first} has {pair[0]}, and {name} has {pair[1]}"


def shown(value: object) -> str:
    if isinstance(value, (tuple, list)):
        return " ".join(shown(it) for it in value) or "none"
    return str(value)


def is_node(word: str) -> bool:
    low, high = RANGES["--node"]
    return bool(reading.NUMBER.fullmatch(word)) and low <= int(word) <= high
