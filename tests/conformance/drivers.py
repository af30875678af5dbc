"""The drivers of all languages: how each is built, and how one of them is spoken with, by the lines that README.md has."""
import os
import pathlib
import shutil
import subprocess
import sys
from dataclasses import dataclass, field

from hags_tools import daemons

HERE = pathlib.Path(__file__).resolve().parent
TOP = HERE.parent.parent
C = TOP / "clients" / "c"
CLIENT, GROUP_SERVICES = sorted(C.glob("hags*.c")), sorted(C.glob("ha_gs*.c"))
WAIT = 120  # seconds that a client waits for an answer: longer than any daemon is away
ASKING = ("join", "leave", "expel", "state", "message", "attrs")  # the commands that ask something of a group
OWN = ("heard", "cast", "asked", "told")
STRICT = ["-std=c11", "-Wall", "-Wextra", "-Werror", "-g", "-O1"]
SANE = ["-fsanitize=address,undefined", "-fno-sanitize-recover=all"]


class DriverError(Exception):
    """A driver did what it should not."""


class Missing(Exception):
    """A language has no tool on this machine."""


def tool(*names):
    """The first of these programs that is there."""
    found = next((name for name in names if shutil.which(name)), None)
    if not found:
        raise Missing(f"there is no {' or '.join(names)}")
    return found


def built(words, folder, where=HERE):
    """Builds, and says why where that fails. What a compiler keeps goes into the folder, if it has no place of its own."""
    made = subprocess.run(words, cwd=where, capture_output=True, text=True, env={"HOME": str(folder), **os.environ})
    if made.returncode:
        raise DriverError(f"{' '.join(map(str, words))}:\n{made.stderr}")


def compiled(source, folder, more=()):
    """A program of C, with the sanitizers where the compiler has them."""
    compiler, program = tool("cc", "gcc", "clang"), folder / pathlib.Path(source).stem
    words = [compiler, *STRICT, "-o", program, source, *more]
    try:
        built([*words, *SANE], folder)
    except DriverError:
        built(words, folder)
    return [program]


def build_c(folder):
    return compiled(HERE / "driver.c", folder, CLIENT)


def build_go(folder):
    program = folder / "driver-go"
    built([tool("go"), "build", "-o", program, "."], folder, HERE / "go")
    return [program]


def build_python(folder):
    if not (HERE / "driver.py").exists():
        raise Missing("there is no driver.py")
    if sys.version_info < (3, 10):
        raise Missing("Python is older than 3.10")
    return [sys.executable, HERE / "driver.py"]


LANGUAGES = {"c": build_c, "go": build_go, "python": build_python}


@dataclass
class Session:
    """What a driver has made and heard in one session."""

    language: str
    node: int
    name: str
    instance: int
    incarnation: int = None
    calls: list = field(default_factory=list)  # commands with their answers
    lines: list = field(default_factory=list)  # what was heard

    def is_own(self, line):
        """Is this line of the daemon's transcript one that the client hears as an event?"""
        kind, who, *_ = line.split(" ")
        if kind == "noted":
            return who == f"{self.node}.{self.name}"
        return kind in OWN and who.split(".")[2] == str(self.instance)

    def is_refusal(self, line):
        return line.startswith(f"refused {self.node}.{self.name} ")

    @property
    def taken(self):
        """The commands that were taken and ask something of a group."""
        return [command for command, answer in self.calls if answer == "taken" and command.split(" ")[0] in ASKING]

    @property
    def refused(self):
        return [answer[len("refused ") :] for _, answer in self.calls if answer.startswith("refused ")]


class Driver:
    """A driver at work, as an actor of lanes: it is given a command whenever it waits for one."""

    def __init__(self, language, words, settings, node, index, chance):
        self.language, self.node, self.index, self.chance = language, node, index, chance
        self.is_quiet, self.sessions, self.unread, self.under_way = False, [], b"", None
        self.said = open(f"{settings}.said", "w+")
        pipes = {"stdin": subprocess.PIPE, "stdout": subprocess.PIPE, "stderr": self.said}
        self.process = subprocess.Popen([*words, settings, str(node), str(WAIT)], bufsize=0, **pipes,
                                        preexec_fn=daemons.die_with_parent)
        os.set_blocking(self.process.stdout.fileno(), False)
        self.open()

    @property
    def session(self):
        return self.sessions[-1]

    def open(self):
        number = len(self.sessions)
        name = f"{self.language[0]}{self.index}-{number}"
        self.sessions.append(Session(self.language, self.node, name, 1 + self.index * 1000 + number))
        self.joined, self.phases = set(), set()
        self.give(f"open {name}")

    def give(self, command):
        self.under_way = command
        self.process.stdin.write(f"{command}\n".encode("ascii"))

    def close(self):
        """Ends it, and says whether it ended well."""
        if self.process.poll() is None:
            self.process.kill()
        self.process.wait()
        self.process.stdin.close()
        self.process.stdout.close()
        self.said.close()

    def quit(self):
        """Lets it end by itself."""
        self.process.stdin.write(b"quit\n")
        if self.process.wait(WAIT):
            raise DriverError(f"the driver of {self.language} has ended with status {self.process.returncode}: {self.why()}")

    def why(self):
        self.said.seek(0)
        return self.said.read(4000)

    def act(self):
        if self.process.poll() is not None:
            raise DriverError(f"the driver of {self.language} has ended: {self.why()}")
        try:
            self.unread += os.read(self.process.stdout.fileno(), 1 << 16)
        except BlockingIOError:
            pass
        *lines, self.unread = self.unread.split(b"\n")
        for line in lines:
            self.take(line.decode("ascii"))
        if self.under_way is None and not self.is_quiet and self.chance.happens(20):
            self.give(self.next_command())

    def take(self, line):
        word, _, rest = line.partition(" ")
        if word == "event":
            self.session.lines.append(rest)
            self.follow(rest.split(" "))
        elif word == "did" and self.under_way:
            self.take_answer(rest)
        elif word == "lost":
            self.open_again()
        else:
            raise DriverError(f"the driver of {self.language} wrote: {line}")

    def open_again(self):
        """A session is lost. A command that was given meanwhile has an answer first: `did lost`."""
        if self.under_way is None:
            self.open()

    def take_answer(self, answer):
        command, self.under_way = self.under_way, None
        if command.startswith("open ") and answer.startswith("taken "):
            self.session.incarnation = int(answer.split(" ")[1])
        elif answer == "lost" or command == "close":
            self.open()
        elif answer in ("late", "full", "bad") or command.startswith("open "):
            raise DriverError(f"the driver of {self.language} answered {command} with {answer}")
        else:
            self.session.calls.append((command, answer))

    def follow(self, words):
        """Keeps where it is a member, and where a phase is open."""
        if words[0] == "asked" and words[4] == "join":
            self.joined.add(words[3])
        if words[0] == "told" and words[3] != "COLLIDE":
            self.joined.clear()  # of which group it was is not said: a join too many is refused
        if words[0] == "heard":
            group, what = words[3], words[5]
            self.phases.discard(group)
            if what.startswith("begin-") or what == "phase":
                self.phases.add(group)
            elif words[1] not in words[6].split(",") and what != "reject":
                self.joined.discard(group)

    def next_command(self):
        if self.phases and self.chance.happens(90):
            group = min(self.phases)
            self.phases.discard(group)
            vote = self.chance.one_of(("A", "A", "A", "A", "C", "R"))
            return f"vote {group} {vote}" + (f"={self.new_value()}" if vote == "C" else "")
        group = self.chance.one_of(("db", "log"))
        if group not in self.joined:
            attributes = " phases=n limit=10" if group == "db" else ""
            return f"join {group} {self.session.instance}{attributes}"
        kind = self.chance.below(24)
        by_vote = "n" if group == "db" and self.chance.happens(50) else "1"
        if kind < 12:
            return f"state {group} {by_vote} {self.new_value()}"
        if kind < 17:
            return f"message {group} {by_vote} m{len(self.session.calls)}"
        if kind == 17:
            return f"leave {group} {by_vote}"
        if kind == 18:
            return f"subscribe {self.chance.one_of(('db', 'log', 'HostMembership', 'none'))}"
        if kind == 19:
            return f"unsubscribe {self.chance.one_of(('db', 'log', 'HostMembership'))}"
        if kind == 20 and self.chance.happens(50):
            return f"look {self.chance.one_of(('db', 'log', 'HostMembership', 'none'))}"
        if kind == 20:
            return f"expel {group} 1 1.1.1.1"
        if kind == 21:
            return "close"
        return self.chance.one_of(("raw flow", "raw state nobody db 1 x", f"vote {group} A", f"join {group} {self.session.instance}"))

    def new_value(self):
        """A value that no other call has, with bytes that a line has to spell, as a word."""
        return f"{self.session.name}.{len(self.session.calls)}%20%25~,=|%{self.chance.below(256):02X}"
