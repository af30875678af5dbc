"""The plays that bench/plays times and bench/compare compares: of each part a few cases, of one kind and of sizes that
rise. A case has a play that only gets ready, and one that then does its units of work too: the difference is what the
work costs."""
import os
import subprocess
import sys
import tempfile
from dataclasses import dataclass


@dataclass(frozen=True)
class Case:
    """So many units of work, as the lines of a script behind those that get ready, or as a load of so many steps. The
    cases of one kind differ by their size."""

    kind: str
    size: str
    ready: tuple
    work: tuple
    units: int
    words: tuple = ("run",)


def begun(mode, nodes):
    lines = [f"mode {mode}"] + [f"node {n}" for n in range(1, nodes + 1)] + ["begin"]
    if mode != "fixed":
        lines += [f"start {n}" for n in range(1, nodes + 1)]
    return lines


def joined(nodes, groups):
    """A client of each node that approves whatever it is asked, in each of these groups."""
    lines = [f"client {n} c{n} A" for n in range(1, nodes + 1)]
    for g in range(groups):
        for n in range(1, nodes + 1):
            lines += [f"join c{n} g{g} {n}", "flow"]
    return lines


def each_flows(lines):
    return tuple(part for line in lines for part in (line, "flow"))


def messages():
    """Messages in the one group of 1 and of 8 nodes."""
    for nodes in (1, 8):
        ready = begun("fixed", nodes) + joined(nodes, 1)
        for count in (1024, 2048, 4096):
            sent = [f"message c{1 + k % nodes} g0 1 m{k}" for k in range(count)]
            yield Case(f"{nodes} node{'s' * (nodes > 1)}", f"{count}", tuple(ready), each_flows(sent), count)


def groups():
    """Messages in one of 1, 8 and 64 groups of 2 nodes, and in all of them in turn."""
    for turns in (False, True):
        for among in (1, 8, 64):
            ready = begun("fixed", 2) + joined(2, among)
            sent = [f"message c{1 + k % 2} g{k // 2 % among if turns else among // 2} 1 m{k}" for k in range(4000)]
            kind = "in turn" if turns else "in one of them"
            yield Case(kind, f"{among} group{'s' * (among > 1)}", tuple(ready), each_flows(sent), len(sent))


def views():
    """Views of 4 nodes, with the lists of 1, 8 and 64 groups."""
    for among in (1, 8, 64):
        ready = begun("asked", 4) + ["ask 1 1 2 3 4", "flow"] + joined(4, among)
        yield Case("", f"{among} group{'s' * (among > 1)}", tuple(ready), each_flows(["ask 1 1 2 3 4"] * 64), 64)


def lists():
    """Views of 4 nodes, one of which has not heard the newest 16 and 1,024 entries: by the entry, with its message."""
    everyone = ("ask 1 1 2 3 4", "flow")
    for count in (16, 1024):
        ready = begun("asked", 4) + [*everyone] + joined(4, 1)
        sent = each_flows([f"message c{1 + k % 3} g0 1 m{k}" for k in range(count)])
        rounds = 2048 // count
        work = ("cut 1 4", *sent, "heal 1 4", *everyone) * rounds
        yield Case("", f"{count} entries", tuple(ready), work, rounds * count)


def values():
    """Messages in a group with 1, 8 and 64 members, on 8 nodes, and a value of 0 and of 1,024 bytes."""
    for size in (0, 1024):
        for members in (1, 8, 64):
            ready = begun("fixed", 8)
            for m in range(members):
                ready += [f"client {1 + m % 8} c{m} A", f"join c{m} g0 {1 + m // 8}", "flow"]
            ready += [f"state c0 g0 1 {'v' * size}" if size else "state c0 g0 1 ~", "flow"]
            sent = [f"message c{k % members} g0 1 m{k}" for k in range(512)]
            yield Case(f"{size} bytes", f"{members} member{'s' * (members > 1)}", tuple(ready), each_flows(sent), len(sent))


def votes():
    """Changes of 8 nodes that are voted on in two phases."""
    ready = begun("fixed", 8) + [f"client {n} c{n} {'C,A,' * 100}A" for n in range(1, 9)]
    ready += each_flows([f"join c{n} g0 {n}" for n in range(1, 9)])
    for count in (100, 200):
        yield Case("", f"{count} changes", tuple(ready), each_flows([f"state c1 g0 n s{k}" for k in range(count)]), count)


def rings():
    """Rounds of heartbeat rings of 8, 16 and 32 nodes: a tick of each node is a unit."""
    for nodes in (8, 16, 32):
        yield Case("", f"{nodes} nodes", tuple(begun("rings", nodes) + ["run 20"]), ("run 100",), 100 * nodes)


def load():
    """`hags load` of 500, 1,000 and 2,000 steps."""
    for steps in (500, 1000, 2000):
        yield Case("", f"{steps} steps", (), (), steps, ("load", str(steps)))


PARTS = {part.__name__: part for part in (messages, groups, views, lists, values, votes, rings, load)}


def parts_of(names):
    """The named parts, or all of them where none is."""
    for name in names:
        if name not in PARTS:
            sys.exit(f"there is no part {name}: there are {', '.join(PARTS)}")
    return [(name, list(PARTS[name]())) for name in names or PARTS]


def seconds_of(program, words, lines):
    """The processor time of one call. The script is read from a file, and the transcript goes into one, as in
    `hags run < SCRIPT > TRANSCRIPT`."""
    with tempfile.TemporaryFile() as script, tempfile.TemporaryFile() as written:
        script.write("".join(line + "\n" for line in lines).encode())
        script.seek(0)
        child = subprocess.Popen([program, *words], stdin=script, stdout=written)
        _, status, used = os.wait4(child.pid, 0)
        child.returncode = os.waitstatus_to_exitcode(status)
    if child.returncode:
        sys.exit(f"{program} {' '.join(words)}: status {child.returncode}")
    return used.ru_utime + used.ru_stime


@dataclass(frozen=True)
class Turn:
    """The processor time of a case, and of what it takes to get ready, once each."""

    whole: float
    ready: float

    @property
    def work(self):
        return self.whole - self.ready


def turn_of(program, case):
    ready = seconds_of(program, case.words, case.ready) if case.ready else 0
    return Turn(seconds_of(program, case.words, case.ready + case.work), ready)


def least_work(turns):
    """The work of a case of which nothing was disturbed: what disturbs a turn makes it longer, and may disturb the half of
    it that is taken away."""
    return min(turn.whole for turn in turns) - min(turn.ready for turn in turns)
