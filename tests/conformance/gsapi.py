"""A program against the Group Services interface of clients/c at each of three daemons: it joins, votes, sets the group's
value, sends a message, expels, leaves and subscribes, one is killed, and all members are notified of the same. The daemons
tell entries, so each notification says who asks for what, and why who goes does."""
import os
import subprocess
import time

import drivers
from hags_tools import daemons

NODES = (1, 2, 3)
SECONDS = 120  # the longest wait for one thing
HEARTBEAT = (1, 30)  # a node is missed after three seconds: here no view may part, however busy the machine is
OK, BAD_MEMBER_TOKEN = 0, 8
JOIN, FAILURE, LEAVE, EXPEL, STATE, MESSAGE = 1, 2, 3, 4, 5, 6  # ha_gs_request_t
OWN_WILL, FAILED = 0, 1  # ha_gs_leave_reason_t
WORDS = ["--remote", "--entries", "--silence", "100"]


class Member:
    """One such program, at a node."""

    def __init__(self, words, settings, node):
        self.node, self.lines, self.unread = node, [], b""
        surroundings = {**os.environ, "HAGS_SETTINGS": str(settings), "HAGS_NODE": str(node)}
        pipe = subprocess.PIPE
        self.process = subprocess.Popen(words, stdin=pipe, stdout=pipe, bufsize=0, env=surroundings,
                                        preexec_fn=daemons.die_with_parent)
        os.set_blocking(self.process.stdout.fileno(), False)

    def read(self):
        try:
            self.unread += os.read(self.process.stdout.fileno(), 1 << 16)
        except BlockingIOError:
            pass
        *lines, self.unread = self.unread.split(b"\n")
        self.lines += [line.decode("ascii") for line in lines]

    def wait_for(self, what, found):
        end = time.monotonic() + SECONDS
        while not found(self.lines):
            if time.monotonic() > end or self.process.poll() is not None:
                raise drivers.DriverError(f"node {self.node}: waited for {what}; it has written {self.lines}")
            time.sleep(0.005)
            self.read()

    def do(self, command, code=OK):
        """Gives a command, whose answer is to be this code."""
        before = sum(line.startswith("did ") for line in self.lines)
        self.process.stdin.write(f"{command}\n".encode("ascii"))
        answers = lambda lines: [line for line in lines if line.startswith("did ")][before:]
        self.wait_for(f"the answer to {command}", answers)
        if answers(self.lines) != [f"did {code}"]:
            raise drivers.DriverError(f"node {self.node}: {command} was answered {answers(self.lines)} and not {code}")

    def approvals(self):
        return [line for line in self.lines if line.startswith("approved ")]


def wait_for_all(members, kind, value, names):
    """Waits until each of these was notified that a change of this kind was approved, and what it led to."""
    line = f"approved {kind} {names} ={value}"
    for member in members:
        member.wait_for(line, lambda lines: line in lines)


def names_of(*nodes):
    return ",".join(f"{node}.{10 + node}" for node in nodes)


def see(members, word, kind, asker, who="-", why="-", value="-", text="-"):
    """Waits until each of these was told what was proposed or done, whole."""
    line = f"{word} {kind} {names_of(asker) if asker else '0.0'} {who} {why} {value} {text}"
    for member in members:
        member.wait_for(line, lambda lines: line in lines)


def tell(cluster, settings, words):
    """The story of the three members. Answers how much they were notified of."""
    cluster.start()
    cluster.wait_for_view(NODES)
    members = [Member(words, settings, node) for node in NODES]
    try:
        one, two, three = members
        for count, member in enumerate(members, 1):
            member.do("subscribe")
            member.wait_for("the hosts", lambda lines: f"noted 8 {','.join(f'{node}.0' for node in NODES)}" in lines)
            member.do("join")
            wait_for_all(members[:count], JOIN, "", names_of(*NODES[:count]))
            see(members[: count - 1], "proposed", JOIN, count, names_of(count))
            see(members[:count], "done", JOIN, count, names_of(count))
        one.do("state red")
        wait_for_all(members, STATE, "red", names_of(1, 2, 3))
        see(members, "proposed", STATE, 1, value="=red")
        two.do("message hello")
        wait_for_all(members, MESSAGE, "red", names_of(1, 2, 3))
        for word in ("proposed", "done"):
            see(members, word, MESSAGE, 2, text="=hello")
        three.do("expel 2")
        wait_for_all(members, EXPEL, "red", names_of(1, 3))
        see([one, three], "proposed", EXPEL, 3, names_of(2), OWN_WILL)
        two.do("state blue", BAD_MEMBER_TOKEN)
        heard_by_two = two.approvals()
        two.do("join")
        wait_for_all(members, JOIN, "red", names_of(1, 3, 2))
        two.process.kill()
        wait_for_all([one, three], FAILURE, "red", names_of(1, 3))
        see([one, three], "done", FAILURE, None, names_of(2), FAILED)
        three.do("leave")
        wait_for_all([one, three], LEAVE, "red", names_of(1))
        see([one, three], "done", LEAVE, 3, names_of(3), OWN_WILL)
        cluster.daemons[3].kill()
        one.wait_for("the hosts 1 and 2", lambda lines: "noted 8 1.0,2.0" in lines)
        all_heard = one.approvals()
        for member, heard, last in ((two, heard_by_two, EXPEL), (three, three.approvals(), LEAVE)):
            start = all_heard.index(heard[0])
            if heard != all_heard[start : start + len(heard)] or not heard[-1].startswith(f"approved {last} "):
                raise drivers.DriverError(f"node {member.node} was notified of {heard}, and node 1 of {all_heard}")
        one.process.stdin.write(b"quit\n")
        if one.process.wait(SECONDS):
            raise drivers.DriverError(f"node {one.node} ended with status {one.process.returncode}")
        return sum(len(member.lines) for member in members)
    finally:
        for member in members:
            member.process.kill()
            member.process.wait()


def play(program, folder):
    """Plays it, and says how it went."""
    words = drivers.compiled(drivers.HERE / "gs_member.c", folder, [*drivers.GROUP_SERVICES, *drivers.CLIENT])
    began = time.monotonic()
    text = daemons.Plan(len(NODES), heartbeat=HEARTBEAT).settings(daemons.free_port(len(NODES)))
    cluster = daemons.Cluster([daemons.Daemon(program, node, text, folder, words=WORDS) for node in NODES])
    with cluster:
        count = tell(cluster, folder / "settings-1", words)
    return f"gsapi: three members joined, voted, sent and subscribed, and one was killed; {count} lines; {time.monotonic() - began:.1f} s"
