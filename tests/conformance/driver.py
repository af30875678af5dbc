#!/usr/bin/env python3
"""driver.py SETTINGS NODE SECONDS: the driver of the Python client, whose commands and lines README.md beside this file
has. One thread: it waits for a command or an event, whichever comes first."""
import os
import pathlib
import select
import sys
from urllib.parse import unquote_to_bytes

sys.dont_write_bytecode = True
TOP = pathlib.Path(__file__).resolve().parents[2]
sys.path.insert(0, str(TOP / "clients" / "python" / "src"))
import hags
from hags.events import line_of
from hags.status import nodes_of

ATTRIBUTES = {"batch": "batch", "default": "default", "limit": "limit", "source": "source", "slimit": "source_limit"}


def attributes_of(words):
    """Attributes, from the words of a call."""
    given = {}
    for name, _, value in (word.partition("=") for word in words):
        if name in ("phases", "sphases"):
            given["by_vote" if name == "phases" else "source_by_vote"] = value == "n"
        else:
            given[ATTRIBUTES[name]] = int(value) if value.isdecimal() and name.endswith("limit") else value
    return hags.Attributes(**given)


def bytes_of(text):
    return b"" if text == "~" else unquote_to_bytes(text)


class Driver:
    def __init__(self, settings, node, seconds):
        self.settings, self.node, self.seconds = hags.Settings.read(settings), node, seconds
        self.client = None

    def say(self, line):
        os.write(sys.stdout.fileno(), f"{line}\n".encode("ascii"))

    def open(self, name):
        try:
            self.client = hags.Client(self.settings, self.node, name, seconds=self.seconds, reopen=False)
        except hags.DaemonFull:
            return "did full"
        return f"did taken {self.client.incarnation}"

    def close(self):
        self.client.call("goodbye {}")
        self.tell_events()
        self.client.close()
        self.client = None
        return "did taken"

    def hosts(self):
        """The nodes of the view, asked for and not subscribed to, as `Client.hosts` would."""
        view = nodes_of(self.client.status("hagsns"))
        return hags.Hosts(f"{self.node}.{self.client.name}", view.view, view.hosts)

    def make(self, command, words):
        """Makes the call of a command, and says what came of it."""
        client, group, *more = self.client, words[0] if words else None, *words[1:]
        if command == "join":
            client.start_join(group, attributes_of(more[1:]), instance=int(more[0]))
        elif command == "leave":
            client.leave(group, by_vote=more[0] == "n")
        elif command == "expel":
            client.expel(group, more[1:], by_vote=more[0] == "n")
        elif command == "state":
            client.state(group, bytes_of(more[1]), by_vote=more[0] == "n")
        elif command == "message":
            client.message(group, bytes_of(more[1]), by_vote=more[0] == "n")
        elif command == "attrs":
            client.set_attributes(group, attributes_of(more[1:]), by_vote=more[0] == "n")
        elif command == "vote":
            vote, equals, text = more[0].partition("=")
            client.vote(group, vote, bytes_of(text) if equals else None)
        elif command == "subscribe":
            client.subscribe(group)
        elif command == "unsubscribe":
            client.unsubscribe(group)
        elif command == "look":
            found = self.hosts() if group == hags.HOSTS else client.look(group)
            return f"did stands {line_of(found)}" if found else "did stands"
        elif command == "raw":
            client.call(" ".join(words))
        return "did taken"

    def take(self, line):
        """Does what a command says, and answers what to write."""
        command, *words = line.split(" ")
        if self.client is None and command != "open":
            return "did lost"  # it was given before that was told
        try:
            if command == "open":
                return self.open(*words)
            return self.close() if command == "close" else self.make(command, words)
        except hags.CallRefused as refused:
            return f"did refused {refused.code}".rstrip()
        except hags.BadArgument:
            return "did bad"
        except hags.NoReply:
            return "did late"
        except hags.SessionLost:
            self.let_go()
            return "did lost"
        except hags.DaemonFull:
            self.let_go()
            return "did full"

    def let_go(self):
        self.client.close()
        self.client = None

    def tell_events(self):
        """Writes what was heard."""
        try:
            while self.client and (event := self.client.next_event(0)) is not None:
                self.say(f"event {line_of(event)}")
        except hags.SessionLost:
            self.let_go()
            self.say("lost")

    def run(self):
        """Takes commands, until `quit` or the end of the input."""
        waiting = b""
        while True:
            ready, _, _ = select.select([sys.stdin.fileno(), *([self.client] if self.client else [])], [], [])
            if self.client in ready:
                self.tell_events()
            if sys.stdin.fileno() not in ready:
                continue
            came = os.read(sys.stdin.fileno(), 65536)
            *lines, waiting = (waiting + came).split(b"\n")
            for line in lines:
                if line == b"quit":
                    return
                self.say(self.take(line.decode("ascii")))
                self.tell_events()
            if not came:
                return


if __name__ == "__main__":
    Driver(sys.argv[1], int(sys.argv[2]), float(sys.argv[3])).run()
    os._exit(0)  # at once, without a goodbye
