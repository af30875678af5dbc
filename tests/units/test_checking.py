"""What is said of wrong words, of an incarnation and of settings that differ."""
import time
import unittest

import context
from hags_tools import checking, reading

BASE = b"node 1\nnode 2\nadapter 1 1 127.0.0.1\nadapter 2 1 127.0.0.2\nbegin\n"


def said(words):
    return checking.Words(words.split()).fault


def settings(text):
    found, fault = reading.read(text, reading.DAEMON)
    assert fault is None, fault
    return found


class Words(unittest.TestCase):
    def test_good(self):
        for words in ("run", "run --kinds put,told", "load 7", "daemon --node 3 --remote --silence 50", "table -- -db", "--help", "status hats --node=1"):
            self.assertEqual(said(words), "", words)

    def test_wrong(self):
        for words, wanted in (
            ("daemno --node 1", "Is it `daemon`?"),
            ("daemon --node 40", "1 to 32"),
            ("daemon --node 1 --entries", "Write `--remote` too"),
            ("status --node 1", "what to ask for"),
            ("run extra", "< extra"),
        ):
            self.assertIn(wanted, said(words))

    def test_node(self):
        self.assertEqual(checking.Words(["daemon", "--node", "7"]).node, 7)


class Settings(unittest.TestCase):
    def test_alike(self):
        self.assertEqual(list(checking.differences({"one": settings(BASE), "other": settings(b"# all\n" + BASE)})), [])

    def test_different(self):
        other = settings(b"hb 2 5\n" + BASE.replace(b"127.0.0.2", b"127.0.0.9"))
        found = list(checking.differences({"one": settings(BASE), "other": other}))
        self.assertEqual([it.split(":")[0] for it in found], ["hb", "adapter of node 2 on network 1"])
        self.assertIn("one has 1 4, and other has 2 5", found[0])


class Incarnation(unittest.TestCase):
    def test_below_the_clock(self):
        self.assertEqual(len(list(checking.of_incarnation("5"))), 1)
        for given in (None, str(int(time.time()) + 1000)):
            self.assertEqual(list(checking.of_incarnation(given)), [])


if __name__ == "__main__":
    unittest.main()
