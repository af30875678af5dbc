"""Bad lines of scripts and settings: the reason, and that what is to be written is named. That the program says the same
reason of the same line is tests/wrong-inputs."""
import re
import unittest

import context
from hags_tools import reading

GOOD = b"node 1\nnode 2\nadapter 1 1 127.0.0.1\nadapter 2 1 127.0.0.2\nbegin\nclient 1 a A\njoin a db 1\n"


def fault(text, aim=reading.DAEMON, node=1):
    return reading.read(text, aim, node)[1]


class Good(unittest.TestCase):
    def test_settings(self):
        settings, none = reading.read(b"hb 2 5\nport 24100\nlevel 1 3\n".join([b"node 1\n", b"domain 9\nbegin\n"]), reading.DAEMON, 1)
        self.assertIsNone(none)
        self.assertEqual((settings.nodes, settings.heartbeat, settings.port), ([1], (2, 5), 24100))
        self.assertEqual(settings.places(1), {1: ("10.1.0.1", 24101)})

    def test_places(self):
        self.assertEqual(reading.read(GOOD, reading.STATUS, 2)[0].places(2), {1: ("127.0.0.2", 12349)})

    def test_each_stored_script_is_good(self):
        for path in context.STORED:
            with self.subTest(path.stem):
                status = path.with_suffix(".status")
                is_faulty = status.exists() and status.read_text().strip() == "2"
                self.assertEqual(bool(fault(path.with_suffix(".script").read_bytes(), reading.SCRIPT)), is_faulty)


class Bad(unittest.TestCase):
    """A change of the good settings, the fault, and words that its advice has."""

    def check(self, text, number, reason, *words, aim=reading.DAEMON, node=1):
        found = fault(text, aim, node)
        self.assertEqual(found[:2], (number, reason))
        for word in words:
            self.assertIn(word, found.advice)

    def changed(self, old, new):
        self.assertIn(old, GOOD)
        return GOOD.replace(old, new, 1)

    def test_reasons(self):
        self.check(b"", 1, "missing word", "empty", "`begin`")
        self.check(b"node 1\n", 2, "missing word", "`begin`")
        self.check(GOOD[:-1], 7, "missing word", "line feed")
        self.check(self.changed(b"node 2", b"node"), 2, "missing word", "N is missing", "`node N`")
        self.check(self.changed(b"node 2", b"node 2 # db"), 2, "extra word", "line of its own")
        self.check(self.changed(b"node 2", b"nodes 2"), 2, "unknown word", "Is it `node`?")
        self.check(self.changed(b"node 2", b"node 33"), 2, "bad word", "`33`", "1 to 32")
        self.check(self.changed(b"node 2", b"node 02"), 2, "bad word", "zero in front")
        self.check(self.changed(b"127.0.0.2", b"db2.example"), 4, "bad word", "no names are looked up")
        self.check(self.changed(b"127.0.0.2", b"::1"), 4, "bad word", "IPv6")
        self.check(self.changed(b"127.0.0.2", b"127.0.0.1"), 4, "out of place", "Node 1", "line 3")
        self.check(self.changed(b"node 2", b"node 1"), 2, "out of place", "line 1 already")
        self.check(self.changed(b"adapter 2 1", b"adapter 2 2"), 5, "no shared network", "Nodes 1 and 2")
        self.check(self.changed(b"adapter 2 1 127.0.0.2\n", b""), 4, "no shared network", "Node 2 has no `adapter`")
        self.check(self.changed(b"begin", b"mode fixed\nbegin"), 5, "out of place", "rings alone")
        self.check(self.changed(b"begin\n", b"begin\nhb 1 4\n"), 6, "out of place", "line 5")
        self.check(GOOD + b"state a db 1 x\n", 8, "out of place", "`hags client`")
        self.check(GOOD + b"flow\n", 8, "out of place", "script")
        self.check(GOOD + b"join b db 2\n", 8, "unknown client", "there are: a")
        self.check(GOOD + b"join a db 1 limit=x\n", 8, "bad word", "`x` is to be")
        self.check(GOOD + b"client 1 b boxed\n" * 5, 12, "boxed client", "one more")
        self.check(GOOD, 5, "unknown node", "`node 3`", "there are: 1, 2", node=3)
        self.check(self.changed(b"node 2", b"node\t2"), 2, "bad byte", "tab")
        self.check(GOOD.replace(b"\n", b"\r\n"), 1, "bad byte", "CR LF")
        self.check(b"\xef\xbb\xbf" + GOOD, 1, "bad byte", "BOM")
        self.check("# für\n".encode() + GOOD, 1, "bad byte", "C3", "comments too")
        self.check(GOOD, 6, "out of place", "`client N NAME -`", aim=reading.CLIENT)
        self.check(b"node 1\nbegin\nclient 1 a boxed\n", 3, "boxed client", aim=reading.SCRIPT)

    def test_each_reason_of_the_page_is_said(self):
        page = (context.TOP / "docs" / "messages.md").read_text()
        part = page.split("## Reasons of a bad line")[1].split("\n## ")[0]
        source = (context.TOP / "tools" / "hags_tools" / "reading.py").read_text()
        for reason in re.findall(r"^\| `([a-z ]+)`", part, re.MULTILINE):
            self.assertIn(f'"{reason}"', source)


if __name__ == "__main__":
    unittest.main()
