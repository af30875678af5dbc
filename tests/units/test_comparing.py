"""Whether what daemons wrote agrees: every stored run does, and each change of a line's meaning is found."""
import unittest

import context
from hags_tools import comparing


def faults_of(lines, may_have_gone=comparing.nobody):
    """What is said of these lines as a whole cluster's; None where nothing is."""
    try:
        comparing.compare(comparing.lives_of(lines), may_have_gone)
    except comparing.Fault as fault:
        return fault
    return None


class Agree(unittest.TestCase):
    def test_stored_runs_agree(self):
        compared = 0
        for path in context.STORED:
            lines = path.read_text(encoding="ascii").splitlines()
            with self.subTest(path.stem):
                self.assertIsNone(faults_of(lines, comparing.anybody))
                compared += len(lines)
        self.assertGreater(compared, 10_000)


class Differ(unittest.TestCase):
    """Two nodes and a group: each change of one line is a fault that names a line."""

    def setUp(self):
        self.lines = [
            "up 1 1", "up 2 1", "in 1 1.1.1 1.1,2.1", "in 2 1.1.1 1.1,2.1", "asked 1.1.1.1 1 db join",
            "put 1 1.1.1 db 0 once join 1.1.1.1", "heard 1.1.1.1 1.1.1 db 0 once-join 1.1.1.1 =",
            "put 2 1.1.1 db 0 once join 1.1.1.1", "asked 1.1.1.1 2 db state",
            "put 1 1.1.1 db 1 begin state 1.1.1.1/2 =red", "heard 1.1.1.1 1.1.1 db 1 begin-state 1.1.1.1 =",
            "cast 1.1.1.1 1.1.1/1 1 A", "put 2 1.1.1 db 1 begin state 1.1.1.1/2 =red",
            "put 1 1.1.1 db 2 approve 1.1.1/1 1 1.1.1.1=A -", "heard 1.1.1.1 1.1.1 db 2 approve 1.1.1.1 =red",
            "in 1 2.1.1 1.1,2.1", "base 1 2.1.1 db 1.1.1 3 1.1.1.1 =red - -",
        ]

    def changed(self, old, new):
        self.assertEqual(sum(line == old for line in self.lines), 1, old)
        return [new if line == old else line for line in self.lines if line != old or new]

    def test_as_it_is(self):
        self.assertIsNone(faults_of(self.lines))

    def test_changes(self):
        for old, new in (
            ("in 2 1.1.1 1.1,2.1", "in 2 1.1.1 1.1,2.1,3.1"),
            ("put 2 1.1.1 db 0 once join 1.1.1.1", "put 2 1.1.1 db 0 once join 1.1.2.1"),
            ("put 2 1.1.1 db 0 once join 1.1.1.1", "put 2 1.1.1 db 1 once join 1.1.1.1"),
            ("heard 1.1.1.1 1.1.1 db 0 once-join 1.1.1.1 =", "heard 1.1.1.1 1.1.1 db 0 once-join 1.1.1.1 =red"),
            ("heard 1.1.1.1 1.1.1 db 0 once-join 1.1.1.1 =", None),
            ("asked 1.1.1.1 2 db state", None),
            ("cast 1.1.1.1 1.1.1/1 1 A", "cast 1.1.1.1 1.1.1/1 1 R"),
            ("put 1 1.1.1 db 2 approve 1.1.1/1 1 1.1.1.1=A -", "put 1 1.1.1 db 2 reject 1.1.1/1 1 1.1.1.1=A"),
            ("put 1 1.1.1 db 2 approve 1.1.1/1 1 1.1.1.1=A -", "put 1 1.1.1 db 2 approve 1.1.1/1 1 - -"),
            ("heard 1.1.1.1 1.1.1 db 2 approve 1.1.1.1 =red", "heard 1.1.1.1 1.1.1 db 2 approve 1.1.1.1 =blue"),
            ("base 1 2.1.1 db 1.1.1 3 1.1.1.1 =red - -", "base 1 2.1.1 db 1.1.1 3 1.1.1.1 =blue - -"),
            ("base 1 2.1.1 db 1.1.1 3 1.1.1.1 =red - -", "base 1 2.1.1 db 1.1.1 3 1.1.1.1 =red 1.1.1.1 -"),
            ("in 1 2.1.1 1.1,2.1", "in 1 1.1.1 1.1,2.1"),
        ):
            with self.subTest(f"{old} -> {new}"):
                fault = faults_of(self.changed(old, new))
                self.assertIsNotNone(fault)
                self.assertIsNotNone(fault.number)

    def test_the_other_line_is_named(self):
        fault = faults_of(self.changed("put 2 1.1.1 db 0 once join 1.1.1.1", "put 2 1.1.1 db 0 once join 1.1.2.1"))
        self.assertEqual((fault.life.name, fault.number, fault.other), ("node-2.1", 3, ("node-1.1", 4)))


if __name__ == "__main__":
    unittest.main()
