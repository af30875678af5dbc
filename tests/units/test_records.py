"""The reader of transcripts: every stored line, the parts of each kind, and what is no record."""
import unittest

import context
from hags_tools import records
from hags_tools.records import Entry, Proposal, read


class Stored(unittest.TestCase):
    def test_each_stored_line_is_a_record_of_its_kind(self):
        kinds = set()
        for path in context.STORED:
            for line in path.read_text(encoding="ascii").splitlines():
                kinds.add(records.kind_of(read(line)))
                self.assertEqual(records.kind_of(read(line)), line.split(" ")[0])
        self.assertEqual(kinds, set(records.KINDS))


class Parts(unittest.TestCase):
    def test_put(self):
        put = read("put 2 1.1.1 db 7 begin state 1.1.1.1/2 =a%20b")
        proposal = Proposal("state", asker="1.1.1.1", number=2, value="a%20b")
        self.assertEqual(put, records.Put(2, "1.1.1", "db", 7, Entry("begin", proposal)))
        self.assertEqual(put.entry.proposal.requests, ["1.1.1.1/2"])
        self.assertEqual(records.bytes_of(put.entry.proposal.value), b"a b")

    def test_entries(self):
        entry = lambda words: read(f"put 1 1.1.1 db 0 {words}").entry
        self.assertEqual(entry("once join 1.1.7.1,1.1.8.2 limit=3 src=2").proposal.requests, ["1.1.7.1/1", "1.1.8.2/2"])
        self.assertEqual(entry("once join 1.1.7.1 limit=3 src=2").proposal.rest, ("limit=3", "src=2"))
        self.assertEqual(entry("once leave 1.1.7.1/4").proposal.leaving, ("1.1.7.1",))
        self.assertEqual(entry("once fail 1.1.7.1:gone,2.1.1.1:died").proposal.causes, ("gone", "died"))
        self.assertEqual(entry("once expel 1.1.7.1/3 2.1.1.1").proposal.leaving, ("2.1.1.1",))
        self.assertEqual(entry("once reflect 1.1.1/2 =on").proposal.source, "1.1.1/2")
        self.assertEqual(entry("once attrs 1.1.7.1/3 limit=1").proposal.rest, ("limit=1",))
        self.assertEqual(entry("late 1.1.1/2 1 1.1.7.1").late, ("1.1.7.1",))
        self.assertEqual(entry("reject 1.1.1/2 1 1.1.7.1=LR").rows, (("1.1.7.1", "LR"),))
        self.assertEqual(entry("approve 1.1.1/2 1 - -"), Entry("approve", None, "1.1.1/2", 1))

    def test_others(self):
        base = read("base 2 3.2.1 db 2.1.1 4 1.1.1.1,2.1.1.1 = 1.1.1.1 2.1.1/3:1")
        self.assertEqual((base.length, base.failed, base.running), (4, ("1.1.1.1",), ("2.1.1/3", 1)))
        self.assertEqual(read("cast 2.1.2.1 1.1.1/2 1 C=ready"), records.Cast("2.1.2.1", "1.1.1/2", 1, "C", "ready"))
        self.assertEqual(read("told 2.1.2.1 1 COLLIDE 1.1.1/2").detail, ("1.1.1/2",))
        noted = read("noted 1.sue.x 1.1.1 db - - =red")
        self.assertEqual((noted.node, noted.name, noted.place, noted.members), (1, "sue.x", None, ()))

    def test_statuses(self):
        self.assertEqual(records.read_status("hats 1 3.6.4 members=1,2 neighbour=2"), records.RingStatus(1, "3.6.4", (1, 2), 2))
        view = records.read_status("hagsns 3.1.8 coord=1 members=1.8,2.5 frozen=yes")
        self.assertEqual(view, records.ViewStatus("3.1.8", 1, ("1.8", "2.5"), True))
        group = records.read_status("hagsgr web leader=? len=4 members=- value=a=b")
        self.assertEqual(group, records.GroupStatus("web", None, 4, (), "a=b"))
        self.assertIsNone(records.read_status("hagsvote web 3.1.8/2 phase=1 kind=join waiting=?").waiting)

    def test_no_records(self):
        for line in (
            "", "up", "up 1", "up x 1", "in 1 1.1.1", "went 1 2", "put 1 1.1.1 db 0 once dance 1.1.1.1/2", "show 1 hags 1",
            "heard 1.1.7.1 1.1.1 db 0 once-join 1.1.7.1 value", "heard x.1.7.1 1.1.1 db 0 once-join 1.1.7.1 =", "up 1 1 1",
        ):
            with self.subTest(line), self.assertRaises(records.NoRecord):
                read(line)


if __name__ == "__main__":
    unittest.main()
