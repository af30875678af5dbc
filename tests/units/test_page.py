"""The order of several daemons' lines, and what is found wrong with them."""
import unittest

import context
from hags_tools import page

ONE = ["up 1 1", "in 1 1.1.1 1.1", "in 1 2.1.1 1.1,2.1", "put 1 2.1.1 db 0 once join 2.1.7.1"]
OTHER = ["up 2 1", "in 2 1.2.1 2.1", "in 2 2.1.1 1.1,2.1", "asked 2.1.7.1 1 db join", "put 2 2.1.1 db 0 once join 2.1.7.1", "heard 2.1.7.1 2.1.1 db 0 once-join 2.1.7.1 ="]


class Order(unittest.TestCase):
    def test_each_daemon_keeps_its_own(self):
        found = page.merged([ONE, OTHER])
        self.assertEqual([line for line in found if line in ONE], ONE)
        self.assertEqual([line for line in found if line in OTHER], OTHER)

    def test_asked_before_put(self):
        for files in ([ONE, OTHER], [OTHER, ONE]):
            found = page.merged(files)
            self.assertLess(found.index("asked 2.1.7.1 1 db join"), found.index(ONE[-1]))

    def test_cast_before_counted(self):
        counts = ["put 1 2.1.1 db 1 approve 2.1.1/0 1 2.1.7.1=A -"]
        self.assertEqual(page.merged([counts, ["cast 2.1.7.1 2.1.1/0 1 A"]]), ["cast 2.1.7.1 2.1.1/0 1 A", *counts])


class Faults(unittest.TestCase):
    def test_none(self):
        self.assertEqual(page.faults_of([page.SCRIPT_MARK + "flow", *page.merged([ONE, OTHER])]), [])

    def test_two_lines(self):
        lines = [*OTHER, *(line.replace("join 2.1.7.1", "join 2.1.8.1") for line in ONE)]
        [(text, places)] = page.faults_of(lines)
        self.assertIn("another entry", text)
        self.assertEqual([lines[it].split(" ")[:2] for it in places], [["put", "2"], ["put", "1"]])


class Text(unittest.TestCase):
    def test_nothing_of_a_run_is_markup(self):
        text = page.page("<a>", ["up 1 1"], [("</script>", [0])])
        self.assertIn("&lt;a&gt;", text)
        self.assertNotIn("</script>\"", text)


if __name__ == "__main__":
    unittest.main()
