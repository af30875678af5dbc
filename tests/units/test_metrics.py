"""The text for Prometheus, and that alerts and pages speak of metrics that there are."""
import re
import unittest
from unittest import mock

import context
from hags_tools import metrics, reading, records

NAMES = {metric.name for metric in metrics.METRICS}


class Answers:
    """What a daemon says, as it is taken for a while."""

    def __init__(self, view="3.1.5", members=("1.5", "2.5"), frozen=False, ring=("3.5.4", (1, 2)), votes=(), itself=None):
        self.view = records.ViewStatus(view, 1, members, frozen)
        self.ring = records.RingStatus(1, ring[0], ring[1], 2)
        self.votes, self.itself = votes, itself

    def all(self):
        group = records.GroupStatus("db", 1, 4, ("1.5.1.1",), "a%20b")
        answers = {"hagsns": [self.view], "hats": [self.ring], "hagsgr": [group], "hagsvote": list(self.votes)}
        for line in self.itself or ():
            answers.setdefault(line.split(" ")[0], []).append(records.read_status(line))
        return answers


DAEMON = "hagsd 1.5 version=0.2.0 settings=00112233aabbccdd turns=900 ticks=80 received=70 strays=2 sent=60 failed=1 keys=2 ended=4"
CLIENTS = ("hagscl a key=7 silent=12 unread=3 members=1.5.7.1", "hagscl own key=- silent=- unread=- members=-")


def stat_words(parent, began):
    """What the system says of a process, as far as it is read."""
    words = ["0"] * 40
    words[metrics.PARENT], words[metrics.BEGAN] = parent, str(began)
    return words


def told(*answers):
    """What is told of a daemon that answers so, one answer each second."""
    settings, _ = reading.read(b"node 1\nnode 2\nbegin\n", reading.STATUS)
    watch = metrics.Watch("hags", settings, b"", 1)
    for second, answer in enumerate(answers):
        samples = {(name, *labels.values()): number for name, labels, number in watch.of_daemon(answer.all(), float(second))}
    return samples


class Told(unittest.TestCase):
    def test_one_answer(self):
        found = told(Answers())
        self.assertEqual(found["hags_view_number",], 3)
        self.assertEqual(found["hags_view_members",], 2)
        self.assertEqual(found["hags_ring_members", "1"], 2)
        self.assertEqual((found["hags_groups",], found["hags_group_entries", "db"], found["hags_group_value_bytes", "db"]), (1, 4, 3))

    def test_how_long(self):
        vote = records.VoteStatus("db", "3.1.5/2", 1, "state", ())
        found = told(*[Answers(frozen=True, members=("1.5",), votes=[vote])] * 4)
        self.assertEqual((found["hags_view_frozen_seconds",], found["hags_view_apart_seconds",], found["hags_vote_seconds", "db"]), (3, 3, 3))
        self.assertEqual(told(Answers(frozen=True), Answers(), Answers(frozen=True))["hags_view_frozen_seconds",], 0)

    def test_how_often(self):
        found = told(Answers(), Answers("4.1.5"), Answers("4.1.5", ring=("3.5.9", (1, 2))), Answers("5.1.5", ring=("1.5.2", (1,))))
        self.assertEqual(found["hags_views_entered_total",], 3)
        self.assertEqual(found["hags_rings_formed_total", "1"], 1 + 0 + 5 + 1)

    def test_what_a_daemon_says_of_itself(self):
        found = told(Answers(itself=(DAEMON, *CLIENTS)))
        self.assertEqual(found["hags_daemon_info", "0.2.0", "00112233aabbccdd"], 1)
        counts = ("turns_total", "ticks_total", "datagrams_received_total", "strays_total", "receives_failed_total", "datagrams_sent_total")
        self.assertEqual([found[f"hags_{name}",] for name in counts], [900, 80, 70, 2, 1, 60])
        self.assertEqual((found["hags_sessions",], found["hags_sessions_ended_total",]), (2, 4))
        self.assertEqual((found["hags_client_silent_seconds", "a"], found["hags_client_unread_events", "a"]), (1.2, 3))
        self.assertNotIn(("hags_client_silent_seconds", "own"), found)
        self.assertNotIn(("hags_daemon_info", "0.2.0", "00112233aabbccdd"), told(Answers()))

    def test_turns_left(self):
        said = records.read_status(DAEMON)
        for turns, left in ((1000, 100), (900, 0), (10, 0), (metrics.LASTING, metrics.LASTING - 900)):
            found = {name: number for name, _, number in metrics.of_counts(said, turns)}
            self.assertEqual(found["hags_turns_left"], left)
        self.assertNotIn("hags_turns_left", {name for name, _, _ in metrics.of_counts(said, None)})

    def test_pauses(self):
        """Another daemon of one supervisor is counted, and none that somebody has started."""
        watch = metrics.Watch("hags", None, b"", 1)
        words = {"7": [b"hags-daemon", b"--supervise"], "8": [b"sh"]}
        with mock.patch.object(metrics, "words_of", lambda folder: words[folder.name]):
            for parent, began, pauses in (("7", 5, 0), ("7", 5, 0), ("7", 9, 1), ("8", 11, 1), ("8", 12, 1), ("7", 13, 2), ("", 0, 2), ("7", 14, 3)):
                watch.note_process(stat_words(parent, began) if parent else [])
                self.assertEqual(watch.pauses, pauses, (parent, began))

    def test_an_older_daemon_is_asked_once(self):
        """Of itself, and again once it was started anew."""
        settings, _ = reading.read(b"node 1\nnode 2\nbegin\n", reading.STATUS)
        watch, asked = metrics.Watch("hags", settings, b"", 1), []
        watch.ask = asked.append
        for members in (("1.5", "2.5"), ("1.5",), ("1.6", "2.5"), ("1.6",)):
            self.assertEqual(watch.of_itself(Answers(members=members).view), {})
        self.assertEqual(asked, ["hagsd"] * 2)
        watch.ask = lambda what: [what]
        self.assertEqual(watch.of_itself(Answers(members=("1.7",)).view), {"hagsd": ["hagsd"], "hagscl": ["hagscl"]})

    def test_text(self):
        text = metrics.text_of([("hags_up", {"node": "1"}, 1), ("hags_receive_buffer_errors_total", {}, 7)])
        self.assertIn('# TYPE hags_up gauge\nhags_up{node="1"} 1\n', text)
        self.assertTrue(text.endswith("hags_receive_buffer_errors_total 7\n"))


class Named(unittest.TestCase):
    def test_alerts_and_page(self):
        for file in ("packaging/alerts.yml", "docs/metrics.md"):
            named = set(re.findall(r"\bhags_\w+", (context.TOP / file).read_text())) - {"hags_tools"}
            self.assertEqual(named - NAMES, set(), file)
        page = (context.TOP / "docs" / "metrics.md").read_text()
        self.assertEqual({name for name in NAMES if name not in page}, set())
        alerts = re.findall(r"alert: (\w+)", (context.TOP / "packaging" / "alerts.yml").read_text())
        self.assertEqual([name for name in alerts if f"`{name}`" not in page], [])


if __name__ == "__main__":
    unittest.main()
