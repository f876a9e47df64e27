"""Tests of pictures and sentences of reports, which scripts/trial pictures runs."""

import random

from picture_cases import REPORTS, Case, story_by_model, story_of_reports
from pictures import reports, sentences, stories, views
from slow_model.made_reports import Input, Reporting
from slow_model.texts import earliest_version, written

RANDOM_CASES = 40
# Process 1 receives message 0 of process 0, which reports it after a recovery.
LATE_SEND = b"""reports,1,2
check,1,0,b1,-
recv,1,0,0,0,0
recover,1
send,0,0,1,61
recv,1,1,0,0,0
"""


def records_of(story: stories.Story) -> list[int]:
    """The records of what happened, in the order of the picture."""
    return [it.record for it in story.events]


def receipts_of(story: stories.Story) -> list[stories.Receipt]:
    """What is received."""
    return [it for it in story.events if isinstance(it, stories.Receipt)]


def explained(story: stories.Story, number: int) -> list[str]:
    """What is said of a recovery but for its headline, which names its record."""
    return list(sentences.explanation(story, story.recoveries[number]))[1:]


class Reports(Case):
    """Pictures and sentences of what processes report."""

    def test_examples(self) -> None:
        names = sorted(file.stem for file in REPORTS.glob("*.in"))
        self.assertIn("conversation", names)
        for name in names:
            with self.subTest(name):
                text, output = [(REPORTS / f"{name}.{it}").read_bytes() for it in ("in", "out")]
                self.assertTrue(reports.are_in(text))
                story = stories.told(*reports.read(text, output, False))
                for with_bodies in (False, True):
                    drawn = self.assert_well_drawn(story, views.Wish(), with_bodies)
                    self.assertNotIn("found no room", drawn)

    def test_what_is_read_as_reports(self) -> None:
        rows = [
            (b"reports,1,2\n", True),
            (b"\r\n\nlive\nreports,1,2", True),
            (b"\nworld,1,2,fifo\nreports,1,2\n", False),
            (b"history\nworld,1,2,fifo\n", False),
            (b"send,0,1,reports,\n", False),
            (b"", False),
        ]
        for text, wanted in rows:
            self.assertEqual(reports.are_in(text), wanted, text)

    def test_lines(self) -> None:
        text = b"\r\nreports,1,2\r\n\nlive \xff\ncheck,0,0,,-\r"
        self.assertEqual([len(fields) for fields in reports.lines_of(text)], [3, 1, 5])
        story = story_of_reports(text)
        self.assertEqual((story.processes, story.is_fifo), (2, None))
        self.assertEqual((records_of(story), story.idle), ([], {"faulty": 2}))

    def test_sends_before_their_receipts(self) -> None:
        story = story_of_reports((REPORTS / "receipt_before_its_send.in").read_bytes())
        self.assertEqual(records_of(story), [5, 7, 2, 3, 4, 8, 9])
        note = "Where it can, a send stands before its receipts, and not in the order of the input."
        view = views.view_of(story, views.Wish(last=3))
        self.assertEqual([it.record for it in view.shown], [4, 8, 9])
        self.assertNotIn(note, view.notes)
        self.assertEqual(views.view_of(story, views.Wish()).notes, (note,))

    def test_receipts_that_wait_for_each_other(self) -> None:
        text = b"reports,1,2\nrecv,1,0,0,0,0\nrecv,0,0,1,0,0\nsend,0,0,1,\nsend,1,0,0,\n"
        story = story_of_reports(text + b"recv,0,0,0,0,1\nsend,0,0,0,\n")
        self.assertEqual(records_of(story), [2, 5, 3, 4, 6, 7])
        self.assertEqual([it.source is it.message for it in receipts_of(story)], [True] * 3)
        self.assert_well_drawn(story, views.Wish(), True)

    def test_send_that_is_reported_after_a_recovery(self) -> None:
        story = story_of_reports(LATE_SEND)
        self.assertEqual(records_of(story), [2, 3, 4, 5, 6])
        first, again = receipts_of(story)
        recovery = story.recoveries[0]
        self.assertEqual((first.source, first.cut_by), (None, recovery))
        self.assertTrue(first.message is again.message is again.source)
        drawn = self.assert_well_drawn(story, views.Wish(), True)
        self.assertIn("Message 0 of process 0 to process 1, body 61; record 5, received by", drawn)
        story = story_of_reports(LATE_SEND[: LATE_SEND.index(b"recv,1,1")])
        self.assertIn(">m0: 61 to 1</text>", self.assert_well_drawn(story, views.Wish(), True))
        before = LATE_SEND[: LATE_SEND.index(b"send")].replace(b"recover,1", b"recover")
        story = story_of_reports(before)
        self.assertIn("process 0, even where it stands, has not sent it", explained(story, 0)[2])
        spoken_of = [it for group in views.spoken_of(story.recoveries[0]) for it in group]
        self.assertEqual([it.record for it in spoken_of], [3])
        drawn = self.assert_well_drawn(story, views.Wish(), True)
        self.assertIn("to process 1; no send is reported, received by record 3", drawn)
        self.assertIn(">m0 of 0</text>", drawn)

    def test_receipts_by_others_and_twice(self) -> None:
        text = b"reports,1,3\nsend,0,0,1,61\nrecv,2,0,0,0,0\nrecv,2,0,0,0,0\ncheck,2,0,,-\n"
        story = story_of_reports(text + b"recv,2,0,0,0,0\nrecover,0\n")
        first, *others = receipts_of(story)
        self.assertEqual(story.recoveries[0].passes[-1].receipt, first)
        self.assertEqual(len(others), 2)
        self.assert_well_drawn(story, views.Wish(), True)
        story = story_of_reports(text + b"recv,2,0,0,0,0\ncheck,0,0,a1,-\nrecover,2\n")
        self.assertIn("it has not arrived at process 1.", explained(story, 0)[-1])

    def test_markers(self) -> None:
        text = b"reports,1,2\nmark,1,0,0,3\ncheck,0,0,a1,3\nmark,1,0,0,4\nmark,0,0,0,3\n"
        story = story_of_reports(text)
        self.assertEqual(records_of(story), [3, 2, 4, 5])
        markers = [it for it in story.events if isinstance(it, stories.MarkerReceipt)]
        self.assertEqual([it.source and it.source.record for it in markers], [3, None, 3])
        drawn = self.assert_well_drawn(story, views.Wish(), False)
        self.assertIn("<title>Marker of round 4 from process 0 to process 1; record 4", drawn)
        cut = b"reports,1,2\ncheck,0,0,a1,3\ndamage,0,1\nrecover,0\nmark,1,0,0,3\n"
        marker = story_of_reports(cut).events[-1]
        assert isinstance(marker, stories.MarkerReceipt)
        self.assertEqual((marker.record, marker.source), (5, None))

    def test_what_has_no_effect(self) -> None:
        story = story_of_reports((REPORTS / "stale_reports.in").read_bytes())
        self.assertEqual(story.idle, {"late": 4, "unfit": 2})
        note = "Without effect, and not shown: 4 stale reports and 2 refused records."
        self.assertIn(note, views.view_of(story, views.Wish()).notes)

    def test_plans(self) -> None:
        text = (REPORTS / "conversation.in").read_bytes()
        until = text[: text.index(b"recover,0")]
        rows = [
            (until, "The plan at record 10 of the input, which changes nothing: as if process 1 "),
            (
                until[: until.index(b"plan,1")],
                "The plan at record 9 of the input, which changes nothing: as if processes 0 and 1 "
                "failed.",
            ),
            (until + b"plan,7\n", "The plan at record 10 of the input"),
            (text, "Recovery 1, at record 11 of the input: process 0 failed."),
        ]
        for given, wanted in rows:
            story = story_of_reports(given, with_plan=True)
            said = list(sentences.explanation(story, story.recoveries[-1]))
            self.assertTrue(said[0].startswith(wanted), said[0])
        story = story_of_reports(until, with_plan=True)
        again = (
            "  Message 1 of process 0 was sent, and process 0 stays where it stands; it had not "
            "arrived before checkpoint 1 of process 1, and its receipt after that is undone."
        )
        self.assertEqual(explained(story, 0)[-1], again)
        self.assertEqual(story_of_reports(until).recoveries, [])
        barred = story_of_reports(b"reports,1,1\nbar,0,0\nplan\n", with_plan=True)
        self.assertIn("it is barred there", explained(barred, 0)[0])
        self.assertNotIn("no longer", explained(barred, 0)[-1])

    def test_random_reports(self) -> None:
        drawn = 0
        for case in range(RANDOM_CASES):
            chance = random.Random(f"pictures of reports {case}")
            player = Reporting(chance).play()
            if player.n > 8:
                continue
            with self.subTest(case):
                drawn += 1
                world = ("world", earliest_version(player.n), player.n, player.mode)
                script = story_by_model(written([world, *player.commands]))
                assert script is not None
                made = Input(chance, player, True)
                story = story_of_reports(b"\n".join(made.lines) + b"\n")
                self.assert_same(story, script)
                self.assert_well_drawn(story, views.Wish(), False)
                mixed = story_of_reports(b"\n".join(Input(chance, player, False).with_faults()))
                self.assert_well_drawn(mixed, views.Wish(last=20), False)
                for number in range(len(mixed.recoveries)):
                    self.assertTrue(all(explained(mixed, number)))
        self.assertGreater(drawn, RANDOM_CASES // 2)

    def assert_same(self, story: stories.Story, script: stories.Story) -> None:
        """The same was done as by a script, with each send before its receipts."""
        self.assertEqual(len(story.events), len(script.events))
        self.assertEqual(len(story.recoveries), len(script.recoveries))
        for number in range(len(script.recoveries)):
            self.assertEqual(explained(story, number), explained(script, number))
        for receipt in receipts_of(story):
            assert receipt.source
            self.assertLess(receipt.message.place, receipt.place)
            self.assertLess(receipt.source.place, receipt.place)
        for it in story.events:
            if isinstance(it, stories.MarkerReceipt):
                assert it.source
                self.assertLess(it.source.place, it.place)
