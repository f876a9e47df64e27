"""Tests of ./draw and ./explain: reading, what is shown, where labels go, sentences, wrong words.

    scripts/trial pictures [PROGRAM]    PROGRAM is ./recline of this repository where none is given

Scripts come from examples/, from here, and from the generator of scripts/trial scripts, with the
slow model in the program's place. Tests of reports stand in scripts/report_pictures.py, and those
of histories of which something was let go in scripts/forget_pictures.py. The last line says how
many tests passed; the status is 0 where all did.
"""

import argparse
import random
import subprocess
import sys
import unittest
from xml.etree import ElementTree

import command_lines
from forget_pictures import Forgets
from picture_cases import (
    EXAMPLES, REPORTS, SCRIPTS, SVG, TOP, Case, long_script, stories_of_examples, story_by_model,
    story_of,
)
from pictures import drawing, labels, program, sentences, stories, svg, verdicts, views, words
from report_pictures import Reports
from slow_model import claims
from slow_model.histories import Name
from slow_model.made_scripts import some_script

ASKED = argparse.Namespace(program=str(program.PROGRAM))
RANDOM_CASES = 30
SHEET = labels.Box(0, 0, 200, 200)
SEVERAL = """world,1,3,fifo
send,0,1,61
deliver,0,1,0,
check,1,b1
send,1,2,62
deliver,1,2,0,
recover,1
send,1,0,
check,0,a1
recover,0,2
deliver,1,0,0,
damage,0,1
send,0,0,61
"""


def ran(tool: str, given: list[str], text: bytes) -> tuple[bytes, bytes, int]:
    """What a tool writes and says, and its status."""
    line = [str(TOP / tool), "--program", ASKED.program, *given]
    done = subprocess.run(line, input=text, capture_output=True, check=False, timeout=60)
    return done.stdout, done.stderr, done.returncode


class Pictures(Case):
    """Whole pictures."""

    def test_examples(self) -> None:
        for name, story in stories_of_examples().items():
            with self.subTest(name):
                self.assert_well_drawn(story, views.Wish(), False)
                written = self.assert_well_drawn(story, views.Wish(), True)
                self.assertNotIn("found no room", written)
                self.assert_well_drawn(story, views.Wish(last=3), True)

    def test_random_scripts(self) -> None:
        drawn = 0
        for case in range(RANDOM_CASES):
            chance = random.Random(f"pictures {case}")
            story = story_by_model(some_script(chance))
            if story is None or story.processes > 8:
                continue
            with self.subTest(case):
                drawn += 1
                self.assert_well_drawn(story, views.Wish(last=chance.choice([None, 5, 40])), False)
                some = tuple(chance.choices(range(story.processes), k=2))
                self.assert_well_drawn(story, views.Wish(processes=some), True)
                for recovery in story.recoveries:
                    self.assertTrue(all(sentences.explanation(story, recovery)))
        self.assertGreater(drawn, RANDOM_CASES // 2)

    def test_many_processes(self) -> None:
        text = long_script(64, 2000)
        story = drawing.story_of(ASKED.program, text)
        self.assertGreater(len(story.recoveries[0].passes), 100)
        told = self.assert_well_drawn(story, views.Wish(), False)
        self.assertIn("other records are left out", told)
        self.assertIn("./explain tells of all", told)
        self.assert_well_drawn(story, views.Wish(last=40), False)
        self.assert_well_drawn(story, views.Wish(processes=(5, 6, 7)), True)

    def test_most_processes(self) -> None:
        story = drawing.story_of(ASKED.program, long_script(256, 1000))
        self.assertGreater(len(story.recoveries[0].passes), 0)
        self.assert_well_drawn(story, views.Wish(), False)
        self.assert_well_drawn(story, views.Wish(processes=(5, 64, 255)), True)
        self.assertTrue(all(sentences.explanation(story, story.recoveries[0])))

    def test_long_numbers(self) -> None:
        first, *rest = SEVERAL.splitlines()
        text = "\n".join([first, *["rounds"] * 100_000, *rest, ""])
        story = drawing.story_of(ASKED.program, text.encode())
        self.assertEqual(story.recoveries[1].record, 100_010)
        self.assert_well_drawn(story, views.Wish(), False)

    def test_domino(self) -> None:
        written = svg.written(drawing.diagram_of(story_of("domino"), views.Wish(), False).svg)
        root = ElementTree.fromstring(written)
        kinds = [it.get("class") for it in root.iter()]
        self.assertEqual(kinds.count("line"), 2)  # the recovery line, and its key
        pills = [it.text for it in root.iter(f"{SVG}text") if it.get("class") == "onpill"]
        self.assertEqual(sorted(pills), ["1", "1", "1", "1, 2", "2", "3", "3", "4", "4"])

    def test_both_grounds_and_escapes(self) -> None:
        self.assertIn("@media (prefers-color-scheme:dark)", svg.style())
        kinds = [*svg.STROKES, *svg.BOXES, *svg.SPOTS, *svg.WORDS]
        self.assertEqual([kind for kind in kinds if svg.style().count(f".{kind}{{") < 2], [])
        element = svg.Element("text", {"class": 'a"<'}, ("<b> & c",))
        self.assertEqual(svg.written(element), "<text class='a\"&lt;'>&lt;b&gt; &amp; c</text>\n")


class Shown(unittest.TestCase):
    """What is shown, and what is said of the rest."""

    def setUp(self) -> None:
        story = story_by_model(SEVERAL.encode())
        assert story is not None
        self.story = story

    def records(self, wish: views.Wish) -> list[int]:
        """The records that a view has."""
        return [it.record for it in views.view_of(self.story, wish).shown]

    def test_records(self) -> None:
        self.assertEqual(self.records(views.Wish()), list(range(2, 13)))
        self.assertEqual(self.records(views.Wish(last=2)), [11, 12])
        self.assertEqual(self.records(views.Wish(recovery=1)), [2, 3, 4, 5, 6, 7])
        self.assertEqual(self.records(views.Wish(recovery=1, last=2)), [6, 7])
        self.assertEqual(self.records(views.Wish(last=99)), list(range(2, 13)))

    def test_processes(self) -> None:
        self.assertEqual(
            self.records(views.Wish(processes=(0, 1))), [2, 3, 4, 5, 7, 8, 9, 10, 11, 12]
        )
        notes = views.view_of(self.story, views.Wish(processes=(0, 1))).notes
        self.assertEqual(notes[0], "Process 2 is left out.")

    def test_notes(self) -> None:
        notes = views.view_of(self.story, views.Wish(last=2)).notes
        self.assertEqual(notes[0], "9 other records are left out.")
        self.assertEqual(notes[-1], "Without effect, and not shown: 1 refused command.")

    def test_story(self) -> None:
        first, second = self.story.recoveries
        self.assertEqual([it.number for it in first.passes], [1])
        entry = first.passes[0]
        self.assertEqual((entry.process, entry.ceiling), (2, 1))
        self.assertEqual((entry.message.record, entry.receipt.record), (5, 6))
        self.assertTrue(entry.message.cut_by is first and entry.receipt.cut_by is first)
        self.assertEqual([it.name for it in second.replays], [(1, 1, 0)])
        again = second.replays[0].receipts[0]
        self.assertTrue(again.record == 11 and again.source is second)

    def test_forced_check_and_channel(self) -> None:
        forced = [it for it in story_of("forced_turn").events if isinstance(it, stories.Check)]
        self.assertEqual(
            [(it.process, it.index, it.is_forced) for it in forced], [(0, 1, False), (1, 1, True)]
        )
        listed = story_of("marker_round").rounds[1]
        self.assertEqual([it.name for it in listed.channels], [(1, 0, 0)])

    def test_forced_check_after_a_recovery(self) -> None:
        before = "check,1,\nsend,0,1,\ncheck,1,\nrecover,1,0\n"
        text = f"world,1,2,unordered\n{before}begin,0,\nsend,0,1,\ndeliver,0,1,1,\nhistory\n"
        story = story_by_model(text.encode())
        assert story is not None
        checks = [it for it in story.events if isinstance(it, stories.Check)]
        self.assertEqual(
            [(it.process, it.index) for it in checks], [(1, 1), (1, 2), (0, 1), (1, 3)]
        )
        damaged = story_by_model(
            (text.replace("check,1,\nrecover", "check,1,\ndamage,1,2\nrecover")).encode()
        )
        assert damaged is not None
        checks = [it for it in damaged.events if isinstance(it, stories.Check)]
        self.assertEqual(
            [(it.process, it.index) for it in checks], [(1, 1), (1, 2), (0, 1), (1, 2)]
        )


class Bars(Case):
    """Processes that are barred."""

    def beginning_of(self, commands: str) -> str:
        """What is said of the beginning of the last recovery among three processes."""
        story = story_by_model(f"world,1,3,fifo\n{commands}".encode())
        assert story is not None
        return " ".join(sentences.beginning(story, story.recoveries[-1]))

    def test_story(self) -> None:
        first, second = story_of("barred_process").recoveries
        bar = first.bars[1]
        self.assertEqual((first.failed, list(first.bars), second.bars), ((), [1], {}))
        self.assertEqual((bar.record, bar.check.index, bar.cut_by), (10, 1, first))
        self.assertEqual([it.record for it in first.line[1].lost], [5, 6, 7])
        text = "world,1,1,fifo\ncheck,0,\ncheck,0,\nbar,0,2\nbar,0,0\nbar,0,1\nrecover\n"
        lowered = story_by_model(text.encode())
        assert lowered is not None
        self.assertEqual(lowered.recoveries[0].bars[0].record, 5)
        self.assertEqual(lowered.idle, {"refused": 1})

    def test_picture(self) -> None:
        sign, key = "Process 1 is barred at checkpoint 1; record 10", "process barred: "
        drawn = self.assert_well_drawn(story_of("barred_process"), views.Wish(), True)
        for told in [f"<title>{sign}</title>", ">barred at checkpoint 1</text>", key]:
            self.assertEqual(drawn.count(told), 1, told)
        self.assertIn("Recovery 1: nobody failed, and process 1 was barred;", drawn)
        without = self.assert_well_drawn(story_of("barred_process"), views.Wish(last=3), True)
        self.assertNotIn(key, without)

    def test_long_script(self) -> None:
        many = "check,0,\n" * views.MOST
        story = story_by_model(f"world,1,3,fifo\nbar,2,0\n{many}recover\n".encode())
        assert story is not None
        view = views.view_of(story, views.Wish())
        self.assertEqual(view.processes, (2,))
        self.assertEqual([it.record for it in view.shown], [2, views.MOST + 3])
        drawn = self.assert_well_drawn(story, views.Wish(), False)
        self.assertIn("Process 2 is barred at its initial state; record 2", drawn)

    def test_beginnings(self) -> None:
        barred = "A process that is barred cannot go on from anything later than its bar"
        others = "Each other process could stay where it stands."
        checks = "check,1,\ncheck,1,\ncheck,1,\n"
        rows = [
            ("bar,1,2\n", "process 1 goes back to its checkpoint 2 (it is barred there)"),
            ("bar,1,0\n", "process 1 goes back to its initial state (it is barred there)"),
            (
                "damage,1,2\ndamage,1,3\nbar,1,2\n",
                "process 1 goes back to its checkpoint 1 (it is barred at its checkpoint 2, and "
                "that is damaged)",
            ),
            (
                "damage,1,1\ndamage,1,2\nbar,1,3\nbar,1,2\n",
                "process 1 goes back to its initial state (it is barred at its checkpoint 2, and "
                "its checkpoints 1 and 2 are damaged)",
            ),
        ]
        for marks, goes in rows:
            said = f"{barred}: to begin with, {goes}. {others}"
            self.assertEqual(self.beginning_of(f"{checks}{marks}recover\n"), said)
        both = self.beginning_of(f"{checks}damage,1,3\nbar,0,0\nbar,2,0\nrecover,1,2\n")
        said = (
            "Processes that failed cannot stay where they stand, and processes that are barred "
            "cannot go on from anything later than their bars: to begin with, process 0 goes back "
            "to its initial state (it is barred there), process 1 to its checkpoint 2 (its "
            "checkpoint 3 is damaged) and process 2 to its initial state (it is barred there)."
        )
        self.assertEqual(both, said)
        stays = "To begin with, each process could stay where it stands."
        self.assertEqual(self.beginning_of(f"{checks}bar,1,1\nrecover\nrecover\n"), stays)

    def test_end(self) -> None:
        story = story_of("barred_process")
        first, second = [list(sentences.explanation(story, it)) for it in story.recoveries]
        self.assertEqual(first[-1], "Process 1 is barred no longer.")
        self.assertEqual([it for it in second if "bar" in it], [])

    def test_claims(self) -> None:
        text = "history,2,1\ntape,0,0\ncheck,,-\ncheck,,-\ndamage,0,1\n"
        stands = "process 0 is barred at its checkpoint 1, and where it stands is later than that"
        later = "process 0 is barred at its checkpoint 1, and its checkpoint 2 is later than that"
        damaged = "its checkpoint 1 is damaged, and never one to go on from"
        left = "the latest place that process 0 can still go on from is its initial state"
        rows = [("now", stands), ("2", later), ("1", damaged)]
        for choice, gone in rows:
            claim = f"bar,0,1\nfailed\nline,0\npass,0,{choice},0,0,0\nend\n"
            told = self.claim_by_model(text + claim)
            said = "nobody failed, checkpoint 1 of process 0 is damaged and process 0 is barred at"
            self.assertTrue(told[0].startswith(f"The claim: {said} its checkpoint 1."), told[0])
            self.assertTrue(told[2].endswith(f"That is wrong: {gone}; {left}."), told[2])
        told = self.claim_by_model(f"{text}bar,0,3\nfailed\nline,now\nend\n")
        has = "that process has 2 checkpoints"
        self.assertEqual(told[1], f"Checkpoint 3 of process 0 is said to be a bar, and {has}.")

    def claim_by_model(self, text: str) -> list[str]:
        """What is said of a claim that the slow model judges."""
        output, _, _ = claims.check(text.encode())
        return list(verdicts.explanation(claims.read_claim(text.encode()), output.decode()))

    def test_faults(self) -> None:
        tapes = "tape,0,0\ncheck,,-\nbar,0,1\n"
        for text, said in [
            (f"history,2,1\n{tapes}bar,0,1\n", b"recline: record 5: 40 BarNotLower\n"),
            (f"history,1,1\n{tapes}", b"recline: record 4: 32 BadRecord\n"),
        ]:
            self.assertEqual(ran("explain", ["--claim"], text.encode()), (b"", said, 2))


class Answers(unittest.TestCase):
    """Whole answers in sentences."""

    def said(self, name: str) -> str:
        """What is said of an example."""
        example = EXAMPLES / "check" / f"answer_{name}"
        claim = claims.read_claim(example.with_suffix(".in").read_bytes())
        return "\n".join(verdicts.explanation(claim, example.with_suffix(".out").read_text()))

    def test_examples(self) -> None:
        again = (
            "Message 0 of process 0 is sent again: process 0 sent it before its checkpoint 1, at "
            "place 0; process 1, which goes back to its initial state, has not received it there."
        )
        rows = {
            "valid": again,
            "without_its_replay": f"One is missing. {again}",
            "of_another_body": "it has the body 62, and right is the body 61.",
            "of_another_state": "the claim has the state a2, and right is the state a1.",
            "of_the_old_incarnation": "the claim has incarnation 0, and right is 1.",
            "of_a_state_for_now": "the claim has the state a1, and right is no stored state.",
            "of_a_received_message": "has received it before",
            "of_no_message": "process 0 has not sent it before its checkpoint 1",
            "out_of_order": "it stands after message 0 of process 1, and each stands there once",
            "with_a_replay_twice": "it stands after message 0 of process 0",
        }
        for name, wanted in rows.items():
            with self.subTest(name):
                self.assertIn(wanted, self.said(name))
                self.assertEqual("That is wrong" in self.said(name), wanted[-40:] != again[-40:])


class Labels(unittest.TestCase):
    """Where labels go."""

    def test_no_two_on_top_of_each_other(self) -> None:
        spots = ((50.0, 50.0), (50.0, 70.0))
        wanted = [
            labels.Label("one", "said", 12, spots),
            labels.Label("two", "said", 12, spots, is_needed=True),
        ]
        three = labels.Label("three", "said", 12, spots)
        found, left_out = labels.placed([*wanted, three], SHEET, [], [])
        self.assertEqual(
            [(it.label.text, it.middle) for it in found], [("two", spots[0]), ("one", spots[1])]
        )
        self.assertEqual([it.text for it in left_out], ["three"])

    def test_off_lines_and_boxes(self) -> None:
        label = labels.Label("m0", "said", 12, ((50.0, 50.0), (50.0, 90.0), (90.0, 50.0)))
        line = (0.0, 50.0), (60.0, 50.0)
        self.assertEqual(labels.placed([label], SHEET, [], [line])[0][0].middle, (50.0, 90.0))
        taken = [labels.Box(40, 80, 60, 100)]
        self.assertEqual(labels.placed([label], SHEET, taken, [line])[0][0].middle, (90.0, 50.0))
        low = labels.Box(0, 0, 200, 60)
        self.assertEqual(labels.placed([label], low, [], [line])[0][0].middle, (90.0, 50.0))

    def test_wrapped(self) -> None:
        lines = labels.wrapped("one two three four", 12, labels.width_of("one two", 12))
        self.assertEqual(lines, ["one two", "three", "four"])

    def test_words(self) -> None:
        self.assertEqual(words.ranges([1, 2, 4, 5, 6, 9]), ["1", "2", "4 to 6", "9"])
        self.assertEqual(words.processes([0, 1]), "processes 0 and 1")
        self.assertEqual(words.counted(0, "message"), "no message")
        names = [words.message(Name(1, incarnation, 3)) for incarnation in (0, 2)]
        told = ["message 3 of process 1", "message 3 of process 1 (sent under incarnation 2)"]
        self.assertEqual(names, told)
        said = sentences.orphan(0, 5, Name(1, 2, 3), 4)
        self.assertIn(f"it has received {told[1]} before that, and process 1, back", said)


class Tools(unittest.TestCase):
    """The tools, from the command line."""

    def test_faults_are_the_programs(self) -> None:
        for name in ["bad_number", "script_without_world", "script_with_other_byte"]:
            text, said = [(SCRIPTS / f"{name}.{it}").read_bytes() for it in ("in", "err")]
            for tool in ["draw", "explain"]:
                self.assertEqual(ran(tool, [], text), (b"", said, 2))
        claim = EXAMPLES / "check" / "check_without_end"
        text, said = [claim.with_suffix(it).read_bytes() for it in (".in", ".err")]
        self.assertEqual(ran("explain", ["--claim"], text), (b"", said, 2))

    def test_wrong_words(self) -> None:
        wrong = [
            ["--last", "0"],
            ["--last", "x"],
            ["--processes", "0,"],
            ["--recovery", "-1"],
            ["--other"],
            ["x"],
        ]
        for given in wrong:
            output, said, status = ran("draw", given, SEVERAL.encode())
            self.assertEqual((output, status), (b"", 2), given)
            self.assertTrue(said.splitlines()[-1].startswith(b"draw: error: "), said)
        _, said, status = ran("explain", ["--claim", "--recovery", "1"], b"")
        self.assertEqual((said.splitlines()[-1][:16], status), (b"explain: error: ", 2))

    def test_what_is_not_there(self) -> None:
        said = b"draw: there is no recovery 3: the script has 2 recoveries\n"
        self.assertEqual(ran("draw", ["--recovery", "3"], SEVERAL.encode()), (b"", said, 2))
        said = b"draw: there is no process 3: the script has 3 processes\n"
        self.assertEqual(ran("draw", ["--processes", "0,3"], SEVERAL.encode()), (b"", said, 2))
        told = b"No process goes back: the script has no recovery.\n"
        self.assertEqual(ran("explain", [], b"world,1,1,fifo\n"), (told, b"", 0))
        self.assertEqual(ran("draw", ["--program", "/none"], b"")[2], 3)

    def test_reports(self) -> None:
        for name, status in [("stale_reports", 1), ("conversation", 2)]:
            text = (REPORTS / f"{name}.in").read_bytes()
            self.assertEqual((REPORTS / f"{name}.status").read_text(), f"{status}\n")
            for tool in ["draw", "explain"]:
                self.assertEqual(ran(tool, [], text)[1:], (b"", 0))
        plans = ran("explain", [], (REPORTS / "receipt_before_its_send.in").read_bytes())[0]
        self.assertTrue(plans.startswith(b"The plan at record 11 of the input, which changes "))
        said = b"draw: no `reports` record of the input is taken\n"
        self.assertEqual(ran("draw", [], b"reports,1,x\nlive\n"), (b"", said, 2))
        said = b"draw: there is no recovery 1: the input has no recovery\n"
        self.assertEqual(ran("draw", ["--recovery", "1"], b"reports,1,2\n"), (b"", said, 2))
        told = b"No process goes back: the input has no recovery and no plan.\n"
        self.assertEqual(ran("explain", [], b"reports,1,2\n"), (told, b"", 0))

    def test_status_and_repetition(self) -> None:
        drawn = ran("draw", ["--bodies"], SEVERAL.encode())
        self.assertEqual(
            (drawn[1:], drawn), ((b"", 0), ran("draw", ["--bodies"], SEVERAL.encode()))
        )
        for first in (b"world,1,64,unordered\n", b"world,2,256,unordered\n"):
            self.assertEqual(ran("draw", [], first)[2], 0)
        self.assertEqual(ran("explain", ["--recovery", "1"], SEVERAL.encode())[1:], (b"", 0))


def add_words(line: argparse.ArgumentParser) -> None:
    """Adds the words of this job to those that are read."""
    command_lines.add_program(line)


def run(asked: argparse.Namespace) -> int:
    """Runs all tests, and answers the status."""
    ASKED.program = asked.program or ASKED.program
    # The first call may have to build the program, which takes long and says so.
    command_lines.runs(ASKED.program)
    found = unittest.defaultTestLoader.loadTestsFromModule(sys.modules[__name__])
    done = unittest.TextTestRunner(stream=sys.stderr, verbosity=0).run(found)
    failed = len({case.id().split(" ")[0] for case, _ in [*done.failures, *done.errors]})
    print(f"tests of pictures: {done.testsRun - failed} of {done.testsRun} passed")
    return 0 if done.wasSuccessful() else 1
