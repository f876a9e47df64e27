"""Tests of ./draw and ./explain where something was let go: all is told by the whole's numbers."""

import random

from picture_cases import Case, story_by_model
from pictures import sentences, stories, verdicts, views
from slow_model import claims
from slow_model.made_claims import some_answer_texts
from slow_model.made_scripts import some_script

CLAIM = """history,4,2
floor,0,2,3
floor,1,0,0
tape,0,0
send,1,0,61
check,a2,-
send,1,0,62
check,a3,-
tape,1,0
recv,0,0,0
check,b1,-
recv,0,0,1
damage,0,2
failed,0
line,1,1
pass,1,now,0,0,1
start,0,1,a2
start,1,1,b1
end
"""
# Process 0 sends two messages around its check 1, and goes back to its check 2.
BEFORE = "world,1,2,fifo\nsend,0,1,61\ndeliver,0,1,0,\ncheck,0,a1\ncheck,1,b1\nsend,0,1,62\n"
AFTER = "check,0,a2\ndeliver,0,1,0,\nsend,0,1,63\ndeliver,0,1,0,\nsend,0,1,64\nrecover,0\n"
CLAIMS, SCRIPTS = 40, 60


class Forgets(Case):
    """Texts of version 4, and scripts with `forget`."""

    def told(self, text: str) -> list[str]:
        """What is said of a claim that the slow model judges."""
        output, _, _ = claims.check(text.encode())
        return list(verdicts.explanation(claims.read_claim(text.encode()), output.decode()))

    def test_claim(self) -> None:
        told = self.told(CLAIM)
        gone = "Process 0 has let go its first 3 messages and what was before its checkpoint 2."
        self.assertEqual(told[0], f"{gone} All numbers are those of the whole history.")
        said = "The claim: process 0 failed and checkpoint 3 of process 0 is damaged."
        line = "process 0 at its checkpoint 2 and process 1 at its checkpoint 1."
        self.assertEqual((told[1][:len(said)], told[1][-len(line):]), (said, line))
        entry = "it has received message 4 of process 0, and process 0, back at its checkpoint 2"
        self.assertIn(entry, told[3])
        self.assertEqual(told[-1], "The verdict: valid")

    def test_wrong_claims(self) -> None:
        rows = [
            ("damage,0,2", "damage,0,3", 2, "Checkpoint 4 of process 0 is said to be damaged, and "
             "that process has 3 checkpoints."),
            ("now,0,0,1", "now,0,0,2", 3, "process 1 has not received message 5 of process 0; what "
             "it has received is message 3 of process 0 and message 4 of process 0."),
            ("pass,1,now,0,0,1\n", "pass,0,1,1,0,0\n", 3, "before its checkpoint 2 process 0 has "
             "not received message 0 of process 1; it has received nothing."),
            ("line,1,1", "line,0,1", 4, "process 0 to its checkpoint 2, where the claim has its "
             "checkpoint 1."),
        ]
        for old, new, at, said in rows:
            with self.subTest(new):
                self.assertTrue(self.told(CLAIM.replace(old, new))[at].endswith(said))

    def test_replays(self) -> None:
        replay = "replay,0,0,0,1,0,61\n"
        text = CLAIM.replace("recv,0,0,0\n", "").replace("end\n", f"{replay}end\n")
        place = "process 0 sent it before its checkpoint 2, at place 0 of what is kept;"
        self.assertIn(f"Message 3 of process 0 is sent again: {place}", "\n".join(self.told(text)))
        other = self.told(text.replace(replay, "replay,0,0,0,1,1,61\n"))
        self.assertIn("is sent at place 1 of what is kept, and right is at place 0.", other[-2])

    def test_random_claims(self) -> None:
        told = 0
        for text in some_answer_texts(random.Random("forget"), CLAIMS):
            if claims.check(text)[2] != 2:
                told += 1
                self.assertTrue(all(self.told(text.decode())))
        self.assertGreater(told, CLAIMS // 2)

    def test_script(self) -> None:
        """What is let go changes nothing that is told, but for the records' numbers."""
        with_it, without = self.story("forget\nforget\n"), self.story("")
        self.assertEqual(with_it.idle, {})
        told = [list(sentences.explanation(it, it.recoveries[0])) for it in (with_it, without)]
        self.assertEqual(told[0][1:], told[1][1:])
        self.assertIn("message 2 of process 0", "\n".join(told[0]))
        self.assert_well_drawn(with_it, views.Wish(), True)

    def story(self, more: str) -> stories.Story:
        """The story of the script, with these records in its midst."""
        story = story_by_model(f"{BEFORE}{more}{AFTER}".encode())
        assert story is not None
        return story

    def test_random_scripts(self) -> None:
        told = 0
        for case in range(SCRIPTS):
            text = some_script(random.Random(f"forget {case}"))
            story = story_by_model(text) if b"\nforget" in text else None
            if story is None or story.processes > 8:
                continue
            with self.subTest(case):
                told += 1
                self.assert_well_drawn(story, views.Wish(), True)
                for recovery in story.recoveries:
                    self.assertTrue(all(sentences.explanation(story, recovery)))
        self.assertGreater(told, 2)
