"""Logs whose last lines are lost, reports that need no order, and byte order marks."""

import json
import pathlib
import random
import tempfile
import unittest
from collections.abc import Sequence

from test_from_logs import line, made

from slow_model import scripts

BOM = "\ufeff"
SENDER = line("a", "send", message="m1", to="b", body="x") + line("a", "checkpoint", state="s")
RECEIVER = (
    line("b", "receive", message="m1") + line("b", "receive", message="m2")
    + line("b", "checkpoint", state="t") + line("b", "send", message="m3", to="a")
)


class TestMarks(unittest.TestCase):
    """UTF-8 with a byte order mark, as some systems write it."""

    def test_mark(self) -> None:
        with_marks = BOM + SENDER + BOM + line("b", "receive", message="m1")
        plain = made(SENDER + line("b", "receive", message="m1"))
        ran = made(with_marks)
        self.assertEqual((ran.stdout, ran.stderr, ran.returncode), (plain.stdout, "", 0))
        self.assertEqual(made(BOM).returncode, 0)
        late = made(SENDER + BOM + "\n" + line("b", "receive", message="m1"))
        self.assertEqual(late.stdout, plain.stdout)


class TestLostTails(unittest.TestCase):
    """A log that ends too soon, since its machine is gone."""

    def test_script(self) -> None:
        """The lost sends stand after all that the log has, and the process has failed."""
        ran = made(SENDER + RECEIVER)
        self.assertEqual((ran.returncode, ran.stdout), (2, ""))
        self.assertIn('message "m2" is received, and no line sends it', ran.stderr)
        ran = made(SENDER + RECEIVER, "--lost-tail", "a")
        self.assertEqual(
            ran.stdout,
            "world,1,2,fifo\nsend,0,1,78\ncheck,0,73\ndeliver,0,1,0,\nsend,0,1,\n"
            "deliver,0,1,0,\ncheck,1,74\nsend,1,0,\nrecover,0\n",
        )
        told = "from_logs: 1 receipt is kept of messages whose sends are lost, by a\n"
        self.assertEqual((ran.stderr, ran.returncode), (told, 0))
        output, said, status = scripts.run(ran.stdout.encode())
        self.assertEqual((said, status), (b"", 0))
        self.assertIn(b"line,0,1,1,73\nline,1,0,1,\n", output)

    def test_whose(self) -> None:
        """Where several are lost, a receipt says from whom."""
        other = line("c", "checkpoint")
        both = ("--lost-tail", "a", "--lost-tail", "c")
        ran = made(SENDER + RECEIVER + other, *both)
        self.assertEqual(ran.returncode, 2)
        self.assertIn("say `from` whom it came", ran.stderr)
        told = RECEIVER.replace('"m2"}', '"m2", "from": "c"}')
        ran = made(SENDER + told + other, *both)
        self.assertIn("send,2,1,\n", ran.stdout)
        self.assertTrue(ran.stdout.endswith("recover,0,2\n"))
        self.assertEqual(made(SENDER + told + other, "--lost-tail", "a").returncode, 2)
        own = made(SENDER + RECEIVER, "--lost-tail", "b")
        self.assertIn('"m2" is received, and no line sends it', own.stderr)

    def test_whole_log(self) -> None:
        """All of a log is lost."""
        log = line(1, "receive", message="m") + line(1, "checkpoint")
        ran = made(log, "--lost-tail", "0")
        text = "world,1,2,fifo\nsend,0,1,\ndeliver,0,1,0,\ncheck,1,\nrecover,0\n"
        self.assertEqual(ran.stdout, text)

    def test_random(self) -> None:
        """Cut anywhere, the logs of three processes make scripts that the machine takes whole."""
        for seed in range(9):
            logs = talk(random.Random(seed))
            lost = seed % 3
            logs[lost] = logs[lost][:random.Random(seed).randrange(len(logs[lost]))]
            text = "".join(it for log in logs for it in log)
            for reports in (False, True):
                words = ("--lost-tail", str(lost), "--processes", "3")
                ran = made(text, *words, *(["--reports"] if reports else []))
                self.assertEqual(ran.returncode, 0, ran.stderr)
                if not reports:
                    output, _, status = scripts.run(ran.stdout.encode())
                    self.assertEqual(status, 0)
                    self.assertIn(b"recovered,", output)


def talk(chance: random.Random) -> list[list[str]]:
    """Lines of three processes that talk."""
    logs: list[list[str]] = [[], [], []]
    waiting: dict[tuple[int, int], list[str]] = {}
    for number in range(60):
        process, other = chance.sample(range(3), 2)
        kind, here = chance.random(), waiting.get((other, process), [])
        if kind < 0.45:
            logs[process].append(line(process, "send", message=f"m{number}", to=other))
            waiting.setdefault((process, other), []).append(f"m{number}")
        elif kind < 0.85 and here:
            logs[process].append(line(process, "receive", message=here.pop(0)))
        else:
            logs[process].append(line(process, "checkpoint", state=str(number)))
    return logs


class TestReports(unittest.TestCase):
    """Inputs of `recline collect`."""

    def test_order(self) -> None:
        """Each event stands as its line is read, a receipt with the number of its send."""
        ran = made(RECEIVER + SENDER, "--reports", "--lost-tail", "a")
        self.assertEqual(
            ran.stdout,
            "reports,1,2\nrecv,0,0,1,0,0\nrecv,0,0,1,0,1\ncheck,0,0,74,-\nsend,0,0,1,\n"
            "send,1,0,0,78\ncheck,1,0,73,-\nrecover,1\n",
        )
        many = made(SENDER, "--reports", "--processes", "65").stdout
        self.assertTrue(many.startswith("reports,2,65\n"))

    def test_rounds(self) -> None:
        """A round's check stands before the first marker that comes."""
        log = (
            line(0, "marker", round=1, state="z") + line(1, "marker", round=1, state="o", **FROM)
            + line(0, "marker", round=1, **{"from": 1})
        )
        ran = made(log, "--reports")
        self.assertEqual(
            ran.stdout,
            "reports,1,2\ncheck,0,0,7a,1\ncheck,1,0,6f,1\nmark,1,0,0,1\nmark,0,0,1,1\n",
        )

    def test_unsound(self) -> None:
        """What is wrong with a log is told as for a script, and nothing is written."""
        receipt = line(1, "receive", message="a")
        for log, told in [
            (receipt, "2:1: "[1:] + 'message "a" is received, and no line sends it'),
            (line(0, "send", message="a", to=1) * 2, 'message "a" is sent a second time'),
            (line(0, "send", message="a", to=0), "is sent to its own sender"),
            (line(0, "send", message="a", to=1) + receipt * 2, "is received a second time"),
            (line(0, "send", message="a", to=2) + receipt, "was sent to process 2"),
            (line(0, "marker", round=0), "`round` is no whole number"),
            (line(0, "marker", round=1) * 2, "round 1 is begun already"),
            (line(0, "sand"), "`event` is none of"),
        ]:
            ran = made(log, "--reports")
            self.assertEqual((ran.stdout, ran.returncode), ("", 2))
            self.assertIn(told, ran.stderr)

    def test_files(self) -> None:
        """Several files, and names."""
        with tempfile.TemporaryDirectory() as folder:
            paths = [f"{folder}/b.jsonl", f"{folder}/a.jsonl"]
            for path, text in zip(paths, (RECEIVER.replace("m2", "m1b"), SENDER)):
                pathlib.Path(path).write_text(BOM + text)
            words: Sequence[str] = (*paths, "--reports", "--lost-tail", "a")
            ran = made("", *words, "--names", f"{folder}/names")
            self.assertEqual(ran.returncode, 0, ran.stderr)
            names = [json.loads(it) for it in pathlib.Path(f"{folder}/names").open()]
        self.assertEqual([it.get("process") for it in names[:2]], ["b", "a"])
        numbers = {it["message"]: (it["sender"], it["number"]) for it in names[2:]}
        self.assertEqual(numbers, {"m1": (1, 0), "m1b": (1, 1), "m3": (0, 0)})


FROM = {"from": 0}

if __name__ == "__main__":
    unittest.main()
