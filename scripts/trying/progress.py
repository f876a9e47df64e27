"""Tests of what ./recline says on a terminal while it works on a long text.

    scripts/trial progress [PROGRAM]    PROGRAM is ./recline of this repository where none is given

Standard error is a pseudo terminal here. A made-up program that takes its time stands where a test
is about the time; the others compare what the program writes and how it ends beside a terminal and
beside none. The last line says how many tests passed; the status is 0 where all did.
"""

import argparse
import os
import pathlib
import pty
import re
import signal
import subprocess
import sys
import tempfile
import time
import unittest
from collections.abc import Callable
from dataclasses import dataclass
from typing import Optional

import command_lines
import workspace

TOP = workspace.ROOT
ASKED = argparse.Namespace(program=str(TOP / "recline"))
TOOL = str(TOP / "scripts" / "show_progress")
EVERY = 0.05
RECORDS = 3001
# The signals that end a program, and that it can be told to ignore.
ENDING = (signal.SIGTERM, signal.SIGINT, signal.SIGHUP)

# It reads in pieces, answers in pieces, and rests after each.
SLOW = """
import os, sys, time

def rest():
    time.sleep(0.04)

text = b""
while piece := os.read(0, 8192):
    text += piece
    rest()
commands = text.count(b"\\n") - 1
if sys.argv[1] == "check":
    os.write(1, b"valid\\n")
else:
    for k in range(0, commands, 500):
        os.write(1, b"".join(b"sent,0,0,%d\\n" % j for j in range(k, min(k + 500, commands))))
        rest()
"""


@dataclass
class Ended:
    """What a program wrote, what stood on the terminal, and how it ended."""

    out: bytes
    seen: str
    status: int


def write(path: pathlib.Path, text: str) -> pathlib.Path:
    """A file with this text."""
    path.write_text(text, encoding="ascii")
    return path


def script(commands: int) -> str:
    """A script with so many messages."""
    return "world,1,2,fifo\n" + "send,0,1,61\n" * commands


def all_of(terminal: int) -> bytes:
    """What comes on a terminal until all who write there have ended."""
    seen = b""
    try:
        while piece := os.read(terminal, 65536):
            seen += piece
    except OSError:
        pass
    return seen


def on_terminal(
    line: list[str], text: pathlib.Path, out: Optional[pathlib.Path],
    meanwhile: Callable[[int], None] = lambda _: None,
    environment: Optional[dict[str, str]] = None, begin: Optional[Callable[[], None]] = None,
) -> Ended:
    """Runs a program whose standard error is a terminal, and its output too where no file is."""
    terminal, far = pty.openpty()
    with open(text, "rb") as source, open(out or os.devnull, "wb") as sink:
        with subprocess.Popen(
            line, stdin=source, stdout=sink if out else far, stderr=far, env=environment,
            preexec_fn=begin,
        ) as program:
            os.close(far)
            try:
                meanwhile(program.pid)
            except BaseException:
                program.kill()
                raise
            seen = all_of(terminal)
    os.close(terminal)
    written = out.read_bytes() if out and out.is_file() else b""
    return Ended(written, seen.decode("ascii"), program.returncode)


def heed_signals() -> None:
    """Heeds the signals that whoever began these tests may have had them ignore, as nohup does."""
    for number in ENDING:
        signal.signal(number, signal.SIG_DFL)


def on_none(line: list[str], text: pathlib.Path) -> Ended:
    """Runs a program without a terminal."""
    with open(text, "rb") as source:
        done = subprocess.run(line, stdin=source, capture_output=True, check=False, timeout=60)
    return Ended(done.stdout, done.stderr.decode("ascii"), done.returncode)


def children_of(process: int) -> list[int]:
    """The processes that a process has started."""
    children = pathlib.Path(f"/proc/{process}/task/{process}/children")
    return [int(child) for child in children.read_text(encoding="ascii").split()]


def state_of(process: int) -> str:
    """The letter of the state of a process, T where it is stopped."""
    told = pathlib.Path(f"/proc/{process}/stat").read_text(encoding="utf-8")
    return told.rpartition(")")[2].split()[0]


def wait_for(is_so: Callable[[], bool]) -> None:
    """Waits until something is so, twenty seconds at most."""
    end = time.monotonic() + 20
    while not is_so() and time.monotonic() < end:
        time.sleep(0.02)


def catches(process: int, number: signal.Signals) -> bool:
    """Whether a process is ready for a signal."""
    told = pathlib.Path(f"/proc/{process}/status").read_text(encoding="utf-8")
    caught = int(told.partition("SigCgt:")[2].split()[0], 16)
    return bool(caught >> (number - 1) & 1)


def left(seen: str) -> str:
    """What is left on a terminal in the end: a carriage return begins the line anew."""
    lines = []
    for line in seen.split("\n"):
        shown = ""
        for part in line.split("\r"):
            shown = part + shown[len(part):]
        lines.append(shown.rstrip(" "))
    return "\n".join(lines)


class Progress(unittest.TestCase):
    """Programs beside a terminal."""

    def setUp(self) -> None:
        folder = tempfile.TemporaryDirectory()
        self.addCleanup(folder.cleanup)
        self.folder = pathlib.Path(folder.name)
        self.slow = write(self.folder / "slow", f"#!{sys.executable}\n{SLOW}")
        self.slow.chmod(0o755)
        self.text = write(self.folder / "text", script(RECORDS - 1))
        self.out = self.folder / "out"

    def slowly(self, job: str, out: Optional[pathlib.Path]) -> Ended:
        """The made-up program, watched."""
        line = [TOOL, "--every", str(EVERY), str(self.slow), job]
        return on_terminal(line, self.text, out)

    def test_reading_and_running(self) -> None:
        ended = self.slowly("run", self.out)
        self.assertEqual(ended.status, 0)
        self.assertEqual(ended.out.count(b"\n"), RECORDS - 1)
        self.assertEqual(left(ended.seen), "")
        said = [part.strip(" ") for part in ended.seen.split("\r")]
        form = r"recline: (reading, at|running, past) record ([\d,]+) of 3,001"
        numbers: dict[str, list[int]] = {"reading, at": [], "running, past": []}
        for part in filter(None, said):
            found = re.fullmatch(form, part)
            self.assertIsNotNone(found, part)
            assert found is not None
            numbers[found[1]].append(int(found[2].replace(",", "")))
        for known in numbers.values():
            self.assertTrue(known)
            self.assertEqual(known, sorted(known))
            self.assertLessEqual(known[-1], RECORDS)

    def test_replies_to_a_pipe(self) -> None:
        line = f"'{TOOL}' --every {EVERY} '{self.slow}' run | tail -n 1 > '{self.out}'"
        ended = on_terminal(["sh", "-c", line], self.text, self.folder / "nothing")
        self.assertEqual(self.out.read_bytes(), b"sent,0,0,2999\n")
        self.assertIn("all 3,001 records read, ", ended.seen)
        self.assertIn(" bytes of replies written", ended.seen)
        self.assertEqual(left(ended.seen), "")

    def test_a_verdict_on_the_terminal(self) -> None:
        ended = self.slowly("check", None)
        self.assertIn("recline: reading, at record ", ended.seen)
        self.assertEqual((left(ended.seen), ended.status), ("valid\n", 0))

    def test_nothing_is_said_early(self) -> None:
        line = [TOOL, "--every", "30", str(self.slow), "run"]
        self.assertEqual(on_terminal(line, self.text, self.out).seen, "")

    def test_signals_end_it(self) -> None:
        def end_it(process: int) -> None:
            wait_for(lambda: catches(process, signal.SIGTSTP))
            os.kill(process, number)

        sleeper = write(self.folder / "sleeper", "#!/bin/sh\nexec sleep 60\n")
        sleeper.chmod(0o755)
        for number in (*ENDING, signal.SIGKILL):
            with self.subTest(number.name):
                line = [TOOL, "--every", "0.01", str(sleeper), "run"]
                ended = on_terminal(line, self.text, self.out, end_it, begin=heed_signals)
                self.assertEqual(ended.status, -number)

    def test_it_is_stopped_and_goes_on(self) -> None:
        def stop_it(process: int) -> None:
            wait_for(lambda: catches(process, signal.SIGTSTP))
            os.kill(process, signal.SIGTSTP)
            wait_for(lambda: state_of(process) == "T")
            [child] = children_of(process)
            wait_for(lambda: state_of(child) == "T")
            states.append(state_of(child))
            os.kill(process, signal.SIGCONT)

        states: list[str] = []
        line = [TOOL, "--every", str(EVERY), str(self.slow), "run"]
        # The system stops none of a group whose parents are all of other sessions, as may be here.
        ended = on_terminal(line, self.text, self.out, stop_it, begin=os.setpgrp)
        self.assertEqual(states, ["T"])
        self.assertEqual((ended.out.count(b"\n"), ended.status), (RECORDS - 1, 0))

    def assert_same(self, job: str, text: str) -> None:
        """The program writes, says and ends the same with a terminal as without."""
        given = write(self.folder / "given", text)
        plain = on_none([ASKED.program, job], given)
        for line in ([ASKED.program, job], [TOOL, "--every", "0.001", self.built(), job]):
            shown = on_terminal(line, given, self.out)
            self.assertEqual(shown.out, plain.out)
            self.assertEqual(shown.status, plain.status)
            self.assertEqual(left(shown.seen), plain.seen)

    @staticmethod
    def built() -> str:
        """The built program, which ./recline runs."""
        if ASKED.program != str(TOP / "recline"):
            return str(ASKED.program)
        return str(TOP / "crates" / "line_cli" / "out" / "line_cli")

    def test_outputs_stay(self) -> None:
        claim = (TOP / "examples" / "check" / "claim_valid.in").read_text(encoding="ascii")
        for job, text in (
            ("run", script(100)), ("run", script(100_000) + "recover,0\n"),
            ("run", script(2) + "send,0,0,61\n"), ("run", script(50_000) + "send,0\n"), ("run", ""),
            ("check", claim), ("check", claim.replace("line,0,0", "line,0,1")), ("check", "x\n"),
        ):
            with self.subTest(job, text=text[-40:]):
                self.assert_same(job, text)

    def test_a_full_device(self) -> None:
        text = write(self.folder / "long", script(10_000))
        ended = on_terminal([ASKED.program, "run"], text, pathlib.Path("/dev/full"))
        self.assertEqual(ended.status, 3)
        self.assertIn("37 WriteFault", ended.seen)

    def test_who_is_watched(self) -> None:
        """A script on a terminal is, and nothing is where standard error is none."""
        mark = self.folder / "mark"
        passed_on = f"exec '{sys.executable}' \"$@\""
        fake = write(self.folder / "python3", f"#!/bin/sh\necho watched >'{mark}'\n{passed_on}\n")
        fake.chmod(0o755)
        path = {**os.environ, "PATH": f"{self.folder}:{os.environ['PATH']}"}
        with open(self.text, "rb") as source:
            subprocess.run(
                [ASKED.program, "run"], stdin=source, capture_output=True, check=True, env=path)
        self.assertFalse(mark.exists())
        on_terminal([ASKED.program, "run"], self.text, None, environment=path)
        self.assertFalse(mark.exists())
        on_terminal([ASKED.program, "run"], self.text, self.out, environment=path)
        self.assertEqual(mark.exists(), ASKED.program == str(TOP / "recline"))


def add_words(words: argparse.ArgumentParser) -> None:
    """Adds the words of this job to those that are read."""
    command_lines.add_program(words)


def run(asked: argparse.Namespace) -> int:
    """Runs the tests, and answers the status."""
    ASKED.program = asked.program or ASKED.program
    command_lines.runs(ASKED.program)
    suite = unittest.defaultTestLoader.loadTestsFromTestCase(Progress)
    done = unittest.TextTestRunner(stream=sys.stderr, verbosity=0).run(suite)
    failed = len({case.id().split(" ")[0] for case, _ in [*done.failures, *done.errors]})
    print(f"tests of progress: {done.testsRun - failed} of {done.testsRun} passed")
    return 0 if done.wasSuccessful() else 1
