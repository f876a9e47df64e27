"""Scripts that from_logs.py makes, and logs that it refuses."""

import io
import json
import os
import pathlib
import signal
import subprocess
import sys
import tempfile
import time
import unittest
from typing import Any
from unittest import mock

from serving import HERE, answered

import from_logs
import log_scripts
from log_lines import Log, Unsound

PROGRAM = HERE.parent / "from_logs.py"


def line(process: int | str, event: str, **others: Any) -> str:
    """A line of a log."""
    return json.dumps({"process": process, "event": event, **others}) + "\n"


def made(log: str, *words: str) -> "subprocess.CompletedProcess[str]":
    """What the program makes of a log on its standard input."""
    command = [sys.executable, "-B", str(PROGRAM), *words]
    return subprocess.run(command, input=log, capture_output=True, text=True, check=False)


DOMINO = (
    line(1, "receive", message="a") + line(1, "checkpoint", state="B1")
    + line(0, "send", message="a", to=1, body="a") + line(1, "send", message="b", to=0)
    + "\n" + line(0, "receive", message="b", time=17.5) + line(0, "checkpoint", digest="A1")
)


class TestScripts(unittest.TestCase):
    """Logs that are sound."""

    def test_domino(self) -> None:
        """After its send a receipt stands as early as can be, and all else as it was read."""
        text = (
            "world,1,2,fifo\nsend,0,1,61\ndeliver,0,1,0,\ncheck,1,4231\nsend,1,0,\n"
            "deliver,1,0,0,\ncheck,0,a1\n"
        )
        ran = made(DOMINO)
        self.assertEqual((ran.stdout, ran.stderr, ran.returncode), (text, "", 0))
        self.assertEqual(made(DOMINO, "--failed", "0").stdout, text + "recover,0\n")
        last = made(DOMINO, "--failed", "1", "--failed", "0", "--failed", "1").stdout
        self.assertEqual(last, text + "recover,0,1\n")

    def test_files(self) -> None:
        """A file for each process, one line of each in turn; a pipe in place of a file."""
        with tempfile.TemporaryDirectory() as folder:
            names = [f"{folder}/{p}.jsonl" for p in range(2)]
            for p, name in enumerate(names):
                lines = [it for it in DOMINO.splitlines(True) if f'"process": {p}' in it]
                pathlib.Path(name).write_text("".join(lines))
            script = made("", *names).stdout
            self.assertEqual(answered(script.encode()), answered(made(DOMINO).stdout.encode()))
            piped = made(pathlib.Path(names[0]).read_text(), "/dev/stdin", names[1])
            self.assertEqual(piped.stdout, script)

    def test_names(self) -> None:
        log = DOMINO
        for field in ("process", "to"):
            log = log.replace(f'"{field}": 1', f'"{field}": "sink"')
            log = log.replace(f'"{field}": 0', f'"{field}": "s\u00f6urce"')
        with tempfile.NamedTemporaryFile("r", suffix=".jsonl", encoding="utf-8") as names:
            script = made(log, "--names", names.name, "--failed", "s\u00f6urce").stdout
            table = [json.loads(it) for it in names]
        self.assertTrue(script.startswith("world,1,2,fifo\nsend,1,0,61\n"))
        self.assertTrue(script.endswith("recover,1\n"))
        self.assertEqual(table, [
            {"process": "sink", "number": 0}, {"process": "s\u00f6urce", "number": 1},
            {"message": "a", "sender": 1, "incarnation": 0, "number": 0},
            {"message": "b", "sender": 0, "incarnation": 0, "number": 0},
        ])

    def test_numbers(self) -> None:
        """Numbers stand for themselves, as digits too, and those between have done nothing."""
        log = line("070", "checkpoint") + line(70, "send", message=5, to="3")
        self.assertEqual(made(log).stdout, "world,2,71,fifo\ncheck,70,\nsend,70,3,\n")
        script = made(log, "--processes", "256", "--links", "unordered").stdout
        self.assertTrue(script.startswith("world,2,256,unordered\n"))
        self.assertEqual(made("").stdout, "world,1,1,fifo\n")

    def test_unordered(self) -> None:
        log = "".join(line(0, "send", message=name, to=1) for name in "abc")
        log += "".join(line(1, "receive", message=name) for name in "cab")
        script = made(log, "--links", "unordered").stdout
        picks = ["deliver,0,1,2,", "deliver,0,1,0,", "deliver,0,1,1,"]
        self.assertEqual(script.splitlines()[4:], picks)

    def test_sizes(self) -> None:
        long = line(0, "send", message="a", to=1, body="b" * 65)
        told = "standard input:1: `body` has 65 bytes, and 64 at most go (--shorten)\n"
        self.assertEqual(made(long).stderr, told)
        long += line(0, "checkpoint", state="\u00e9" * 3_000)
        _, send, check = made(long, "--shorten").stdout.splitlines()
        self.assertEqual((len(send), len(check)), (len("send,0,1,") + 64, len("check,0,") + 64))
        most = line(0, "send", message="a", to=1, body="b" * 64)
        self.assertEqual(made(most + line(0, "checkpoint", state="s" * 4_096)).returncode, 0)

    def test_markers(self) -> None:
        """A round of markers: begun, forced and closed, with a message on a channel."""
        log = (
            line(1, "send", message="m", to=0) + line(0, "marker", round=1, state="x")
            + line(1, "marker", round=1, state="y", **{"from": 0}) + line(0, "receive", message="m")
            + line(0, "marker", round=1, **{"from": 1}) + line(1, "marker", round=2)
        )
        script = made(log, "--processes", "2").stdout
        self.assertEqual(script, (
            "world,1,2,fifo\nsend,1,0,\nbegin,0,78\ndeliver,0,1,0,79\ndeliver,1,0,0,\n"
            "deliver,1,0,0,\nbegin,1,\n"
        ))
        self.assertNotIn("refused", answered(script.encode()))

    def test_one_process(self) -> None:
        log = line(0, "marker", round=1) + line(0, "marker", round=2, state="x")
        for links in ("fifo", "unordered"):
            script = made(log, "--processes", "1", "--links", links).stdout
            self.assertEqual(script, f"world,1,1,{links}\nbegin,0,\nbegin,0,78\n")

    def test_piped(self) -> None:
        """A log that comes through a pipe, and waits for a send at its end."""
        log = line(1, "receive", message="m") + line(1, "checkpoint") * 3_000
        log += line(0, "checkpoint", state="s" * 4_000) * 30 + line(0, "send", message="m", to=1)
        script = made(log).stdout
        self.assertEqual(script.count("\n"), 3_033)
        self.assertIn("send,0,1,\ndeliver,0,1,0,\ncheck,1,\n", script)

    def test_input_in_part(self) -> None:
        """A file on standard input of which something was read before."""
        log = line(1, "receive", message="a") + line(1, "checkpoint", state="s") + SENT
        with tempfile.TemporaryFile() as file:
            file.write(f"{log}{log}".encode())
            file.flush()
            file.seek(len(log))
            command = [sys.executable, "-B", str(PROGRAM)]
            ran = subprocess.run(command, stdin=file, capture_output=True, text=True, check=False)
        self.assertEqual((ran.stdout, ran.stderr), (made(log).stdout, ""))

    def test_long_script(self) -> None:
        with mock.patch.object(from_logs, "MOST_OF_RUN", 10), \
                mock.patch("sys.argv", ["", "/dev/null"]), \
                mock.patch("sys.stdout", io.TextIOWrapper(io.BytesIO())), \
                mock.patch("sys.stderr", io.StringIO()) as said:
            self.assertEqual(from_logs.main(), 0)
        told = "from_logs: 15 bytes: too long for recline run, not for serve\n"
        self.assertEqual(said.getvalue(), told)


class Terminal(io.StringIO):
    """A terminal that keeps what is written on it."""

    def isatty(self) -> bool:
        return True


class TestProgress(unittest.TestCase):
    """What is said on a terminal."""

    def test_terminal(self) -> None:
        terminal = Terminal()
        with mock.patch("sys.stderr", terminal), mock.patch("time.monotonic") as now:
            now.return_value = 100.0
            progress = from_logs.Progress()
            for second in (1.9, 2.0, 2.5, 3.1):
                now.return_value = 100 + second
                progress.tell(int(second * 1_000), 1, 4)
            progress.wipe()
            progress.wipe()
        says = "\r\x1b[Kfrom_logs: line {}, 25 % of the logs"
        self.assertEqual(terminal.getvalue(), says.format(2000) + says.format(3100) + "\r\x1b[K")

    def test_no_terminal(self) -> None:
        with mock.patch("sys.stderr", io.StringIO()) as said, mock.patch("time.monotonic") as now:
            now.return_value = 100.0
            progress = from_logs.Progress()
            now.return_value = 200.0
            progress.tell(1, 1, 1)
            progress.wipe()
        self.assertEqual(said.getvalue(), "")


SENT = line(0, "send", message="a", to=1)
TWO = SENT + line(0, "send", message="b", to=1)
MARKED = line(1, "marker", round=1, **{"from": 0})
# Logs that are not sound: the words of the command line, the line at fault, and what is told.
UNSOUND: list[tuple[str, list[str], int, str]] = [
    ("{", [], 1,
     "this is no JSON: Expecting property name enclosed in double quotes at character 2\n"),
    ("\n\nx\n", [], 3, "this is no JSON"),
    ('{"process": 1, "event": "rec', [], 1,
     "this is no JSON: Unterminated string starting at character 25\n"),
    ("[1]\n", [], 1, "this is no JSON object"),
    ("{} {}\n", [], 1, "this is no JSON object"),
    ("[" * 100_000 + "\n", [], 1, "this is no JSON"),
    (SENT + " " * 1_048_577 + "\n", [], 2, "a line of more than 1048576 bytes"),
    ("{}\n", [], 1, "`process` is missing"),
    (line(True, "send"), [], 1, "`process` is neither a text nor a whole number"),
    (line(-1, "send"), [], 1, "process -1: processes are numbered from 0 on"),
    (line("1" * 5_000, "checkpoint"), [], 1, "process \"111"),
    (line(256, "checkpoint"), [], 1, "process \"256\" is one too many: there are 256 at most"),
    (SENT, ["--processes", "1"], 1, "process \"1\" is one too many: there are 1 at most"),
    (SENT + line("x", "checkpoint"), [], 2,
     "process \"x\": some are named by numbers and some are not"),
    (line(0, "sent"), [], 1, "`event` is none of send, receive, checkpoint and marker"),
    (line(0, "send", to=1), [], 1, "`message` is missing"),
    (line(0, "send", message=[], to=1), [], 1, "`message` is neither a text nor a whole number"),
    (line(0, "send", message="a"), [], 1, "`to` is missing"),
    (line(0, "send", message="a", to=0), [], 1, "message \"a\" is sent to its own sender"),
    (line(0, "send", message="a", to=1, body=1), [], 1, "`body` is no text"),
    (line(0, "checkpoint", state=1), [], 1, "`state` is no text"),
    (line(0, "checkpoint", digest="abc"), [], 1, "`digest` is no hexadecimal text"),
    (line(0, "checkpoint", digest=7), [], 1, "`digest` is no hexadecimal text"),
    (line(0, "checkpoint", digest="ab" * 4_097), [], 1, "`digest` has 4097 bytes"),
    (SENT + line(1, "send", message="a", to=0), [], 2, "message \"a\" is sent a second time"),
    (SENT + line(1, "receive", message="a") * 2, [], 3, "message \"a\" is received a second time"),
    (SENT + line(2, "receive", message="a"), [], 2, "message \"a\" was sent to process 1"),
    (line(1, "receive", message="a") + line(0, "checkpoint"), [], 1,
     "message \"a\" is received, and no line sends it"),
    (TWO + line(1, "receive", message="b"), [], 3,
     "message \"b\" overtakes message \"a\", which process 0 sent before"),
    (line(0, "receive", message="b") + line(1, "receive", message="a") + SENT
     + line(1, "send", message="b", to=0), [], 1,
     "message \"b\" is received before it can be sent: its send, standard input:4, stands after"),
    (line(0, "marker", round=0), ["--processes", "2"], 1,
     "`round` is no whole number from 1 to 65535"),
    (line(0, "marker", round=True), ["--processes", "2"], 1, "`round` is no whole number"),
    (line(0, "marker", round=1), [], 1, "where there are markers, --processes has to say how many"),
    (line(0, "marker", round=1) * 2, ["--processes", "2"], 2, "round 1 is begun already"),
    (line(0, "marker", round=1) + line(0, "marker", round=2), ["--processes", "2"], 2,
     "round 1 does not end before the next one begins"),
    (line(0, "marker", round=1, **{"from": 1}), ["--processes", "2"], 1,
     "process 1 does not come to its `marker` of round 1"),
    (line(0, "marker", round=1) + MARKED * 2, ["--processes", "3"], 3,
     "the next marker on this link is that of round 2"),
    (SENT + line(0, "marker", round=1) + MARKED, ["--processes", "2"], 3,
     "the marker of round 1 overtakes message \"a\", which process 0 sent before"),
    (line(0, "marker", round=1) + SENT + line(1, "receive", message="a"), ["--processes", "2"], 3,
     "message \"a\" overtakes the marker of round 1"),
    (line(0, "marker", round=1) + SENT + line(1, "receive", message="a"),
     ["--processes", "2", "--links", "unordered"], 3,
     "message \"a\" is of round 1, and no `marker` of it comes before"),
    (line(0, "marker", round=1, **{"from": 1}), ["--processes", "2", "--links", "unordered"], 1,
     "no marker comes on this link"),
]


class TestUnsound(unittest.TestCase):
    """Logs that are not sound: one line, and no script."""

    def test_each(self) -> None:
        for log, words, number, cause in UNSOUND:
            with self.subTest(cause=cause):
                ran = made(log, *words)
                told = f"standard input:{number}: {cause}"
                self.assertEqual(ran.stderr[:len(told)], told)
                self.assertEqual((ran.stdout, ran.stderr.count("\n"), ran.returncode), ("", 1, 2))

    def test_file_names(self) -> None:
        with tempfile.TemporaryDirectory() as folder:
            pathlib.Path(folder, "one").write_text("\n" + line(0, "receive", message="a"))
            pathlib.Path(folder, "other").write_text(line(1, "checkpoint") + line(0, "checkpoint"))
            ran = made("", f"{folder}/one", f"{folder}/other")
            told = f"{folder}/other:2: this process has lines in {folder}/one too\n"
            self.assertEqual(ran.stderr, told)
            told = f"{folder}/one:2: message \"a\" is received, and no line sends it\n"
            self.assertEqual(made("", f"{folder}/one", "/dev/null").stderr, told)
            ran = made("", f"{folder}/three")
            told = f"from_logs: {folder}/three: No such file or directory\n"
            self.assertEqual((ran.stdout, ran.returncode, ran.stderr), ("", 3, told))
            self.assertEqual(made(SENT, "--names", f"{folder}/no/names").returncode, 3)

    def test_failed(self) -> None:
        ran = made(SENT, "--failed", "7")
        told = "from_logs: the logs have no process \"7\", which failed\n"
        self.assertEqual((ran.stdout, ran.returncode, ran.stderr), ("", 2, told))
        self.assertEqual(made(SENT, "--failed", "7" * 5_000).returncode, 2)
        last = made(SENT, "--failed", "7", "--processes", "8").stdout.splitlines()[-1]
        self.assertEqual(last, "recover,7")

    def test_no_utf_8(self) -> None:
        command = [sys.executable, "-B", str(PROGRAM)]
        log = SENT.encode() + b'{"process": 0, "event": "checkpoint", "state": "\xff"}\n'
        ran = subprocess.run(command, input=log, capture_output=True, check=False)
        told = b"standard input:2: this is no UTF-8: byte 49 of the line\n"
        self.assertEqual((ran.stdout, ran.stderr, ran.returncode), (b"", told, 2))

    def test_most_events(self) -> None:
        with mock.patch.object(log_scripts, "MOST_EVENTS", 2), tempfile.TemporaryFile() as file:
            file.write((SENT + line(0, "checkpoint") * 2).encode())
            file.seek(0)
            making = log_scripts.Making("fifo", None, False)
            self.addCleanup(making.script.close)
            told = "one event more than the 2 that"
            with self.assertRaisesRegex(Unsound, told) as raised:
                from_logs.read([Log("log", file)], making, from_logs.Progress())
            self.assertEqual(raised.exception.place, len(SENT + line(0, "checkpoint")))


class TestEnds(unittest.TestCase):
    """Standard files that are closed or full, and an interrupt."""

    def test_standard_files(self) -> None:
        for how, told, status in [
            ("<&-", "from_logs: standard input: it is closed, or a directory\n", 3),
            (">&-", "from_logs: standard output: it is closed\n", 3),
            (">/dev/full", "from_logs: No space left on device\n", 3),
            ("--processes 1 2>&-", "", 2),
            ("--processes 1 2>/dev/full", "", 2),
            ("2>&-", "", 0),
        ]:
            with self.subTest(how=how):
                words = ["sh", "-c", f'exec "$0" -B "$1" {how}', sys.executable, str(PROGRAM)]
                ran = subprocess.run(
                    words, input=SENT, capture_output=True, text=True, check=False
                )
                self.assertEqual((ran.stderr, ran.returncode), (told, status))
                self.assertEqual(ran.stdout, "" if status else "world,1,2,fifo\nsend,0,1,\n")

    def test_bad_inputs(self) -> None:
        """Standard inputs that cannot be read, and one whose line has no end."""
        for how, told, status in [
            ("< /", "standard input: it is closed, or a directory", 3),
            ("0> /dev/null", "standard input: Bad file descriptor", 3),
            ('0> "$1"', "standard input: Bad file descriptor", 3),
            ("< /dev/zero", "standard input:1: a line of more than 1048576 bytes", 2),
        ]:
            with self.subTest(how=how):
                with tempfile.NamedTemporaryFile() as file:
                    words = ["sh", "-c", f'exec "$0" {how}', str(PROGRAM), file.name]
                    ran = subprocess.run(words, capture_output=True, text=True, check=False)
                wanted = f"{told}\n" if status == 2 else f"from_logs: {told}\n"
                self.assertEqual((ran.stderr, ran.stdout, ran.returncode), (wanted, "", status))

    def test_input_that_does_not_wait(self) -> None:
        """A pipe that answers at once that it has nothing yet is read to its end."""
        end, begin = os.pipe()
        os.set_blocking(end, False)
        with subprocess.Popen([str(PROGRAM)], stdin=end, stdout=subprocess.PIPE) as program:
            os.close(end)
            time.sleep(0.3)  # most often it has asked by then
            os.write(begin, SENT.encode())
            os.close(begin)
            assert program.stdout
            self.assertEqual(program.stdout.read(), b"world,1,2,fifo\nsend,0,1,\n")

    def test_interrupt(self) -> None:
        program = subprocess.Popen(
            [sys.executable, "-B", str(PROGRAM)], stdin=subprocess.PIPE, stdout=subprocess.PIPE,
            stderr=subprocess.PIPE, bufsize=0,
            preexec_fn=lambda: signal.signal(signal.SIGINT, signal.SIG_DFL),
        )
        with program:
            assert program.stdin and program.stdout and program.stderr
            log = memoryview(SENT.encode() * 20_000)  # more than the pipe holds: so it reads
            while log:
                log = log[program.stdin.write(log):]
            program.send_signal(signal.SIGINT)
            # Python sees a signal that comes just before a read begins when that read ends.
            program.stdin.close()
            told = program.stdout.read(), program.stderr.read(), program.wait()
        self.assertEqual(told, (b"", b"from_logs: interrupted\n", 130))


if __name__ == "__main__":
    unittest.main()
