"""Reporters that write to files, and what is made of the files."""

import io
import os
import pathlib
import shlex
import tempfile
import threading
import time
import unittest

from hubs import COMMAND, collect

from recline_report import MessageName, Over, Reporter, merge, recoveries_from


class TestFiles(unittest.TestCase):
    """Files of notes."""

    def setUp(self) -> None:
        folder = tempfile.TemporaryDirectory()
        self.addCleanup(folder.cleanup)
        self.paths = [f"{folder.name}/rank{p}.notes" for p in range(3)]
        self.merged = f"{folder.name}/run.reports"

    def merge(self, after: str | None = None, failed: tuple[int, ...] = ()) -> str:
        """What is made of the files that there are."""
        out = io.BytesIO()
        merge([path for path in self.paths if os.path.exists(path)], out, after, failed)
        return out.getvalue().decode()

    def test_each_call(self) -> None:
        """Each call is a line, and its answer the name or the number that the service gives."""
        with Reporter(0, 2, self.paths[0]) as reporter:
            self.assertEqual(reporter.start.choice, 0)
            self.assertEqual(reporter.send(1, b"a\xff"), MessageName(0, 0, 0))
            self.assertTrue(reporter.received(MessageName(1, 0, 3)))
            self.assertEqual(reporter.check(b"st"), 1)
            self.assertEqual(reporter.send(1), MessageName(0, 0, 1))
            self.assertEqual(reporter.check(), 2)
        text = pathlib.Path(self.paths[0]).read_text()
        self.assertEqual(text, "reports,1,2\nsend,0,0,1,61ff\nrecv,0,0,1,0,3\ncheck,0,0,7374,-\n"
                               "send,0,0,1,\ncheck,0,0,,-\n")
        self.assertEqual(collect(text), "\nsent,0,0,0\n\ntook,1,0,3,-\n\nchecked,0,1\n\n"
                                        "sent,0,0,1\n\nchecked,0,2\n\n")

    def test_what_no_note_says(self) -> None:
        """What no note can say is an error, and nothing is noted."""
        with Reporter(0, 2, self.paths[0]) as reporter:
            for to in (-1, 0, 2, 1 << 40):
                with self.assertRaises(ValueError):
                    reporter.send(to)
            with self.assertRaises(ValueError):
                reporter.send(1, bytes(65))
            for name in ((0, 0, 0), (2, 0, 0), (1, -1, 0), (1, 65_536, 0), (1, 0, -1)):
                with self.assertRaises(ValueError):
                    reporter.received(MessageName(*name))
            with self.assertRaises(ValueError):
                reporter.check(bytes(4_097))
            for wrong in ("text", 1.5, None):
                with self.assertRaises((TypeError, AttributeError, ValueError)):
                    reporter.send(1, wrong)  # type: ignore[arg-type]
            self.assertEqual(reporter.send(1, bytes(64)).number, 0)
            self.assertEqual(reporter.check(bytes(4_096)), 1)
        self.assertEqual(len(pathlib.Path(self.paths[0]).read_text().splitlines()), 3)
        for process, processes in ((2, 2), (-1, 2), (0, 0), (0, 257)):
            with self.assertRaises(ValueError):
                Reporter(process, processes, self.paths[1])

    def test_a_file_is_not_taken_twice(self) -> None:
        """A file that has notes is gone on with only where that is said; one process has it."""
        with Reporter(0, 2, self.paths[0]) as reporter:
            with self.assertRaises(BlockingIOError):
                Reporter(0, 2, self.paths[0])
            reporter.send(1)
        with self.assertRaises(FileExistsError):
            Reporter(0, 2, self.paths[0])
        with self.assertRaises(ValueError):
            Reporter(0, 3, self.paths[0])

    def test_threads(self) -> None:
        """Each message has a name of its own, whichever thread sends it."""
        names: list[MessageName] = []
        with Reporter(0, 2, self.paths[0]) as reporter:
            def work() -> None:
                names.extend([reporter.send(1) for _ in range(500)])
            threads = [threading.Thread(target=work) for _ in range(8)]
            for thread in threads:
                thread.start()
            for thread in threads:
                thread.join()
        self.assertEqual(sorted(name.number for name in names), list(range(4_000)))
        self.assertEqual(len(pathlib.Path(self.paths[0]).read_text().splitlines()), 4_001)

    def test_fork(self) -> None:
        """A child cannot report, and its parent goes on."""
        with Reporter(0, 2, self.paths[0]) as reporter:
            reporter.send(1)
            child = os.fork()
            if not child:
                try:
                    reporter.send(1)
                except Over:
                    os._exit(7)
                os._exit(1)
            self.assertEqual(os.waitstatus_to_exitcode(os.waitpid(child, 0)[1]), 7)
            reporter.send(1)
        self.assertEqual(len(pathlib.Path(self.paths[0]).read_text().splitlines()), 3)

    def test_merge_and_go_on(self) -> None:
        """Files with torn ends are merged, planned from, and gone on with."""
        with Reporter(0, 2, self.paths[0]) as zero, Reporter(1, 2, self.paths[1]) as one:
            one.received(zero.send(1, b"a"))
            one.check(b"one")
            zero.check(b"zero")
            late = zero.send(1, b"b")
            one.received(late)
        with open(self.paths[1], "ab") as file:
            file.write(b"recv,1,0,0,0")
        pathlib.Path(self.merged).write_text(self.merge(failed=(0, 1)))
        self.assertEqual(collect(pathlib.Path(self.merged).read_text()).split("\n\n")[-2],
                         "recovered,1,0,0\nline,0,1,1,7a65726f\nline,1,1,1,6f6e65")
        starts = recoveries_from(self.merged, shlex.split(COMMAND))
        self.assertEqual([it.state for it in starts], [b"zero", b"one"])
        with Reporter(0, 2, self.paths[0], start=starts[0]) as zero:
            with Reporter(1, 2, self.paths[1], start=starts[1]) as one:
                self.assertFalse(one.received(late))
                name = zero.send(1, b"c")
                self.assertEqual(name, MessageName(0, 1, 1))
                self.assertTrue(one.received(name))
                self.assertEqual(one.check(), 2)
        answers = collect(self.merge(after=self.merged)).split("\n\n")
        self.assertEqual(answers[-4:], ["sent,0,1,1", "took,0,1,1,-", "checked,1,2", ""])
        self.assertFalse([it for it in answers if it.startswith(("refused", "fault"))])

    def test_what_does_not_fit(self) -> None:
        """Files of other processes, and what are no notes, are errors."""
        with Reporter(0, 2, self.paths[0]), Reporter(0, 3, self.paths[1]):
            pass
        with self.assertRaises(ValueError):
            self.merge()
        pathlib.Path(self.paths[1]).write_text("reports,1,2\nplan\n")
        with self.assertRaises(ValueError):
            self.merge()

    def test_calls_return_at_once(self) -> None:
        """A call takes some microseconds; scripts/trial hub --measure says how many."""
        with Reporter(0, 2, self.paths[0]) as reporter:
            took = []
            for _ in range(2_001):
                start = time.perf_counter()
                reporter.send(1, b"12345678")
                took.append(time.perf_counter() - start)
        self.assertLess(sorted(took)[1_000], 100e-6)


if __name__ == "__main__":
    unittest.main()
