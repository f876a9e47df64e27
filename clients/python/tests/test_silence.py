"""A service that does not answer is ended, whatever it is, and its last words are told."""

import os
import pathlib
import signal
import sys
import threading
import time
import unittest
from collections.abc import Sequence
from typing import Any

from serving import SECONDS, SERVICE, SHORT, ServiceCase, freeze, odd

import recline
from recline import Refused, ServiceEnded, program_version



class TestSilence(ServiceCase):
    """Nothing hangs."""

    def ends(self, command: Sequence[str], told: str, silence: float = SECONDS) -> ServiceEnded:
        """That a command is ended in time, and how that is told."""
        started = time.monotonic()
        with self.assertRaisesRegex(ServiceEnded, told) as raised:
            self.opened(command=command, start_timeout=silence)
        self.assertLess(time.monotonic() - started, 5)
        return raised.exception

    def test_no_service(self) -> None:
        """Programs that are none: one that waits for the end of its input, and ones that talk."""
        waits = [sys.executable, "-c", "import sys; sys.stdin.read()"]
        ended = self.ends(waits, f"by its client: it has not answered for {SHORT} s", SHORT)
        self.assertEqual((ended.record, ended.process), ("world,1,2,fifo", None))
        self.ends(["/bin/cat"], "no answer is 'world,1,2,fifo'")
        self.ends(["/bin/true"], "the service has ended, status 0")
        self.ends(["sh", "-c", "echo hello; cat >/dev/null"], "no answer is 'hello'")

    def test_last_words(self) -> None:
        """One that says why and nothing more, before the first answer and after it."""
        self.ends(["sh", "-c", "exec sleep 60"], "^[^:]*: ended by its client: it has", SHORT)
        service = self.opened(command=["sh", "-c", "echo why >&2; echo; exec sleep 60"],
                              start_timeout=SECONDS, timeout=SHORT)
        with self.assertRaisesRegex(ServiceEnded, "why\nended by its client: it has"):
            service.check(0)

    @unittest.skipUnless(SERVICE[1:] == ["serve"], "wants the program")
    def test_run(self) -> None:
        self.ends([SERVICE[0], "run"], "it has not answered", SHORT)

    def test_stubborn(self) -> None:
        """One that takes no signal, and one whose child holds the pipes."""
        trap = "trap '' TERM; echo here >&2; echo; while :; do sleep 1; done"
        service = self.opened(command=["sh", "-c", trap], start_timeout=SECONDS, timeout=SHORT)
        with self.assertRaisesRegex(ServiceEnded, "status -9: here\nended by its client"):
            service.check(0)
        with self.assertRaises(ServiceEnded):  # as it is opened, where it has ended by then
            self.opened(command=["sh", "-c", "sleep 3 & echo"], timeout=SHORT).check(0)

    def test_stopped(self) -> None:
        """A stopped service, in a call, in a block, and where it is closed."""
        service = self.opened()
        service.check(0)
        service._silence = SHORT
        freeze(service.pid)
        with self.assertRaisesRegex(ServiceEnded, "it has not answered") as raised:
            service.check(1, b"s")
        self.assertEqual((raised.exception.record, raised.exception.process), ("check,1,73", 1))
        self.assertEqual(raised.exception.status, -signal.SIGKILL)
        service = self.opened(timeout=SHORT)
        freeze(service.pid)
        with self.assertRaisesRegex(ServiceEnded, "it has not answered"):
            with service.together() as ahead:
                for _ in range(20_000):
                    ahead.check(0)
        service = self.opened(timeout=SHORT)
        freeze(service.pid)
        self.assertLess(service.close(), 0)

    def test_slow_is_not_silent(self) -> None:
        """It is silence that counts, and not how long a call takes."""
        slowly = (
            "import sys, time\n"
            "for line in sys.stdin: sys.stdout.write('\\n'); sys.stdout.flush(); break\n"
            "for line in sys.stdin:\n"
            "    for letter in 'checked,0,1\\n\\n':\n"
            "        time.sleep(0.2); sys.stdout.write(letter); sys.stdout.flush()\n"
        )
        service = self.opened(command=[sys.executable, "-c", slowly], timeout=2.0)
        self.assertEqual(service.check(0), 1)

    def test_seconds(self) -> None:
        for wrong in (0, -1.0, float("nan")):
            self.assertRaises(ValueError, self.opened, timeout=wrong)
            self.assertRaises(ValueError, self.opened, start_timeout=wrong)
        self.assertEqual(self.opened(timeout=None, start_timeout=None).check(0), 1)
        service = self.opened()
        self.assertEqual((service.timeout, service.start_timeout), (30.0, 30.0))


class TestTold(ServiceCase):
    """What exceptions have."""

    def test_record_and_process(self) -> None:
        service = self.opened()
        for call, words, process in [
            (service.send, (1, 1), 1), (service.deliver, (1, 0), 0), (service.damage, (1, 9), 1),
            (service.recover, ([0, 9],), None), (service.bundle, (9,), None),
        ]:
            with self.assertRaises(Refused) as raised:
                call(*words)  # type: ignore[operator]
            self.assertEqual(raised.exception.process, process)
            self.assertTrue(raised.exception.record.startswith(f"{call.__name__},"))
        ends = self.opened(command=odd("ends", 2))
        for _ in range(2):
            with self.assertRaises(ServiceEnded) as ended:
                ends.turn(1)
            self.assertEqual((ended.exception.record, ended.exception.process), ("turn,1,", 1))

    def test_pid(self) -> None:
        self.assertTrue(pathlib.Path(f"/proc/{self.opened().pid}").exists())

    def test_version(self) -> None:
        """The client's is told, and that of a program is looked at."""
        project = pathlib.Path(recline.__file__).parent.parent / "pyproject.toml"
        self.assertIn(f'\nversion = "{recline.__version__}"\n', project.read_text())
        says = ["sh", "-c", 'echo "recline $1"', "sh"]
        self.assertEqual(program_version(says), "--version")
        self.assertRaises(ServiceEnded, program_version, ["/bin/false"])
        with self.assertRaisesRegex(ServiceEnded, "no version within 0.2 s"):
            program_version(["sh", "-c", "exec sleep 60"], timeout=0.2)
        if SERVICE[1:] == ["serve"]:
            self.assertEqual(program_version(SERVICE), recline.__version__)

    def test_all(self) -> None:
        """All that is told of the package is there, and each has a word of what it is."""
        for name in recline.__all__:
            self.assertTrue(hasattr(recline, name), name)
        self.assertTrue((pathlib.Path(recline.__file__).parent / "py.typed").exists())


class TestThreads(ServiceCase):
    """Several threads that call one service."""

    def test_threads(self) -> None:
        """Eight threads get whole answers, each its own, and none is lost."""
        service = self.opened(processes=8, journal=self.journal)
        checks: list[list[int]] = [[] for _ in range(8)]
        failures: list[BaseException] = []

        def work(process: int) -> None:
            try:
                for turn in range(50):
                    checks[process].append(service.check(process, bytes([turn])))
                    with service.together() as ahead:
                        sent = [ahead.send(process, (process + 1) % 8, b"m") for _ in range(2)]
                    self.assertEqual({it.value.sender for it in sent}, {process})
                    if turn % 10 == 0:
                        self.assertEqual(service.bundle(process).failed, (process,))
            except BaseException as error:
                failures.append(error)

        threads = [threading.Thread(target=work, args=(process,)) for process in range(8)]
        for thread in threads:
            thread.start()
        for thread in threads:
            thread.join(60)
        self.assertEqual(failures, [])
        self.assertEqual(checks, [list(range(1, 51))] * 8)
        self.assertEqual(service.counted, 1 + 8 * 150)
        tapes = service.history().tapes
        self.assertEqual([len(tape.events) for tape in tapes], [150] * 8)

    def test_within_a_call(self) -> None:
        """A signal's handler that calls in the midst of a call of its thread is told so."""
        service = self.opened(timeout=None)
        told: list[BaseException] = []

        def act() -> None:
            try:
                service.check(0)
            except RuntimeError as error:
                told.append(error)
            os.kill(service.pid, signal.SIGCONT)

        freeze(service.pid)
        self.alarm(act)
        self.assertEqual(service.check(0), 1)
        self.assertIn("is under way in this thread", str(told))


if __name__ == "__main__":
    unittest.main()
