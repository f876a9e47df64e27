"""What the tests stand on: the service that they talk to, odd ones, and folders of their own."""

import os
import pathlib
import shlex
import signal
import sys
import tempfile
import time
import types
import unittest
from collections.abc import Callable, Sequence
from typing import Any

HERE = pathlib.Path(__file__).resolve().parent
TOP = HERE.parent.parent.parent
sys.path[:0] = [str(HERE.parent), str(TOP / "scripts")]

import recline
from slow_model import service as slow

# The service, as words; that of this repository where nothing else is asked for.
SERVICE = shlex.split(os.environ.get("RECLINE_SERVE", "")) or [str(TOP / "recline"), "serve"]
IS_LONG = os.environ.get("RECLINE_TESTS") == "long"
SHORT = 0.3  # seconds, for a service that is silent
SECONDS = 60  # for what has to come, however busy the machine is


def odd(*words: object) -> list[str]:
    """A service over the slow model, which does at some records what no sound service does."""
    return [sys.executable, str(HERE / "odd_service.py"), *map(str, words)]


def answered(text: bytes) -> str:
    """What a service answers to these records, by the slow model."""
    return slow.Service().take(text).decode()


def history_of(text: bytes) -> str:
    """The history of the machine after these records, by the slow model."""
    return answered(text + b"history\n").split("\n\n")[-2].lstrip("\n") + "\n"


def freeze(pid: int) -> None:
    """Stops a child, and comes back once it does stand still.

    `kill` comes back before: on a busy machine a child that is stopped may answer for a while.
    """
    os.kill(pid, signal.SIGSTOP)
    os.waitid(os.P_PID, pid, os.WSTOPPED | os.WEXITED | os.WNOWAIT)


class ServiceCase(unittest.TestCase):
    """A test with a folder of its own, and a journal in it."""

    def setUp(self) -> None:
        folder = tempfile.TemporaryDirectory()
        self.addCleanup(folder.cleanup)
        self.folder = pathlib.Path(folder.name)
        self.journal = self.folder / "run.recline"

    def opened(
        self, processes: int = 2, links: str = "fifo", command: Sequence[str] = SERVICE,
        journal: str | pathlib.Path | None = None, **others: Any,
    ) -> recline.Service:
        """The service, ended with the test."""
        service = recline.Service(
            command, processes=processes, links=links, journal=journal, **others
        )
        self.addCleanup(service._end, at_once=True)
        return service

    def kept(self, **others: Any) -> recline.Service:
        """The service with the journal."""
        return self.opened(journal=self.journal, **others)

    def last(self, service: recline.Service) -> recline.Answer[Any]:
        """The last record that was fed again."""
        assert service.last_replayed is not None
        return service.last_replayed

    def until(self, is_so: Callable[[], object]) -> None:
        """Waits until something is so."""
        end = time.monotonic() + SECONDS
        while not is_so():
            self.assertLess(time.monotonic(), end)
            time.sleep(0.01)

    def alarm(self, act: Callable[[], None]) -> None:
        """Has a signal's handler do this once the client waits for what its service says."""
        def handler(_number: int, frame: types.FrameType | None) -> None:
            if frame is not None and frame.f_code.co_name == "_wait":
                signal.setitimer(signal.ITIMER_REAL, 0)
                act()

        self.addCleanup(signal.signal, signal.SIGALRM, signal.signal(signal.SIGALRM, handler))
        self.addCleanup(signal.setitimer, signal.ITIMER_REAL, 0)
        signal.setitimer(signal.ITIMER_REAL, 0.05, 0.05)

    def refuses(self, code: int, name: str, call: Callable[..., object], *words: object) -> None:
        """That a call is refused by this code and name."""
        with self.assertRaises(recline.Refused) as raised:
            call(*words)
        self.assertEqual((raised.exception.code, raised.exception.name), (code, name))
