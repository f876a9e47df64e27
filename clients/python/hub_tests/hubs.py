"""A hub that runs for a test, and the command of the service under it."""

from __future__ import annotations

import contextlib
import os
import pathlib
import shlex
import signal
import socket
import subprocess
import sys
import tempfile
import time
import unittest
from collections.abc import Callable
from typing import TypeVar

HERE = pathlib.Path(__file__).resolve().parent
CLIENT = HERE.parent
sys.path.insert(0, str(CLIENT))

from recline_report import Hub, HubError, Reporter

TOP = CLIENT.parent.parent
COMMAND = os.environ.get("RECLINE_COLLECT") or f"{TOP}/recline collect"
ENVIRONMENT = {**os.environ, "PYTHONPATH": str(CLIENT), "PYTHONDONTWRITEBYTECODE": "1"}
SECONDS = 60  # for what has to come, however busy the machine is
Raised = TypeVar("Raised", bound=BaseException)


class HubTest(unittest.TestCase):
    """A test with a folder of its own, in which a hub can run."""

    def setUp(self) -> None:
        folder = tempfile.TemporaryDirectory()
        self.addCleanup(folder.cleanup)
        self.folder = folder.name
        self.address = f"unix:{self.folder}/hub"
        self.journal = f"{self.folder}/journal"

    def start(self, processes: int, *words: str, is_waited_for: bool = True) -> int:
        """Starts a hub, and answers its number."""
        command = [sys.executable, "-m", "recline_hub", "--processes", str(processes), "--journal",
                   self.journal, "--collect", COMMAND, "--within", str(SECONDS)]
        if "--listen" not in words:
            command += ["--listen", self.address]
        log = open(f"{self.folder}/log", "ab")
        self.addCleanup(log.close)
        self.hub_process = subprocess.Popen([*command, *words], env=ENVIRONMENT, stderr=log)
        self.addCleanup(self.stop)
        if is_waited_for:
            self.hub = Hub(self.address)
            self.wait_until_ready()
        return self.hub_process.pid

    def wait_until_ready(self) -> None:
        """Waits until the hub is ready."""
        end = time.monotonic() + SECONDS
        while time.monotonic() < end:
            with contextlib.suppress(HubError, OSError):
                if self.hub.status()["ready"]:
                    return
            time.sleep(0.02)
        self.fail(f"no hub: {self.log()}")

    def wait_for_states(self, *wanted: str) -> None:
        """Waits until the hub says this of the processes."""
        end = time.monotonic() + SECONDS
        while time.monotonic() < end:
            states = tuple(it["state"] for it in self.hub.status()["processes"])
            if states == wanted:
                return
            time.sleep(0.02)
        self.assertEqual(states, wanted)

    def raised(self, kind: type[Raised], call: Callable[[], object]) -> Raised:
        """What a call raises, which is made again and again until it does."""
        end = time.monotonic() + SECONDS
        while time.monotonic() < end:
            try:
                call()
            except kind as error:
                return error
            time.sleep(0.01)
        self.fail(f"{kind.__name__} was not raised in {SECONDS} seconds")

    def stop(self) -> None:
        """Kills the hub."""
        self.hub_process.kill()
        self.hub_process.wait()

    def log(self) -> str:
        """What the hub said."""
        return pathlib.Path(f"{self.folder}/log").read_text()

    def reporter(self, process: int, processes: int, **words: object) -> Reporter:
        """A reporter that ends with the test."""
        words = {"timeout": SECONDS, **words}
        reporter = Reporter(process, processes, self.address, **words)  # type: ignore[arg-type]
        self.addCleanup(reporter.__exit__, OSError)
        return reporter

    def peer(self, *sent: bytes) -> bytes:
        """What a peer hears that says this after the greeting, to the end."""
        with socket.socket(socket.AF_UNIX, socket.SOCK_STREAM) as made:
            made.settimeout(SECONDS)
            made.connect(self.address.removeprefix("unix:"))
            with contextlib.suppress(OSError):
                for piece in sent:
                    made.sendall(piece)
                made.shutdown(socket.SHUT_WR)
            heard = b""
            with contextlib.suppress(ConnectionResetError):
                while piece := made.recv(65_536):
                    heard += piece
        return heard

    def lines(self) -> list[str]:
        """The lines of the journal."""
        return pathlib.Path(self.journal).read_text().splitlines()

    def ask(self, *words: str) -> subprocess.CompletedProcess[str]:
        """Runs the command line of a hub."""
        return subprocess.run(
            [sys.executable, "-m", "recline_hub", *words], env=ENVIRONMENT, text=True,
            capture_output=True, check=False, timeout=SECONDS,
        )


def freeze(pid: int) -> None:
    """Stops a child, and comes back once it does stand still.

    `kill` comes back before: on a busy machine a child that is stopped may answer for a while.
    """
    os.kill(pid, signal.SIGSTOP)
    os.waitid(os.P_PID, pid, os.WSTOPPED | os.WEXITED | os.WNOWAIT)


def collect(text: str) -> str:
    """What the service answers to an input."""
    ran = subprocess.run(
        shlex.split(COMMAND), input=text, text=True, stdout=subprocess.PIPE, check=False
    )
    return ran.stdout
