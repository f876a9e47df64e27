"""The pipes to a service: how it is started, told, heard and ended."""

from __future__ import annotations

import contextlib
import operator
import os
import select
import subprocess
import tempfile
import threading
import weakref
from collections.abc import Sequence
from typing import Any, TypeVar

from .calls import Calls, missing
from .errors import ServiceEnded
from .journals import Sync
from .records import Answer, read_history, read_saved, with_bodies
from .renewals import renewal_of
from .sessions import MOST_PROCESSES, PIECE, NoAnswer, Session, Told, want_save, world_of
from .values import Plan

T = TypeVar("T")
Command = Sequence[str | os.PathLike[str]]
MOST_SAID = 4_096  # bytes of standard error that are told, the last ones
SECONDS_TO_CLOSE = 10.0  # for a service to end once its pipes are closed; then it is killed
SECONDS_TO_END = 0.5  # for a service that is told by a signal to end; then it is killed
SECONDS_OF_SILENCE = 30.0  # where nothing is said of it


def tested_seconds(seconds: float | None) -> float | None:
    """Seconds that a service may be silent; None: for ever."""
    if seconds is not None and not seconds > 0:
        raise ValueError(f"a timeout is more than 0 seconds, or None, and not {seconds}")
    return seconds


def tested_command(command: Command) -> list[str | os.PathLike[str]]:
    """The words of a command."""
    if isinstance(command, (str, bytes)):
        raise TypeError(f"a command is a list of words, as ['recline', 'serve'], not {command!r}")
    return list(command)


def tested_world(processes: int, links: str) -> str:
    """The first record of a world that can be."""
    if not 1 <= operator.index(processes) <= MOST_PROCESSES:
        raise ValueError(f"{processes} processes: from 1 to {MOST_PROCESSES} there may be")
    if links not in ("fifo", "unordered"):
        raise ValueError(f"links are 'fifo' or 'unordered', and not {links!r}")
    return world_of(processes, links)


class Turn:
    """One thread at a time. What runs in the midst of a call, as a signal's, makes no other."""

    __slots__ = ("_lock", "_is_busy")

    def __init__(self) -> None:
        self._lock, self._is_busy = threading.RLock(), False

    def __enter__(self) -> None:
        self._lock.acquire()
        if self._is_busy:
            self._lock.release()
            raise RuntimeError("a call of this service is under way in this thread")
        self._is_busy = True

    def __exit__(self, *_raised: object) -> None:
        self._is_busy = False
        self._lock.release()


class Talk(Told):
    """A service that runs, and what it is told. One call is under way at a time."""

    def __init__(
        self, command: Command, *, processes: int, links: str = "fifo",
        journal: str | os.PathLike[str] | None = None, durable: bool | Sync = False,
        keep_questions: bool = True, timeout: float | None = SECONDS_OF_SILENCE,
        start_timeout: float | None = SECONDS_OF_SILENCE, forget_every: int | None = None,
    ) -> None:
        world = tested_world(processes, links)
        self.processes, self.links, self.timeout = processes, links, tested_seconds(timeout)
        self.start_timeout = tested_seconds(start_timeout)
        self._command, self._durable = tested_command(command), durable
        self._keeps, self._forget_every = keep_questions, forget_every
        self._over: ServiceEnded | None = None
        self._cause: BaseException | None = None  # why the client ended the service
        self._turn = Turn()
        self._calls = Calls()
        self._session = Session(world, keep_questions, renewal_of(forget_every, links))
        self._silence = self.start_timeout
        if journal is not None:
            self._session.open_journal(journal, durable)
        try:
            self._start(self._command)
        except BaseException:
            self._session.let_go()
            raise
        try:
            self._open()
        except BaseException:
            self._end()
            raise
        self._silence = self.timeout

    def _start(self, command: Command) -> None:
        """Starts the service. Writing to it does not wait, so that answers are read meanwhile."""
        self._said = tempfile.TemporaryFile()
        pipe = subprocess.PIPE
        try:
            self._process = subprocess.Popen(
                command, stdin=pipe, stdout=pipe, stderr=self._said, bufsize=0
            )
        except BaseException:
            self._said.close()
            raise
        assert self._process.stdin and self._process.stdout
        self._input, self._output = self._process.stdin, self._process.stdout
        _running.add(self)
        os.set_blocking(self._input.fileno(), False)
        self._ready, self._heard = select.poll(), select.poll()
        self._ready.register(self._input, select.POLLOUT)
        self._ready.register(self._output, select.POLLIN)
        self._heard.register(self._output, select.POLLIN)

    def _open(self) -> None:
        """Feeds the service what the journal has, or tells both the first record."""
        session = self._session
        with self._turn:
            if session.goes_on:
                session.is_feeding = True
                for answer in session.records_to_feed():
                    self._add(answer)
                self._exchange(to_the_end=True)
                session.fed()
            if session.journal:
                session.torn += session.journal.cut()
            if not session.replayed:
                self._done(session.first())
            last = session.last_replayed
            if last and last.error is None and isinstance(last.value, Plan):
                last.change(self._with_bodies(last))
            if session.journal and session.renewal:
                self._ask(look := Answer("save", read_saved, is_aside=True))
                want_save(look)

    # What is known of it.

    @property
    def pid(self) -> int:
        """The process id of the service."""
        return self._process.pid

    # Records go out and answers come in.

    def _test_runs(self) -> None:
        """Raises `ServiceEnded` where the service has ended."""
        if self._over is not None:
            over = self._over
            raise ServiceEnded(over.status, over.said, over.record) from self._cause

    def _add(self, answer: Answer[Any]) -> None:
        """Takes a record that is sent with others."""
        self._test_runs()
        if self._session.put(answer):
            self._exchange(to_the_end=False)

    def _ask(self, answer: Answer[Any]) -> None:
        """Has a record answered that stands in no journal, before those that wait."""
        self._write(self._session.asked(answer))
        while self._session.pending:
            self._read()

    def _renew(self) -> None:
        """Has the journal begin anew, once all is answered that was sent."""
        while self._session.pending:
            self._read()
        for answer in self._session.renewed():
            self._ask(answer)

    def _put(self, answer: Answer[Any]) -> None:
        """Takes a record of a block."""
        with self._turn:
            if self._over is not None:
                self._test_runs()
            if self._session.put(answer):
                self._exchange(to_the_end=False)

    def _flush(self) -> None:
        """Sends what waits, and has all of it answered."""
        with self._turn:
            if self._over is None:
                self._exchange(to_the_end=True)

    def _done(self, answer: Answer[T]) -> T:
        """Sends a record, and answers or raises what its call does."""
        if self._over is not None:
            self._test_runs()
        self._session.put(answer)
        self._exchange(to_the_end=True)
        self._calls.not_done.clear()
        return answer.value

    def _told(self, answer: Answer[T]) -> T:
        """A call."""
        with self._turn:
            return self._done(answer)

    def _told_plan(self, answer: Answer[Plan]) -> Plan:
        """A call that is answered by a plan: with the bodies of its replays."""
        with self._turn:
            self._done(answer)
            return self._with_bodies(answer)

    def _with_bodies(self, answer: Answer[Plan]) -> Plan:
        """An answered plan with the bodies of its replays, which the history has."""
        if not answer.value.replays:
            return answer.value
        look = Answer("history", read_history, is_aside=True)
        try:
            return with_bodies(answer.value, self._done(look))
        except Exception as error:
            raise missing(answer, error) from None

    def _exchange(self, to_the_end: bool) -> None:
        """Sends what waits, and reads answers: all, or as many as keep it waiting.

        Whatever interrupts it ends the service: it would not be known what was sent.
        """
        try:
            if self._session.is_renewal_due():
                self._renew()
            text, is_due = self._session.taken()
            if is_due and self._session.journal:
                self._session.journal.sync()
            self._write(text)
            while to_the_end and self._session.pending:
                self._read()
        except ServiceEnded:
            raise
        except BaseException as error:
            self._cause = error
            self._end(at_once=True)
            raise

    def _wait(self, for_what: select.poll) -> list[tuple[int, int]]:
        """Waits until a pipe is ready, and ends a service that is silent for too long."""
        found = for_what.poll(None if self._silence is None else self._silence * 1_000)
        if not found:
            raise self._end(at_once=True, why=f"it has not answered for {self._silence:g} s")
        return found

    def _write(self, text: bytes) -> None:
        """Writes all of it, and reads what is answered meanwhile."""
        rest = memoryview(text)
        while rest:
            try:
                rest = rest[os.write(self._input.fileno(), rest):]
            except BlockingIOError:
                if any(ready == self._output.fileno() for ready, _ in self._wait(self._ready)):
                    self._read()
            except BrokenPipeError:
                while True:  # to the end, which raises
                    self._read()

    def _read(self) -> None:
        """Waits for more of the answers, and gives those that are whole to their records."""
        self._wait(self._heard)
        piece = os.read(self._output.fileno(), PIECE)
        if not piece:
            raise self._end()
        try:
            self._session.take(piece)
        except NoAnswer as error:
            why = f"no answer is {str(error)[:80]!r}"
            raise self._end(at_once=True, why=why) from None

    def _end(self, at_once: bool = False, why: str = "") -> ServiceEnded:
        """Ends the service, where it still runs, and lets the journal go."""
        if self._over is None:
            record = self._session.oldest()
            self._over = ServiceEnded(None, "", record)
            _running.discard(self)
            self._input.close()
            self._output.close()
            try:
                status = self._status(at_once)
                self._said.seek(max(self._said.seek(0, os.SEEK_END) - MOST_SAID, 0))
                said = self._said.read().decode("utf-8", "replace")
                if why or self._cause is not None:
                    said += f"ended by its client: {why or repr(self._cause)}"
                self._over = ServiceEnded(status, said, record)
            finally:
                self._said.close()
                self._session.let_go()
            self._session.fail(self._over)
        return self._over

    def _status(self, at_once: bool) -> int:
        """Waits for the service, whose pipes are closed, and answers its status."""
        if at_once:  # also where it is stopped: its journal has all that counts
            self._process.terminate()
        try:
            return self._process.wait(SECONDS_TO_END if at_once else SECONDS_TO_CLOSE)
        except subprocess.TimeoutExpired:
            self._process.kill()
            return self._process.wait()

    def close(self) -> int:
        """Ends the service's input, waits for the service, and answers its status.

        0; 1 where a step was refused; 2 where there was a fault. Closing twice does no more.
        """
        with self._turn:
            if self._over is None:
                self._exchange(to_the_end=True)
                self._input.close()
                with contextlib.suppress(ServiceEnded):
                    while self._wait(self._heard) and os.read(self._output.fileno(), PIECE):
                        pass
            return self._end().status or 0


_running: weakref.WeakSet[Talk] = weakref.WeakSet()


def _leave_to_parent() -> None:
    """A child that is forked lets go what the services of its parent hold."""
    for service in _running:
        service._over = ServiceEnded(None, "it belongs to the process that forked this one")
        service._process.returncode = 0  # nobody waits for it here
        service._turn = Turn()
        for file in (service._input, service._output, service._said):
            file.close()
        if service._session.journal:
            service._session.journal.leave()


os.register_at_fork(after_in_child=_leave_to_parent)
