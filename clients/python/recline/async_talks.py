"""The pipes to a service, for programs that wait by asyncio."""

from __future__ import annotations

import asyncio
import contextlib
import os
import tempfile
from collections.abc import Callable, Iterator
from typing import Any, TypeVar

from .calls import Calls, missing
from .errors import ServiceEnded
from .histories import History
from .journals import Sync
from .records import Answer, read_history, read_saved, with_bodies
from .renewals import renewal_of
from .sessions import PIECE, NoAnswer, Session, Told, want_save
from .talks import (
    MOST_SAID, SECONDS_OF_SILENCE, SECONDS_TO_CLOSE, SECONDS_TO_END, Command, tested_command,
    tested_seconds, tested_world,
)
from .values import Plan

T = TypeVar("T")


class AsyncTalk(Told):
    """A service that runs, and what it is told. Its answers are read by a task."""

    def __init__(
        self, command: Command, *, processes: int, links: str = "fifo",
        journal: str | os.PathLike[str] | None = None, durable: bool | Sync = False,
        keep_questions: bool = True, timeout: float | None = SECONDS_OF_SILENCE,
        start_timeout: float | None = SECONDS_OF_SILENCE, forget_every: int | None = None,
    ) -> None:
        self._world = tested_world(processes, links)
        self.processes, self.links, self.timeout = processes, links, tested_seconds(timeout)
        self.start_timeout = tested_seconds(start_timeout)
        self._command, self._path = tested_command(command), journal
        self._durable = durable
        self._keeps, self._forget_every = keep_questions, forget_every
        self._over: ServiceEnded | None = None
        self._cause: Exception | None = None  # why it could not be gone on with
        self._calls = Calls()
        renewal = renewal_of(forget_every, links)
        self._session = Session(self._world, keep_questions, renewal)
        self._process: asyncio.subprocess.Process | None = None
        self._listener: asyncio.Task[None] | None = None

    async def start(self) -> None:
        """Starts the service, and feeds it the journal. `async with` does this."""
        if self._process:
            raise RuntimeError("it was started before")
        self._sending, self._is_asked = asyncio.Lock(), asyncio.Event()
        self._silence = self.start_timeout
        if self._path is not None:
            self._session.open_journal(self._path, self._durable)
        self._said = tempfile.TemporaryFile()
        pipe = asyncio.subprocess.PIPE
        try:
            self._process = await asyncio.create_subprocess_exec(
                *self._command, stdin=pipe, stdout=pipe, stderr=self._said
            )
        except BaseException:
            self._said.close()
            self._session.let_go()
            raise
        self._listener = asyncio.create_task(self._listen())
        try:
            await self._open()
        except BaseException:
            await self._end(at_once=True)
            raise
        self._silence = self.timeout

    async def _open(self) -> None:
        """Feeds the service what the journal has, or tells both the first record."""
        session = self._session
        if session.goes_on:
            session.is_feeding = True
            for answer in session.records_to_feed():
                if session.put(answer):
                    await self._send()
            await self._flush()
            session.fed()
        if session.journal:
            session.torn += session.journal.cut()
        if not session.replayed:
            await self._told(session.first())
        replayed = session.last_replayed
        if replayed and replayed.error is None and isinstance(replayed.value, Plan):
            replayed.change(await self._with_bodies(replayed))
        if session.journal and session.renewal:
            async with self._sending:
                await self._ask(look := Answer("save", read_saved, is_aside=True))
            want_save(look)

    # What is known of it.

    @property
    def pid(self) -> int:
        """The process id of the service."""
        if self._process is None:
            raise RuntimeError("it is not started")
        return self._process.pid

    # Records go out and answers come in.

    def _test_runs(self) -> None:
        """Raises `ServiceEnded` where the service has ended, or has not begun."""
        if self._over is not None:
            raise ServiceEnded(self._over.status, self._over.said, self._over.record)
        if self._process is None:
            raise RuntimeError("it is not started: async with, or start()")

    def _put(self, answer: Answer[Any]) -> None:
        """Takes a record of a block. It goes out with the next ones that are awaited."""
        self._test_runs()
        self._session.put(answer)

    async def _send(self) -> None:
        """Sends what waits, all of it also where the task that asks for it is cancelled."""
        if self._durable and self._session.journal or self._session.renewal:
            await asyncio.shield(asyncio.create_task(self._send_now()))
        else:
            await self._send_now()

    async def _send_now(self) -> None:
        """Sends what waits. It stands in the journal before, synced where that is asked for."""
        assert self._process and self._process.stdin
        async with self._sending:
            self._test_runs()
            try:
                if self._session.is_renewal_due():
                    await self._renew()
                text, is_due = self._session.taken()
                if is_due and self._session.journal:
                    await asyncio.to_thread(self._session.journal.sync)
            except BaseException as error:
                await self._end(at_once=True, why=repr(error))
                raise
            if self._session.pending:
                self._is_asked.set()
            self._process.stdin.write(text)
            with contextlib.suppress(ConnectionError):
                await self._process.stdin.drain()

    async def _ask(self, answer: Answer[Any]) -> None:
        """Has a record answered that stands in no journal. Nothing else is sent meanwhile."""
        assert self._process and self._process.stdin
        text = self._session.asked(answer)
        self._is_asked.set()
        self._process.stdin.write(text)
        await self._answered()

    async def _answered(self) -> None:
        """Waits until all is answered that was sent. Nothing else is sent meanwhile."""
        if self._session.pending:
            last: asyncio.Future[None] = asyncio.get_running_loop().create_future()
            chain(self._session.pending[-1], last)
            await last

    async def _renew(self) -> None:
        """Has the journal begin anew, once all is answered that was sent."""
        await self._answered()
        self._test_runs()
        steps = self._session.renewed()
        while (answer := await asyncio.to_thread(next_of, steps)) is not None:
            await self._ask(answer)

    async def _flush(self) -> None:
        """Sends what waits, and has all of it answered."""
        if self._over is not None:
            return
        last: asyncio.Future[None] = asyncio.get_running_loop().create_future()
        await self._send()
        pending = self._session.pending
        if pending:
            chain(pending[-1], last)
            await last
            if self._over is not None:
                raise self._cause or self._over

    async def _told(self, answer: Answer[T]) -> T:
        """A call."""
        self._test_runs()
        done: asyncio.Future[None] = asyncio.get_running_loop().create_future()
        chain(answer, done)
        self._session.put(answer)
        await self._send()
        await done
        self._calls.not_done.clear()
        return answer.value

    async def _told_plan(self, answer: Answer[Plan]) -> Plan:
        """A call that is answered by a plan: with the bodies of its replays."""
        self._test_runs()
        self._session.put(answer)
        look: Answer[History] = Answer("history", read_history, is_aside=True)
        try:
            history = await self._told(look)
        except Exception as error:
            if answer.error is not None or isinstance(error, ServiceEnded):
                raise answer.error or error from None
            raise missing(answer, error) from None
        return with_bodies(answer.value, history)

    async def _with_bodies(self, answer: Answer[Plan]) -> Plan:
        """An answered plan with the bodies of its replays, which the history has."""
        if not answer.value.replays:
            return answer.value
        try:
            look: Answer[History] = Answer("history", read_history, is_aside=True)
            history = await self._told(look)
            return with_bodies(answer.value, history)
        except Exception as error:
            raise missing(answer, error) from None

    async def _stop_listening(self) -> None:
        """Ends the task that reads answers. None are to come."""
        if self._listener:
            self._listener.cancel()
            await asyncio.wait([self._listener])

    async def _listen(self) -> None:
        """Reads answers as long as there are some to come; a silence that is too long ends it."""
        assert self._process and self._process.stdout
        why = ""
        try:
            while True:
                await self._is_asked.wait()
                piece = await asyncio.wait_for(self._process.stdout.read(PIECE), self._silence)
                if not piece:
                    break
                self._session.take(piece)
                if not self._session.pending:
                    self._is_asked.clear()
        except asyncio.TimeoutError:
            why = f"it has not answered for {self._silence:g} s"
        except NoAnswer as error:
            why = f"no answer is {str(error)[:80]!r}"
        except Exception as error:  # of the journal: it is raised by each call that waits
            self._cause = error
            why = repr(error)
        await self._end(at_once=bool(why), why=why, of_listener=True)

    async def _end(
        self, at_once: bool = False, why: str = "", of_listener: bool = False
    ) -> ServiceEnded:
        """Ends the service, where it still runs, and lets the journal go."""
        if self._over is not None or self._process is None:
            return self._over or ServiceEnded(None, "it was not started")
        record = self._session.oldest()
        self._over = ServiceEnded(None, "", record)
        if self._listener and not of_listener:
            self._listener.cancel()
        assert self._process.stdin
        self._process.stdin.close()
        status = await self._status(at_once)
        self._said.seek(max(self._said.seek(0, os.SEEK_END) - MOST_SAID, 0))
        said = self._said.read().decode("utf-8", "replace")
        if why:
            said += f"ended by its client: {why}"
        self._said.close()
        self._over = ServiceEnded(status, said, record)
        self._session.let_go()
        self._session.fail(self._over)
        return self._over

    async def _status(self, at_once: bool) -> int:
        """Waits for the service, and answers its status."""
        assert self._process
        if at_once:
            with contextlib.suppress(ProcessLookupError):
                self._process.terminate()
        try:
            seconds = SECONDS_TO_END if at_once else SECONDS_TO_CLOSE
            return await asyncio.wait_for(self._process.wait(), seconds)
        except asyncio.TimeoutError:
            with contextlib.suppress(ProcessLookupError):
                self._process.kill()
            return await self._process.wait()

    async def close(self) -> int:
        """Ends the service's input, waits for the service, and answers its status."""
        await self._flush()
        return (await self._end()).status or 0


def next_of(steps: Iterator[Answer[str]]) -> Answer[str] | None:
    """What is to be asked next, if anything is."""
    return next(steps, None)


def chain(answer: Answer[Any], done: asyncio.Future[None]) -> None:
    """Has a future done where an answer is there, after what was to be called before."""
    before: Callable[[], None] | None = answer.told

    def told() -> None:
        """Once there is an answer."""
        if before:
            before()
        if not done.done():
            done.set_result(None)

    answer.told = told
