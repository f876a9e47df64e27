"""Who reports for each process, and the recoveries of all of them."""

from __future__ import annotations

import asyncio
import contextlib
import dataclasses
import logging
from collections.abc import Coroutine, Sequence
from typing import Any

from recline_report import wire

from .feeds import Feed
from .journals import Journal, Lives
from .members import Member, Refusal, Waiting

logger = logging.getLogger("recline_hub")


class Roster:
    """The processes of a computation, their journal, and the service that is fed it.

    `within`: the seconds in which a process holds where a recovery was not asked for by words.
    `forget_every`: after how many notes the service is told to let go what no recovery needs.
    """

    def __init__(
        self, processes: int, journal: str, command: Sequence[str], within: float, is_durable: bool,
        forget_every: int | None,
    ) -> None:
        self._within, self._is_durable = within, is_durable
        self._forget_every, self._since = forget_every, 0  # notes since then
        self.journal, self._lives = Journal(journal, processes), Lives(f"{journal}.lives")
        self.feed = Feed(self.journal, command, self._recovered, self._refused)
        self.members = [Member(p, wire.start_of(p, processes)) for p in range(processes)]
        self.recoveries = self._refused_up_to = 0
        self.hold: int | None = None  # the recovery that notes are held for
        self.ready = asyncio.Event()
        self._recovering, self._changed = asyncio.Lock(), asyncio.Condition()
        self._result: asyncio.Future[bytes] | None = None  # of a recovery that is done
        self._tasks: set[asyncio.Task[None]] = set()

    async def run(self) -> None:
        """Keeps the service fed, for as long as the hub runs."""
        self.start(self._open())
        await self.feed.run()

    def start(self, work: Coroutine[Any, Any, None]) -> None:
        """Does some work beside all else."""
        task = asyncio.create_task(work)
        self._tasks.add(task)
        task.add_done_callback(self._tasks.discard)

    async def _open(self) -> None:
        """Waits until the service has what the journal had, and takes up the lives from there."""
        await self.feed.ask("")
        for p, life in self._lives.last.items():
            member = self.members[p]
            member.life, member.has_begun, member.is_ended = life.life, True, life.is_ended
            member.is_lost = life.life is None and life.recoveries == self.recoveries
        known = {p for p, _ in self.journal.counts}
        for member in self.members:
            # Also where the lives are not known, as with a journal that was made of files.
            member.has_begun |= member.process in known or member.record.incarnation > 0
            member.kept = self.journal.counts[member.process, member.record.incarnation]
        self.journal.counts.clear()
        self.ready.set()
        logger.info("ready: %d recoveries so far", self.recoveries)

    def _recovered(self, number: int, plan: bytes, history: bytes) -> None:
        """Takes what the service says of a recovery: at once, or as the journal is fed again."""
        if number > self.recoveries and history:
            self.recoveries = number
            for record in wire.recoveries_of(number, plan, history):
                self.members[record.process].begin_from(record)
        elif not history and self.journal.take_off_recovery():  # it was refused, so it was none
            self.feed.take_back()
        # Where the journal is fed again, the one before is told again too.
        if number == self.hold and self._result is not None and not self._result.done():
            self._result.set_result(plan)

    def _refused(self, place: int, record: bytes, why: bytes) -> None:
        """Tells a process that a note was not taken, once."""
        if place < self._refused_up_to or not self.ready.is_set():
            return
        self._refused_up_to = place + 1
        _, code, name = why.decode("ascii").split(",")
        logger.error("%s %s: %s", code, name, record[:80])
        with contextlib.suppress(ValueError, IndexError):
            connection = self.members[int(record.split(b",", 2)[1])].connection
            if connection:
                told = record[:200].decode("ascii")
                connection.tell("refused", code=int(code), name=name, record=told)

    def welcome(self, member: Member, waiting: Waiting, hold: int | None) -> None:
        """Lets a life begin where the process goes on, or hold at once."""
        if member.connection:
            member.connection.end()
        if member.life != waiting.life:
            self._lives.add("begun", member.process, waiting.life, self.recoveries)
        member.life, member.has_begun, member.is_lost = waiting.life, True, False
        member.connection, member.waiting = waiting.connection, None
        record = member.record
        if record.choice is None:  # it has not done anything
            record = dataclasses.replace(record, choice=0, state=b"")
        waiting.connection.tell(
            "welcome", proof=waiting.proof, kept=0, hold=hold, recovery=record.as_json()
        )

    async def until_changed(self, reader: asyncio.StreamReader) -> None:
        """Waits until something has changed; the connection may end meanwhile."""
        async with self._changed:
            with contextlib.suppress(asyncio.TimeoutError):
                await asyncio.wait_for(self._changed.wait(), 1.0)
        if reader.at_eof():
            raise EOFError("who waited has gone")

    async def tell_changed(self) -> None:
        """Wakes all that wait for a change."""
        async with self._changed:
            self._changed.notify_all()

    def add_life(self, kind: str, member: Member) -> None:
        """Keeps what has become of the life that reports for a process."""
        self._lives.add(kind, member.process, member.life, self.recoveries)

    # What no recovery needs any more.

    def count(self, notes: int) -> None:
        """Counts notes that were kept, and after so many lets go what is not needed any more."""
        self._since += notes
        if self._forget_every and self._since >= self._forget_every:
            self._since = 0
            self.start(self._forget_quietly())

    async def forget(self) -> bytes:
        """Has the service let go what no recovery needs, and answers what is gone in all.

        The journal says where, so that a service that is started again lets it go there too.
        """
        async with self._recovering:
            await self.ready.wait()
            self.feed.floors = b""
            self.journal.append(b"forget\n")
            if self._is_durable:
                self.journal.sync()
            await self.feed.ask("")
            if not self.feed.floors:
                raise Refusal("nothing more can be let go: numbers would be too great")
            return self.feed.floors

    async def _forget_quietly(self) -> None:
        """Lets go what no recovery needs, unless that is refused."""
        try:
            await self.forget()
        except (Refusal, OSError) as error:
            logger.error("nothing was let go: %s", error)

    # Recoveries.

    def lose(self, member: Member) -> None:
        """Who reported for a process is gone for good."""
        self._lives.add("lost", member.process, None, self.recoveries)
        member.life, member.is_lost, member.is_ended = None, True, False
        member.has_begun = True
        member.let_go(f"process {member.process} counts as failed")

    async def recover(self, failed: Sequence[int], within: float) -> bytes:
        """Has all recover from the failure of these and of all that are lost, and answers the plan.

        One that does not hold within so many seconds counts as failed too.
        """
        async with self._recovering:
            return await self._recover(failed, within)

    async def recover_quietly(self, member: Member) -> None:
        """Recovers from the loss of a process, unless that was done meanwhile."""
        try:
            async with self._recovering:
                if member.is_lost:
                    await self._recover([], self._within)
        except (Refusal, OSError) as error:
            logger.error("no recovery of process %d: %s", member.process, error)

    async def _recover(self, failed: Sequence[int], within: float) -> bytes:
        """Holds all that have not failed, recovers, and answers the plan."""
        await self.ready.wait()
        for member in self.members:
            is_gone = member.life is None and member.has_begun
            if (member.process in failed or is_gone) and not member.is_lost:
                self.lose(member)
        self.hold = self.recoveries + 1
        holders = [it for it in self.members if it.life is not None and not it.is_ended]
        for member in holders:
            member.is_held = False
            if member.connection:
                member.connection.tell("hold", recovery=self.hold)
        try:
            await asyncio.wait_for(self._until_held(holders), within)
        except asyncio.TimeoutError:
            for member in holders:
                if not member.is_held and not member.is_ended:
                    logger.warning("process %d did not hold in time", member.process)
                    self.lose(member)
        try:
            return await self._plan_lost()
        except BaseException:
            for member in self.members:
                if member.connection:
                    member.connection.tell("go_on")
            raise
        finally:
            self.hold = None
            for member in self.members:
                member.is_held = False
            await self.tell_changed()

    async def _until_held(self, holders: list[Member]) -> None:
        """Waits until each of these has told all and holds, or has ended or is lost."""
        async with self._changed:
            await self._changed.wait_for(
                lambda: all(it.is_held or it.is_ended or it.is_lost for it in holders)
            )

    async def _lose_the_ended(self) -> None:
        """Those that have ended, and would have to send something again, count as failed."""
        while True:
            lost = [str(member.process) for member in self.members if member.is_lost]
            plan = await self.feed.ask(",".join(["plan", *lost]))
            records = [record.split(b",") for record in plan.split(b"\n")]
            senders = {int(record[1]) for record in records if record[0] == b"replay"}
            found = [member for member in self.members
                     if member.is_ended and member.process in senders]
            if not found:
                return
            for member in found:
                self.lose(member)

    async def _plan_lost(self) -> bytes:
        """Has the service recover, with those failed that are lost, and tells each process."""
        await self._lose_the_ended()
        lost = [member.process for member in self.members if member.is_lost]
        self._result = asyncio.get_running_loop().create_future()
        self.journal.append_recovery(lost)
        if self._is_durable:
            self.journal.sync()
        self.feed.poke()
        plan = await self._result
        if plan.startswith(b"recovered,"):
            for member in self.members:
                if member.connection:
                    member.connection.tell("recovery", recovery=member.record.as_json())
                elif member.process in lost:
                    member.is_lost = False
                    if member.waiting:
                        self.welcome(member, member.waiting, None)
            return plan
        raise Refusal(plan.decode("ascii"))
