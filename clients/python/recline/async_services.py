"""The service for programs that wait by asyncio."""

from __future__ import annotations

import asyncio

from .async_talks import AsyncTalk
from .calls import Ahead, obsolete
from .histories import Claim, History
from .journals import next_journal
from .records import Failed
from .rolling import put_world, renamed
from .values import Begun, Delivered, Floor, MessageName, Plan, RolledOver, Round, Turned


class AsyncTogether(Ahead):
    """Records that are sent ahead, as `Together`, by `async with`."""

    def __init__(self, service: AsyncService) -> None:
        super().__init__(service._put)
        self._service = service

    async def __aenter__(self) -> AsyncTogether:
        return self

    async def __aexit__(self, *_raised: object) -> None:
        self.end()
        await self._service._flush()


class AsyncService(AsyncTalk):
    """A `Service` whose calls are awaited: `async with AsyncService(command, processes=2) as s`.

    The arguments, calls, answers and exceptions are those of `Service`. Tasks may call at the same
    time: their records go out in the order of the calls, and each is answered. A call whose task is
    cancelled is told all the same. It is for the loop in which it was entered, and no child that is
    forked may use it.
    """

    async def __aenter__(self) -> AsyncService:
        await self.start()
        return self

    async def __aexit__(self, kind: type[BaseException] | None, *_raised: object) -> None:
        if kind is None:
            await self.close()
        else:
            await self._end(at_once=True)

    # The calls, each as that of `Service`.

    async def send(self, sender: int, to: int, body: bytes = b"") -> MessageName:
        """As `Service.send`."""
        return await self._told(self._calls.send(sender, to, body))

    async def deliver(
        self, sender: int, to: int, pick: int = 0, state: bytes = b""
    ) -> Delivered:
        """As `Service.deliver`."""
        return await self._told(self._calls.deliver(sender, to, pick, state))

    async def check(self, process: int, state: bytes = b"") -> int:
        """As `Service.check`."""
        return await self._told(self._calls.check(process, state))

    async def begin(self, process: int, state: bytes = b"") -> Begun:
        """As `Service.begin`."""
        return await self._told(self._calls.begin(process, state))

    async def turn(self, process: int, state: bytes = b"") -> Turned:
        """As `Service.turn`."""
        return await self._told(self._calls.turn(process, state))

    async def damage(self, process: int, check: int) -> None:
        """As `Service.damage`."""
        return await self._told(self._calls.damage(process, check))

    async def bar(self, process: int, check: int) -> None:
        """As `Service.bar`."""
        return await self._told(self._calls.bar(process, check))

    async def recover(self, failed: Failed = ()) -> Plan:
        """As `Service.recover`."""
        return await self._told_plan(self._calls.recover(failed))

    async def forget(self, round: int | None = None) -> tuple[Floor, ...]:
        """As `Service.forget`."""
        return await self._told(self._calls.forget(round))

    async def plan(self, failed: Failed = ()) -> Plan:
        """As `Service.plan`."""
        return await self._told_plan(self._calls.plan(failed))

    async def live(self) -> Plan:
        """As `Service.live`."""
        return await self._told_plan(self._calls.live())

    async def obsolete(self) -> tuple[range, ...]:
        """As `Service.obsolete`."""
        return obsolete(await self._told(self._calls.live()))

    async def rounds(self) -> tuple[Round, ...]:
        """As `Service.rounds`."""
        return await self._told(self._calls.rounds())

    async def history(self) -> History:
        """As `Service.history`."""
        return await self._told(self._calls.history())

    async def save(self) -> str:
        """As `Service.save`."""
        return await self._told(self._calls.save())

    async def bundle(self, failed: Failed = ()) -> Claim:
        """As `Service.bundle`."""
        return await self._told(self._calls.bundle(failed))

    async def answer(self, failed: Failed = ()) -> Claim:
        """As `Service.answer`."""
        return await self._told(self._calls.answer(failed))

    def together(self) -> AsyncTogether:
        """As `Service.together`, by `async with`."""
        return AsyncTogether(self)

    async def roll_over(self) -> RolledOver:
        """As `Service.roll_over`. No other task may have a call under way."""
        if not await self.rounds():
            raise RuntimeError("no round is completed: the line may be at the beginning")
        plan = await self.recover(range(self.processes))
        fresh = self._next_world()
        await fresh.start()
        try:
            async with fresh.together() as ahead:
                sent = put_world(ahead, plan)
            replays = renamed(plan, sent)
            if self._session.journal and fresh._session.journal:
                fresh._session.journal.move(self._session.journal.path)
        except BaseException:
            await fresh._end(at_once=True)
            raise
        await self._change_places(fresh)
        await fresh.close()
        return RolledOver(plan, replays)

    def _next_world(self) -> AsyncService:
        """A service of the same kind, with a journal beside the old one."""
        journal = self._session.journal
        return AsyncService(
            self._command, processes=self.processes, links=self.links,
            journal=next_journal(journal.path) if journal else None, durable=self._durable,
            keep_questions=self._keeps, timeout=self.timeout, start_timeout=self.start_timeout,
            forget_every=self._forget_every,
        )

    async def _change_places(self, other: AsyncService) -> None:
        """Each has the other's service and journal from now on."""
        for service in (self, other):
            await service._stop_listening()
        for name in ("_process", "_session", "_said", "_sending", "_is_asked", "_over"):
            mine, its = getattr(self, name), getattr(other, name)
            setattr(self, name, its)
            setattr(other, name, mine)
        for service in (self, other):
            service._listener = asyncio.create_task(service._listen())
