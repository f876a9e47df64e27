"""A reporter for asyncio: the same calls, which do not hold up the loop where they wait."""

from __future__ import annotations

import asyncio
import os
from collections.abc import Callable
from typing import Any, TypeVar

from recline import MessageName

from .reporter import Reporter
from .wire import Recovery

T = TypeVar("T")


class AsyncReporter:
    """A reporter whose calls are awaited.

        async with await AsyncReporter.open(0, 2, "unix:/tmp/hub") as reporter:
            name = await reporter.send(1, b"a")

    They take a thread only where they wait. The words of `open` are those of `Reporter`, and so are
    the docstrings of the calls. `reporter` is the one that it stands on.
    """

    def __init__(self, reporter: Reporter) -> None:
        self.reporter = reporter

    @classmethod
    async def open(
        cls, process: int, processes: int, to: str | os.PathLike[str], **words: Any
    ) -> AsyncReporter:
        """A reporter, once it is known where the process goes on."""
        return cls(await asyncio.to_thread(Reporter, process, processes, to, **words))

    async def _call(self, call: Callable[..., T], *values: Any) -> T:
        """Makes a call, in a thread where it would wait."""
        if self.reporter.would_wait():
            return await asyncio.to_thread(call, *values)
        return call(*values)

    @property
    def start(self) -> Recovery:
        """As `Reporter.start`."""
        return self.reporter.start

    async def send(self, to: int, body: bytes = b"") -> MessageName:
        """As `Reporter.send`."""
        return await self._call(self.reporter.send, to, body)

    async def received(self, name: MessageName) -> bool:
        """As `Reporter.received`."""
        return await self._call(self.reporter.received, name)

    async def check(self, state: bytes = b"") -> int:
        """As `Reporter.check`."""
        return await self._call(self.reporter.check, state)

    async def flush(self, timeout: float | None = None) -> None:
        """As `Reporter.flush`."""
        await asyncio.to_thread(self.reporter.flush, timeout)

    def take_recovery(self) -> Recovery | None:
        """As `Reporter.take_recovery`."""
        return self.reporter.take_recovery()

    async def wait_recovery(self, timeout: float | None = None) -> Recovery | None:
        """As `Reporter.wait_recovery`."""
        loop, came = asyncio.get_running_loop(), asyncio.Event()
        loop.add_reader(self.reporter.fileno(), came.set)
        try:
            await asyncio.wait_for(came.wait(), timeout)
        except asyncio.TimeoutError:
            return None
        finally:
            loop.remove_reader(self.reporter.fileno())
        return self.reporter.take_recovery()

    async def close(self, timeout: float | None = None) -> None:
        """As `Reporter.close`."""
        await asyncio.to_thread(self.reporter.close, timeout)

    async def __aenter__(self) -> AsyncReporter:
        return self

    async def __aexit__(self, kind: type[BaseException] | None, *raised: object) -> None:
        await asyncio.to_thread(self.reporter.__exit__, kind, *raised)
