"""The service for asyncio: the same calls, answers, journals and ends."""

import asyncio
import os
import threading
import time
import unittest
from collections.abc import Coroutine
from typing import Any
from unittest import mock

from serving import SECONDS, SERVICE, SHORT, ServiceCase, freeze, history_of, odd

import recline
from recline import (
    AsyncService, Begun, Fault, MessageName, Plan, Refused, Replay, Service, ServiceEnded, Sync,
    Took, Turned,
)



def run(work: Coroutine[Any, Any, None]) -> None:
    """Runs it, and hangs in no case."""

    async def in_time() -> None:
        await asyncio.wait_for(work, 60)

    asyncio.run(in_time())


class TestAsync(ServiceCase):
    """Each call, awaited."""

    def test_names(self) -> None:
        """It has every call of `Service`."""
        for name in vars(Service) | vars(recline.talks.Talk):
            if not name.startswith("_"):
                self.assertTrue(hasattr(AsyncService, name), name)

    def test_calls(self) -> None:
        async def work() -> None:
            async with AsyncService(SERVICE, processes=2) as service:
                sent = await service.send(1, 0, b"m")
                self.assertEqual(sent, MessageName(1, 0, 0))
                self.assertEqual(await service.check(0, b"x"), 1)
                self.assertEqual(await service.deliver(1, 0), Took(sent, None))
                plan = Plan((1, None), (b"x", None), (1, 0), (), (Replay(sent, 0, b"m"),), 1)
                self.assertEqual(await service.recover(0), plan)
                self.assertEqual(len((await service.history()).tapes), 2)
                self.assertEqual((await service.bundle(1)).failed, (1,))
                await service.bar(0, 0)
                await service.damage(0, 1)
                with self.assertRaises(Refused):
                    await service.turn(0)
                with self.assertRaises(Refused):
                    await service.recover(9)
                self.assertEqual(await service.begin(1), Begun(1, 1, 1))
                self.assertEqual(await service.rounds(), ())
                self.assertTrue(service.pid and service.counted)
                self.assertEqual(await service.close(), 1)
            async with AsyncService(SERVICE, processes=2, links="unordered") as service:
                await service.begin(0)
                self.assertEqual(await service.turn(1), Turned(1, 1, 1))

        run(work())

    def test_views(self) -> None:
        async def work() -> None:
            async with AsyncService(SERVICE, processes=2) as service:
                sent = await service.send(0, 1, b"m")
                await service.check(0)
                await service.check(0)
                replay = Replay(sent, 1, b"m")
                self.assertEqual((await service.live()).replays, (replay,))
                self.assertEqual((await service.plan(1)).replays, (replay,))
                self.assertEqual(await service.obsolete(), (range(1, 2), range(1, 1)))

        run(work())

    def test_tasks(self) -> None:
        """Tasks that call at the same time get each its own answers, in the order of the calls."""
        async def work() -> None:
            async with AsyncService(SERVICE, processes=8, journal=self.journal) as service:
                async def of(process: int) -> list[int]:
                    return [await service.check(process) for _ in range(50)]
                found = await asyncio.gather(*map(of, range(8)))
                self.assertEqual(found, [list(range(1, 51))] * 8)
                many = await asyncio.gather(*(service.check(0) for _ in range(500)))
                self.assertEqual(many, list(range(51, 551)))
                self.assertEqual(await service.history(), history_of(self.journal.read_bytes()))

        run(work())

    def test_together(self) -> None:
        async def work() -> None:
            async with AsyncService(SERVICE, processes=2) as service:
                async with service.together() as ahead:
                    sent = [ahead.send(0, 1, b"m" * 60) for _ in range(3_000)]
                    refused = ahead.send(0, 0)
                    plan = ahead.recover(1)
                self.assertEqual([it.value.number for it in sent], list(range(3_000)))
                self.assertEqual(ahead.not_done, [refused])
                self.assertEqual(plan.value.replays[-1].body, b"m" * 60)
                self.assertRaises(RuntimeError, ahead.check, 0)

        run(work())


class TestJournal(ServiceCase):
    """The journal is that of `Service`."""

    def test_goes_on(self) -> None:
        async def work() -> None:
            async with AsyncService(SERVICE, processes=2, journal=self.journal) as service:
                await service.send(1, 0, b"m")
                await service.check(0)
                await service.recover(0)
            with self.kept() as blocking:
                self.assertEqual(blocking.replayed, 4)
                self.assertEqual(self.last(blocking).value.replays[0].body, b"m")
            durable = Sync(records=10, seconds=0.05)
            service = AsyncService(SERVICE, processes=2, journal=self.journal, durable=durable)
            async with service:
                self.assertEqual((service.replayed, service.torn), (4, 0))
                assert service.last_replayed
                self.assertEqual(service.last_replayed.value.replays[0].body, b"m")
                self.assertEqual(await service.check(0), 2)
                with self.assertRaisesRegex(recline.JournalError, "another client"):
                    self.kept()

        run(work())

    def test_cancelled(self) -> None:
        """A call that is cancelled while its record is synced is told all the same."""
        fsync, begun, may_end = os.fsync, threading.Event(), threading.Event()

        def slow(file: int) -> None:
            begun.set()
            may_end.wait(SECONDS)
            fsync(file)

        async def work() -> None:
            service = AsyncService(SERVICE, processes=2, journal=self.journal, durable=True)
            async with service:
                with mock.patch("os.fsync", slow):
                    task = asyncio.create_task(service.check(0))
                    await asyncio.to_thread(begun.wait, SECONDS)
                    task.cancel()
                    await asyncio.wait([task])
                    self.assertTrue(task.cancelled())
                    may_end.set()
                    self.assertEqual(await service.check(0), 2)
            self.assertEqual(self.journal.read_bytes().count(b"check"), 2)

        run(work())

    def test_fault(self) -> None:
        async def work() -> None:
            command = odd("memory", 3)
            async with AsyncService(command, processes=2, journal=self.journal) as service:
                await service.check(0, b"1")
                with self.assertRaises(Fault):
                    await service.check(0, b"2")
                self.assertEqual(self.journal.read_bytes(), b"world,1,2,fifo\ncheck,0,31\n")

        run(work())


    def test_refused(self) -> None:
        """A journal that is not gone on with stays as it is."""
        text = b"world,1,2,fifo\ncheck,0,\nsned,0\ncheck,0,\n"

        async def work() -> None:
            self.journal.write_bytes(text)
            service = AsyncService(SERVICE, processes=2, journal=self.journal)
            with self.assertRaisesRegex(recline.JournalError, "record 3: 32 BadRecord"):
                await service.start()
            self.assertEqual(self.journal.read_bytes(), text)
            with self.assertRaises(recline.JournalError):
                await AsyncService(SERVICE, processes=3, journal=self.journal).start()

        run(work())


class TestEnds(ServiceCase):
    """Services that end, or say nothing."""

    def test_ends(self) -> None:
        async def work() -> None:
            async with AsyncService(odd("ends", 3), processes=2) as service:
                await service.check(0)
                with self.assertRaisesRegex(ServiceEnded, "status 3: recline: record 0") as raised:
                    await service.check(1)
                self.assertEqual(raised.exception.record, "check,1,")
                with self.assertRaises(ServiceEnded):
                    await service.check(0)
            with self.assertRaisesRegex(ServiceEnded, "no answer is 'one,two'"):
                async with AsyncService(odd("garbles", 2), processes=2) as service:
                    await service.check(0)
            with self.assertRaises(FileNotFoundError):
                await AsyncService(["/no/such/program"], processes=2).start()

        run(work())

    def test_silence(self) -> None:
        async def work() -> None:
            for command, silence, told in (
                (["sh", "-c", "exec sleep 60"], SHORT, "ended by its client: it has not answered"),
                (["/bin/cat"], SECONDS, "no answer"),
            ):
                started = time.monotonic()
                service = AsyncService(command, processes=2, start_timeout=silence)
                with self.assertRaisesRegex(ServiceEnded, told):
                    await service.start()
                self.assertLess(time.monotonic() - started, 5)
            says = ["sh", "-c", "echo why >&2; echo; exec sleep 60"]
            async with AsyncService(says, processes=2, timeout=SHORT) as service:
                with self.assertRaisesRegex(ServiceEnded, "why\nended by"):
                    await service.check(0)
            async with AsyncService(SERVICE, processes=2, timeout=SHORT) as service:
                freeze(service.pid)
                calls = (service.check(process) for process in (0, 1, 0))
                for found in await asyncio.gather(*calls, return_exceptions=True):
                    self.assertIsInstance(found, ServiceEnded)

        run(work())

    def test_cancelled(self) -> None:
        """A call whose task is cancelled is told, and the next ones get their own answers."""
        async def work() -> None:
            async with AsyncService(SERVICE, processes=2) as service:
                task = asyncio.create_task(service.check(0))
                await asyncio.sleep(0)
                task.cancel()
                await asyncio.wait([task])
                self.assertIn(await service.check(0), (1, 2))
                self.assertEqual(await service.check(1), 1)

        run(work())

    def test_error_in_block(self) -> None:
        async def work() -> None:
            with self.assertRaises(KeyError):
                async with AsyncService(SERVICE, processes=2) as service:
                    raise KeyError
            with self.assertRaises(ServiceEnded):
                await service.check(0)

        run(work())


if __name__ == "__main__":
    unittest.main()
