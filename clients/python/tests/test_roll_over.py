"""A computation that goes on in a new world, before a tape is full."""

import asyncio
import fcntl
import os
import unittest
from unittest import mock

from serving import SERVICE, ServiceCase, history_of

from recline import (
    AsyncService, JournalError, Replay, RolledOver, Service, ServiceEnded, Took,
)


def some_work(service: Service) -> None:
    """A completed round, with a message in transit at its checks."""
    service.send(1, 0, b"m")
    service.begin(0, b"zero")
    service.deliver(1, 0, state=b"")
    service.deliver(0, 1, state=b"one")
    service.deliver(1, 0)
    service.check(0, b"later")


class TestRollOver(ServiceCase):
    """The new world, and its journal."""

    def test_goes_on(self) -> None:
        for journal in (self.journal, None):
            service = self.opened(journal=journal)
            some_work(service)
            before = service.pid
            rolled = service.roll_over()
            self.assertNotEqual(service.pid, before)
            self.assertEqual(rolled.plan.states, (b"later", b"one"))
            self.assertEqual(rolled.replays, ())
            self.assertEqual(service.recover([0, 1]).states, (b"later", b"one"))
            self.assertEqual(service.check(0), 2)
            tapes = service.history().tapes
            self.assertEqual([len(tape.events) for tape in tapes], [2, 1])
            service.close()

    def test_replays(self) -> None:
        """What was in transit is sent again, under its new name, and can be delivered."""
        service = self.kept()
        for _ in range(3):
            service.send(1, 0, b"old")
            service.deliver(1, 0)
        some_work(service)
        service.send(1, 0, b"lost")
        service.send(0, 1, b"kept")
        service.check(0, b"last")
        rolled = service.roll_over()
        self.assertEqual([it.body for it in rolled.replays], [b"kept"])
        again = rolled.replays[0]
        self.assertEqual(again.message.number, 0)
        self.assertEqual(rolled.plan.replays[0].message.number, 0)
        self.assertEqual(service.deliver(0, 1), Took(again.message, None))
        service.close()
        text = self.journal.read_bytes()
        self.assertEqual(text.count(b"\n"), 1 + 1 + 2 + 1)
        self.assertEqual(os.listdir(self.folder), ["run.recline"])
        with self.kept() as service:
            self.assertEqual(service.history(), history_of(text))

    def test_no_round(self) -> None:
        service = self.kept()
        service.check(0)
        self.assertRaisesRegex(RuntimeError, "no round is completed", service.roll_over)
        self.assertEqual(service.check(0), 2)

    def test_killed_between(self) -> None:
        """Where the new journal does not come into its place the old one has the recovery."""
        service = self.kept(durable=True)
        some_work(service)
        with mock.patch("os.replace", mock.Mock(side_effect=OSError(5, "Input/output error"))):
            self.assertRaises(OSError, service.roll_over)
        self.assertTrue(os.path.exists(f"{self.journal}.next"))
        service._end(at_once=True)
        with self.kept(durable=True) as service:
            self.assertEqual(self.last(service).value.states, (b"later", b"one"))
            self.assertEqual(service.roll_over().plan.states, (b"later", b"one"))
            service.check(0)
        self.assertEqual(
            sorted(os.listdir(self.folder)), ["run.recline", "run.recline.sums"]
        )
        with self.kept(durable=True) as service:
            self.assertEqual(service.replayed, 4)

    def test_killed_before_sums(self) -> None:
        """Where only the checksums are not in their place, the next client puts them there."""
        service = self.kept(durable=True)
        some_work(service)
        replace = os.replace
        killed = OSError(5, "as if it were killed here")
        with mock.patch("os.replace", mock.Mock(side_effect=[None, killed])) as patched:
            self.assertRaises(OSError, service.roll_over)
        replace(*patched.call_args_list[0].args)
        service._end(at_once=True)
        names = ["run.recline", "run.recline.next.sums", "run.recline.sums"]
        self.assertEqual(sorted(os.listdir(self.folder)), names)
        with self.kept(durable=True) as service:
            self.assertEqual(service.replayed, 3)
        self.assertEqual(sorted(os.listdir(self.folder)), ["run.recline", "run.recline.sums"])

    def test_of_old_file(self) -> None:
        """A journal that was opened before another one came into its place is not gone on with."""
        self.kept().close()
        flock = fcntl.flock

        def late(opened: int, how: int) -> None:
            if how & fcntl.LOCK_EX:
                os.replace(self.folder / "other", self.journal)
            flock(opened, how)

        (self.folder / "other").write_text("world,1,2,fifo\n")
        with mock.patch("fcntl.flock", late):
            self.assertRaisesRegex(JournalError, "another client", self.kept)
        self.assertEqual(self.kept().replayed, 1)

    def test_async(self) -> None:
        async def work() -> None:
            async with AsyncService(SERVICE, processes=2, journal=self.journal) as service:
                await service.send(1, 0, b"m")
                with self.assertRaises(RuntimeError):
                    await service.roll_over()
                await service.begin(0, b"zero")
                await service.deliver(1, 0)
                await service.deliver(0, 1, state=b"one")
                await service.deliver(1, 0)
                sent = await service.send(0, 1, b"n")
                await service.check(0, b"more")
                rolled = await service.roll_over()
                self.assertEqual(rolled, RolledOver(rolled.plan, (Replay(sent, 1, b"n"),)))
                self.assertEqual(await service.deliver(0, 1), Took(sent, None))
            with self.assertRaises(ServiceEnded):
                await service.check(0)
            self.assertEqual(self.kept().replayed, 5)

        asyncio.run(asyncio.wait_for(work(), 60))


if __name__ == "__main__":
    unittest.main()
