"""Journals that begin anew, and such that cannot."""

import asyncio
import os
import subprocess
import sys
import unittest
from collections.abc import Sequence
from typing import Any
from unittest import mock

from serving import HERE, SERVICE, ServiceCase, history_of, odd

import recline
from recline import Floor, JournalError, Service
from recline.renewals import OWN_FORGET, Last, Note, read_note


class TestRenewals(ServiceCase):
    """`forget_every`."""

    def renewing(self, every: int = 9, **others: Any) -> Service:
        """The service with the journal, which begins anew."""
        return self.kept(forget_every=every, **others)

    def work(self, service: Service, times: int) -> None:
        """Messages, and checks after them."""
        for _ in range(times):
            service.send(0, 1, b"m")
            service.deliver(0, 1)
            service.check(0, b"a")
            service.check(1, b"b")

    def test_neither_grows(self) -> None:
        """The journal stays small, and is a script of the same machine."""
        sizes = []
        with self.renewing(20) as service:
            for _ in range(6):
                self.work(service, 10)
                sizes.append(self.journal.stat().st_size)
            service.forget()
            history = service.history()
            counted = service.counted
            self.assertEqual(counted, 1 + 6 * 40 + 1)
            self.assertEqual(service.send(0, 1).number, 60)
        self.assertLess(max(sizes), 1_500)
        text = self.journal.read_bytes()
        self.assertTrue(text.startswith(b"history,4,2\nfloor,0,60,60\nfloor,1,60,0\ntape,0,0\n"))
        self.assertEqual(history_of(text.removesuffix(b"send,0,1,\n")), history)
        with self.renewing(20) as service:
            self.assertEqual(service.replayed, counted + 1)
            self.assertEqual(self.last(service).value.number, 60)
            self.assertEqual(service.check(0), 61)
        self.assertEqual(os.listdir(self.folder), ["run.recline"])

    def test_last_replayed(self) -> None:
        """The last record that was done before the journal began anew is told with its answer."""
        with self.renewing(4) as service:
            self.work(service, 1)
            service.close()  # which sends what is due
        self.assertTrue(self.journal.read_text().startswith("history,4,2\n"))
        with self.kept() as service:
            self.assertEqual(service.replayed, 5)
            last = self.last(service)
            self.assertEqual((last.record, last.value), ("check,1,62", 1))
            self.refuses(17, "ToSelf", service.send, 0, 0)
        with self.kept() as service:
            self.assertRaises(recline.Refused, lambda: self.last(service).value)

    def test_plain_journal(self) -> None:
        """A journal that is there begins anew once it is told to."""
        with self.kept() as service:
            self.work(service, 3)
        with self.renewing(5) as service:
            self.assertEqual(service.replayed, 13)
            service.check(1)
            self.assertTrue(self.journal.read_text().startswith("history,4,2\nfloor,0,3,3\n"))
            self.assertEqual(service.counted, 14)

    def test_round_open(self) -> None:
        """While a round is open nothing is let go; it is before the next one begins."""
        service = self.renewing(8)
        self.work(service, 1)
        service.begin(0)
        for _ in range(6):
            service.check(0)
        self.assertTrue(self.journal.read_text().startswith("world,"))
        with service.together() as ahead:
            ahead.deliver(0, 1)
            ahead.deliver(1, 0)
        self.assertTrue(self.journal.read_text().startswith("world,"))
        service.begin(1)
        self.assertTrue(self.journal.read_text().startswith("history,4,2\n"))
        self.assertEqual(service.counted, 1 + 4 + 1 + 6 + 2 + 1)

    def test_of_caller(self) -> None:
        """It begins anew after a `forget` of the caller too, of the round that the caller names."""
        service = self.renewing(1_000)
        self.work(service, 2)
        service.begin(0)
        service.deliver(0, 1)
        service.deliver(1, 0)
        self.work(service, 2)
        floors = service.forget(1)
        self.assertEqual(floors, (Floor(3, 2), Floor(3, 0)))
        service.check(0)
        text = self.journal.read_text()
        self.assertTrue(text.startswith("history,4,2\nfloor,0,3,2\nfloor,1,3,0\n"))
        self.assertTrue(text.endswith("\ncheck,0,\n"))
        with service.together() as ahead:
            forgot, _, _ = ahead.forget(), ahead.begin(0), ahead.check(1)
        self.assertEqual(forgot.value, (Floor(6, 4), Floor(5, 0)))
        service.check(0)
        self.assertTrue(self.journal.read_text().startswith("history,4,2\nfloor,0,3,2\n"))

    def test_together(self) -> None:
        """In a block, too, all is answered as it would be."""
        with self.renewing(50) as service:
            for block in range(20):
                with service.together() as ahead:
                    sent = [ahead.send(0, 1) for _ in range(10)]
                    taken = [ahead.deliver(0, 1) for _ in range(10)]
                    checks = [ahead.check(0), ahead.check(1)]
                numbers = [it.value.number for it in sent]
                self.assertEqual(numbers, [*range(block * 10, block * 10 + 10)])
                self.assertTrue(all(isinstance(it.value, recline.Took) for it in taken))
                self.assertEqual([it.value for it in checks], [block + 1] * 2)
        self.assertLess(self.journal.stat().st_size, 2_000)

    def test_without_journal(self) -> None:
        """Without a journal it lets go alone."""
        service = self.opened(forget_every=4)
        self.work(service, 4)
        service.plan()
        self.assertEqual(service.history().floors[0], Floor(4, 3))

    def test_values(self) -> None:
        for wrong in (0, -1):
            self.assertRaises(ValueError, self.opened, forget_every=wrong)
        self.assertRaisesRegex(ValueError, "fifo", self.opened, links="unordered", forget_every=9)
        self.assertFalse(self.journal.exists())

    def test_older_program(self) -> None:
        """A program that does not know `save` is told of at once."""
        with self.assertRaisesRegex(RuntimeError, "a program that knows `save`"):
            self.renewing(command=odd("older"))
        self.opened(command=odd("older"), forget_every=5)
        with self.renewing(1) as service:
            self.work(service, 2)
        with self.assertRaisesRegex(JournalError, "record 1 .* 34 NoWorld; an older program"):
            self.kept(command=odd("older"))

    def test_roll_over(self) -> None:
        service = self.renewing(8)
        service.begin(0)
        service.deliver(0, 1)
        service.deliver(1, 0)
        service.roll_over()
        self.work(service, 4)
        service.close()
        self.assertTrue(self.journal.read_text().startswith("history,4,2\n"))
        self.assertEqual(os.listdir(self.folder), ["run.recline"])

    def test_async(self) -> None:
        async def work() -> None:
            async with recline.AsyncService(
                SERVICE, processes=2, journal=self.journal, forget_every=7, durable=True
            ) as service:
                for number in range(12):
                    sent, *_ = await asyncio.gather(
                        service.send(0, 1), service.deliver(0, 1), service.check(0),
                        service.check(1),
                    )
                    self.assertEqual(sent.number, number)
                self.assertEqual(service.counted, 49)
            with self.assertRaises(ValueError):
                recline.AsyncService(SERVICE, processes=2, links="unordered", forget_every=7)
            with self.assertRaises(RuntimeError):
                await recline.AsyncService(
                    odd("older"), processes=2, journal=self.folder / "other", forget_every=7
                ).start()

        asyncio.run(asyncio.wait_for(work(), 60))
        self.assertTrue(self.journal.read_text().startswith("history,4,2\n"))
        self.assertEqual(self.kept(durable=True).replayed, 49)


    def test_cancelled(self) -> None:
        """A call whose task is cancelled while the journal begins anew is told all the same."""
        async def work() -> tuple[int, Sequence[int | None]]:
            async with recline.AsyncService(
                SERVICE, processes=2, journal=self.journal, forget_every=2
            ) as service:
                calls = []
                for number in range(60):
                    calls.append(asyncio.create_task(service.check(number % 2)))
                    await asyncio.sleep(0.001 * (number % 3))
                    calls[-1].cancel()
                    if number % 10 == 0:
                        await service.plan()
                await asyncio.wait(calls)
                line = (await service.live()).line
                return service.counted, line

        counted, line = asyncio.run(asyncio.wait_for(work(), 60))
        self.assertEqual((counted, line), (61, (30, 30)))
        with self.kept() as service:
            self.assertEqual((service.replayed, service.live().line), (counted, line))

    def test_ended(self) -> None:
        """Where the service ends while the journal begins anew the old one is a true one."""
        # Of `world`, `save`, 3 checks, `forget`, `save`: the last two are done and not answered.
        for record in (6, 7):
            with self.subTest(record=record):
                self.journal.unlink(missing_ok=True)
                service = self.renewing(4, command=odd("ends", record))
                for number in range(1, 4):
                    self.assertEqual(service.check(0), number)
                self.assertRaises(recline.ServiceEnded, service.check, 0)
                with self.renewing(4) as again:
                    self.assertEqual((again.replayed, again.check(0)), (4, 4))
                    self.assertEqual(again.counted, 5)

    def test_async_ended(self) -> None:
        async def work(record: int) -> None:
            service = recline.AsyncService(
                odd("ends", record), processes=2, journal=self.journal, forget_every=4
            )
            await service.start()
            for number in range(1, 4):
                self.assertEqual(await service.check(0), number)
            with self.assertRaises(recline.ServiceEnded):
                await service.check(0)
            with self.assertRaises(recline.ServiceEnded):
                await service.check(0)

        for record in (6, 7):
            with self.subTest(record=record):
                self.journal.unlink(missing_ok=True)
                asyncio.run(asyncio.wait_for(work(record), 60))
                with self.renewing(4) as again:
                    self.assertEqual((again.replayed, again.check(0)), (4, 4))


class TestNotRenewed(ServiceCase):
    """Journals that cannot begin anew, or whose beginning is not as it was written."""

    def tried(self, service: Service) -> None:
        """The old journal, which goes on, and what it has then."""
        for number in range(1, 7):
            self.assertEqual(service.check(0), number)
        text = self.journal.read_bytes().decode()
        self.assertIn(f"\n{OWN_FORGET}\n", text)
        self.assertEqual(service.counted, 7)
        self.refuses(7, "InitialDamage", service.damage, 0, 5)
        history = service.history()
        service.close()
        with self.kept() as again:
            self.assertEqual((again.replayed, again.history()), (8, history))

    def test_no_memory(self) -> None:
        # Of the records `world`, `save`, 3 checks, `forget`, `save`: the last one has no memory.
        service = self.kept(command=odd("memory", 7), forget_every=4)
        for number in range(1, 5):
            self.assertEqual(service.check(0), number)
        self.assertIn(b"\ncheck,0,\nforget\r\ncheck,0,\n", self.journal.read_bytes())
        service.check(0)
        self.assertIn(b"\nsaved,0\n", self.journal.read_bytes())
        self.assertEqual(service.counted, 6)

    def test_no_room(self) -> None:
        """Where the new file cannot be written, or not be put in its place."""
        for name in ("fsync", "replace"):
            with self.subTest(name):
                self.journal.unlink(missing_ok=True)
                service = self.kept(forget_every=4)
                with mock.patch(f"os.{name}", side_effect=OSError(28, "No space left on device")):
                    self.tried(service)
                self.assertEqual(os.listdir(self.folder), ["run.recline"])

    def test_cut_short(self) -> None:
        with self.kept(forget_every=2) as service:
            service.check(0)
            service.check(0)
        text = self.journal.read_bytes()
        self.journal.write_bytes(text[:text.index(b"saved,")])
        self.assertRaisesRegex(JournalError, "has no end", self.kept)
        self.journal.write_bytes(text.replace(b"tape,1,0", b"tape,7,0"))
        self.assertRaisesRegex(JournalError, "record 6 of the saved .* 32 BadRecord", self.kept)
        self.journal.write_bytes(text)
        self.assertRaisesRegex(JournalError, "begins with", self.kept, processes=3)
        self.assertRaisesRegex(JournalError, "begins with", self.kept, links="unordered")
        self.assertEqual(self.journal.read_bytes(), text)
        self.assertEqual(self.kept().replayed, 3)

    def test_by_hand(self) -> None:
        """A saved text and records after it are a journal."""
        self.journal.write_text(
            "history,4,2\nfloor,0,7,3\nfloor,1,0,0\ntape,0,2\ncheck,aa,-\ntape,1,0\nsaved,5\n"
            "check,0,bb\n"
        )
        with self.kept() as service:
            self.assertEqual((service.replayed, self.last(service).value), (2, 8))
            self.assertEqual(service.send(0, 1).number, 3)

    def test_tool(self) -> None:
        """`journal.py check` knows journals that have begun anew."""
        with self.kept(forget_every=2) as service:
            service.check(0)
            service.check(0)
        text = self.journal.read_bytes()
        for found, status in {
            text: 0, text[:text.index(b"saved")]: 1, text.replace(b"saved", b"check"): 1,
            text + b"tape,0,0\n": 1, text + b"world,1,2,fifo\n": 1, b"check,0,\n" + text: 1,
        }.items():
            self.journal.write_bytes(found)
            words = [str(HERE.parent / "journal.py"), "check", str(self.journal)]
            ran = subprocess.run([sys.executable, "-B", *words], capture_output=True, check=False)
            self.assertEqual((ran.returncode, ran.stderr), (status, b""), found)

    def test_save(self) -> None:
        """The saved text is told to callers too, and no step."""
        with self.kept() as service:
            service.check(0, b"a")
            text = service.save()
            self.assertEqual(
                text, "history,4,2\nfloor,0,0,0\nfloor,1,0,0\ntape,0,0\ncheck,61,-\ntape,1,0\n"
                "saved,0\n",
            )
            self.assertEqual(service.counted, 2)
            service.begin(0)
            self.refuses(20, "RoundOpen", service.save)
        self.refuses(22, "WrongMode", self.opened(links="unordered").save)

    def test_notes(self) -> None:
        for note in (Note(1, None), Note(10**12, Last("check,0,", "checked,0,1"))):
            self.assertEqual(read_note(note.record()), note)
        long = Note(5, Last("plan", "x" * 70_000))
        self.assertEqual(read_note(long.record()), Note(5, None))
        self.assertIsNone(read_note("deliver,0,1,0,"))


if __name__ == "__main__":
    unittest.main()
