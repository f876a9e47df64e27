"""Journals that are synced now and then, their checksums, and how damage is found."""

import os
import pathlib
import subprocess
import sys
import time
import unittest
from typing import Any
from unittest import mock

from serving import HERE, ServiceCase, odd

from recline import Fault, JournalError, Service, Sync
from recline.journals import Journal
from recline.sums import Sum, read, sum_of

WORLD = b"world,1,2,fifo\n"
TOOL = HERE.parent / "journal.py"


class TestSums(ServiceCase):
    """The file of checksums, and what is found by it."""

    def sums(self) -> list[Sum]:
        """Those that count."""
        return read(pathlib.Path(f"{self.journal}.sums").read_bytes())[0]

    def checked(self, *words: object) -> tuple[int, list[str]]:
        """The status of the tool, and its lines without the name of the journal."""
        words = words or (self.journal,)
        ran = subprocess.run(
            [sys.executable, str(TOOL), "check", *map(str, words)],
            capture_output=True, text=True, check=False,
        )
        lines = (ran.stdout + ran.stderr).splitlines()
        return ran.returncode, [line.removeprefix(f"{self.journal}: ") for line in lines]

    def written(self, **others: Any) -> Service:
        """A durable journal of four records, closed."""
        service = self.kept(durable=True, **others)
        with service.together() as ahead:
            for state in (b"1", b"22", b"3"):
                ahead.check(0, state)
        service.close()
        return service

    def test_each_record(self) -> None:
        self.written()
        place, wanted = 0, []
        for line in self.journal.read_bytes().splitlines(keepends=True):
            wanted.append(sum_of(place, line))
            place += len(line)
        self.assertEqual(self.sums(), wanted)
        self.assertEqual(
            self.checked(), (0, ["4 records, 50 bytes; 4 of them with checksums"])
        )
        with self.kept(durable=True) as service:
            service.check(0)
        with self.kept() as service:  # the file is kept up where it is there
            service.check(0)
        self.assertEqual(len(self.sums()), 6)

    def test_none(self) -> None:
        """Without `durable` there is none."""
        with self.kept() as service:
            service.check(0)
        self.assertFalse(os.path.exists(f"{self.journal}.sums"))
        told = f"2 records, 24 bytes; no checksums in {self.journal}.sums: a record that was "
        self.assertEqual(self.checked(), (0, [told + "changed is not found"]))
        with self.kept(durable=True):
            pass
        self.assertEqual(len(self.sums()), 2)

    def test_changed(self) -> None:
        """A record that was changed inside is found by the tool and by the client."""
        self.written()
        text = self.journal.read_bytes()
        for place, found in [(23, "check,0,41"), (50 - 12, "check,0,2232")]:
            for cut in (True, False):
                changed = bytearray(text)
                changed[place] = ord("4") if place == 23 else ord("2")
                self.journal.write_bytes(changed)
                status, lines = self.checked()
                self.assertEqual(status, 1)
                self.assertIn("not as it was written", lines[1])
                before = self.journal.read_bytes()
                with self.assertRaisesRegex(JournalError, "is not as it was written") as raised:
                    self.kept(durable=cut)
                self.assertIsNotNone(raised.exception.process)
                self.assertEqual(self.journal.read_bytes(), before)
        self.journal.write_bytes(text)
        self.assertEqual(self.kept().replayed, 4)

    def test_lost(self) -> None:
        self.written()
        os.truncate(self.journal, 26)
        self.assertEqual(
            self.checked(),
            (1, ["2 records, 26 bytes; 4 of them with checksums",
                 "byte 26: lost from here to byte 50: records, 2 of them"]),
        )
        self.assertRaises(JournalError, self.kept)

    def test_torn(self) -> None:
        """What `recline run` would read as another record is told."""
        self.journal.write_bytes(WORLD + b"check,0,\nrecover,1")
        status, lines = self.checked()
        self.assertEqual(status, 1)
        self.assertEqual(
            lines[1],
            "byte 24, record 3: 'recover,1' has no end, 9 bytes: a client cuts them off, and "
            "recline run may read them as another record",
        )
        self.journal.write_bytes(b"check,0,\nsned,1\n" + WORLD)
        status, lines = self.checked()
        self.assertEqual((status, len(lines)), (1, 4))
        self.assertIn("byte 9, record 2: 'sned,1' is no record of a journal here", lines)

    def test_each_cut(self) -> None:
        """Cut anywhere, checksums that are missing are added, and half a one is none."""
        self.written()
        text, sums = self.journal.read_bytes(), pathlib.Path(f"{self.journal}.sums")
        whole = sums.read_bytes()
        for cut in range(0, len(whole), 7):
            sums.write_bytes(whole[:cut])
            self.kept(durable=True).close()
            self.assertEqual(sums.read_bytes(), whole)
        for cut in range(0, len(text), 5):
            self.journal.write_bytes(text[:cut])
            sums.write_bytes(b"")
            self.kept(durable=True).close()
            self.assertEqual(self.checked()[0], 0)

    def test_taken_off(self) -> None:
        """What is taken off has blank lines' checksum, or none."""
        service = self.kept(command=odd("memory", 3, 6), durable=True)
        with service.together() as ahead:
            for state in (b"1", b"22", b"3"):
                ahead.check(0, state)
        service.check(0)
        self.assertRaises(Fault, service.check, 0, b"5")
        service.check(1)
        service.close()
        self.assertEqual(self.checked()[0], 0)
        self.assertEqual(self.kept(durable=True).replayed, 5)

    def test_tool(self) -> None:
        self.assertEqual(self.checked("/no/such/file")[0], 3)
        self.written()
        other = self.folder / "other"
        other.write_bytes(b"a diary")
        self.assertEqual(self.checked(self.journal, other)[0], 1)
        ran = subprocess.run([sys.executable, str(TOOL)], capture_output=True, check=False)
        self.assertEqual(ran.returncode, 2)


class TestSync(ServiceCase):
    """How often a journal is synced."""

    def setUp(self) -> None:
        super().setUp()
        self.syncs = 0
        fsync = os.fsync

        def counted(file: int) -> None:
            self.syncs += 1
            fsync(file)

        patch = mock.patch("os.fsync", counted)
        patch.start()
        self.addCleanup(patch.stop)

    def test_records(self) -> None:
        service = self.kept(durable=Sync(records=10))
        self.syncs = 0
        for _ in range(35):
            service.check(0)
        self.assertEqual(self.syncs, 3)  # the first record counts too
        service.close()
        self.assertEqual(self.syncs, 4)

    def timed(self, seconds: float) -> tuple[Service, Journal]:
        """A service whose journal is synced within so many seconds, and now has all synced."""
        service = self.kept(durable=Sync(records=1_000_000, seconds=seconds))
        journal = service._session.journal
        assert journal is not None
        if seconds > 1:
            journal.sync()
        self.until(lambda: journal and journal._timer is None)
        self.syncs = 0
        return service, journal

    def test_no_sooner(self) -> None:
        """What is noted in the time is synced together, once it is over."""
        service, journal = self.timed(1_000.0)
        for _ in range(3):
            service.check(0)
        self.assertEqual(self.syncs, 0)
        timer = journal._timer
        assert timer is not None
        self.assertEqual(timer.interval, 1_000.0)
        timer.function()
        self.assertEqual((self.syncs, journal._timer), (1, None))

    def test_seconds(self) -> None:
        """A thread syncs in time, once."""
        service, _ = self.timed(0.05)
        service.check(0)
        self.until(lambda: self.syncs)
        time.sleep(0.1)
        self.assertEqual(self.syncs, 1)

    def test_fails(self) -> None:
        """A sync that fails in its time is told by the next call."""
        service, journal = self.timed(0.02)
        with mock.patch("os.fsync", mock.Mock(side_effect=OSError(5, "Input/output error"))):
            service.check(0)
            self.until(lambda: journal._failed)
            self.assertRaises(OSError, service.check, 0)

    def test_wrong(self) -> None:
        for wrong in (Sync(0), Sync(1, 0.0), Sync(1, -1.0)):
            self.assertRaises(ValueError, self.kept, durable=wrong)


if __name__ == "__main__":
    unittest.main()
