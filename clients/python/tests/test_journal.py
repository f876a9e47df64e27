"""The journal: what stands in it, and how it is gone on with."""

import os
import pathlib
import subprocess
import sys
import unittest
from collections.abc import Callable
from typing import Any
from unittest import mock

from serving import IS_LONG, SERVICE, TOP, ServiceCase, history_of, odd

import recline
from slow_model import scripts
from recline import Fault, JournalError, MessageName, Refused, ServiceEnded

WORLD = b"world,1,2,fifo\n"
# Steps of each kind of record, a refused one and a question among them.
STEPS = (
    b"send,0,1,61\ncheck,0,78\ndeliver,0,1,0,\nturn,0,\nbegin,1,\nhistory\nsend,1,0,\n"
    b"deliver,1,0,0,ff\nrecover,1\ndeliver,1,0,0,\nbar,0,0\ncheck,1,79\ndamage,1,2\n"
)


class TestKept(ServiceCase):
    """What is kept, and what is answered when it is opened again."""

    def test_each_record(self) -> None:
        """Each record stands as it was sent, refused ones and questions too, before it is sent."""
        service = self.kept()
        self.assertEqual((service.replayed, service.torn, service.last_replayed), (0, 0, None))
        service.send(0, 1, b"a")
        self.assertRaises(Refused, service.send, 0, 0)
        service.history()
        with service.together() as ahead:
            ahead.deliver(0, 1)
            self.assertNotIn(b"deliver", self.journal.read_bytes())
        wanted = WORLD + b"send,0,1,61\nsend,0,0,\nhistory\ndeliver,0,1,0,\n"
        self.assertEqual(self.journal.read_bytes(), wanted)
        service.close()
        self.assertEqual(self.journal.read_bytes(), wanted)

    def test_goes_on(self) -> None:
        with self.kept() as service:
            sent = service.send(0, 1, b"a")
        with self.kept() as service:
            self.assertEqual((service.replayed, service.torn), (2, 0))
            self.assertEqual(self.last(service).record, "send,0,1,61")
            self.assertEqual(self.last(service).value, sent)
            self.assertEqual(service.deliver(0, 1), recline.Took(sent, None))
        with self.kept() as service:
            self.assertEqual(self.last(service).value, recline.Took(sent, None))
            self.assertRaises(Refused, service.check, 5)
            service.rounds()
        with self.kept() as service:
            self.assertEqual((service.replayed, self.last(service).record), (4, "check,5,"))
            with self.assertRaises(Refused):
                self.last(service).value

    def test_all_kinds(self) -> None:
        self.journal.write_bytes(WORLD + STEPS)
        service = self.kept()
        self.assertEqual(service.replayed, 1 + STEPS.count(b"\n") - 1)
        self.assertIsNone(self.last(service).value)
        self.assertEqual(service.history(), history_of(WORLD + STEPS))
        self.assertEqual(service.close(), 1)

    def test_last_kinds(self) -> None:
        """The last answer is read by its kind."""
        for record, value in {
            "check,0,61": 1, "begin,0,": recline.Begun(0, 1, 1),
            "recover": recline.Plan((None,) * 2, (None,) * 2, (0,) * 2, (), (), 1),
        }.items():
            self.journal.write_bytes(WORLD + record.encode() + b"\n")
            with self.kept() as service:
                self.assertEqual(self.last(service).value, value)

    def test_written_by_hand(self) -> None:
        """Empty lines, lines that end as on other systems, and version 2."""
        self.journal.write_bytes(b"\n\r\nworld,02,02,fifo\r\n\ncheck,0,61\r\n\n\nsend,0,1,\n\n")
        service = self.kept()
        self.assertEqual((service.replayed, service.torn), (3, 0))
        self.assertEqual(self.last(service).value, MessageName(0, 0, 0))
        service.check(0)
        self.assertTrue(self.journal.read_bytes().endswith(b"send,0,1,\n\ncheck,0,\n"))

    def test_long(self) -> None:
        """A journal of many pieces, whose answers are more than pipes hold."""
        record = b"check,0," + b"61" * 4_096 + b"\n"
        self.journal.write_bytes(WORLD + record * 40 + b"recover,0\n" * 40)
        service = self.kept()
        self.assertEqual(service.replayed, 81)
        self.assertEqual(self.last(service).value.states, (b"a" * 4_096, None))

    def test_counted(self) -> None:
        """How many records were done and not answered: a comparison of two numbers."""
        service = self.kept(command=odd("ends", 7))
        service.check(0)
        self.assertRaises(Refused, service.send, 0, 0)
        service.history()
        self.assertEqual(service.counted, 3)
        with self.assertRaises(ServiceEnded):
            with service.together() as ahead:
                for _ in range(5):
                    ahead.check(0)
        again = self.kept()
        self.assertEqual((service.counted, again.replayed, again.counted), (5, 8, 8))

    def test_no_questions(self) -> None:
        """Questions are left out where that is asked for, also where memory is out for one."""
        service = self.kept(command=odd("memory", 5), keep_questions=False)
        with service.together() as ahead:
            ahead.check(0)
            ahead.rounds()
            last = ahead.check(0)
            bundle = ahead.bundle()
        self.assertRaises(Fault, lambda: bundle.value)
        service.history()
        self.assertEqual((last.value, service.counted), (2, 3))
        self.assertEqual(self.journal.read_bytes(), WORLD + b"check,0,\ncheck,0,\n")

    def test_relative_path(self) -> None:
        before = os.getcwd()
        self.addCleanup(os.chdir, before)
        os.chdir(self.folder)
        self.opened(journal="run.recline", durable=True).check(0)
        self.assertEqual(self.journal.read_bytes(), WORLD + b"check,0,\n")

    def test_durable(self) -> None:
        """Each record is synced after it is written and before the service is told."""
        done: list[str] = []

        def noting(what: str, call: Callable[..., object]) -> Callable[..., object]:
            def noted(*words: object) -> object:
                done.append(what)
                return call(*words)
            return noted

        with mock.patch("os.pwrite", noting("file", os.pwrite)), \
                mock.patch("os.fsync", noting("sync", os.fsync)), \
                mock.patch("os.write", noting("service", os.write)):
            service = self.kept(durable=True)
            # The folder; then the journal, and after that the checksum of its record.
            self.assertEqual(done, ["sync", "file", "sync", "file", "service"])
            done.clear()
            service.check(0)
            self.assertEqual(done, ["file", "sync", "file", "service"])


class TestScript(ServiceCase):
    """The journal is a script, which the other commands read as it is."""

    def setUp(self) -> None:
        super().setUp()
        service = self.kept(command=odd("memory", 3))
        with service.together() as ahead:
            for name in (b"a", b"b", b"c"):
                ahead.send(0, 1, name)
        service.deliver(0, 1)
        self.refuses(18, "LinkEmpty", service.deliver, 1, 0)
        self.history = service.history()
        service.recover([1])
        service.close()

    def test_model(self) -> None:
        output, said, status = scripts.run(self.journal.read_bytes())
        self.assertEqual((said, status), (b"", 1))
        self.assertIn(self.history, output.decode())

    @unittest.skipUnless(SERVICE[1:] == ["serve"] and "slow" not in SERVICE[0], "wants the program")
    def test_program(self) -> None:
        text = self.journal.read_bytes()
        ran = subprocess.run([SERVICE[0], "run"], input=text, capture_output=True, check=False)
        self.assertEqual((ran.stdout, ran.stderr, ran.returncode), scripts.run(text))
        for command in ("draw", "explain"):
            words = [str(TOP / command), "--program", SERVICE[0]]
            ran = subprocess.run(words, input=text, capture_output=True, check=False)
            self.assertEqual((ran.stderr, ran.returncode), (b"", 0))
            self.assertIn(b"recovery", ran.stdout)


class TestTorn(ServiceCase):
    """Journals that end anywhere, as when a client or its machine stopped while it wrote."""

    def test_each_cut(self) -> None:
        """A journal cut at any byte is that of its whole records, and is gone on with."""
        whole = WORLD + STEPS
        for cut in range(0, len(whole) + 1, 1 if IS_LONG else 9):
            with self.subTest(cut=cut):
                self.journal.write_bytes(whole[:cut])
                kept = whole[:whole.rfind(b"\n", 0, cut) + 1]
                with self.kept() as service:
                    self.assertEqual(service.torn, cut - len(kept))
                    steps = [it for it in kept.splitlines() if it != b"history"]
                    self.assertEqual(service.replayed, len(steps))
                    self.assertEqual(self.journal.read_bytes(), kept or WORLD)
                    service.check(1, b"z")
                    wanted = (kept or WORLD) + b"check,1,7a\n"
                    self.assertEqual(service.history(), history_of(wanted))
                self.assertEqual(self.journal.read_bytes(), wanted + b"history\n")

    def test_grows_no_more(self) -> None:
        """Where a record cannot be written, none of it stands in the journal, and none is sent."""
        service = self.kept()
        service.check(0)
        before = self.journal.read_bytes()
        pwrite = os.pwrite

        def full(file: int, text: bytes, place: int) -> int:
            if place > len(before):
                raise OSError(28, "No space left on device")
            return pwrite(file, text[:3], place)

        with mock.patch("os.pwrite", full), self.assertRaises(OSError):
            service.check(0, b"abc")
        self.assertEqual(self.journal.read_bytes(), before)
        with self.assertRaisesRegex(ServiceEnded, "No space left on device") as raised:
            service.check(0)
        self.assertIsInstance(raised.exception.__cause__, OSError)
        self.assertEqual(self.kept().check(0), 2)


class TestRefusedJournals(ServiceCase):
    """Journals that are not gone on with, and stay as they are."""

    def refused(self, text: bytes, told: str, **others: Any) -> None:
        """A journal with this text is not gone on with, for a cause that is told, and stays."""
        self.journal.write_bytes(text)
        with self.assertRaisesRegex(JournalError, told):
            self.kept(**others)
        self.assertEqual(self.journal.read_bytes(), text)

    def test_other_world(self) -> None:
        text = WORLD + b"check,0,\nche"
        told = "run.recline: it begins with 'world,1,2,fifo', and not with 'world,"
        self.refused(text, f"{told}1,3,fifo'", processes=3)
        self.refused(text, f"{told}1,2,unordered'", links="unordered")
        self.refused(text, f"{told}2,65,fifo'", processes=65)

    def test_no_journal(self) -> None:
        for text in (b"a diary", b"a diary\n", b"check,0,\n", b"\0", b"world,1,2,fifx", b"\xff\n"):
            self.refused(text, "it begins with")

    def test_bad_record(self) -> None:
        self.refused(WORLD + b"\nrounds\ncheck,0,\nchk,0\nche", "record 4: 32 BadRecord")
        self.refused(WORLD + b"check,0,6\ncheck,0,\n", "record 2: 33 BadNumber")
        self.refused(WORLD + b"check,0,\x00\n", "record 2: 32 BadRecord")
        self.refused(WORLD + b"check,0," + b"6" * 66_000 + b"\n", "record 2: 32 BadRecord")
        self.refused(WORLD + WORLD, "record 2: 32 BadRecord")
        self.refused(b"world,3,2,fifo\n", "record 1: 35 BadVersion")

    def test_two_clients(self) -> None:
        service = self.kept()
        with self.assertRaisesRegex(JournalError, "run.recline: another client has this journal"):
            self.kept()
        service.check(0)
        service.close()
        self.assertEqual(self.kept().replayed, 2)

    def test_folder(self) -> None:
        self.assertRaises(OSError, self.opened, journal=self.folder)
        self.assertRaises(OSError, self.opened, journal=self.folder / "no" / "folder")

    def test_no_command(self) -> None:
        """The journal is let go where the service does not start."""
        self.assertRaises(FileNotFoundError, self.kept, command=["/no/such/program"])
        with self.assertRaises(ServiceEnded):
            self.kept(command=["sh", "-c", "exit 3"])
        self.assertEqual(self.kept().check(0), 1)


class TestFaults(ServiceCase):
    """Records that were not done are off the journal before their caller hears of it."""

    def test_last_record(self) -> None:
        service = self.kept(command=odd("memory", 3))
        service.check(0, b"1")
        self.assertRaises(Fault, service.check, 0, b"2")
        self.assertEqual(self.journal.read_bytes(), WORLD + b"check,0,31\n")
        service.check(0, b"3")
        self.assertEqual(self.journal.read_bytes(), WORLD + b"check,0,31\ncheck,0,33\n")
        service.close()
        self.assertEqual(self.kept().history(), history_of(self.journal.read_bytes()))

    def test_world(self) -> None:
        with self.assertRaises(Fault):
            self.kept(command=odd("memory", 1))
        self.assertEqual(self.journal.read_bytes(), b"")
        self.assertEqual(self.kept().check(0), 1)

    def test_among_others(self) -> None:
        """One in the middle gives way to empty lines, and all after it stay."""
        service = self.kept(command=odd("memory", 3, 5))
        with service.together() as ahead:
            answers = [ahead.check(0, state) for state in (b"1", b"22", b"3", b"4")]
        self.assertEqual([answers[0].value, answers[2].value], [1, 2])
        wanted = WORLD + b"check,0,31\n" + b"\n" * 13 + b"check,0,33\n"
        self.assertEqual(self.journal.read_bytes(), wanted)
        history = service.history()
        service.close()
        service = self.kept()
        self.assertEqual((service.replayed, service.history()), (3, history))

    def test_half_taken_off(self) -> None:
        """What remains of a record that was being taken off goes too."""
        for rest in (b"ck,0,3232", b",0,3232", b"0,3232", b"32", b"2"):
            self.journal.write_bytes(WORLD + b"check,0,31\n" + b"\n" * 4 + rest + b"\ncheck,0,33\n")
            with self.kept() as service:
                self.assertEqual((service.replayed, service.torn), (3, len(rest)))
            text = WORLD + b"check,0,31\n" + b"\n" * (5 + len(rest)) + b"check,0,33\n"
            self.assertEqual(self.journal.read_bytes(), text)
        self.journal.write_bytes(WORLD + b"check,0,31\n\nabcd\n")
        with self.kept() as service:
            self.assertEqual(service.replayed, 2)
            service.check(0)
        self.assertEqual(self.journal.read_bytes(), WORLD + b"check,0,31\n\ncheck,0,\n")

    def test_only_a_rest(self) -> None:
        """What its owner wrote wrong after an empty line is not taken for such a rest."""
        for wrong in (b"sned,0,1,61", b"check,0,6", b"# steps", b"ab,1", b"sent,0,0,0", b"check"):
            text = WORLD + b"check,0,31\n\n" + wrong + b"\ncheck,0,32\n"
            self.journal.write_bytes(text)
            with self.assertRaisesRegex(JournalError, "record 3: "):
                self.kept()
            self.assertEqual(self.journal.read_bytes(), text)

    def test_no_memory_for_journal(self) -> None:
        """A journal whose steps no longer find memory stays as it is."""
        text = WORLD + b"check,0,31\ncheck,0,32\nche"
        self.journal.write_bytes(text)
        with self.assertRaisesRegex(Fault, "0 OutOfMemory: check,0,32"):
            self.kept(command=odd("memory", 3))
        self.assertEqual(self.journal.read_bytes(), text)
        self.assertEqual(self.kept().replayed, 3)

    def test_service_ends(self) -> None:
        """A record that was kept and not answered is done once, when the journal is fed again."""
        service = self.kept(command=odd("ends", 3))
        service.check(0, b"1")
        self.assertRaises(ServiceEnded, service.check, 0, b"2")
        again = self.kept()
        self.assertEqual((again.replayed, self.last(again).value), (3, 2))
        self.assertEqual(again.check(0, b"3"), 3)


class TestForks(ServiceCase):
    """Children that are forked hold neither the journal nor the service."""

    def test_child(self) -> None:
        service = self.kept()
        ended, wait = os.pipe()
        child = os.fork()
        if not child:
            os.close(wait)
            works = isinstance(service._over, ServiceEnded) and service.close() == 0
            os.read(ended, 1)
            os._exit(0 if works else 1)
        os.close(ended)
        try:
            service.check(0)
            self.assertEqual(service.close(), 0)
            self.assertEqual(self.kept().replayed, 2)
        finally:
            os.close(wait)
            _, status = os.waitpid(child, 0)
        self.assertEqual(status, 0)

    def test_killed_parent(self) -> None:
        """The service and the lock go with the client, though its children live on."""
        program = (
            "import os, signal, sys; sys.path.insert(0, sys.argv[1]); import recline\n"
            "service = recline.Service(sys.argv[3:], processes=2, journal=sys.argv[2])\n"
            "service.check(0, b'1')\n"
            "if os.fork(): os.kill(os.getpid(), signal.SIGKILL)\n"
            "print('child', flush=True); sys.stdin.read()\n"
        )
        folder = str(pathlib.Path(recline.__file__).parent.parent)
        client = subprocess.Popen(
            [sys.executable, "-c", program, folder, str(self.journal), *SERVICE],
            stdin=subprocess.PIPE, stdout=subprocess.PIPE,
        )
        with client:
            assert client.stdout and client.stdin
            self.assertEqual(client.stdout.readline(), b"child\n")
            client.wait()
            self.assertEqual(self.kept().replayed, 2)
            client.stdin.close()


if __name__ == "__main__":
    unittest.main()
