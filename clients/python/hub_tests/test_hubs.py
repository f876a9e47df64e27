"""A hub: what it keeps, whom it refuses, and recoveries by it."""

import asyncio
import json
import logging
import os
import pathlib
import signal
import socket
import stat
import subprocess
import sys
import threading
import time
import unittest
from collections.abc import Callable

from hubs import CLIENT, ENVIRONMENT, SECONDS, HubTest, collect, freeze

from recline_report import (
    AsyncReporter, Floor, Hub, HubError, MessageName, NoteRefused, Reporter, TakenAsFailed,
    WentBack,
)

LIFE = "0" * 32


class TestKeeping(HubTest):
    """What reporters say and a hub keeps."""

    def test_notes_and_answers(self) -> None:
        """The journal is an input of the service; status and plans are told in words and JSON."""
        self.start(2)
        with self.reporter(0, 2) as zero, self.reporter(1, 2) as one:
            one.received(zero.send(1, b"a"))
            one.check(b"state")
            zero.send(1)
            zero.flush()
            one.flush()
            self.assertEqual([it["kept"] for it in self.hub.status()["processes"]], [2, 2])
            plan = self.hub.plan([1])
            self.assertEqual((plan.line, plan.states), ((None, 1), (None, b"state")))
            self.assertEqual(plan.replays, (MessageName(0, 0, 1),))
            self.assertEqual(self.hub.live().line, (0, 0))
            told = self.ask("plan", "--failed", "1", "--hub", self.address).stdout
            self.assertIn("process 1 would go back to its check 1, 'state'", told)
            told = self.ask("live", "--hub", self.address, "--json").stdout
            self.assertEqual(json.loads(told)["line"], [0, 0])
            self.assertIn("process 0 reports; 2 notes kept",
                          self.ask("status", "--hub", self.address).stdout)
            with self.assertRaises(HubError):
                self.hub.plan([2])
        self.assertEqual(self.ask("plan", "--failed", "2", "--hub", self.address).returncode, 1)
        answers = collect("\n".join(self.lines()) + "\n")
        self.assertFalse([it for it in answers.split("\n\n") if it.startswith(("refu", "fault"))])
        self.assertEqual(sorted(self.lines()[1:]), [
            "check,1,0,7374617465,-", "recv,1,0,0,0,0", "send,0,0,1,", "send,0,0,1,61"])
        self.wait_for_states("ended", "ended")

    def test_killed_hub_and_torn_journal(self) -> None:
        """A hub that was killed goes on, and each note is there once."""
        self.start(1)
        with self.reporter(0, 1) as reporter:
            for _ in range(3):
                for _ in range(50):
                    reporter.check()
                self.stop()
                with open(self.journal, "ab") as file:
                    file.write(b"check,0,0")
                for _ in range(50):
                    reporter.check()
                self.start(1)
            reporter.flush(SECONDS)
        self.assertEqual(len(self.lines()), 301)

    def test_another_hub(self) -> None:
        """A journal and a socket have one hub; a journal of others is refused and stays."""
        self.start(2)
        second = self.ask("--listen", self.address + "2", "--processes", "2", "--journal",
                          self.journal)
        self.assertEqual((second.returncode, "another hub" in second.stderr), (2, True))
        third = self.ask("--listen", self.address, "--processes", "2", "--journal",
                         self.journal + "2")
        self.assertEqual((third.returncode, "another hub" in third.stderr), (3, True))
        self.stop()
        fourth = self.ask("--listen", self.address, "--processes", "3", "--journal", self.journal)
        self.assertEqual(fourth.returncode, 2)
        self.assertEqual(self.lines(), ["reports,1,2"])
        mode = stat.S_IMODE(os.stat(f"{self.folder}/hub").st_mode)
        self.assertEqual(mode, 0o600)

    def test_no_room(self) -> None:
        """Where the room is full calls wait, which is said once."""
        pid = self.start(1)
        with self.reporter(0, 1, room=2_000) as reporter:
            freeze(pid)
            done = threading.Event()

            def work() -> None:
                for _ in range(2_000):
                    reporter.check(bytes(200))
                done.set()

            with self.assertLogs("recline_report", logging.WARNING) as said:
                threading.Thread(target=work).start()
                self.assertFalse(done.wait(0.5))
                os.kill(pid, signal.SIGCONT)
                self.assertTrue(done.wait(SECONDS))
            self.assertEqual(len(said.output), 1)
        self.assertEqual(len(self.lines()), 2_001)

    def test_a_note_is_refused(self) -> None:
        """A receipt of what nobody sent is told to who reported it."""
        self.start(2)
        with self.reporter(0, 2) as zero, self.reporter(1, 2) as one:
            zero.send(1)
            zero.flush()
            one.received(MessageName(0, 7, 0))
            self.raised(NoteRefused, one.flush)
            one.flush()

    def test_asyncio(self) -> None:
        """The same calls, awaited."""
        self.start(2)

        async def work() -> None:
            async with await AsyncReporter.open(0, 2, self.address) as zero:
                async with await AsyncReporter.open(1, 2, self.address) as one:
                    self.assertTrue(await one.received(await zero.send(1, b"a")))
                    self.assertEqual(await one.check(b"s"), 1)
                    await zero.check(b"t")
                    await zero.flush()
                    asking = asyncio.to_thread(self.hub.recover, [], SECONDS)
                    plan, recovery, _ = await asyncio.gather(
                        asking, zero.wait_recovery(), one.wait_recovery()
                    )
                    self.assertEqual(plan.line, (None, None))
                    assert recovery
                    self.assertEqual((recovery.choice, recovery.number), (None, 1))
                    self.assertIsNone(await one.wait_recovery(0.01))
                    await one.check(b"u")

        asyncio.run(work())
        self.assertEqual(len(self.lines()), 7)


class TestForget(HubTest):
    """What no recovery needs any more is let go."""

    def work(self, turns: int) -> None:
        """Two processes send to each other and take checks; all but the last message comes."""
        for _ in range(turns):
            self.one.received(self.zero.send(1, b"a"))
            self.zero.received(self.one.send(0, b"b"))
            self.zero.check(b"zero")
            self.one.check(b"one")
        self.last = self.zero.send(1, b"last")
        self.zero.flush()
        self.one.flush()

    def begin(self, *words: str) -> None:
        """A hub, and the two processes."""
        self.start(2, *words)
        self.zero, self.one = self.reporter(0, 2), self.reporter(1, 2)

    def test_names_stay(self) -> None:
        """Names, numbers and recoveries are as if nothing had been let go."""
        self.begin()
        self.assertEqual(self.hub.forget(), (Floor(0, 0), Floor(0, 0)))
        self.work(3)
        self.assertEqual(self.hub.forget(), (Floor(3, 3), Floor(3, 3)))
        told = self.ask("forget", "--hub", self.address).stdout
        self.assertIn("process 1 begins with its check 3; 3 messages let go", told)
        told = self.ask("forget", "--hub", self.address, "--json").stdout
        self.assertEqual(json.loads(told)["floors"], [{"check": 3, "sends": 3}] * 2)
        self.assertEqual(self.last, MessageName(0, 0, 3))
        self.assertEqual(self.hub.plan([1]).replays, (self.last,))
        self.assertEqual(self.hub.live().line, (3, 3))
        self.assertEqual(self.zero.check(), 4)
        self.zero.flush()
        plan = self.hub.recover([1], SECONDS)
        self.assertEqual((plan.line, plan.replays), ((None, 3), (self.last,)))
        stays = self.zero.wait_recovery(SECONDS)
        assert stays
        self.assertEqual([(it.name, it.to, it.body) for it in stays.resend],
                         [(self.last, 1, b"last")])
        self.assertEqual((stays.sends, stays.checks, stays.sent), (4, 4, (4, 3)))
        again = self.reporter(1, 2)
        self.assertEqual((again.start.choice, again.start.state), (3, b"one"))
        self.assertFalse(again.received(MessageName(0, 0, 2)))
        self.assertTrue(again.received(self.last))
        self.assertEqual(again.send(0), MessageName(1, 2, 3))
        self.assertEqual(again.check(), 4)
        again.flush()

    def test_killed_hub_and_service(self) -> None:
        """Who is started again lets go the same, and goes on."""
        self.begin()
        self.work(5)
        self.hub.forget()
        os.kill(self.hub.status()["service"]["pid"], signal.SIGKILL)
        self.work(2)
        self.assertEqual(self.hub.forget(), (Floor(7, 5), Floor(7, 7)))
        self.stop()
        self.start(2)
        self.assertEqual(self.hub.live().line, (7, 7))
        self.work(1)
        self.assertEqual(self.lines().count("forget"), 2)
        answers = collect("\n".join(self.lines()) + "\n").split("\n\n")
        self.assertFalse([it for it in answers if it.startswith(("refused", "fault"))])

    def test_after_so_many_notes(self) -> None:
        """The hub itself lets go after so many notes."""
        self.begin("--forget-every", "20")
        for _ in range(12):
            self.work(2)
        self.assertGreater(self.lines().count("forget"), 2)
        words = ["--processes", "2", "--journal", self.journal, "--listen", self.address]
        self.assertEqual(self.ask(*words, "--forget-every", "0").returncode, 2)


class TestPeers(HubTest):
    """Who is refused, and the others go on."""

    def check_that_it_goes_on(self) -> None:
        """Reports, and has it kept."""
        before = len(self.lines())
        self.one.check()
        self.one.flush(SECONDS)
        self.assertEqual(len(self.lines()), before + 1)

    def test_bad_peers(self) -> None:
        """Each gets an answer or an end."""
        self.start(3)
        self.one = self.reporter(1, 3)
        hello = b"report,2,3," + LIFE.encode() + b",-,aa,-\n"
        for sent, wanted in (
            (b"", None), (b"\n", "a hub is asked"), (b"GET / HTTP/1.1\r\n", "a hub is asked"),
            (b"report,2", None), (b"\x00" * 100, None), (b"\xff\xfe\n", None),
            (b"a" * 70_000 + b"\n", "a line of 70001 bytes"), (b"a" * 600_000, None),
            (hello.replace(b"2,3", b"2,4"), "there are 3 processes"),
            (hello.replace(b"2,3", b"3,3"), "there is no process 3"),
            (hello.replace(b"2,3", b"1,3"), "reports already"),
            (hello.replace(b",-,aa", b",0,aa"), "counts as failed"),
            (hello.replace(b",-,aa", b",9,aa"), "this journal does not have"),
            (hello.replace(LIFE.encode(), b"a;b"), "no life is called so"),
            (hello + b"what,1\n", "no reporter says"),
            (hello + b"notes,0,17\nsend,1,0,2,616161\n", "not all notes of process 2"),
            (hello + b"notes,0,12\ncheck,2,0,-\n", "not all notes of process 2"),
            (hello + b"notes,0,13\ncheck,2,1,,-\n", "not all notes of process 2"),
            (hello + b"notes,0,9\nrecover,2\n", None),
            (hello + b"notes,0,10\nrecover,2\n", "not all notes of process 2"),
            (hello + b"notes,0,14\ncheck,2,0,6,-\n", "not all notes of process 2"),
            (hello + b"notes,0,9999999\n", "9999999 bytes of notes"),
            (hello + b"notes,0,100\ncheck,2,0,,-\n", None),
            (b"ask,aa,-,quit\n", "a hub is asked for"), (b"ask,aa,-,recover,x\n", "are numbers"),
            (b"ask,aa,-,plan,7\n", "there is no process 7"),
            (b"ask,aa,-,forget,1\n", "a hub is asked for"),
            (hello + b"notes,5,13\ncheck,2,0,,-\n", "process 2 counts as failed"),
        ):
            with self.subTest(sent[:60]):
                heard = self.peer(sent).decode()
                self.assertTrue(heard.startswith("recline_hub,1,"))
                if wanted:
                    self.assertIn(wanted, heard)
        self.check_that_it_goes_on()
        self.assertEqual([line for line in self.lines()[1:] if ",2," in line], [])

    def test_flood(self) -> None:
        """Connections beyond the limit are refused, and the others go on."""
        self.start(2)
        self.one = self.reporter(1, 2)
        made = []
        for _ in range(300):
            one = socket.socket(socket.AF_UNIX, socket.SOCK_STREAM)
            one.settimeout(SECONDS)
            try:
                one.connect(f"{self.folder}/hub")
            except (BlockingIOError, TimeoutError):
                one.close()
                break
            made.append(one)
        heard = [one.recv(200) for one in made]
        self.assertTrue(any(b"too many connections" in it for it in heard))
        self.check_that_it_goes_on()
        for one in made:
            one.close()

    def test_one_who_does_not_read(self) -> None:
        """Who asks and does not read holds nobody up."""
        self.start(2)
        self.one = self.reporter(1, 2)
        with socket.socket(socket.AF_UNIX, socket.SOCK_STREAM) as made:
            made.connect(f"{self.folder}/hub")
            made.sendall(b"report,0,2," + LIFE.encode() + b",-,aa,-\n")
            with self.assertRaises(OSError):
                for _ in range(100_000):
                    made.sendall(b"notes,0,13\ncheck,0,0,,-\n" * 1_000)
        self.check_that_it_goes_on()

    def test_tcp(self) -> None:
        """Over TCP only who has the token, and the hub proves that it has it too."""
        token, other = f"{self.folder}/token", f"{self.folder}/other"
        for path, text in ((token, "a" * 32), (other, "b" * 32)):
            pathlib.Path(path).write_text(text)
            os.chmod(path, 0o600)
        with socket.socket() as made:
            made.bind(("127.0.0.1", 0))
            port = made.getsockname()[1]
        address = f"tcp:127.0.0.1:{port}"
        run = ["--processes", "2", "--journal", self.journal]
        for words, status in (
            (["--listen", address], 2),
            (["--listen", f"tcp:0.0.0.0:{port}", "--token", token], 2),
            (["--listen", "tcp:x", "--token", token], 2),
        ):
            self.assertEqual(self.ask(*words, *run).returncode, status)
        self.start(2, "--listen", address, "--token", token, is_waited_for=False)
        self.hub = Hub(address, token)
        self.wait_until_ready()
        with Reporter(0, 2, address, token=token) as reporter:
            reporter.send(1)
        self.assertEqual(self.lines()[1:], ["send,0,0,1,"])
        for bad in (None, other):
            with self.assertRaises(HubError):
                Hub(address, bad).status()
            with self.assertRaises(HubError):
                Reporter(1, 2, address, token=bad, timeout=SECONDS)
        os.chmod(token, 0o644)
        with self.assertRaises(PermissionError):
            Hub(address, token)


class TestRecoveries(HubTest):
    """Recoveries by the hub."""

    def test_who_stays_and_who_goes_back(self) -> None:
        """Each is told where it goes on, and what it sends again; what was cut is not taken."""
        self.start(3)
        zero, one = self.reporter(0, 3), self.reporter(1, 3)
        two = self.reporter(2, 3)
        one.received(zero.send(1, b"a"))
        one.check(b"one")
        kept = zero.send(1, b"b")          # in transit at the line
        old = one.send(2, b"c")            # cut
        two.check(b"two")
        two.received(old)
        for reporter in (zero, one, two):
            reporter.flush()
        plan = self.hub.recover([1], SECONDS)
        self.assertEqual(plan.line, (None, 1, 1))
        stays, back = zero.wait_recovery(SECONDS), two.wait_recovery(SECONDS)
        assert stays and back
        self.assertEqual([(it.name, it.to, it.body) for it in stays.resend], [(kept, 1, b"b")])
        self.assertEqual((stays.choice, stays.state), (None, None))
        self.assertEqual((back.choice, back.state, back.incarnation), (1, b"two", 1))
        self.assertFalse(two.received(old))
        self.raised(TakenAsFailed, one.check)
        again = self.reporter(1, 3)
        self.assertEqual((again.start.choice, again.start.state), (1, b"one"))
        self.assertEqual([it.name for it in again.start.awaited], [kept])
        self.assertTrue(again.received(kept))
        self.assertFalse(again.received(kept))
        name = again.send(2, b"d")
        self.assertEqual(name, MessageName(1, 2, 0))
        self.assertTrue(two.received(name))
        for reporter in (zero, again, two):
            reporter.flush()
        answers = collect("\n".join(self.lines()) + "\n").split("\n\n")
        self.assertFalse([it for it in answers if it.startswith(("refused", "fault"))])

    def test_calls_raise_until_it_is_taken(self) -> None:
        """A process that goes back has to take its record first."""
        self.start(2)
        zero, one = self.reporter(0, 2), self.reporter(1, 2)
        one.received(zero.send(1))
        one.flush()
        self.hub.recover([0], SECONDS)
        calls: list[Callable[[], object]] = [one.check, lambda: one.send(0), one.flush]
        for call in calls:
            raised = self.raised(WentBack, call)
        self.assertEqual(raised.recovery.choice, 0)
        self.assertEqual(one.take_recovery(), raised.recovery)
        self.assertEqual(one.check(), 1)

    def test_silent_process(self) -> None:
        """Who does not hold in time counts as failed."""
        self.start(2)
        words = [sys.executable, "-c", "import sys, time\nfrom recline_report import Reporter\n"
                 f"it = Reporter(1, 2, {self.address!r})\nit.check(b'x')\nit.flush()\n"
                 "print('on', flush=True)\ntime.sleep(600)"]
        other = subprocess.Popen(words, env=ENVIRONMENT, stdout=subprocess.PIPE, cwd=CLIENT)
        self.addCleanup(other.wait)
        self.addCleanup(other.kill)
        assert other.stdout
        self.addCleanup(other.stdout.close)
        other.stdout.readline()
        zero = self.reporter(0, 2)
        zero.check()
        freeze(other.pid)
        start = time.monotonic()
        plan = self.hub.recover([], within=5)
        self.assertLess(time.monotonic() - start, SECONDS / 2)
        self.assertEqual(plan.line, (None, 1))
        zero.check()
        zero.flush()
        other.kill()
        again = self.reporter(1, 2)
        self.assertEqual((again.start.choice, again.start.state), (1, b"x"))

    def test_ended_process(self) -> None:
        """Who has ended and would have to send again is started again; else it has ended."""
        self.start(3)
        zero, one, two = (self.reporter(p, 3) for p in range(3))
        zero.check(b"zero")
        zero.send(1)
        for reporter in (zero, two):
            reporter.close()
        one.check(b"one")
        one.flush()
        self.wait_for_states("ended", "reports", "ended")
        self.assertEqual(self.hub.recover([1], SECONDS).line, (1, 1, None))
        self.wait_for_states("awaited", "awaited", "ended")
        again = self.reporter(0, 3)
        self.assertEqual((again.start.state, again.start.resend), (b"zero", ()))

    def test_command_line(self) -> None:
        """The command line recovers too, and says what came of it."""
        self.start(2)
        zero, one = self.reporter(0, 2), self.reporter(1, 2)
        one.check(b"at 17")
        zero.send(1)
        ran = self.ask("recover", "--failed", "1", "--within", "30", "--hub", self.address)
        self.assertEqual(ran.returncode, 0)
        self.assertIn("process 0 stays as it is", ran.stdout)
        self.assertIn("process 1 goes back to its check 1, 'at 17'", ran.stdout)
        self.assertIn("1 message in transit", ran.stdout)

    def test_journal_of_files(self) -> None:
        """A hub takes a journal that was made of files, and nobody who reports is known."""
        files = [f"{self.folder}/rank{p}" for p in range(2)]
        with Reporter(0, 2, files[0]) as zero, Reporter(1, 2, files[1]) as one:
            zero.check(b"zero")
            one.received(zero.send(1))
            one.check(b"one")
        merging = [sys.executable, "-m", "recline_report", *files]
        with open(self.journal, "wb") as journal:
            subprocess.run(merging, env=ENVIRONMENT, stdout=journal, check=True)
        self.assertEqual(subprocess.run(
            [*merging, self.journal], env=ENVIRONMENT, stdout=subprocess.DEVNULL, check=False
        ).returncode, 0)
        self.start(2)
        with self.assertRaises(ValueError):
            Reporter(0, 2, self.address, start=zero.start)
        back = self.reporter(0, 2).start
        self.assertEqual((back.choice, back.state), (1, b"zero"))
        self.assertEqual(self.reporter(1, 2).start.choice, 0)

    def test_automatic(self) -> None:
        """With --auto a process that was started again is recovered at once."""
        self.start(2, "--auto")
        zero, one = self.reporter(0, 2), self.reporter(1, 2)
        zero.check(b"zero")
        zero.flush()
        one.received(zero.send(1))
        one.flush()
        zero.__exit__(OSError)
        again = self.reporter(0, 2)
        self.assertEqual((again.start.choice, again.start.incarnation), (1, 1))
        back = one.wait_recovery(SECONDS)
        assert back
        self.assertEqual(back.choice, 0)


if __name__ == "__main__":
    unittest.main()
