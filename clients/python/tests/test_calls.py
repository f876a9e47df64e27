"""Each call of the client, what it answers, what is refused, and what no record can hold."""

import os
import time
import unittest
from typing import Any
from unittest import mock

from serving import ServiceCase, answered, freeze, odd

from recline import (
    Begun, Channel, Fault, Marked, MessageName, Passed, Plan, Refused, Repeated, Replay, Round,
    ServiceEnded, Stale, Took, Turned,
)


class TestSteps(ServiceCase):
    """Steps over links that keep their order."""

    def test_message(self) -> None:
        service = self.opened()
        self.assertEqual((service.processes, service.links), (2, "fifo"))
        self.assertEqual(service.send(0, 1, b"a\x00\xff"), MessageName(0, 0, 0))
        self.assertEqual(service.send(sender=0, to=1), MessageName(0, 0, 1))
        self.assertEqual(service.deliver(0, 1), Took(MessageName(0, 0, 0), None))
        self.assertEqual(service.deliver(0, 1, state=b"x"), Took(MessageName(0, 0, 1), None))
        self.assertEqual(
            service.history(),
            "history,1,2\ntape,0,0\nsend,1,0,6100ff\nsend,1,0,\n"
            "tape,1,0\nrecv,0,0,0\nrecv,0,0,1\n",
        )
        self.assertEqual(service.close(), 0)
        self.assertEqual(service.close(), 0)

    def test_domino(self) -> None:
        """The example of README.md: both processes go back to their beginnings."""
        service = self.opened()
        service.send(0, 1, b"a")
        service.deliver(0, 1)
        self.assertEqual(service.check(1, b"\xb1"), 1)
        service.send(1, 0, b"b")
        service.deliver(1, 0)
        self.assertEqual(service.check(0, b"\xa1"), 1)
        service.send(0, 1, b"c")
        service.deliver(0, 1)
        self.assertEqual(service.check(1, b"\xb2"), 2)
        c, b, a = MessageName(0, 0, 1), MessageName(1, 0, 0), MessageName(0, 0, 0)
        certificate = (Passed(1, None, c), Passed(1, 2, c), Passed(0, 1, b), Passed(1, 1, a))
        self.assertEqual(
            service.recover([0]), Plan((0, 0), (b"", b""), (1, 1), certificate, (), 3)
        )

    def test_replay(self) -> None:
        """A process that stays, one that goes back to a state, and a message sent again."""
        service = self.opened()
        service.send(1, 0, b"m")
        service.check(0, b"\x00state")
        service.deliver(1, 0)
        plan = service.recover(failed=(0,))
        replay = Replay(MessageName(1, 0, 0), 0, b"m")
        self.assertEqual(
            plan, Plan((1, None), (b"\x00state", None), (1, 0), (), (replay,), 1)
        )
        self.assertEqual(service.deliver(1, 0), Took(MessageName(1, 0, 0), None))
        self.assertEqual(service.recover(), Plan((None, None), (None, None), (1, 0), (), (), 1))

    def test_marks_and_bars(self) -> None:
        service = self.opened()
        service.check(0, b"1")
        service.check(0, b"2")
        service.damage(0, 2)
        self.assertEqual(service.recover([0, 0]).line, (1, None))
        service.bar(0, 0)
        self.assertEqual(service.recover().line, (0, None))

    def test_bundle(self) -> None:
        service = self.opened()
        service.check(0, b"1")
        text = "history,1,2\ntape,0,0\ncheck,31,-\ntape,1,0\nfailed,0\nline,1,now\nend\n"
        self.assertEqual(service.bundle({0}), text)
        self.assertEqual(service.bundle(), text.replace(",0\nline,1", "\nline,now"))

    def test_markers(self) -> None:
        service = self.opened()
        service.send(1, 0, b"m")
        self.assertEqual(service.begin(0, b"s"), Begun(0, 1, 1))
        self.assertEqual(service.deliver(1, 0), Took(MessageName(1, 0, 0), None))
        self.assertEqual(service.deliver(0, 1, 0, b"t"), Marked(1, True))
        self.assertEqual(service.rounds(), ())
        self.assertEqual(service.deliver(1, 0), Marked(1, False))
        channel = Channel(1, 0, (MessageName(1, 0, 0),))
        self.assertEqual(service.rounds(), (Round(1, (1, 1), (channel,)),))

    def test_channels(self) -> None:
        """Several rounds, and channels of several messages, each with its own."""
        service = self.opened(processes=3)
        for number in (1, 2):
            sent = [service.send(a, b) for a, b in ((1, 0), (1, 0), (2, 0), (2, 1))]
            service.begin(0)
            for a, b in ((0, 1), (0, 2), (1, 0), (1, 0), (1, 0), (2, 0), (2, 0)):
                service.deliver(a, b)
            for a, b in ((1, 2), (2, 1), (2, 1)):
                service.deliver(a, b)
            channels = (
                Channel(1, 0, (sent[0], sent[1])), Channel(2, 0, (sent[2],)),
                Channel(2, 1, (sent[3],)),
            )
            round_ = Round(number, (number, number, number), channels)
            self.assertEqual(service.rounds()[number - 1:], (round_,))

    def test_many_processes(self) -> None:
        service = self.opened(processes=256)
        self.assertEqual(service.send(255, 0), MessageName(255, 0, 0))
        self.assertEqual(service.deliver(255, 0), Took(MessageName(255, 0, 0), None))
        plan = service.recover(range(256))
        self.assertEqual((len(plan.line), len(plan.states)), (256, 256))
        self.assertEqual(set(plan.incarnations), {1})
        self.assertTrue(service.history().startswith("history,2,256\n"))

    def test_sizes(self) -> None:
        service = self.opened()
        service.send(0, 1, bytes(64))
        self.refuses(2, "BodyTooLong", service.send, 0, 1, bytes(65))
        service.check(0, bytes(range(256)) * 16)
        self.refuses(5, "StateTooLong", service.check, 0, bytes(4_097))
        self.assertEqual(service.recover([0]).states[0], bytes(range(256)) * 16)


class TestUnordered(ServiceCase):
    """Steps over links that keep no order."""

    def test_copies(self) -> None:
        service = self.opened(links="unordered")
        first, second = service.send(0, 1), service.send(0, 1)
        self.assertEqual(service.deliver(0, 1, pick=1), Took(second, None))
        self.assertEqual(service.deliver(0, 1, 1), Repeated(second))
        service.recover([0])
        self.assertEqual(service.deliver(0, 1, 0), Stale(first))

    def test_colours(self) -> None:
        service = self.opened(links="unordered")
        self.assertEqual(service.begin(0, b"s"), Begun(0, 1, 1))
        name = service.send(0, 1)
        self.assertEqual(service.deliver(0, 1, 0, b"t"), Took(name, 1))
        self.assertEqual(service.begin(1), Begun(1, 2, 2))
        self.assertEqual(service.turn(0, b"u"), Turned(0, 2, 2))
        self.assertEqual(service.rounds(), (Round(1, (1, 1), ()), Round(2, (2, 2), ())))


class TestRefusals(ServiceCase):
    """Each refusal that calls in few steps can have, and that it changes nothing."""

    def test_fifo(self) -> None:
        service = self.opened()
        service.check(0)
        service.damage(0, 1)
        service.bar(0, 1)
        service.begin(0)
        before = service.history()
        refusals: list[tuple[Any, ...]] = [
            (1, "NoSuchProcess", service.send, 2, 0),
            (17, "ToSelf", service.send, 1, 1),
            (17, "ToSelf", service.deliver, 1, 1),
            (18, "LinkEmpty", service.deliver, 1, 0),
            (19, "BadPick", service.deliver, 0, 1, 2**64 - 1),
            (22, "WrongMode", service.turn, 0),
            (20, "RoundOpen", service.begin, 1),
            (7, "InitialDamage", service.damage, 0, 0),
            (4, "NoSuchCheck", service.damage, 0, 2**32 - 1),
            (8, "AlreadyDamaged", service.damage, 0, 1),
            (40, "BarNotLower", service.bar, 0, 1),
            (1, "NoSuchProcess", service.recover, [0, 2]),
            (1, "NoSuchProcess", service.bundle, [2]),
        ]
        for code, name, call, *words in refusals:
            self.refuses(code, name, call, *words)
        self.assertEqual(service.history(), before)
        self.assertEqual(service.close(), 1)

    def test_unordered(self) -> None:
        service = self.opened(links="unordered")
        self.refuses(21, "NothingToTurn", service.turn, 0)
        self.refuses(18, "LinkEmpty", service.deliver, 0, 1)

    def test_what_is_told(self) -> None:
        with self.assertRaisesRegex(Refused, "^17 ToSelf: send,0,0,61$") as raised:
            self.opened().send(0, 0, b"a")
        self.assertEqual(raised.exception.record, "send,0,0,61")


class TestValues(ServiceCase):
    """What no record can hold is not sent."""

    def test_numbers(self) -> None:
        service = self.kept()
        before = self.journal.read_text()
        for wrong in (-1, 2**32):
            self.assertRaises(ValueError, service.check, wrong)
            self.assertRaises(ValueError, service.begin, wrong)
            self.assertRaises(ValueError, service.turn, wrong)
            self.assertRaises(ValueError, service.send, 0, wrong)
            self.assertRaises(ValueError, service.bar, 0, wrong)
            self.assertRaises(ValueError, service.recover, [0, wrong])
        self.assertRaises(ValueError, service.deliver, 0, 1, 2**64)
        self.assertRaises(ValueError, service.check, 0, bytes(40_000))
        for wrong_type in (1.0, "1", None, b"1"):
            self.assertRaises(TypeError, service.check, wrong_type)
            self.assertRaises(TypeError, service.recover, [wrong_type])
        for no_bytes in ("a", 5, None, [1]):
            self.assertRaises(TypeError, service.check, 0, no_bytes)
        self.assertEqual(self.journal.read_text(), before)
        self.assertEqual(service.check(0, bytearray(b"a")), 1)
        self.assertEqual(service.check(0, memoryview(b"a")), 2)

    def test_worlds(self) -> None:
        for processes in (0, -1, 257):
            self.assertRaises(ValueError, self.opened, processes)
        self.assertRaises(ValueError, self.opened, 2, "lifo")
        self.assertRaises(TypeError, self.opened, 2.0)
        self.assertEqual(self.opened(processes=1).check(0), 1)

    def test_no_command(self) -> None:
        for words in ("./recline serve", b"recline"):
            with self.assertRaisesRegex(TypeError, "a command is a list of words"):
                self.opened(command=words)  # type: ignore[arg-type]
        self.assertRaises(FileNotFoundError, self.opened, command=["/no/such/program"])


class TestEnds(ServiceCase):
    """Faults, and services that end."""

    def test_out_of_memory(self) -> None:
        service = self.opened(command=odd("memory", 3))
        service.check(0, b"1")
        with self.assertRaisesRegex(Fault, "^0 OutOfMemory: check,0,32$") as raised:
            service.check(0, b"2")
        self.assertEqual((raised.exception.code, raised.exception.name), (0, "OutOfMemory"))
        self.assertEqual(service.check(0, b"3"), 2)

    def test_bad_record(self) -> None:
        """A fault of the record, which no call of the client makes."""
        service = self.kept()
        with self.assertRaises(Fault) as raised:
            service._done(service._calls._tell(str, "sned", "0"))
        self.assertEqual((raised.exception.code, raised.exception.name), (32, "BadRecord"))
        self.assertEqual(service.check(0), 1)
        self.assertEqual(service.close(), 2)
        self.assertEqual(self.journal.read_text(), "world,1,2,fifo\ncheck,0,\n")

    def test_service_ends(self) -> None:
        service = self.opened(command=odd("ends", 3))
        service.check(0)
        with self.assertRaisesRegex(ServiceEnded, "status 3: recline: record 0: 37") as raised:
            service.check(0)
        self.assertEqual(raised.exception.status, 3)
        self.assertEqual(raised.exception.said, "recline: record 0: 37 WriteFault\n")
        self.assertRaises(ServiceEnded, service.check, 0)
        self.assertEqual(service.close(), 3)

    def test_service_is_deaf(self) -> None:
        service = self.opened(command=odd("deaf", 2))
        self.assertRaises(ServiceEnded, service.check, 0)
        self.assertRaises(ServiceEnded, service.check, 0)
        self.assertEqual(service.close(), 3)

    def test_no_answer(self) -> None:
        """What answers otherwise than a service is not gone on with."""
        for record in (1, 2):
            with self.assertRaisesRegex(ServiceEnded, "no answer is 'one,two'"):
                self.opened(command=odd("garbles", record)).check(0)
        with self.assertRaises(ServiceEnded) as raised:
            self.opened(command=["sh", "-c", "echo no >&2; exit 7"])
        self.assertEqual((raised.exception.status, raised.exception.said), (7, "no\n"))

    def test_after_close(self) -> None:
        with self.opened() as service:
            service.check(0)
        self.assertRaises(ServiceEnded, service.check, 0)
        self.assertEqual(service.close(), 0)

    def test_error_in_block(self) -> None:
        with self.assertRaises(KeyError):
            with self.opened() as service:
                raise KeyError
        self.assertRaises(ServiceEnded, service.check, 0)

    def test_interrupt(self) -> None:
        """An exception in the midst of a call ends the service: it would be out of step."""
        service = self.opened()

        def interrupted() -> None:
            raise KeyboardInterrupt

        with mock.patch.object(service, "_read", interrupted):
            self.assertRaises(KeyboardInterrupt, service.check, 0)
        with self.assertRaisesRegex(ServiceEnded, "by its client: KeyboardInterrupt") as raised:
            service.check(0)
        self.assertIsInstance(raised.exception.__cause__, KeyboardInterrupt)

    def test_stopped_service(self) -> None:
        """An interrupt comes out at once, though the service does nothing."""
        service = self.opened()
        freeze(service.pid)

        def interrupt() -> None:
            raise TimeoutError

        self.alarm(interrupt)
        started = time.monotonic()
        self.assertRaises(TimeoutError, service.check, 0)
        self.assertLess(time.monotonic() - started, 5)


class TestModel(ServiceCase):
    """The tests' own model."""

    def test_answers(self) -> None:
        text = b"world,1,2,fifo\nsend,0,1,61\nsend,0,0,61\n"
        self.assertEqual(answered(text), "\nsent,0,0,0\n\nrefused,17,ToSelf\n\n")


if __name__ == "__main__":
    unittest.main()
