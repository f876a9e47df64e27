"""Records that are sent ahead."""

import sys
import unittest

from serving import ServiceCase, odd

from recline import Fault, MessageName, Refused, ServiceEnded, Took

# A service that answers each record at once and in 60 bytes or so, for records by the ten thousand.
FAST = """
import sys
first = True
for line in sys.stdin.buffer:
    sys.stdout.buffer.write(b"\\n" if first else b"checked,0,%d\\n\\n" % len(line))
    first = False
"""


class TestTogether(ServiceCase):
    """Answers come at the end of the block, each to its record."""

    def test_values(self) -> None:
        service = self.opened()
        with service.together() as ahead:
            sent = ahead.send(0, 1, b"a")
            took = ahead.deliver(0, 1)
            checked = ahead.check(1, b"x")
            begun = ahead.begin(0)
            plan = ahead.recover([1])
            rounds, history, bundle = ahead.rounds(), ahead.history(), ahead.bundle([0])
            damage, bar = ahead.damage(1, 1), ahead.bar(1, 0)
            self.assertRaisesRegex(RuntimeError, "not answered yet", lambda: sent.value)
        self.assertEqual(sent.value, MessageName(0, 0, 0))
        self.assertEqual(took.value, Took(MessageName(0, 0, 0), None))
        self.assertEqual((checked.value, begun.value, damage.value), (1, (0, 1, 1), None))
        self.assertEqual((plan.value.line, rounds.value, bar.value), ((None, 1), (), None))
        self.assertEqual(history.value, service.history())
        self.assertIn("failed,0\n", bundle.value)
        self.assertEqual(ahead.not_done, [])

    def test_not_done(self) -> None:
        service = self.opened(command=odd("memory", 4))
        with service.together() as ahead:
            refused, done, faulty = ahead.turn(0), ahead.check(0), ahead.check(0)
            last = ahead.check(0)
        self.assertEqual((done.value, last.value), (1, 2))
        with self.assertRaises(Refused):
            refused.value
        with self.assertRaises(Fault):
            faulty.value
        self.assertEqual(ahead.not_done, [refused, faulty])
        self.assertEqual(refused.record, "turn,0,")
        told = "Refused(22, 'WrongMode', 'turn,0,')"
        self.assertEqual(repr(refused), f"<Answer to 'turn,0,': {told}>")
        self.assertEqual(repr(done), "<Answer to 'check,0,': 1>")

    def test_not_answered(self) -> None:
        with self.opened().together() as ahead:
            checked = ahead.check(0)
            self.assertEqual(repr(checked), "<Answer to 'check,0,': not answered yet>")

    def test_after_the_block(self) -> None:
        service = self.opened()
        with service.together() as ahead:
            pass
        self.assertRaises(RuntimeError, ahead.check, 0)
        self.assertRaises(ValueError, service.together().check, -1)
        self.assertEqual(service.check(0), 1)

    def test_error_in_block(self) -> None:
        """What was told before an error is sent and answered."""
        service = self.opened()
        with self.assertRaises(KeyError):
            with service.together() as ahead:
                checked = ahead.check(0)
                raise KeyError
        self.assertEqual((checked.value, service.check(0)), (1, 2))

    def test_calls_between(self) -> None:
        """A call within the block comes after what was sent ahead of it, and has all answered."""
        service = self.opened()
        with service.together() as ahead, service.together() as other:
            first, second = ahead.check(0), other.check(0)
            self.assertEqual((service.check(0), first.value, second.value), (3, 1, 2))
            fourth = other.check(0)
        self.assertEqual(fourth.value, 4)

    def test_many(self) -> None:
        """Far more than pipes hold, either way: a client that only wrote would wait for ever."""
        service = self.kept(command=[sys.executable, "-c", FAST])
        with service.together() as ahead:
            short = [ahead.check(0) for _ in range(100_000)]
            long = [ahead.check(0, bytes(4_096)) for _ in range(200)]
        self.assertEqual({it.value for it in short}, {len("check,0,\n")})
        self.assertEqual({it.value for it in long}, {len("check,0,\n") + 8_192})
        self.assertEqual(len(self.journal.read_bytes().splitlines()), 1 + 100_000 + 200)

    def test_long_answers(self) -> None:
        """Answers that are longer than a pipe holds, and a service that waits for its reader."""
        service = self.opened()
        for _ in range(20):
            service.check(0, bytes(4_000))
        with service.together() as ahead:
            histories = [ahead.history() for _ in range(20)]
        self.assertEqual({len(it.value) for it in histories}, {len(service.history())})
        self.assertGreater(len(histories[0].value), 160_000)

    def test_service_ends(self) -> None:
        service = self.opened(command=odd("ends", 3))
        with self.assertRaises(ServiceEnded) as raised:
            with service.together() as ahead:
                first, second = ahead.check(0), ahead.check(0)
        self.assertEqual((raised.exception.status, first.value), (3, 1))
        self.assertRaises(ServiceEnded, lambda: second.value)

    def test_not_sent(self) -> None:
        """What waits to be sent with others where the service ends is not sent."""
        service = self.kept()
        with service.together() as ahead:
            never = ahead.check(0)
            service._end()
        self.assertRaisesRegex(RuntimeError, "not sent", lambda: never.value)
        self.assertNotIn(b"check", self.journal.read_bytes())


if __name__ == "__main__":
    unittest.main()
