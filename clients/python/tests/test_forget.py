"""What is let go: floors, refusals, and that later answers are as if nothing had been."""

import asyncio
import unittest

from serving import SERVICE, ServiceCase

import recline
from recline import (
    Floor, Marked, MessageName, Passed, Plan, Received, Replay, Sent, Service, Took,
)


def complete(service: Service) -> int:
    """Has two processes complete a round, and answers its number."""
    number = service.begin(0, b"r").round
    service.deliver(0, 1, state=b"s")
    while not isinstance(service.deliver(1, 0), Marked):
        pass
    return number


class TestForget(ServiceCase):
    """`forget`, of a round and of the line where every process fails."""

    def talked(self) -> Service:
        """Process 0 has sent 3 messages, of which 2 are received before its round 1 is complete."""
        service = self.kept()
        for body in (b"a", b"b"):
            service.send(0, 1, body)
            service.deliver(0, 1)
        service.check(1, b"c")
        self.assertEqual(complete(service), 1)
        service.send(0, 1, b"d")
        return service

    def test_round(self) -> None:
        service = self.talked()
        self.assertEqual(service.history().floors, ())
        floors = (Floor(1, 2), Floor(2, 0))
        self.assertEqual(service.forget(1), floors)
        self.assertEqual(service.forget(round=1), floors)
        name = MessageName(0, 0, 2)
        self.assertEqual(service.deliver(0, 1), Took(name, None))
        self.assertEqual(service.check(1), 3)
        certificate = (Passed(1, None, name), Passed(1, 3, name))
        plan = Plan((1, 2), (b"r", b"s"), (1, 1), certificate, (), 2)
        self.assertEqual(service.plan(0), plan)
        history = service.history()
        self.assertTrue(history.startswith("history,4,2\nfloor,0,1,2\nfloor,1,2,0\ntape,0,0\n"))
        self.assertEqual((history.floors, history.tapes[1].floor), (floors, floors[1]))
        self.assertEqual(list(history.tapes[0].messages(0)), [(name, Sent(1, 0, b"d"))])
        self.assertEqual(history.tapes[1].events[1], Received(name))
        answer = service.answer(0)
        self.assertEqual((answer.line, answer.certificate), (plan.line, plan.certificate))
        self.assertEqual([it.number for it in service.rounds()], [1])
        self.refuses(7, "InitialDamage", service.damage, 1, 2)
        self.refuses(4, "NoSuchCheck", service.bar, 1, 1)
        self.assertEqual(service.recover(0).line, plan.line)

    def test_replays(self) -> None:
        """The bodies of replays are found in what is kept."""
        service = self.talked()
        service.check(0, b"e")
        service.forget(1)
        replay = Replay(MessageName(0, 0, 2), 1, b"d")
        self.assertEqual(service.recover([0, 1]).replays, (replay,))
        with service.together() as ahead:
            floors, plan = ahead.forget(), ahead.plan(1)
        self.assertEqual(floors.value, (Floor(2, 2), Floor(2, 0)))
        self.assertEqual(plan.value.replays, (replay,))

    def test_live(self) -> None:
        """Without a round: before the line where every process fails."""
        service = self.opened()
        self.assertEqual(service.forget(), (Floor(0, 0), Floor(0, 0)))
        service.send(0, 1, b"m")
        service.deliver(0, 1)
        service.check(0, b"a")
        self.assertEqual(service.forget(), (Floor(1, 0), Floor(0, 0)))
        service.check(1, b"b")
        self.assertEqual(service.live().line, (1, 1))
        self.assertEqual(service.forget(), (Floor(1, 1), Floor(1, 0)))
        self.assertEqual(service.send(0, 1), MessageName(0, 0, 1))
        self.assertEqual(service.obsolete(), (range(1, 1), range(1, 1)))

    def test_refusals(self) -> None:
        service = self.talked()
        self.refuses(48, "NoSuchRound", service.forget, 2)
        service.begin(0)
        self.refuses(20, "RoundOpen", service.forget)
        self.refuses(20, "RoundOpen", service.forget, 1)
        service = self.opened()
        complete(service)
        service.damage(1, 1)
        self.refuses(49, "RoundLost", service.forget, 1)
        self.assertEqual(service.forget(), (Floor(1, 0), Floor(0, 0)))
        service = self.opened(links="unordered")
        self.refuses(22, "WrongMode", service.forget)

    def test_values(self) -> None:
        service = self.opened()
        for wrong in (0, -1, 65_536):
            self.assertRaises(ValueError, service.forget, wrong)
        for wrong_type in ("1", 1.0, [1]):
            self.assertRaises(TypeError, service.forget, wrong_type)

    def test_journal(self) -> None:
        """It is a step, which is fed again."""
        service = self.talked()
        floors = service.forget(1)
        history = service.history()
        counted = service.counted
        service.close()
        again = self.kept()
        self.assertEqual((again.replayed, again.history()), (counted, history))
        self.assertEqual((self.last(again).record, self.last(again).value), ("forget,1", floors))

    def test_async(self) -> None:
        async def talk() -> tuple[Floor, ...]:
            async with recline.AsyncService(SERVICE, processes=2) as service:
                await service.check(0, b"a")
                return await service.forget()

        self.assertEqual(asyncio.run(talk()), (Floor(1, 0), Floor(0, 0)))


if __name__ == "__main__":
    unittest.main()
