"""Plans that change nothing, what may be deleted, and histories and claims as values."""

import subprocess
import unittest

from serving import SERVICE, ServiceCase, answered, odd

from recline import (
    Checked, Claim, Floor, History, MarkerCame, MessageName, Passed, Plan, Received, Refused,
    Replay, ReplaysMissing, Sent, Service, Start, Tape, Took,
)
from recline.records import with_bodies


class TestPlans(ServiceCase):
    """`plan`, `live`, `obsolete` and `answer`."""

    def talked(self) -> Service:
        """Process 0 has sent a message before its check 2, which process 1 received after its 1."""
        service = self.kept()
        service.check(0, b"a")
        service.send(0, 1, b"m")
        service.check(0, b"b")
        service.check(1, b"c")
        service.deliver(0, 1)
        return service

    def test_plan(self) -> None:
        """What a recovery would answer, and nothing has changed; then the recovery answers it."""
        service = self.talked()
        before = service.history()
        replay = Replay(MessageName(0, 0, 0), 1, b"m")
        wanted = Plan((None, 1), (None, b"c"), (0, 1), (), (replay,), 1)
        self.assertEqual(service.plan(1), wanted)
        self.assertEqual(service.plan([1]), wanted)
        self.assertEqual(service.history(), before)
        self.assertEqual(service.recover(1), wanted)
        self.assertNotEqual(service.history(), before)
        self.refuses(1, "NoSuchProcess", service.plan, 2)

    def test_live(self) -> None:
        """Everybody fails; what lies before that line may go, and no line goes back to it."""
        service = self.talked()
        plan = service.live()
        self.assertEqual(plan.line, (2, 1))
        self.assertEqual(plan.replays, (Replay(MessageName(0, 0, 0), 1, b"m"),))
        self.assertEqual(service.obsolete(), (range(1, 2), range(1, 1)))
        service.check(1)
        for failed in ([0], [1], [0, 1]):
            for check, least in zip(service.plan(failed).line, plan.line):
                self.assertTrue(check is None or least is not None and check >= least)

    def test_fresh(self) -> None:
        """Where nobody has a check nothing may go."""
        service = self.opened()
        self.assertEqual(service.obsolete(), (range(1, 1), range(1, 1)))

    def test_questions(self) -> None:
        """They are no steps: they are not counted and not fed again."""
        service = self.talked()
        counted = service.counted
        service.plan()
        service.live()
        service.answer()
        self.assertEqual(service.counted, counted)
        self.assertIn(b"\nplan\nlive\nanswer\n", self.journal.read_bytes())
        self.assertEqual(self.journal.read_bytes().count(b"history"), 0)
        service.close()
        self.assertEqual(self.kept().replayed, counted)

    def test_answer(self) -> None:
        """The whole answer is the plan, with what the machine has; it is judged to be right."""
        service = self.talked()
        for failed in ((), (0,), (1,), (0, 1)):
            plan, answer = service.plan(failed), service.answer(failed)
            self.assertEqual((answer.failed, answer.line), (failed, plan.line))
            self.assertEqual((answer.certificate, answer.replays), (plan.certificate, plan.replays))
            starts = [Start(p, plan.incarnations[p], plan.states[p]) for p in range(2)]
            self.assertEqual(answer.starts, tuple(starts))
            self.assertEqual(answer.history.tapes, service.history().tapes)
            if SERVICE[1:] == ["serve"]:
                judge = [SERVICE[0], "check"]
                told = subprocess.run(
                    judge, input=answer, text=True, stdout=subprocess.PIPE, check=False
                )
                self.assertEqual((told.stdout, told.returncode), ("valid\n", 0))
        self.refuses(1, "NoSuchProcess", service.answer, 2)

    def test_ahead(self) -> None:
        """In a block each plan has the bodies of its replays, whatever is done after it."""
        service = self.talked()
        with service.together() as ahead:
            planned, recovered = ahead.plan(1), ahead.recover(1)
            refused = ahead.plan(7)
            none = ahead.recover([0, 1])
        replay = Replay(MessageName(0, 0, 0), 1, b"m")
        self.assertEqual((planned.value.replays, recovered.value.replays), ((replay,), (replay,)))
        self.assertEqual(none.value.replays, (replay,))
        self.assertRaises(Refused, lambda: refused.value)


class TestMissing(ServiceCase):
    """A recovery whose replays' bodies find no memory is done, and its plan is told."""

    def missing(self, service: Service, ahead: bool) -> None:
        """That a recovery is told so, and that it is done."""
        sent = service.send(1, 0, b"m")
        service.check(0, b"s")
        with self.assertRaises(ReplaysMissing) as raised:
            if ahead:
                with service.together() as block:
                    answer = block.recover(0)
                answer.value
            else:
                service.recover(0)
        plan = raised.exception.plan
        self.assertEqual((plan.line, plan.states), ((1, None), (b"s", None)))
        self.assertEqual(plan.replays, (Replay(sent, -1, b""),))
        self.assertEqual(raised.exception.record, "recover,0")
        self.assertEqual(service.deliver(1, 0), Took(sent, None))

    def test_call(self) -> None:
        self.missing(self.kept(command=odd("memory", 5)), False)
        self.assertEqual(self.journal.read_bytes().count(b"recover"), 1)
        self.assertNotIn(b"history", self.journal.read_bytes())

    def test_block(self) -> None:
        self.missing(self.opened(command=odd("memory", 5)), True)


class TestFailed(ServiceCase):
    """Which processes have failed: several, or one."""

    def test_one(self) -> None:
        service = self.opened()
        service.check(1, b"s")
        self.assertEqual(service.recover(1).line, (None, 1))
        self.assertEqual(service.recover(1), service.recover([1])._replace(incarnations=(0, 2)))
        self.assertEqual(service.bundle(1), service.bundle((1,)))

    def test_words(self) -> None:
        service = self.opened()
        for wrong in ("1", "12", b"1", bytearray(b"1")):
            for call in (service.recover, service.bundle, service.plan):
                with self.assertRaisesRegex(TypeError, "by number, as 1 or .1, 2., and not as"):
                    call(wrong)  # type: ignore[arg-type]
        for no_number in (1.0, None):
            self.assertRaises(TypeError, service.recover, no_number)
        self.assertEqual(service.recover().line, (None, None))


class TestValues(unittest.TestCase):
    """Texts that say what is in them."""

    def test_history(self) -> None:
        text = answered(
            b"world,1,2,fifo\nsend,1,0,6d\nbegin,0,61\ndeliver,1,0,0,\ndeliver,0,1,0,62\n"
            b"check,1,\nhistory\n"
        ).split("\n\n")[-2].lstrip("\n") + "\n"
        history = History(text)
        self.assertEqual(history, text)
        zero = Tape(0, (Checked(b"a", 1), Received(MessageName(1, 0, 0))))
        one = Tape(
            0, (Sent(0, 0, b"m"), Checked(b"b", 1), MarkerCame(0, 1), Checked(b"", None))
        )
        self.assertEqual(history.tapes, (zero, one))
        self.assertEqual(list(one.messages(1)), [(MessageName(1, 0, 0), Sent(0, 0, b"m"))])
        self.assertEqual(one.checks(), (Checked(b"b", 1), Checked(b"", None)))

    def test_claim(self) -> None:
        head = "history,2,2\ntape,0,0\nsend,1,0,6d\ncheck,61,-\ntape,1,3\nrecv,0,0,0\n"
        claim = Claim(
            head + "damage,0,1\nbar,1,0\nfailed,0\nline,0,0\npass,1,now,0,0,0\nend\n"
        )
        self.assertEqual(claim.history, head)
        self.assertEqual(claim.history.tapes[1], Tape(3, (Received(MessageName(0, 0, 0)),)))
        self.assertEqual((claim.damaged, claim.bars), (((0, 1),), ((1, 0),)))
        self.assertEqual((claim.failed, claim.line), ((0,), (0, 0)))
        self.assertEqual(claim.certificate, (Passed(1, None, MessageName(0, 0, 0)),))
        answer = Claim(
            head.replace("history,2", "history,3")
            + "failed,0\nline,0,now\nstart,0,1,\nstart,1,3,-\nreplay,0,0,0,1,2,6d\nend\n"
        )
        self.assertEqual(answer.starts, (Start(0, 1, b""), Start(1, 3, None)))
        self.assertEqual(answer.replays, (Replay(MessageName(0, 0, 0), 1, b"m"),))
        self.assertEqual(len(answer.history.tapes), 2)
        self.assertEqual((claim.starts, claim.replays), ((), ()))
        plain = Claim("history,1,1\ntape,0,0\ncheck,a1,-\nfailed\nline,now\nend\n")
        self.assertEqual((plain.failed, plain.line, plain.certificate), ((), (None,), ()))
        self.assertEqual(plain.history.tapes, (Tape(0, (Checked(b"\xa1", None),)),))

    def test_floors(self) -> None:
        """Values of texts of which the beginning was let go have the numbers of the whole."""
        head = (
            "history,4,2\nfloor,0,3,5\nfloor,1,0,0\ntape,0,0\ncheck,61,-\nsend,1,0,6d\n"
            "check,62,-\ntape,1,3\nrecv,0,0,0\nsend,0,3,6e\n"
        )
        floors = (Floor(3, 5), Floor(0, 0))
        claim = Claim(
            head + "damage,0,2\nbar,0,1\nbar,1,0\nfailed,0\nline,1,now\npass,1,now,0,0,0\n"
            "start,0,1,61\nstart,1,3,-\nreplay,0,0,0,1,1,6d\nend\n"
        )
        name = MessageName(0, 0, 5)
        self.assertEqual((claim.history, claim.history.floors), (head, floors))
        self.assertEqual((claim.damaged, claim.bars), (((0, 4),), ((0, 3), (1, 0))))
        self.assertEqual((claim.line, claim.certificate), ((3, None), (Passed(1, None, name),)))
        self.assertEqual(claim.replays, (Replay(name, 1, b"m"),))
        zero, one = claim.history.tapes
        self.assertEqual((zero.floor, one.floor), floors)
        self.assertEqual(list(zero.messages(0)), [(name, Sent(1, 0, b"m"))])
        self.assertEqual(zero.checks()[4 - zero.floor.first_check], Checked(b"b", None))
        self.assertEqual(one.events, (Received(name), Sent(0, 3, b"n")))
        self.assertEqual(list(one.messages(1)), [(MessageName(1, 3, 0), Sent(0, 3, b"n"))])
        plan = Plan((3, None), (b"a", None), (1, 3), (), (Replay(name, -1, b""),), 1)
        self.assertEqual(with_bodies(plan, head).replays, (Replay(name, 1, b"m"),))
        self.assertEqual(History("history,1,1\ntape,0,0\n").floors, ())


if __name__ == "__main__":
    unittest.main()
