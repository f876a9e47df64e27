"""Clients that are killed at each thing that they do while their journals begin anew."""

import builtins
import fcntl
import os
import signal
import unittest
from collections.abc import Callable, Iterator
from typing import Any
from unittest import mock

from serving import IS_LONG, ServiceCase

from killed_client import called, shown
from recline import Service

STEPS = [
    "send,0,1,61", "deliver,0,1,0,", "check,1,b1", "check,0,a1", "send,0,0,", "send,1,0,62",
    "begin,0,a2", "send,0,1,63", "deliver,1,0,0,", "deliver,0,1,0,b2", "deliver,1,0,0,",
    "check,1,b3", "recover,0", "send,0,1,64", "deliver,0,1,0,", "check,1,b4", "check,0,a4",
    "recover,0,1", "send,1,0,", "forget", "check,0,a5",
]  # fmt: skip
EVERY = 9
RENEW = Service._renew
# What a client does to files and pipes, at each of which it is killed.
NAMES = ("open", "pwrite", "write", "fsync", "replace", "remove", "truncate")
DOES = [(os, name) for name in NAMES]


def talk(service: Service, from_step: int, tell: Callable[[int, str], None]) -> None:
    """Does the steps that are not done yet, and tells what each is answered."""
    for number in range(from_step, len(STEPS)):
        tell(number, shown(lambda: called(service, STEPS[number])))


class Killing:
    """Kills this process once it has done so many things, in the midst of what it writes.

    What it does while its journal does not begin anew is counted only where all is asked for.
    """

    def __init__(self, after: int, is_all: bool) -> None:
        self.left, self.is_counting = after, is_all

    def renewing(self, service: Service) -> None:
        """As it does where the journal begins anew, and counted."""
        before, self.is_counting = self.is_counting, True
        RENEW(service)
        self.is_counting = before

    def patches(self) -> Iterator[Any]:
        """What has each of these things counted."""
        yield mock.patch.object(Service, "_renew", lambda service: self.renewing(service))
        for module, name in [*DOES, (fcntl, "flock"), (builtins, "open")]:
            yield mock.patch.object(module, name, self.counting(name, getattr(module, name)))

    def counting(self, name: str, does: Callable[..., Any]) -> Callable[..., Any]:
        """The same, counted."""
        def counted(*words: Any, **others: Any) -> Any:
            self.left -= self.is_counting
            if self.left <= 0:
                if name in ("pwrite", "write"):
                    half = bytes(words[1])[:len(words[1]) // 2]
                    does(words[0], half, *words[2:])
                os.kill(os.getpid(), signal.SIGKILL)
            return does(*words, **others)

        return counted


class TestKilledAnew(ServiceCase):
    """Clients that are killed at each thing that they do to files and pipes."""

    def child(self, after: int, durable: bool) -> tuple[dict[int, str], bool]:
        """What a child was answered that is killed after so many things, and whether it was."""
        output, input_ = os.pipe()
        child = os.fork()
        if not child:
            write = os.write
            status = 1
            try:
                service = self.kept(forget_every=EVERY, durable=durable)
                for patch in Killing(after, IS_LONG).patches():
                    patch.start()
                talk(service, max(service.replayed - 1, 0), lambda number, value: (
                    write(input_, f"{number} {value}\n".encode()), None
                )[1])
                service._end(at_once=True)
                status = 0
            finally:
                os._exit(status)
        os.close(input_)
        with open(output) as told:
            answers = {int(it.split(" ", 1)[0]): it.split(" ", 1)[1][:-1] for it in told}
        _, status = os.waitpid(child, 0)
        if status not in (0, signal.SIGKILL):
            raise AssertionError(f"the child's status is {status}")
        return answers, status != 0

    def rest(self, durable: bool) -> tuple[int, dict[int, str], str]:
        """Where the journal goes on, what is answered to the rest, and the history then."""
        answers: dict[int, str] = {}
        with self.kept(forget_every=EVERY, durable=durable) as service:
            first = max(service.replayed - 1, 0)
            if first:
                answers[first - 1] = shown(lambda: self.last(service).value)
            talk(service, first, answers.__setitem__)
            service.forget()
            return first, answers, service.history()

    def kill_all(self, durable: bool, step: int) -> None:
        """Kills at each of these things, or at some of them."""
        _, wanted, history = self.rest(durable)
        after, was_killed = 1, True
        while was_killed:
            for name in os.listdir(self.folder):
                os.unlink(self.folder / name)
            with self.subTest(after=after):
                told, was_killed = self.child(after, durable)
                first, answers, last = self.rest(durable)
                self.assertLess(max(told, default=-1), max(first, 1))
                for number, value in [*told.items(), *answers.items()]:
                    self.assertEqual((number, value), (number, wanted[number]))
                self.assertEqual(set(range(first, len(STEPS))) - set(answers), set())
                self.assertEqual(last, history)
            after += 1 if IS_LONG else step

    def test_each(self) -> None:
        self.kill_all(False, 1)

    def test_durable(self) -> None:
        self.kill_all(True, 4)


if __name__ == "__main__":
    unittest.main()
