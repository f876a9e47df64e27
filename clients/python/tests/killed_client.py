"""A client that is killed, and whose service is: does the steps of a script, from a journal on.

Usage: killed_client.py SCRIPT JOURNAL SEED SECONDS EVERY COMMAND..

Tells one line for each thing, on standard output: `opening`; `open STEP`, the first step that the
journal does not have; `again STEP VALUE`, what the last one that it has was answered; `answer STEP
VALUE`; `ended`, where the service ended; `history VALUE`, at the end. Every other service, by
chance, is killed within SECONDS of its start; none where they are 0. The journal begins anew after
EVERY records, or not where that is 0.
"""

import hashlib
import itertools
import os
import pathlib
import random
import sys
import threading
from collections.abc import Callable, Iterator, Sequence
from typing import Any

import serving  # where the client is

import recline

QUESTIONS = ("rounds", "history", "bundle", "plan", "live", "answer")
NUMBERS = {
    "send": 2, "deliver": 3, "check": 1, "begin": 1, "turn": 1, "damage": 2, "bar": 2, "forget": 1,
}


def tell(*words: object) -> None:
    """Writes a line at once, whole: a pipe takes so few bytes together."""
    os.write(1, (" ".join(map(str, words)) + "\n").encode())


def shown(read: Callable[[], object]) -> str:
    """What a call answers or refuses, in few letters."""
    try:
        text = repr(read())
    except recline.Refused as refused:
        text = str(refused)
    return text if len(text) < 200 else hashlib.sha256(text.encode()).hexdigest()


def called(calls: Any, step: str) -> Any:
    """Makes the call of a step."""
    kind, *fields = step.split(",")
    if kind in ("recover", "bundle", "plan", "answer"):
        return getattr(calls, kind)(map(int, fields))
    numbers = NUMBERS.get(kind, 0)
    values = [*map(int, fields[:numbers]), *map(bytes.fromhex, fields[numbers:])]
    return getattr(calls, kind)(*values)


def is_question(step: str) -> bool:
    """Whether a step changes nothing."""
    return step.split(",")[0] in QUESTIONS


def done_before(steps: Sequence[str], count: int) -> int:
    """Where so many steps are done that are no questions."""
    done = itertools.accumulate((not is_question(step) for step in steps), initial=0)
    return next(place for place, before in enumerate(done) if before == count)


def blocks(chance: random.Random, start: int, end: int) -> Iterator[range]:
    """Steps that are sent together."""
    while start < end:
        size = chance.choice([1, 1, 1, 2, 5, 20])
        yield range(start, min(start + size, end))
        start += size


def go_on(service: recline.Service, steps: Sequence[str], chance: random.Random) -> None:
    """Does what is not done yet."""
    start = done_before(steps, max(service.replayed - 1, 0))
    tell("open", start)
    if start and service.last_replayed and service.replayed > 1:
        last = service.last_replayed
        tell("again", start - 1, shown(lambda: last.value))
    for block in blocks(chance, start, len(steps)):
        if len(block) == 1:
            tell("answer", block[0], shown(lambda: called(service, steps[block[0]])))
            continue
        with service.together() as ahead:
            answers = [called(ahead, steps[step]) for step in block]
        for step, answer in zip(block, answers):
            tell("answer", step, shown(lambda: answer.value))
    tell("history", shown(service.history))


class Killed(recline.Service):
    """A service that is killed some seconds after its start, or not where they are 0."""

    seconds = 0.0

    def _start(self, command: Sequence[str | os.PathLike[str]]) -> None:
        """Starts the service, and a clock that kills it."""
        super()._start(command)
        # A process that was not waited for keeps its number, so no other one is killed.
        self.killing = threading.Timer(self.seconds, self._process.kill)
        self.killing.daemon = True
        if self.seconds:
            self.killing.start()

    def _end(self, at_once: bool = False, why: str = "") -> recline.ServiceEnded:
        self.killing.cancel()
        return super()._end(at_once, why)


def main(words: Sequence[str]) -> None:
    """Opens the journal as often as the service ends."""
    script, journal, seed, seconds, every, *command = words
    world, *steps = pathlib.Path(script).read_text().splitlines()
    _, _, processes, links = world.split(",")
    chance = random.Random(f"{seed} {os.getpid()}")
    while True:
        tell("opening")
        Killed.seconds = chance.choice([0, chance.uniform(0, float(seconds))])
        try:
            with Killed(
                command, processes=int(processes), links=links, journal=journal,
                forget_every=int(every) or None,
            ) as service:
                go_on(service, steps, chance)
                return
        except recline.ServiceEnded:
            tell("ended")


if __name__ == "__main__":
    main(sys.argv[1:])
