"""Which workers are killed, and when: as told, or drawn at random from a seed."""

import argparse
import enum
import random
import re
from typing import NamedTuple

CALLS = 4  # a worker makes about so many in a turn
MOST_DELAY = 0.003  # seconds


class Moment(enum.Enum):
    """Where in a call a worker is killed."""

    UNTOLD = "before the service was told of its call"
    TOLD = "after the service was told of its call, and before it was answered"
    LATER = "some moment after an answer, whatever it does then"


class Kill(NamedTuple):
    """Workers that are killed at once, when the first of them makes a call of a turn."""

    workers: tuple[int, ...]
    turn: int
    call: int = 0
    moment: Moment = Moment.TOLD
    then: tuple[int, ...] = ()  # who is killed while the recovery from that is under way
    delay: float = 0.0  # seconds, for a later moment


def numbers(text: str) -> tuple[int, ...]:
    """Numbers with commas between them."""
    return tuple(int(word) for word in text.split(","))


def read_kill(text: str) -> Kill:
    """What an option says: WORKER,..@TURN or WORKER,..@TURN+WORKER,.."""
    found = re.fullmatch(r"(\d+(?:,\d+)*)@(\d+)(?:\+(\d+(?:,\d+)*))?", text, re.ASCII)
    if not found:
        raise argparse.ArgumentTypeError(
            f"'{text}' is not like 2@700, 2,3@700 (both at once) or 2@700+1 (and worker 1 while "
            "the recovery from that is under way)"
        )
    then = numbers(found[3]) if found[3] else ()
    return Kill(numbers(found[1]), int(found[2]), then=then)


def random_kills(count: int, workers: int, turns: int, seed: int) -> list[Kill]:
    """Kills of so many workers in all.

    Where as many are left, one kill in four is of two workers at once, and one in three has one
    more in its recovery.
    """
    chance = random.Random(seed)
    found = []
    while count > 0:
        drawn = chance.sample(range(workers), workers)
        at_once = 2 if chance.random() < 1 / 4 and count > 1 else 1
        is_more = chance.random() < 1 / 3 and count > at_once
        count -= at_once + is_more
        found.append(
            Kill(
                tuple(drawn[:at_once]),
                chance.randrange(turns),
                chance.randrange(CALLS),
                chance.choice(list(Moment)),
                (chance.randrange(workers),) if is_more else (),
                chance.uniform(0.0, MOST_DELAY),
            )
        )
    return found


class Kills:
    """The kills that are still to be made."""

    def __init__(self, planned: list[Kill]) -> None:
        self.left = list(planned)

    def due(self, worker: int, turn: int, call: int, moment: Moment) -> Kill | None:
        """The kill that is to be made where a worker makes this call of this turn, if any."""
        for kill in self.left:
            if kill.workers[0] != worker or kill.moment is not moment:
                continue
            if (kill.turn, kill.call) <= (turn, call):
                self.left.remove(kill)
                return kill
        return None
