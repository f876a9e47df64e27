"""Inputs for measurements, the same in every run. Each generator gives about so many records."""

import collections
import random
from collections.abc import Callable, Iterator
from typing import TypeVar

from slow_model.texts import earliest_version

Item = TypeVar("Item")
# Two processes.
Pair = tuple[int, int]


def ring(most: int, n: int = 8) -> Iterator[str]:
    """n processes send round a ring, on links in order, with checks; at the end one fails."""
    chance = random.Random("ring")
    yield f"world,{earliest_version(n)},{n},fifo"
    for turn in range(most // (2 * n + 1)):
        for p in range(n):
            yield f"send,{p},{(p + 1) % n},{chance.randbytes(8).hex()}"
        for p in range(n):
            yield f"deliver,{p},{(p + 1) % n},0,"
        if turn % 8 == 7:
            for p in range(n):
                yield f"check,{p},{chance.randbytes(32).hex()}"
    yield "send,3,4,"
    yield "deliver,3,4,0,"
    yield "recover,3"


def great_ring(most: int) -> Iterator[str]:
    """256 processes send round a ring."""
    return ring(most, 256)


def rounds(most: int, n: int = 8) -> Iterator[str]:
    """Rounds of markers among n processes, with messages in their channels."""
    chance = random.Random("rounds")
    yield f"world,{earliest_version(n)},{n},fifo"
    for _ in range(most // (n * (n - 1) + 2 * n + 1)):
        yield from one_round(n, chance)
    yield from ["rounds", "recover,0", "rounds"]


def great_rounds(most: int) -> Iterator[str]:
    """Rounds of markers among 256 processes."""
    return rounds(most, 256)


def one_round(n: int, chance: random.Random) -> Iterator[str]:
    """A message of each process and a round of markers, all of it delivered by chance."""
    # For each item on a link whether it is a marker, and the two processes of each item.
    links: dict[Pair, collections.deque[bool]] = collections.defaultdict(collections.deque)
    waiting: list[Pair] = []
    recorded: set[int] = set()

    def put(p: int, q: int, is_marker: bool) -> None:
        """Puts an item on a link."""
        links[p, q].append(is_marker)
        waiting.append((p, q))

    def record(p: int) -> None:
        """Records a process, and puts its markers."""
        recorded.add(p)
        for q in range(n):
            if q != p:
                put(p, q, True)

    for p in range(n):
        q = (p + chance.randrange(1, n)) % n
        yield f"send,{p},{q},{chance.randbytes(2).hex()}"
        put(p, q, False)
    first = chance.randrange(n)
    yield f"begin,{first},{chance.randbytes(4).hex()}"
    record(first)
    while waiting:
        p, q = taken(waiting, chance)
        yield f"deliver,{p},{q},0,{chance.randbytes(4).hex()}"
        if links[p, q].popleft() and q not in recorded:
            record(q)


def taken(items: list[Item], chance: random.Random) -> Item:
    """Takes any item of a list out of it."""
    i = chance.randrange(len(items))
    items[i], items[-1] = items[-1], items[i]
    return items.pop()


def colours(most: int, n: int = 64) -> Iterator[str]:
    """n processes on links without an order, with rounds of colours, copies and recoveries."""
    chance = random.Random("colours")
    yield f"world,{earliest_version(n)},{n},unordered"
    copies: collections.Counter[Pair] = collections.Counter()  # on each link
    # Sender, addressee, place and colour of a copy of each message not received yet.
    fresh: list[tuple[int, int, int, int]] = []
    # Sender, addressee and place of copies received not long ago.
    received: collections.deque[tuple[int, int, int]] = collections.deque(maxlen=1_000)
    colour, newest = [0] * n, 0
    next_round, next_recovery = most // 100, most // 10
    for record in range(most):
        is_open = min(colour) < max(colour)
        kind = chance.random()
        if fresh and kind < 0.42 or len(fresh) > 1_500:
            p, q, place, sent_with = taken(fresh, chance)
            yield f"deliver,{p},{q},{place},{chance.randbytes(4).hex()}"
            received.append((p, q, place))
            colour[q] = max(colour[q], sent_with)
        elif received and kind < 0.5:
            p, q, place = chance.choice(received)
            yield f"deliver,{p},{q},{place},{chance.randbytes(4).hex()}"
        elif is_open and kind < 0.51:
            p = chance.choice([p for p in range(n) if colour[p] < newest])
            yield f"turn,{p},{chance.randbytes(4).hex()}"
            colour[p] = newest
        elif not is_open and record >= next_recovery:
            next_recovery = record + most // 10
            yield "recover"
            # One more copy of each message in transit; and nothing has a colour any more.
            copies.update((p, q) for p, q, _, _ in fresh)
            fresh = [(p, q, place, 0) for p, q, place, _ in fresh]
            colour = [0] * n
        elif not is_open and record >= next_round:
            next_round, newest, p = record + most // 100, newest + 1, chance.randrange(n)
            yield f"begin,{p},{chance.randbytes(4).hex()}"
            colour[p] = newest
        elif kind < 0.96:
            p = chance.randrange(n)
            q = (p + chance.randrange(1, n)) % n
            yield f"send,{p},{q},{chance.randbytes(chance.randrange(13)).hex()}"
            fresh.append((p, q, copies[p, q], colour[p]))
            copies[p, q] += 1
        else:
            yield f"check,{chance.randrange(n)},{chance.randbytes(chance.randrange(33)).hex()}"
    yield from ["rounds", "recover,0,32"]


def great_colours(most: int) -> Iterator[str]:
    """256 processes on links without an order, with the same."""
    return colours(most, 256)


def domino(most: int) -> Iterator[str]:
    """Each process sends on what it has received, with a check after each receipt but the last."""
    n, chance, steps = 8, random.Random("domino"), most // 4
    tapes: list[list[str]] = [[] for _ in range(n)]
    for step in range(steps):
        p, q = step % n, (step + 1) % n
        tapes[p].append(f"send,{q},0,{chance.randbytes(1).hex()}")
        tapes[q].append(f"recv,{p},0,{step // n}")
        if step < steps - 1:
            tapes[q].append(f"check,{chance.randbytes(1).hex()},-")
    yield f"history,1,{n}"
    for p, tape in enumerate(tapes):
        yield f"tape,{p},0"
        yield from tape
    failed = (steps - 1) % n
    yield f"failed,{failed}"
    yield "line" + ",0" * n
    received = [sum(event.startswith("recv") for event in tape) for tape in tapes]
    checks = [sum(event.startswith("check") for event in tape) for tape in tapes]
    # How many receipts stand before each ceiling, and how many sends: process 0 has one more.
    before = [checks[p] if p == failed else received[p] for p in range(n)]
    is_now = [p != failed for p in range(n)]
    sends = [sum(event.startswith("send") for event in tape) for tape in tapes]
    sends[failed] = max(checks[failed] - (failed != 0), 0)
    was_lowered = True
    while was_lowered:
        was_lowered = False
        for q in range(n):
            p = (q - 1) % n
            while before[q] > sends[p]:
                choice = "now" if is_now[q] else before[q]
                yield f"pass,{q},{choice},{p},0,{before[q] - 1}"
                before[q], is_now[q] = checks[q] if is_now[q] else before[q] - 1, False
                sends[q] = max(before[q] - (q != 0), 0)
                was_lowered = True
    yield "end"


INPUTS: dict[str, tuple[Callable[[int], Iterator[str]], str]] = {
    "ring": (ring, "run"),
    "great-ring": (great_ring, "run"),
    "rounds": (rounds, "run"),
    "great-rounds": (great_rounds, "run"),
    "colours": (colours, "run"),
    "great-colours": (great_colours, "run"),
    "domino": (domino, "check"),
}
