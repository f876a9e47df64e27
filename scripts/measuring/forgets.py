"""`recline serve` over a history of which it lets go what is never needed again.

    scripts/measure forgets [--program PATH] [--records N] [--block K] [--slow M] [--late L]
                            [--keep-all]

N records (100,000,000) among 16 processes in a ring, links in order. Each K records (100,000) begin
with a round of markers and end with the `forget` of one. The link from process 0 to 1 is slow: M
messages (0) are always on it, so that a round closes M turns after it begins. Forgotten is the last
round, or the one that is L rounds older. With --keep-all nothing is forgotten.

Ten rows: the time of the processor and of the clock that so many records took, the memory that is
there after a `forget`, and the greatest so far. Last how the memory moved from the third `forget`
on, how the greatest is to it, and how the time of the last rows is to that of the first ones.

docs/PERFORMANCE.md has what it printed.
"""

import argparse
import itertools
import sys
from collections.abc import Iterator

from conversations import Conversation

from .runs import MB, add_program, head, program_of, row
from .service import At, last_answer, used

PROCESSES = 16
TURNS_A_CHECK = 8
ROWS = 10
SLOW = 1  # the process to which the slow link leads, from process 0


def deliver(p: int, q: int) -> str:
    """The record that takes the oldest item of a link, with a state for a check that it forces."""
    return f"deliver,{p},{q},0,{'ab' * 32}"


def turn(number: int) -> Iterator[str]:
    """Each process sends to the next one, which receives what is oldest on that link."""
    pairs = [(p, (p + 1) % PROCESSES) for p in range(PROCESSES)]
    yield from (f"send,{p},{q},{number:08x}" for p, q in pairs)
    yield from itertools.starmap(deliver, pairs)
    if number % TURNS_A_CHECK == 0:
        yield from (f"check,{p},{number:064x}" for p in range(PROCESSES))


def markers(slow: int) -> Iterator[str]:
    """A round begins, and all its markers come, but for one that waits for earlier messages."""
    yield f"begin,0,{'cd' * 32}"
    others = range(1, PROCESSES)
    yield from (deliver(0, q) for q in others if q != SLOW or not slow)
    # The process that the first marker has not reached comes last.
    for p in sorted(others, key=lambda p: p == SLOW):
        yield from (deliver(p, q) for q in range(PROCESSES) if q != p)


def block(records: int, slow: int) -> list[str]:
    """The records up to the next `forget`: they are the same each time."""
    made = list(markers(slow))
    for number in itertools.count(1):
        made += turn(number)
        if number == slow:
            made.append(deliver(0, SLOW))
        if number >= slow and len(made) >= records - 1:
            return made
    raise AssertionError


def forgotten(number: int, late: int, keeps_all: bool) -> list[str]:
    """What follows the records of a round: the `forget` of one, where there is one."""
    return [] if keeps_all or number <= late else [f"forget,{number - late}"]


def table(program: str, asked: argparse.Namespace) -> None:
    """Prints the table."""
    head("records", "processor, s", "clock, s", "memory, MB", "greatest, MB")
    records = block(asked.block, asked.slow)
    blocks = max(ROWS, asked.records // asked.block)
    kept: list[float] = []
    times: list[float] = []
    with Conversation([program, "serve"]) as talk:
        talk.exchange(f"world,1,{PROCESSES},fifo\n".encode(), b"\n")
        if asked.slow:
            last_answer(talk, [f"send,0,{SLOW},00"] * asked.slow)
        before = used(talk)
        for number in range(1, blocks + 1):
            last_answer(talk, records + forgotten(number, asked.late, asked.keep_all))
            now = used(talk)
            kept.append(now.memory)
            if number * ROWS // blocks != (number - 1) * ROWS // blocks:
                times.append(now.processor - before.processor)
                tell(number * len(records), times[-1], before, now, talk)
                before = now
        greatest = talk.memory() / MB
        talk.end(b"", 0)
    settled = kept[2 + asked.late :]
    print(f"\nfrom the third on, {min(settled):.1f} to {max(settled):.1f} MB after a `forget`:"
          f" {max(settled) / min(settled):.3f}; the greatest is {greatest / settled[0]:.2f} times")
    print(f"the last three rows took {sum(times[-3:]) / sum(times[1:4]):.2f} times the second"
          " to fourth")


def tell(records: int, processor: float, before: At, now: At, talk: Conversation) -> None:
    """Prints a row."""
    cells = [f"{records:,}", f"{processor:.2f}", f"{now.clock - before.clock:.2f}"]
    row([*cells, f"{now.memory:.1f}", f"{talk.memory() / MB:.1f}"])


def add_words(words: argparse.ArgumentParser) -> None:
    """Adds the words of this job to those that are read."""
    add = words.add_argument
    add_program(words)
    add("--records", type=int, default=100_000_000, metavar="N", help="in all (100000000)")
    add("--block", type=int, default=100_000, metavar="K", help="from one `forget` on (100000)")
    add("--slow", type=int, default=0, metavar="M", help="messages on the slow link (0)")
    add("--late", type=int, default=0, metavar="L", help="how many rounds late (0)")
    add("--keep-all", action="store_true", help="forget nothing")


def run(asked: argparse.Namespace) -> int:
    """Prints the table."""
    if asked.slow < 0 or asked.late < 0 or asked.block < 1:
        sys.exit("measure forgets: --slow and --late are 0 or more, and --block is 1 or more")
    table(program_of(asked), asked)
    return 0
