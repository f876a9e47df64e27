"""The families of texts of the job `growth`: each has a size, and is read by a subcommand."""

from collections.abc import Callable, Iterator
from typing import NamedTuple

from slow_model.texts import MOST_PROCESSES, earliest_version

MANY = 64  # processes of the families that are about many of them


class Family(NamedTuple):
    """Texts of a kind: the subcommand that reads them, the greatest size, and the records."""

    command: str
    most: int
    records: Callable[[int], Iterator[str]]


# The families. Each takes its size m and gives the records.


def first_of(n: int, mode: str) -> str:
    """The first record of a script of so many processes."""
    return f"world,{earliest_version(n)},{n},{mode}"


def repeated(first: str, part: list[str], last: list[str]) -> Callable[[int], Iterator[str]]:
    """A first record, then m times the records of a part, then m times those of the last."""

    def records(m: int) -> Iterator[str]:
        yield first
        yield from part * m
        yield from last * m

    return records


def rounds_in_transit(m: int) -> Iterator[str]:
    """Messages that nobody takes, and half as many rounds of colours, which all have them."""
    yield "world,1,2,unordered"
    yield from ["send,0,1,"] * m
    for _ in range(m // 2):
        yield from ["begin,0,", "turn,1,"]


def rounds_of_many(m: int) -> Iterator[str]:
    """Rounds of colours among 64 processes, without a message."""
    yield f"world,1,{MANY},unordered"
    for _ in range(m):
        yield "begin,0,"
        for p in range(1, MANY):
            yield f"turn,{p},"


def rounds_of_markers(n: int, rounds: int, is_by_receiver: bool = False) -> Iterator[str]:
    """Rounds of markers among n processes, without a message.

    Those of one sender come together, or else those of one receiver.
    """
    channels = [(p, q) for p in range(1, n) for q in range(n) if p != q]
    if is_by_receiver:
        channels.sort(key=lambda it: it[1])
    yield first_of(n, "fifo")
    for _ in range(rounds):
        yield "begin,0,"
        yield from (f"deliver,0,{p},0," for p in range(1, n))
        yield from (f"deliver,{p},{q},0," for p, q in channels)


def markers_of_many(m: int) -> Iterator[str]:
    """Rounds of markers among 64 processes."""
    yield from rounds_of_markers(MANY, m)


def markers_by_receiver(m: int) -> Iterator[str]:
    """The same, but each process takes all its markers in turn."""
    yield from rounds_of_markers(MANY, m, is_by_receiver=True)


def lost(m: int) -> Iterator[str]:
    """Messages of which one of nine is never taken, three checks for each, and no recovery."""
    yield "world,1,2,unordered"
    for k in range(m):
        yield "send,0,1,"
        if k % 9 != 8:
            yield f"deliver,0,1,{k},"
        yield from ["check,0,", "check,1,", "check,1,"]


def marks(m: int) -> Iterator[str]:
    """Checks that are all damaged, and as many recoveries of nobody."""
    yield "world,1,2,fifo"
    yield from ["check,0,"] * m
    for check in range(1, m + 1):
        yield f"damage,0,{check}"
    yield from ["recover"] * m


def work_of_many(n: int, mode: str, events: int) -> Iterator[str]:
    """So many events of n processes in a ring: messages, and checks after each eighth turn."""
    yield first_of(n, mode)
    turns = events * 8 // (n * 17)
    for turn in range(turns):
        for p in range(n):
            yield f"send,{p},{(p + 1) % n},00"
        for p in range(n):
            yield f"deliver,{p},{(p + 1) % n},{turn if mode == 'unordered' else 0},"
        if turn % 8 == 7:
            yield from (f"check,{p},00" for p in range(n))


def idle(n: int, mode: str, events: int) -> Callable[[int], Iterator[str]]:
    """Recoveries of nobody among n processes, after so many events."""

    def records(m: int) -> Iterator[str]:
        yield from work_of_many(n, mode, events)
        yield from ["recover"] * m

    return records


def ring_of(m: int) -> Iterator[str]:
    """A ring of m processes with as much work for each, and one that fails at the end."""
    yield from work_of_many(m, "fifo", m * 1_000)
    yield "recover,0"


def recoveries_of(m: int) -> Iterator[str]:
    """Recoveries of nobody, the same number among m processes."""
    yield from idle(m, "fifo", 0)(10_000)


def markers_of(m: int) -> Iterator[str]:
    """Rounds of markers among m processes: a round has a marker for each two of them."""
    yield from rounds_of_markers(m, 4)


def claims_of(m: int) -> Iterator[str]:
    """A check text of m processes: each has received from each other one, and stays."""
    yield f"history,{earliest_version(m)},{m}"
    for p in range(m):
        yield f"tape,{p},0"
        yield from (f"send,{q},0," for q in range(m) if q != p)
        # The number of q's send to p among those of q, which has none to itself.
        yield from (f"recv,{q},0,{p - (q < p)}" for q in range(m) if q != p)
        yield "check,,-"
    yield from ["failed", "line" + ",now" * m, "end"]


def domino(m: int) -> Iterator[str]:
    """Two processes answer each other, and one failure takes both to their initial states."""
    yield "world,1,2,fifo"
    for _ in range(m):
        yield from ["send,0,1,", "deliver,0,1,0,", "check,1,"]
        yield from ["send,1,0,", "deliver,1,0,0,", "check,0,"]
    yield from ["send,0,1,", "deliver,0,1,0,", "recover,0"]


def damaged(m: int) -> Iterator[str]:
    """Checks of one process, all damaged from the last to the first."""
    yield "world,1,1,fifo"
    yield from ["check,0,"] * m
    for check in range(m, 0, -1):
        yield f"damage,0,{check}"


def marked(m: int) -> Iterator[str]:
    """A check text of one process with as many damaged checks, told from the last to the first."""
    yield from ["history,1,1", "tape,0,0"]
    yield from ["check,,-"] * m
    for check in range(m, 0, -1):
        yield f"damage,0,{check}"
    yield from ["failed", "line,now", "end"]


def names_apart(m: int) -> Iterator[int]:
    """Numbers of messages, one after another."""
    return iter(range(m))


def names_low(m: int) -> Iterator[int]:
    """Numbers that share their low 20 bits; they repeat after 4,096, under other incarnations."""
    return ((k % 4_096) << 20 for k in range(m))


def names_high(m: int) -> Iterator[int]:
    """Numbers that share their high 20 bits; they repeat after 4,096, under other incarnations."""
    return (k % 4_096 for k in range(m))


def receipts(numbers: Callable[[int], Iterator[int]]) -> Callable[[int], Iterator[str]]:
    """Check texts of receipts of messages with these numbers, no two with one name."""

    def records(m: int) -> Iterator[str]:
        yield from ["history,1,2", "tape,0,0"]
        for at, number in enumerate(numbers(m)):
            inc = 0 if numbers is names_apart else at // 4_096
            yield f"recv,1,{inc},{number}"
        yield from ["tape,1,0", "failed", "line,now,now", "end"]

    return records


def receipts_of_incarnations(m: int) -> Iterator[str]:
    """A check text of receipts that differ in sender and incarnation alone."""
    yield from [f"history,1,{MANY}", "tape,0,0"]
    for k in range(m):
        yield f"recv,{k % MANY},{k // MANY},0"
    for p in range(1, MANY):
        yield f"tape,{p},0"
    yield from ["failed", "line" + ",now" * MANY, "end"]


def received_low_bits(m: int) -> Iterator[str]:
    """A thousand sends for each delivery, so that the numbers taken share their low bits."""
    yield "world,1,2,unordered"
    step = 1_024
    for k in range(m // step):
        yield from ["send,0,1,"] * step
        yield f"deliver,0,1,{k * step},"


def work(mode: str) -> Callable[[int], Iterator[str]]:
    """Messages and checks in a ring of 8, with a recovery after each fifty records."""

    def records(m: int) -> Iterator[str]:
        n, sends, place = 8, 16, [0] * 8
        yield f"world,1,{n},{mode}"
        for turn in range(m // 50):
            for k in range(sends):
                yield f"send,{k % n},{(k + 1) % n},00"
            for k in range(sends):
                p = k % n
                pick = place[p] if mode == "unordered" else 0
                yield f"deliver,{p},{(p + 1) % n},{pick},"
                place[p] += 1
            for k in range(17):
                yield f"check,{k % n},00"
            # The last event of each is a check, so the one that fails loses nothing.
            yield f"recover,{turn % n}"

    return records


# Messages that nobody takes, and as many recoveries of nobody, which send them again.
undelivered = repeated("world,1,2,unordered", ["send,0,1,"], ["recover"])
# The same on links in order.
undelivered_in_order = repeated("world,1,2,fifo", ["send,0,1,"], ["recover"])
# Rounds of colours between two processes, and as many recoveries of nobody.
rounds = repeated("world,1,2,unordered", ["begin,0,", "turn,1,"], ["recover"])
# Rounds of colours, and as many recoveries of a process, each after a check of it.
rounds_cut = repeated("world,1,2,unordered", ["begin,0,", "turn,1,"], ["check,0,", "recover,0"])
# Checks of one process, and as many recoveries of nobody.
checks = repeated("world,1,2,fifo", ["check,0,"], ["recover"])
# Checks of one process, and as many recoveries of it.
checks_failed = repeated("world,1,2,fifo", ["check,0,"], ["recover,0"])
# Messages that are taken, and as many recoveries of nobody.
delivered = repeated("world,1,2,fifo", ["send,0,1,", "deliver,0,1,0,"], ["recover"])
# Rounds of markers that are begun among 64 processes, each given up by a recovery.
rounds_begun = repeated(f"world,1,{MANY},fifo", ["begin,0,", "recover"], [])
# Recoveries of 64 processes that do nothing else, on links in order.
recoveries = repeated(f"world,1,{MANY},fifo", [], ["recover"])
# The same on links without an order.
recoveries_unordered = repeated(f"world,1,{MANY},unordered", [], ["recover"])

FAMILIES: dict[str, Family] = {
    "undelivered": Family("run", 2_000, undelivered),
    "undelivered_in_order": Family("run", 2_000, undelivered_in_order),
    "rounds": Family("run", 30_000, rounds),
    "rounds_cut": Family("run", 30_000, rounds_cut),
    "rounds_in_transit": Family("run", 17_000, rounds_in_transit),
    "rounds_of_many": Family("run", 8_000, rounds_of_many),
    "markers_of_many": Family("run", 200, markers_of_many),
    "markers_by_receiver": Family("run", 200, markers_by_receiver),
    "lost": Family("run", 150_000, lost),
    "checks": Family("run", 64_000, checks),
    "checks_failed": Family("run", 64_000, checks_failed),
    "delivered": Family("run", 50_000, delivered),
    "marks": Family("run", 20_000, marks),
    "rounds_begun": Family("run", 60_000, rounds_begun),
    "recoveries": Family("run", 50_000, recoveries),
    "recoveries_unordered": Family("run", 50_000, recoveries_unordered),
    "domino": Family("run", 20_000, domino),
    "damaged": Family("run", 800_000, damaged),
    "marked": Family("check", 800_000, marked),
    "receipts": Family("check", 800_000, receipts(names_apart)),
    "receipts_low_bits": Family("check", 800_000, receipts(names_low)),
    "receipts_high_bits": Family("check", 800_000, receipts(names_high)),
    "receipts_of_incarnations": Family("check", 800_000, receipts_of_incarnations),
    "received_low_bits": Family("run", 900_000, received_low_bits),
    "work_in_order": Family("run", 1_000_000, work("fifo")),
    "work_unordered": Family("run", 1_000_000, work("unordered")),
    # The size of these is the number of processes.
    "ring_of": Family("run", MOST_PROCESSES, ring_of),
    "recoveries_of": Family("run", MOST_PROCESSES, recoveries_of),
    "markers_of": Family("run", MOST_PROCESSES, markers_of),
    "claims_of": Family("check", MOST_PROCESSES, claims_of),
}

# The jobs of the program bench/plan_growth, each with its greatest number of turns: plans on the
# way, without a recovery, of a computation that goes on.
PLANS: dict[str, int] = {
    # All messages are received.
    "received": 400_000,
    # More than an eighth of them are never received.
    "waiting": 400_000,
    # Processes that never take a check, and all fail.
    "unchecked": 400_000,
    # Room is made for all events at first, and then they are added alone.
    "ahead": 400_000,
}
