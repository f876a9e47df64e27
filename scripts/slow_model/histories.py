"""Histories, lines, what survives, plans, and rounds: the definitions, asked of lists of events.

A choice of a process is the index of a check, 0 for the initial state, or NOW. A line is a list
of choices, one for each process. Checks and messages have the numbers of the whole, also where
their beginning was let go; texts of version 4 have those of what is kept.
"""

import itertools
import math
from collections.abc import Iterable, Iterator, Sequence
from dataclasses import dataclass, field
from typing import NamedTuple, TypeVar

from .texts import NOW, Record, earliest_version

# A plan is compared with all lines of surviving choices where there are no more than these.
MOST_LINES = 500


class Name(NamedTuple):
    """A message's name."""
    sender: int
    incarnation: int
    number: int


class Marker(NamedTuple):
    """What a round puts on a link that keeps its order."""
    round: int


class Send(NamedTuple):
    to: int
    incarnation: int
    body: bytes


class Recv(NamedTuple):
    message: Name


class Check(NamedTuple):
    state: bytes
    round: int | None


class Mark(NamedTuple):
    sender: int
    round: int


class Floor(NamedTuple):
    """The check that a process begins with, or 0, and how many of its first sends are let go."""
    check: int
    sends: int

    @property
    def lost_checks(self) -> int:
        """How many checks are let go: those before the one that it begins with."""
        return max(self.check - 1, 0)


class Entry(NamedTuple):
    """A choice that is passed over, and a message that would be an orphan there."""
    at: int
    choice: int
    message: Name


Event = Send | Recv | Check | Mark
Kind = TypeVar("Kind", Send, Recv, Check, Mark)
# What a link holds.
Item = Name | Marker
# A choice for each process.
Line = list[int]
NO_FLOOR = Floor(0, 0)


@dataclass
class Marks:
    """A process with a check for each damaged one, and the check that a process is barred at."""
    damaged: set[tuple[int, int]] = field(default_factory=set)
    bars: dict[int, int] = field(default_factory=dict)

    def allow(self, p: int, choice: int) -> bool:
        """Whether a choice is not damaged, and not later than its process's bar."""
        return (p, choice) not in self.damaged and choice <= self.bars.get(p, NOW)


def among(kind: type[Kind], events: Iterable[Event]) -> list[Kind]:
    """The events of one kind."""
    return [event for event in events if isinstance(event, kind)]


class History:
    """A tape of events and a present incarnation for each process.

    Where something was let go each process has a floor, and the tapes have what is kept.
    """

    def __init__(self, n: int) -> None:
        self.tapes: list[list[Event]] = [[] for _ in range(n)]
        self.incarnations = [0] * n
        self.floors: list[Floor] = []

    def processes(self) -> range:
        """The numbers of the processes."""
        return range(len(self.tapes))

    # What was let go.

    def floor(self, p: int) -> Floor:
        """What a process has let go."""
        return self.floors[p] if p < len(self.floors) else NO_FLOOR

    def first(self, p: int) -> int:
        """The least choice of a tape: where nothing is let go the initial state."""
        return self.floor(p).lost_checks

    # Choices, and what stands before them.

    def checks(self, p: int) -> int:
        """The index of a tape's last check."""
        return self.first(p) + len(among(Check, self.tapes[p]))

    def has_choice(self, p: int, choice: int) -> bool:
        """Whether the tape of a process has a choice."""
        return choice == NOW or choice <= self.checks(p)

    def front(self, p: int, choice: int) -> list[Event]:
        """The events that stand before a choice."""
        if choice == NOW:
            return self.tapes[p]
        places = [place for place, event in enumerate(self.tapes[p], 1) if isinstance(event, Check)]
        return self.tapes[p][:[0, *places][choice - self.first(p)]]

    def stored(self, p: int, choice: int) -> bytes | None:
        """The state that a process goes on from: nothing is stored for NOW."""
        if choice == NOW:
            return None
        checks = among(Check, self.front(p, choice))
        return checks[-1].state if checks else b""

    # Messages and lines.

    def sent(self, p: int, choice: int = NOW) -> list[tuple[Name, int]]:
        """The messages sent before a choice, each with the process that its send names."""
        sends = enumerate(among(Send, self.front(p, choice)), self.floor(p).sends)
        return [(Name(p, send.incarnation, number), send.to) for number, send in sends]

    def send_of(self, message: Name) -> tuple[int, bytes]:
        """The place of a message's send on the tape of its sender, and its body."""
        tape = enumerate(self.tapes[message.sender])
        sends = [(place, event) for place, event in tape if isinstance(event, Send)]
        place, send = sends[message.number - self.floor(message.sender).sends]
        return place, send.body

    def received(self, p: int, choice: int = NOW) -> list[Name]:
        """The messages received before a choice."""
        return [event.message for event in among(Recv, self.front(p, choice))]

    def is_held(self, message: Name) -> bool:
        """Whether the sender's tape has the send of a message."""
        return message in [name for name, _ in self.sent(message.sender)]

    def sent_before(self, line: Sequence[int]) -> set[Name]:
        """All messages that are sent before a line."""
        return {name for p in self.processes() for name, _ in self.sent(p, line[p])}

    def orphans(self, line: Sequence[int], p: int) -> list[Name]:
        """What a process has received before a line and what is not sent before it."""
        sent = self.sent_before(line)
        return [name for name in self.received(p, line[p]) if name not in sent]

    def is_consistent(self, line: Sequence[int]) -> bool:
        """Whether no process has an orphan message before a line."""
        return not any(self.orphans(line, p) for p in self.processes())

    def in_transit(self, line: Sequence[int]) -> list[tuple[Name, int]]:
        """What is in transit at a line, each message with its addressee."""
        received = [set(self.received(p, line[p])) for p in self.processes()]
        return [
            (name, to)
            for p in self.processes()
            for name, to in self.sent(p, line[p])
            if name not in received[to]
        ]

    def restart(self, line: Sequence[int]) -> None:
        """Each process goes on from its choice: marks go, and checks lose their round."""
        for p in self.processes():
            front = [event for event in self.front(p, line[p]) if not isinstance(event, Mark)]
            self.tapes[p] = [
                event._replace(round=None) if isinstance(event, Check) else event for event in front
            ]
            self.incarnations[p] += line[p] != NOW

    # Surviving choices, and plans.

    def next_lower(self, marks: Marks, p: int, choice: int) -> int:
        """The latest surviving choice before a choice."""
        first = self.first(p)
        checks = range(self.checks(p) if choice == NOW else choice - 1, first, -1)
        return next((check for check in checks if marks.allow(p, check)), first)

    def latest_choices(self, marks: Marks, failed: Iterable[int]) -> Line:
        """The latest surviving choice of each process."""
        stays = {p for p in self.processes() if p not in set(failed) and marks.allow(p, NOW)}
        return [NOW if p in stays else self.next_lower(marks, p, NOW) for p in self.processes()]

    def plan(self, marks: Marks, failed: Iterable[int]) -> tuple[Line, list[Entry], int]:
        """The planned line, the entries of its certificate, and the number of sweeps.

        A sweep visits the processes in order, and lowers each while it has an orphan; the entry
        names the lowest sender of one, and the latest message from there.
        """
        gone = set(failed)
        line, sweeps, was_lowered = self.latest_choices(marks, gone), 0, True
        entries: list[Entry] = []
        while was_lowered:
            was_lowered, sweeps = False, sweeps + 1
            for p in self.processes():
                while orphans := self.orphans(line, p):
                    message = min(orphans, key=lambda name: (name.sender, -name.number))
                    entries.append(Entry(p, line[p], message))
                    line[p] = self.next_lower(marks, p, line[p])
                    was_lowered = True
        self.check_by_all_lines(marks, gone, line)
        return line, entries, sweeps

    def surviving(self, marks: Marks, failed: set[int], p: int) -> list[int]:
        """All surviving choices of a process."""
        first = self.first(p)
        later = [*range(first + 1, self.checks(p) + 1), *([] if p in failed else [NOW])]
        return [first, *(choice for choice in later if marks.allow(p, choice))]

    def check_by_all_lines(self, marks: Marks, failed: set[int], line: Line) -> None:
        """Tries every line of surviving choices, where they are few.

        The planned line has to be the latest consistent one.
        """
        choices = [self.surviving(marks, failed, p) for p in self.processes()]
        if math.prod(map(len, choices)) > MOST_LINES:
            return
        # What is received and sent before each choice, read once for all lines.
        received = [{it: set(self.received(p, it)) for it in own} for p, own in enumerate(choices)]
        sent = [
            {it: {name for name, _ in self.sent(p, it)} for it in own}
            for p, own in enumerate(choices)
        ]

        def is_consistent(tried: Sequence[int]) -> bool:
            """Each message that is received before a line is sent before it."""
            held = set[Name]().union(*(sent[p][it] for p, it in enumerate(tried)))
            return all(received[p][it] <= held for p, it in enumerate(tried))

        every = [list(it) for it in itertools.product(*choices) if is_consistent(it)]
        latest = [max(it[p] for it in every) for p in self.processes()]
        if line != latest or latest not in every:
            raise AssertionError(f"the slow model plans {line}, and the latest line is {latest}")

    # Links that keep their order.

    def put_on_link(self, p: int, q: int) -> list[Item]:
        """What p put on its link to q: its messages, and a marker for each check of a round."""
        items: list[Item] = []
        number = self.floor(p).sends
        for event in self.tapes[p]:
            if isinstance(event, Send):
                if event.to == q:
                    items.append(Name(p, event.incarnation, number))
                number += 1
            elif isinstance(event, Check) and event.round:
                items.append(Marker(event.round))
        return items

    def taken_from_link(self, p: int, q: int) -> list[Item]:
        """What q took from its link from p."""
        items: list[Item] = []
        for event in self.tapes[q]:
            if isinstance(event, Recv) and event.message.sender == p:
                items.append(event.message)
            elif isinstance(event, Mark) and event.sender == p:
                items.append(Marker(event.round))
        return items

    def link(self, p: int, q: int) -> list[Item]:
        """What remains of what was put on a link after what was taken from it."""
        put, taken = self.put_on_link(p, q), self.taken_from_link(p, q)
        assert put[:len(taken)] == taken, "the history does not fit"
        return put[len(taken):]

    # Rounds and colours.

    def colour_of(self, p: int) -> int:
        """The colour of a process."""
        return colour(self.tapes[p])

    def message_colour(self, message: Name) -> int:
        """The sender's colour where the message's send stands."""
        tape = self.tapes[message.sender]
        places = [place for place, event in enumerate(tape) if isinstance(event, Send)]
        return colour(tape[:places[message.number - self.floor(message.sender).sends]])

    def newest_round(self) -> int:
        """The greatest round on the tapes, or 0."""
        return max(map(self.colour_of, self.processes()))

    def check_of_round(self, p: int, number: int) -> int | None:
        """The index of a tape's check of a round, or none."""
        checks = among(Check, self.tapes[p])
        indices = enumerate(checks, self.first(p) + 1)
        return next((index for index, check in indices if check.round == number), None)

    def round_line(self, number: int) -> Line:
        """The checks of a round, of the processes that have one."""
        checks = [self.check_of_round(p, number) for p in self.processes()]
        return [check for check in checks if check is not None]

    def after_check(self, p: int, number: int) -> list[Event]:
        """The events after a tape's check of a round, which it has."""
        check = self.check_of_round(p, number)
        assert check is not None
        return self.tapes[p][len(self.front(p, check)):]

    def is_completed(self, number: int, is_fifo: bool) -> bool:
        """Each tape has its check of the round, and with markers a mark from each other process."""
        if len(self.round_line(number)) < len(self.tapes):
            return False
        pairs = [(p, q) for q in self.processes() for p in self.processes() if p != q]
        return not is_fifo or all(Mark(p, number) in self.after_check(q, number) for p, q in pairs)

    def channel(self, number: int, p: int, q: int, is_fifo: bool) -> list[Name]:
        """The channel of a completed round from p to q."""
        if not is_fifo:
            transit = self.in_transit(self.round_line(number))
            return [name for name, to in transit if (name.sender, to) == (p, q)]
        after = self.after_check(q, number)
        received = among(Recv, after[:after.index(Mark(p, number))])
        return [event.message for event in received if event.message.sender == p]

    # As records.

    def version(self) -> int:
        """The version that the history is written in by itself."""
        return 4 if self.floors else earliest_version(len(self.tapes))

    def kept_choice(self, p: int, choice: int) -> int:
        """A choice by its number in what is kept."""
        return choice if choice == NOW else choice - self.first(p)

    def kept_name(self, message: Name) -> Name:
        """A message by its number in what is kept."""
        return message._replace(number=message.number - self.floor(message.sender).sends)

    def records(self, version: int) -> Iterator[Record]:
        """The records of the history, in a version, with the numbers of what is kept."""
        yield "history", version, len(self.tapes)
        for p, floor in enumerate(self.floors):
            yield "floor", p, *floor
        for p in self.processes():
            yield "tape", p, self.incarnations[p]
            for event in self.tapes[p]:
                fields: Record = (
                    self.kept_name(event.message) if isinstance(event, Recv) else event
                )
                yield type(event).__name__.lower(), *fields


def colour(events: Iterable[Event]) -> int:
    """The greatest round of the checks among some events, or 0."""
    return max((check.round or 0 for check in among(Check, events)), default=0)

