"""Saved machines: the text that `save` writes, and the machine that begins by it."""

import functools
from collections.abc import Callable, Iterable, Sequence
from typing import Any

from .claims import Reading
from .floors import MOST_LOST
from .histories import Check, Event, Line, Mark, Marker, Name, Recv, Send, among
from .machine import Round, World
from .texts import MOST_ROUND, OF_FORGET, first_record, number, round_number, want

EVENTS = ("send", "recv", "check", "mark")
BEFORE_ROUNDS = ("tapes", "damages", "bars")


def up_to(most: int, least: int = 0) -> Callable[[str], int]:
    """What reads a number within these bounds."""
    return functools.partial(number, most=most, least=least)


class Saved(Reading):
    """What was read of a saved text among n processes, and the part that its last record is in."""

    def __init__(self, n: int) -> None:
        super().__init__(OF_FORGET, n)
        self.listed: list[tuple[int, Line]] = []
        self.begun = 0

    @property
    def is_whole(self) -> bool:
        """Whether the last record was read."""
        return self.part == "end"

    def may_stand(self, kind: str) -> bool:
        """Whether a record of this kind may come next."""
        if kind in ("round", "saved"):
            return len(self.tapes) == self.n and self.part in (*BEFORE_ROUNDS, "rounds")
        return kind in ("floor", "tape", *EVENTS, "damage", "bar") and super().may_stand(kind)

    def readers_of(self, kind: str, width: int) -> Sequence[Callable[[str], Any]]:
        """What reads the fields of a record of that many."""
        if kind == "round":
            return [round_number, *(up_to(len(among(Check, tape))) for tape in self.tapes)]
        if kind == "saved":
            return [up_to(MOST_ROUND, self.listed[-1][0] if self.listed else 0)]
        return super().readers_of(kind, width)

    def read_round(self, of_round: int, *checks: int) -> None:
        """A listed round."""
        want(not self.listed or self.listed[-1][0] < of_round, 32)
        self.listed.append((of_round, [self.whole_choice(p, it) for p, it in enumerate(checks)]))
        self.part = "rounds"

    def read_saved(self, begun: int) -> None:
        """The last record."""
        self.begun = begun
        self.part = "end"

    def name_agrees(self, received: Recv) -> bool:
        """Whether a message has the name that its sender gave it, or would give it."""
        message, history = received.message, self.history
        names = [name for name, _ in history.sent(message.sender)]
        at = message.number - history.floor(message.sender).sends
        if at < len(names):
            return message == names[at]
        return message.incarnation == history.incarnations[message.sender]

    def is_resumable(self) -> bool:
        """Whether a machine can go on from what was read, between two rounds."""
        checked = {it.round for it in among(Check, self.events()) if it.round}
        return (
            all(max(it.lost_checks, it.sends) <= MOST_LOST for it in self.history.floors)
            and max(checked, default=0) <= self.begun
            and self.links_fit()
            and self.has_floor()
            and all(map(self.is_round, self.listed))
        )

    def has_floor(self) -> bool:
        """Whether the checks that the processes begin with survive, and make a consistent line."""
        floors = [it.check for it in self.history.floors]
        return (
            all(it <= self.history.checks(p) for p, it in enumerate(floors))
            and all(self.claim.marks.allow(p, it) for p, it in enumerate(floors))
            and self.history.is_consistent(floors)
        )

    def is_round(self, listed: tuple[int, Line]) -> bool:
        """Whether the checks of a listed round are a consistent line, and none an initial state."""
        _, line = listed
        floors = [max(it.check, 1) for it in self.history.floors]
        return (
            all(it >= least for it, least in zip(line, floors))
            and self.history.is_consistent(line)
        )

    def is_left(self) -> bool:
        """Whether a machine may have been saved so. Nobody is told where none was."""
        checked = {it.round for it in among(Check, self.events()) if it.round}
        return (
            all((it, self.history.round_line(it)) in self.listed for it in checked)
            and not any(p in map(partner, tape) for p, tape in enumerate(self.tapes))
        )

    def events(self) -> Iterable[Event]:
        """All events."""
        return (event for tape in self.tapes for event in tape)

    def links_fit(self) -> bool:
        """Whether links keep their order and hold no marker, and marks follow checks of rounds."""
        pairs = [(p, q) for p in self.history.processes() for q in self.history.processes()]
        for p, q in pairs:
            put, taken = self.history.put_on_link(p, q), self.history.taken_from_link(p, q)
            if put[:len(taken)] != taken:
                return False
            if p != q and any(isinstance(item, Marker) for item in put[len(taken):]):
                return False
        return all(map(marks_follow, self.tapes))

    def opened(self) -> World:
        """The machine, where what was read is one."""
        marks = self.claim.marks
        named = [*marks.damaged, *marks.bars.items()]
        want(all(self.history.has_choice(p, check) for p, check in named), 4)
        want(all(map(self.name_agrees, among(Recv, self.events()))), 38)
        want(self.is_resumable(), 16)
        world = World(self.n, "fifo")
        world.history, world.marks = self.history, self.claim.marks
        world.floors, world.begun = list(self.history.floors), self.begun
        world.last_gone = self.last_gone()
        world.listed = [Round(it, line, self.channels(line)) for it, line in self.listed]
        return world

    def last_gone(self) -> int:
        """A last round that was begun when something was let go: before those on the tapes."""
        checked = [it.round for it in among(Check, self.events()) if it.round]
        return min(checked, default=self.begun + 1) - 1

    def channels(self, line: Line) -> list[tuple[int, int, Name]]:
        """What was in transit at a line, by sender, addressee and order."""
        transit = self.history.in_transit(line)
        pairs = [(p, q) for p in range(self.n) for q in range(self.n)]
        return [(p, q, it) for p, q in pairs for it, to in transit if (it.sender, to) == (p, q)]


def partner(event: Event) -> int | None:
    """The other process of a message or a marker."""
    if isinstance(event, Send):
        return event.to
    if isinstance(event, Recv):
        return event.message.sender
    return event.sender if isinstance(event, Mark) else None


def marks_follow(tape: Sequence[Event]) -> bool:
    """Whether no two checks are of one round, and each mark comes after the check of its round."""
    known: set[int] = set()
    for event in tape:
        if isinstance(event, Mark) and event.round not in known:
            return False
        if isinstance(event, Check) and event.round:
            if event.round in known:
                return False
            known.add(event.round)
    return True


def begin(fields: Sequence[str]) -> Saved:
    """What the first record of a saved text begins."""
    version, n = first_record(fields, "history", 3)
    want(version == OF_FORGET, 35)
    return Saved(n)
