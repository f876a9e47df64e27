"""What both kinds of computation are asked for: marks, plans, recoveries and views."""

from collections.abc import Sequence
from typing import NamedTuple

from .claims import Claim
from .floors import MOST_LOST, floors_at, kept_history, kept_marks, kept_tape
from .histories import NO_FLOOR, History, Line, Marks, Name
from .texts import MOST_EVENTS, MOST_INCARNATION, NOW, Records, refuse


class Recovery(NamedTuple):
    """A recovery: its line, what is sent again and to whom, and the records that tell of it."""
    line: Line
    replays: list[tuple[Name, int]]
    records: Records


class Computation:
    """A history of processes, and marks; one method for each command, which answers or refuses.

    The history is the whole, also where something was let go: floors say what is kept of it.
    """

    def __init__(self, n: int) -> None:
        self.n = n
        self.history, self.marks = History(n), Marks()
        self.floors = [NO_FLOOR] * n
        self.last_gone = 0  # the last round that was begun when something was let go

    def known(self, *processes: int) -> None:
        """Refuses a process that there is not."""
        refuse(1, any(p >= self.n for p in processes))

    def has_no_room(self, p: int, events: int) -> bool:
        """Whether the tape of a process, as far as it is kept, lacks room for so many events."""
        tape = self.history.tapes[p]
        if len(tape) + events > MOST_EVENTS:
            begins = self.history.floor(p)
            tape = kept_tape(tape, p, self.floors, self.last_gone, begins)
        return len(tape) + events > MOST_EVENTS

    # Marks. The refusals stand in the order in which they are asked.

    def damage(self, p: int, check: int) -> Records:
        """Marks a check as damaged."""
        self.known(p)
        refuse(7, check <= self.floors[p].check)
        refuse(4, not self.history.has_choice(p, check))
        refuse(8, (p, check) in self.marks.damaged)
        self.marks.damaged.add((p, check))
        return [("damaged", p, check)]

    def bar(self, p: int, check: int) -> Records:
        """Bars a process at a check."""
        self.known(p)
        refuse(4, check < self.floors[p].check or not self.history.has_choice(p, check))
        refuse(40, check >= self.marks.bars.get(p, NOW))
        self.marks.bars[p] = check
        return [("barred", p, check)]

    # Plans.

    def planned(self, word: str, failed: Sequence[int]) -> Recovery:
        """The recovery where these processes failed, which changes nothing here."""
        self.known(*failed)
        line, entries, sweeps = self.history.plan(self.marks, failed)
        goes_back = [choice != NOW for choice in line]
        own = self.history.incarnations
        refuse(24, any(back and inc == MOST_INCARNATION for back, inc in zip(goes_back, own)))
        replays = self.history.in_transit(line)
        return Recovery(line, replays, [
            (word, sweeps, len(entries), len(replays)),
            *(("line", p, self.told(p, choice), own[p] + goes_back[p],
               self.history.stored(p, choice)) for p, choice in enumerate(line)),
            *(("pass", at, self.told(at, choice), *message) for at, choice, message in entries),
            *(("replay", *name) for name, _ in replays),
        ])

    def told(self, p: int, choice: int) -> int:
        """A choice as it is told: none is before the floor."""
        return max(choice, self.floors[p].check)

    def plan(self, *failed: int) -> Records:
        """What a recovery would be answered where these processes failed."""
        return self.planned("planned", failed).records

    def live(self) -> Records:
        """What a recovery would be answered where every process failed."""
        return self.plan(*range(self.n))

    def restarted(self, failed: Sequence[int]) -> Recovery:
        """The recovery where these processes failed, from whose line the history goes on."""
        recovery = self.planned("recovered", failed)
        line = recovery.line
        self.history.restart(line)
        self.marks = Marks({(p, check) for p, check in self.marks.damaged if check <= line[p]})
        return recovery

    # What is let go.

    def live_line(self) -> Line:
        """The line that all would go back to if every process failed."""
        line, _, _ = self.history.plan(self.marks, range(self.n))
        return line

    def let_go(self, line: Line) -> Records:
        """Lets go what stands before a line of checks, and tells what that is of each process."""
        floors = floors_at(self.history, line)
        refuse(50, any(max(it.lost_checks, it.sends) > MOST_LOST for it in floors))
        self.floors = floors
        return [("floor", p, *floor) for p, floor in enumerate(floors)]

    # Views.

    def kept(self) -> History:
        """What is kept of the history."""
        return kept_history(self.history, self.floors, self.last_gone)

    def history_text(self) -> Records:
        """The history."""
        kept = self.kept()
        return list(kept.records(kept.version()))

    def bundle(self, *failed: int) -> Records:
        """The history with the claim that is planned for these failed processes."""
        self.known(*failed)
        line, entries, _ = self.history.plan(self.marks, failed)
        marks = kept_marks(self.marks, self.floors)
        return list(Claim(self.kept(), marks, set(failed), line, entries).records())
