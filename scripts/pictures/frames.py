"""Where things are: a column for each event that is shown, a row for each process."""

from dataclasses import dataclass

from slow_model.texts import NOW

from . import words
from .labels import width_of
from .stories import Check, Event, Message, Recovery
from .views import View

COLUMN, GAP, MARGIN = 40.0, 22.0, 16.0
HALF = 9.0  # of the side of a check's square
INDEX = 12.0  # the size of the index in it
NAME = 13.0
TICK = 11.0  # of the numbers of records
ABOVE, BELOW = 80.0, 40.0  # room above the first row for headings, and below the last


def half_width(check: Check) -> float:
    """Half of how wide the square of a check is: its index has to fit in."""
    return max(HALF, width_of(str(check.index), INDEX) / 2 + 3)


@dataclass(frozen=True)
class Frame:
    """The places of all that is shown.

    `earlier` has the checks that stand before the first column: the initial states, or where older
    records are left out those that a recovery goes back to.
    """

    view: View
    rows: dict[int, float]
    columns: dict[int, float]
    restarts: dict[int, float]
    earlier: dict[Check, float]
    breaks: tuple[tuple[float, float], ...]
    start: float
    end: float
    bottom: float

    def column(self, event: Event | Recovery) -> float | None:
        """Where an event stands from left to right, if it is shown."""
        found = self.columns.get(event.place)
        return self.earlier.get(event) if found is None and isinstance(event, Check) else found

    def source(self, source: "Message | Recovery") -> float | None:
        """Where what is received starts from: replays start after their recovery."""
        return (
            self.restarts.get(source.number)
            if isinstance(source, Recovery)
            else self.column(source)
        )

    def stop(self, recovery: Recovery, process: int) -> float | None:
        """Where a recovery's line meets the line of a process."""
        restart = recovery.line[process]
        return self.columns[recovery.place] if restart.check is None else self.column(restart.check)


def rows_of(processes: tuple[int, ...], top: float) -> dict[int, float]:
    """The rows: the fewer, the farther apart."""
    count = len(processes)
    apart = 120.0 if count <= 2 else 96.0 if count <= 6 else 76.0 if count <= 16 else 64.0
    return {process: top + ABOVE + apart * row for row, process in enumerate(processes)}


def earlier_checks(view: View) -> list[list[Check]]:
    """Of each process that is shown, the checks that are needed before the first column."""
    places = {it.place for it in view.shown}
    found = []
    for process in view.processes:
        needed = {view.story.initial[process]} if view.is_from_start else set()
        checks = [recovery.line[process].check for recovery in view.recoveries]
        needed |= {check for check in checks if check is not None and check.place not in places}
        found.append(sorted(needed, key=lambda check: check.place))
    return found


def has_restarts(recovery: Recovery, processes: tuple[int, ...]) -> bool:
    """Whether something goes on after a recovery: a process that goes back, or a replay."""
    return bool(recovery.replays) or any(
        recovery.line[process].choice != NOW for process in processes
    )


def frame_of(view: View, top: float) -> Frame:
    """Lays a view out, from that height down."""
    checks = [it for it in view.shown if isinstance(it, Check)]
    record = max((width_of(str(it.record), TICK) for it in view.shown), default=0) + 6
    apart = max([COLUMN, record, *(2 * half_width(check) + 8 for check in checks)])
    names = max(width_of(f"{words.process(process)}", NAME) for process in view.processes)
    x = start = MARGIN + names + 14
    before = earlier_checks(view)
    wide = max([apart, *(2 * half_width(check) + 8 for them in before for check in them)])
    count = max(1, *map(len, before)) if before else 1
    earlier: dict[Check, float] = {}
    for them in before:
        for rank, check in enumerate(reversed(them), 1):
            earlier[check] = start + wide * (count - rank) + wide / 2
    x += wide * count - apart / 2
    columns, restarts, breaks = {}, {}, []
    for it in view.shown:
        if it.place in view.gaps:
            breaks.append((x + apart / 2, x + apart / 2 + GAP))
            x += GAP
        x += apart
        columns[it.place] = x
        if isinstance(it, Recovery) and has_restarts(it, view.processes):
            x += apart * 1.25
            restarts[it.number] = x
            x += apart / 2
    rows = rows_of(view.processes, top)
    bottom = max(rows.values()) + BELOW
    return Frame(view, rows, columns, restarts, earlier, tuple(breaks), start, x + apart, bottom)
