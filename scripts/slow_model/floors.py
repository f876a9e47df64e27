"""What is let go before a line of checks, and what is kept then, in the numbers of the whole."""

from collections.abc import Sequence

from .histories import NO_FLOOR, Check, Event, Floor, History, Line, Mark, Marks, Recv, Send

MOST_LOST = 2**32 - 1 - 1_000_000  # so many checks or sends of a process are let go at most


def floors_at(history: History, line: Line) -> list[Floor]:
    """The floor of each process at a consistent line of checks.

    The sends before its first message that is in transit there are let go, or all before the line
    where none is.
    """
    floors = []
    transit = [name for name, _ in history.in_transit(line)]
    for p, check in enumerate(line):
        waiting = [name.number for name in transit if name.sender == p]
        settled = history.floor(p).sends + len(history.sent(p, check))
        floors.append(Floor(check, min(waiting, default=settled)))
    return floors


def is_nothing(floors: Sequence[Floor]) -> bool:
    """Whether nothing is let go before these floors."""
    return all(floor == NO_FLOOR for floor in floors)


def kept_history(whole: History, floors: Sequence[Floor], last_round: int) -> History:
    """What is kept of a history: of rounds up to the last one begun at the floors nothing is."""
    kept = History(0)
    kept.incarnations = list(whole.incarnations)
    kept.tapes = [
        kept_tape(whole.tapes[p], p, floors, last_round, whole.floor(p)) for p in whole.processes()
    ]
    kept.floors = [] if is_nothing(floors) else list(floors)
    return kept


def kept_tape(
    tape: Sequence[Event], p: int, floors: Sequence[Floor], last_round: int,
    begins: Floor = NO_FLOOR,
) -> list[Event]:
    """What is kept of a tape: neither the first sends nor their receipts, checks or rounds.

    The tape of a machine that was saved begins at a floor.
    """
    kept: list[Event] = []
    sends, checks = begins.sends, begins.lost_checks
    for event in tape:
        if isinstance(event, Send):
            is_kept = sends >= floors[p].sends
            sends += 1
        elif isinstance(event, Recv):
            is_kept = event.message.number >= floors[event.message.sender].sends
        elif isinstance(event, Mark):
            is_kept = event.round > last_round
        else:
            checks += 1
            is_kept = checks >= floors[p].check
            if event.round is not None and event.round <= last_round:
                event = Check(event.state, None)
        if is_kept:
            kept.append(event)
    return kept


def kept_marks(marks: Marks, floors: Sequence[Floor]) -> Marks:
    """The damaged checks after the floors, and all bars."""
    damaged = {(p, check) for p, check in marks.damaged if check > floors[p].check}
    return Marks(damaged, dict(marks.bars))
