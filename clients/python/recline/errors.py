"""What calls raise. Each exception has the record that it is about, and whose step that is."""

from __future__ import annotations

from typing import TYPE_CHECKING

if TYPE_CHECKING:
    from .values import Plan

_PLACE_OF_PROCESS = {
    "send": 1, "deliver": 2, "check": 1, "begin": 1, "turn": 1, "damage": 1, "bar": 1,
}


def process_of(record: str) -> int | None:
    """Whose step a record is: of a send its sender, of a delivery its addressee; else None."""
    kind, *fields = record.split(",", 3)
    place = _PLACE_OF_PROCESS.get(kind, 0)
    found = fields[place - 1] if 0 < place <= len(fields) else ""
    return int(found) if found.isascii() and found.isdigit() else None


class NotDone(Exception):
    """A record was not done and nothing has changed: the code and name of the cause, the record."""

    def __init__(self, code: int, name: str, record: str = "") -> None:
        super().__init__(code, name, record)
        self.code, self.name, self.record = code, name, record
        self.process = process_of(record)

    def __str__(self) -> str:
        return f"{self.code} {self.name}: {self.record[:80]}"


class Refused(NotDone):
    """The machine refused a step, and nothing has changed. docs/FORMATS.md has each code."""


class Fault(NotDone):
    """A record was not understood, or memory was out (code 0). Nothing has changed.

    The record is off the journal again.
    """


class ServiceEnded(Exception):
    """The service has ended: its status, negative where a signal ended it, and its last words.

    The call that first raises this has put its record into the journal: where the journal is
    opened again the record is done, and `Service.last_replayed` has its answer. So the call must
    not be made again. Later calls on the same `Service` raise it too, and do nothing. `record` is
    the oldest one that was sent and not answered, "" where there is none.
    """

    def __init__(self, status: int | None, said: str, record: str = "") -> None:
        super().__init__(status, said, record)
        self.status, self.said, self.record = status, said, record
        self.process = process_of(record)

    def __str__(self) -> str:
        said = self.said.strip() or "it said nothing"
        return f"the service has ended, status {self.status}: {said}"


class ReplaysMissing(Exception):
    """A recovery is done, and the service has no memory to tell the bodies of its replays.

    `plan` is whole but for these: its replays have their names, -1 as `to`, and no bytes.
    """

    def __init__(self, plan: Plan, record: str) -> None:
        super().__init__(plan, record)
        self.plan, self.record, self.process = plan, record, process_of(record)

    def __str__(self) -> str:
        return f"the recovery is done, and memory is out for the bodies of its replays: {self.plan}"


class JournalError(Exception):
    """The journal is no journal of this world, or another client has it. It is as it was.

    `record` is the one that is wrong, where one is.
    """

    def __init__(self, told: str, record: str = "") -> None:
        super().__init__(told, record)
        self.told, self.record, self.process = told, record, process_of(record)

    def __str__(self) -> str:
        return self.told
