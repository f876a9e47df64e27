"""History texts and check texts as values. Each is the text that it was, and says what is in it.

A text of version 4 is of what is kept where something was let go, in numbers of its own. The values
have the names and numbers of the whole, as all answers of a service do.
"""

from __future__ import annotations

import functools
from collections.abc import Iterator
from typing import NamedTuple

from .values import Floor, MessageName, Passed, Replay

_NOTHING = Floor(0, 0)


class Sent(NamedTuple):
    """A message left the process."""

    to: int
    incarnation: int
    body: bytes


class Received(NamedTuple):
    """A message came in."""

    message: MessageName


class Checked(NamedTuple):
    """A check was taken, of a round or, with None, of none."""

    state: bytes
    round: int | None


class MarkerCame(NamedTuple):
    """The marker of a round came in from a process."""

    sender: int
    round: int


Event = Sent | Received | Checked | MarkerCame


class Tape(NamedTuple):
    """What a process did, the oldest first, and the incarnation under which it stands.

    Where something was let go that is what is kept, and `floor` says what is not.
    """

    incarnation: int
    events: tuple[Event, ...]
    floor: Floor = _NOTHING

    def messages(self, process: int) -> Iterator[tuple[MessageName, Sent]]:
        """The messages that the process, of this number, has sent, each with its name."""
        sends = (event for event in self.events if isinstance(event, Sent))
        for number, sent in enumerate(sends, self.floor.sends):
            yield MessageName(process, sent.incarnation, number), sent

    def checks(self) -> tuple[Checked, ...]:
        """Its checks: check c stands at place c - 1, or c - `floor.first_check`."""
        return tuple(event for event in self.events if isinstance(event, Checked))


def _round(field: str) -> int | None:
    """The field of a check's round."""
    return None if field == "-" else int(field)


class _Floors(dict[int, Floor]):
    """What was let go of each process, of which all numbers of a text are lower."""

    def __missing__(self, _process: int) -> Floor:
        """Nothing, of a process that the text does not tell it of."""
        return _NOTHING

    def message(self, fields: list[str]) -> MessageName:
        """A message by its fields."""
        sender, incarnation, number = map(int, fields)
        return MessageName(sender, incarnation, number + self[sender].sends)

    def check(self, process: int, field: str) -> int:
        """A check by its field; none is before the floor."""
        floor = self[process]
        return max(int(field) + floor.first_check - 1, floor.check)

    def choice(self, process: int, field: str) -> int | None:
        """A choice by its field."""
        return None if field == "now" else self.check(process, field)


def _floors(records: list[list[str]]) -> _Floors:
    """What a text says that was let go."""
    found = [list(map(int, fields)) for kind, *fields in records if kind == "floor"]
    return _Floors({process: Floor(check, sends) for process, check, sends in found})


def _event(kind: str, fields: list[str], floors: _Floors) -> Event:
    """The event of a record."""
    if kind == "send":
        return Sent(int(fields[0]), int(fields[1]), bytes.fromhex(fields[2]))
    if kind == "recv":
        return Received(floors.message(fields))
    if kind == "check":
        return Checked(bytes.fromhex(fields[0]), _round(fields[1]))
    if kind == "mark":
        return MarkerCame(int(fields[0]), int(fields[1]))
    raise ValueError(f"no event: {kind}")


def _records(text: str) -> list[list[str]]:
    """The records of a text, as fields."""
    return [line.split(",") for line in text.splitlines() if line]


def _tapes(records: list[list[str]]) -> tuple[Tape, ...]:
    """The tapes of a history's records, the first one left out."""
    found: list[tuple[int, list[Event]]] = []
    floors = _floors(records)
    for kind, *fields in records:
        if kind == "tape":
            found.append((int(fields[1]), []))
        elif kind != "floor":
            found[-1][1].append(_event(kind, fields, floors))
    return tuple(
        Tape(incarnation, tuple(events), floors[process])
        for process, (incarnation, events) in enumerate(found)
    )


class Start(NamedTuple):
    """Where a process goes on: its incarnation, and its state, None where it stands."""

    process: int
    incarnation: int
    state: bytes | None


class History(str):
    """A history text, which `docs/FORMATS.md` describes, and its tapes, one for each process."""

    @functools.cached_property
    def tapes(self) -> tuple[Tape, ...]:
        """What each process did. They are read once, when they are first asked for."""
        return _tapes(_records(self)[1:])

    @functools.cached_property
    def floors(self) -> tuple[Floor, ...]:
        """What each process let go; empty where nothing was let go."""
        return tuple(_floors(_records(self)).values())


class Claim(str):
    """A check text, for `recline check`: a history, and a line that is claimed to be its latest."""

    @functools.cached_property
    def _claims(self) -> list[list[str]]:
        """The records after the history."""
        records = _records(self)
        of_history = ("history", "floor", "tape", "send", "recv", "mark")
        first = next(
            (at for at, (kind, *_) in enumerate(records) if kind not in (*of_history, "check")),
            len(records),
        )
        return records[first:]

    def _of(self, kind: str) -> list[list[str]]:
        """The fields of the records of a kind."""
        return [fields for found, *fields in self._claims if found == kind]

    @functools.cached_property
    def _floors(self) -> _Floors:
        """What was let go."""
        return _floors(_records(self))

    @functools.cached_property
    def history(self) -> History:
        """The history that the claim is about."""
        records = _records(self)
        of_history = records[: len(records) - len(self._claims)]
        return History("".join(",".join(record) + "\n" for record in of_history))

    @property
    def failed(self) -> tuple[int, ...]:
        """The processes that failed."""
        return tuple(int(field) for fields in self._of("failed") for field in fields)

    @property
    def damaged(self) -> tuple[tuple[int, int], ...]:
        """The damaged checks, each a process and its check."""
        return self._checks("damage")

    @property
    def bars(self) -> tuple[tuple[int, int], ...]:
        """The bars, each a process and the check from which it may go on at the latest."""
        return self._checks("bar")

    def _checks(self, kind: str) -> tuple[tuple[int, int], ...]:
        """The checks that records of a kind name."""
        found = [(int(fields[0]), fields[1]) for fields in self._of(kind)]
        return tuple((process, self._floors.check(process, field)) for process, field in found)

    @property
    def line(self) -> tuple[int | None, ...]:
        """The line: for each process its check, or None where it stands."""
        fields: list[str] = next(iter(self._of("line")), [])
        return tuple(self._floors.choice(process, field) for process, field in enumerate(fields))

    @property
    def starts(self) -> tuple[Start, ...]:
        """Where each process goes on; a check text of version 3 claims that, and one of 4 may."""
        return tuple(
            Start(int(it[0]), int(it[1]), None if it[2] == "-" else bytes.fromhex(it[2]))
            for it in self._of("start")
        )

    @property
    def replays(self) -> tuple[Replay, ...]:
        """What is sent again; a check text of version 3 claims that, and one of 4 may."""
        return tuple(
            Replay(self._floors.message(it[:3]), int(it[3]), bytes.fromhex(it[5]))
            for it in self._of("replay")
        )

    @property
    def certificate(self) -> tuple[Passed, ...]:
        """Why no process can keep more."""
        return tuple(
            Passed(
                int(fields[0]),
                self._floors.choice(int(fields[0]), fields[1]),
                self._floors.message(fields[2:]),
            )
            for fields in self._of("pass")
        )
