"""What calls answer, as values."""

from __future__ import annotations

from typing import NamedTuple


class MessageName(NamedTuple):
    """A message: its sender, how often that had gone back before, its number there, from 0."""

    sender: int
    incarnation: int
    number: int


class Floor(NamedTuple):
    """What of a process is let go: what stood before its check, and so many of its first sends.

    With check 0 that is its initial state, and no check is let go.
    """

    check: int
    sends: int

    @property
    def first_check(self) -> int:
        """The number of the first check that is kept."""
        return max(self.check, 1)


class Took(NamedTuple):
    """A message was received; `forced` is the round of a check that had to be taken before."""

    message: MessageName
    forced: int | None


class Marked(NamedTuple):
    """A marker of a round was taken; `forced`: the process took its check of the round for it."""

    round: int
    forced: bool


class Stale(NamedTuple):
    """A copy of a message that its sender, gone back, has not sent. Nothing has changed."""

    message: MessageName


class Repeated(NamedTuple):
    """A further copy of a message that was received before. Nothing has changed."""

    message: MessageName


Delivered = Took | Marked | Stale | Repeated


class Begun(NamedTuple):
    """A process began a round of snapshots, and took this check of it."""

    process: int
    check: int
    round: int


class Turned(NamedTuple):
    """A process took its check of the open round."""

    process: int
    check: int
    round: int


class Passed(NamedTuple):
    """An entry of a certificate: a choice that cannot be kept, and its orphan message.

    The choice is a check, 0 the initial state, or None where the process stands now.
    """

    process: int
    choice: int | None
    orphan: MessageName


class Replay(NamedTuple):
    """A message in transit at a line, which is to be delivered again: its addressee and bytes."""

    message: MessageName
    to: int
    body: bytes


class Plan(NamedTuple):
    """Where each process goes on; `line`, `states` and `incarnations` have one item a process."""

    line: tuple[int | None, ...]  # the check that it goes back to, 0 the initial state; None: stays
    states: tuple[bytes | None, ...]  # what that check stored, b"" for an initial state
    incarnations: tuple[int, ...]  # under which it goes on: how often it has gone back so far
    certificate: tuple[Passed, ...]
    replays: tuple[Replay, ...]  # in transit at the line: to be delivered again
    sweeps: int  # how often the planner went through the processes


class RolledOver(NamedTuple):
    """A new world that goes on from the line of the old one, where every process goes back.

    In the new world each process has its state of `plan` as its check 1, and `replays` are the
    messages of the plan by their names there: they are sent, and not delivered.
    """

    plan: Plan
    replays: tuple[Replay, ...]


class Channel(NamedTuple):
    """What was in transit from a process to another at the checks of a round, in order."""

    sender: int
    to: int
    messages: tuple[MessageName, ...]


class Round(NamedTuple):
    """A completed round, its check of each process, and its channels that held something."""

    number: int
    checks: tuple[int, ...]
    channels: tuple[Channel, ...]
