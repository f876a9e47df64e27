"""What stands on links, what a recovery comes to, and who is told of it."""

from typing import NamedTuple, Protocol

from recline import MessageName, Plan, Round


class Message(NamedTuple):
    """A message on a link."""

    name: MessageName
    to: int
    body: bytes


class Marker(NamedTuple):
    """The marker of a round on a link."""

    round: int


class Recovery(NamedTuple):
    """What a recovery came to."""

    failed: tuple[int, ...]
    plan: Plan
    was: tuple[int, ...]  # the turn of each worker before it
    now: tuple[int, ...]  # and the one in which it goes on
    begin: tuple[int, ...]  # who had no process before it: a recovery was under way
    replays: list[Message]
    last_round: Round | None  # the last completed round, where there are rounds
    is_next: bool  # whether a new world begins by it


class Watch(Protocol):
    """Who is told what happens."""

    def started(self, worker: int, process: int, turn: int) -> None:
        """A process was started for a worker."""

    def died(self, worker: int, turn: int, how: str) -> None:
        """A worker was killed."""

    def missed(self, worker: int) -> None:
        """A worker could not be killed as planned: it had ended."""

    def recovered(self, recovery: Recovery) -> None:
        """There was a recovery."""

    def completed(self, number: int) -> None:
        """A round was completed."""

    def begins_world(self) -> None:
        """A new world is about to begin, since the tapes of this one are getting full."""

    def is_at(self, turn: int) -> None:
        """All workers are in this turn or a later one."""
