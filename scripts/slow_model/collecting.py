"""Reports: `recline collect`, which takes what each process did as its reports come in."""

from collections.abc import Callable
from typing import Any

from .histories import Check, Event, Mark, Name, Recv, Send
from .planning import Computation
from .service import Service
from .texts import (
    MOST_BODY, MOST_STATE, NAMES, Records, Refusal, fields_of, first_record,
    hexadecimal, incarnation, number, refuse, round_number, round_or_none, want,
)

STALE_REPORT = 47
NAMES_DISAGREE = 38
NAMES.update({STALE_REPORT: "StaleReport"})
READERS: dict[str, list[Callable[[str], Any]]] = {
    "send": [number, incarnation, number, hexadecimal],
    "recv": [number, incarnation, number, incarnation, number],
    "check": [number, incarnation, hexadecimal, round_or_none],
    "mark": [number, incarnation, number, round_number],
    "damage": [number, number],
    "bar": [number, number],
    "live": [],
    "forget": [],
    "history": [],
}
OF_FAILED = ["plan", "recover", "bundle"]  # with any number of processes
METHODS = {"history": "history_text"}  # where the method has another name


class Collection(Computation):
    """A computation that is known by what was reported."""

    def add(self, p: int, event: Event) -> None:
        """Adds an event, where the tape has room."""
        self.room(p)
        self.history.tapes[p].append(event)

    def room(self, p: int) -> None:
        """Refuses where a tape is full."""
        refuse(3, self.has_no_room(p, 1))

    def present(self, p: int, inc: int) -> None:
        """Refuses what a process did under another incarnation than its present one."""
        refuse(STALE_REPORT, inc != self.history.incarnations[p])

    def can_be(self, message: Name) -> bool:
        """Whether a sender sent a message that is kept, or can send it still."""
        if message.number < self.floors[message.sender].sends:
            return False
        names = [name for name, _ in self.history.sent(message.sender)]
        if message.number < len(names):
            return message == names[message.number]
        return message.incarnation == self.history.incarnations[message.sender]

    # Reports. The refusals stand in the order in which they are asked.

    def send(self, p: int, inc: int, to: int, body: bytes) -> Records:
        """A process sent a message."""
        self.known(p, to)
        self.present(p, inc)
        refuse(2, len(body) > MOST_BODY)
        self.add(p, Send(to, inc, body))
        name, _ = self.history.sent(p)[-1]
        return [("sent", *name)]

    def recv(self, p: int, inc: int, *fields: int) -> Records:
        """A process received a message."""
        message = Name(*fields)
        self.known(p, message.sender)
        self.present(p, inc)
        self.room(p)
        refuse(NAMES_DISAGREE, not self.can_be(message))
        self.add(p, Recv(message))
        return [("took", *message, None)]

    def check(self, p: int, inc: int, state: bytes, of_round: int | None) -> Records:
        """A process took a check."""
        self.known(p)
        self.present(p, inc)
        refuse(5, len(state) > MOST_STATE)
        self.add(p, Check(state, of_round))
        return [("checked", p, self.history.checks(p))]

    def mark(self, p: int, inc: int, sender: int, of_round: int) -> Records:
        """A marker came to a process."""
        self.known(p, sender)
        self.present(p, inc)
        self.add(p, Mark(sender, of_round))
        return [("marked", of_round, None)]

    def recover(self, *failed: int) -> Records:
        """Goes on from the line that is planned for these failed processes."""
        return self.restarted(failed).records

    def forget(self) -> Records:
        """Lets go what stands before the line where every process fails."""
        return [("forgot", None), *self.let_go(self.live_line())]


class Collecting(Service):
    """A service over a collection, once a good `reports` has come."""

    first = "reports"
    collection: Collection | None = None

    def stands(self) -> bool:
        """Whether the first record has come."""
        return self.collection is not None

    def drop(self) -> None:
        """Drops what was collected."""
        self.collection = None

    def record(self, fields: list[str]) -> tuple[Records, int]:
        """The records of an answer, and 1 where it is a refusal."""
        if self.collection is None:
            self.collection = Collection(first_record(fields, self.first, 3)[1])
            return [], 0
        name, rest = fields[0], fields[1:]
        want(name in READERS or name in OF_FAILED, 32)
        of_failed: list[Callable[[str], Any]] = [number] * len(rest)
        values = fields_of(of_failed if name in OF_FAILED else READERS[name], rest)
        try:
            records: Records = getattr(self.collection, METHODS.get(name, name))(*values)
            return records, 0
        except Refusal as refusal:
            return [("refused", refusal.code, NAMES[refusal.code])], 1
