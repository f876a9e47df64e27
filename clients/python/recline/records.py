"""Records as they are written, and what their answers say."""

from __future__ import annotations

import itertools
import operator
from collections.abc import Callable, Iterable, Sequence
from typing import Any, Generic, SupportsIndex, TypeVar, cast

from .errors import Fault, Refused
from .histories import Claim, History
from .values import (
    Begun, Channel, Delivered, Floor, Marked, MessageName, Passed, Plan, Repeated, Replay, Round,
    Stale, Took, Turned,
)

T = TypeVar("T")
MOST_NUMBER, MOST_PLACE, MOST_ROUND = 2**32 - 1, 2**64 - 1, 65_535
MOST_LINE = 65_536  # bytes of a record without its line feed
QUESTIONS = ("rounds", "history", "bundle", "plan", "live", "answer", "save")  # of no change
COMMANDS = (
    "send", "deliver", "check", "begin", "turn", "damage", "bar", "recover", "forget", *QUESTIONS,
)
# Which processes have failed: several, or one.
Failed = Iterable[int] | int


class Answer(Generic[T]):
    """A record, and what it is answered: `value`, once that is there."""

    __slots__ = (
        "record", "_read", "_not_done", "place", "is_aside", "_value", "error", "_is_there", "told"
    )

    def __init__(
        self, record: str, read: Callable[[str], T], not_done: list[Answer[Any]] | None = None,
        place: int = -1, is_aside: bool = False,
    ) -> None:
        self.record, self._read, self._not_done = record, read, not_done
        self.place = place  # in the journal
        self.is_aside = is_aside  # whether it stands in no journal
        self._value: T | None = None
        self.error: Exception | None = None  # what `value` raises, once that is known
        self._is_there = False
        self.told: Callable[[], None] | None = None  # what is called once there is an answer

    def __repr__(self) -> str:
        told = "not answered yet"
        if self._is_there or self.error is not None:
            told = repr(self.error or self._value)
        return f"<Answer to {self.record[:80]!r}: {told}>"

    @property
    def value(self) -> T:
        """What the call answers, or raises: `Refused`, `Fault`, `ServiceEnded`.

        `RuntimeError` before that, and where the service ended before the record was sent.
        """
        if self.error is not None:
            raise self.error
        if not self._is_there:
            raise RuntimeError("not answered yet: it will be at the end of the block of together()")
        return cast(T, self._value)

    def settle(self, text: str) -> None:
        """Takes the text of the answer, without its last line feed."""
        if text.startswith(("refused,", "fault,")):
            kind, code, name = text.split(",")
            cause = Refused if kind == "refused" else Fault
            self.error = cause(int(code), name, self.record)
            if self._not_done is not None:
                self._not_done.append(self)
        else:
            self._value = self._read(text)
        self._is_there = True
        if self.told:
            self.told()

    def fail(self, error: Exception) -> None:
        """There is no answer, and why."""
        self.error = error
        if self.told:
            self.told()

    def read_again(self, read: Callable[[str], T]) -> None:
        """Reads an answer that was kept as its text."""
        if self.error is None:
            self._value = read(str(self._value))

    def change(self, value: T) -> None:
        """Puts a value in the place of the one that was read."""
        self._value = value


# The fields of records.

def number(value: int, most: int = MOST_NUMBER) -> str:
    """A number as a field."""
    if not 0 <= operator.index(value) <= most:
        raise ValueError(f"{value} is not from 0 to {most}")
    return str(operator.index(value))


def round_number(value: int) -> str:
    """The number of a round as a field."""
    if operator.index(value) < 1:
        raise ValueError(f"{value} is not from 1 to {MOST_ROUND}")
    return number(value, MOST_ROUND)


def hexadecimal(value: bytes) -> str:
    """Bytes as a field."""
    return memoryview(value).hex()


def numbers(failed: Failed) -> list[str]:
    """Processes as fields, each once, in order."""
    if isinstance(failed, (str, bytes, bytearray, memoryview)):
        raise TypeError(f"processes are given by number, as 1 or [1, 2], and not as {failed!r}")
    if isinstance(failed, SupportsIndex):
        return [number(operator.index(failed))]
    return [number(value) for value in sorted(set(failed))]


# What the texts of answers say.

def fields_of(text: str, kind: str) -> list[int]:
    """The numbers of a record of this kind."""
    first, *fields = text.split(",")
    if first != kind:
        raise ValueError(text)
    return [int(field) for field in fields]


def message_of(fields: Sequence[str]) -> MessageName:
    """The fields of a name."""
    return MessageName(*map(int, fields))


def choice_of(field: str) -> int | None:
    """The field of a choice; None is where the process stands."""
    return None if field == "now" else int(field)


def read_nothing(text: str) -> None:
    """The answer to a `world` record."""
    if text:
        raise ValueError(text)


def read_sent(text: str) -> MessageName:
    """The answer to `send`."""
    return MessageName(*fields_of(text, "sent"))


def read_delivered(text: str) -> Delivered:
    """The answer to `deliver`."""
    kind, *fields = text.split(",")
    if kind == "took":
        return Took(message_of(fields[:3]), None if fields[3] == "-" else int(fields[3]))
    if kind == "marked":
        return Marked(int(fields[0]), {"forced": True, "closed": False}[fields[1]])
    if kind == "stale":
        return Stale(message_of(fields))
    if kind == "repeated":
        return Repeated(message_of(fields))
    raise ValueError(text)


def read_checked(text: str) -> int:
    """The answer to `check`."""
    _process, check = fields_of(text, "checked")
    return check


def read_begun(text: str) -> Begun:
    """The answer to `begin`."""
    return Begun(*fields_of(text, "begun"))


def read_turned(text: str) -> Turned:
    """The answer to `turn`."""
    return Turned(*fields_of(text, "turned"))


def read_damaged(text: str) -> None:
    """The answer to `damage`."""
    _process, _check = fields_of(text, "damaged")


def read_barred(text: str) -> None:
    """The answer to `bar`."""
    _process, _check = fields_of(text, "barred")


def read_forgot(text: str) -> tuple[Floor, ...]:
    """The answer to `forget`."""
    first, *others = text.split("\n")
    if not first.startswith("forgot,"):
        raise ValueError(text)
    records = [fields_of(record, "floor") for record in others]
    return tuple(Floor(check, sends) for _process, check, sends in records)


def _read_line_of(text: str, kind: str) -> Plan:
    """The answer to `recover`, `plan` or `live`: its lines, its entries and its replays.

    The replays have their names alone; `with_bodies` gives them the rest.
    """
    first, *others = text.split("\n")
    sweeps, entries, replays = fields_of(first, kind)
    records = [record.split(",") for record in others]
    processes = len(records) - entries - replays
    lines, rest = records[:processes], records[processes:]
    choices = [choice_of(line[2]) for line in lines]
    return Plan(
        tuple(choices),
        tuple(None if at is None else bytes.fromhex(line[4]) for at, line in zip(choices, lines)),
        tuple(int(line[3]) for line in lines),
        tuple(Passed(int(it[1]), choice_of(it[2]), message_of(it[3:])) for it in rest[:entries]),
        tuple(Replay(message_of(it[1:4]), -1, b"") for it in rest[entries:]),
        sweeps,
    )


def read_plan(text: str) -> Plan:
    """The answer to `recover`."""
    return _read_line_of(text, "recovered")


def read_planned(text: str) -> Plan:
    """The answer to `plan` and `live`."""
    return _read_line_of(text, "planned")


def with_bodies(plan: Plan, history: str) -> Plan:
    """The plan with the addressees and bodies of its replays, by the history text after it."""
    wanted: dict[MessageName, Replay] = {it.message: it for it in plan.replays}
    let_go: dict[int, int] = {}  # by sender, how many of its sends are
    sender = place = 0
    for record in history.splitlines() if wanted else ():
        if record.startswith("floor,"):
            _, process, _, sends = record.split(",")
            let_go[int(process)] = int(sends)
        elif record.startswith("tape,"):
            sender = int(record.split(",")[1])
            place = let_go.get(sender, 0)
        elif record.startswith("send,"):
            _, to, incarnation, body = record.split(",")
            name = MessageName(sender, int(incarnation), place)
            if name in wanted:
                wanted[name] = Replay(name, int(to), bytes.fromhex(body))
            place += 1
    return plan._replace(replays=tuple(wanted[it.message] for it in plan.replays))


def _part(record: list[str]) -> list[str]:
    """A record of a round whole, and of a message in transit what names its channel."""
    return record if record[0] == "round" else record[:4]


def read_rounds(text: str) -> tuple[Round, ...]:
    """The answer to `rounds`: each round, and then what its channels held."""
    records = [record.split(",") for record in text.split("\n")[1:]]
    rounds: list[tuple[list[int], list[Channel]]] = []
    for (kind, *fields), group in itertools.groupby(records, _part):
        of_group = [int(field) for field in fields]
        if kind == "round":
            rounds.append((of_group, []))
        else:
            names = tuple(message_of([it[2], *it[4:]]) for it in group)
            rounds[-1][1].append(Channel(of_group[1], of_group[2], names))
    return tuple(Round(of[0], tuple(of[1:]), tuple(channels)) for of, channels in rounds)


def read_saved(text: str) -> str:
    """The answer to `save`, with its last line feed."""
    if not text.startswith("history,") or not text.rpartition("\n")[2].startswith("saved,"):
        raise ValueError(text)
    return text + "\n"


def read_history(text: str) -> History:
    """The answer to `history`, with its last line feed."""
    return History(text + "\n")


def read_claim(text: str) -> Claim:
    """The answer to `bundle`, with its last line feed."""
    return Claim(text + "\n")


READERS: dict[str, Callable[[str], Any]] = {
    "world": read_nothing, "send": read_sent, "deliver": read_delivered, "check": read_checked,
    "begin": read_begun, "turn": read_turned, "damage": read_damaged, "bar": read_barred,
    "recover": read_plan, "forget": read_forgot,
}


def text_of(answers: Iterable[Answer[Any]]) -> bytes:
    """Records as they are written."""
    return "".join([f"{answer.record}\n" for answer in answers]).encode("latin-1")


def is_question(record: str) -> bool:
    """Whether a record changes nothing."""
    return record.startswith(QUESTIONS)


def kept_of(answers: Iterable[Answer[Any]], keeps_questions: bool) -> list[Answer[Any]]:
    """Those that stand in the journal."""
    return [
        answer for answer in answers
        if not answer.is_aside and (keeps_questions or not is_question(answer.record))
    ]
