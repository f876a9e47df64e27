"""Claims and check texts: `recline check`."""

from collections.abc import Callable, Iterator, Sequence
from dataclasses import dataclass, field
from typing import Any, NamedTuple

from .histories import Check, Entry, Event, Floor, History, Line, Mark, Marks, Name, Recv, Send
from .texts import (
    MOST_BODY, MOST_EVENTS, MOST_STATE, NAMES, NOW, OF_FORGET, Answer, Fault, Record, choice,
    fields_of, first_record, hexadecimal, incarnation, most_in, number, numbered, records_of,
    round_number, round_or_none, state_or_none, told, want, written,
)

READERS: dict[str, list[Callable[[str], Any]]] = {
    "floor": [number, number, number],
    "tape": [number, incarnation],
    "send": [number, incarnation, hexadecimal],
    "recv": [number, incarnation, number],
    "check": [hexadecimal, round_or_none],
    "mark": [number, round_number],
    "damage": [number, number],
    "bar": [number, number],
    "pass": [number, choice, number, incarnation, number],
    "start": [number, incarnation, state_or_none],
    "replay": [number, incarnation, number, number, number, hexadecimal],
    "end": [],
}


class Start(NamedTuple):
    """The incarnation that a process goes on in, and its stored state, none where it stands."""
    incarnation: int
    state: bytes | None


class Replay(NamedTuple):
    """A message that is sent again: its addressee, its send's place on the tape, and its body."""
    message: Name
    to: int
    place: int
    body: bytes


@dataclass
class Claim:
    """That a line is the latest of a history, for some marks and a failed set.

    The entries show it. A whole answer has a start for each process, and the messages that are sent
    again; a claim of versions 1 and 2 has neither. All numbers are those of the whole.
    """
    history: History
    marks: Marks = field(default_factory=Marks)
    failed: set[int] = field(default_factory=set)
    line: Line = field(default_factory=list)
    entries: list[Entry] = field(default_factory=list)
    starts: list[Start] = field(default_factory=list)
    replays: list[Replay] = field(default_factory=list)

    def version(self) -> int:
        """The version that the claim is written in by itself."""
        if self.history.floors:
            return self.history.version()
        if self.starts:
            return 3
        return 2 if self.marks.bars else self.history.version()

    def records(self) -> Iterator[Record]:
        """The check text of the claim, record by record, with the numbers of what is kept."""
        choice_of, name_of = self.history.kept_choice, self.history.kept_name
        yield from self.history.records(self.version())
        yield from mark_records(self.history, self.marks)
        yield "failed", *sorted(self.failed)
        yield "line", *(choice_of(p, it) for p, it in enumerate(self.line))
        for at, passed, message in self.entries:
            yield "pass", at, choice_of(at, passed), *name_of(message)
        for p, start in enumerate(self.starts):
            yield "start", p, *start
        for replay in self.replays:
            yield "replay", *name_of(replay.message), *replay[1:]
        yield ("end",)

    def has_shape(self) -> bool:
        """Whether it names only what the history has, and has a choice for each process."""
        has = self.history.has_choice
        return (
            len(self.line) == len(self.history.tapes)
            and all(has(p, passed) for p, passed in enumerate(self.line))
            and all(has(p, check) for p, check in self.marks.damaged)
            and all(p < len(self.line) and has(p, check) for p, check in self.marks.bars.items())
            and all(has(entry.at, entry.choice) for entry in self.entries)
        )

    def first_fault(self) -> tuple[int | None, int] | None:
        """The entry and the number of the first fault of the claim, or none."""
        if not self.has_shape():
            return None, 16
        ceilings = self.history.latest_choices(self.marks, self.failed)
        for i, (at, passed, message) in enumerate(self.entries):
            if passed != ceilings[at]:
                return i, 11
            if message not in self.history.received(at, passed):
                return i, 12
            if message in self.history.sent_before(ceilings):
                return i, 13
            ceilings[at] = self.history.next_lower(self.marks, at, passed)
        if ceilings != self.line:
            return None, 14
        if not self.history.is_consistent(self.line):
            return None, 15
        return self.fault_of_answer() if self.starts else None

    def right_starts(self) -> list[Start]:
        """Where each process goes on after a restart at the line."""
        history, stays = self.history, [passed == NOW for passed in self.line]
        return [
            Start(history.incarnations[p] + (not stays[p]), history.stored(p, self.line[p]))
            for p in history.processes()
        ]

    def right_replays(self) -> list[Replay]:
        """The messages in transit at the line, by sender and number."""
        history = self.history
        return [
            Replay(name, to, *history.send_of(name)) for name, to in history.in_transit(self.line)
        ]

    def fault_of_answer(self) -> tuple[int | None, int] | None:
        """The first fault of the starts and the replays, of a claim whose line is right."""
        for p, (start, right_start) in enumerate(zip(self.starts, self.right_starts())):
            if start.state != right_start.state:
                return p, 41
            if start.incarnation != right_start.incarnation:
                return p, 42
        right = self.right_replays()
        names = [replay.message for replay in right]
        given = [replay.message for replay in self.replays]
        for i, replay in enumerate(self.replays):
            if given[i] not in names:
                return i, 43
            if replay not in right:
                return i, 44
            if i and names.index(given[i]) <= names.index(given[i - 1]):
                return i, 45
        return None if given == names else (None, 46)


def mark_records(history: History, marks: Marks) -> Iterator[Record]:
    """The records of damaged checks and of bars, with the numbers of what is kept."""
    for p, check in sorted(marks.damaged):
        yield "damage", p, history.kept_choice(p, check)
    for p, check in sorted(marks.bars.items()):
        yield "bar", p, history.kept_choice(p, check)


class Reading:
    """What was read of a check text among n processes, and the part that its last record is in."""

    def __init__(self, version: int, n: int) -> None:
        self.version, self.n, self.part = version, n, "tapes"
        self.claim = Claim(History(0))
        self.history = self.claim.history
        self.tapes = self.history.tapes

    def may_stand(self, kind: str) -> bool:
        """Whether a record of this kind may come next."""
        has_all = len(self.tapes) == self.n
        has_floors = self.version < OF_FORGET or len(self.history.floors) == self.n
        if kind == "floor":
            return not has_floors
        if kind == "tape":
            return self.part == "tapes" and has_floors and not has_all
        if kind in ("send", "recv", "check", "mark"):
            return self.part == "tapes" and len(self.tapes) > 0
        if kind == "damage":
            return self.part in ("tapes", "damages") and has_all
        if kind == "bar" and self.version == 1:
            return False
        if kind in ("bar", "failed"):
            return self.part in ("tapes", "damages", "bars") and has_all
        if kind in ("line", "pass"):
            return self.part == {"line": "failed", "pass": "line"}[kind]
        if kind == "end" and self.version != 3 and self.part == "line":
            return True
        if self.version < 3:
            return False
        has_all = len(self.claim.starts) == self.n
        if kind == "start":
            return self.part in ("line", "starts") and not has_all
        return kind in ("replay", "end") and self.part == "starts" and has_all

    def read(self, fields: Sequence[str]) -> None:
        """Takes the next record."""
        kind, rest = fields[0], fields[1:]
        want(self.may_stand(kind), 32)
        getattr(self, f"read_{kind}")(*fields_of(self.readers_of(kind, len(rest)), rest))

    def readers_of(self, kind: str, width: int) -> Sequence[Callable[[str], Any]]:
        """What reads the fields of a record of that many."""
        if kind == "failed":
            return [number] * width
        if kind == "line":
            want(1 <= width <= most_in(self.version), 32)
            return [choice] * width
        return READERS[kind]

    def known(self, *processes: int) -> None:
        """Asks that there are these processes."""
        want(all(p < self.n for p in processes), 1)

    def add(self, event: Event) -> None:
        """Adds an event to the tape that is read."""
        want(len(self.tapes[-1]) < MOST_EVENTS, 3)
        self.tapes[-1].append(event)

    def whole_choice(self, p: int, kept: int) -> int:
        """A choice by its number in the whole."""
        return kept if kept == NOW else kept + self.history.first(p)

    def whole_name(self, sender: int, inc: int, count: int) -> Name:
        """A message by its number in the whole."""
        return Name(sender, inc, count + self.history.floor(sender).sends)

    def read_floor(self, p: int, check: int, sends: int) -> None:
        """What the next process has let go."""
        want(p == len(self.history.floors), 32)
        self.history.floors.append(Floor(check, sends))

    def read_tape(self, p: int, inc: int) -> None:
        """Begins the tape of the next process."""
        want(p == len(self.tapes), 32)
        self.tapes.append([])
        self.history.incarnations.append(inc)

    def read_send(self, to: int, inc: int, body: bytes) -> None:
        """A send."""
        self.known(to)
        want(len(body) <= MOST_BODY, 2)
        self.add(Send(to, inc, body))

    def read_recv(self, sender: int, inc: int, count: int) -> None:
        """A receipt."""
        self.known(sender)
        self.add(Recv(self.whole_name(sender, inc, count)))

    def read_check(self, state: bytes, of_round: int | None) -> None:
        """A check."""
        want(len(state) <= MOST_STATE, 5)
        self.add(Check(state, of_round))

    def read_mark(self, sender: int, of_round: int) -> None:
        """The receipt of a marker."""
        self.known(sender)
        self.add(Mark(sender, of_round))

    def read_damage(self, p: int, check: int) -> None:
        """A damaged check."""
        self.known(p)
        want(check != 0, 7)
        whole = self.whole_choice(p, check)
        want((p, whole) not in self.claim.marks.damaged, 8)
        self.claim.marks.damaged.add((p, whole))
        self.part = "damages"

    def read_bar(self, p: int, check: int) -> None:
        """A bar."""
        self.known(p)
        whole = self.whole_choice(p, check)
        want(whole < self.claim.marks.bars.get(p, NOW), 40)
        self.claim.marks.bars[p] = whole
        self.part = "bars"

    def read_failed(self, *failed: int) -> None:
        """The failed processes."""
        self.known(*failed)
        self.claim.failed.update(failed)
        self.part = "failed"

    def read_line(self, *line: int) -> None:
        """The line."""
        self.claim.line.extend(self.whole_choice(p, it) for p, it in enumerate(line))
        self.part = "line"

    def read_pass(self, at: int, passed: int, sender: int, inc: int, count: int) -> None:
        """An entry of the certificate."""
        self.known(at, sender)
        message = self.whole_name(sender, inc, count)
        self.claim.entries.append(Entry(at, self.whole_choice(at, passed), message))

    def read_start(self, p: int, inc: int, state: bytes | None) -> None:
        """Where the next process goes on."""
        self.known(p)
        want(p == len(self.claim.starts), 32)
        want(len(state or b"") <= MOST_STATE, 5)
        self.claim.starts.append(Start(inc, state))
        self.part = "starts"

    def read_replay(self, *fields: Any) -> None:
        """A message that is sent again."""
        sender, inc, count, to, place, body = fields
        self.known(sender, to)
        want(len(body) <= MOST_BODY, 2)
        self.claim.replays.append(Replay(self.whole_name(sender, inc, count), to, place, body))

    def read_end(self) -> None:
        """The last record."""
        self.part = "end"


def read_claim(text: bytes) -> Claim:
    """What a check text spells, or its first fault."""
    records = records_of(text)
    reading = Reading(*numbered(1, first_record, records[0], "history", 3))
    for i, fields in enumerate(records[1:], 2):
        numbered(i, reading.read, fields)
    if reading.part != "end":
        raise Fault(32, len(records) + 1)
    return reading.claim


def check(text: bytes) -> Answer:
    """What the program has to write, say and answer."""
    try:
        claim = read_claim(text)
    except Fault as fault:
        return told(fault)
    found = claim.first_fault()
    if found is None:
        return b"valid\n", b"", 0
    entry, code = found
    return written([("invalid", entry, code, NAMES[code])]), b"", 1
