"""What the stress program prints of a generation of workers, as values.

A generation is printed as records, one to a line, fields with commas between them: what each
worker remembers of its calls, three histories (the workers' own tapes, what was collected, what was
gathered), what the collector planned on the way, marks of damage, and the plan at the end.
"""

import dataclasses
from collections.abc import Iterable, Iterator

# A message: its sender, the sender's incarnation, and its number.
Name = tuple[int, int, int]
# The number of a check, or None for where a process stands.
Choice = int | None
# An entry of a certificate: a process, the choice that it passes over, and an orphan there.
Passed = tuple[int, Choice, Name]


class Difference(Exception):
    """Something is not as the definitions say."""


@dataclasses.dataclass
class Plan:
    """A planned line, its certificate and its replays."""

    sweeps: int = 0
    line: list[Choice] = dataclasses.field(default_factory=list)
    replays: list[Name] = dataclasses.field(default_factory=list)
    passed: list[Passed] = dataclasses.field(default_factory=list)


@dataclasses.dataclass
class Live:
    """A plan that was made while the workers ran, and of how many events of each tape."""

    events: list[int]
    plan: Plan = dataclasses.field(default_factory=Plan)


@dataclasses.dataclass
class Texts:
    """A history as it was printed: of each process its incarnation and its records."""

    incarnations: list[int] = dataclasses.field(default_factory=list)
    records: list[list[str]] = dataclasses.field(default_factory=list)


@dataclasses.dataclass
class Log:
    """What a worker remembers."""

    digest: int
    reported: int
    full: int
    nothing: int
    faults: int


@dataclasses.dataclass
class Generation:
    """All that was printed of a generation."""

    seed: int
    lineage: int
    number: int
    n: int
    capacity: int
    failed: set[int] = dataclasses.field(default_factory=set)
    logs: dict[int, Log] = dataclasses.field(default_factory=dict)
    own: Texts = dataclasses.field(default_factory=Texts)
    collected: Texts = dataclasses.field(default_factory=Texts)
    gathered: Texts = dataclasses.field(default_factory=Texts)
    watch: list[int] = dataclasses.field(default_factory=list)
    lives: list[Live] = dataclasses.field(default_factory=list)
    damages: list[list[int]] = dataclasses.field(default_factory=list)
    is_right: bool = False
    plan: Plan = dataclasses.field(default_factory=Plan)
    restarted: Plan | None = None  # the plan that it went on from


def choice(field: str) -> Choice:
    """The number of a check, or None for where a process stands."""
    return None if field == "now" else int(field)


def name_of(fields: list[str]) -> Name:
    """The message that three fields name."""
    sender, incarnation, number = map(int, fields)
    return sender, incarnation, number


class Reader:
    """Reads generations from lines; keeps those of the present lineage, for where it fails."""

    def __init__(self, lines: Iterable[str]) -> None:
        self.lines = iter(lines)
        self.kept: list[str] = []
        self.is_done = False

    def fields(self) -> list[str] | None:
        """The fields of the next record, or None after the last one."""
        line = next(self.lines, None)
        if line is None:
            return None
        self.kept.append(line)
        return line.rstrip("\n").split(",")

    def history(self, n: int) -> Texts:
        """A history of so many processes, up to its last record."""
        if self.fields() != ["history", "1", str(n)]:
            raise Difference("a history does not begin with its first record")
        texts = Texts()
        for line in self.lines:
            self.kept.append(line)
            if line.startswith("tape,"):
                _, number, incarnation = line.split(",")
                if int(number) != len(texts.records):
                    raise Difference(f"tape {number} stands in another place")
                texts.incarnations.append(int(incarnation))
                texts.records.append([])
            elif line != "end\n":
                texts.records[-1].append(line[:-1])
            elif len(texts.records) == n:
                return texts
            else:
                raise Difference(f"a history of {len(texts.records)} tapes and not of {n}")
        raise Difference("the text ends within a history")

    def generations(self) -> Iterator[Generation]:
        """Each generation, when all of it is there."""
        now: Generation | None = None
        restarted: Plan | None = None
        plan = Plan()
        while row := self.fields():
            kind = row[0]
            if kind in ("generation", "restarted", "done") and now is not None:
                yield now
                now = None
            if kind == "restarted":
                restarted = plan = Plan()
            elif kind == "generation":
                seed, lineage, number, n, capacity = map(int, row[1:])
                now = Generation(seed, lineage, number, n, capacity)
                if now.number == 0:
                    del self.kept[:-1]
                    restarted = None
                now.restarted = restarted
            elif kind == "done":
                self.is_done = True
            elif kind == "line":
                plan.sweeps, plan.line = int(row[1]), [choice(it) for it in row[2:]]
            elif kind == "replay":
                plan.replays.append(name_of(row[1:]))
            elif kind == "pass":
                plan.passed.append((int(row[1]), choice(row[2]), name_of(row[3:])))
            elif now is not None:
                plan = self.note(now, row) or plan
            else:
                raise Difference("a record before the first generation")
        if now is not None:
            yield now

    def note(self, now: Generation, row: list[str]) -> Plan | None:
        """Puts down a record of a generation; answers the plan that begins with it, if any."""
        kind, numbers = row[0], [int(it) for it in row[1:]]
        if kind == "failed":
            now.failed.add(numbers[0])
        elif kind == "log":
            now.logs[numbers[0]] = Log(*numbers[1:])
        elif kind in ("own", "collected", "gathered"):
            setattr(now, kind, self.history(now.n))
        elif kind == "watch":
            now.watch = numbers
        elif kind == "live":
            now.lives.append(Live(numbers))
            return now.lives[-1].plan
        elif kind == "damage":
            now.damages.append(numbers)
        elif kind == "planned":
            now.is_right = numbers == [1]
            return now.plan
        else:
            raise Difference(f"a record of no kind: {','.join(row)}")
        return None
