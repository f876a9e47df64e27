"""What happened: a script, or reports, and the replies as events on the lines of processes.

A **story** is told once, from the first record to the last. Which check, which message and which
line are meant is what the replies say; of the machine only this is done anew, that a recovery takes
the events after a process's choice off its line.
"""

from collections.abc import Iterable
from dataclasses import dataclass, field

from slow_model.histories import Name
from slow_model.texts import NOW

from .texts import Choice, Command, Fields, Script, read_choice

NO_EFFECT = {"refused", "stale", "repeated", "late", "unfit", "faulty"}
UNREPORTED = -1  # the place of a send that no report tells of so far


@dataclass(slots=True, eq=False)
class Event:
    """Something on a process's line: its place in time, its record, and what took it off."""

    place: int
    record: int
    process: int
    cut_by: "Recovery | None" = field(default=None, kw_only=True)


@dataclass(slots=True, kw_only=True, eq=False)
class Check(Event):
    """A check, or with index 0 the initial state; forced where an item of a round asked for it."""

    index: int
    round: int | None = None
    is_forced: bool = False
    state: str = ""
    damage: "Damage | None" = None


@dataclass(slots=True, kw_only=True, eq=False)
class Message(Event):
    """A message was sent: its name, whom it goes to, its bytes as written, and its receipts.

    In reports one may be received whose send is not reported: that stands nowhere.
    """

    name: Name
    to: int
    body: str
    receipts: "list[Receipt]" = field(default_factory=list)

    @property
    def is_reported(self) -> bool:
        """Whether its send stands somewhere."""
        return self.place != UNREPORTED


@dataclass(slots=True, kw_only=True, eq=False)
class Receipt(Event):
    """A message was received, from its send, or from the recovery that sent it again.

    There is no source where the send was not reported by the next recovery.
    """

    message: Message
    source: "Message | Recovery | None"


@dataclass(slots=True, kw_only=True, eq=False)
class MarkerReceipt(Event):
    """The marker of a round came in, from its sender's check of the round if that is known."""

    sender: int
    round: int
    source: Check | None


@dataclass(slots=True, kw_only=True, eq=False)
class Damage(Event):
    """A check was marked as damaged. It is no event of a tape."""

    check: Check


@dataclass(slots=True, kw_only=True, eq=False)
class Bar(Event):
    """A process was barred at a check: it goes on from nothing later. It is no event of a tape."""

    check: Check


@dataclass(frozen=True, slots=True, eq=False)
class Restart:
    """Where a process goes on from, and the events that this takes off its tape."""

    process: int
    choice: Choice
    incarnation: int
    state: str
    check: Check | None
    lost: tuple[Event, ...]


@dataclass(frozen=True, slots=True, eq=False)
class Pass:
    """An entry of a certificate, numbered from 1, with its sender's ceiling by then."""

    number: int
    process: int
    choice: Choice
    check: Check | None
    message: Message
    receipt: Receipt
    ceiling: Choice


@dataclass(slots=True, kw_only=True, eq=False)
class Recovery:
    """A recovery: its number from 1, who failed, the line, the certificate and the replays.

    `bars` has the bar of each process that was barred by then, in the order of the processes. A
    plan is told as a recovery that the story ends with.
    """

    place: int
    record: int
    number: int
    failed: tuple[int, ...]
    bars: dict[int, Bar]
    line: list[Restart]
    passes: list[Pass]
    replays: list[Message]
    first_ceilings: list[Choice]
    is_plan: bool


@dataclass(frozen=True, slots=True, eq=False)
class ListedRound:
    """A round as it was listed: its checks, and the messages of its channels."""

    number: int
    place: int
    checks: tuple[Check, ...]
    channels: tuple[Message, ...]


@dataclass(slots=True, eq=False)
class Story:
    """All of it. `idle` counts the records without an effect, by what was answered."""

    processes: int
    is_fifo: bool | None
    records: int
    initial: list[Check]
    events: list[Event | Recovery] = field(default_factory=list)
    recoveries: list[Recovery] = field(default_factory=list)
    rounds: dict[int, ListedRound] = field(default_factory=dict)
    idle: dict[str, int] = field(default_factory=dict)

    @property
    def called(self) -> str:
        """What its text is called."""
        return "input" if self.is_fifo is None else "script"


class Teller:
    """Tells a story command by command, with what stands on the tapes meanwhile."""

    def __init__(self, script: Script) -> None:
        initial = [Check(-1, 1, p, index=0) for p in range(script.processes)]
        self.story = Story(script.processes, script.is_fifo, len(script.commands) + 1, initial)
        self.tapes: list[list[Event]] = [[] for _ in initial]
        self.checks: list[list[Check]] = [[check] for check in initial]
        self.of_round: dict[tuple[int, int], Check] = {}
        self.messages: dict[Name, Message] = {}
        self.bars: dict[int, Bar] = {}

    def tell(self, command: Command, reply: list[Fields]) -> None:
        """Adds what a command did."""
        answer, *values = reply[0]
        if answer in NO_EFFECT:
            self.story.idle[answer] = self.story.idle.get(answer, 0) + 1
        elif answer == "sent":
            self.tell_send(command, name_of(values))
        elif answer == "took":
            self.tell_receipt(command, name_of(values), values[3])
        elif answer == "marked":
            self.tell_marker(command, int(values[0]), values[1] == "forced")
        elif answer in ("checked", "begun", "turned"):
            number = int(values[2]) if values[2:] else None
            self.add_check(command, int(values[0]), int(values[1]), number, command.fields[1])
        elif answer == "damaged":
            self.tell_damage(command, int(values[0]), int(values[1]))
        elif answer == "barred":
            self.tell_bar(command, int(values[0]), int(values[1]))
        elif answer == "recovered":
            self.tell_recovery(command, reply[1:])
        elif answer == "rounds":
            self.tell_rounds(reply[1:])

    def at(self, command: Command, process: int) -> tuple[int, int, int]:
        """What every event has."""
        return len(self.story.events), command.record, process

    def add(self, event: Event) -> None:
        """Adds an event to the story and to the tape of its process."""
        self.story.events.append(event)
        self.tapes[event.process].append(event)

    def add_check(
        self,
        command: Command,
        process: int,
        index: int,
        number: int | None,
        state: str,
        is_forced: bool = False,
    ) -> None:
        """A check, of the round of that number if it is of one."""
        at = self.at(command, process)
        check = Check(*at, index=index, round=number, is_forced=is_forced, state=state.lower())
        self.add(check)
        self.checks[process][index:] = [check]
        if number is not None:
            self.of_round[process, number] = check

    def force_check(self, command: Command, process: int, number: int) -> None:
        """A check taken before an item of a round. No reply has its index: it is the next."""
        index = len(self.checks[process])
        self.add_check(command, process, index, number, command.fields[3], is_forced=True)

    def tell_send(self, command: Command, name: Name) -> None:
        """A message was sent."""
        to, body = int(command.fields[1]), command.fields[2].lower()
        message = self.message_of(name, to)
        message.place, message.record, _ = self.at(command, name.sender)
        message.to, message.body = to, body
        for receipt in message.receipts:
            if not receipt.cut_by:
                receipt.source = message
        self.add(message)

    def message_of(self, name: Name, to: int) -> Message:
        """The message of that name, which goes to a process unless more is known of it."""
        new = Message(UNREPORTED, 0, name.sender, name=name, to=to, body="")
        return self.messages.setdefault(name, new)

    def tell_receipt(self, command: Command, name: Name, of_round: str) -> None:
        """A message was received, after a check of its round where that was forced."""
        process = int(command.fields[1])
        message = self.message_of(name, process)
        if of_round != "-":
            self.force_check(command, process, int(of_round))
        source: Message | Recovery | None = message if message.is_reported else None
        if source and self.story.recoveries and self.story.recoveries[-1].place > message.place:
            source = self.story.recoveries[-1]
        receipt = Receipt(*self.at(command, process), message=message, source=source)
        message.receipts.append(receipt)
        self.add(receipt)

    def tell_marker(self, command: Command, number: int, is_forced: bool) -> None:
        """A marker came, and its round's check was taken before where that was forced."""
        sender, process = int(command.fields[0]), int(command.fields[1])
        if is_forced:
            self.force_check(command, process, number)
        check = self.of_round.get((sender, number))
        source = None if check and check.cut_by else check
        at = self.at(command, process)
        self.add(MarkerReceipt(*at, sender=sender, round=number, source=source))

    def tell_damage(self, command: Command, process: int, index: int) -> None:
        """A check was marked as damaged."""
        check = self.checks[process][index]
        check.damage = Damage(*self.at(command, process), check=check)
        self.add(check.damage)

    def tell_bar(self, command: Command, process: int, index: int) -> None:
        """A process was barred."""
        bar = Bar(*self.at(command, process), check=self.checks[process][index])
        self.bars[process] = bar
        self.add(bar)

    def tell_rounds(self, records: Iterable[Fields]) -> None:
        """Keeps each round that is listed for the first time."""
        checks: dict[int, tuple[Check, ...]] = {}
        channels: dict[int, list[Message]] = {}
        for kind, *values in records:
            number = int(values[0])
            if kind == "round":
                checks[number] = tuple(self.checks[p][int(c)] for p, c in enumerate(values[1:]))
                channels[number] = []
            else:
                name = Name(int(values[1]), int(values[3]), int(values[4]))
                channels[number].append(self.messages[name])
        for number, line in checks.items():
            listed = ListedRound(number, len(self.story.events), line, tuple(channels[number]))
            self.story.rounds.setdefault(number, listed)

    def tell_recovery(self, command: Command, records: list[Fields]) -> None:
        """Adds a recovery, and takes off the tapes what stands after its line, and all bars."""
        recoveries = self.story.recoveries
        failed = tuple(sorted(set(map(int, command.fields))))
        recovery = Recovery(
            place=len(self.story.events),
            record=command.record,
            number=len(recoveries) + 1,
            failed=failed,
            bars=dict(sorted(self.bars.items())),
            line=[],
            passes=[],
            replays=[],
            first_ceilings=[],
            is_plan=command.name != "recover",
        )
        entries = [values for kind, *values in records if kind == "pass"]
        lines = [values for kind, *values in records if kind == "line"]
        recovery.first_ceilings = [read_choice(values[1]) for values in lines]
        for number in range(len(entries), 0, -1):
            recovery.passes.append(self.entry(number, entries[number - 1], recovery.first_ceilings))
        recovery.passes.reverse()
        names = [name_of(values) for kind, *values in records if kind == "replay"]
        recovery.replays = [self.messages[name] for name in names]
        recovery.line = [self.restarted(values, recovery) for values in lines]
        self.bars.clear()
        self.story.events.append(recovery)
        recoveries.append(recovery)

    def entry(self, number: int, values: Fields, ceilings: list[Choice]) -> Pass:
        """An entry, told from the last one back: the ceilings become what they were before it."""
        process, choice, message = (
            int(values[0]),
            read_choice(values[1]),
            self.messages[name_of(values[2:])],
        )
        ceiling = ceilings[message.name.sender]
        ceilings[process] = choice
        check = None if choice == NOW else self.checks[process][int(choice)]
        receipt = next(
            it for it in message.receipts if it.cut_by is None and it.process == process
        )
        return Pass(number, process, choice, check, message, receipt, ceiling)

    def restarted(self, values: Fields, recovery: Recovery) -> Restart:
        """Takes off a process's tape what stands after its choice."""
        process, choice = int(values[0]), read_choice(values[1])
        tape, checks = self.tapes[process], self.checks[process]
        check, lost = None, []
        if choice != NOW:
            check = checks[int(choice)]
            while tape and tape[-1].place > check.place:
                event = tape.pop()
                event.cut_by = recovery
                if not isinstance(event, (Damage, Bar)):
                    lost.append(event)
            del checks[int(choice) + 1 :]
        return Restart(process, choice, int(values[2]), values[3], check, tuple(reversed(lost)))


def name_of(values: Fields) -> Name:
    """The message's name in three fields."""
    return Name(int(values[0]), int(values[1]), int(values[2]))


def told(script: Script, replies: Iterable[list[Fields]]) -> Story:
    """The story of a script and its replies. It takes one pass over both."""
    teller = Teller(script)
    for command, reply in zip(script.commands, replies, strict=True):
        teller.tell(command, reply)
    return teller.story
