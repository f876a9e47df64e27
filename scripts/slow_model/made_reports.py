"""Random inputs of `recline collect`: what processes of a random computation report.

The machine of `recline run` does what they do, so that its answers are known too. The reports of
all processes are interleaved at random, with some that come late, and with others that nobody
should send.
"""

from collections.abc import Iterator, Sequence
from random import Random
from typing import Any

from .histories import Check, Event, Mark, Recv, Send, among
from .made_conversations import ODD_LINES, mixed, odd_line
from .made_scripts import DOMINOES, ROUNDS, TALK, Player
from .made_texts import one_in
from .scripts import OF_ROUND, answer, command_of
from .texts import NOW, Record, Records, earliest_version, shown, written

# How often a query stands among the reports, and a report that is late.
QUERY, LATE = 25, 30
# How often `forget` stands among the lines.
FORGET = [6, 20, 60]
ODD_REPORTS = [
    *ODD_LINES, b"reports", b"reports,1", b"reports,1,0", b"reports,3,2", b"reports,1,65",
    b"reports,2,257", b"reports,x,2", b"reports,1,x", b"reports,1,2", b"reports,2,2", b"reports,",
    b"recv,0,0,1,0", b"recv,0,0,1,0,0,0", b"recv,0,65536,1,0,0", b"recv,0,0,1,0,4294967296",
    b"recv,0,0,1,0,4294967295", b"recv,0,65535,1,65535,0", b"recv,4294967295,0,1,0,0",
    b"send,0,0,1", b"send,0,-,1,", b"send,0,0,1,6", b"send,0,0,1,,", b"send,0,0,0,61",
    b"check,0,0,", b"check,0,0,6,-", b"check,0,0,,now", b"check,0,0,,0", b"check,0,0,,65536",
    b"check,0,0,,--", b"mark,0,0,1,0", b"mark,0,0,1,-", b"mark,0,0,1,65536", b"mark,0,0,1",
    b"damage,0,0", b"damage,0,now", b"bar,0,now", b"bar,0,0,0", b"begin,0,", b"turn,0,", b"rounds",
    b"answer", b"live,0", b"plan,", b"plan,-", b"recover,now", b"Reports,1,2", b"reports,1,2,fifo",
    b"forget,1", b"forget,-",
]  # fmt: skip
# Records that show all that is collected.
SHOWING = [
    b"plan", b"plan,0", b"live", b"bundle,0", b"history", b"forget", b"history", b"bundle,0",
    b"recover,1", b"history",
]


def report_of(p: int, incarnation: int, event: Event) -> Record:
    """The report of an event."""
    match event:
        case Send(to, sent_under, body):
            return "send", p, sent_under, to, body
        case Recv(message):
            return "recv", p, incarnation, *message
        case Check(state, of_round):
            return "check", p, incarnation, state, of_round
        case Mark(sender, of_round):
            return "mark", p, incarnation, sender, of_round


class Phase:
    """What was done up to a recovery: the reports of each process, and what the machine answers."""

    def __init__(self, n: int) -> None:
        self.streams: list[list[Record]] = [[] for _ in range(n)]
        self.failed: Sequence[int] = ()
        self.history: Records = []
        self.bundle: Records = []
        self.sent: list[int] = []  # by each process before the recovery
        self.left: list[int] = []  # and after it
        self.recovered: Records = []

    def late(self) -> Iterator[Record]:
        """What is refused after its recovery: reports of processes that went back, and receipts of
        their messages that were cut."""
        lines = [record for record in self.recovered if record[0] == "line"]
        went_back = {p for _, p, at, *_ in lines if at != NOW}
        for p, stream in enumerate(self.streams):
            if p not in went_back:
                continue
            yield from (it for it in stream if it[0] not in ("damage", "bar"))
            sends = [it for it in stream if it[0] == "send"]
            for number, it in zip(range(self.sent[p] - 1, self.left[p] - 1, -1), reversed(sends)):
                q = it[3]
                yield "recv", q, lines[q][3], p, it[2], number

    def answers(self) -> Iterator[tuple[Record, Records]]:
        """The records at its end, and the answer to each."""
        planned = [("planned", *self.recovered[0][1:]), *self.recovered[1:]]
        yield ("plan", *self.failed), planned
        yield ("history",), self.history
        yield ("bundle", *self.failed), self.bundle
        yield ("recover", *self.failed), self.recovered


class Reporting(Player):
    """A player that keeps what its processes report, and what its machine answers."""

    def __init__(self, chance: Random) -> None:
        super().__init__(chance, [TALK, ROUNDS, DOMINOES, DOMINOES])
        self.weights[OF_ROUND] = 0  # what reports tell of is kept whole
        self.phases = [Phase(self.n)]
        self.output: list[bytes] = []

    def add(self, *command: Any) -> None:
        """Adds a command, does it, and keeps what is reported of it."""
        self.commands.append(command)
        tapes = self.world.history.tapes
        before = [len(tape) for tape in tapes]
        kind, values = command_of([shown(field) for field in command])
        phase = self.phases[-1]
        if kind == "recover":
            phase.failed = sorted(set(values))
            phase.history = self.world.history_text()
            phase.bundle = answer(self.world, "bundle", values)[0]
            phase.sent = self.sent()
        records, is_refusal = answer(self.world, kind, values)
        self.output.append(written(records))
        if is_refusal:
            return
        if kind == "recover":
            phase.recovered, phase.left = records, self.sent()
            self.phases.append(Phase(self.n))
            return
        if kind in ("damage", "bar"):
            phase.streams[values[0]].append(command)
        incarnations = self.world.history.incarnations
        for p, tape in enumerate(tapes):
            reports = (report_of(p, incarnations[p], event) for event in tape[before[p]:])
            phase.streams[p].extend(reports)

    def sent(self) -> list[int]:
        """How many sends each tape has."""
        return [len(among(Send, tape)) for tape in self.world.history.tapes]

    def play(self) -> "Reporting":
        """Plays, and ends with a recovery."""
        super().play()
        known = [p for p in self.processes(0, 1, 2) if p < self.n]
        self.add("recover", *known)
        return self


def interleaved(chance: Random, streams: list[list[Record]]) -> Iterator[Record]:
    """The reports of all processes, those of each in their order."""
    waiting = [list(reversed(stream)) for stream in streams if stream]
    how = chance.choice(["any", "any", "runs", "one by one"])
    chance.shuffle(waiting)
    while waiting:
        stream = waiting[-1] if how == "one by one" else chance.choice(waiting)
        many = chance.randint(1, 6) if how == "runs" else 1
        for _ in range(min(many, len(stream))):
            yield stream.pop()
        if not stream:
            waiting.remove(stream)


class Input:
    """The lines of an input, and the answers that the machine gives to some of them."""

    def __init__(self, chance: Random, player: Reporting, is_plain: bool) -> None:
        self.chance, self.n = chance, player.n
        self.recoveries = len(player.phases) - 1
        version = 2 if one_in(chance, 3) else earliest_version(player.n)
        self.lines = [self.line("reports", version, player.n)]
        self.wanted: dict[int, bytes] = {}
        self.is_plain = is_plain
        late: list[Record] = []
        for phase in player.phases[:-1]:
            self.put_phase(phase, late)
            late = list(phase.late())

    def line(self, *record: Any) -> bytes:
        """A record as a line."""
        return written([record]).removesuffix(b"\n")

    def put_phase(self, phase: Phase, late: list[Record]) -> None:
        """Adds the reports of a phase, late ones among them, and what stands at its end."""
        for report in interleaved(self.chance, phase.streams):
            self.lines.append(self.line(*report))
            if self.is_plain:
                continue
            if one_in(self.chance, QUERY):
                self.lines.append(self.query())
            if late and one_in(self.chance, LATE):
                self.lines.append(self.line(*self.chance.choice(late)))
        self.lines.append(b"live")
        for record, records in phase.answers():
            self.wanted[len(self.lines)] = written(records) + b"\n"
            self.lines.append(self.line(*record))

    def query(self) -> bytes:
        """A query, or a receipt under an incarnation that is not planned."""
        if one_in(self.chance, 3):
            p, q = self.chance.randrange(self.n), self.chance.randrange(self.n)
            number, inc = self.chance.randrange(4), self.chance.randrange(3)
            # Under an incarnation that no process reaches, so that it is refused.
            return self.line("recv", p, self.recoveries + self.chance.randint(1, 4), q, inc, number)
        failed = self.chance.sample(range(self.n), min(self.n, self.chance.randrange(3)))
        return self.line(self.chance.choice(["plan", "bundle"]), *failed)

    def with_faults(self) -> list[bytes]:
        """The lines with others among them that most often are faulty."""
        lines = []
        for line in self.lines:
            while one_in(self.chance, 10):
                lines.append(odd_line(self.chance, self.lines, ODD_REPORTS))
            lines.append(line)
        return lines


def with_forgets(chance: Random, lines: Sequence[bytes]) -> list[bytes]:
    """The lines with `forget` at random places after the first."""
    often = chance.choice(FORGET)
    made = []
    for line in lines:
        made.append(line)
        while one_in(chance, often):
            made.append(b"forget")
    return made


def some_reports(chance: Random) -> bytes:
    """An input: reports of a random computation, with other lines at random places."""
    made = Input(chance, Reporting(chance).play(), False)
    return mixed(chance, made.lines, ODD_REPORTS, SHOWING)
