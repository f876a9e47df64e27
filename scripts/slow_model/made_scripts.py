"""Random scripts. The machine runs a script as it is made, so that most commands are sensible."""

from collections.abc import Sequence
from random import Random
from typing import Any

from .histories import Item
from .machine import World
from .made_texts import odd_first, one_in, text_of
from .scripts import OF_FAILED, OF_ROUND, answer, command_of
from .texts import MOST_ROUND, Record, earliest_version, shown

# How often each kind of command comes. A relay is a message, its receipt, and a check after it.
TALK = {
    "send": 30, "deliver": 40, "check": 14, "damage": 3, "bar": 2, "recover": 2, "begin": 4,
    "turn": 3, "rounds": 2, "history": 1, "bundle": 1, "plan": 1, "live": 1,
    "answer": 1,
}
ROUNDS = {
    "send": 16, "deliver": 56, "check": 5, "damage": 2, "bar": 1, "recover": 2, "begin": 8,
    "turn": 6, "rounds": 3, "bundle": 1, "plan": 1, "answer": 1,
}
DOMINOES = {
    "relay": 40, "send": 18, "deliver": 22, "check": 8, "damage": 4, "bar": 2, "recover": 1,
    "begin": 3, "turn": 2, "bundle": 1, "plan": 2, "live": 1,
    "answer": 2,
}
FORGETS = [0, 3, 8]  # how often `forget` comes beside these
LENGTHS = [0, 3, 10, 30, 30, 60, 60, 90]
PROCESSES = [1, *[2] * 6, *[3] * 6, 4, 4, 5]
MANY_PROCESSES = [63, 64, 65, 65, 66, 128, 255, 256, 256]
BUSY = 4  # among many processes, so many do all that is done
CARE = 90  # one in so many values is an odd one; in a careless command every other one


class Player:
    """Makes the commands of a script one by one, and runs them meanwhile."""

    def __init__(self, chance: Random, moods: Sequence[dict[str, int]]) -> None:
        self.chance = chance
        self.n = chance.choice(MANY_PROCESSES if one_in(chance, 40) else PROCESSES)
        self.mode = chance.choice(["fifo", "unordered"])
        self.world = World(self.n, self.mode)
        self.commands: list[Record] = []
        self.care = CARE
        # The last process is always among the busy ones; of few processes all are.
        self.busy = [*chance.sample(range(self.n - 1), min(self.n - 1, BUSY)), self.n - 1]
        self.holder = chance.choice(self.busy)  # the process that the last relay went to
        self.weights = {**chance.choice(moods), OF_ROUND: chance.choice(FORGETS)}

    def is_odd(self) -> bool:
        """Whether the next value is an odd one."""
        return one_in(self.chance, self.care)

    def process(self) -> int:
        """A process; of odd ones some are not there."""
        odd = [self.n, self.n + 1, 0, 64, 256, 2**32 - 1]
        return self.chance.choice(odd if self.is_odd() else self.busy)

    def processes(self, *counts: int) -> list[int]:
        """Some processes, as many as one of these counts."""
        return [self.process() for _ in range(self.chance.choice(counts))]

    def pair(self) -> tuple[int, int]:
        """A sender and a receiver, which are seldom one process."""
        source, to = self.process(), self.process()
        if source == to and not self.is_odd():
            return source, self.chance.choice([p for p in self.busy if p != source] or self.busy)
        return source, to

    def link(self, source: int, to: int) -> Sequence[Item]:
        """What a link holds; nothing where there is no such link."""
        return self.world.link(source, to) if max(source, to) < self.n and source != to else []

    def waiting(self, source: int, to: int) -> list[int]:
        """The places on a link whose items can be taken: the first, or copies not received yet."""
        items = self.link(source, to)
        if self.mode == "fifo" or not items:
            return list(range(len(items[:1])))
        received = self.world.history.received(to)
        return [place for place, name in enumerate(items) if name not in received]

    def pick(self, source: int, to: int) -> int:
        """A place on a link, most often one whose item can be taken."""
        if self.is_odd():
            return self.chance.choice([0, 1, 2, 3, 2**32, 2**64 - 1])
        if self.mode == "unordered" and one_in(self.chance, 6):
            return self.chance.randrange(len(self.link(source, to)) or 1)
        return self.chance.choice(self.waiting(source, to) or [0])

    def busy_pair(self) -> tuple[int, int] | None:
        """Two processes with something that waits on their link, where some are found."""
        pairs = (self.pair() for _ in range(12))
        return next((pair for pair in pairs if self.waiting(*pair)), None)

    def state(self) -> bytes:
        """Some bytes, seldom as many as a state may have or more."""
        if self.is_odd():
            return b"c" * self.chance.choice([64, 65, 65, 4096, 4097, 4097])
        some = b"b" * self.chance.randrange(4)
        return self.chance.choice([b"", b"a", b"\x00\xff", b"\xa0\xb1", some])

    def known_check(self) -> tuple[int, int]:
        """A process and a check of it, most often the last one."""
        at = self.process()
        checks = self.world.history.checks(at) if at < self.n else 0
        return at, self.chance.choice([checks, checks, self.chance.randint(0, checks + 1)])

    def command(self) -> Record:
        """A command, most often one that the machine takes."""
        self.care = 2 if one_in(self.chance, 30) else CARE
        kind = self.chance.choices(list(self.weights), list(self.weights.values()))[0]
        if self.is_too_early(kind) and not one_in(self.chance, 6):
            kind = "deliver"
        if kind == "relay":
            return self.relay()
        if kind == "deliver":
            pair = self.busy_pair() or (self.pair() if one_in(self.chance, 6) else None)
            if pair:
                return kind, *pair, self.pick(*pair), self.state()
            kind = "send"
        if kind == "send":
            return kind, *self.pair(), self.state()
        if kind in ("check", "begin", "turn"):
            return kind, self.process(), self.state()
        if kind in ("damage", "bar"):
            return kind, *self.known_check()
        if kind == OF_ROUND:
            return kind, *self.some_round()
        return kind, *(self.processes(0, 1, 1, 2, 3) if kind in OF_FAILED else [])

    def is_too_early(self, kind: str) -> bool:
        """Whether a command is refused since a round is open."""
        return kind in ("begin", OF_ROUND) and self.world.open_round() is not None

    def some_round(self) -> list[int]:
        """No round, or one, most often a listed one."""
        if self.is_odd():
            return [self.chance.choice([1, self.world.begun + 1, MOST_ROUND])]
        if one_in(self.chance, 3):
            return []
        listed = [it.number for it in self.world.listed]
        if listed and not one_in(self.chance, 8):
            return [self.chance.choice([listed[0], listed[-1], self.chance.choice(listed)])]
        return [self.chance.randint(1, self.world.begun or 1)]

    def relay(self) -> Record:
        """The holder sends a message, which is delivered; the command is the next one's check."""
        source, to = self.holder, self.chance.choice(self.busy)
        if source != to:
            self.add("send", source, to, self.state())
            newest = 0 if self.mode == "fifo" else max(len(self.link(source, to)) - 1, 0)
            self.add("deliver", source, to, newest, b"")
        self.holder = to
        return "check", to, self.state()

    def add(self, *command: Any) -> None:
        """Adds a command, and does it."""
        self.commands.append(command)
        answer(self.world, *command_of([shown(field) for field in command]))

    def play(self) -> "Player":
        """Adds all commands but those at the end."""
        for _ in range(self.chance.choice(LENGTHS)):
            self.add(*self.command())
        self.care = CARE
        return self


def some_script(chance: Random) -> bytes:
    """A script."""
    player = Player(chance, [TALK, ROUNDS, ROUNDS, DOMINOES]).play()
    bundle: Record = ["bundle", *player.processes(0, 1, 2)]
    plan: Record = ["plan", *player.processes(0, 1, 2)]
    recover: Record = ["recover", *player.processes(1, 1, 2)]
    whole: Record = ["answer", *player.processes(0, 1, 2)]
    ends: list[Record] = [["rounds"], ["history"], bundle, ["live"], plan, whole, recover]
    for end in [*ends, [OF_ROUND], whole, ["rounds"]]:
        if one_in(chance, 2):
            player.add(*end)
    version = 2 if one_in(chance, 3) else earliest_version(player.n)
    first: Record = ("world", version, player.n, player.mode)
    if one_in(chance, 80):
        first = odd_first(chance, "world", player.n, player.mode)
    return text_of(chance, [first, *player.commands], one_in(chance, 5))
