"""Random scripts that save their machine, and such that begin with a saved one."""

import contextlib
from random import Random

from .made_scripts import DOMINOES, ROUNDS, TALK, Player
from .made_texts import one_in, text_of
from .saved import begin
from .scripts import OF_ROUND, answer
from .texts import Fault, Record, Records, earliest_version, records_of, shown

SAVE = "save"
MOST_PROCESSES = 5
OFTEN = {OF_ROUND: 6, "begin": 8, SAVE: 2, "history": 1, "bundle": 1, "answer": 1, "rounds": 2}
LATER = ["damage", "bar", "round", "saved"]  # what stands after the tapes, in this order
LENGTHS = [5, 20, 60, 120, 200]


class Saving(Player):
    """Makes a script of links that keep their order, with some `forget` and `save`."""

    def __init__(self, chance: Random) -> None:
        super().__init__(chance, [TALK, ROUNDS, ROUNDS, DOMINOES])
        self.weights.update(OFTEN)

    def saved(self) -> Records:
        """The records of the machine as it stands, none where it is refused."""
        records, is_refused = answer(self.world, SAVE, [])
        return [] if is_refused else records

    def some_steps(self, most: int) -> None:
        """Adds some commands."""
        for _ in range(self.chance.randint(0, most)):
            self.add(*self.command())


def saving_player(chance: Random) -> Saving:
    """A player of few processes, whose links keep their order."""
    while True:
        player = Saving(chance)
        if player.n <= MOST_PROCESSES and player.mode == "fifo":
            return player


def some_saved_script(chance: Random) -> bytes:
    """A script that saves its machine, or begins with one, perhaps changed to something else.

    A changed text that a machine can go on from was saved of one, or might have been.
    """
    while True:
        text = some_script_of_saves(chance)
        if may_have_been_saved(text):
            return text


def may_have_been_saved(text: bytes) -> bool:
    """Whether a script does not begin with a text that is read, and that no machine is saved so."""
    with contextlib.suppress(Fault):
        records = records_of(text)
        saved = begin(records[0])
        for fields in records[1:]:
            saved.read(fields)
            if saved.is_whole:
                saved.opened()
                return saved.is_left()
    return True


def some_script_of_saves(chance: Random) -> bytes:
    """The same, of whatever changed texts."""
    player = saving_player(chance)
    first: Records = [("world", earliest_version(player.n), player.n, "fifo")]
    for _ in range(chance.choice([0, 1, 1, 1, 2])):
        player.some_steps(chance.choice(LENGTHS))
        saved = player.saved()
        if saved:
            first, player.commands = saved, []
    player.some_steps(chance.choice(LENGTHS))
    if len(first) > 1 and one_in(chance, 3):
        for _ in range(chance.choice([1, 1, 2])):
            put_in(chance, first, some_record(chance, player))
    return text_of(chance, [*first, *player.commands, (SAVE,)], one_in(chance, 3))


def some_record(chance: Random, player: Saving) -> Record:
    """A record that a saved text may have, of this machine or of none."""
    checks = player.world.history.checks
    p, number = chance.randrange(player.n), max(player.world.begun + chance.choice([0, 0, 1]), 1)
    line = [max(checks(q) - chance.randint(0, 1), 0) for q in range(player.n)]
    return chance.choice([
        ("damage", p, chance.randint(1, checks(p) + 1)), ("bar", p, chance.randint(0, checks(p))),
        ("round", number, *line), ("mark", p, number), ("check", b"", number), ("send", p, 0, b""),
        ("recv", p, 0, chance.randint(0, 9)),
    ])


def put_in(chance: Random, saved: Records, record: Record) -> None:
    """Puts a record into a saved text where one of its kind may stand."""
    later = LATER[LATER.index(record[0]) + 1:] if record[0] in LATER else LATER
    place = next(at for at, (kind, *_) in enumerate(saved) if kind in later)
    if record[0] not in LATER:
        first = next(at for at, (kind, *_) in enumerate(saved) if kind == "tape")
        place = chance.randint(first + 1, place)
    saved.insert(place, record)


def lines_of(records: Records) -> list[str]:
    """Records as they are written."""
    return [",".join(map(shown, record)) for record in records]
