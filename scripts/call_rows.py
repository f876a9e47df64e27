"""Rows of calls of the library, as words for bench/refused, and what is to be held against a run.

A row is a list of calls on one subject: a history with marks, what a process has recorded of
rounds, a catalogue, a world, a machine that lets go, a fleet of workers with their collector, or
what processes report of themselves.
"""

import random
from collections.abc import Iterator
from typing import NamedTuple

from slow_model.made_scripts import some_script

# The subjects, by the numbers that the program knows them by.
SUBJECTS = {
    "tapes": 0, "marker": 1, "catalogue": 2, "world": 3, "world run": 4, "fleet": 5, "live": 6,
    "live run": 7, "collection": 8,
}
# Those whose steps may be taken in one run, and the subject that this is.
RUNS = {"world": "world run", "live": "live run"}
FIFO, UNORDERED = 0, 1
# Of each call its number, and what its fields are: a, b, c and d are numbers, x is bytes of which
# the first goes into d, l is a choice of a line, and s a set of processes.
CALLS = {
    "send": (0, "abx"),
    "deliver": (1, "abcx"),
    "receive": (1, "abx"),
    "hear": (1, "bc"),
    "check": (2, "ax"),
    "begin": (3, "ax"),
    "checked": (3, "acx"),
    "begun": (3, "c"),
    "turn": (4, "ax"),
    "damage": (5, "ab"),
    "recover": (6, "s"),
    "plan": (7, "s"),
    "report": (8, "a"),
    "take": (9, "c"),
    "live": (10, ""),
    "gather": (11, "s"),
    "recv": (12, "abcd"),
    "mark": (13, "abc"),
    "reserve": (14, "ac"),
    "copy": (15, ""),
    "transit": (16, "lll"),
    "of": (17, ""),
    "copy_marks": (18, ""),
    "copy_tape": (19, "a"),
    "restart": (20, "s"),
    "keep": (20, "s"),
    "note": (21, "bcd"),
    "bar": (22, "ab"),
    "cut": (23, "lll"),
    "forget": (24, "c"),
    "forget_live": (25, ""),
    "flags": (26, ""),
    "counts": (27, ""),
    "copy_state": (28, "x"),
    "resume": (29, ""),
}
# The calls that are no steps: a run has them not.
NO_STEPS = ("plan", "forget", "forget_live", "resume")
# How many bits each of the four numbers has, and where they lie in a word.
ROOM = {"a": (8, 48), "b": (8, 40), "c": (20, 20), "d": (20, 0)}
MOST_PROCESSES = 8
# The commands of a made script that are calls.
MADE = "send deliver check begin turn damage bar recover forget forget_live".split()


class Row(NamedTuple):
    """Calls on a subject of so many processes, with the mode of its links or the capacity."""

    name: str
    subject: str
    n: int
    kind: int
    calls: list[str]

    def words(self, before: int, after: int) -> list[str]:
        """The words for the program, which asks for memory so often before and after the calls."""
        first = [SUBJECTS[self.subject], self.n, self.kind, before, after]
        return [str(it) for it in first + [word_of(it) for it in self.calls]]


def number_of(field: str) -> int:
    """A choice as a number: 0 is where a process stands, and k its check k - 1."""
    return 0 if field == "now" else int(field) + 1


def word_of(call: str) -> int:
    """A call as a word of 64 bits."""
    name, *fields = call.split(",")
    number, form = CALLS[name]
    values = dict.fromkeys("abcd", 0)
    if form == "s":
        values["a"] = sum(1 << int(it) for it in set(fields))
        values["b"] = int(name == "keep")
    elif form == "lll":
        values.update(zip("abc", map(number_of, fields)))
    else:
        for slot, field in zip(form, fields, strict=True):
            if slot == "x":
                values["d"] = int(field[:2] or "0", 16)
            else:
                values[slot] = int(field)
    word = number << 56
    for slot, (bits, place) in ROOM.items():
        word |= min(values[slot], (1 << bits) - 1) << place
    return word


def row(name: str, subject: str, n: int, kind: int, text: str) -> Row:
    """A row of calls that slashes part."""
    return Row(name, subject, n, kind, [it.strip() for it in text.split("/")])


def fleet(name: str, n: int, capacity: int, text: str) -> Row:
    """A row of calls of so many workers, whose rings hold so many items."""
    return row(name, "fleet", n, capacity, text)


def marker(name: str, text: str) -> Row:
    """A row of calls of one of three processes on what it has recorded of rounds."""
    return row(name, "marker", 3, 0, text)


DOMINO = (
    "send,0,1,61 / recv,1,0,0,0 / check,1,b1 / send,1,0,62 / recv,0,1,0,0 / check,0,a1"
    " / send,0,1,63 / recv,1,0,0,1 / check,1,b2"
)
ROUNDS = (
    "begin,0,a1 / send,0,1,61 / deliver,0,1,0,b1 / deliver,0,1,0, / send,1,0,62 / deliver,1,0,0,"
    " / deliver,1,0,0, / check,1,b2 / begin,1,b3 / deliver,1,0,0,a2 / deliver,0,1,0, / send,0,1,63"
)
SNAPSHOT = (
    "begin,0,a1 / deliver,0,1,0,b1 / deliver,1,0,0, / send,0,1,61 / deliver,0,1,0, / check,1,b2"
    " / send,1,0,62 / deliver,1,0,0, / check,0,a2 / send,0,1,63 / deliver,0,1,0, / check,1,b3"
)

ROWS = [
    row("a history is made, asked and copied", "tapes", 2, 0,
        f"{DOMINO} / transit,now,now / transit,0,1 / copy / copy_tape,0 / copy_tape,1"
        " / reserve,0,9 / reserve,1,1 / copy / checked,0,1,a2 / mark,1,0,1 / copy / flags / counts"
        " / copy_state,a1"),
    row("marks are made and copied", "tapes", 3, 0,
        "check,0,a1 / damage,0,1 / damage,1,4 / copy_marks / damage,0,2 / damage,0,3"
        " / damage,0,1 / damage,2,0 / damage,0,4 / damage,0,5 / copy_marks"),
    row("receipts in no order", "tapes", 2, 0,
        "recv,0,1,0,5 / recv,0,1,0,2 / recv,0,1,3,9 / recv,0,1,0,0 / recv,0,1,2,7 / copy_tape,0"),
    marker("a process records rounds",
        "reserve,0,0 / begun,1 / note,1,0,0 / hear,1,1 / note,1,0,1 / note,2,0,0 / hear,1,1"
        " / hear,2,1 / hear,2,3 / hear,1,2 / note,1,0,2 / note,1,0,3 / hear,1,3 / begun,3"
        " / begun,4 / note,2,0,1 / reserve,0,0 / begun,5 / note,1,0,4"),
    marker("a process records rounds, and no room is made",
        "begun,1 / note,1,0,0 / note,2,0,0 / note,1,0,1 / hear,2,1 / note,1,0,2 / hear,1,2"
        " / note,2,0,1 / note,1,0,3 / note,1,0,4 / hear,1,1 / hear,2,2 / note,1,0,5 / begun,9"),
    row("a catalogue is fed, and made of a history", "catalogue", 2, 0,
        f"{DOMINO} / plan,0 / of / transit,now,now / transit,0,1 / plan,1 / damage,1,2 / plan,1"
        " / of / reserve,0,3 / send,0,1,64 / send,0,1,65 / check,0,a3 / of / plan"),
    row("a catalogue is cut at lines of checks", "catalogue", 2, 0,
        f"{DOMINO} / cut,0,0 / cut,1,1 / cut,now,1 / send,0,1,64 / check,0,a2 / cut,2,2"
        " / damage,1,2 / recv,1,0,0,2 / check,1,b3 / cut,2,1 / cut,2,3 / cut,2,9 / cut,1,2"),
    row("three are cut where messages are in transit", "catalogue", 3, 0,
        "send,0,1,61 / send,1,2,62 / send,2,0,63 / check,0,a1 / check,1,b1 / check,2,c1"
        " / recv,1,0,0,0 / recv,2,1,0,0 / recv,0,2,0,0 / cut,1,1,1 / cut,0,0,0 / cut,1,0,1"
        " / check,1,b2 / cut,1,2,1 / check,2,c2 / check,0,a2 / cut,2,2,2 / damage,0,1 / cut,1,2,1"),
    row("a catalogue goes on from its line", "catalogue", 2, 0,
        f"{DOMINO} / damage,0,1 / restart,1 / send,0,1,61 / of / plan,0,1 / keep,0"
        " / send,0,1,62 / check,1,b4 / of / transit,now,0 / keep / plan,1 / of"),
    row("marks of rounds in a catalogue", "catalogue", 3, 0,
        "checked,0,1,a1 / mark,1,0,1 / checked,1,1,b1 / mark,2,0,1 / checked,2,1, / of / plan,2"),
    row("reports, plans and recoveries", "collection", 2, 0,
        f"{DOMINO} / plan,0 / damage,1,2 / plan,1 / recover,1 / send,0,1,64 / recv,1,0,0,0"
        " / check,1,b3 / bar,0,0 / recover / send,0,1,65 / check,0,a2 / recv,1,0,1,0"
        " / recover,0,1"),
    row("reports that are refused, and rounds", "collection", 3, 0,
        "checked,0,1,a1 / mark,1,0,1 / checked,1,1,b1 / mark,2,0,1 / checked,2,1, / send,0,1,61"
        " / recv,1,0,1,0 / recv,1,2,0,0 / recv,1,0,0,0 / recv,1,0,0,0 / damage,0,0 / damage,0,4"
        " / damage,0,1 / damage,0,1 / bar,0,9 / bar,2,1 / bar,2,1 / plan,1 / recover,2 / plan"),
    row("a round, dominoes and a recovery", "world", 2, FIFO,
        f"{SNAPSHOT} / plan,0 / recover,0 / send,0,1,64 / deliver,0,1,0,"),
    row("the same, and a damaged check", "world", 2, FIFO, f"{SNAPSHOT} / damage,1,1 / recover,0"),
    row("the same, and a barred process", "world", 2, FIFO,
        f"{SNAPSHOT} / bar,1,2 / bar,1,3 / bar,1,9 / plan / recover / recover"),
    row("the same, by colours", "world", 2, UNORDERED,
        "begin,0,a1 / send,0,1,61 / deliver,0,1,0,b1 / check,1,b2 / send,1,0,62 / deliver,1,0,0,"
        " / check,0,a2 / begin,1,b3 / turn,0,a3 / plan,0,1 / recover,0 / deliver,0,1,0,"),
    row("a message in transit is sent again", "world", 2, UNORDERED,
        "send,0,1,61 / check,0,a1 / recover,0,1 / deliver,0,1,1, / deliver,0,1,0,"),
    row("an unfinished round is given up", "world", 2, FIFO,
        "begin,0,a1 / recover,0 / begin,0,a2 / deliver,0,1,0,b1"),
    row("a round of colours is given up", "world", 2, UNORDERED,
        "begin,0,a1 / send,0,1,61 / recover,1 / deliver,0,1,0,b1"),
    row("a copy that is stale, and one that is repeated", "world", 2, UNORDERED,
        "send,0,1,61 / recover,0 / send,0,1,62 / deliver,0,1,0, / deliver,0,1,1, / deliver,0,1,1,"),
    row("three processes, and messages in the channels", "world", 3, FIFO,
        "send,1,0,78 / send,2,1,79 / begin,0,a1 / deliver,1,0,0, / deliver,0,1,0,b1"
        " / deliver,0,2,0,c1 / deliver,1,0,0, / deliver,2,1,0, / deliver,2,1,0, / deliver,1,2,0,"
        " / deliver,2,0,0, / plan,1 / recover,1,2 / begin,2,c2 / send,0,2,80 / recover,0,2"),
    row("refusals in a world", "world", 2, UNORDERED,
        "send,0,0,61 / send,2,0,61 / deliver,0,1,0, / send,0,1,61 / deliver,0,1,1, / turn,0,"
        " / begin,0, / begin,1, / damage,0,0 / damage,0,1 / damage,0,1 / damage,0,2"),
    row("rounds are forgotten, and then a recovery", "live", 2, FIFO,
        f"{ROUNDS} / plan / forget,1 / plan / send,0,1,64 / deliver,0,1,0, / check,1,b4"
        " / forget,2 / plan,0 / damage,1,3 / damage,1,4 / recover,0 / send,0,1,65 / deliver,0,1,0,"
        " / plan,1"),
    row("the line of a recovery is forgotten", "live", 2, FIFO,
        f"{SNAPSHOT} / forget_live / plan / send,1,0,64 / deliver,1,0,0, / check,0,a4 / check,1,b4"
        " / forget_live / bar,1,2 / plan,1 / recover,1 / send,0,1,65 / forget_live / recover,0"
        " / begin,1,b5 / deliver,1,0,0,a5 / deliver,0,1,0, / forget,2 / forget_live"),
    row("refusals to forget", "live", 2, FIFO,
        "forget,1 / begin,0,a1 / forget,1 / forget_live / deliver,0,1,0,b1 / forget,1"
        " / deliver,1,0,0, / forget,2 / damage,0,1 / forget,1 / forget_live / bar,1,0 / forget_live"
        " / recover / forget,1"),
    row("links without order are not forgotten", "live", 2, UNORDERED,
        "send,0,1,61 / forget,1 / forget_live / check,0,a1 / recover,0,1 / deliver,0,1,0, / plan"),
    row("three forget what is in their channels", "live", 3, FIFO,
        "send,1,0,78 / send,2,1,79 / begin,0,a1 / deliver,1,0,0, / deliver,0,1,0,b1"
        " / deliver,0,2,0,c1 / deliver,1,0,0, / deliver,2,1,0, / deliver,2,1,0, / deliver,1,2,0,"
        " / deliver,2,0,0, / send,0,2,7a / forget,1 / plan,1 / recover,1,2 / deliver,0,2,0,"
        " / begin,2,c2 / deliver,2,0,0,a2 / deliver,2,1,0,b2 / deliver,0,1,0, / deliver,0,2,0,"
        " / deliver,1,0,0, / deliver,1,2,0, / forget,2 / send,0,2,80 / forget_live / recover,0,2"),
    row("a machine is opened of what is saved", "live", 2, FIFO,
        f"resume / {ROUNDS} / deliver,0,1,0, / resume / damage,1,2 / bar,1,3 / resume / forget,1"
        " / forget,2 / resume / plan,0 / send,1,0,64 / send,0,1,65 / resume / recover,0"
        " / deliver,1,0,0, / deliver,0,1,0, / resume / forget_live / resume / plan"),
    row("refusals to open", "live", 2, FIFO,
        "begin,0,a1 / resume / deliver,0,1,0,b1 / resume / deliver,1,0,0, / resume"),
    fleet("a fleet from its opening to the next generation", 2, 4,
        "check,0,01 / report,0 / take,9 / live / send,0,1,61 / receive,1,0, / check,1,02"
        " / gather,0 / plan / restart / send,0,1,62 / receive,1,0, / report,0 / report,1"
        " / take,9 / live / gather / plan"),
    fleet("rings of one slot", 2, 1,
        "send,0,1,61 / send,0,1,62 / check,0,07 / report,0 / take,10 / live / report,0 / take,10"
        " / live / receive,1,0, / receive,1,0, / gather / plan"),
    fleet("a message that is received again", 2, 2,
        "send,0,1,61 / report,0 / check,0,01 / gather / damage,0,1 / plan / restart"
        " / receive,1,0, / receive,1,0, / send,1,0,62 / receive,0,1, / report,0 / take,9"
        " / gather,1 / plan"),
    fleet("a round of workers", 2, 2,
        "begin,0,01 / begin,0,02 / begin,1,01 / receive,1,0,02 / receive,0,1, / report,0"
        " / report,1 / take,1 / take,9 / live / gather,0,1 / damage,1,1 / plan / restart"
        " / begin,0,04 / receive,1,0,05 / gather / plan"),
    fleet("a collector lets go, and so does the next one", 2, 4,
        "forget_live / send,0,1,61 / check,0,01 / report,0 / receive,1,0, / check,1,02 / check,1,03"
        " / report,1 / take,9 / forget_live / live / send,0,1,62 / check,0,04 / send,0,1,63"
        " / report,0 / receive,1,0, / receive,1,0, / check,1,05 / report,1 / take,9 / live"
        " / forget_live / live / send,1,0,64 / report,1 / gather,0 / plan / restart / live"
        " / forget_live / receive,1,0, / send,0,1,65 / check,0,06 / report,0 / report,1 / take,9"
        " / forget_live / live / gather / plan"),
    fleet("three workers let go after a round", 3, 4,
        "begin,0,01 / send,0,1,61 / receive,1,0,02 / receive,1,0, / receive,2,0,03 / receive,0,1,"
        " / receive,0,2, / receive,1,2, / receive,2,1, / send,2,0,62 / report,0 / report,1"
        " / report,2 / take,20 / forget_live / live / receive,0,2, / check,0,04 / begin,0,05"
        " / receive,1,0,06 / report,0 / report,1 / take,20 / live / forget_live / gather,1"
        " / damage,0,2 / plan / restart / receive,0,2, / forget_live / report,0 / take,9"
        " / gather,2 / plan"),
    fleet("three workers and many reports", 3, 4,
        "send,0,1,61 / send,1,2,62 / send,2,0,63 / receive,0,2, / receive,1,0, / receive,2,1,"
        " / check,0,01 / check,1,02 / check,2,03 / report,0 / report,1 / report,2 / take,20"
        " / live / send,0,2,64 / report,0 / gather,1 / plan / restart / receive,2,0,"
        " / gather,2 / plan"),
]


def runs_of(rows: list[Row]) -> Iterator[Row]:
    """Of each row with steps one that takes these in one run."""
    for it in rows:
        if it.subject in RUNS:
            steps = [call for call in it.calls if call.split(",")[0] not in NO_STEPS]
            name = f"{it.name}, in one run"
            yield it._replace(name=name, subject=RUNS[it.subject], calls=steps)


def call_of(record: str) -> str:
    """A record of a script as a call: a `forget` without a round has another name."""
    return "forget_live" if record == "forget" else record


def is_call(record: str, n: int) -> bool:
    """Whether a record of a script is a call whose numbers fit in a word."""
    name, *fields = record.split(",")
    if name not in MADE:
        return False
    form = CALLS[name][1]
    if form == "s":
        return all(int(it) < n for it in fields)
    whole = [it for slot, it in zip(form, fields) if slot != "x"]
    return len(form) == len(fields) and all(it.isdigit() and int(it) < 64 for it in whole)


def made_worlds(cases: int, seed: int) -> Iterator[Row]:
    """Made scripts of a few processes, the same for the same seed."""
    for case in range(cases):
        chance = random.Random(f"calls {seed} {case}")
        first, *records = some_script(chance).decode("latin-1").split() or [""]
        fields = first.split(",")
        if len(fields) != 4 or not fields[2].isdigit() or not 0 < int(fields[2]) <= MOST_PROCESSES:
            continue
        n = int(fields[2])
        calls = [it for it in map(call_of, records) if is_call(it, n)]
        kind = UNORDERED if fields[3] == "unordered" else FIFO
        lets_go = any(it.startswith("forget") for it in calls)
        yield Row(f"made script {case}", "live" if lets_go else "world", n, kind, calls)


def some_work(chance: random.Random, n: int) -> str:
    """A call of a worker or of the collector."""
    p, q, byte = chance.randrange(n), chance.randrange(n), chance.randrange(256)
    weights = {
        "send": 30, "receive": 40, "check": 8, "begin": 6, "report": 8, "take": 6, "live": 2,
        "forget_live": 2,
    }
    kind = chance.choices(list(weights), list(weights.values()))[0]
    if kind in ("send", "receive"):
        return f"{kind},{p},{(p + 1 + q % max(n - 1, 1)) % n},{byte:02x}"
    if kind in ("check", "begin"):
        return f"{kind},{p if kind == 'check' else 0},{byte:02x}"
    return {"report": f"report,{p}", "take": f"take,{chance.randrange(12)}"}.get(kind, kind)


def made_fleets(cases: int, seed: int) -> Iterator[Row]:
    """Made calls of two generations of workers, the same for the same seed."""
    for case in range(cases):
        chance = random.Random(f"fleets {seed} {case}")
        n, calls = chance.choice([2, 2, 3, 4]), []
        for is_last in (False, True):
            calls += [some_work(chance, n) for _ in range(chance.randrange(5, 40))]
            failed = [p for p in range(n) if chance.randrange(3) == 0]
            calls += [",".join(["gather", *map(str, failed)]), f"damage,{chance.randrange(n)},1"]
            calls += ["plan"] if is_last else ["plan", "restart"]
        yield Row(f"made fleet {case}", "fleet", n, chance.choice([1, 2, 3, 8]), calls)
