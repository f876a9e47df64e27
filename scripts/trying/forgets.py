"""Compares what a machine answers that lets go with what it answers where it keeps everything.

    scripts/trial forgets [--cases N] [--seed S] [--program PATH]

Each case is a random script with some `forget`, from the generator of scripts/trial scripts, and
the same script without. Every reply has to be the same, to the byte, but for these: a `damage` up
to the floor is refused as that of an initial state, and a `bar` before it as one at no check;
`rounds` lists the rounds of which no check is before the floor; and a history is what is kept of
the other one, in its own numbers. Each bundle and each whole answer has to be judged as valid, and
to claim the same in the numbers of the whole.

The slow model answers (scripts/slow_model), or the program that is named. The last line says how
many cases there were; the status is 0 where none differs.
"""

import argparse
import collections
import random
import subprocess
import tempfile
from collections.abc import Iterator, Sequence

from pictures.texts import Reply, read_replies
from slow_model import claims, scripts
from slow_model.histories import NO_FLOOR, Floor
from slow_model.machine import World
from slow_model.made_scripts import DOMINOES, ROUNDS, TALK, Player
from slow_model.texts import OF_FORGET, shown
from trying import drawn

MOST_SECONDS = 60
MOST_PROCESSES = 5
TEXTS = ("history", "bundle", "answer")  # commands that are answered by a text
OFTEN = {"forget": 8, "begin": 8, "history": 2, "bundle": 3, "answer": 3, "rounds": 3}
LENGTHS = [20, 60, 120, 240]
Fields = list[str]


class Different(Exception):
    """A reply is not as it has to be."""


class Letting(Player):
    """Makes a script of few processes, whose links keep their order, with some `forget`."""

    def __init__(self, chance: random.Random) -> None:
        super().__init__(chance, [TALK, ROUNDS, ROUNDS, DOMINOES])
        self.n = min(self.n, MOST_PROCESSES)
        self.mode, self.world = "fifo", World(self.n, "fifo")
        self.busy, self.holder = list(range(self.n)), 0
        self.weights.update(OFTEN)

    def records(self) -> list[str]:
        """The records of the script."""
        for _ in range(self.chance.choice(LENGTHS)):
            self.add(*self.command())
        return [",".join(map(shown, command)) for command in self.commands]


class Tried:
    """What answers: the slow model, or a program."""

    def __init__(self, program: str | None) -> None:
        self.program = program

    def output(self, command: str, text: bytes) -> bytes:
        """What comes of a text."""
        if self.program is None:
            return (scripts.run if command == "run" else claims.check)(text)[0]
        ran = subprocess.run(
            [self.program, command], input=text, stdout=subprocess.PIPE, check=False,
            timeout=MOST_SECONDS,
        )
        return ran.stdout

    def replies(self, processes: int, records: Sequence[str]) -> list[Reply]:
        """The replies to the commands of a script."""
        text = "\n".join([f"world,1,{processes},fifo", *records, ""])
        return list(read_replies(self.output("run", text.encode())))

    def verdict(self, reply: Reply) -> str:
        """The verdict on a check text."""
        text = "".join(",".join(record) + "\n" for record in reply)
        return self.output("check", text.encode()).decode().strip()


class Floors:
    """Where it was let go so far, by the replies."""

    def __init__(self, processes: int) -> None:
        self.floors = [NO_FLOOR] * processes
        self.begun = self.last_gone = 0

    def take(self, reply: Reply) -> None:
        """Counts rounds, and takes the floors of a reply, which never fall."""
        kind, *_ = reply[0]
        self.begun += kind == "begun"
        if kind == "forgot":
            later = [Floor(int(it[2]), int(it[3])) for it in reply[1:]]
            want(len(later) == len(self.floors), "as many floors as processes")
            for old, new in zip(self.floors, later):
                want(old.check <= new.check and old.sends <= new.sends, "floors that do not fall")
            self.floors, self.last_gone = later, self.begun

    def refusal(self, command: Fields) -> str | None:
        """What refuses a mark since it is before the floor, or none."""
        kind, *values = command
        if kind not in ("damage", "bar") or int(values[0]) >= len(self.floors):
            return None
        floor, check = self.floors[int(values[0])].check, int(values[1])
        if kind == "damage" and 0 < check <= floor:
            return "refused,7,InitialDamage"
        return "refused,4,NoSuchCheck" if kind == "bar" and check < floor else None

    def stays(self, listed: Fields) -> bool:
        """Whether a listed round is still listed."""
        return all(int(it) >= floor.check for it, floor in zip(listed[2:], self.floors))

    # What is kept of a text, and its claims in the numbers of the whole.

    def name(self, fields: Fields, sign: int) -> Fields:
        """A message's name by its number in what is kept (-1), or from there in the whole (1)."""
        number = int(fields[2]) + sign * self.floors[int(fields[0])].sends
        return [*fields[:2], str(number), *fields[3:]]

    def choice(self, p: int, field: str) -> str:
        """A choice of what is kept in the whole."""
        return field if field == "now" else str(int(field) + self.floors[p].lost_checks)

    def kept(self, text: Reply) -> Iterator[Fields]:
        """The records of a history, with what is kept of the whole."""
        is_plain = all(floor == NO_FLOOR for floor in self.floors)
        version = text[0][1] if is_plain else str(OF_FORGET)
        yield ["history", version, text[0][2]]
        for p, floor in enumerate([] if is_plain else self.floors):
            yield ["floor", *map(str, (p, *floor))]
        p = sends = checks = 0
        for record in text[1:]:
            kind, *values = record
            if kind == "tape":
                p, sends, checks = int(values[0]), 0, 0
            sends += kind == "send"
            checks += kind == "check"
            if kind == "check" and values[1] != "-" and int(values[1]) <= self.last_gone:
                record = [kind, values[0], "-"]
            is_gone = {
                "send": sends <= self.floors[p].sends,
                "recv": kind == "recv" and int(self.name(values, -1)[2]) < 0,
                "check": checks < self.floors[p].check,
                "mark": kind == "mark" and int(values[1]) <= self.last_gone,
            }
            if not is_gone.get(kind):
                yield [kind, *self.name(values, -1)] if kind == "recv" else record

    def brought_back(self, claim: Reply) -> Iterator[Fields]:
        """What a text of what is kept claims, in the whole, but for the places of replays."""
        for kind, *values in claim:
            if kind in ("damage", "bar"):
                yield [kind, values[0], self.choice(int(values[0]), values[1])]
            elif kind == "line":
                yield [kind, *(self.choice(p, it) for p, it in enumerate(values))]
            elif kind == "pass":
                choice = self.choice(int(values[0]), values[1])
                yield [kind, values[0], choice, *self.name(values[2:], 1)]
            elif kind == "replay":
                yield [kind, *self.name(values[:4], 1), values[5]]
            else:
                yield [kind, *values]

    def whole_claim(self, claim: Reply) -> Iterator[Fields]:
        """What a text of the whole claims, without the damaged checks up to the floors."""
        for kind, *values in claim:
            is_gone = kind == "damage" and int(values[1]) <= self.floors[int(values[0])].check
            if not is_gone:
                yield [kind, *values[:4], values[5]] if kind == "replay" else [kind, *values]


def want(holds: object, what: str) -> None:
    """Asks that something holds."""
    if not holds:
        raise Different(what)


def same(got: object, wanted: object) -> None:
    """Asks that two things are the same."""
    want(got == wanted, f"wanted {wanted}\nand got {got}")


def parts_of(text: Reply) -> tuple[Reply, Reply]:
    """The history of a text, and what is claimed after it."""
    of_history = ("history", "floor", "tape", "send", "recv", "check", "mark")
    end = next((at for at, (kind, *_) in enumerate(text) if kind not in of_history), len(text))
    return text[:end], text[end:]


def compare_texts(tried: Tried, floors: Floors, kept: Reply, whole: Reply) -> str:
    """Asks that a text is right of what is kept, and answers what to count."""
    (history, claim), (all_of_it, whole_claim) = parts_of(kept), parts_of(whole)
    same(history, list(floors.kept(all_of_it)))
    same(list(floors.brought_back(claim)), list(floors.whole_claim(whole_claim)))
    if not claim:
        return f"history of version {history[0][1]}"
    same(tried.verdict(kept), "valid")
    return f"check text of version {history[0][1]}, valid"


def compare_rounds(floors: Floors, kept: Reply, whole: Reply) -> None:
    """Asks that the rounds are listed that stay, with their channels."""
    listed = [it for it in whole[1:] if it[0] == "round" and floors.stays(it)]
    numbers = [it[1] for it in listed]
    same(kept, [["rounds", str(len(listed))], *(it for it in whole[1:] if it[1] in numbers)])


def compare(tried: Tried, processes: int, records: Sequence[str]) -> Iterator[str]:
    """Compares the replies to a script with those without `forget`, and tells what to count."""
    floors = Floors(processes)
    replies = tried.replies(processes, records)
    same(len(replies), len(records))
    pairs: list[tuple[str, Reply, Floors]] = []
    for record, reply in zip(records, replies):
        refusal = floors.refusal(record.split(","))
        if refusal:
            same(reply, [refusal.split(",")])
            yield refusal
            continue
        floors.take(reply)
        if record.split(",")[0] == "forget":
            yield ",".join(reply[0]) if reply[0][0] == "refused" else "forgot"
            continue
        now = Floors(processes)
        now.floors, now.last_gone = floors.floors, floors.last_gone
        pairs.append((record, reply, now))
    others = tried.replies(processes, [record for record, _, _ in pairs])
    same(len(others), len(pairs))
    for (record, kept, now), whole in zip(pairs, others):
        kind = record.split(",")[0]
        if kept[0][0] == "refused" or kind not in (*TEXTS, "rounds"):
            same(kept, whole)
        elif kind == "rounds":
            compare_rounds(now, kept, whole)
        else:
            yield compare_texts(tried, now, kept, whole)


def keep(case: int, processes: int, records: Sequence[str], why: Different) -> None:
    """Keeps a script that differs, and tells how."""
    with tempfile.NamedTemporaryFile("w", prefix="recline-", suffix=".in", delete=False) as kept:
        kept.write("\n".join([f"world,1,{processes},fifo", *records, ""]))
    print(f"case {case} differs; the script is in {kept.name}: {why}")


def add_words(line: argparse.ArgumentParser) -> None:
    """Adds the words of this job to those that are read."""
    drawn.add_case_words(line)


def run(asked: argparse.Namespace) -> int:
    """Tries the cases, and answers the status."""
    if not drawn.has_program(asked):
        return 1
    tried = Tried(asked.program)
    counts: collections.Counter[str] = collections.Counter()
    for case in range(asked.cases):
        player = Letting(random.Random(f"forget {asked.seed} {case}"))
        records = player.records()
        try:
            counts.update(compare(tried, player.n, records))
        except Different as why:
            keep(case, player.n, records, why)
            return 1
    drawn.print_counts(asked, counts)
    print(f"{asked.cases} cases: what lets go answers as what keeps everything")
    return 0
