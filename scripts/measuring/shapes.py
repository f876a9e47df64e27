"""Forty texts of shapes that nothing was made for, on the program and on another one.

Usage: scripts/measure shapes [--program PATH] [--other PATH] [--records N] [--runs K] [--counts]
                              [--keep DIR] [--shapes NAME,..]

A shape is what processes do, how many there are, whom each sends to, and how many messages of a
hundred nobody takes:

  talk        messages, and now and then a check; at the end one process fails.
  domino      a check after each message; at the end one failure takes all back, choice by choice.
  rounds      messages, and a round of markers, or of colours where links lose messages, whenever
              each process has sent some; at the end the list of rounds and a failure.
  recoveries  messages and checks, and a failure after some turns of all processes.

A name is such as `domino-64-back-5`. Each process sends to the `next` one, to the one `back`, or to
`any`; links that lose some keep no order. Scripts are run; of a talk and of a domino the check text
at the end, which the program writes, is judged too: its name has `check-` before it. The tables are
those of `scripts/measure program`, the texts in the order of their names, with some N records
(1,000,000) each. Of two programs a last line has the worst ratio of their shortest times, unless
counts are asked for.
"""

import argparse
import collections
import dataclasses
import pathlib
import random
import subprocess
import tempfile
from collections.abc import Callable, Iterator

from slow_model.texts import earliest_version

from . import program as programs
from .runs import Program, add_program, found_at, program_of

KINDS = ("talk", "domino", "rounds", "recoveries")
NUMBERS = (2, 3, 8, 16, 64, 256)
WAYS = ("next", "back", "any")
LOSSES = (0, 5)
FORTY = 40
TURNS_BETWEEN = 8  # of all processes, from a round or a failure to the next one


@dataclasses.dataclass(frozen=True, order=True)
class Shape:
    """What processes do, how many they are, whom they send to, and what of a hundred is lost."""

    kind: str
    processes: int
    way: str
    loss: int

    @property
    def name(self) -> str:
        """Its name."""
        return f"{self.kind}-{self.processes}-{self.way}-{self.loss}"

    @property
    def is_judged(self) -> bool:
        """Whether there is a check text of it too."""
        return self.kind in ("talk", "domino")


def forty() -> list[Shape]:
    """Shapes that make forty texts: each kind, number, way and loss among them."""
    every = [
        Shape(kind, n, way, loss)
        for kind in KINDS for n in NUMBERS for way in WAYS for loss in LOSSES
        if not (kind == "recoveries" and loss) and not (n == 2 and way != "next")
    ]
    random.Random("shapes").shuffle(every)
    chosen: list[Shape] = []
    count = 0
    for shape in every:
        if count + 1 + shape.is_judged <= FORTY:
            chosen.append(shape)
            count += 1 + shape.is_judged
    return sorted(chosen)


# What the processes do.


class Talk:
    """The records of processes that send and take messages, on links that lose some or none."""

    def __init__(self, shape: Shape) -> None:
        self.shape, self.chance = shape, random.Random(shape.name)
        # Links lose nothing that they keep in order.
        self.is_ordered = not shape.loss
        self.copies: dict[tuple[int, int], int] = collections.Counter()  # on each link so far

    def first(self) -> str:
        """The first record."""
        n = self.shape.processes
        return f"world,{earliest_version(n)},{n},{'fifo' if self.is_ordered else 'unordered'}"

    def addressee(self, p: int) -> int:
        """Whom a process sends to."""
        n = self.shape.processes
        step = {"next": 1, "back": n - 1}.get(self.shape.way) or self.chance.randrange(1, n)
        return (p + step) % n

    def send(self, p: int, q: int) -> str:
        """A message."""
        return f"send,{p},{q},{self.chance.randbytes(self.chance.randrange(9)).hex()}"

    def take(self, p: int, q: int) -> Iterator[str]:
        """The delivery of the message that was sent last, unless it is lost."""
        place = 0 if self.is_ordered else self.copies[p, q]
        self.copies[p, q] += 1
        if self.is_ordered or self.chance.randrange(100) >= self.shape.loss:
            yield f"deliver,{p},{q},{place},{self.chance.randbytes(2).hex()}"

    def turn(self) -> Iterator[str]:
        """Each process sends, and then each message is taken."""
        sent = [(p, self.addressee(p)) for p in range(self.shape.processes)]
        yield from (self.send(p, q) for p, q in sent)
        for p, q in sent:
            yield from self.take(p, q)

    def check(self, p: int) -> str:
        """A check."""
        return f"check,{p},{self.chance.randbytes(4).hex()}"


def talk(shape: Shape, most: int) -> Iterator[str]:
    """Messages, and each eighth turn a check of each process."""
    it, n = Talk(shape), shape.processes
    yield it.first()
    for turn in range(most // (2 * n + n // 8 + 1)):
        yield from it.turn()
        if turn % 8 == 7:
            yield from map(it.check, range(n))
    yield f"recover,{n // 2}"


def domino(shape: Shape, most: int) -> Iterator[str]:
    """Whoever has received takes a check, and only then sends on."""
    it = Talk(shape)
    yield it.first()
    p = last = 0
    for _ in range(most // 3):
        q = it.addressee(p)
        yield it.send(p, q)
        yield from it.take(p, q)
        yield it.check(q)
        p, last = q, p
    yield f"recover,{last}"


def rounds(shape: Shape, most: int) -> Iterator[str]:
    """Messages, and a round whenever each has sent some."""
    it, n = Talk(shape), shape.processes
    yield it.first()
    turns = most // (TURNS_BETWEEN * 2 * n + n * (n - 1 if it.is_ordered else 1))
    for _ in range(max(turns, 1)):
        for _ in range(TURNS_BETWEEN):
            yield from it.turn()
        first = it.chance.randrange(n)
        yield f"begin,{first},{it.chance.randbytes(4).hex()}"
        others = [p for p in range(n) if p != first]
        if it.is_ordered:
            markers = [(first, q) for q in others] + [(p, q) for p in others for q in range(n)]
            yield from (f"deliver,{p},{q},0," for p, q in markers if p != q)
        else:
            yield from (f"turn,{p}," for p in others)
    yield from ["rounds", f"recover,{n // 2}"]


def recoveries(shape: Shape, most: int) -> Iterator[str]:
    """Messages and checks, and failures."""
    it, n = Talk(shape), shape.processes
    yield it.first()
    for _ in range(most // (TURNS_BETWEEN * 2 * n + n + 1)):
        for _ in range(TURNS_BETWEEN):
            yield from it.turn()
        yield from map(it.check, range(n))
        yield f"recover,{it.chance.randrange(n)}"


MAKERS: dict[str, Callable[[Shape, int], Iterator[str]]] = {
    "talk": talk, "domino": domino, "rounds": rounds, "recoveries": recoveries,
}


# The texts.


def write_script(path: pathlib.Path, shape: Shape, most: int) -> None:
    """Writes the script of a shape."""
    with open(path, "w", encoding="ascii") as text:
        text.writelines(f"{record}\n" for record in MAKERS[shape.kind](shape, most))


def write_claim(path: pathlib.Path, script: pathlib.Path, program: Program) -> None:
    """Writes the check text of the failure that a script ends with."""
    *steps, failure = script.read_bytes().splitlines(True)
    text = b"".join([*steps, failure.replace(b"recover", b"bundle")])
    ran = subprocess.run([program, "run"], input=text, stdout=subprocess.PIPE, check=True)
    path.write_bytes(ran.stdout[ran.stdout.index(b"history,"):])


def texts(asked: argparse.Namespace, folder: pathlib.Path) -> Iterator[programs.Input]:
    """The texts that are asked for, each made when it is its turn."""
    program = program_of(asked)
    for shape in asked.shapes or forty():
        script, claim = folder / shape.name, folder / f"check-{shape.name}"
        if not script.exists():
            write_script(script, shape, asked.records)
        yield programs.Input(script.name, "run", script, asked.runs)
        if shape.is_judged:
            if not claim.exists():
                write_claim(claim, script, program)
            yield programs.Input(claim.name, "check", claim, asked.runs)


def shape_of(name: str) -> Shape:
    """The shape of a name."""
    try:
        kind, processes, way, loss = name.split("-")
        shape = Shape(kind, int(processes), way, int(loss))
    except ValueError:
        raise argparse.ArgumentTypeError(f"{name!r} is no shape") from None
    if kind not in KINDS or way not in WAYS or not 2 <= shape.processes <= 256:
        raise argparse.ArgumentTypeError(f"{name!r} is no shape")
    return shape


def shapes_of(names: str) -> list[Shape]:
    """The shapes of names with commas between them."""
    return [shape_of(name) for name in names.split(",")]


def add_words(words: argparse.ArgumentParser) -> None:
    """Adds the words of this job to those that are read."""
    add_program(words)
    words.add_argument(
        "--other", type=pathlib.Path, help="a program that answers `run` and `check` alike"
    )
    words.add_argument(
        "--records", type=int, default=1_000_000, help="of each text, or so (1,000,000)"
    )
    words.add_argument("--runs", type=int, default=5, help="how many runs of each (5)")
    words.add_argument("--counts", action="store_true", help="counts in place of timing")
    words.add_argument("--keep", type=pathlib.Path, help="a folder to keep the texts in")
    words.add_argument("--shapes", type=shapes_of, help="these shapes alone")


def run(asked: argparse.Namespace) -> int:
    """Makes the texts, and measures the programs on them."""
    compared = [program_of(asked), *([found_at(asked.other)] if asked.other else [])]
    with tempfile.TemporaryDirectory() as made:
        folder = asked.keep or pathlib.Path(made)
        folder.mkdir(parents=True, exist_ok=True)
        if asked.counts:
            programs.print_counts(compared, texts(asked, folder))
            return 0
        ratios = programs.print_times(compared, texts(asked, folder))
    if ratios:
        name, ratio = max(ratios.items(), key=lambda it: it[1])
        print(f"\nthe worst of {len(ratios)} texts is {name}: {ratio:.2f}")
    return 0
