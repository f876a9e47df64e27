"""Compares the verdicts of examples/judge/judge.py with those of the program.

    scripts/trial judge [--cases N] [--seed S] [--program PATH]

The cases are check texts with whole answers, 20 of each history: some are right, and in the others
something is changed (scripts/slow_model). Texts that the program does not read are left to it. It
also cuts one answer after each of its bytes: what is left has a fault, unless it is the whole text.
A text that differs is printed; the last line says how many were compared, and the status is 0 where
none differs.
"""

import argparse
import pathlib
import random
import subprocess
import sys
from collections.abc import Iterator

import command_lines
import workspace

TOP = workspace.ROOT
sys.path.insert(0, str(TOP / "examples" / "judge"))

import judge
from slow_model.made_claims import some_answer_texts

BUILT = TOP / "crates" / "line_cli" / "out" / "line_cli"
EXAMPLE = TOP / "examples" / "check" / "answer_valid.in"
A_HISTORY = 20  # so many cases are of one history
MOST_SECONDS = 60


def answer_of(program: pathlib.Path, text: bytes) -> tuple[str, int]:
    """What the program writes, and its status."""
    ran = subprocess.run(
        [program, "check"], input=text, capture_output=True, check=False, timeout=MOST_SECONDS
    )
    return ran.stdout.decode().strip(), ran.returncode


def texts(cases: int, seed: int) -> Iterator[bytes]:
    """The cases."""
    for case in range(0, cases, A_HISTORY):
        yield from some_answer_texts(random.Random(f"judge {seed} {case}"), A_HISTORY)


def whole_prefixes(program: pathlib.Path, text: bytes) -> Iterator[bytes]:
    """The prefixes of a text that the program reads without a fault."""
    for end in range(len(text) + 1):
        if answer_of(program, text[:end])[1] != 2:
            yield text[:end]


def add_words(line: argparse.ArgumentParser) -> None:
    """Adds the words of this job to those that are read."""
    line.add_argument("--cases", type=int, default=2000, help="how many cases (2000)")
    line.add_argument("--seed", type=int, default=1, help="where the generator starts (1)")
    line.add_argument(
        "--program", type=pathlib.Path, help="the program (the built one, which ./recline builds)"
    )


def run(asked: argparse.Namespace) -> int:
    """Compares, and answers the status."""
    if not command_lines.runs(asked.program or TOP / "recline"):
        print("the program does not run")
        return 1
    program = asked.program or BUILT
    compared = different = 0
    for text in texts(asked.cases, asked.seed):
        wanted, status = answer_of(program, text)
        if status == 2:
            continue
        compared += 1
        told = judge.verdict(text.decode("ascii"))
        if told != wanted:
            different += 1
            print(f"{text.decode('ascii')}is {wanted} for the program, and {told} for the judge")
    example = EXAMPLE.read_bytes()
    whole = list(whole_prefixes(program, example))
    if whole != [example[:-1], example]:
        different += 1
        print(f"{len(whole)} prefixes of {EXAMPLE.name} are read, in place of the text alone")
    print(f"{compared} answers: {different or 'none'} judged otherwise than by the program")
    return 1 if different else 0
