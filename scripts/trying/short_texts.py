"""Runs the short texts of examples/short_texts.txt through the program.

    scripts/trial short_texts [PROGRAM]    PROGRAM is ./recline where none is given

Each line of that file is a command, a text, and what comes of it: what standard output gets, or the
fault that standard error tells, with nothing on standard output. The status follows: 2 for a fault,
1 where a step is refused or a claim invalid, else 0. The last line says how many texts are answered
as they must be; the status is 0 where all are.
"""

import argparse
import subprocess
from collections.abc import Iterator
from typing import NamedTuple

import command_lines
import workspace

TOP = workspace.ROOT
TABLE = TOP / "examples" / "short_texts.txt"


class Answer(NamedTuple):
    """What a run gives: its output, what it says on standard error, and its status."""

    output: bytes
    said: bytes
    status: int


class Row(NamedTuple):
    """A line of the table."""

    number: int
    command: str
    text: bytes
    wanted: Answer


def unescaped(written: str) -> bytes:
    """The bytes that the table writes so."""
    return written.encode("ascii").decode("unicode_escape").encode("latin-1")


def wanted_of(written: str) -> Answer:
    """The answer that the right side of a line asks for."""
    if written.startswith("! "):
        return Answer(b"", f"recline: {written[2:]}\n".encode(), 2)
    output = unescaped(written)
    told = any(line.startswith((b"refused,", b"invalid,")) for line in output.splitlines())
    return Answer(output, b"", 1 if told else 0)


def rows() -> Iterator[Row]:
    """The lines of the table, comments and empty lines left out."""
    for number, line in enumerate(TABLE.read_text(encoding="ascii").splitlines(), 1):
        if line and not line.startswith("#"):
            left, _, right = line.partition(" =>")
            command, _, text = left.partition(" ")
            yield Row(number, command, unescaped(text), wanted_of(right.removeprefix(" ")))


def answer(program: str, row: Row) -> Answer:
    """What the program gives for the text of a line."""
    ran = subprocess.run(
        [program, row.command], input=row.text, capture_output=True, check=False, timeout=60
    )
    return Answer(ran.stdout, ran.stderr, ran.returncode)


def add_words(words: argparse.ArgumentParser) -> None:
    """Adds the words of this job to those that are read."""
    command_lines.add_program(words)


def run(asked: argparse.Namespace) -> int:
    """Runs all lines, and answers the status."""
    program = asked.program or str(TOP / "recline")
    every, wrong = list(rows()), 0
    for row in every:
        got = answer(program, row)
        if got != row.wanted:
            wrong += 1
            print(
                f"line {row.number}, {row.command} {row.text!r}:\n"
                f"    wanted {row.wanted}\n    got    {got}"
            )
    print(f"short texts: {len(every) - wrong} of {len(every)} answered as they must be")
    return 1 if wrong else 0
