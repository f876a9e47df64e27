"""The program on made inputs, compared with another program.

Usage: scripts/measure program [--program PATH] [--other PATH] [--inputs NAME,..] [--sizes S,M]
                               [--runs K] [--keep DIR] [--counts] [--texts FILE ..]

The inputs are the same in every run; size S has some 10,000 records and size M some 1,000,000:

  ring     a script: 8 processes in a ring, links in order. Each sends, each receives, every eighth
           time each takes a check; at the end one fails.
  great-ring  the same of 256 processes.
  rounds   a script: rounds of markers among 8 processes, with messages in their channels; the list
           of all rounds, a failure, and the list again.
  great-rounds  the same among 256 processes: a round has 65,280 markers, and size S has none.
  colours  a script: 64 processes, links without order, rounds of colours, copies that are delivered
           again, and sometimes a recovery with nobody failed; at the end two fail.
  great-colours  the same of 256 processes.
  domino   a check text: 8 processes in a ring, whom one failure takes back to their initial states,
           choice by choice.

With --texts the inputs are these files, in place of those: `check` judges a file whose name begins
with check, and `run` runs any other.

The programs run in turns, from a file to nowhere. The table has the medians of the time from start
to end and of the processor time, the shortest processor time, and the greatest memory of a run of
its own, which is told only above what a small Python process takes (some 9 MB). Statuses and
outputs are compared once. Read ratios within one table, and size S as the time of a start.

With --counts nothing is timed. The table has for a record the instructions, and the data that a
cache of the first level and one of the last level miss, by valgrind and the sizes that
scripts/instructions.py gives them, the start of the program included; then the greatest memory, and
the thousands of pages that were touched first. A run takes some fifty times as long then.
"""

import argparse
import hashlib
import math
import multiprocessing
import os
import pathlib
import statistics
import subprocess
import sys
import tempfile
from collections.abc import Iterator, Sequence
from concurrent.futures import ThreadPoolExecutor
from typing import NamedTuple

import instructions
from made_inputs import INPUTS

from .runs import Program, add_program, found_at, head, held, program_of, row, some_of, timed

SIZES = {"S": 10_000, "M": 1_000_000}
RUNS = {"S": 15, "M": 5}


class Input(NamedTuple):
    """An input: how a table tells it, the subcommand, its file, and how often it is timed."""

    name: str
    command: str
    path: pathlib.Path
    runs: int

    def records(self) -> int:
        """How many records it has."""
        with open(self.path, "rb") as text:
            return sum(1 for _ in text)


def write(path: pathlib.Path, name: str, size: str) -> None:
    """Writes the text of an input."""
    with open(path, "w", encoding="ascii") as text:
        text.writelines(record + "\n" for record in INPUTS[name][0](SIZES[size]))


def make(folder: pathlib.Path, name: str, size: str) -> pathlib.Path:
    """The file of an input. It is made in a process of its own, so that this one stays small."""
    path = folder / f"{name}.{size}"
    if not path.exists():
        writer = multiprocessing.Process(target=write, args=(path, name, size))
        writer.start()
        writer.join()
        if writer.exitcode:
            sys.exit(f"{path} could not be made")
    return path


def inputs(asked: argparse.Namespace, folder: pathlib.Path) -> Iterator[Input]:
    """The inputs that are asked for, each made when it is its turn."""
    for path in asked.texts:
        command = "check" if path.name.startswith("check") else "run"
        yield Input(path.name, command, path, asked.runs or RUNS["M"])
    if not asked.texts:
        for name in asked.inputs:
            for size in asked.sizes:
                path = make(folder, name, size)
                yield Input(f"{name} {size}", INPUTS[name][1], path, asked.runs or RUNS[size])


# Measuring.


def answer(program: Program, text: Input) -> tuple[int, str]:
    """The status, and a digest of the output."""
    with open(text.path, "rb") as source:
        ran = subprocess.run(
            [program, text.command], stdin=source, capture_output=True, check=False
        )
    return ran.returncode, hashlib.sha256(ran.stdout).hexdigest()


def measure(programs: Sequence[Program], text: Input) -> list[tuple[float, ...]]:
    """For each program three times in milliseconds, and the memory.

    The times are the medians, from start to end and of the processor, and the shortest of the
    processor.
    """
    took: list[list[tuple[float, float]]] = [[] for _ in programs]
    turns = list(zip(programs, took))
    for run in range(text.runs):
        for program, times in turns if run % 2 == 0 else turns[::-1]:
            run_took = timed(program, text.command, text.path)
            times.append((run_took.seconds, run_took.processor))
    return [
        (
            *(1000 * statistics.median(some) for some in zip(*times)),
            1000 * min(processor for _, processor in times),
            held(program, text.command, text.path).megabytes,
        )
        for program, times in turns
    ]


def count(program: Program, tool: instructions.Tool, text: Input) -> list[float]:
    """What the tool counts for a record, then the memory, and the thousands of pages."""
    counts = instructions.all_counted(tool, [str(program), text.command], text.path)
    if counts is None:
        sys.exit(f"{tool.name} counts nothing of {text.name}")
    took, records = held(program, text.command, text.path), text.records()
    return [*(it / records for it in counts), took.megabytes, took.pages / 1000]


def counted(
    programs: Sequence[Program], tool: instructions.Tool, texts: Iterator[Input]
) -> Iterator[tuple[Input, list[list[float]]]]:
    """Each input with what each program takes of it; one runs at once for each processor."""
    made = list(texts)
    with ThreadPoolExecutor(os.cpu_count()) as pool:
        runs = [[pool.submit(count, it, tool, text) for it in programs] for text in made]
        for text, futures in zip(made, runs):
            yield text, [it.result() for it in futures]


def print_times(programs: Sequence[Program], texts: Iterator[Input]) -> dict[str, float]:
    """Prints the table of times.

    Of two programs it answers for each input how many times that of the second one the shortest
    time of the first one is.
    """
    times = ["time ms", "processor ms", "shortest ms", "memory MB"]
    columns = ["input", "records", "MB", *times, "status"]
    if len(programs) > 1:
        columns += [f"other: {times[0]}", *times[1:]]
        columns += ["time, ratio", "processor, ratio", "shortest, ratio", "same answer"]
    head(*columns)
    shortest = {}
    for text in texts:
        answers = [answer(program, text) for program in programs]
        figures = measure(programs, text)
        size = text.path.stat().st_size / 1e6
        cells = [text.name, f"{text.records():,}", f"{size:.1f}"]
        cells += [f"{figure:.1f}" for figure in figures[0]] + [str(answers[0][0])]
        if len(programs) > 1:
            cells += [f"{figure:.1f}" for figure in figures[1]]
            ratios = [one / other if other else math.nan for one, other in zip(*figures)]
            cells += [f"{ratio:.2f}" for ratio in ratios[:3]]
            cells.append("yes" if answers[0] == answers[1] else "no")
            shortest[text.name] = ratios[2]
        row(cells)
    return shortest


def print_counts(programs: Sequence[Program], texts: Iterator[Input]) -> None:
    """Prints the table of counts: a cell has those of the programs, and the ratio of two."""
    tool = instructions.tool_at_hand()
    if tool is None:
        sys.exit("neither valgrind nor perf counts here")
    tool = instructions.with_misses(tool)
    measures = ["instructions", "first level", "last level"][: len(tool.shown)]
    decimals = [0, 2, 2][: len(measures)] + [1, 1]
    head("input", "records", *measures, "MB", "thousand pages", "same answer")
    for text, found in counted(programs, tool, texts):
        counts = list(zip(*found))
        cells = []
        for places, both in zip(decimals, counts):
            told = " / ".join(f"{it:,.{places}f}" for it in both)
            ratio = f" ({both[0] / both[1]:.2f})" if len(both) > 1 and both[1] else ""
            cells.append(told + ratio)
        answers = {answer(program, text) for program in programs}
        row([text.name, f"{text.records():,}", *cells, "yes" if len(answers) == 1 else "no"])


def add_words(words: argparse.ArgumentParser) -> None:
    """Adds the words of this job to those that are read."""
    add_program(words)
    words.add_argument(
        "--other", type=pathlib.Path, help="a program that answers `run` and `check` alike"
    )
    words.add_argument(
        "--inputs", type=some_of(INPUTS), default=list(INPUTS), help="which inputs (all)"
    )
    words.add_argument(
        "--texts", type=pathlib.Path, nargs="+", default=[], help="texts in place of the inputs"
    )
    words.add_argument(
        "--sizes", type=some_of(SIZES), default=list(SIZES), help="which sizes (S,M)"
    )
    words.add_argument(
        "--runs", type=int, default=0, help="how many runs of each (15 of size S, 5 of others)"
    )
    words.add_argument("--counts", action="store_true", help="counts in place of timing")
    words.add_argument("--keep", type=pathlib.Path, help="a folder to keep the inputs in")


def run(asked: argparse.Namespace) -> int:
    """Makes the inputs, and measures the programs on them."""
    programs = [program_of(asked), *([found_at(asked.other)] if asked.other else [])]
    with tempfile.TemporaryDirectory() as made:
        folder = asked.keep or pathlib.Path(made)
        folder.mkdir(parents=True, exist_ok=True)
        (print_counts if asked.counts else print_times)(programs, inputs(asked, folder))
    return 0
