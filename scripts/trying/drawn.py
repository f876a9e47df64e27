"""What jobs share that draw runs or cases from a seed and a number."""

import argparse
import collections
import sys
import time
from collections.abc import Callable

import command_lines

SECONDS_OF_SILENCE = 10


class Failure(Exception):
    """What was not as it must be, and how."""


def add_run_words(line: argparse.ArgumentParser, quick_runs: int) -> None:
    """Adds the words that say which runs are done."""
    line.add_argument("--runs", type=int, default=100, help="how many runs (100)")
    line.add_argument("--seed", type=int, help="where they are drawn from (the time)")
    line.add_argument("--from", type=int, default=0, dest="first", help="the first run (0)")
    line.add_argument("--quick", action="store_true", help=f"{quick_runs} runs of a fixed seed")


def choose_runs(asked: argparse.Namespace, quick_runs: int, quick_seed: int) -> None:
    """Settles how many runs are done, and their seed."""
    if asked.quick:
        asked.runs, asked.seed = quick_runs, quick_seed
    if asked.seed is None:
        asked.seed = int(time.time())


def try_runs(
    job: str, asked: argparse.Namespace, one: Callable[[int], None], told: Callable[[], str]
) -> bool:
    """Does the runs, one by its number after another; answers whether each was as it must be.

    The first that was not is told, and how it is done again. After some seconds of silence it is
    told what all came to so far.
    """
    next_word = time.monotonic() + SECONDS_OF_SILENCE
    for number in range(asked.first, asked.first + asked.runs):
        try:
            one(number)
        except Failure as failure:
            print(f"run {number} of seed {asked.seed}: {failure}")
            print(f"again: scripts/trial {job} --seed {asked.seed} --from {number} --runs 1")
            return False
        if time.monotonic() >= next_word:
            next_word = time.monotonic() + SECONDS_OF_SILENCE
            print(f"trial {job}: {told()}", file=sys.stderr)
    return True


def add_case_words(line: argparse.ArgumentParser) -> None:
    """Adds the words that say which cases are tried, by what, and whether they are counted."""
    line.add_argument("--cases", type=int, default=200, help="how many cases (200)")
    line.add_argument("--seed", type=int, default=1, help="where the generator starts (1)")
    line.add_argument("--program", help="the program, in place of the slow model")
    line.add_argument("--counts", action="store_true", help="print how often each kind came")


def has_program(asked: argparse.Namespace) -> bool:
    """Whether the program that the words name runs, or they name none. If not, it is told.

    The first call may have to build the program, which takes long and says so.
    """
    if asked.program and not command_lines.runs(asked.program):
        print(f"{asked.program} does not run")
        return False
    return True


def print_counts(asked: argparse.Namespace, counts: collections.Counter[str]) -> None:
    """Prints how often each kind came, where that is asked for."""
    if asked.counts:
        for kind, times in sorted(counts.items()):
            print(f"{times:8} {kind}")
