"""The memory of rounds that a world lists, and the time of their markers.

Usage: scripts/measure rounds [--rounds COUNT] [--apart K]

A world of 64 processes over links in order takes COUNT rounds of markers (65,535): the first
process begins each, no process stores a byte or sends a message, and each of the 4,032 markers is
delivered before the next round begins. After each K rounds (1,000; 15,625 at most, since a tape
holds a million events) and at the end a recovery of nobody takes the markers off the tapes. All
checks stay, and all rounds stay listed.

The table has the seconds of the processor and the greatest resident memory in MB, with no round and
with COUNT, and after these what they take more: of memory the bytes for a round, of time the
nanoseconds for a step. The program is bench/round_memory/main.rattle; it is proved like all others,
but is no crate of the repository. Its memory is told by a process of its own that runs it alone; a
small Python process takes some 10 MB, below which nothing is told.
"""

import argparse
import pathlib
import subprocess
import sys
from collections.abc import Callable
from typing import NamedTuple

import building
import workspace

STANDS_ON = "line_names line_tape line_world".split()
PROCESSES = 64
MOST_ROUNDS = 65_535
# A process has a check and the markers of all others on its tape for each round.
MOST_APART = 1_000_000 // PROCESSES
# To begin a round and to deliver its markers.
STEPS_A_ROUND = 1 + PROCESSES * (PROCESSES - 1)

# What runs the program alone.
RUN_ALONE = """
import os, sys
child = os.posix_spawn(sys.argv[1], sys.argv[1:], os.environ)
_, status, used = os.wait4(child, 0)
print(used.ru_utime + used.ru_stime, used.ru_maxrss)
sys.exit(os.waitstatus_to_exitcode(status) != 0)
"""


class Figures(NamedTuple):
    """What a run took: the seconds of the processor, and the bytes of its greatest memory."""

    seconds: float
    memory: int


def measured(program: pathlib.Path, rounds: int, apart: int) -> Figures:
    """Runs the program; what is refused, or a round that is not listed, ends all."""
    words = [sys.executable, "-I", "-S", "-c", RUN_ALONE, str(program), str(rounds), str(apart)]
    out = subprocess.run(words, check=True, stdout=subprocess.PIPE, text=True).stdout
    told, took = out.splitlines()
    if told != f"0,{rounds}":
        sys.exit(f"of {rounds} rounds, refused steps and listed rounds are {told}")
    seconds, kilobytes = took.split()
    return Figures(float(seconds), int(kilobytes) * 1024)


def row(rounds: int, took: Figures, more: tuple[str, str]) -> None:
    """Prints a row of the table."""
    cells = [f"{rounds:,}", f"{took.seconds:.2f}", f"{took.memory / 1e6:.1f}", *more]
    print("| " + " | ".join(cells) + " |", flush=True)


def to(most: int) -> Callable[[str], int]:
    """What reads a number from 1 to this one."""

    def read(text: str) -> int:
        if not 0 < int(text) <= most:
            raise argparse.ArgumentTypeError(f"{text} is not from 1 to {most}")
        return int(text)

    return read


def add_words(words: argparse.ArgumentParser) -> None:
    """Adds the words of this job to those that are read."""
    words.add_argument("--rounds", type=to(MOST_ROUNDS), default=MOST_ROUNDS, metavar="COUNT",
                       help="how many rounds (65535)")
    words.add_argument("--apart", type=to(MOST_APART), default=1_000, metavar="K",
                       help="rounds between recoveries (1000)")


def run(asked: argparse.Namespace) -> int:
    """Builds the program, and runs it without a round and with those that are asked for."""
    with workspace.new_folder("recline-rounds-") as folder:
        program = building.build_bench(pathlib.Path(folder), "round_memory", STANDS_ON, [])
        print("| rounds | processor s | memory MB | bytes a round | ns a step |")
        print("|--:|--:|--:|--:|--:|")
        none = measured(program, 0, asked.apart)
        row(0, none, ("-", "-"))
        some = measured(program, asked.rounds, asked.apart)
        memory = (some.memory - none.memory) / asked.rounds
        seconds = (some.seconds - none.seconds) / (asked.rounds * STEPS_A_ROUND)
        row(asked.rounds, some, (f"{memory:,.0f}", f"{seconds * 1e9:.0f}"))
    return 0
