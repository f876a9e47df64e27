"""Parts of the library by themselves: tape, checker, questions about lanes.

Usage: scripts/measure parts [--runs K] [PART ..]

  tape   events of each kind that are pushed on a tape, and questions about a million receipts
  check  the checker on a certificate of some 100,000 entries, a domino through two processes
  lanes  the questions about two lists of 8, 64 and 256 lanes, and beside them plain Rust,
         scripts/plain_lanes.rs, where rustc is at hand

All of them where none is named, each K times (3); the lines are those that the programs print. The
programs are bench/NAME/main.rattle; they are proved like all others, which takes some minutes the
first time, but are no crates of the repository, since they print times. Read the lines on a machine
with nothing else to do.
"""

import argparse
import pathlib
import subprocess
from typing import NamedTuple

import building
import workspace

PLAIN = workspace.ROOT / "scripts" / "plain_lanes.rs"
# The least processor that the code of the compiler of the kit is for.
PROCESSOR = "x86-64-v2"


class Part(NamedTuple):
    """A part: its program of `bench`, the crates that it stands on, and its plain program."""

    program: str
    stands_on: list[str]
    plain: pathlib.Path | None


PARTS = {
    "tape": Part("tape_speed", ["line_names", "line_tape"], None),
    "check": Part("check_speed", ["line_names", "line_tape", "line_check"], None),
    "lanes": Part("lane_speed", ["line_vectors"], PLAIN),
}


def measure(part: Part, runs: int) -> None:
    """Builds the programs of a part, and runs each of them so often."""
    with workspace.new_folder("recline-parts-") as folder:
        room = pathlib.Path(folder)
        programs = [building.build_bench(room, part.program, part.stands_on, [])]
        if part.plain:
            plain = building.build_plain(room, part.plain, "-O", "-C", f"target-cpu={PROCESSOR}")
            programs += [plain] if plain else []
        for program in programs:
            for _ in range(runs):
                subprocess.run([program], check=True)


def add_words(words: argparse.ArgumentParser) -> None:
    """Adds the words of this job to those that are read."""
    words.add_argument("--runs", type=int, default=3, metavar="K", help="how often each is run (3)")
    words.add_argument("parts", nargs="*", metavar="PART", choices=[[], *PARTS],
                       help="tape, check or lanes; all where none is named")


def run(asked: argparse.Namespace) -> int:
    """Times the parts that are asked for."""
    for name in asked.parts or PARTS:
        measure(PARTS[name], asked.runs)
    return 0
