"""Runs drills, and compares what they write with what follows from workers and rounds alone.

Usage: scripts/trial drills [--program PATH] [--drill N,K ..] [--times N] [--measure]

PROGRAM is ./recline of this repository where none is given. The text is worked out here, from
docs/FORMATS.md: in each round a worker sends its number to the next one, receives the message of
that round from the one before, and takes a check with its number. A drill N,K has N workers and K
rounds; where none is given, a table of them is run, the largest with 64 workers and 1,000 rounds.
Each is run so many times. The last line says how many drills wrote what they must; the status is 0
where all did.

With --measure a table of times and greatest memory comes before it: the least, the median and the
greatest of the times, and the greatest memory of any of the runs.
"""

import argparse
import os
import statistics
import subprocess
import tempfile
import time
from typing import NamedTuple

import workspace

TOP = workspace.ROOT
DRILLS = [
    *[(2, 1), (3, 1), (2, 1000), (3, 7), (4, 1000)],
    *[(8, 100), (33, 5), (63, 2), (64, 1), (64, 1000)],
]
BUILDING = b"recline: building: "


class Run(NamedTuple):
    """What came of a drill."""

    is_right: bool
    seconds: float
    kilobytes: int


def drill_text(workers: int, rounds: int) -> str:
    """The text of a drill."""
    records = [f"history,1,{workers}"]
    for p in range(workers):
        after, before = (p + 1) % workers, (p - 1) % workers
        records.append(f"tape,{p},0")
        for k in range(rounds):
            # A worker sends one message a round, so that its message of round k is its k-th.
            records += [f"send,{after},0,{p:02x}", f"recv,{before},0,{k}", f"check,{p:02x},-"]
    return "".join(f"{it}\n" for it in records)


def run_drill(program: str, workers: int, rounds: int, wanted: bytes) -> Run:
    """Runs a drill."""
    words = [program, "drill", "--workers", str(workers), "--rounds", str(rounds)]
    with tempfile.TemporaryFile() as out, tempfile.TemporaryFile() as said:
        start = time.monotonic()
        run = subprocess.Popen(words, stdin=subprocess.DEVNULL, stdout=out, stderr=said)
        _, status, usage = os.wait4(run.pid, 0)
        seconds = time.monotonic() - start
        run.returncode = os.waitstatus_to_exitcode(status)
        out.seek(0)
        said.seek(0)
        # The first call of ./recline may say what it builds.
        is_silent = all(line.startswith(BUILDING) for line in said.read().splitlines())
        is_right = run.returncode == 0 and out.read() == wanted and is_silent
    return Run(is_right, seconds, usage.ru_maxrss)


def pair(word: str) -> tuple[int, int]:
    """The numbers of a drill."""
    workers, rounds = word.split(",")
    return int(workers), int(rounds)


def row(workers: int, rounds: int, runs: list[Run]) -> str:
    """A row of the table."""
    seconds = [run.seconds for run in runs]
    times = f"{min(seconds):.2f} / {statistics.median(seconds):.2f} / {max(seconds):.2f} s"
    memory = max(run.kilobytes for run in runs) / 1000
    return f"| {workers} | {rounds:,} | {3 * workers * rounds:,} | {times} | {memory:.0f} MB |"


def add_words(words: argparse.ArgumentParser) -> None:
    """Adds the words of this job to those that are read."""
    add = words.add_argument
    add("--program", default=str(TOP / "recline"), help="the program (./recline)")
    add("--drill", type=pair, nargs="+", metavar="N,K", default=DRILLS,
        help="N workers and K rounds (a table of them)")
    add("--times", type=int, default=1, metavar="N", help="how often each is run (1)")
    add("--measure", action="store_true", help="a table of times and memory first")


def run(asked: argparse.Namespace) -> int:
    """Runs each drill, and answers the status."""
    right = wrong = 0
    if asked.measure:
        print("| workers | rounds | events | least / median / greatest time | greatest memory |")
        print("|--:|--:|--:|--:|--:|")
    for workers, rounds in asked.drill:
        wanted = drill_text(workers, rounds).encode()
        runs = [run_drill(asked.program, workers, rounds, wanted) for _ in range(asked.times)]
        bad = sum(not run.is_right for run in runs)
        if bad:
            told = f"{bad} of {asked.times} runs not as they must be"
            print(f"drill of {workers} workers and {rounds} rounds: {told}")
        right, wrong = right + asked.times - bad, wrong + bad
        if asked.measure:
            print(row(workers, rounds, runs), flush=True)
    print(f"{right} drills as they must be, {wrong} not")
    return 1 if wrong else 0
