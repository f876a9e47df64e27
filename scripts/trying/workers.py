"""Puts workers in threads under stress, and judges what they did by the plain definitions.

Usage: scripts/trial workers [--seconds N] [--seed N] [--side-by-side N] [--from N --lineages N]
       scripts/trial workers --judge FILE

The program line_stress, which is proved and built where it is not, has 2 to 64 workers make random
calls over rings of 1 to 1,024 slots: they send, receive, take checks, begin rounds and report;
random ones of them fail at random turns, checks are marked as damaged, and all go on from the
planned line, for up to 24 generations, while the collector takes reports and plans. It prints all
of it. This script judges what it prints, in code of its own:

- what a worker received of another is a prefix of what that one sent to it, in order, with its
  bodies, and each call was answered what the tape says;
- the collector has a prefix of each worker's reports, and what was gathered is a worker's own tape,
  or of a failed one what it reported;
- each plan, on the way and at the end, is the latest line of surviving choices, its certificate
  leads to it, and its replays are exactly the messages sent before the line and not received
  before it; of the plans on the way of a generation up to eight are judged here;
- a completed round is a snapshot, with what is in transit there on its channels, no line is
  earlier, and rounds are numbered on;
- the next generation goes on from just that line, under the next incarnation of those that went
  back.

The program has the checker of the repository judge each plan too, and each line that was planned
on the way once more in the gathered history. Several programs run side by side, each with its own
seed. Each ten seconds a line on standard error says how far they are. Where something differs, the
seed, the lineage and the generation are printed, and the text of the lineage is kept, which can be
judged again; `--seed S --from L --lineages 1 --side-by-side 1` has the same workers try the same
again, with whatever turns the threads take then.
"""

import argparse
import collections
import multiprocessing
import os
import pathlib
import queue
import subprocess
import sys
import tempfile
import time
from collections.abc import Iterable
from typing import Any

import building
import worker_judge
import worker_records

SECONDS_OF_SILENCE = 10
MANY = 1 << 62
# Where counts go: the seed, the counts, whether they are the last, and what differs.
Results = Any
Counts = collections.Counter[str]


class Failure(Exception):
    """A difference, told with what is needed to look at it again."""


def keep(lines: list[str], name: str) -> pathlib.Path:
    """Keeps the text of a lineage; answers where."""
    path = pathlib.Path(tempfile.gettempdir()) / f"{name}.txt"
    path.write_text("".join(lines), encoding="utf-8")
    return path


class Run:
    """The judging of what one program prints."""

    def __init__(self, seed: int, results: Results) -> None:
        self.seed = seed
        self.results = results
        self.counts: dict[str, int] = {}
        self.place = "no lineage"
        self.told = time.monotonic()

    def tell(self, counts: dict[str, int]) -> None:
        """Tells the counts, at most each second."""
        self.counts = dict(counts)
        if time.monotonic() - self.told > 1:
            self.told = time.monotonic()
            self.results.put((self.seed, self.counts, False, None))

    def judge(self, lines: Iterable[str]) -> bool:
        """Judges all generations of a text; answers whether it came to its end."""
        reader, judge = worker_records.Reader(lines), worker_judge.Judge()
        try:
            for now in reader.generations():
                self.place = f"lineage {now.lineage}, generation {now.number}"
                judge.judge(now)
                self.tell(judge.counts)
        except Exception as fault:  # what cannot be read differs too
            name = f"stress {self.seed} {self.place}".replace(",", "").replace(" ", "-")
            kept = keep(reader.kept, name)
            told = f"seed {self.seed}, {self.place}: {fault!r}\nits text is {kept}"
            raise Failure(told) from fault
        return reader.is_done

    def follow(self, program: pathlib.Path, words: list[str]) -> str | None:
        """Runs the program and judges it; answers what differs, or None."""
        with subprocess.Popen([program, *words], stdout=subprocess.PIPE, text=True) as run:
            try:
                is_done = self.judge(run.stdout or [])
            except Failure as failure:
                run.kill()
                return str(failure)
        if run.returncode or not is_done:
            return f"seed {self.seed}, {self.place}: it ended with status {run.returncode}"
        return None


def stress(program: pathlib.Path, words: list[int], results: Results) -> None:
    """Runs a program and judges it; its counts go into the queue, and at the end what differs."""
    run = Run(words[0], results)
    failure = run.follow(program, [str(word) for word in words])
    results.put((run.seed, run.counts, True, failure))


def total(counts: dict[int, dict[str, int]]) -> Counts:
    """The sum of the counts of all programs."""
    summed: Counts = collections.Counter()
    for of_one in counts.values():
        summed.update(of_one)
    return summed


def summary(counts: Counts) -> str:
    """What was judged, in a line."""
    parts = [
        f"{counts['generations']:,} generations of {counts['lineages']:,} fleets",
        f"{counts['messages']:,} messages received",
        f"{counts['failures']:,} failures",
        f"{counts['restarts']:,} restarts",
        f"{counts['live']:,} plans on the way ({counts['judged']:,} judged here)",
        f"{counts['entries']:,} entries",
        f"{counts['replays']:,} replays",
        f"{counts['rounds']:,} rounds",
        f"{counts['damages']:,} damaged checks",
    ]
    return ", ".join(parts)


def run_all(program: pathlib.Path, asked: argparse.Namespace) -> tuple[Counts, list[str]]:
    """Runs programs side by side; answers the counts of all and what differs."""
    results: Results = multiprocessing.Queue()
    started = told = time.monotonic()
    runs: list[multiprocessing.Process] = []
    for k in range(asked.side_by_side):
        words = [asked.seed + k, asked.first, asked.lineages, asked.seconds]
        runs.append(multiprocessing.Process(target=stress, args=(program, words, results)))
        runs[-1].start()
    counts: dict[int, dict[str, int]] = {}
    failures: list[str] = []
    left = len(runs)
    while left:
        try:
            seed, now, is_last, failure = results.get(timeout=1)
            counts[seed] = now
            left -= is_last
            failures += [failure] if failure else []
        except queue.Empty:
            pass
        if time.monotonic() - told > SECONDS_OF_SILENCE:
            told = time.monotonic()
            how_far = f"{int(told - started)} s, {summary(total(counts))}"
            print(f"stress: {how_far}", file=sys.stderr, flush=True)
    for run in runs:
        run.join()
    return total(counts), failures


def judge_file(path: pathlib.Path) -> int:
    """Judges the text of a lineage; answers the status."""
    with path.open(encoding="utf-8") as lines:
        try:
            Run(0, queue.SimpleQueue()).judge(lines)
        except Failure as failure:
            print(f"stress: a difference: {failure}")
            return 1
    print("stress: no difference")
    return 0


def add_words(words: argparse.ArgumentParser) -> None:
    """Adds the words of this job to those that are read."""
    path = pathlib.Path
    pairs = max(1, len(os.sched_getaffinity(0)) // 2)
    by_time = time.time_ns() // 1_000_000 % 1_000_000_000
    add = words.add_argument
    add("--seconds", type=int, default=600, help="no lineage begins later (600)")
    add("--seed", type=int, default=by_time, help="of the first program; others have the next")
    add("--side-by-side", type=int, default=pairs, help="how many programs (half the processors)")
    add("--from", dest="first", type=int, default=0, help="the number of the first lineage (0)")
    add("--lineages", type=int, default=MANY, help="how many of each program, at most")
    add("--program", type=path, help="a stress program that is built already")
    add("--judge", type=path, metavar="FILE", help="judges the text of a lineage, and runs nothing")


def run(asked: argparse.Namespace) -> int:
    """Does what the words ask for, and answers the status."""
    if asked.judge:
        return judge_file(asked.judge)
    program = asked.program or building.build_program("line_stress")
    counts, failures = run_all(program, asked)
    for failure in failures:
        print(f"stress: a difference: {failure}", file=sys.stderr)
    print(f"stress: {summary(counts)}: {len(failures)} differences, seed {asked.seed}")
    return 1 if failures or not counts["generations"] else 0
