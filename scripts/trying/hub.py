"""Tests reporters and the hub, which take what processes did wherever they run.

Usage: scripts/trial hub [--collect COMMAND] [--runs N] [--kills N] [--ranks N] [--turns N]
                         [--seed S] [--measure] [NAME..]

The tests of clients/python/hub_tests are run: files of notes, what a hub keeps, whom it refuses,
and its recoveries. Then some trials, in each of which ranks compute and report to a hub, while
ranks, hub, service and connections are killed at random: at the end the values must be the ones
without a failure, and the journal must have each note once. They stand on `recline collect`, or on
the command that is told, such as scripts/slow_collect. With `--runs 100` there are so many trials.
With `--measure` it is told how long the calls of a reporter take and how many notes a hub keeps in
a second, and nothing else is done. A NAME is a test, such as `test_hubs.TestPeers`.
"""

import argparse
import os
import subprocess
import sys

import command_lines
import workspace

TOP = workspace.ROOT
TESTS = TOP / "clients" / "python" / "hub_tests"


def add_words(line: argparse.ArgumentParser) -> None:
    """Adds the words of this job to those that are read."""
    line.add_argument("--collect", default="", help="the service (recline collect)")
    line.add_argument("--runs", type=int, default=2, help="how many trials (2)")
    line.add_argument("--kills", type=int, default=6, help="how often one kills something (6)")
    line.add_argument("--ranks", type=int, default=3, help="how many ranks compute (3)")
    line.add_argument("--turns", type=int, default=60, help="for how many turns (60)")
    line.add_argument("--seed", default="1", help="where the random numbers begin (1)")
    line.add_argument("--measure", action="store_true", help="measure, and test nothing")
    line.add_argument("names", metavar="NAME", nargs="*", help="these tests alone, and no trials")


def run(asked: argparse.Namespace) -> int:
    """Runs the tests and the trials, and answers the status."""
    if not asked.collect:
        command_lines.runs(TOP / "recline")  # which builds the program, if need be
    collect = asked.collect or f"{TOP}/recline collect"
    first, *rest = collect.split(" ")
    if "/" in first:
        collect = " ".join([os.path.abspath(first), *rest])
    environment = {**os.environ, "RECLINE_COLLECT": collect, "PYTHONDONTWRITEBYTECODE": "1"}
    python = [sys.executable]
    if asked.measure:
        words_of_it = [str(TESTS / "measure.py"), "--collect", asked.collect]
        return subprocess.run([*python, *words_of_it], env=environment, check=False).returncode
    tests = [*python, "-m", "unittest", *(asked.names or ["test_reports", "test_hubs"])]
    status = subprocess.run(tests, cwd=TESTS, env=environment, check=False).returncode
    if asked.names or status:
        return status
    trial = [str(TESTS / "trial.py"), "--collect", collect]
    for name in ("runs", "kills", "ranks", "turns", "seed"):
        trial += [f"--{name}", str(getattr(asked, name))]
    return subprocess.run([*python, *trial], env=environment, check=False).returncode
