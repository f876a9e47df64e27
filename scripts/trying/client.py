"""Tests the client in Python, and what makes scripts of logs.

Usage: scripts/trial client [--service COMMAND] [--kills N] [--seed S] [--long] [NAME..]

The tests of clients/python/tests are run: each call and each answer of the client, its journal,
clients and services that are killed at random, and the scripts that from_logs.py makes. They talk
to `./recline serve`, or to the command that is told. With `--long` a journal is cut at each of its
bytes, where it is else cut at some of them. A NAME is that of a file of tests, a class or a test,
such as `test_journal` or `test_kills.TestKills`.
"""

import argparse
import os
import sys
import unittest

import command_lines
import workspace

TOP = workspace.ROOT
TESTS = TOP / "clients" / "python" / "tests"


def add_words(line: argparse.ArgumentParser) -> None:
    """Adds the words of this job to those that are read."""
    line.add_argument("--service", default="", help="the service, where it is not ./recline serve")
    line.add_argument("--kills", type=int, default=10, help="how often something is killed (10)")
    line.add_argument("--seed", default="1", help="where the random numbers begin (1)")
    line.add_argument("--long", action="store_true", help="test more")
    line.add_argument("names", metavar="NAME", nargs="*", help="these tests alone")


def run(asked: argparse.Namespace) -> int:
    """Runs the tests, and answers the status."""
    if not asked.service:
        # The first call may have to build the program, which takes long and says so.
        command_lines.runs(TOP / "recline")
    os.environ.update(
        RECLINE_SERVE=asked.service, RECLINE_KILLS=str(asked.kills), RECLINE_SEED=asked.seed,
        RECLINE_TESTS="long" if asked.long else "", PYTHONDONTWRITEBYTECODE="1",
    )
    sys.path.insert(0, str(TESTS))
    loader = unittest.defaultTestLoader
    if asked.names:
        tests = loader.loadTestsFromNames(asked.names)
    else:
        tests = loader.discover(str(TESTS))
    return 0 if unittest.TextTestRunner(buffer=False).run(tests).wasSuccessful() else 1
