"""Runs of a program that are measured, from a file to nowhere, and the tables of what they took."""

import argparse
import os
import pathlib
import subprocess
import sys
import time
from collections.abc import Callable, Collection, Iterable
from typing import NamedTuple

import preloaded

MB = 1_000_000
# Runs a program alone, in a process that itself has little, and tells its greatest memory in KiB,
# and how many pages it touched first.
MEMORY_OF = """
import os, sys
nowhere = [(os.POSIX_SPAWN_OPEN, told, os.devnull, os.O_WRONLY, 0) for told in (1, 2)]
child = os.posix_spawn(sys.argv[1], sys.argv[1:], os.environ, file_actions=nowhere)
used = os.wait4(child, 0)[2]
print(used.ru_maxrss, used.ru_minflt)
"""
# A program, or the text of its path.
Program = str | os.PathLike[str]


def add_program(words: argparse.ArgumentParser) -> None:
    """Adds the word that names the program to measure."""
    words.add_argument("--program", type=pathlib.Path, help="the program, as ./recline builds it")


def found_at(path: pathlib.Path) -> str:
    """The program that stands there; where none does, that ends all."""
    program = path.resolve()
    if not os.access(program, os.X_OK):
        sys.exit(f"{program} is no program; ./recline builds one")
    return str(program)


def program_of(asked: argparse.Namespace) -> str:
    """The program that the words name, or that of the repository, which is built if need be."""
    return found_at(asked.program) if asked.program else preloaded.built_program()


class Took(NamedTuple):
    """What a run took: the seconds from start to end, those of the processor, and its status."""

    seconds: float
    processor: float
    status: int


class Held(NamedTuple):
    """The greatest memory of a run, in MB, and how many pages it touched first."""

    megabytes: float
    pages: int


def timed(program: Program, command: str, path: pathlib.Path) -> Took:
    """Runs a command of the program on a text, and tells what that took."""
    with open(path, "rb") as source, open(os.devnull, "wb") as sink:
        start = time.perf_counter()
        child = subprocess.Popen([program, command], stdin=source, stdout=sink, stderr=sink)
        _, status, used = os.wait4(child.pid, 0)
        took = time.perf_counter() - start
        child.returncode = os.waitstatus_to_exitcode(status)
    return Took(took, used.ru_utime + used.ru_stime, child.returncode)


def held(program: Program, command: str, path: pathlib.Path) -> Held:
    """What memory a run takes; no less than a small Python process has."""
    with open(path, "rb") as source:
        words = [sys.executable, "-I", "-S", "-c", MEMORY_OF, str(program), command]
        told = subprocess.run(words, stdin=source, capture_output=True, check=True)
    kilobytes, pages = told.stdout.split()
    return Held(int(kilobytes) * 1024 / MB, int(pages))


def memory(program: Program, command: str, path: pathlib.Path) -> float:
    """The greatest memory of a run, in MB; no less than a small Python process has."""
    return held(program, command, path).megabytes


def row(cells: Iterable[str]) -> None:
    """Prints a row of a table."""
    print("| " + " | ".join(cells) + " |", flush=True)


def head(first: str, *others: str) -> None:
    """Prints the head of a table."""
    row([first, *others])
    row(["---", *["--:"] * len(others)])


def some_of(known: Collection[str]) -> Callable[[str], list[str]]:
    """How a word of the command line is read that names some of these, with commas between them."""

    def read(field: str) -> list[str]:
        """The names."""
        words = field.split(",")
        if not set(words) <= set(known):
            raise argparse.ArgumentTypeError(
                f"wanted are some of {', '.join(known)}, with commas between them"
            )
        return words

    return read
