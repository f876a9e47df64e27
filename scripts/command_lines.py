"""The command lines of scripts: their help is the docstring of the script."""

import argparse
import pathlib
import subprocess
from collections.abc import Iterable


def parser(doc: str | None) -> argparse.ArgumentParser:
    """A parser of words, whose help is this docstring."""
    form = argparse.RawDescriptionHelpFormatter
    return argparse.ArgumentParser(description=doc, formatter_class=form)


def add_options(words: argparse.ArgumentParser, *options: str) -> None:
    """Adds options of which one at most is given, and is `option` then."""
    one = words.add_mutually_exclusive_group()
    for name in options:
        one.add_argument(f"--{name}", dest="option", action="store_const", const=name)


def report(found: Iterable[str]) -> int:
    """Prints what was found, a line each, and answers the status: 1 where there is something."""
    lines = list(found)
    print("\n".join(lines), end="\n" if lines else "")
    return 1 if lines else 0


def add_program(words: argparse.ArgumentParser) -> None:
    """Adds a word that names a program, and may be left out."""
    words.add_argument("program", nargs="?", metavar="PROGRAM", help="the program that is run")


def runs(program: str | pathlib.Path) -> bool:
    """Whether a program runs: a script of no command. ./recline is built by that if need be."""
    try:
        ran = subprocess.run(
            [program, "run"], input=b"world,1,1,fifo\n", stdout=subprocess.DEVNULL, check=False
        )
    except OSError:
        return False
    return ran.returncode == 0
