"""Runs of the program that are refused memory, or whose reads and writes fail.

`preloaded.c` is compiled, and loaded before the C library of the program. It wants Linux, the GNU C
library and a C compiler: `$CC`, or else cc, clang or gcc.
"""

import os
import pathlib
import shutil
import struct
import subprocess
import tempfile
from typing import NamedTuple

import command_lines

TOP = pathlib.Path(__file__).resolve().parent.parent
# Workers of a drill that wait in vain take 10,000,000 turns.
MOST_SECONDS = 600
COUNTS = struct.Struct("=3Q")


class Text(NamedTuple):
    """What the program is run on: a name to be told, its words, and its standard input."""

    name: str
    words: list[str]
    text: bytes


class Answer(NamedTuple):
    """What a run gives. The status is negative where a signal ended it, None where time did."""

    output: bytes
    said: bytes
    status: int | None


class Counts(NamedTuple):
    """How often a run asked for memory, read its input and wrote its output."""

    growths: int
    reads: int
    writes: int


def built_program() -> str:
    """The program of this repository, which is proved and built first where it isn't."""
    command_lines.runs(TOP / "recline")
    return str(TOP / "crates" / "line_cli" / "out" / "line_cli")


def compiler() -> str:
    """The C compiler."""
    named = [os.environ.get("CC"), "cc", "clang", "gcc"]
    found = next((it for it in named if it and shutil.which(it)), None)
    if found is None:
        raise SystemExit("a C compiler is wanted: set CC, or put cc on the path")
    return found


def compiled(folder: str) -> str:
    """Compiles the library into the folder, and answers its path."""
    library = f"{folder}/preloaded.so"
    words = [compiler(), "-shared", "-fPIC", "-O1", "-w", "-fno-builtin", "-o", library]
    subprocess.run([*words, str(TOP / "scripts" / "preloaded.c")], check=True)
    return library


def answered(
    program: str, library: str, it: Text, settings: dict[str, int]
) -> tuple[Answer, Counts]:
    """Runs the program with these settings of the library.

    Its standard input is a file, which gives as much as is asked for, so that the reads of two runs
    are the same; how much a pipe gives depends on who is faster.
    """
    kept = os.memfd_create("counts", 0)
    os.ftruncate(kept, COUNTS.size)
    environment = {"LD_PRELOAD": library, "COUNTS_FD": str(kept)}
    environment.update((name, str(value)) for name, value in settings.items())
    with tempfile.TemporaryFile() as source:
        source.write(it.text)
        source.seek(0)
        try:
            ran = subprocess.run(
                [program, *it.words],
                stdin=source,
                capture_output=True,
                check=False,
                timeout=MOST_SECONDS,
                env=environment,
                pass_fds=[kept],
            )
            answer = Answer(ran.stdout, ran.stderr, ran.returncode)
        except subprocess.TimeoutExpired:
            answer = Answer(b"", b"", None)
    with os.fdopen(kept, "rb") as counts:
        return answer, Counts(*COUNTS.unpack(counts.read(COUNTS.size)))


def examples() -> list[Text]:
    """The examples of the repository, which `./test` runs."""
    found = []
    for text in sorted((TOP / "examples").glob("*/*.in"), key=lambda it: it.stem):
        told = text.with_suffix(".args")
        words = told.read_text().split() if told.is_file() else [text.parent.name]
        found.append(Text(f"example {text.stem}", words, text.read_bytes()))
    return found
