"""What a program takes, by valgrind or else by perf: instructions, and the data that caches miss.

Only valgrind simulates caches. Their sizes are given here, so that no machine's own change what is
counted: a first level of 32 KiB, 8 ways, and a last level of 1 MiB, 16 ways, lines of 64 bytes.
"""

import os
import pathlib
import re
import shutil
import subprocess
from typing import NamedTuple


class Tool(NamedTuple):
    """What counts: its words before the program's, and how its report shows each measure."""

    name: str
    words: list[str]
    shown: list[str]


NO_VARIABLES: dict[str, str] = {}
CACHEGRIND = ["valgrind", "--tool=cachegrind", "--cachegrind-out-file=/dev/null"]
CACHES = ["--cache-sim=yes", "--I1=32768,8,64", "--D1=32768,8,64", "--LL=1048576,16,64"]
INSTRUCTIONS = r"I +refs: +([\d,]+)"
TOOLS = [
    Tool("valgrind", [*CACHEGRIND, "--cache-sim=no"], [INSTRUCTIONS]),
    Tool("perf", ["perf", "stat", "-x;", "-e", "instructions:u"], [r"^(\d+);"]),
]
# By the name of a tool what counts misses of both levels too, which takes longer.
WITH_MISSES = {
    "valgrind": Tool(
        "valgrind",
        [*CACHEGRIND, *CACHES],
        [INSTRUCTIONS, r"D1 +misses: +([\d,]+)", r"LLd +misses: +([\d,]+)"],
    ),
}


def all_counted(tool: Tool, words: list[str], path: pathlib.Path) -> list[int] | None:
    """Each measure of a run on a text; none where the tool cannot tell them.

    The program is called by its name in its own folder, with no variables of the environment, so
    that its stack begins at the same place whoever asks.
    """
    program = pathlib.Path(shutil.which(words[0]) or words[0]).resolve()
    counting = shutil.which(tool.words[0]) or tool.words[0]
    with open(path, "rb") as source:
        run = subprocess.run(
            [counting, *tool.words[1:], f"./{program.name}", *words[1:]],
            check=False,
            cwd=program.parent,
            env=NO_VARIABLES,
            stdin=source,
            stdout=subprocess.DEVNULL,
            stderr=subprocess.PIPE,
            text=True,
        )
    found = [re.search(it, run.stderr, re.MULTILINE) for it in tool.shown]
    counts = [int(it[1].replace(",", "")) for it in found if it]
    return counts if len(counts) == len(found) and run.returncode in (0, 1) else None


def counted(tool: Tool, words: list[str], path: pathlib.Path) -> int | None:
    """The instructions of a run on a text; none where the tool cannot tell them."""
    counts = all_counted(tool, words, path)
    return counts[0] if counts else None


def tool_at_hand() -> Tool | None:
    """The first tool that counts here."""
    for tool in TOOLS:
        if shutil.which(tool.words[0]) and counted(tool, ["true"], pathlib.Path(os.devnull)):
            return tool
    return None


def with_misses(tool: Tool) -> Tool:
    """The same tool, with misses where it can count them."""
    return WITH_MISSES.get(tool.name, tool)
