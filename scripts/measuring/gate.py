"""The processor time of the gate by crate: proof, tests, seed and edits.

    scripts/measure gate [--every SECONDS] [COMMAND WORD ..]

Runs `rt ci`, or the command that is given (`./test`, say), from the top of the tree, shows what it
writes, and looks at its processes as it goes. At the end it prints a table: for each crate the
minutes of one processor that its proof and build took, those of its tests, those of the seed of its
edits and those of the edits; then the minutes of the clock and those of one processor of all. A
seed is what edits begin with: one more check of the crate as it stands, from nothing, and a last
look whether it still holds. What ran between two looks alone is told under 'between two looks'. The
command's status is its own.
"""

import argparse
import os
import pathlib
import resource
import subprocess
import time
from collections import defaultdict
from typing import NamedTuple

import workspace

TICKS = os.sysconf("SC_CLK_TCK")
KINDS = ("proof", "tests", "seed", "edits")
# What the gate proves, builds and tries it proves by this program.
PROVER = "rattle"


class Look(NamedTuple):
    """A process as it was seen: whose work it does, and the seconds that it took so far."""

    crate: str
    kind: str
    seconds: float


def words_of(process: pathlib.Path) -> list[str]:
    """The command line of a process; none where it has ended."""
    try:
        return process.joinpath("cmdline").read_bytes().decode(errors="replace").split("\0")
    except OSError:
        return []


def fields_of(process: pathlib.Path) -> list[str]:
    """What the system tells of a process after its name: state, parent and on."""
    try:
        return process.joinpath("stat").read_text(errors="replace").rpartition(") ")[2].split()
    except OSError:
        return []


def kind_of(words: list[str]) -> str:
    """What a run of the prover is for: seeds and edits are checked, and all else is built."""
    if "--test" in words:
        return "tests"
    if words[1:2] != ["check"]:
        return "proof"
    # What the checks of a seed keep, each edit of the crate begins with.
    kept = words[words.index("--incremental") + 1] if "--incremental" in words[:-1] else ""
    return "seed" if kept.endswith("/seed") else "edits"


def look_at(process: pathlib.Path) -> Look | None:
    """Whose work a run of the prover does, and how long it took so far."""
    words = words_of(process)
    fields = fields_of(process)
    if len(fields) < 13 or "--crate-name" not in words[:-1] or not words[0].endswith(PROVER):
        return None
    crate = words[words.index("--crate-name") + 1]
    return Look(crate, kind_of(words), (int(fields[11]) + int(fields[12])) / TICKS)


def below(top: int) -> list[pathlib.Path]:
    """The processes that a process started, and those that these started."""
    children = defaultdict(list)
    folders = [it for it in pathlib.Path("/proc").iterdir() if it.name.isdigit()]
    for it in folders:
        fields = fields_of(it)
        if len(fields) > 1:
            children[int(fields[1])].append(it)
    found: list[pathlib.Path] = []
    left = [top]
    while left:
        for it in children[left.pop()]:
            found.append(it)
            left.append(int(it.name))
    return found


def watch(command: list[str], every: float) -> tuple[int, float, dict[int, Look]]:
    """Runs a command; answers its status, the seconds of the clock, and the last look at each."""
    seen: dict[int, Look] = {}
    began = time.monotonic()
    with subprocess.Popen(command, cwd=workspace.ROOT) as child:
        while child.poll() is None:
            for it in below(child.pid):
                look = look_at(it)
                if look:
                    seen[int(it.name)] = look
            time.sleep(every)
    return child.returncode, time.monotonic() - began, seen


def tell(seen: dict[int, Look], clock: float) -> None:
    """Prints the table."""
    spent: dict[tuple[str, str], float] = defaultdict(float)
    for look in seen.values():
        spent[look.crate, look.kind] += look.seconds / 60
    usage = resource.getrusage(resource.RUSAGE_CHILDREN)
    whole = (usage.ru_utime + usage.ru_stime) / 60
    print("| Crate | Proof and build | Tests | Seed | Edits |\n|---|--:|--:|--:|--:|")
    order = [it for it in workspace.stands_on() if any((it, kind) in spent for kind in KINDS)]
    for crate in order:
        print(f"| `{crate}` | " + " | ".join(f"{spent[crate, it]:.1f}" for it in KINDS) + " |")
    sums = [sum(spent[crate, it] for crate in order) for it in KINDS]
    print("| all | " + " | ".join(f"{it:.1f}" for it in sums) + " |")
    print(
        f"\n{clock / 60:.1f} minutes of the clock, {whole:.1f} of one processor, "
        f"{whole - sum(sums):.1f} of them of other programs and between two looks"
    )


def add_words(words: argparse.ArgumentParser) -> None:
    """Adds the words of this job to those that are read."""
    words.add_argument("--every", type=float, default=0.5, metavar="SECONDS",
                       help="seconds between two looks (0.5)")
    words.add_argument("command", nargs=argparse.REMAINDER, metavar="COMMAND WORD",
                       help="what is run (rt ci)")


def run(asked: argparse.Namespace) -> int:
    """Measures, and answers the status of what was run."""
    status, clock, seen = watch(asked.command or ["rt", "ci"], asked.every)
    tell(seen, clock)
    return status
