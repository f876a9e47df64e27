"""What the proofs of each function take, from nothing.

    scripts/measure proofs [--at-once N] [--most K] [CRATE ..]

Proves the named crates anew (all crates where none is named), and where they have tests once more
with them, on a copy of the tree: N crates side by side, one where no number is given. What they
stand on is taken from their last checks, or proved first. Prints for each crate the seconds of its
check and of the one with its tests, and the K slowest functions of all (20 where no number is
given). The seconds are those of one processor between two functions' ends, so they are much the
same beside other work. What a crate reads from below it reads where a function first asks for it.
A check begins with what one in another copy of the tree on this machine kept of the same crate; so
measure a crate that no other copy has proved.
"""

import argparse
import os
import pathlib
import re
import shutil
import subprocess
import tempfile
from collections import defaultdict
from concurrent.futures import ThreadPoolExecutor
from typing import NamedTuple

import workspace

TICKS = os.sysconf("SC_CLK_TCK")


class Check(NamedTuple):
    """What a check of a crate took: its seconds, those of each function, and its status."""

    crate: str
    with_tests: bool
    seconds: float
    functions: dict[str, float]
    status: int


def has_tests(crate: str) -> bool:
    """Whether a crate has a test."""
    files = (workspace.ROOT / "crates" / crate / "src").rglob("*.rt")
    return any("#[test]" in it.read_text(encoding="utf-8") for it in files)


def spent(top: int) -> float:
    """The seconds of one processor that a process took, and those that it started."""
    children = defaultdict(list)
    took: dict[int, int] = {}
    for it in pathlib.Path("/proc").iterdir():
        if it.name.isdigit():
            try:
                fields = it.joinpath("stat").read_text(errors="replace").rpartition(") ")[2].split()
            except OSError:
                continue  # it has ended
            children[int(fields[1])].append(int(it.name))
            # Its own ticks, and those of its children that have ended.
            took[int(it.name)] = sum(int(ticks) for ticks in fields[11:15])
    ticks, left = 0, [top]
    while left:
        at = left.pop()
        ticks += took.get(at, 0)
        left += children[at]
    return ticks / TICKS


def measure(crate: str, with_tests: bool, below: workspace.Below) -> Check:
    """Proves a crate from nothing, over what was built of those below it."""
    with workspace.new_folder("recline-measure-") as room:
        folder = workspace.make_room(room, workspace.ROOT, crate, below)
        shutil.rmtree(folder / "out", ignore_errors=True)
        words = ["rt", "check", "--jobs", "1", *["--test"] * with_tests]
        functions: dict[str, float] = {}
        now = 0.0
        with subprocess.Popen(
            words,
            cwd=folder,
            text=True,
            stdin=subprocess.DEVNULL,
            stdout=subprocess.PIPE,
            stderr=subprocess.STDOUT,
        ) as checking:
            last = None
            for line in checking.stdout or ():
                now = spent(checking.pid)
                told = re.match(r"checked (\S+), \d+ of \d+", line)
                if told:
                    # What comes before the first function's end is counted to the crate alone.
                    if last is not None:
                        functions[told[1]] = functions.get(told[1], 0) + now - last
                    last = now
        return Check(crate, with_tests, now, functions, checking.returncode)


def add_words(words: argparse.ArgumentParser) -> None:
    """Adds the words of this job to those that are read."""
    words.add_argument("crates", nargs="*", metavar="CRATE")
    words.add_argument("--at-once", type=int, default=1, metavar="N")
    words.add_argument("--most", type=int, default=20, metavar="K")


def run(asked: argparse.Namespace) -> int:
    """Measures the crates that are asked for, and answers the status."""
    below = workspace.stands_on()
    crates = asked.crates or list(below)
    with tempfile.TemporaryDirectory() as logs:
        for name in workspace.needed(crates, below):
            if not workspace.build(name, asked.at_once, below, pathlib.Path(logs) / name):
                print(f"{name} is not proved: run rt check there")
                return 1
    runs = [(it, False) for it in crates] + [(it, True) for it in crates if has_tests(it)]
    with ThreadPoolExecutor(max(1, asked.at_once)) as pool:
        checks = list(pool.map(lambda it: measure(it[0], it[1], below), runs))
    print("| Crate | Seconds | Seconds with its tests |\n|---|---|---|")
    for crate in crates:
        of_crate = {it.with_tests: f"{it.seconds:.0f}" for it in checks if it.crate == crate}
        print(f"| `{crate}` | {of_crate[False]} | {of_crate.get(True, '')} |")
    print("\n| Function | Seconds |\n|---|---|")
    slow: dict[str, float] = {}
    for check in checks:
        for name, seconds in check.functions.items():
            slow[name] = max(slow.get(name, 0), seconds)
    for name in sorted(slow, key=lambda it: -slow[it])[: asked.most]:
        print(f"| `{name}` | {slow[name]:.1f} |")
    return 1 if any(it.status for it in checks) else 0
