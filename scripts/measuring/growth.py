"""How the time and the memory of the program grow with its input.

Usage: scripts/measure growth [--program PATH] [--families NAME,..] [--most COUNT] [--factor F]
                              [--sizes K] [--limit SECONDS] [--keep DIR] [--instructions]
       scripts/measure growth --recoveries [--program PATH] [--processes N] [--events COUNT]
                              [--runs K]
       scripts/measure growth --plans [--most COUNT] [--factor F] [--sizes K] [--instructions]

Each family is a text with a size, and a run of `recline run` or `recline check` on it. The sizes
of a family end at its own greatest one, or at COUNT if that is less, and each is F times the one
before. The table has for each run the bytes of the input and of the output, the seconds of the
processor, the greatest resident memory in MB, and the exponent of the growth of the time since the
size before over that of the input or the output, whichever is longer: about 1 where the time is in
proportion to what is read or written, 2 where it is in proportion to its square. After a run of
less than a tenth of a second no exponent is told. A run that takes longer than SECONDS is stopped,
and so is its family.

The last four families grow by their processes, up to 256, and not by their events: the vector of a
check has a number for each process, so that their exponents may be above 1.

With --instructions the table has the instructions in place of the time and the memory, counted by
valgrind or else by perf: the same program gives the same count each time, whatever else the machine
does. A run takes some fifty times as long then, and none is stopped.

With --recoveries the table has what one recovery of nobody among N processes takes (64), in
microseconds of the processor: 65,535 of them in a history without an event, and after so many
events (a million), with links of either kind; least, median and greatest of K runs (3). From each
run the time of the same text without a recovery is taken off. A run that takes longer than SECONDS
is stopped, and then that is told.

With --plans the table has the jobs of bench/plan_growth: a computation goes on without a recovery,
and its line is planned after each 400 turns. Their sizes are turns, and the exponent is that of the
growth since the size before over the turns. The program is proved like all others, but is no crate
of the repository.

The memory is told by a process of its own that runs the program alone, so that it is the program's
and not this script's; a small Python process takes some 10 MB, below which nothing is told.
"""

import argparse
import math
import os
import pathlib
import statistics
import subprocess
import sys
import tempfile
from typing import NamedTuple

import building
import instructions
import workspace

from .families import FAMILIES, PLANS, Family, idle
from .runs import Program, add_program, program_of, row, some_of

MOST_INPUT = 67_108_864
# What bench/plan_growth stands on.
STANDS_ON = "line_names line_tape line_catalogue line_plan".split()
# As many as a process may go back.
RECOVERIES = 65_535
# Below this many seconds an exponent is noise.
LEAST_TIME = 0.1


class Figures(NamedTuple):
    """What a run took, and the status with which it ended."""

    seconds: float
    megabytes: float
    written: int
    status: int


# What runs the program alone.
RUN_ALONE = """
import os, resource, sys
limit = int(sys.argv[1])
nowhere = [(os.POSIX_SPAWN_OPEN, told, os.devnull, os.O_WRONLY, 0) for told in (1, 2)]
resource.setrlimit(resource.RLIMIT_CPU, (limit, limit + 1))
child = os.posix_spawn(sys.argv[2], sys.argv[2:], os.environ, file_actions=nowhere)
os.waitid(os.P_PID, child, os.WEXITED | os.WNOWAIT)
with open(f"/proc/{child}/io") as counts:
    written = next(line for line in counts if line.startswith("wchar")).split()[1]
status = os.waitstatus_to_exitcode(os.waitpid(child, 0)[1])
used = resource.getrusage(resource.RUSAGE_CHILDREN)
print(used.ru_utime + used.ru_stime, used.ru_maxrss, written, status)
"""


def measured(program: Program, asked: list[str], path: pathlib.Path, limit: int) -> Figures:
    """Runs the program on a text, from a file to nowhere; the limit is in seconds."""
    words = [sys.executable, "-I", "-S", "-c", RUN_ALONE, str(limit), str(program), *asked]
    with open(path, "rb") as source:
        told = subprocess.run(words, stdin=source, capture_output=True, check=True, text=True)
    seconds, kilobytes, written, status = told.stdout.split()
    return Figures(float(seconds), int(kilobytes) * 1024 / 1e6, int(written), int(status))


def sizes_of(greatest: int, most: int | None, factor: float, count: int) -> list[int]:
    """So many sizes, the greatest last, each by the factor greater than the one before."""
    last = min(greatest, most) if most else greatest
    return sorted({max(1, round(last / factor**k)) for k in range(count)})


def make(folder: pathlib.Path, name: str, family: Family, size: int) -> pathlib.Path:
    """The file with the text of a family and size."""
    path = folder / f"{name}.{size}"
    if not path.exists():
        with open(path, "w", encoding="ascii") as text:
            text.writelines(record + "\n" for record in family.records(size))
    return path


def exponent(before: tuple[int, float] | None, length: int, now: float, least: float = 0) -> str:
    """By which power of the longer one of input and output the cost grew since the size before.

    None is told where that cost less than the least.
    """
    if before is None or before[0] == length or before[1] < least:
        return "-"
    return f"{math.log(now / before[1]) / math.log(length / before[0]):.2f}"


def measure_family(
    program: Program, name: str, sizes: list[int], limit: int, folder: pathlib.Path
) -> None:
    """Prints the rows of a family, up to the first run that is stopped."""
    before: tuple[int, float] | None = None
    for size in sizes:
        path = make(folder, name, FAMILIES[name], size)
        read = path.stat().st_size
        cells = [name, f"{size:,}", f"{read:,}"]
        if read > MOST_INPUT:
            row(cells + ["-", "longer than a text may be", "-", "-", "-"])
            return
        now = measured(program, [FAMILIES[name].command], path, limit)
        cells.append(f"{now.written:,}")
        if now.status < 0:
            row(cells + [f"over {limit}", f"{now.megabytes:.0f}", "-", f"signal {-now.status}"])
            return
        length = max(read, now.written)
        grown = exponent(before, length, now.seconds, LEAST_TIME)
        row(cells + [f"{now.seconds:.2f}", f"{now.megabytes:.0f}", grown, str(now.status)])
        before = length, now.seconds


def count_family(
    program: Program,
    tool: instructions.Tool,
    name: str,
    sizes: list[int],
    limit: int,
    folder: pathlib.Path,
) -> None:
    """Prints the rows of a family, with the instructions of each run."""
    before: tuple[int, float] | None = None
    for size in sizes:
        path = make(folder, name, FAMILIES[name], size)
        command = FAMILIES[name].command
        written = measured(program, [command], path, limit).written
        count = instructions.counted(tool, [str(program), command], path)
        if count is None:
            sys.exit(f"{tool.name} counts no instructions of {path.name}")
        read = path.stat().st_size
        length = max(read, written)
        cells = [name, f"{size:,}", f"{read:,}", f"{written:,}", f"{count / 1e6:,.1f}"]
        row(cells + [exponent(before, length, count)])
        before = length, count


def took_recovery(program: Program, paths: list[pathlib.Path], limit: int) -> float | None:
    """The microseconds of a recovery, from the texts without and with them; none where stopped."""
    without, with_them = (measured(program, ["run"], it, limit) for it in paths)
    if without.status or with_them.status > 0:
        sys.exit(f"{paths[1].name}: it ended with status {max(without.status, with_them.status)}")
    stopped = with_them.status < 0
    return None if stopped else (with_them.seconds - without.seconds) / RECOVERIES * 1e6


def measure_recoveries(
    program: Program, n: int, events: int, runs: int, limit: int, folder: pathlib.Path
) -> None:
    """Prints what a recovery takes in a history of n processes, and after so many events."""
    row(["links", "events before", "recoveries", "least us", "median us", "greatest us"])
    row(["---"] + ["--:"] * 5)
    for mode in ("fifo", "unordered"):
        for before in (0, events):
            family = Family("run", RECOVERIES, idle(n, mode, before))
            paths = [make(folder, f"{mode}.{n}.{before}", family, m) for m in (0, RECOVERIES)]
            cells = [mode, f"{before:,}", f"{RECOVERIES:,}"]
            took: list[float] = []
            while len(took) < runs:
                now = took_recovery(program, paths, limit)
                if now is None:
                    break
                took.append(now)
            if len(took) < runs:
                row(cells + [f"over {limit / RECOVERIES * 1e6:,.0f}", "-", "-"])
                continue
            told = [min(took), statistics.median(took), max(took)]
            row(cells + [f"{it:.1f}" for it in told])


def measure_plans(
    program: Program, tool: instructions.Tool | None, name: str, sizes: list[int], limit: int
) -> None:
    """Prints the rows of a job, with the instructions where there is a tool to count them."""
    nothing = pathlib.Path(os.devnull)
    before: tuple[int, float] | None = None
    for size in sizes:
        words = [name, str(size)]
        now = measured(program, words, nothing, limit)
        if now.status:
            row([name, f"{size:,}", f"over {limit}", f"{now.megabytes:.0f}", "-"])
            return
        took, least = now.seconds, LEAST_TIME
        if tool:
            count = instructions.counted(tool, [str(program), *words], nothing)
            if count is None:
                sys.exit(f"{tool.name} counts no instructions of {name}")
            took, least = float(count), 0.0
        told = f"{took / 1e6:,.1f}" if tool else f"{took:.2f}"
        row([name, f"{size:,}", told, f"{now.megabytes:.0f}", exponent(before, size, took, least)])
        before = size, took


def add_words(words: argparse.ArgumentParser) -> None:
    """Adds the words of this job to those that are read."""
    add = words.add_argument
    add_program(words)
    names = ",".join(FAMILIES)
    add("--families", type=some_of(FAMILIES), default=list(FAMILIES), help=f"some of {names} (all)")
    add("--most", type=int, help="the greatest size of each family, where its own is greater")
    add("--factor", type=float, default=2.0, help="each size is so many times the one before (2)")
    add("--sizes", type=int, default=4, help="how many sizes of each family (4)")
    add("--limit", type=int, default=60, help="the processor seconds that a run may take (60)")
    add("--keep", type=pathlib.Path, help="a folder to keep the texts in")
    add("--instructions", action="store_true", help="counts instructions in place of time")
    add("--recoveries", action="store_true", help="measures recoveries of processes without work")
    add("--plans", action="store_true", help="measures plans on the way, without a recovery")
    add("--processes", type=int, default=64, help="of how many processes (64)")
    add("--events", type=int, default=1_000_000, help="how many events are before them (1000000)")
    add("--runs", type=int, default=3, help="how often they are measured (3)")


def plans(asked: argparse.Namespace, tool: instructions.Tool | None) -> None:
    """Measures the jobs of bench/plan_growth."""
    took = "million instructions" if tool else "processor s"
    with workspace.new_folder("recline-plans-") as folder:
        room = pathlib.Path(folder)
        program = building.build_bench(room, "plan_growth", STANDS_ON, ["received", "1000"])
        row(["job", "turns", took, "memory MB", "exponent"])
        row(["---"] + ["--:"] * 4)
        for name, most in PLANS.items():
            sizes = sizes_of(most, asked.most, asked.factor, asked.sizes)
            measure_plans(program, tool, name, sizes, asked.limit)


def counting(asked: argparse.Namespace) -> instructions.Tool | None:
    """What counts instructions, where that is asked for."""
    if not asked.instructions:
        return None
    tool = instructions.tool_at_hand()
    if not tool:
        sys.exit("neither valgrind nor perf counts instructions here")
    return tool


def run(asked: argparse.Namespace) -> int:
    """Measures the families that are asked for."""
    tool = counting(asked)
    if asked.plans:
        plans(asked, tool)
        return 0
    program = program_of(asked)
    with tempfile.TemporaryDirectory() as made:
        folder = asked.keep or pathlib.Path(made)
        folder.mkdir(parents=True, exist_ok=True)
        if asked.recoveries:
            given = asked.processes, asked.events, asked.runs, asked.limit
            measure_recoveries(program, *given, folder)
            return 0
        sizes = {
            name: sizes_of(FAMILIES[name].most, asked.most, asked.factor, asked.sizes)
            for name in asked.families
        }
        if tool:
            row(["family", "size", "read", "written", "million instructions", "exponent"])
            row(["---"] + ["--:"] * 5)
            for name in asked.families:
                count_family(program, tool, name, sizes[name], asked.limit, folder)
            return 0
        row(["family", "size", "read", "written", "processor s", "memory MB", "exponent", "status"])
        row(["---"] + ["--:"] * 7)
        for name in asked.families:
            measure_family(program, name, sizes[name], asked.limit, folder)
    return 0
