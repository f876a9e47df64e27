"""Refuses memory to calls of the library, one growth in a run, and compares what is there after it.

    scripts/trial calls [--every K] [--cases M] [--seed S] [--at-once N]
                        [--compile] [--program PATH] [--keep-program PATH]

The program bench/refused, which is proved and built first, makes the calls of a row one by one: on
histories and their marks, on what a process records of rounds, on catalogues, the planner and what
is left of a catalogue that is cut, on worlds with links of either kind and on machines that let go,
step by step and in one run, on what processes report, and on workers and their collector, from the
fleet to the next generation. Before each call it tells what there is to see, as digests: history,
marks, links, rounds, incarnations, the rows of a catalogue, the floor of what lets something go,
or what each worker has. Where a call is out of memory, it tells that again and makes the same call
again.

With --compile nothing of it is proved: `rt try` compiles it, and the library with it, and has it
test each sum, index and address. That takes two minutes of one processor in place of the time of
the proof, and a line says so. What is not proved then is this program alone: the proofs of the
library are those of the gate in either case.

Each row is run once to count its growths, and then once for each, the first, the second and so on,
which alone is refused; with K for each K-th, all rows counted through. In each run the same request
for memory is refused, and the program asks so often before the calls that it is the growth that is
meant. The rows are those of scripts/call_rows.py, and M made scripts and M made fleets (12).

At a refusal the call must say that memory is out, and give no other answer; all that is seen must
be what was there before; and the call that is made again must give what it gives where nothing is
refused, as must each call after it. There are three exceptions, which the library's contracts say:
`Collector::take` keeps the reports that it took before, `gather` and `restart` take their value and
hand it back, and a run of steps keeps those that it made before. Where the words of a run or the
arguments of a call want memory, no call was refused, and this is counted apart; so it is where a
call can do without what it asked for, as a catalogue that would keep what is in transit, or mark
what is received, can.

A line is printed for each row, and for all rows how often each call was refused. The last line says
how many growths were refused, and how many of them to a call. The status is 1 where something
differs, or where no call of a row was refused; with K, of all rows with calls on one subject.
"""

import argparse
import collections
import os
import pathlib
import signal
import subprocess
import sys
import tempfile
import time
from collections.abc import Iterator
from concurrent.futures import ThreadPoolExecutor
from typing import NamedTuple

import building
import preloaded
import trials
import workspace
from call_rows import ROWS, RUNS, Row, made_fleets, made_worlds, runs_of

STANDS_ON = """
    line_names line_tape line_vectors line_rounds line_catalogue line_plan line_moves line_world
    line_live line_posts line_collect
""".split()
# The request for memory that is refused, counted from 1. No row asks as often.
REFUSED = 5_000
# Words for a run without calls.
IDLE = Row("nothing", "tapes", 1, 0, []).words(0, 0)
# What a growth comes to that is refused to no call.
NO_CALLS = ("the words", "arguments", "nothing", "different")
# Where a history's digest and the count of its events stand in what is seen.
HISTORY, EVENTS = 0, 6


class Told(NamedTuple):
    """A line that the program tells: what it is of, the number of the call, and the numbers."""

    what: str
    call: int
    numbers: tuple[int, ...]


class Refusal(NamedTuple):
    """A call that was refused: its number, what was there to see before it, and at its refusal."""

    call: int
    before: tuple[int, ...] | None
    after: tuple[int, ...]


class Difference(Exception):
    """What is not as it must be."""


def told_by(output: bytes) -> list[Told]:
    """The lines of a run."""
    found = []
    for line in output.decode().splitlines():
        what, *numbers = line.split(",")
        call, *others = map(int, numbers or ["-1"])
        found.append(Told(what, call, tuple(others)))
    return found


def parted(lines: list[Told]) -> tuple[list[Told], list[Refusal], list[Refusal]]:
    """The lines of a run as if nothing were refused, what was, and whose arguments were."""
    kept: list[Told] = []
    refusals: list[Refusal] = []
    not_made: list[Refusal] = []
    for line in lines:
        is_refused = line.what.startswith("refused")
        if is_refused or line.what == "not made":
            begun = kept[-1] if kept and kept[-1][:2] == ("before", line.call) else None
            it = Refusal(line.call, begun.numbers if begun else None, line.numbers)
            (refusals if is_refused else not_made).append(it)
        else:
            kept.append(line)
    return kept, refusals, not_made


def without_history(seen: tuple[int, ...]) -> list[int]:
    """What is seen besides the history and its events."""
    return [it for place, it in enumerate(seen) if place not in (HISTORY, EVENTS)]


class Trial:
    """A row, what it is answered, and what the runs with a refusal come to.

    The library that refuses memory is loaded before a program that does not do so by itself.
    """

    def __init__(self, program: str, library: str, row: Row):
        self.program, self.library, self.row = program, library, row
        answer = self.run(0)
        *right, last = told_by(answer.output) or [Told("nothing", -1, ())]
        if answer.status != 0 or last.what != "given" or last.call >= REFUSED:
            raise SystemExit(f"{row.name}: without a refusal: {answer}")
        self.right = right
        self.growths = REFUSED - 1 - last.call
        self.states: dict[int, tuple[int, ...]] = {}

    def run(self, growth: int) -> preloaded.Answer:
        """A run in which this growth is refused; where it is 0, one after the calls is."""
        before, after = (REFUSED - growth, 0) if growth else (0, REFUSED)
        text = preloaded.Text(self.row.name, self.row.words(before, after), b"")
        settings = {"REFUSED_GROWTH": REFUSED}
        return preloaded.answered(self.program, self.library, text, settings)[0]

    def name(self, call: int) -> str:
        """The name of a call; the making of the subject has no number."""
        if self.row.subject in RUNS.values() and call >= 0:
            return "run"
        return self.row.calls[call].split(",")[0] if call >= 0 else f"new {self.row.subject}"

    def compare_kept(self, refusal: Refusal) -> None:
        """Compares what is there at a refusal with what was there before."""
        if refusal.call < 0:
            return
        before = self.states.get(refusal.call, refusal.before)
        if before is None:
            raise Difference("a refusal of a call that was not begun")
        if self.name(refusal.call) == "take":
            if without_history(before) != without_history(refusal.after):
                raise Difference("more changed than reports that were taken")
        elif before != refusal.after:
            raise Difference(f"before {before}, at the refusal {refusal.after}")

    def taken_again(self, line: Told, refusals: list[Refusal]) -> Told:
        """The answer of a `take` that was made again, with the reports that it took at first."""
        for it in refusals:
            if line.what == "answer" and it.call == line.call and self.name(it.call) == "take":
                code, taken = line.numbers
                before = it.before or it.after
                return line._replace(numbers=(code, taken + it.after[EVENTS] - before[EVENTS]))
        return line

    def judge(self, growth: int) -> list[str]:
        """What was refused in a run with this refusal: names of calls; fails where it is wrong."""
        answer = self.run(growth)
        if answer.status is None or answer.status < 0:
            raise Difference(f"it ended by a signal or not at all: {answer}")
        if not answer.output:
            return ["the words"] if answer.status else ["nothing"]
        if answer.status or not answer.output.endswith(b"done\n"):
            raise Difference(f"it gave up: {answer.said!r} after {answer.output[-200:]!r}")
        kept, refusals, not_made = parted(told_by(answer.output))
        if len(refusals) + len(not_made) > 1:
            raise Difference("more than one call wanted memory")
        for it in [*refusals, *not_made]:
            self.compare_kept(it)
        again = [self.taken_again(it, refusals) for it in kept]
        if again != self.right:
            lines = zip(again, self.right)
            first = next((it for it in lines if it[0] != it[1]), (len(again), len(self.right)))
            raise Difference(f"told {first[0]}, without a refusal {first[1]}")
        return [self.name(it.call) for it in refusals] or ["arguments" if not_made else "nothing"]

    def tried(self, growth: int) -> list[str]:
        """The same; what differs is printed."""
        try:
            return self.judge(growth)
        except Difference as difference:
            place = f"growth {growth} of {self.growths}"
            print(f"{self.row.name}, {place}: {difference}", flush=True)
            return ["different"]


def trials_of(program: str, library: str, rows: list[Row]) -> Iterator[Trial]:
    """A trial for each row. What a run of steps goes back to is what these tell one by one."""
    of_steps = {run: subject for subject, run in RUNS.items()}
    for row in rows:
        it = Trial(program, library, row)
        if row.subject in of_steps:
            steps = Trial(program, library, row._replace(subject=of_steps[row.subject]))
            answers = [line for line in steps.right if line.what != "before"]
            if answers != it.right:
                raise SystemExit(f"{row.name}: it answers other than step by step")
            it.states = {line.call: line.numbers for line in steps.right if line.what == "before"}
        yield it


def add_words(line: argparse.ArgumentParser) -> None:
    """Adds the words of this job to those that are read."""
    add, path = line.add_argument, pathlib.Path
    add("--every", type=int, default=1, metavar="K", help="one growth of K (1)")
    add("--cases", type=int, default=12, metavar="M", help="how many made rows of each kind (12)")
    add("--seed", type=int, default=1, metavar="S", help="where made rows start (1)")
    cores = os.cpu_count()
    add("--at-once", type=int, default=cores, metavar="N", help="how many runs at once (all cores)")
    add("--compile", action="store_true", help="by a build that is not proved")
    add("--program", type=path, help="a program bench/refused that is built already, in this way")
    add("--keep-program", type=path, help="where the built program is put, too")


def try_rows(program: str, asked: argparse.Namespace) -> int:
    """Tries all rows, prints what came of them, and answers the status."""
    rows = [*ROWS, *made_worlds(asked.cases, asked.seed), *made_fleets(asked.cases, asked.seed)]
    total: collections.Counter[str] = collections.Counter()
    refused_on: collections.Counter[str] = collections.Counter()
    before = 0
    with (
        tempfile.TemporaryDirectory(prefix="recline-calls-") as folder,
        ThreadPoolExecutor(asked.at_once) as pool,
    ):
        library = "" if asked.compile else preloaded.compiled(folder)
        trials = list(trials_of(program, library, [*rows, *runs_of(rows)]))
        for it in trials:
            growths = [k for k in range(1, it.growths + 1) if (before + k) % asked.every == 0]
            before += it.growths
            counts = collections.Counter(sum(pool.map(it.tried, growths), []))
            refused = sum(count for name, count in counts.items() if name not in NO_CALLS)
            refused_on[it.row.name if asked.every == 1 else it.row.subject] += refused
            total.update(counts)
            told = f"{len(it.row.calls)} calls, {len(growths)} growths, {refused} refused to a call"
            name = f"{it.row.subject}: {it.row.name}"
            print(f"{name}: {told}, {counts['different']} not as they must be", flush=True)
    for name, count in sorted(total.items()):
        print(f"{name}: {count}")
    silent = [name for name, refused in refused_on.items() if refused == 0]
    for name in silent:
        print(f"{name}: no call was refused")
    told = f"{len(trials)} rows, {total.total()} growths refused, {refused_on.total()} to a call"
    wrong = total["different"]
    held = f"{wrong} not as they must be" if wrong else "which said so and left all as it was"
    way = ", by a build that is not proved" if asked.compile else ""
    print(f"refused calls: {told}, {held}{way}")
    return 1 if wrong or silent else 0


def compiled_in(room: pathlib.Path) -> pathlib.Path:
    """The program as `rt try` compiles it, which refuses memory by itself; it ends all if it can't.

    Nothing is proved. `rt` takes the program away, so a second name is taken of it meanwhile.
    """
    crate = building.make_bench(room, "refused", STANDS_ON)
    taken: dict[int, pathlib.Path] = {}
    log = room / "log"
    with log.open("wb") as said:
        words = ["rt", "try", "--fail-alloc", str(REFUSED), "--", *IDLE]
        process = subprocess.Popen(
            words, cwd=crate, env={**os.environ, "TMPDIR": str(room)}, stdin=subprocess.DEVNULL,
            stdout=said, stderr=subprocess.STDOUT, start_new_session=True,
        )  # fmt: skip
        try:
            while process.poll() is None:
                trials.found(room, taken)
                time.sleep(trials.SECONDS_OF_LOOKING)
        finally:
            trials.end(process)
    for program in taken.values():
        program.chmod(0o755)
        ran = subprocess.run([program, *IDLE], capture_output=True, check=False)
        if ran.stdout.endswith(b"done\n"):
            return program
    sys.exit(log.read_text(errors="replace")[-4000:])


def built_in(room: pathlib.Path, is_compiled: bool) -> pathlib.Path:
    """The program, proved and built or only compiled; it ends all where it can't be."""
    if is_compiled:
        print("bench/refused is compiled, and nothing of it is proved", flush=True)
        return compiled_in(room)
    return building.build_bench(room, "refused", STANDS_ON, IDLE)


def run(asked: argparse.Namespace) -> int:
    """Does what the words ask for, and answers the status."""
    signal.signal(signal.SIGTERM, trials.stopped)
    if asked.program:
        return try_rows(str(asked.program.resolve()), asked)
    with workspace.new_folder("recline-refused-") as folder:
        program = built_in(pathlib.Path(folder), asked.compile)
        if asked.keep_program:
            asked.keep_program.write_bytes(program.read_bytes())
            asked.keep_program.chmod(0o755)
        return try_rows(str(program), asked)
