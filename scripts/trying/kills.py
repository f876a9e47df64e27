"""Kills workers of examples/live/heat.py at random, and compares the bits of what they work out.

Usage: scripts/trial kills [--runs N] [--seed S] [--from I] [--quick]
                           [--service COMMAND] [--program PATH]

Each run draws from its seed and number how many workers, cells and turns there are, how often they
take checkpoints, alone or by rounds of markers, after how many events a new world begins, and which
workers are killed when: some two at once, and some while a recovery is under way. In some runs the
supervisor is killed too, once or twice, and all ends with it; then it is started again on its
journal. In some the service is killed, and the supervisor has to go on with a new one. The cells
must have the bits of a loop over the whole rod, which stands in this script, and of a run of the
same workers without failures. Where they do not, or a run does not end, its command is printed, and
the status is 1. --quick is a few runs with a fixed seed, which ./test does.
"""

import argparse
import collections
import contextlib
import os
import pathlib
import random
import re
import shlex
import signal
import subprocess
import tempfile
import time
from collections.abc import Sequence
from typing import NamedTuple

import command_lines
import workspace
from trying import drawn
from trying.drawn import Failure

TOP = workspace.ROOT
LIVE = TOP / "examples" / "live"
HEAT = LIVE / "heat.py"
PROGRAM = TOP / "recline"
QUICK_RUNS, QUICK_SEED = 12, 1
MOST_SECONDS = 300  # for one run
SUMMARY = re.compile(
    r"workers: ([\d,]+) kills?, ([\d,]+) recover(?:y|ies), ([\d,]+) turns? done again"
)


class Rod(NamedTuple):
    """The size of a computation."""

    workers: int
    cells: int
    turns: int

    def words(self) -> list[str]:
        """The options that ask for it."""
        return [
            *("--workers", str(self.workers)),
            *("--cells", str(self.cells)),
            *("--turns", str(self.turns)),
        ]


class Run(NamedTuple):
    """A run with failures. Times are parts of the time that a run without failures takes."""

    rod: Rod
    options: list[str]
    deaths: list[float]  # when the supervisor is killed, and all with it
    ends: list[float]  # when the service is killed, in the last life of the supervisor


RODS = [Rod(4, 30, 60), Rod(5, 61, 50), Rod(6, 24, 70), Rod(8, 90, 40)]


def loop(rod: Rod) -> list[str]:
    """The cells of the rod at the end, by a loop over it, each as hexadecimal digits."""
    third = rod.cells / 3
    now = [70.0 + 0.1 * i if third <= i < 2 * third else 10.0 for i in range(rod.cells)]
    for _ in range(rod.turns):
        then = list(now)
        for i, here in enumerate(now):
            left = now[i - 1] if i > 0 else 100.0
            right = now[i + 1] if i + 1 < rod.cells else 0.0
            then[i] = here + 0.23 * (left - 2.0 * here + right)
        now = then
    return [cell.hex() for cell in now]


def drawn_run(seed: int, number: int) -> Run:
    """The run of that number."""
    chance = random.Random(f"{seed} {number}")
    rod = chance.choice(RODS)
    is_by_rounds = chance.random() < 0.5
    every = chance.choice([3, 5, 10] if is_by_rounds else [1, 2, 2, 3, 6])
    options = [
        *("--kills", str(chance.randint(1, 6))),
        *("--seed", str(chance.randrange(1 << 32))),
        *("--every", str(every)),
        *(["--rounds", "--tape", str(chance.choice([150, 300, 900_000]))] if is_by_rounds else []),
    ]
    deaths, ends = chance.choice([(0, 0), (0, 2), (1, 0), (2, 1)])
    parts = [chance.uniform(0.2, 1.1) for _ in range(deaths + ends)]
    return Run(rod, options, parts[:deaths], parts[deaths:])


def is_service(process: int, parent: int, last_word: str) -> bool:
    """Whether a process is a child of that one, and its last word is that of the service."""
    try:
        status = pathlib.Path(f"/proc/{process}/stat").read_text(encoding="utf-8")
        words = pathlib.Path(f"/proc/{process}/cmdline").read_bytes().split(b"\0")
    except OSError:
        return False
    return status.rpartition(")")[2].split()[1] == str(parent) and last_word.encode() in words


def kill_service(supervisor: int, last_word: str) -> bool:
    """Kills the service that a supervisor has started; answers whether there was one."""
    children = pathlib.Path(f"/proc/{supervisor}/task/{supervisor}/children")
    with contextlib.suppress(OSError):
        for child in map(int, children.read_text(encoding="ascii").split()):
            # What is held and then looked at cannot be another process by the time of the signal.
            held = os.pidfd_open(child)
            try:
                if is_service(child, supervisor, last_word):
                    signal.pidfd_send_signal(held, signal.SIGKILL)
                    return True
            finally:
                os.close(held)
    return False


class Call:
    """A call of heat.py that is under way."""

    def __init__(self, words: Sequence[str]) -> None:
        self.process = subprocess.Popen(
            [str(HEAT), *words], stdout=subprocess.PIPE, stderr=subprocess.PIPE, text=True
        )

    def has_ended(self, seconds: float) -> bool:
        """Waits for its end for so long at most; answers whether it has come."""
        try:
            self.told, self.said = self.process.communicate(timeout=seconds)
        except subprocess.TimeoutExpired:
            return False
        return True

    def kill(self) -> None:
        """Kills the supervisor. Its workers and the service find their pipes closed, and end."""
        self.process.kill()
        self.process.communicate()

    def answer(self) -> str:
        """What it tells, all of it."""
        if not self.has_ended(MOST_SECONDS):
            self.kill()
            raise Failure(f"it has not ended within {MOST_SECONDS} seconds")
        if self.process.returncode or self.said:
            status = self.process.returncode
            raise Failure(f"its status is {status}; it has told\n{self.told}{self.said}")
        return self.told


class Runs:
    """All runs, and what they came to."""

    def __init__(self, service: list[str], folder: pathlib.Path) -> None:
        self.service, self.folder = service, folder
        self.right: dict[tuple[Rod, bool], tuple[list[str], float]] = {}
        self.counts: collections.Counter[str] = collections.Counter()

    def words(self, rod: Rod, options: Sequence[str]) -> list[str]:
        """The words for heat.py that all runs have."""
        result = str(self.folder / "result")
        service = ["--service", shlex.join(self.service)]
        return [*rod.words(), *options, "--quiet", "--alone", *service, *("--result", result)]

    def result(self) -> list[str]:
        """The cells that the last run has worked out."""
        return (self.folder / "result").read_text(encoding="ascii").split()

    def without_failures(self, rod: Rod, is_by_rounds: bool) -> tuple[list[str], float]:
        """The cells of a run without failures, which have to be those of a loop; and its time."""
        key = rod, is_by_rounds
        if key not in self.right:
            start = time.monotonic()
            Call(self.words(rod, ["--rounds"] if is_by_rounds else [])).answer()
            if self.result() != loop(rod):
                raise Failure("a run without failures has not the bits of a loop over the rod")
            self.right[key] = self.result(), time.monotonic() - start
        return self.right[key]

    def one(self, run: Run) -> None:
        """A run with failures, whose supervisor is killed too, as often as it has to be."""
        right, seconds = self.without_failures(run.rod, "--rounds" in run.options)
        journal = self.folder / "journal"
        journal.unlink(missing_ok=True)
        words = [*self.words(run.rod, run.options), "--journal", str(journal)]
        for part in run.deaths:
            call = Call(words)
            if not call.has_ended(part * seconds):
                call.kill()
                self.counts["deaths of the supervisor"] += 1
        call = Call(words)
        for part in run.ends:
            if not call.has_ended(part * seconds):
                is_killed = kill_service(call.process.pid, self.service[-1])
                self.counts["deaths of the service"] += is_killed
        self.count(call.answer())
        if self.result() != right:
            raise Failure("the cells have not the bits of a run without failures")

    def count(self, told: str) -> None:
        """Counts what a run has told of itself."""
        found = SUMMARY.search(told)
        if not found:
            raise Failure(f"it has told what cannot be read:\n{told}")
        kills, recoveries, again = (int(number.replace(",", "")) for number in found.groups())
        self.counts["runs"] += 1
        self.counts["kills"] += kills
        self.counts["recoveries"] += recoveries
        self.counts["turns done again"] += again

    def told(self) -> str:
        """What all runs came to so far."""
        return ", ".join(f"{self.counts[what]:,} {what}" for what in WHAT)


SHOWN = [
    r"^worker 2 is killed in turn 20",
    r"^recovery 1: worker 2 failed$",
    r"^  worker 2 goes back to its (checkpoint|beginning)",
    r"^  \| A worker that failed cannot stay where it stands",
    r"^worker 1 is killed in turn \d+, while the recovery was under way$",
    r"^  replayed: message \d+ of worker \d",
    r"^the cells have the same bits as those of a run without failures and of a plain loop",
]
CONVERSATION = [
    *("sent,0,0,0", "checked,0,1", "took,0,0,0,-", "sent,1,0,0", "took,1,0,0,-"),
    *("recovered,2,1,1", "line,0,1,1,a1", "line,1,0,1,", "pass,0,now,1,0,0", "replay,0,0,0"),
]
WHAT = [
    *("runs", "kills", "deaths of the supervisor", "deaths of the service"),
    *("recoveries", "turns done again"),
]


def shown(service: Sequence[str], program: str, folder: pathlib.Path) -> None:
    """A run that tells all of it: who is killed, the line, the certificate, and the picture."""
    picture = folder / "picture.svg"
    told = Call(
        [
            *("--turns", "40", "--kill", "2@20", "--kill", "0,3@30+1", "--picture", str(picture)),
            *("--service", shlex.join(service), "--program", program),
        ]
    ).answer()
    for part in SHOWN:
        if not re.search(part, told, re.MULTILINE):
            raise Failure(f"it has not told '{part}', but\n{told}")
    if "<svg" not in picture.read_text(encoding="utf-8"):
        raise Failure("its picture is none")


def conversed(service: Sequence[str]) -> None:
    """The conversation in shell, which is answered as docs/FORMATS.md has it."""
    words = [str(LIVE / "conversation.sh"), *service]
    ran = subprocess.run(words, capture_output=True, text=True, check=False, timeout=MOST_SECONDS)
    answers = [line[2:] for line in ran.stdout.splitlines() if line.startswith("< ")]
    if answers != CONVERSATION or ran.stderr or ran.returncode:
        raise Failure(f"conversation.sh: status {ran.returncode}\n{ran.stdout}{ran.stderr}")


def add_words(line: argparse.ArgumentParser) -> None:
    """Adds the words of this job to those that are read."""
    drawn.add_run_words(line, QUICK_RUNS)
    line.add_argument(
        "--service",
        type=shlex.split,
        default=[str(PROGRAM), "serve"],
        metavar="COMMAND",
        help="the service (./recline serve)",
    )
    line.add_argument(
        "--program", default=str(PROGRAM), metavar="PATH", help="what ./explain runs (./recline)"
    )


def try_one(runs: Runs, seed: int, number: int) -> None:
    """Does the run of that number; where it is not as it must be, tells its command too."""
    run = drawn_run(seed, number)
    try:
        runs.one(run)
    except Failure as failure:
        command = shlex.join([str(HEAT), *run.rod.words(), *run.options])
        raise Failure(f"{failure}\n{command}") from failure


def run(asked: argparse.Namespace) -> int:
    """Does all runs, and what is shown; answers the status."""
    drawn.choose_runs(asked, QUICK_RUNS, QUICK_SEED)
    # The first call may have to build the program, which takes long and says so.
    if str(PROGRAM) in (asked.program, *asked.service):
        command_lines.runs(PROGRAM)
    with tempfile.TemporaryDirectory(prefix="recline-kills-") as folder:
        runs = Runs(asked.service, pathlib.Path(folder))
        try:
            conversed(asked.service)
            shown(asked.service, asked.program, pathlib.Path(folder))
        except Failure as failure:
            print(failure)
            return 1
        if not drawn.try_runs("kills", asked, lambda it: try_one(runs, asked.seed, it), runs.told):
            return 1
        print(f"{runs.told()}: each has the bits of a run without failures and of a plain loop")
    return 0
