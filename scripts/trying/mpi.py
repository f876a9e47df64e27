"""Tries the library for MPI, and kills ranks of examples/mpi/heat.c at random.

Usage: scripts/trial mpi [--runs N] [--seed S] [--from I] [--quick]
                         [--planner COMMAND] [--program PATH]

Each call that the library wraps is made with it and without it; each message that is noted as
sent must be noted as received, once; and what is in transit at a recovery line must come again,
over three lives of a job, and after what runs the job was killed too. Then each run draws how many
ranks, cells and turns there are, how often they take checkpoints, and which are killed when, in
their turns or from outside. The cells must have the bits of a loop over the whole plate, and of a
job without recline, and the history must have each message once. Where it is not so, the command is
printed, and the status is 1. --quick is a few runs with a fixed seed, which ./test does. Where
there is no mpicc or no mpirun one line says that all this is left out, and the status is 77.
"""

import argparse
import collections
import contextlib
import os
import pathlib
import random
import re
import shlex
import shutil
import signal
import subprocess
import sys
import tempfile
import time
from collections.abc import Sequence

import command_lines
import workspace
from trying import drawn
from trying.drawn import Failure

TOP = workspace.ROOT
CLIENT = TOP / "clients" / "mpi"
sys.path.insert(0, str(CLIENT))

from mpi_folder import journal

RUN, HEAT = CLIENT / "recline_mpirun.py", TOP / "examples" / "mpi" / "run_heat.py"
PROGRAM = TOP / "recline"
PLANNER = [str(PROGRAM), "collect"]
MPIRUN = ["mpirun", "--quiet", "--oversubscribe", "--allow-run-as-root"]
LEFT_OUT = 77
QUICK_RUNS, QUICK_SEED = 3, 1
MOST_SECONDS = 300  # for one run
FREED = "MPI_Request_free of a receive is not supported: wait for it"
DAMAGED = "is not what was sent"
SHOWN = [
    r"^heat: rank 1 is killed in its turn 20$",
    r"^failure 1: mpirun ended with status 137$",
    r"^  rank 1 goes on from its (checkpoint \d+, rank-1-turn-\d+|beginning)",
    r"^  \| Ranks that failed cannot stay where they stand",
    r"^the picture of the last recovery is ",
]
SUMMARY = re.compile(r"ranks: (\d+) failure")


Names = collections.Counter[tuple[int, ...]]


def ran(words: Sequence[str], wanted: int = 0) -> str:
    """What a command tells, on both outputs, where it ends with this status."""
    try:
        ended = subprocess.run(words, stdin=subprocess.DEVNULL, stdout=subprocess.PIPE,
                               stderr=subprocess.STDOUT, text=True, check=False,
                               timeout=MOST_SECONDS)
    except subprocess.TimeoutExpired:
        raise Failure(f"{shlex.join(words)}: no end within {MOST_SECONDS} seconds") from None
    if ended.returncode != wanted:
        raise Failure(f"{shlex.join(words)}: status {ended.returncode}\n{ended.stdout}")
    return ended.stdout


def has_checkpoint(notes: pathlib.Path) -> bool:
    """Whether a rank has noted a checkpoint."""
    with contextlib.suppress(FileNotFoundError):
        return "\ncheck," in notes.read_text(encoding="ascii")
    return False


def mpirun_of(process: int) -> list[int]:
    """Those children of a process that are called mpirun."""
    found = []
    with contextlib.suppress(OSError):
        for task in pathlib.Path(f"/proc/{process}/task").glob("*/children"):
            for child in task.read_text(encoding="ascii").split():
                words = pathlib.Path(f"/proc/{child}/cmdline").read_bytes().split(b"\0")
                if words[0] == MPIRUN[0].encode():
                    found.append(int(child))
    return found


def messages_in(answers: Sequence[str]) -> tuple[Names, Names]:
    """The names of messages that were sent and received, of a history at the end of answers."""
    sent: Names = collections.Counter()
    received: Names = collections.Counter()
    process = number = 0
    begin = max(at for at, line in enumerate(answers) if line.startswith("history,"))
    for line in answers[begin + 1 :]:
        word, *fields = line.split(",")
        if word == "tape":
            process, number = int(fields[0]), 0
        elif word == "send":
            sent[process, int(fields[1]), number] += 1
            number += 1
        elif word == "recv":
            received[tuple(map(int, fields))] += 1
    return sent, received


class Trial:
    """The programs, built in a folder of their own."""

    def __init__(self, folder: pathlib.Path, planner: Sequence[str], program: str) -> None:
        self.folder, self.planner, self.program = folder, planner, program
        self.library = folder / "librecline_mpi.so"
        self.counts: collections.Counter[str] = collections.Counter()

    def build(self) -> None:
        """Builds all, without a warning."""
        make = ["make", "-s", f"OUT={self.folder}", "CFLAGS=-O2 -g -Werror"]
        ran([*make, "-C", str(CLIENT), "tests"])
        ran([*make, "-C", str(HEAT.parent)])

    def noted(self, ranks: int, notes: pathlib.Path, *words: str) -> list[str]:
        """The words that run a job with the library, and write its notes into a folder."""
        handed = ["-x", f"LD_PRELOAD={self.library}", "-x", f"RECLINE_DIR={notes}"]
        return [*MPIRUN, "-np", str(ranks), *handed, *words]

    def calls(self) -> None:
        """Each call as MPI makes it and as the library does, and what comes of notes."""
        calls = str(self.folder / "calls")
        ran([*MPIRUN, "-np", "3", calls])
        for ranks in (2, 3):
            notes = self.folder / f"notes-{ranks}"
            ran(self.noted(ranks, notes, calls))
            self.balance(ranks, notes)
        told = ran(self.noted(2, self.folder / "freed", calls, "free"), 3)
        if FREED not in told:
            raise Failure(f"a receive that is freed is not refused:\n{told}")

    def let_go(self) -> None:
        """Payload that no line needs is let go."""
        ran(self.noted(1, self.folder / "let-go", str(self.folder / "let_go")))

    def balance(self, ranks: int, notes: pathlib.Path) -> None:
        """Each message on the tapes is sent once and received once, after all recoveries."""
        records = [*journal(notes, ranks, True), "history"]
        text = "".join(f"{record}\n" for record in records)
        answers = subprocess.run(self.planner, input=text, text=True, capture_output=True,
                                 check=False, timeout=MOST_SECONDS)
        if answers.returncode:
            raise Failure(f"the planner ends with status {answers.returncode} on these notes")
        sent, received = messages_in(answers.stdout.splitlines())
        if sent != received or set(sent.values()) != {1}:
            raise Failure(f"{sent.total()} sends and {received.total()} receipts are noted")
        self.counts["messages"] += len(sent)

    def started(self, notes: pathlib.Path, *words: str) -> list[str]:
        """The words that run a job of three ranks to its end, over its failures."""
        return [str(RUN), "-n", "3", "--dir", str(notes), "--mpirun", shlex.join(MPIRUN),
                "--planner", shlex.join(self.planner), "--library", str(self.library),
                "--live", "0", *words]

    def transit(self) -> None:
        """What is in transit comes again; and payload that was damaged is not sent."""
        notes, transit = self.folder / "transit-notes", str(self.folder / "transit")
        told = ran(self.started(notes, transit))
        if "all three lives are as they must be" not in told:
            raise Failure(f"transit has told\n{told}")
        with open(notes / "payload.0.0", "r+b") as file:
            file.seek(16)  # after the header of the first message
            file.write(b"\xff")
        for rank in range(3):  # as if the first life had just ended, within a note
            for kind in ("notes", "payload", "keep"):
                for life in (1, 2):
                    (notes / f"{kind}.{life}.{rank}").unlink()
            with open(notes / f"notes.0.{rank}", "ab") as file:
                file.write(b"send,0,0,1,000000")
        told = ran(self.started(notes, "--resume", "--most-failures", "0", transit), 1)
        if DAMAGED not in told:
            raise Failure(f"a payload that is damaged is not told:\n{told}")

    def killed_above(self) -> None:
        """What runs the job is killed, and mpirun with it; the same command goes on."""
        heat, cells = str(self.folder / "heat"), self.folder / "above-cells"
        notes, checkpoints = self.folder / "above-notes", self.folder / "above-checkpoints"
        checkpoints.mkdir()
        words = [heat, "--turns", "60", "--folder", str(checkpoints), "--result", str(cells)]
        ran([*MPIRUN, "-np", "3", *words])
        right = cells.read_bytes()
        slowly = self.started(notes, *words, "--pause", "20000")
        with subprocess.Popen(slowly, stdout=subprocess.DEVNULL) as running:
            last = time.monotonic() + MOST_SECONDS
            while not has_checkpoint(notes / "notes.0.2") and time.monotonic() < last:
                time.sleep(0.1)
            below = mpirun_of(running.pid)
            running.kill()
            for process in below:
                os.kill(process, signal.SIGTERM)
        cells.unlink()
        told = ran(self.started(notes, "--resume", *words))
        if cells.read_bytes() != right:
            raise Failure(f"the job that goes on has other cells; it has told\n{told}")

    def heat(self, *options: str) -> str:
        """What the example tells with these options, where its cells are right."""
        words = [str(HEAT), *options, "--build", str(self.folder), "--planner",
                 shlex.join(self.planner), "--mpirun", shlex.join(MPIRUN)]
        told = ran(words)
        if "the cells have the same bits as those of" not in told:
            raise Failure(f"{shlex.join(words)} has told\n{told}")
        return told

    def shown(self) -> None:
        """A run that tells all of it: who is killed, the line, the certificate, and the picture."""
        picture = self.folder / "picture.svg"
        told = self.heat("--ranks", "3", "--turns", "30", "--kill", "1@20", "--picture",
                         str(picture), "--explain", "--alone", "--program", self.program)
        for part in SHOWN:
            if not re.search(part, told, re.MULTILINE):
                raise Failure(f"the example has not told '{part}', but\n{told}")
        if "<svg" not in picture.read_text(encoding="utf-8"):
            raise Failure("the picture of the example is none")

    def run(self, seed: int, number: int) -> None:
        """A run of the example, whose ranks are killed."""
        run, options = self.folder / f"run-{number}", options_of(seed, number)
        told = self.heat(*options, "--quiet", "--dir", str(run))
        self.counts["failures"] += int(SUMMARY.findall(told)[0])
        self.balance(int(options[options.index("--ranks") + 1]), run / "notes")
        shutil.rmtree(run)
        self.counts["runs"] += 1


def options_of(seed: int, number: int) -> list[str]:
    """The options of the run of that number."""
    chance = random.Random(f"{seed} {number}")
    is_outside = chance.random() < 1 / 4
    kills = chance.randint(1, 3)
    return [
        *("--ranks", str(chance.choice([2, 3, 4, 6]))),
        *("--rows", str(chance.randint(6, 40)), "--columns", str(chance.randint(6, 40))),
        *("--turns", str(chance.randint(30, 120)), "--every", str(chance.choice([1, 2, 2, 3]))),
        *("--pause", str(chance.choice([0, 300, 2000]))),
        *("--live", str(chance.choice([0, 0.1, 0.5]))),
        *(("--strikes" if is_outside else "--kills"), str(kills)),
        *("--seed", str(chance.randrange(1 << 31))),
    ]


def add_words(line: argparse.ArgumentParser) -> None:
    """Adds the words of this job to those that are read."""
    drawn.add_run_words(line, QUICK_RUNS)
    line.add_argument("--planner", type=shlex.split, default=PLANNER,
                      metavar="COMMAND", help="what plans (recline collect)")
    line.add_argument("--program", default=str(PROGRAM), metavar="PATH",
                      help="what ./draw and ./explain run (./recline)")


def run(asked: argparse.Namespace) -> int:
    """Does all of it; answers the status."""
    drawn.choose_runs(asked, QUICK_RUNS, QUICK_SEED)
    try:
        ran([sys.executable, str(CLIENT / "tests" / "test_folder.py")])
    except Failure as failure:
        print(failure)
        return 1
    missing = [name for name in ("mpicc", "mpirun", "make") if not shutil.which(name)]
    if missing:
        print(f"trial mpi: left out: there is no {' and no '.join(missing)} (Debian has them in "
              "openmpi-bin, libopenmpi-dev and make)")
        return LEFT_OUT
    # The first call may have to build the program, which takes long and says so.
    if str(PROGRAM) in (asked.program, *asked.planner):
        command_lines.runs(PROGRAM)
    with tempfile.TemporaryDirectory(prefix="recline-test-mpi-") as folder:
        trial = Trial(pathlib.Path(folder), asked.planner, asked.program)
        try:
            trial.build()
            trial.calls()
            trial.let_go()
            trial.transit()
            trial.killed_above()
            trial.shown()
        except Failure as failure:
            print(failure)
            return 1
        counts = trial.counts
        if not drawn.try_runs(
            "mpi", asked, lambda it: trial.run(asked.seed, it), lambda: f"{counts['runs']} runs"
        ):
            return 1
        print(f"MPI: {counts['runs']:,} runs with {counts['failures']:,} failures have the bits of "
              f"a job without failures; {counts['messages']:,} messages, each noted once")
    return 0
