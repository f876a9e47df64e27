#!/usr/bin/env python3
"""Runs a program of MPI, and after a failure starts it again from its recovery line.

    clients/mpi/recline_mpirun.py -n 4 ./program WORD ..

Each rank notes what it sends, receives and stores (librecline_mpi.so, put before the program by
LD_PRELOAD). Where the job fails, by a rank that is killed for instance, `recline collect`
plans from the notes of all ranks, and the job is started again: each rank goes on from the
checkpoint that `recline_resume` names, and what was in transit is sent again. Where this program
is killed too, --resume goes on from the folder. The status is 0 where the job has ended well, 1
where it fails again and again, 2 for a wrong command line, 3 where the planner or a file fails,
and 130 after an interrupt.
"""

from __future__ import annotations

import argparse
import contextlib
import os
import pathlib
import shlex
import subprocess
import sys
import time
from collections.abc import Callable, Sequence
from typing import NamedTuple

sys.dont_write_bytecode = True  # leaves nothing beside the scripts

from mpi_folder import Folder, StillRuns
from mpi_planner import Plan, Planner, PlannerError

HERE = pathlib.Path(__file__).resolve().parent
MOST_RANKS = 256
SECONDS_BETWEEN = 0.1  # two looks at the job
MOST_SECONDS = 60.0  # that ranks may live on after their mpirun has ended
SECONDS_OF_HANGING = 5.0  # that mpirun may live on after its ranks have ended
FAILED_AGAIN, FAILED, INTERRUPTED = 1, 3, 130


class Recovery(NamedTuple):
    """A failure, and where the job goes on."""

    number: int  # of this failure, from 1
    status: int  # with which the job ended; below 0 the number of a signal
    plan: Plan
    was: list[int]  # the last checkpoint that each rank had
    paths: list[str]  # of the checkpoints from which the ranks go on; empty for a beginning


class Job(NamedTuple):
    """What is run."""

    program: Sequence[str]
    ranks: int
    mpirun: Sequence[str] = ("mpirun",)
    planner: Sequence[str] = (str(HERE.parent.parent / "recline"), "collect")
    folder: pathlib.Path = pathlib.Path("recline-notes")
    library: pathlib.Path = HERE / "out" / "librecline_mpi.so"
    live: float = 1.0  # seconds between two questions of what may be let go; 0: none
    deletes: bool = False  # whether the files of checkpoints that no line needs are deleted
    goes_on: bool = False  # from what the folder has
    most_failures: int = 10  # one after another, without a further checkpoint on the line

    def command(self, is_resumed: bool, more: Sequence[str]) -> list[str]:
        """What starts it: the words for mpirun, which hands variables to each rank."""
        given = {
            "LD_PRELOAD": str(self.library.resolve()),
            "RECLINE_DIR": str(self.folder.resolve()),
            "RECLINE_RESUME": "1" if is_resumed else "",
        }
        handed = [word for name, value in given.items() for word in ("-x", f"{name}={value}")]
        return [*self.mpirun, "-np", str(self.ranks), *handed, *self.program, *more]


def has_only_dead(process: int) -> bool:
    """Whether a process has children, and all of them have ended."""
    states = []
    with contextlib.suppress(OSError):
        for task in pathlib.Path(f"/proc/{process}/task").glob("*/children"):
            for child in task.read_text(encoding="ascii").split():
                about = pathlib.Path(f"/proc/{child}/stat").read_text(encoding="utf-8")
                states.append(about.rpartition(")")[2].split()[0])
    return bool(states) and set(states) == {"Z"}


class Failure(Exception):
    """Why the job cannot go on."""


class Running:
    """A job from its first start to its end, over as many failures as there are.

    `tells` is called after each failure, `more` answers further words for a life of the program,
    and `begins` is told the process id of mpirun in each life.
    """

    def __init__(self, job: Job, tells: Callable[[Recovery], None],
                 more: Callable[[int], Sequence[str]] = lambda life: (),
                 begins: Callable[[int], None] = lambda process: None) -> None:
        self.job, self.tells, self.more, self.begins = job, tells, more, begins
        self.folder = Folder(job.folder, job.ranks)
        self.recoveries = self.in_vain = 0
        self.furthest = [0] * job.ranks
        self.let_go = 0  # checkpoints

    def run(self) -> None:
        """All of it."""
        with Planner(self.job.planner, self.job.ranks) as planner:
            if self.job.goes_on:
                self._feed_lives(planner)
            elif self.folder.lives():
                raise Failure(f"{self.job.folder} has the notes of another job: --resume goes on "
                              "from them")
            while (status := self._live(planner)) != 0:
                self._recover(planner, status)

    def _feed_lives(self, planner: Planner) -> None:
        """Feeds the notes of all lives so far, each of which has ended by a failure."""
        for _ in range(self.folder.lives()):
            self._end_life()
            planner.take(self.folder.new_notes())
            plan = planner.recover()
            self.folder.next_life(plan)
            self.folder.write_resume(plan)

    def _live(self, planner: Planner) -> int:
        """One life of the job; answers the status of its end."""
        words = self.job.command(self.folder.life > 0, self.more(self.folder.life))
        with subprocess.Popen(words, stdin=subprocess.DEVNULL) as process:
            self.begins(process.pid)
            try:
                self._watch(planner, process)
            except BaseException:
                process.terminate()  # mpirun ends its ranks
                raise
        if process.returncode:
            self._end_life()
        planner.take(self.folder.new_notes())
        return process.returncode

    def _end_life(self) -> None:
        """Waits until no rank of this life writes any more."""
        try:
            self.folder.wait_for_ends(MOST_SECONDS)
        except StillRuns as still:
            raise Failure(str(still)) from None

    def _watch(self, planner: Planner, process: subprocess.Popen[bytes]) -> None:
        """Takes in what the ranks note until they end, and lets go what no line needs any more."""
        last_live = alive = time.monotonic()
        while True:
            with contextlib.suppress(subprocess.TimeoutExpired):
                process.wait(SECONDS_BETWEEN)
                return
            if not has_only_dead(process.pid):
                alive = time.monotonic()
            elif time.monotonic() > alive + SECONDS_OF_HANGING:
                process.kill()  # some versions hang where a rank is killed as it starts
            planner.take(self.folder.new_notes())
            if self.job.live and time.monotonic() >= last_live + self.job.live:
                self._let_go(planner.live())
                last_live = time.monotonic()

    def _let_go(self, plan: Plan) -> None:
        """Lets go what stands before a line that stays consistent."""
        for path in self.folder.let_go(plan):
            self.let_go += 1
            if self.job.deletes:
                with contextlib.suppress(FileNotFoundError):
                    os.unlink(path)

    def _recover(self, planner: Planner, status: int) -> None:
        """The job has failed: plans, and writes for each rank where it goes on."""
        was = [len(rank.checkpoints) - 1 for rank in self.folder.ranks]
        plan = planner.recover()
        self.recoveries += 1
        is_further = any(now > before for now, before in zip(plan.checks, self.furthest))
        self.in_vain = 0 if is_further else self.in_vain + 1
        self.furthest = [max(both) for both in zip(plan.checks, self.furthest)]
        self.folder.next_life(plan)
        self.folder.write_resume(plan)
        paths = [rank.checkpoints[-1].path for rank in self.folder.ranks]
        self.tells(Recovery(self.recoveries, status, plan, was, paths))
        if self.in_vain > self.job.most_failures:
            raise Failure("the job fails without getting further")


def counted(count: int, one: str, many: str = "") -> str:
    """A number of things; a word alone takes an s."""
    return f"{count:,} {one if count == 1 else many or one + 's'}"


def told(recovery: Recovery) -> list[str]:
    """What is said of a recovery."""
    lines = [f"failure {recovery.number}: mpirun ended with status {recovery.status}"]
    for rank, check in enumerate(recovery.plan.checks):
        file = pathlib.PurePath(recovery.paths[rank]).name
        place = f"its checkpoint {check}, {file}" if check else "its beginning"
        after = recovery.was[rank] - check
        lost = f", and loses {counted(after, 'later one')}" if after else ""
        lines.append(f"  rank {rank} goes on from {place}{lost}")
    for it in recovery.plan.replays:
        under = f" (incarnation {it.incarnation})" if it.incarnation else ""
        lines.append(f"  sent again: message {it.number} of rank {it.sender}{under}")
    return lines


def tell(recovery: Recovery) -> None:
    """Says where the job goes on."""
    print("\n".join(f"recline: {line}" for line in told(recovery)), file=sys.stderr, flush=True)


def parser() -> argparse.ArgumentParser:
    """The command line."""
    line = argparse.ArgumentParser(
        prog="recline_mpirun.py",
        usage="recline_mpirun.py -n RANKS [OPTIONS] PROGRAM [WORD ..]",
        description=__doc__,
        formatter_class=argparse.RawDescriptionHelpFormatter,
        allow_abbrev=False,
    )
    line.add_argument("-n", type=int, required=True, metavar="RANKS", help="how many, 1 to 256")
    line.add_argument("--dir", type=pathlib.Path, default=Job._field_defaults["folder"],
                      help="the folder of the notes (recline-notes)")
    line.add_argument("--resume", action="store_true", help="go on from what the folder has")
    line.add_argument("--mpirun", type=shlex.split, default=["mpirun"], metavar="COMMAND",
                      help="what starts the ranks, with words of its own (mpirun)")
    line.add_argument("--planner", type=shlex.split, default=Job._field_defaults["planner"],
                      metavar="COMMAND", help="what plans (recline collect)")
    line.add_argument("--library", type=pathlib.Path, default=Job._field_defaults["library"],
                      metavar="FILE", help="librecline_mpi.so (out/ beside this program)")
    line.add_argument("--live", type=float, default=1.0, metavar="SECONDS",
                      help="how often is asked what may be let go; 0: never (1)")
    line.add_argument("--most-failures", type=int, default=10, metavar="N",
                      help="how often it may fail in a row without getting further (10)")
    line.add_argument("--delete-checkpoints", action="store_true",
                      help="delete the files of checkpoints that no line goes back to any more")
    line.add_argument("program", nargs=argparse.REMAINDER, metavar="PROGRAM", help="and its words")
    return line


def job_of(line: argparse.ArgumentParser, words: Sequence[str]) -> Job:
    """What the words ask for."""
    asked = line.parse_args(words)
    if not 1 <= asked.n <= MOST_RANKS:
        line.error(f"-n is from 1 to {MOST_RANKS}")
    if not asked.program:
        line.error("there is no program")
    if not asked.library.is_file():
        line.error(f"{asked.library} is not there: make -C {HERE}")
    return Job(asked.program, asked.n, asked.mpirun, asked.planner, asked.dir, asked.library,
               asked.live, asked.delete_checkpoints, asked.resume, asked.most_failures)


def main(words: Sequence[str]) -> int:
    """Runs the job, and answers the status."""
    job = job_of(parser(), words)
    try:
        Running(job, tell).run()
        return 0
    except Failure as failure:
        print(f"recline_mpirun: {failure}", file=sys.stderr)
        return FAILED_AGAIN
    except PlannerError as failure:
        print(f"recline_mpirun: {failure}", file=sys.stderr)
    except OSError as fault:
        file = f"{fault.filename}: " if fault.filename else ""
        print(f"recline_mpirun: {file}{fault.strerror}", file=sys.stderr)
    except KeyboardInterrupt:
        print("recline_mpirun: interrupted; --resume goes on", file=sys.stderr)
        return INTERRUPTED
    return FAILED


if __name__ == "__main__":
    sys.exit(main(sys.argv[1:]))
