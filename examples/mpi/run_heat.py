#!/usr/bin/env python3
"""The heat of a plate, worked out by the ranks of an MPI job that are killed, and brought back.

    examples/mpi/run_heat.py --kill 2@100
    examples/mpi/run_heat.py --kills 3 --seed 7 --picture last.svg

heat.c is run by clients/mpi/recline_mpirun.py. A rank is killed by SIGKILL, mpirun ends the others,
and the job is started again: `recline collect` plans from what all ranks have noted, and each
goes on from its checkpoint of the recovery line. At the end the cells must have the bits of a job
without failures, and those of a plain loop over the whole plate. The status is 0 where they have,
1 where they have not, 2 for a wrong command line, and 3 where MPI, the planner or a file fails.
"""

import argparse
import contextlib
import os
import pathlib
import random
import re
import shlex
import shutil
import signal
import struct
import subprocess
import sys
import tempfile
import threading
from collections.abc import Callable, Iterator, Sequence
from typing import NamedTuple

sys.dont_write_bytecode = True  # leaves nothing beside the scripts
HERE = pathlib.Path(__file__).resolve().parent
TOP = HERE.parent.parent
CLIENT = TOP / "clients" / "mpi"
sys.path.insert(0, str(CLIENT))

import plate
from mpi_folder import journal
from mpi_planner import Planner, PlannerError
from mpi_script import script_of
from recline_mpirun import Failure, Job, Recovery, Running, counted, told

PROGRAM = str(TOP / "recline")
PLANNER = [PROGRAM, "collect"]
MOST_RANKS, MOST_SIDE, MOST_TURNS = 64, 2_000, 150_000
MOST_DELAY = 3_000  # microseconds, after a turn begins
MOST_SECONDS = 1.0  # after the ranks of a start are there, for kills from outside
SECONDS_BETWEEN = 0.01  # two looks for them
KILL = re.compile(r"(\d+)@(\d+)(?:\+(\d+))?", re.ASCII)
FAILED, INTERRUPTED = 3, 130
# A process of recline is a rank here.
WORDS = [
    ("Processes", "Ranks"), ("processes", "ranks"), ("Process", "Rank"), ("process", "rank")
]


class Kill(NamedTuple):
    """A rank is killed in a turn, or so many microseconds after it begins."""

    rank: int
    turn: int
    delay: int = 0

    def word(self) -> str:
        """As heat.c reads it."""
        return f"{self.rank}@{self.turn}+{self.delay}"


def read_kill(text: str) -> Kill:
    """What an option says: RANK@TURN, or RANK@TURN+MICROSECONDS."""
    found = KILL.fullmatch(text)
    if not found:
        raise argparse.ArgumentTypeError(f"'{text}' is not like 2@100 or 2@100+500")
    return Kill(int(found[1]), int(found[2]), int(found[3] or 0))


def random_kills(asked: argparse.Namespace) -> list[Kill]:
    """So many kills as are asked for, in the order of their turns."""
    chance = random.Random(asked.seed)
    drawn = [
        Kill(chance.randrange(asked.ranks), chance.randrange(asked.turns),
             chance.choice([0, chance.randrange(MOST_DELAY)]))
        for _ in range(asked.kills)
    ]
    return sorted(drawn, key=lambda kill: kill.turn)


class Strikes:
    """Kills from outside, each in a start of the job: a rank, soon after it is there."""

    def __init__(self, count: int, seed: int) -> None:
        self.left, self.chance = count, random.Random(f"strikes {seed}")
        self.ended = threading.Event()  # the start that is to be struck

    def begins(self, mpirun: int) -> None:
        """The job is started: a rank will be killed, if one is to be."""
        self.end()
        if self.left:
            self.left -= 1
            self.ended = threading.Event()
            drawn = self.chance.uniform(0.0, MOST_SECONDS), self.chance.random()
            threading.Thread(target=self.strike, args=(mpirun, *drawn, self.ended)).start()

    def end(self) -> None:
        """This start has ended: nobody is killed in it any more."""
        self.ended.set()

    @staticmethod
    def strike(mpirun: int, delay: float, rank: float, ended: threading.Event) -> None:
        """Waits for the ranks, and then a while; and kills one of them."""
        while not ranks_of(mpirun):
            if ended.wait(SECONDS_BETWEEN):
                return
        if not ended.wait(delay) and (found := ranks_of(mpirun)):
            with contextlib.suppress(ProcessLookupError):
                os.kill(found[int(rank * len(found))], signal.SIGKILL)


def ranks_of(mpirun: int) -> list[int]:
    """The processes of heat that mpirun has started."""
    found: list[int] = []
    with contextlib.suppress(OSError):
        for task in pathlib.Path(f"/proc/{mpirun}/task").glob("*/children"):
            for child in task.read_text(encoding="ascii").split():
                name = pathlib.Path(f"/proc/{child}/comm").read_text(encoding="utf-8")
                found += [int(child)] if name == "heat\n" else []
    return found


class Teller:
    """Says what happens."""

    def __init__(self, kills: Sequence[Kill], is_quiet: bool) -> None:
        self.kills, self.is_quiet, self.recoveries = kills, is_quiet, 0

    def tell(self, line: str) -> None:
        """Prints a line."""
        if not self.is_quiet:
            print(line, flush=True)

    def recovered(self, recovery: Recovery) -> None:
        """Says where all go on."""
        self.recoveries += 1
        for line in told(recovery):
            self.tell(line)


def words_of(asked: argparse.Namespace, heat: pathlib.Path, folder: pathlib.Path) -> list[str]:
    """The words of heat.c."""
    return [
        str(heat),
        *("--rows", str(asked.rows), "--columns", str(asked.columns)),
        *("--turns", str(asked.turns), "--every", str(asked.every), "--seed", str(asked.seed)),
        *("--pause", str(asked.pause), "--folder", str(folder / "checkpoints")),
        *("--result", str(folder / "cells")),
    ]


def build(folder: pathlib.Path) -> tuple[pathlib.Path, pathlib.Path]:
    """Builds the program and the library where they are older than what they are made of."""
    for place in (CLIENT, HERE):
        made = subprocess.run(["make", "-s", "-C", str(place), f"OUT={folder}"], check=False)
        if made.returncode:
            raise Failure(f"make -C {place} ended with status {made.returncode}")
    return folder / "heat", folder / "librecline_mpi.so"


def cells_in(file: pathlib.Path) -> list[float]:
    """The cells that a job has written."""
    return [float.fromhex(line) for line in file.read_text(encoding="ascii").split()]


def cells_with_failures(
    asked: argparse.Namespace, folder: pathlib.Path, built: tuple[pathlib.Path, pathlib.Path],
    teller: Teller,
) -> list[float]:
    """The plate at the end, of a job whose ranks are killed."""
    (folder / "checkpoints").mkdir(exist_ok=True, parents=True)
    kills = teller.kills
    job = Job(
        words_of(asked, built[0], folder), asked.ranks, asked.mpirun, asked.planner,
        folder / "notes", built[1], asked.live, True, asked.resume,
    )
    strikes = Strikes(asked.strikes, asked.seed)
    try:
        Running(job, teller.recovered,
                lambda life: ["--kill", kills[life].word()] if life < len(kills) else [],
                strikes.begins).run()
    finally:
        strikes.end()
    return cells_in(folder / "cells")


def cells_without(asked: argparse.Namespace, folder: pathlib.Path, heat: pathlib.Path
                  ) -> list[float]:
    """The plate at the end of a job that runs as it stands, with nothing of recline."""
    (folder / "checkpoints").mkdir(parents=True)
    words = [*asked.mpirun, "-np", str(asked.ranks), *words_of(asked, heat, folder)]
    ran = subprocess.run(words, stdin=subprocess.DEVNULL, stdout=subprocess.DEVNULL, check=False)
    if ran.returncode:
        raise Failure(f"the job without failures ended with status {ran.returncode}")
    return cells_in(folder / "cells")


def bits(cells: Sequence[float]) -> bytes:
    """All bits of some cells."""
    return struct.pack(f"<{len(cells)}d", *cells)


def is_same(cells: Sequence[float], others: Sequence[float], whose: str) -> bool:
    """Whether cells have the same bits as others; tells the first that has not."""
    if bits(cells) == bits(others):
        return True
    for at, (one, other) in enumerate(zip(cells, others)):
        if bits([one]) != bits([other]):
            print(f"cell {at} is {one.hex()}, and {other.hex()} in {whose}")
            break
    else:
        print(f"there are {len(cells)} cells, and {len(others)} in {whose}")
    return False


def last_recovery(asked: argparse.Namespace, folder: pathlib.Path) -> bytes:
    """A script of all that stood at the last recovery, which ends with it."""
    records = list(journal(folder / "notes", asked.ranks))
    with Planner(asked.planner, asked.ranks) as planner:
        planner.take(records[1:-1])
        return "".join(f"{record}\n" for record in script_of(planner.history())).encode("ascii")


def shown_by(tool: str, asked: argparse.Namespace, script: bytes) -> bytes:
    """What ./draw or ./explain makes of a script."""
    words = [str(TOP / tool), "--program", asked.program]
    ran = subprocess.run(words, input=script, capture_output=True, check=False)
    if ran.returncode:
        raise Failure(f"./{tool} ended with status {ran.returncode}: {ran.stderr.decode()}")
    return ran.stdout


def show(asked: argparse.Namespace, folder: pathlib.Path, teller: Teller) -> None:
    """Draws the last recovery, and tells its certificate in words, where these are asked for."""
    script = last_recovery(asked, folder)
    if asked.picture:
        pathlib.Path(asked.picture).write_bytes(shown_by("draw", asked, script))
        teller.tell(f"the picture of the last recovery is {asked.picture}")
    if asked.explain:
        explained = shown_by("explain", asked, script).decode("ascii")
        for word, here in WORDS:
            explained = explained.replace(word, here)
        for line in explained.partition("\nThe recovery line:")[0].splitlines():
            print(f"  | {line}")


def work(asked: argparse.Namespace, folder: pathlib.Path) -> int:
    """All that is asked for; answers the status."""
    built = build(pathlib.Path(asked.build).resolve() if asked.build else folder / "built")
    teller = Teller([] if asked.resume else asked.kill + random_kills(asked), asked.quiet)
    cells = cells_with_failures(asked, folder, built, teller)
    if teller.recoveries and (asked.picture or asked.explain):
        show(asked, folder, teller)
    if asked.result:
        shutil.copyfile(folder / "cells", asked.result)
    is_good = is_same(cells, plate.plain_loop(asked.rows, asked.columns, asked.turns),
                      "a plain loop")
    if not asked.alone:
        others = cells_without(asked, folder / "without", built[0])
        is_good = is_same(cells, others, "a job without failures") and is_good
    print(f"{counted(asked.turns, 'turn')} of {counted(asked.ranks, 'rank')}: "
          f"{counted(teller.recoveries, 'failure')}")
    if is_good:
        others_too = "" if asked.alone else "of a job without failures and "
        print(f"the cells have the same bits as those {others_too}of a plain loop over the plate")
    return 0 if is_good else 1


@contextlib.contextmanager
def folder_of(asked: argparse.Namespace) -> Iterator[pathlib.Path]:
    """The folder of the job: one that is named and stays, or one that goes at the end."""
    if asked.dir:
        folder = pathlib.Path(asked.dir)
        folder.mkdir(exist_ok=True, parents=True)
        shutil.rmtree(folder / "without", ignore_errors=True)
        yield folder.resolve()
        return
    with tempfile.TemporaryDirectory(prefix="recline-mpi-") as name:
        yield pathlib.Path(name)


def number(least: int, most: int) -> Callable[[str], int]:
    """A reader of numbers in a range."""

    def read(text: str) -> int:
        if not (text.isascii() and text.isdigit()) or not least <= int(text[:12]) <= most:
            raise argparse.ArgumentTypeError(f"'{text}' is no number from {least:,} to {most:,}")
        return int(text)

    return read


def parser() -> argparse.ArgumentParser:
    """All options."""
    line = argparse.ArgumentParser(
        prog="run_heat.py", usage="examples/mpi/run_heat.py [OPTIONS]", description=__doc__,
        formatter_class=argparse.RawDescriptionHelpFormatter, allow_abbrev=False,
    )
    job = line.add_argument_group("the job")
    job.add_argument("--ranks", type=number(2, MOST_RANKS), default=4, metavar="N",
                     help="how many (4)")
    job.add_argument("--rows", type=number(1, MOST_SIDE), default=48, metavar="R",
                     help="of the plate (48)")
    job.add_argument("--columns", type=number(1, MOST_SIDE), default=64, metavar="C",
                     help="of the plate (64)")
    job.add_argument("--turns", type=number(1, MOST_TURNS), default=200, metavar="T",
                     help="how many (200)")
    job.add_argument("--every", type=number(1, MOST_TURNS), default=2, metavar="E",
                     help="a rank takes about one checkpoint in E turns, by its own chance (2)")
    job.add_argument("--pause", type=number(0, 999_999), default=0, metavar="MICROSECONDS",
                     help="that each rank rests in each turn (0)")
    killed = line.add_argument_group("failures")
    killed.add_argument("--kill", type=read_kill, action="append", default=[], metavar="RANK@TURN",
                        help="kill this rank in this turn; 2@100+500 is half a millisecond later; "
                        "each further one is in the next start of the job")
    killed.add_argument("--kills", type=number(0, 10_000), default=0, metavar="N",
                        help="N more at random (0)")
    killed.add_argument("--strikes", type=number(0, 10_000), default=0, metavar="N",
                        help="in each of the first N starts of the job kill a rank from outside, "
                        "in the first second of its ranks (0)")
    killed.add_argument("--seed", type=number(0, 2**31 - 1), default=1, metavar="S",
                        help="of what is random: kills and checkpoints (1)")
    add_outside(line.add_argument_group("what is run, and what is written"))
    return line


def add_outside(group: argparse._ArgumentGroup) -> None:
    """What is run, and what is written."""
    group.add_argument("--dir", metavar="FOLDER",
                       help="keep notes, payload and checkpoints there (a folder that goes)")
    group.add_argument("--resume", action="store_true",
                       help="go on from what --dir has, where this program was killed too")
    group.add_argument("--live", type=float, default=0.5, metavar="SECONDS",
                       help="how often is asked what may be let go; 0: never (0.5)")
    group.add_argument("--picture", metavar="FILE", help="write the last recovery, drawn by ./draw")
    group.add_argument("--explain", action="store_true",
                       help="tell the certificate of the last recovery in words, by ./explain")
    group.add_argument("--result", metavar="FILE",
                       help="write the cells, each to its last bit, one to a line")
    group.add_argument("--alone", action="store_true",
                       help="leave out the job without failures at the end")
    group.add_argument("--quiet", action="store_true", help="tell what came of it alone")
    group.add_argument("--mpirun", type=shlex.split, metavar="COMMAND",
                       default=["mpirun", "--quiet", "--oversubscribe", "--allow-run-as-root"],
                       help="what starts ranks (mpirun --quiet --oversubscribe "
                       "--allow-run-as-root)")
    group.add_argument("--planner", type=shlex.split, default=PLANNER,
                       metavar="COMMAND", help="what plans (recline collect)")
    group.add_argument("--program", default=PROGRAM, metavar="PATH",
                       help="the program that ./draw and ./explain run (./recline)")
    group.add_argument("--build", metavar="FOLDER",
                       help="where the program and the library are built (a folder that goes)")


def read(given: Sequence[str]) -> argparse.Namespace:
    """What the words of the command line ask for."""
    line = parser()
    asked = line.parse_args(given)
    if min(asked.rows, asked.columns) < asked.ranks:
        line.error("each side of the plate has at least as many cells as there are ranks")
    if any(kill.rank >= asked.ranks or kill.turn >= asked.turns for kill in asked.kill):
        line.error(f"--kill: ranks are below {asked.ranks} and turns below {asked.turns}")
    if asked.resume and not asked.dir:
        line.error("--resume goes on from --dir")
    return asked


def main(given: Sequence[str]) -> int:
    """Does what the words of the command line ask for, and answers the status."""
    asked = read(given)
    try:
        with folder_of(asked) as folder:
            return work(asked, folder)
    except (Failure, PlannerError) as failure:
        print(f"run_heat.py: {failure}", file=sys.stderr)
    except OSError as fault:
        file = f"{fault.filename}: " if fault.filename else ""
        print(f"run_heat.py: {file}{fault.strerror}", file=sys.stderr)
    except KeyboardInterrupt:
        goes_on = "; --resume goes on" if asked.dir else ""
        print(f"run_heat.py: interrupted{goes_on}", file=sys.stderr)
        return INTERRUPTED
    return FAILED


if __name__ == "__main__":
    sys.exit(main(sys.argv[1:]))
