#!/usr/bin/env python3
"""The heat of a rod, worked out by processes that are killed, and brought back by recline serve."""

import argparse
import os
import pathlib
import struct
import subprocess
import sys
import tempfile
from collections.abc import Sequence

sys.dont_write_bytecode = True  # leaves nothing beside the scripts
HERE = pathlib.Path(__file__).resolve().parent
sys.path.insert(0, str(HERE.parent.parent / "clients" / "python"))

import rod
import words
from files import Files
from kills import Kills, random_kills
from recline import Fault, JournalError, Refused, Service, ServiceEnded
from supervisor import Failure, Supervisor
from telling import Teller, counted

MOST_DEATHS = 3  # of the service one after another, without a further turn
FAILED = 3
INTERRUPTED = 130


def command_of(asked: argparse.Namespace, worker: int) -> Sequence[str]:
    """What starts a worker."""
    of_rod = [worker, asked.workers, asked.cells, asked.turns, asked.every, asked.pause]
    by_rounds = ["rounds"] if asked.rounds else []
    python = [sys.executable, "-S", "-E"]  # as little as a worker needs
    return [*python, str(HERE / "worker.py"), *(str(it) for it in of_rod), *by_rounds]


def cells_by_workers(
    asked: argparse.Namespace, journal: str, kills: Kills, teller: Teller, files: Files | None
) -> list[float]:
    """The rod at the end, as workers work it out."""
    # What changes nothing need not stand in the journal.
    with Service(
        asked.service, processes=asked.workers, journal=journal, keep_questions=False
    ) as service:
        if service.replayed > 1:
            records = counted(service.replayed, "record")
            teller.tell(f"the journal has {records}: all workers go on from their line")
        supervisor = Supervisor(
            service,
            lambda worker: command_of(asked, worker),
            rod.turn_of,
            teller,
            kills,
            asked.rounds,
            asked.tape,
        )
        supervisor.files = files
        states = supervisor.run()
    stretches = [rod.restored(state) for state in states]
    for worker, stretch in enumerate(stretches):
        if stretch.turn != asked.turns:
            raise Failure(f"worker {worker} is in turn {stretch.turn} of {asked.turns}")
    return [cell for stretch in stretches for cell in stretch.cells]


def cells_with_failures(
    asked: argparse.Namespace, journal: str, kills: Kills, teller: Teller,
    files: Files | None = None,
) -> list[float]:
    """The rod at the end, of workers that are killed. Where the service is, it is started again."""
    furthest, deaths = -1, 0
    while True:
        try:
            cells = cells_by_workers(asked, journal, kills, teller, files)
        except ServiceEnded as ended:
            deaths = 1 if teller.furthest > furthest else deaths + 1
            furthest = teller.furthest
            if ended.status is None or ended.status >= 0 or deaths > MOST_DEATHS:
                raise
            teller.tell(f"the service is killed, by signal {-ended.status}, and is started again")
        else:
            for kill in kills.left:
                teller.missed(kill.workers[0])
            return cells


def bits(cells: Sequence[float]) -> bytes:
    """All bits of some cells."""
    return struct.pack(f"<{len(cells)}d", *cells)


def is_same(cells: Sequence[float], others: Sequence[float], whose: str) -> bool:
    """Whether cells have the same bits as others; tells the first that has not."""
    for at, (one, other) in enumerate(zip(cells, others, strict=True)):
        if bits([one]) != bits([other]):
            print(f"cell {at} is {one.hex()}, and {other.hex()} in {whose}")
            return False
    return True


def judge(asked: argparse.Namespace, cells: Sequence[float]) -> bool:
    """Whether the cells have the bits that they must have."""
    is_good = is_same(cells, rod.plain_loop(asked.cells, asked.turns), "a plain loop")
    if not asked.alone:
        quiet = Teller("", "", asked.turns, True, "without failures: ")
        with tempfile.TemporaryDirectory(prefix="recline-heat-") as folder:
            others = cells_with_failures(asked, f"{folder}/journal", Kills([]), quiet)
        quiet.progress.wipe()
        is_good = is_same(cells, others, "a run without failures") and is_good
    return is_good


def tell_end(asked: argparse.Namespace, teller: Teller, is_good: bool) -> None:
    """The last lines."""
    rounds = f", {counted(teller.rounds, 'completed round')}" if asked.rounds else ""
    print(
        f"{counted(asked.turns, 'turn')} of {counted(asked.workers, 'worker')}: "
        f"{counted(teller.killed, 'kill')}, "
        f"{counted(teller.recoveries, 'recovery', 'recoveries')}, "
        f"{counted(teller.turns_again, 'turn')} done again{rounds}"
    )
    if is_good:
        others = "" if asked.alone else "of a run without failures and "
        print(f"the cells have the same bits as those {others}of a plain loop over the whole rod")


def work(asked: argparse.Namespace, journal: str) -> int:
    """All that is asked for; answers the status."""
    teller = Teller(journal, asked.program, asked.turns, asked.quiet)
    files = Files(asked.files) if asked.files else None
    planned = asked.kill + random_kills(asked.kills, asked.workers, asked.turns, asked.seed)
    try:
        cells = cells_with_failures(asked, journal, Kills(planned), teller, files)
    finally:
        teller.progress.wipe()
    if files:
        told = f"{counted(files.written, 'checkpoint')} in files, of which {files.deleted} were "
        teller.tell(f"{told}deleted, since no recovery goes back to them any more")
    if asked.picture:
        teller.draw(asked.picture)
    if asked.result:
        text = "".join(f"{cell.hex()}\n" for cell in cells)
        pathlib.Path(asked.result).write_text(text, encoding="ascii")
    is_good = judge(asked, cells)
    tell_end(asked, teller, is_good)
    return 0 if is_good else 1


def look_at_files(asked: argparse.Namespace) -> None:
    """Sees that the files that are written at the end can be, before the workers begin."""
    wanted: list[str] = [path for path in (asked.picture, asked.result) if path]
    for path in wanted:
        file = pathlib.Path(path)
        if file.is_dir() or not os.access(file if file.exists() else file.parent, os.W_OK):
            raise Failure(f"{path}: cannot be written")


def build(asked: argparse.Namespace) -> None:
    """Has ./recline or ./try built where it is needed and is not there: that takes long."""
    needed = [asked.service[0], *([] if asked.quiet and not asked.picture else [asked.program])]
    ours = {str(pathlib.Path(word).resolve()): word for word in needed}
    for program in ours.keys() & {words.PROGRAM, words.TRIAL}:
        script = b"world,1,1,fifo\n"
        ran = subprocess.run([program, "run"], input=script, stdout=subprocess.DEVNULL, check=False)
        if ran.returncode:
            raise Failure(f"{ours[program]} does not run")


def main(given: list[str]) -> int:
    """Does what the words of the command line ask for, and answers the status."""
    asked = words.read(given)
    try:
        look_at_files(asked)
        build(asked)
        if asked.journal:
            return work(asked, asked.journal)
        with tempfile.TemporaryDirectory(prefix="recline-heat-") as folder:
            return work(asked, f"{folder}/journal")
    except ServiceEnded as ended:
        print(f"heat.py: {ended}", file=sys.stderr)
    except (Refused, Fault) as answer:
        print(f"heat.py: the service answers: {answer}", file=sys.stderr)
    except (Failure, JournalError) as failure:
        print(f"heat.py: {failure}", file=sys.stderr)
    except OSError as fault:
        file = f"{fault.filename}: " if fault.filename else ""
        print(f"heat.py: {file}{fault.strerror}", file=sys.stderr)
    except KeyboardInterrupt:
        goes_on = "; the same command goes on from its journal" if asked.journal else ""
        print(f"heat.py: interrupted{goes_on}", file=sys.stderr)
        return INTERRUPTED
    return FAILED


if __name__ == "__main__":
    sys.exit(main(sys.argv[1:]))
