"""The options of heat.py."""

import argparse
import pathlib
import shlex
from collections.abc import Callable

import kills
import rod

TOP = pathlib.Path(__file__).resolve().parent.parent.parent
PROGRAM, TRIAL = str(TOP / "recline"), str(TOP / "try")
ABOUT = """The heat of a rod, worked out by some worker processes, each with a stretch of its cells:
in each turn neighbours send each other their border cells, and each worker stores its cells as a
checkpoint when it likes. Workers are killed. `recline serve` is told what all of them do: it finds
the recovery line, and they go on from there. At the end the cells must have the same bits as those
of a run without failures, and those of a plain loop over the whole rod.

    examples/live/heat.py --kill 2@700
    examples/live/heat.py --kills 3 --seed 7 --rounds
    examples/live/heat.py --pause 0.05          (kill some by hand, from another shell)
"""
STATUSES = """The status is 0 where the cells have the bits that they must have, 1 where they do
not, 2 for a wrong command line, and 3 where the service, a worker or the journal fails."""
MOST_EVENTS = 1_000_000  # on the tape of one process
MOST_WORKERS = 64
EVERY, EVERY_ROUND = 2, 10
TAPE = 900_000
MOST_TURNS = 1_000_000_000


def number(least: int, most: int) -> Callable[[str], int]:
    """A reader of numbers in a range."""

    def read(text: str) -> int:
        if not (text.isascii() and text.isdigit()) or not least <= int(text[:12]) <= most:
            raise argparse.ArgumentTypeError(f"'{text}' is no number from {least:,} to {most:,}")
        return int(text)

    return read


def seconds(text: str) -> float:
    """A reader of seconds."""
    try:
        found = float(text)
    except ValueError:
        found = -1.0
    if not 0.0 <= found <= 60.0:
        raise argparse.ArgumentTypeError(f"'{text}' is no number of seconds from 0 to 60")
    return found


def parser() -> argparse.ArgumentParser:
    """All options."""
    line = argparse.ArgumentParser(
        prog="heat.py",
        description=ABOUT,
        epilog=STATUSES,
        formatter_class=argparse.RawDescriptionHelpFormatter,
        allow_abbrev=False,
        usage="examples/live/heat.py [OPTIONS]",
    )
    of_rod = line.add_argument_group("the computation")
    of_rod.add_argument(
        "--workers", type=number(2, MOST_WORKERS), default=4, metavar="N", help="how many (4)"
    )
    of_rod.add_argument(
        "--cells", type=number(2, 50_000), default=60, metavar="C", help="of the whole rod (60)"
    )
    of_rod.add_argument(
        "--turns", type=number(1, MOST_TURNS), default=1000, metavar="T", help="how many (1000)"
    )
    of_rod.add_argument(
        "--pause",
        type=seconds,
        default=0.0,
        metavar="S",
        help="seconds that each worker rests in each turn, so that one can be killed by hand (0)",
    )
    add_checkpoints(line.add_argument_group("checkpoints"))
    add_failures(line.add_argument_group("failures"))
    add_outside(line.add_argument_group("the service, and what is written"))
    return line


def add_checkpoints(group: argparse._ArgumentGroup) -> None:
    """When checkpoints are taken."""
    group.add_argument(
        "--every",
        type=number(1, MOST_EVENTS),
        metavar="E",
        help=f"a worker takes about one checkpoint in E turns, not together with others ({EVERY}); "
        f"with --rounds a round begins about each E turns ({EVERY_ROUND})",
    )
    group.add_argument(
        "--rounds",
        action="store_true",
        help="checkpoints by rounds of markers: nobody goes back to before a completed round",
    )


def add_failures(group: argparse._ArgumentGroup) -> None:
    """Who is killed."""
    group.add_argument(
        "--kill",
        type=kills.read_kill,
        action="append",
        default=[],
        metavar="W@T",
        help="kill worker W in turn T; 2,3@700 is both at once, and 2@700+1 kills worker 1 too "
        "while the recovery from that is under way; may be given again",
    )
    group.add_argument(
        "--kills",
        type=number(0, 10_000),
        default=0,
        metavar="K",
        help="K workers more at random, some two at once, some while a recovery is under way (0)",
    )
    group.add_argument(
        "--seed", type=number(0, 2**32), default=1, metavar="S", help="of what is random (1)"
    )


def add_outside(group: argparse._ArgumentGroup) -> None:
    """What is run, and what is written."""
    group.add_argument(
        "--journal",
        metavar="FILE",
        help="keep what the service is told in FILE, a script; where it is there, go on from it",
    )
    group.add_argument(
        "--tape",
        type=number(100, MOST_EVENTS),
        default=TAPE,
        metavar="E",
        help=f"with --rounds, begin a new world where a tape may have E events ({TAPE:,}); "
        "without, the turns have to fit on a tape",
    )
    group.add_argument(
        "--files",
        metavar="FOLDER",
        help="keep checkpoints in files, and delete those that no recovery goes back to any more",
    )
    group.add_argument("--picture", metavar="FILE", help="write the last recovery, drawn by ./draw")
    group.add_argument(
        "--result", metavar="FILE", help="write the cells, each to its last bit, one to a line"
    )
    group.add_argument(
        "--alone", action="store_true", help="leave out the run without failures at the end"
    )
    group.add_argument("--quiet", action="store_true", help="tell what came of it alone")
    group.add_argument(
        "--service",
        type=shlex.split,
        default=[PROGRAM, "serve"],
        metavar="COMMAND",
        help="the service (./recline serve)",
    )
    group.add_argument(
        "--program",
        default="",
        metavar="PATH",
        help="the program that ./explain and ./draw run (that of the service; else ./recline)",
    )


def program_of(service: list[str]) -> str:
    """The program that explains what a service did: its own, where it is called as ours is."""
    is_like_ours = len(service) == 2 and service[1] == "serve"
    return service[0] if is_like_ours else PROGRAM


def read(given: list[str]) -> argparse.Namespace:
    """What the words of the command line ask for."""
    line = parser()
    asked = line.parse_args(given)
    if not asked.service:
        line.error("--service: a command has a word at least")
    asked.program = asked.program or program_of(asked.service)
    if asked.every is None:
        asked.every = EVERY_ROUND if asked.rounds else EVERY
    stretch = -(-asked.cells // asked.workers)
    turns = MOST_TURNS if asked.rounds else MOST_EVENTS // (rod.STEPS + 2)
    killed = {worker for kill in asked.kill for worker in (*kill.workers, *kill.then)}
    if asked.cells < asked.workers:
        line.error(f"{asked.cells} cells are too few for {asked.workers} workers")
    if stretch > rod.MOST_CELLS:
        line.error(
            f"a worker would have {stretch} cells, and a checkpoint has room for {rod.MOST_CELLS}: "
            "--workers can be more"
        )
    if asked.turns > turns:
        line.error(f"--turns is at most {turns:,}, as a tape has room, or take --rounds")
    if any(worker >= asked.workers for worker in killed):
        line.error(f"--kill: the workers are numbered from 0 to {asked.workers - 1}")
    if any(kill.turn >= asked.turns for kill in asked.kill):
        line.error(f"--kill: the turns are numbered from 0 to {asked.turns - 1}")
    return asked
