"""The crates of the repository, and rooms in which one of them is proved beside others.

`rt` lets one run at a time work in a crate and in the crates below it. So whoever proves several
crates that stand on the same ones, side by side, gives each run a room: a folder with the crate and
what it stands on, its files linked and not copied where the file system allows that.
"""

import os
import pathlib
import re
import shutil
import subprocess
import tempfile
from collections.abc import Iterable, Sequence

ROOT = pathlib.Path(__file__).resolve().parent.parent
# What a check takes at most, so that only as many run at once as there is memory for.
BYTES_A_CHECK = 3_000_000_000
# A path, or the text of one.
Path = str | os.PathLike[str]
# Of each crate those that it stands on.
Below = dict[str, list[str]]
# What `run` has started and waits for.
RUNNING: "set[subprocess.Popen[bytes]]" = set()


def listed() -> Below:
    """Of each crate of the repository all libraries that it uses, those of the toolchain too."""
    found = {}
    for line in (ROOT / "crates.txt").read_text().splitlines():
        name, colon, below = line.partition("#")[0].partition(":")
        if colon:
            found[name.strip()] = below.split()
    return found


def stands_on() -> Below:
    """Of each crate of the repository the crates of the repository that it stands on."""
    found = listed()
    return {name: [it for it in below if it in found] for name, below in found.items()}


def needed(tops: Iterable[str], below: Below) -> list[str]:
    """The crates `tops` and all that they stand on, each after those that it stands on."""
    order: list[str] = []

    def visit(name: str) -> None:
        for it in below[name]:
            visit(it)
        if name not in order:
            order.append(name)

    for name in tops:
        visit(name)
    return order


def weight(name: str) -> int:
    """A measure of what proving a crate takes: its lines of code, definitions and proofs."""
    folder = ROOT / "crates" / name
    files = [
        it
        for part in ("src", "specs", "proofs")
        for it in (folder / part).rglob("*")
        if it.is_file()
    ]
    return sum(it.read_bytes().count(b"\n") for it in files)


def chains(order: Sequence[str], below: Below) -> dict[str, int]:
    """Of each crate the weight of the heaviest chain that begins with it and waits for it."""
    found: dict[str, int] = {}
    for name in reversed(order):
        found[name] = weight(name) + max(
            (found[it] for it in order if name in below[it]), default=0
        )
    return found


def lanes() -> int:
    """How many checks may run at once: one for each processor, where there is memory for it."""
    free = re.search(r"MemAvailable:\s+(\d+)", pathlib.Path("/proc/meminfo").read_text())
    room = int(free[1]) * 1024 // BYTES_A_CHECK if free else 1
    return max(1, min(len(os.sched_getaffinity(0)), room))


def link(source: Path, target: Path) -> None:
    """A second name for a file; where the file system has none to give, a copy."""
    try:
        os.link(source, target)
    except OSError:
        shutil.copy2(source, target)


def link_folder(source: Path, target: Path) -> None:
    """A folder with second names for all files of another, if there is one."""
    if pathlib.Path(source).is_dir():
        shutil.copytree(source, target, copy_function=link)


def new_folder(prefix: str) -> tempfile.TemporaryDirectory[str]:
    """A new folder that goes with its `with`: in .git if there is one, where files are linked."""
    inside = ROOT / ".git"
    return tempfile.TemporaryDirectory(prefix=prefix, dir=inside if inside.is_dir() else None)


def make_room(room: Path, top: Path, name: str, below: Below) -> pathlib.Path:
    """Fills the folder `room` with the crate and what it stands on, and answers the crate's folder.

    They come from the tree at `top`, with what earlier runs proved.
    """
    room, top = pathlib.Path(room), pathlib.Path(top)
    crates = needed([name], below)
    lines = (top / "crates.txt").read_text().splitlines()
    (room / "crates").mkdir()
    (room / "crates.txt").write_text(
        "".join(f"{it}\n" for it in lines if it.partition(":")[0].strip() in crates)
    )
    for it in crates:
        for part in ("src", "specs", "proofs"):
            link_folder(top / "crates" / it / part, room / "crates" / it / part)
        # Of those below, what was built is enough.
        link_folder(top / "crates" / it / "out" / "rlib", room / "crates" / it / "out" / "rlib")
    for part in ("stdin", "stdout", "args", "status"):
        if (top / "crates" / name / part).is_file():
            link(top / "crates" / name / part, room / "crates" / name / part)
    link_folder(
        top / "crates" / name / "out" / "incremental",
        room / "crates" / name / "out" / "incremental",
    )
    return room / "crates" / name


def run(words: Sequence[Path], folder: Path, log: Path) -> int:
    """Runs a command in a folder, what it says goes to the file `log`; answers its status."""
    with open(log, "wb") as out:
        process = subprocess.Popen(
            words,
            cwd=folder,
            stdin=subprocess.DEVNULL,
            stdout=out,
            stderr=subprocess.STDOUT,
        )
        RUNNING.add(process)
        try:
            return process.wait()
        finally:
            RUNNING.discard(process)


def end_all() -> None:
    """Ends what `run` has started and waits for, as an interrupt of this program does."""
    for process in list(RUNNING):
        process.terminate()


def put_out(made: Path, home: Path) -> None:
    """Puts what was proved and built in a room where it belongs, in place of what was there."""
    shutil.rmtree(home, ignore_errors=True)
    pathlib.Path(home).parent.mkdir(parents=True, exist_ok=True)
    shutil.move(made, home)


def is_one_file(one: pathlib.Path, other: pathlib.Path) -> bool:
    """Whether two names are there, and are names of one file."""
    return one.is_file() and other.is_file() and one.samefile(other)


def build_in(top: Path, name: str, jobs: int, below: Below, log: Path) -> bool:
    """Proves and builds a crate of the tree at `top` in a room of its own, and keeps what was made.

    It answers whether the crate is proved. One that is proved already costs a look at its files,
    and a library that is stays where it is, since others may be reading it.
    """
    home = pathlib.Path(top) / "crates" / name / "out"
    with new_folder("recline-room-") as room:
        crate = make_room(room, top, name, below)
        is_program = (crate / "src" / "main.rt").is_file()
        words = (
            ["rt", "run", "--jobs", str(jobs), "--", "--help"]
            if is_program
            else ["rt", "lib", "--jobs", str(jobs)]
        )
        if run(words, crate, log):
            return False
        if not is_one_file(crate / "out" / "rlib" / "stamp", home / "rlib" / "stamp"):
            put_out(crate / "out", home)
    return True


def build(name: str, jobs: int, below: Below, log: Path) -> bool:
    """Proves and builds a crate of this tree in a room of its own; answers whether it is proved."""
    return build_in(ROOT, name, jobs, below, log)
