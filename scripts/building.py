"""Crates that are proved and built side by side, and the programs of `bench` that stand on them."""

import contextlib
import fcntl
import pathlib
import shutil
import subprocess
import sys
import tempfile
import time
from collections.abc import Callable, Iterator, Sequence
from concurrent.futures import FIRST_COMPLETED, Future, ThreadPoolExecutor, wait

import statements
import workspace

SECONDS_OF_SILENCE = 60
# The libraries of the toolchain that a program of `bench` uses, besides std.
OF_KIT = ["anyhow"]
# Proves and builds a crate by so many jobs, over those below it, what is said goes to a file;
# answers whether it is proved.
Build = Callable[[str, int, workspace.Below, workspace.Path], bool]


class Progress:
    """What is done and what is under way, and how it is told."""

    def __init__(self, order: list[str]) -> None:
        self.started = time.monotonic()
        self.order = order
        self.done: set[str] = set()
        self.running: dict[Future[bool], str] = {}

    def tell(self, what: str) -> None:
        """One line on standard error, with the minutes so far."""
        minutes = int(time.monotonic() - self.started) // 60
        print(f"recline: building: {what}; {minutes} min so far", file=sys.stderr, flush=True)

    def tell_state(self) -> None:
        """Which crate of how many."""
        now = ", ".join(sorted(self.running.values()))
        self.tell(f"{len(self.done)} of {len(self.order)} crates" + (f", now {now}" if now else ""))

    def ready(self, below: workspace.Below) -> list[str]:
        """The crates that nothing is waited for any more."""
        busy = set(self.running.values())
        left = [it for it in self.order if it not in self.done and it not in busy]
        return [it for it in left if all(low in self.done for low in below[it])]


def share(at_once: int, under_way: int, is_heaviest: bool) -> int:
    """How many jobs a crate starts with, where so many run or may start, itself among them.

    A running one cannot be given more later, so this is no less than its part of all processors.
    """
    return at_once if is_heaviest else -(-at_once // under_way)


@contextlib.contextmanager
def alone() -> Iterator[None]:
    """Waits until no other script builds crates of this tree, where that can be told."""
    inside = workspace.ROOT / ".git"
    if not inside.is_dir():
        yield
        return
    with (inside / "recline-building").open("w", encoding="utf-8") as lock:
        fcntl.flock(lock, fcntl.LOCK_EX)
        yield


def build_each(
    below: workspace.Below, progress: Progress, pool: ThreadPoolExecutor, at_once: int, logs: str,
    build: Build,
) -> bool:
    """Builds the crates, so many at once; answers whether all are proved."""
    order = progress.order
    chain = workspace.chains(order, below)
    while len(progress.done) < len(order):
        heaviest = max(chain[it] for it in order if it not in progress.done)
        ready = sorted(progress.ready(below), key=lambda it: -chain[it])
        under_way = len(progress.running) + len(ready)
        for name in ready[: at_once - len(progress.running)]:
            jobs = share(at_once, under_way, chain[name] == heaviest)
            words = (name, jobs, below, f"{logs}/{name}")
            progress.running[pool.submit(build, *words)] = name
        ended, _ = wait(
            progress.running, timeout=SECONDS_OF_SILENCE, return_when=FIRST_COMPLETED
        )
        for it in ended:
            name = progress.running.pop(it)
            if not it.result():
                said = pathlib.Path(f"{logs}/{name}").read_text(errors="replace")
                sys.stderr.write(said)
                progress.tell(f"{name} could not be proved or built")
                return False
            progress.done.add(name)
        progress.tell_state()
    return True


def build_all(
    below: workspace.Below, order: list[str], at_once: int, what: str, build: Build
) -> bool:
    """Builds the crates in `order`, and says first what is done; answers whether all are proved."""
    progress = Progress(order)
    progress.tell(what)
    with (
        alone(),
        tempfile.TemporaryDirectory(prefix="recline-logs-") as logs,
        ThreadPoolExecutor(at_once) as pool,
    ):
        try:
            is_proved = build_each(below, progress, pool, at_once, logs, build)
        except KeyboardInterrupt:
            pool.shutdown(wait=False, cancel_futures=True)
            workspace.end_all()
            raise
    return is_proved


def is_built(program: pathlib.Path) -> bool:
    """Whether a program is there, and no file of code of the repository is newer."""
    try:
        since = program.stat().st_mtime
    except FileNotFoundError:
        return False
    return all(it.stat().st_mtime <= since for it in workspace.ROOT.glob("crates/*/src/**/*.rt"))


def build_program(name: str) -> pathlib.Path:
    """Proves and builds a program of the repository, where it is not built from the code as it is.

    Answers where the program is. One that is not proved ends all.
    """
    program = workspace.ROOT / "crates" / name / "out" / name
    if not is_built(program):
        below = workspace.stands_on()
        order = workspace.needed([name], below)
        what = f"proving the {len(order)} crates of {name}, where they are not proved yet"
        if not build_all(below, order, workspace.lanes(), what, statements.build):
            sys.exit(1)
        program.touch()
    return program


def copy_text(source: pathlib.Path, target: pathlib.Path) -> None:
    """Writes a file with the text of another."""
    target.parent.mkdir(parents=True, exist_ok=True)
    target.write_text(source.read_text(encoding="utf-8"), encoding="utf-8")


def make_bench(room: pathlib.Path, name: str, low: list[str]) -> pathlib.Path:
    """Makes a program of `bench` a crate of a room over the crates `low`; answers its folder.

    Its files have the ends .rattle and .proof, since it is no crate of the repository.
    """
    top = workspace.ROOT / "bench" / name
    crate = workspace.make_room(room, workspace.ROOT, name, {**workspace.stands_on(), name: low})
    with (room / "crates.txt").open("a", encoding="utf-8") as crates:
        crates.write(f"{name}: {' '.join([*low, *OF_KIT])}\n")
    copy_text(workspace.ROOT / "HANDLES", room / "HANDLES")
    for file in top.rglob("*.rattle"):
        copy_text(file, crate / "src" / file.relative_to(top).with_suffix(".rt"))
    for file in (top / "proofs").rglob("*.proof"):
        copy_text(file, crate / file.relative_to(top).with_suffix(".antt"))
    for part in ("specs", "proofs"):
        (crate / part).mkdir(parents=True, exist_ok=True)
        if not (crate / part / "Lib.antt").exists():
            (crate / part / "Lib.antt").write_text("", encoding="utf-8")
    return crate


def build_of(order: list[str], below: workspace.Below) -> Build:
    """How these crates are built: as most of the work is done already, else over statements.

    `./recline` and `./test` leave statements, and `scripts/build_program --for-changes` libraries
    of `rt`.
    """
    if all(statements.is_made(it, below) for it in order):
        return statements.build
    stamps = [workspace.ROOT / "crates" / it / "out" / "rlib" / "stamp" for it in order]
    return workspace.build if all(it.is_file() for it in stamps) else statements.build


def build_bench(
    room: pathlib.Path, name: str, low: list[str], words: Sequence[str]
) -> pathlib.Path:
    """Proves and builds a program of `bench` over the crates `low`, and answers where it is.

    The crates are built where they belong, so that the next program finds them. What is proved of
    this one is kept in .git, if there is one, and not proved again. Over libraries of `rt` it is
    run with these words. One that is not proved ends all.
    """
    below = workspace.stands_on()
    order = workspace.needed(low, below)
    build = build_of(order, below)
    what = f"proving the {len(order)} crates below bench/{name}, where they are not proved yet"
    if not build_all(below, order, workspace.lanes(), what, build):
        sys.exit(1)
    crate = make_bench(room, name, low)
    kept = workspace.ROOT / ".git" / "recline-bench" / name
    with alone():
        workspace.link_folder(kept, crate / "out")
    log = room / "log"
    if build is statements.build:
        is_built = statements.build_over(crate, low, OF_KIT, workspace.lanes(), log)
    else:
        is_built = not workspace.run(["rt", "run", "--", *words], crate, log)
    if not is_built:
        sys.exit(log.read_text(errors="replace")[-4000:])
    program = room / name
    workspace.link(crate / "out" / name, program)
    if kept.parent.parent.is_dir():
        with alone():
            workspace.put_out(crate / "out", kept)
    return program


def build_plain(room: pathlib.Path, source: pathlib.Path, *options: str) -> pathlib.Path | None:
    """Builds a program in plain Rust; answers where it is, or none where there is no rustc."""
    if not shutil.which("rustc"):
        return None
    program = room / source.stem
    words = ["rustc", "--edition", "2021", *options, "-o", str(program), str(source)]
    subprocess.run(words, check=True)
    return program
