"""Proves the crates of a program over the statements of those below, and builds the program.

What `rt` proves it keeps beside the crate, so that the check after an edit begins with it, and the
libraries that it builds hold their proofs, which each crate above reads. For a program that is only
wanted that is in vain. Here a library holds what others can cite of it and no more, as in `rt ci`,
and nothing is kept but these libraries and the program.
"""

import pathlib
import signal
import subprocess
from collections.abc import Iterable, Iterator

import workspace

TARGET = "x86_64-unknown-linux-gnu"
PARTS = ("src", "specs", "proofs")


def kit() -> pathlib.Path:
    """The folder of the toolchain: `rt doc` prints a page in it."""
    page = subprocess.run(["rt", "doc"], check=True, capture_output=True, text=True).stdout
    return pathlib.Path(page.strip()).parent


def folder_of(name: str) -> pathlib.Path:
    """The folder of a crate."""
    return workspace.ROOT / "crates" / name


def is_program(name: str) -> bool:
    """Whether a crate is a program."""
    return (folder_of(name) / "src" / "main.rt").is_file()


def made_of(name: str) -> pathlib.Path:
    """Where the program is put, or the library with its statements alone."""
    out = folder_of(name) / "out"
    return out / name if is_program(name) else out / "statements" / f"{name}.rlib"


def files_of(name: str) -> Iterator[pathlib.Path]:
    """The files that a crate is proved from."""
    for part in PARTS:
        yield from (it for it in (folder_of(name) / part).rglob("*") if it.is_file())


def age_of(made: pathlib.Path) -> float:
    """When a program or library was made; 0 where there is none."""
    file = made / "format" if made.suffix == ".rlib" else made
    return file.stat().st_mtime if file.is_file() else 0.0


def is_made(name: str, below: workspace.Below) -> bool:
    """Whether what a crate makes is there, and newer than its files and the libraries below."""
    age = age_of(made_of(name))
    low = workspace.needed(below[name], below)
    return (
        age > 0
        and all(it.stat().st_mtime <= age for it in files_of(name))
        and all(0 < age_of(made_of(it)) <= age for it in low)
    )


def words_over(
    name: str, root: str, jobs: int, of_kit: Iterable[str], low: list[str], below: workspace.Below
) -> list[str]:
    """The command that proves a crate over the statements of the crates `low`, without its end."""
    tools = kit()
    words = [f"{tools}/bin/rattle", "build", "--crate-name", name, f"src/{root}"]
    for it in ("std", *of_kit):
        words += ["--extern", f"{it}={tools}/rlibs/{it}.rlib"]
    words += ["-L", f"dependency={tools}/rlibs"]
    for it in low:
        words += ["--extern", f"{it}={made_of(it)}"]
    for it in workspace.needed(low, below):
        words += ["-L", f"dependency={made_of(it).parent}"]
    words += ["--antt-project", f"{tools}/rattle/logic/antt-project.json"]
    words += ["--logic-built", f"{tools}/logic_built", "--jobs", str(jobs)]
    return [*words, "--links", f"{name}="]


def words_for_object(name: str) -> list[str]:
    """The end of that command for a program: it writes an object file."""
    return ["--toolchain", f"{kit()}/toolchain", "--backend", "llvm", "-o", f"out/{name}.o"]


def words_to_build(name: str, jobs: int, below: workspace.Below) -> list[str]:
    """The command that proves a crate and writes its library or its object file."""
    of_kit = [it for it in workspace.listed()[name] if it not in below]
    root = "main.rt" if is_program(name) else "lib.rt"
    words = words_over(name, root, jobs, of_kit, below[name], below)
    if not is_program(name):
        return [*words, "--statements", "-o", str(made_of(name))]
    return [*words, *words_for_object(name)]


def words_to_link(name: str) -> list[str]:
    """The command that makes a program of its object file."""
    tools = kit()
    words = [f"{tools}/bin/rattle-link", "--target", TARGET, "--toolchain", f"{tools}/toolchain"]
    c_code = [f"{tools}/c/libos_c.a", f"{tools}/c/liblibc_c.a"]
    return [*words, "-o", f"out/{name}", f"out/{name}.o", *c_code]


def build(name: str, jobs: int, below: workspace.Below, log: workspace.Path) -> bool:
    """Proves a crate and makes its library or program, where it is not made yet.

    What is said goes to the file `log`. It answers whether the crate is proved.
    """
    if is_made(name, below):
        return True
    folder = folder_of(name)
    made_of(name).parent.mkdir(parents=True, exist_ok=True)
    status = workspace.run(words_to_build(name, jobs, below), folder, log)
    if status == -signal.SIGKILL and jobs > 1:
        # It was killed, most likely since memory was short.
        status = workspace.run(words_to_build(name, 1, below), folder, log)
    if status == 0 and is_program(name):
        status = workspace.run(words_to_link(name), folder, log)
    return status == 0


def build_over(
    crate: pathlib.Path, low: list[str], of_kit: Iterable[str], jobs: int, log: workspace.Path
) -> bool:
    """Proves and builds a program that is no crate of the repository over the crates `low`.

    What is proved is kept in its folder `out`, and not proved again. It answers whether all is.
    """
    words = words_over(crate.name, "main.rt", jobs, of_kit, low, workspace.stands_on())
    (crate / "out").mkdir(exist_ok=True)
    words += ["--incremental", "out/incremental", *words_for_object(crate.name)]
    if workspace.run(words, crate, log):
        return False
    return workspace.run(words_to_link(crate.name), crate, log) == 0
