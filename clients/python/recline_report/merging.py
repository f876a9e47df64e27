"""Files of notes, one of each process, made into one input of `recline collect`."""

from __future__ import annotations

import collections
import os
import subprocess
import tempfile
from collections.abc import Iterable, Iterator, Sequence
from typing import BinaryIO

from . import wire
from .wire import SERVICE, Recovery

REPORTS = (b"send", b"recv", b"check", b"mark")
# A process and an incarnation.
Key = tuple[bytes, bytes]


def _whole_lines(path: str | os.PathLike[str]) -> Iterator[bytes]:
    """The lines of a file, without one at its end that is cut off."""
    with open(path, "rb") as file:
        for line in file:
            if line.endswith(b"\n") and line != b"\n":
                yield line


def _key(line: bytes) -> Key | None:
    """Whose report a line is, and under which incarnation; none where it is no report."""
    fields = line.split(b",", 3)
    return (fields[1], fields[2]) if len(fields) > 3 and fields[0] in REPORTS else None


def merge(
    files: Iterable[str | os.PathLike[str]], out: BinaryIO,
    after: str | os.PathLike[str] | None = None, failed: Sequence[int] = (),
) -> None:
    """Writes one input of `recline collect` of the notes of many files, in any order.

    Each file has the notes of one process or of some, and begins with the same `reports` record. A
    last line that was cut off is left out. `after` is an input that was made before, up to a
    recovery: what it has of the files is not written again. With `failed` it ends with a recovery
    in which these processes failed. Raises `ValueError` where the files do not fit together.
    """
    first = b""
    known: collections.Counter[Key] = collections.Counter()
    if after is not None:
        for line in _whole_lines(after):
            first = first or line
            key = _key(line)
            if key:
                known[key] += 1
            out.write(line)
    for path in files:
        lines = _whole_lines(path)
        begun = next(lines, b"")
        if not begun:
            continue  # it was never begun
        if not first:
            first = begun
            out.write(first)
        if begun != first or not first.startswith(b"reports,"):
            raise ValueError(f"{os.fspath(path)}: it begins with {begun!r}, and not {first!r}")
        for line in lines:
            key = _key(line)
            if key is None:
                raise ValueError(f"{os.fspath(path)}: no note is {line[:80]!r}")
            if known[key]:
                known[key] -= 1
            else:
                out.write(line)
    if failed:
        out.write(",".join(["recover", *map(str, failed)]).encode() + b"\n")


def recoveries_from(
    reports: str | os.PathLike[str], command: Sequence[str] = SERVICE
) -> list[Recovery]:
    """Where each process goes on after an input that ends with a recovery.

    `command` is run on it. Give each process its item as the `start` of its `Reporter`.
    """
    with tempfile.TemporaryFile() as text, open(reports, "rb") as file:
        number = 0
        for line in file:
            number += line.startswith(b"recover")
            text.write(line)
        text.write(b"history\n")
        text.seek(0)
        ran = subprocess.run(command, stdin=text, stdout=subprocess.PIPE, check=False)
    *_, recovered, history, end = ran.stdout.split(b"\n\n")
    if end or not recovered.startswith(b"recovered,"):
        raise ValueError(f"{os.fspath(reports)}: it ends with no recovery: {recovered[:80]!r}")
    return wire.recoveries_of(number, recovered, history)
