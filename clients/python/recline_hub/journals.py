"""What a hub keeps in files: the notes and recoveries in their order, and who reports."""

from __future__ import annotations

import collections
import fcntl
import os
from collections.abc import Iterator
from typing import NamedTuple

from recline_report import wire

PIECE = 1 << 16


class JournalError(Exception):
    """The journal is no journal of these processes, or another hub has it. It is as it was."""


class Span(NamedTuple):
    """The bytes of a line of the journal, its line feed included."""
    start: int
    end: int


class File:
    """A file that grows, in one program's hands. What was half written at its end is cut off."""

    def __init__(self, path: str) -> None:
        self.path = path
        self._file = os.open(path, os.O_RDWR | os.O_CREAT | os.O_CLOEXEC, 0o600)
        try:
            fcntl.flock(self._file, fcntl.LOCK_EX | fcntl.LOCK_NB)
        except BlockingIOError:
            self.close()
            raise JournalError(f"{path}: another hub has it") from None
        self.end = os.fstat(self._file).st_size

    def lines(self) -> Iterator[tuple[Span, bytes]]:
        """Each whole line without its line feed, and where it stands."""
        place = 0
        with open(os.dup(self._file), "rb") as file:
            file.seek(0)
            for line in file:
                if line.endswith(b"\n"):
                    yield Span(place, place + len(line)), line[:-1]
                    place += len(line)

    def cut(self, end: int) -> None:
        """Cuts off what stands after this place."""
        os.ftruncate(self._file, end)
        self.end = end

    def append(self, text: bytes) -> None:
        """Adds these bytes; where that fails, nothing is added."""
        rest, place = memoryview(text), self.end
        try:
            while rest:
                written = os.pwrite(self._file, rest, place)
                rest, place = rest[written:], place + written
        except BaseException:
            os.ftruncate(self._file, self.end)
            raise
        self.end = place

    def read(self, place: int, most: int) -> bytes:
        """What stands at a place, so many bytes where there are."""
        return os.pread(self._file, most, place)

    def sync(self) -> None:
        """Has what was added survive a loss of power."""
        os.fsync(self._file)

    def close(self) -> None:
        """Lets the file go."""
        os.close(self._file)


class Journal(File):
    """The notes and recoveries as they came: an input of `recline collect`."""

    def __init__(self, path: str, processes: int) -> None:
        super().__init__(path)
        # How many notes there are of a process and an incarnation, and where recoveries stand.
        self.counts: collections.Counter[tuple[int, int]] = collections.Counter()
        self.recoveries: list[Span] = []
        try:
            self._open(wire.first_line(processes).encode())
        except BaseException:
            self.close()
            raise

    def _open(self, first: bytes) -> None:
        """Reads what there is, or writes the first line."""
        end = 0
        for span, line in self.lines():
            if span.start == 0 and line != first:
                raise JournalError(f"{self.path}: it begins with {line[:80]!r}, and not {first!r}")
            if not line or line.endswith(b"\r"):
                raise JournalError(f"{self.path}: byte {span.start}: a line that no hub writes")
            end = span.end
            if line.startswith(b"recover"):
                self.recoveries.append(span)
            elif line.startswith((b"send,", b"recv,", b"check,", b"mark,")):
                _, p, incarnation, _ = line.split(b",", 3)
                self.counts[int(p), int(incarnation)] += 1
        if not end and not (first + b"\n").startswith(self.read(0, PIECE)):
            raise JournalError(f"{self.path}: it is no journal of a hub")
        self.cut(end)
        if not end:
            self.append(first + b"\n")

    def append_recovery(self, failed: list[int]) -> None:
        """Adds a recovery in which these failed."""
        start = self.end
        self.append(",".join(["recover", *map(str, failed)]).encode() + b"\n")
        self.recoveries.append(Span(start, self.end))

    def take_off_recovery(self) -> bool:
        """Takes a recovery off again that was refused, where nothing was added since."""
        is_last = self.recoveries[-1].end == self.end
        if is_last:
            self.cut(self.recoveries.pop().start)
        return is_last


class Life(NamedTuple):
    """Who reports for a process: a life that has begun, and nobody after it was lost."""
    life: str | None
    recoveries: int  # that there were then
    is_ended: bool


class Lives(File):
    """Which life of each process has reported: a file beside the journal.

    With the journal alone a program that was started again could not be told from the one before.
    """

    def __init__(self, path: str) -> None:
        super().__init__(path)
        self.last: dict[int, Life] = {}
        end = 0
        for span, line in self.lines():
            kind, p, life, recoveries = line.decode("ascii").split(",")
            known = None if kind == "lost" else life
            self.last[int(p)] = Life(known, int(recoveries), kind == "ended")
            end = span.end
        self.cut(end)

    def add(self, kind: str, process: int, life: str | None, recoveries: int) -> None:
        """Adds that a life has begun, was lost or has ended."""
        self.append(f"{kind},{process},{life or wire.NONE},{recoveries}\n".encode())
        known = None if kind == "lost" else life
        self.last[process] = Life(known, recoveries, kind == "ended")
