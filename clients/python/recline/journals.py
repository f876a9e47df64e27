"""The journal: a script that each record is appended to before it is sent."""

from __future__ import annotations

import contextlib
import fcntl
import os
import threading
from collections.abc import Iterator, Sequence
from typing import Any, NamedTuple

from .errors import JournalError
from .records import COMMANDS, MOST_LINE, Answer, text_of
from .renewals import FIRST_OF_SAVED
from .sums import Sums, changes, path_of, sum_of

_PIECE = 65_536  # bytes that are read at once


class Sync(NamedTuple):
    """How often a journal is synced to its device.

    That is before a record is sent with which `records` of them are not synced; and with `seconds`
    within that time of the first one that is not, by a thread, whatever is called meanwhile.
    """

    records: int = 1
    seconds: float | None = None


def sync_of(durable: bool | Sync) -> Sync | None:
    """What is asked for."""
    if isinstance(durable, Sync):
        if durable.records < 1 or durable.seconds is not None and durable.seconds <= 0:
            raise ValueError(f"{durable}: records are at least 1, and seconds more than 0")
        return durable
    return Sync() if durable else None


def next_journal(path: str) -> str:
    """Where a new journal is written; what stands there, of a program that was killed, goes."""
    found = f"{path}.next"
    for file in (path_of(found), found):
        with contextlib.suppress(FileNotFoundError):
            os.remove(file)
    return found


def finish_move(path: str) -> None:
    """Puts checksums into their place whose journal was put there by a program that was killed."""
    found = f"{path}.next"
    if not os.path.exists(found) and os.path.exists(path_of(found)):
        os.replace(path_of(found), path_of(path))


def put_at(opened: int, text: bytes, place: int) -> None:
    """Writes all of it at a place of an open file."""
    rest = memoryview(text)
    while rest:
        written = os.pwrite(opened, rest, place)
        rest, place = rest[written:], place + written


def is_at(opened: int, path: str) -> bool:
    """Whether an open file is the one that has this path, in whose place none was put since."""
    try:
        return os.path.samestat(os.fstat(opened), os.stat(path))
    except FileNotFoundError:
        return False


class Journal:
    """A journal in one client's hands."""

    def __init__(self, path: str | os.PathLike[str], world: str, durable: bool | Sync) -> None:
        self.path, self._sync = os.fspath(path), sync_of(durable)
        self._lock = threading.RLock()
        self._unsynced = 0  # records
        self._timer: threading.Timer | None = None
        self._failed: OSError | None = None  # what the timer's sync came to
        self._sums: Sums | None = None
        opened = os.open(path, os.O_RDWR | os.O_CREAT, 0o666)
        self._file = open(opened, "r+b", buffering=0)
        try:
            fcntl.flock(opened, fcntl.LOCK_EX | fcntl.LOCK_NB)
            if not is_at(opened, self.path):
                raise BlockingIOError
            finish_move(self.path)
            self._end = self._whole = os.fstat(opened).st_size  # bytes, and those of whole lines
            self.is_new = self._is_new(world)
            if self._sync or os.path.exists(path_of(self.path)):
                self._open_sums()
            if self._sync and self.is_new:
                self._sync_folder()
        except BlockingIOError:
            self.close()
            raise JournalError(f"{self.path}: another client has this journal") from None
        except BaseException:
            self.close()
            raise

    def _is_new(self, world: str) -> bool:
        """Whether there is no record yet. The first one has to be this world, or a part of it."""
        found = (line.removesuffix("\r") for _, line in self.lines())
        first = next((line for line in found if line), None)
        if first is None:
            first = os.pread(self._file.fileno(), _PIECE, 0).strip(b"\r\n").decode("latin-1")
            if world.startswith(first):
                return True
        else:
            kind, *rest = first.split(",")
            numbers = [field.lstrip("0") for field in rest]
            of_world = world.split(",")[2:]
            if [kind, *numbers[1:]] == ["world", *of_world]:
                return False
            if [kind, *numbers[1:], "fifo"] == [FIRST_OF_SAVED, *of_world]:
                return False
        told = f"{self.path}: it begins with {first[:80]!r}, and not with {world!r}"
        raise JournalError(told, first)

    def _open_sums(self) -> None:
        """Opens the checksums, compares the records with them, and adds those that are missing."""
        self._sums = sums = Sums(self.path)
        if self.is_new:  # what is told of an older journal in this place is of no use
            sums.known = []
            os.truncate(sums.path, 0)
            sums._end = 0
        for change in changes(sums.known, self._file.fileno()):
            number, record = self.number(change.place), change.found.decode("latin-1").strip()
            told = f"{self.path}: record {number}, at byte {change.place}, is not as it was written"
            raise JournalError(f"{told}: {record[:80]!r}", record)
        known = sums.known_to()
        sums.begin()
        for place, line in self.lines():
            if place >= known and line:
                sums.add(sum_of(place, f"{line}\n".encode("latin-1")))
        sums.write()

    def _sync_folder(self) -> None:
        """Syncs the folder, so that a new journal is found after a loss of power."""
        folder = os.open(os.path.dirname(self.path) or ".", os.O_RDONLY)
        try:
            os.fsync(folder)
        finally:
            os.close(folder)

    def lines(self) -> Iterator[tuple[int, str]]:
        """Each whole line with its place, without its line feed. The file may change meanwhile."""
        place = 0
        with open(os.dup(self._file.fileno()), "rb") as file:
            file.seek(0)
            while line := file.readline(MOST_LINE + 2):
                if not line.endswith(b"\n") and len(line) < MOST_LINE + 2:
                    break
                yield place, line.removesuffix(b"\n").decode("latin-1")
                place += len(line)
        self._whole = place

    def cut(self) -> int:
        """Cuts off a torn last line, once `lines` were read, and answers its length in bytes."""
        torn = max(self._end - self._whole, 0)
        if torn:
            self._file.truncate(self._whole)
            self._end = self._whole
        return torn

    # Records come and go.

    def append(self, answers: Sequence[Answer[Any]]) -> None:
        """Adds these records; where that fails, nothing is added."""
        with self._lock:
            if self._failed is not None:
                raise self._failed
            end = self._end
            for answer in answers:
                answer.place = end
                end += len(answer.record) + 1
            try:
                put_at(self._file.fileno(), text_of(answers), self._end)
            except BaseException:
                self._file.truncate(self._end)
                raise
            self._end = end
            if self._sums:
                for answer in answers:
                    record = f"{answer.record}\n".encode("latin-1")
                    self._sums.add(sum_of(answer.place, record))
            self._unsynced += len(answers)
            self._keep_time()

    def take_off(self, place: int, record: str) -> None:
        """Takes a record off; one in the middle gives way to empty lines, which texts may have."""
        with self._lock:
            if place + len(record) + 1 >= self._end:
                self._file.truncate(place)
                self._end = place
                if self._sums:
                    self._sums.add(sum_of(place, b""))
            else:
                blank = b"\n" * (len(record) + 1)
                put_at(self._file.fileno(), blank, place)
                if self._sums:
                    self._sums.add(sum_of(place, blank))
            self.sync(is_due=True)

    # Syncing.

    def is_due(self) -> bool:
        """Whether the records that were added last have to be synced before they are sent."""
        most = self._sync.records if self._sync else 1
        return (self._sync or self._sums) is not None and self._unsynced >= most

    def sync(self, is_due: bool = False) -> None:
        """Has the device keep all records, where that is asked for, and writes their checksums.

        Checksums are written after that, so that they tell of no record that may be lost.
        """
        with self._lock:
            if self._sync and (self._unsynced or is_due):
                os.fsync(self._file.fileno())
            self._unsynced = 0
            if self._timer:
                self._timer.cancel()
                self._timer = None
            if self._sums:
                self._sums.write()

    def _keep_time(self) -> None:
        """Has a thread sync the records in time."""
        if self._sync and self._sync.seconds and self._unsynced and not self._timer:
            self._timer = threading.Timer(self._sync.seconds, self._sync_in_time)
            self._timer.daemon = True
            self._timer.start()

    def _sync_in_time(self) -> None:
        """Syncs; a failure is raised by the next call."""
        try:
            with self._lock:
                if not self._file.closed:
                    self.sync()
        except OSError as error:
            self._failed = error

    # What a journal says.

    def is_rest(self, place: int, line: str) -> bool:
        """Whether a line is what remains of a record that was being taken off.

        It is the end of a record then, and follows an empty line. No command is the end of another.
        """
        if place < 2 or os.pread(self._file.fileno(), 2, place - 2) != b"\n\n":
            return False
        first, *others = line.split(",")
        is_name = any(name.endswith(first) and name != first for name in COMMANDS)
        return is_name or first.isdigit() or not others and set(first) <= set("0123456789abcdef")

    def number(self, place: int) -> int:
        """The number of the record at a place, as `recline run` counts them."""
        return sum(1 for at, line in self.lines() if at <= place and line.removesuffix("\r"))

    def move(self, path: str) -> None:
        """Puts the journal, and then its checksums, in the place of another one.

        A journal that is opened after the first and before the second has its checksums put there.
        """
        with self._lock:
            os.replace(self.path, path)
            self.path = path
            if self._sums:
                if self._sync:
                    self._sync_folder()
                os.replace(self._sums.path, path_of(path))
                self._sums.path = path_of(path)
            if self._sync:
                self._sync_folder()

    def renewed(self, text: str, world: str) -> Journal:
        """The journal that begins anew with this text, in the place of this one, which is closed.

        The new one is on its device before it is in its place. Raises `OSError` where this one has
        stayed as it was, and `JournalError` where the new one may be in its place.
        """
        try:
            new = self._written_anew(text, world)
        except OSError:
            next_journal(self.path)
            raise
        try:
            new.move(self.path)
            new._sync_folder()
        except OSError as error:
            new.close()
            if new.path == self.path:
                raise JournalError(f"{self.path}: {error}") from error
            next_journal(self.path)
            raise
        self.close()
        return new

    def _written_anew(self, text: str, world: str) -> Journal:
        """A new journal beside this one, which begins with this text."""
        path = next_journal(self.path)
        with open(path, "xb", buffering=0) as file:
            put_at(file.fileno(), text.encode("latin-1"), 0)
            os.fsync(file.fileno())
        if self._sums:
            open(path_of(path), "xb").close()
        new = Journal(path, world, self._sync or False)
        if new._sums:
            new._sums.sync()
        return new

    def close(self) -> None:
        """Lets the journal go, so that another client may have it. What is not synced is."""
        if self._file.closed:
            return
        try:
            if self._sync and self._unsynced:
                self.sync()
            elif self._sums:
                self._sums.write()
        finally:
            if self._timer:
                self._timer.cancel()
            # A child that was forked just now may have the file still: the lock goes without it.
            fcntl.flock(self._file.fileno(), fcntl.LOCK_UN)
            self._file.close()
            if self._sums:
                self._sums.close()

    def leave(self) -> None:
        """Closes the files in a child that was forked, without a word in them."""
        self._timer = None
        self._file.close()
        if self._sums:
            self._sums.close()
