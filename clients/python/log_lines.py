"""Logs of a computation: their lines, read and read again, and what these say."""

from __future__ import annotations

import codecs
import contextlib
import json
import os
import select
import stat
import tempfile
from collections.abc import Iterator
from typing import IO, Any

MOST_LINE = 1_048_576  # bytes of a line
PIECE = 65_536  # bytes that are read at once
WINDOW = 16_384  # bytes that are read where a line is read again

Event = dict[str, Any]
decoder = json.JSONDecoder()


class Unsound(Exception):
    """What is wrong with a log: the place of a line in it, and the cause."""

    def __init__(self, cause: str, log: Log | None = None, place: int = 0) -> None:
        super().__init__(cause)
        self.cause, self.log, self.place = cause, log, place


@contextlib.contextmanager
def naming(name: str) -> Iterator[None]:
    """Has an error of the system say which input it is of."""
    try:
        yield
    except OSError as error:
        error.filename = name
        raise


class Log:
    """An input. What cannot be read twice from its beginning is copied to a file first."""

    def __init__(self, name: str, file: IO[bytes]) -> None:
        self.name, self._file = name, file
        if not stat.S_ISREG(os.fstat(file.fileno()).st_mode) or file.tell():
            self._file = tempfile.TemporaryFile()
            with file:
                self._copy(file.fileno())
            self._file.seek(0)
        with naming(name):
            os.pread(self._file.fileno(), 1, 0)
        self.size = os.fstat(self._file.fileno()).st_size
        self.read = 0  # the place of the next line
        self._window, self._start = b"", 0

    def _copy(self, file: int) -> None:
        """Copies a file to its end, or to a line that is too long, as all of /dev/zero is."""
        length = 0  # of the line that has begun
        while length <= MOST_LINE and (piece := self._piece(file)):
            self._file.write(piece)
            whole = piece.rfind(b"\n") + 1
            length = len(piece) - whole if whole else length + len(piece)

    def _piece(self, file: int) -> bytes:
        """More of a file, b"" at its end. One that does not wait is waited for."""
        with naming(self.name):
            while True:
                with contextlib.suppress(BlockingIOError):
                    return os.read(file, PIECE)
                select.select([file], [], [])

    def close(self) -> None:
        """Lets the file go, and a copy of it too."""
        self._file.close()

    def rewind(self) -> None:
        """Goes back to its beginning."""
        self._file.seek(0)
        self.read = 0

    def next(self) -> bytes:
        """The next line, b"" at the end."""
        line = self._file.readline(MOST_LINE + 1)
        self.read += len(line)
        return line

    def line_at(self, place: int) -> bytes:
        """The line that begins at a place, read again."""
        at = place - self._start
        end = self._window.find(b"\n", at) if 0 <= at < len(self._window) else -1
        if end < 0:
            self._window, self._start, at = os.pread(self._file.fileno(), WINDOW, place), place, 0
            end = self._window.find(b"\n")
            if end < 0:
                return os.pread(self._file.fileno(), MOST_LINE + 1, place).split(b"\n")[0]
        return self._window[at:end]

    def number_at(self, place: int) -> int:
        """The number of the line that begins at a place."""
        self._file.seek(0)
        number = 1
        while place > 0:
            piece = self._file.read(min(place, MOST_LINE))
            number, place = number + piece.count(b"\n"), place - len(piece)
        return number


def event_of(line: bytes) -> Event | None:
    """What a line says, None where it is empty."""
    if len(line) > MOST_LINE:
        raise Unsound(f"a line of more than {MOST_LINE} bytes")
    try:
        text = line.removeprefix(codecs.BOM_UTF8).decode().strip()
        if not text:
            return None
        event, end = decoder.raw_decode(text)
    except json.JSONDecodeError as error:
        cause = error.msg.removesuffix(" at")
        raise Unsound(f"this is no JSON: {cause} at character {error.pos + 1}") from None
    except UnicodeDecodeError as error:
        raise Unsound(f"this is no UTF-8: byte {error.start + 1} of the line") from None
    except (ValueError, RecursionError) as error:
        raise Unsound(f"this is no JSON: {error}") from None
    if not isinstance(event, dict) or end != len(text):
        raise Unsound("this is no JSON object")
    return event


def text_of(event: Event, field: str) -> str:
    """A field that is a text, or a whole number, which is then its digits."""
    value = event.get(field)
    if type(value) is str:
        return value
    if type(value) is int:
        return str(value)
    cause = "is missing" if value is None else "is neither a text nor a whole number"
    raise Unsound(f"`{field}` {cause}")


def shown(name: str) -> str:
    """A name, as it stands in a log."""
    text = json.dumps(name)
    return text if len(text) <= 80 else f"{text[:76]}..\""


def named(message: bytes) -> str:
    """The name of a message, as it stands in a log."""
    return shown(message.decode("utf-8", "replace"))


def number_of(digits: str) -> int:
    """The number that digits spell, or 1,000 where it is greater."""
    digits = digits.lstrip("0") or "0"
    return int(digits) if len(digits) <= 3 else 1_000
