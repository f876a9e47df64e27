"""A hub's view of a process: who reports for it, what is kept of it, and what a note of it is."""

from __future__ import annotations

import asyncio
import re
from typing import Any, NamedTuple

from recline_report import wire
from recline_report.wire import Recovery

MOST_UNREAD = 1 << 18  # bytes that wait for somebody who does not read
_INCARNATION = (
    r"(?:[0-9]{1,4}|[1-5][0-9]{4}|6[0-4][0-9]{3}|65[0-4][0-9]{2}|655[0-2][0-9]|6553[0-5])"
)
_HEX = r"(?:[0-9a-f]{2})"


def notes_of(process: int, incarnation: int) -> re.Pattern[bytes]:
    """What the notes of a process look like, one line of them."""
    head = f"{process},{incarnation},"
    kinds = [
        f"send,{head}[0-9]{{1,3}},{_HEX}{{0,{wire.MOST_BODY}}}",
        f"recv,{head}[0-9]{{1,3}},{_INCARNATION},[0-9]{{1,9}}",
        f"check,{head}{_HEX}{{0,{wire.MOST_STATE}}},-",
    ]
    return re.compile(f"(?:{'|'.join(kinds)})\n".encode())


class Connection:
    """Somebody who has connected."""

    def __init__(self, writer: asyncio.StreamWriter) -> None:
        self.writer = writer
        self.is_over = False

    def put(self, line: bytes) -> None:
        """Writes a line; who does not read is let go."""
        if self.is_over:
            return
        if self.writer.transport.get_write_buffer_size() > MOST_UNREAD:
            self.end()
        else:
            self.writer.write(line)

    def tell(self, kind: str, **fields: Any) -> None:
        """Writes an object of JSON."""
        self.put(wire.json_line(**{"is": kind}, **fields))

    def end(self) -> None:
        """Ends the connection at once."""
        self.is_over = True
        self.writer.transport.abort()

    def close(self) -> None:
        """Ends it once all is written."""
        self.is_over = True
        self.writer.close()


FINAL, FOR_NOW = True, False


class Refusal(Exception):
    """What somebody is told before the connection ends, and whether it will be so again."""

    def __init__(self, why: str, is_final: bool = FINAL) -> None:
        super().__init__(why)
        self.why, self.is_final = why, is_final


class Waiting(NamedTuple):
    """A life that wants to report for a process, its connection, and what that is told first."""
    life: str
    connection: Connection
    proof: str


class Member:
    """A process, as the hub knows it."""

    def __init__(self, process: int, start: Recovery) -> None:
        self.process = process
        self.record = start  # of the last line
        self.kept = 0  # notes of this incarnation
        self.life: str | None = None
        self.has_begun = False  # somebody has reported for it
        self.is_lost = False  # who reported is gone for good, and a recovery is wanted
        self.is_ended = False
        self.is_held = False
        self.connection: Connection | None = None
        self.waiting: Waiting | None = None
        self.line = notes_of(process, start.incarnation)

    def begin_from(self, record: Recovery) -> None:
        """Goes on from a record of the line."""
        if record.incarnation != self.record.incarnation:
            self.line, self.kept = notes_of(self.process, record.incarnation), 0
        self.record = record

    def are_notes(self, text: bytes) -> bool:
        """Whether a text is notes of this process, under its present incarnation."""
        return not self.line.sub(b"", text)

    def let_go(self, why: str) -> None:
        """Tells who reports that the process counts as failed."""
        if self.connection:
            self.connection.tell("gone", why=why)
            self.connection.close()
            self.connection = None

    def state(self) -> str:
        """In a word or two how it is."""
        if self.is_lost:
            return "lost"
        if self.life is None:
            return "awaited" if self.has_begun else "not begun"
        if self.is_ended:
            return "ended"
        return "reports" if self.connection else "away"
