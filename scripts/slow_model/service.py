"""The service: `recline serve`, which answers each record of a script as it comes."""

from collections.abc import Iterator

from .machine import World
from .saved import Saved
from .scripts import answer, begun_by, command_of
from .texts import LINE, MOST_LINE, NAMES, Fault, Records, want, written


class Service:
    """A machine, once a good `world` has come, the line that has begun, and the status so far."""

    first = "world"  # the first field of the first record

    def __init__(self) -> None:
        self.world: World | None = None
        self.saved: Saved | None = None  # what was read so far of the text of a saved machine
        self.begun = b""  # the first bytes of a line, one more than it may have at most
        self.status = 0

    def take(self, piece: bytes) -> bytes:
        """Takes the next bytes of the input, and answers the records that end in them."""
        return b"".join(self.answers(piece))

    def answers(self, piece: bytes) -> Iterator[bytes]:
        """The same answers, one for each line: to an empty line that is nothing."""
        *ends, rest = piece.split(b"\n")
        for end in ends:
            yield self.answer_to(self.line_with(end), b"\r")
        self.begun += rest[:MOST_LINE + 1 - len(self.begun)]

    def line_with(self, end: bytes) -> bytes:
        """The line that has begun and ends so; the next one begins."""
        line, self.begun = self.begun + end, b""
        return line

    def end(self) -> bytes:
        """Answers what stands after the last line feed, at the end of the input."""
        return self.answer_to(self.line_with(b""), b"")

    def answer_to(self, line: bytes, may_end: bytes) -> bytes:
        """The answer to a line, nothing to an empty one; these bytes at its end are not read.

        Any fault, of a record or of a line that is none, drops what was read of a saved machine.
        """
        try:
            want(len(line) <= MOST_LINE, 32)
            line = line.removesuffix(may_end)
            if not line:
                return b""
            want(LINE.fullmatch(line), 32)
            records, status = self.record(line.decode("ascii").split(","))
        except Fault as fault:
            self.miss()
            records, status = [("fault", fault.code, NAMES[fault.code])], 2
        self.status = max(self.status, status)
        return written(records) + b"\n"

    def stands(self) -> bool:
        """Whether the first record has come."""
        return self.world is not None

    def begins(self) -> bool:
        """Whether nothing of a machine has come, so that the next record is the first one."""
        return self.saved is None and not self.stands()

    def drop(self) -> None:
        """Drops the machine."""
        self.world = None

    def miss(self) -> None:
        """Drops what was read of a saved machine, as a record was not taken."""
        self.saved = None

    def record(self, fields: list[str]) -> tuple[Records, int]:
        """The records of an answer, and 1 where it is a refusal."""
        if self.world is None:
            self.begin(fields)
            return [], 0
        records, is_refusal = answer(self.world, *command_of(fields))
        return records, int(is_refusal)

    def begin(self, fields: list[str]) -> None:
        """Takes a record before there is a machine: of a text that was saved, or the first one."""
        if self.saved is None:
            begun = begun_by(fields)
            if isinstance(begun, Saved):
                self.saved = begun
            else:
                self.world = begun
            return
        self.saved.read(fields)
        if self.saved.is_whole:
            self.world, self.saved = self.saved.opened(), None
