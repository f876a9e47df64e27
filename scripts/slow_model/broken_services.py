"""Services that are wrong, each in one way: what `scripts/trial service` has to find."""

import contextlib
import mmap
import os
from collections.abc import Iterator

from .service import Service
from .texts import LINE, MOST_LINE, Fault, Records

NO_MEMORY = b"fault,0,OutOfMemory\n\n"
EVENTS = ("check", "send", "deliver", "recv")
COUNT_BYTES = 24  # of the file of counts that `preloaded.c` keeps, the first eight for requests


class HoldsBack(Service):
    """The last answer of a piece goes out with the next piece."""

    held = b""

    def answers(self, piece: bytes) -> Iterator[bytes]:
        answers = [self.held, *super().answers(piece)]
        self.held = answers.pop()
        yield from answers

    def end(self) -> bytes:
        return self.held + super().end()


class AnswersTwice(Service):
    """A record that a piece ends in is answered there, and again at its end."""

    def answers(self, piece: bytes) -> Iterator[bytes]:
        yield from super().answers(piece)
        if len(self.begun) > 6:
            yield self.answer_to(self.begun, b"")


class DoesFaulty(Service):
    """The step of a record that has a field too many is done, and the record is a fault."""

    def record(self, fields: list[str]) -> tuple[Records, int]:
        try:
            return super().record(fields)
        except Fault as fault:
            if self.stands() and fault.code == 32 and fields[0] in EVENTS:
                with contextlib.suppress(Fault):
                    super().record(fields[:-1] or fields)
            raise


class EndsNoRefusal(Service):
    """No empty line stands after a refusal."""

    def answer_to(self, line: bytes, may_end: bytes) -> bytes:
        answer = super().answer_to(line, may_end)
        return answer[:-1] if answer.startswith((b"refused,17", b"refused,47")) else answer


class ReadsTheRest(Service):
    """The rest of a line that is too long is read as a record."""

    def answers(self, piece: bytes) -> Iterator[bytes]:
        for at in range(0, len(piece), MOST_LINE):
            yield from super().answers(piece[at:at + MOST_LINE])
            if len(self.begun) > MOST_LINE:
                yield self.answer_to(self.line_with(b""), b"")


class KeepsLongLines(Service):
    """A line that is too long is kept."""

    kept = b""

    def answers(self, piece: bytes) -> Iterator[bytes]:
        self.kept = b"" if b"\n" in piece else self.kept + piece
        yield from super().answers(piece)


class SpoilsPieces(Service):
    """A byte that is not allowed makes all records that came with it faults."""

    def answers(self, piece: bytes) -> Iterator[bytes]:
        is_good = all(LINE.fullmatch(it.removesuffix(b"\r")) for it in piece.split(b"\n"))
        yield from super().answers(piece if is_good else piece.replace(b",", b"\x00"))


class KeepsSavedTexts(Service):
    """A fault drops nothing of the text of a saved machine."""

    def miss(self) -> None:
        """Keeps what was read."""


class BeginsAnew(Service):
    """A later world, or a later `reports`, takes the place of the first one."""

    def record(self, fields: list[str]) -> tuple[Records, int]:
        if fields[0] == self.first:
            self.drop()
        return super().record(fields)


class LosesTheLast(Service):
    """What stands after the last line feed is not answered."""

    def end(self) -> bytes:
        return b""


class TakesALongerLine(Service):
    """A line may have a byte more."""

    def answer_to(self, line: bytes, may_end: bytes) -> bytes:
        is_longer = len(line) == MOST_LINE + 1 and line.startswith((b"check,00", b"send,00"))
        return super().answer_to(line.replace(b",00", b",0", 1) if is_longer else line, may_end)


class CountsNoReturn(Service):
    """The return of a line is no byte of it."""

    def answer_to(self, line: bytes, may_end: bytes) -> bytes:
        return super().answer_to(line.removesuffix(may_end), b"")


class TakesAReturnAtTheEnd(Service):
    """A return at the end of the input is not read."""

    def end(self) -> bytes:
        return self.answer_to(self.line_with(b""), b"\r")


class Exchanges(Service):
    """Where three records come together, the last two answers change their places."""

    def answers(self, piece: bytes) -> Iterator[bytes]:
        answers = [it for it in super().answers(piece) if it]
        if len(answers) > 2:
            answers[-2:] = answers[:-3:-1]
        yield from answers


class TellsFirstStatus(Service):
    """The status is that of the first record that is not done."""

    told = 0

    def answer_to(self, line: bytes, may_end: bytes) -> bytes:
        it = super().answer_to(line, may_end)
        self.status = self.told = self.told or self.status
        return it


class GathersAnswers(Service):
    """The answers of a piece are kept till all are there."""

    def answers(self, piece: bytes) -> Iterator[bytes]:
        yield b"".join(super().answers(piece))


class AnswersEmptyLines(Service):
    """A line of a return alone is a record."""

    def answer_to(self, line: bytes, may_end: bytes) -> bytes:
        return super().answer_to(line, b"" if line == b"\r" else may_end)


class Starved(Service):
    """Each record asks for memory twice, before its step and after it, and may be refused it."""

    growths = 0

    def is_refused(self) -> bool:
        self.growths += 1
        first = int(os.environ.get("REFUSED_GROWTH", 0))
        times = int(os.environ.get("REFUSED_TIMES", 1))
        if "COUNTS_FD" in os.environ:
            counts = mmap.mmap(int(os.environ["COUNTS_FD"]), COUNT_BYTES)
            counts[:8] = self.growths.to_bytes(8, "little")
        return 0 < first <= self.growths < first + times

    def answer_to(self, line: bytes, may_end: bytes) -> bytes:
        if line in (b"", b"\r"):
            return super().answer_to(line, may_end)
        if self.is_refused():
            return self.refused(line, may_end)
        answer = super().answer_to(line, may_end)
        return self.late(answer) if self.is_refused() else answer

    def refused(self, line: bytes, may_end: bytes) -> bytes:
        self.miss()
        self.status = 2
        return NO_MEMORY

    def late(self, answer: bytes) -> bytes:
        return answer


class DoesStarved(Starved):
    """The step that is refused memory is done."""

    def refused(self, line: bytes, may_end: bytes) -> bytes:
        Service.answer_to(self, line, may_end)
        return super().refused(line, may_end)


class LosesAnswers(Starved):
    """A step is done, and there is no memory for its answer."""

    def late(self, answer: bytes) -> bytes:
        self.status = 2
        return NO_MEMORY


class CutsAnswers(Starved):
    """A step is done, and there is no memory for the last record of its answer."""

    def late(self, answer: bytes) -> bytes:
        return b"\n".join([*answer.split(b"\n")[:-3], b"", b""])


class EndsStarved(Starved):
    """A record that is refused memory ends the service."""

    def refused(self, line: bytes, may_end: bytes) -> bytes:
        os.write(2, b"recline: record 0: 0 OutOfMemory\n")
        os._exit(3)
