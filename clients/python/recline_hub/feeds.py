"""Feeds `recline collect` what the journal has, and asks it."""

from __future__ import annotations

import asyncio
import collections
import contextlib
import logging
from collections.abc import Callable, Sequence

from .journals import PIECE, Journal

logger = logging.getLogger("recline_hub")
READ = 1 << 18  # bytes of answers that are read at once
AHEAD = 1 << 20  # bytes of the journal that may wait to be answered
FIRST_PAUSE, LAST_PAUSE = 0.05, 2.0  # seconds before a service is started again
SECONDS = 2.0  # for a service to end by itself
END = b"\n\n"  # of each answer
STALE_REPORT = b"47"
FORGOT = b"forgot,"  # begins the answer to a `forget`


class Notes:
    """Notes that were fed: where they stand, and how many are not answered."""

    __slots__ = ("place", "size", "left", "count")

    def __init__(self, place: int, text: bytes) -> None:
        self.place, self.size = place, len(text)
        self.left = self.count = text.count(b"\n")


class Ask:
    """A record that is asked once all before a place is fed; without one, only that is waited for.

    Those of a recovery are asked again where the journal is fed again.
    """

    __slots__ = ("place", "record", "answer", "is_sent", "recovery")

    def __init__(self, place: int, record: bytes, recovery: int = 0) -> None:
        self.place, self.record, self.recovery = place, record, recovery
        self.answer: asyncio.Future[bytes] = asyncio.get_running_loop().create_future()
        self.is_sent = False


class Feed:
    """A service that is fed the journal from its start, and again wherever it has ended.

    `on_recovery` is told the number of a recovery, the plan and the history after it; where it was
    refused, that and nothing. `on_refused` is told where a note stands that was not taken, the note
    and why.
    """

    def __init__(
        self, journal: Journal, command: Sequence[str],
        on_recovery: Callable[[int, bytes, bytes], None],
        on_refused: Callable[[int, bytes, bytes], None],
    ) -> None:
        self._journal, self._command = journal, command
        self._on_recovery, self._on_refused = on_recovery, on_refused
        self._asks: list[Ask] = []
        self._work, self._moved = asyncio.Event(), asyncio.Event()
        self.answered = 0  # bytes of the journal
        self.starts = 0
        self.pid: int | None = None
        self.floors = b""  # what was let go so far, as the last answer to a `forget` says
        self._reset()

    def _reset(self) -> None:
        """Begins at the start of the journal."""
        self._place = self._recovery = self.answered = 0
        self._rest = bytearray(b"\n")  # so that the first answer ends as all others do
        self._seen = 0  # of the rest, in which no end was found
        self._expected: collections.deque[Notes | Ask] = collections.deque()
        self._plan = b""
        for ask in self._asks:
            ask.is_sent = False

    def poke(self) -> None:
        """There is more to do."""
        self._work.set()

    def take_back(self) -> None:
        """The last recovery was taken off the journal, which was fed to its end."""
        self._place, self._recovery = self._journal.end, len(self._journal.recoveries)

    async def ask(self, record: str) -> bytes:
        """The answer to a record, once all that the journal has now is fed."""
        ask = Ask(self._journal.end, record.encode("ascii"))
        self._asks.append(ask)
        self.poke()
        return await ask.answer

    async def room(self, most: int) -> None:
        """Waits until at most so many bytes of the journal are not answered."""
        while self._journal.end - self.answered > most:
            self._moved.clear()
            await self._moved.wait()

    async def run(self) -> None:
        """Starts the service, and starts it again whenever it ends."""
        pause = FIRST_PAUSE
        while True:
            before = self.answered
            try:
                await self._serve()
            except OSError as error:
                logger.error("the service does not run: %r", error)
            pause = FIRST_PAUSE if self.answered > before else min(2 * pause, LAST_PAUSE)
            await asyncio.sleep(pause)

    async def _serve(self) -> None:
        """Feeds a service until it ends."""
        self._reset()
        pipe = asyncio.subprocess.PIPE
        service = await asyncio.create_subprocess_exec(
            *self._command, stdin=pipe, stdout=pipe, limit=READ
        )
        self.pid, self.starts = service.pid, self.starts + 1
        assert service.stdin and service.stdout
        writing = asyncio.create_task(self._write(service.stdin))
        try:
            while piece := await service.stdout.read(READ):
                self._take(piece)
        finally:
            self.pid = None
            writing.cancel()
            with contextlib.suppress(asyncio.CancelledError, OSError):
                await writing
            status = await _ended(service)
        logger.error("the service has ended, status %d; it is started again", status)

    # What goes to the service.

    async def _write(self, out: asyncio.StreamWriter) -> None:
        """Writes what there is, and waits for more."""
        while True:
            text = self._next()
            if text:
                out.write(text)
                await out.drain()
                await self._until_answered()
            else:
                self._work.clear()
                await self._work.wait()

    async def _until_answered(self) -> None:
        """Waits until not too much waits for its answer."""
        while self._place - self.answered > AHEAD:
            self._moved.clear()
            await self._moved.wait()

    def _next(self) -> bytes:
        """What the service gets next, or nothing for now."""
        ask = self._next_ask()
        while ask is not None and ask.place <= self._place:
            ask.is_sent = True
            self._expected.append(ask)
            if ask.record:
                return ask.record + b"\n"
            self._settle()
            ask = self._next_ask()
        stop = min(self._journal.end, ask.place if ask else self._journal.end)
        recoveries = self._journal.recoveries
        if self._recovery < len(recoveries):
            span = recoveries[self._recovery]
            if span.start == self._place < stop:
                return self._next_recovery(span.end)
            stop = min(stop, span.start)
        text = self._journal.read(self._place, min(stop - self._place, PIECE))
        text = text[:text.rfind(b"\n") + 1]
        if text:
            self._expected.append(Notes(self._place, text))
            self._place += len(text)
        return text

    def _next_ask(self) -> Ask | None:
        """The next question that was not sent to this service."""
        return next((ask for ask in self._asks if not ask.is_sent), None)

    def _next_recovery(self, end: int) -> bytes:
        """The record of a recovery, and of the last one a question for the history after it."""
        text = self._journal.read(self._place, end - self._place)
        self._recovery += 1
        self._expected.append(Ask(end, text, self._recovery))
        self._place = end
        if self._recovery < len(self._journal.recoveries):
            return text
        self._expected.append(Ask(end, b"history", self._recovery))
        return text + b"history\n"

    # What comes from it.

    def _take(self, piece: bytes) -> None:
        """Takes more of the answers."""
        self._rest += piece
        while self._expected:
            head = self._expected[0]
            if not (self._take_notes(head) if isinstance(head, Notes) else self._take_answer(head)):
                break
        self._moved.set()

    def _settle(self) -> None:
        """Ends what only waits for all before it to be answered."""
        while self._expected:
            head = self._expected[0]
            if isinstance(head, Notes) or head.record:
                return
            self._take_answer(head)

    def _take_notes(self, head: Notes) -> bool:
        """Takes answers to notes, and tells whether those are all there."""
        rest = self._rest
        count = rest.count(END)
        if not count:
            return False
        if count <= head.left:
            end = rest.rfind(END) + 2
        else:
            count = head.left
            end = len(rest) - len(rest.split(END, count)[count])
        answers = bytes(rest[:end])
        del rest[:end]
        if FORGOT in answers:
            self.floors = answers[answers.rindex(FORGOT):].split(END, 1)[0]
        if b"refused," in answers or b"fault," in answers:
            self._tell_refused(head, answers)
        head.left -= count
        if head.left:
            return False
        self._expected.popleft()
        self.answered = head.place + head.size
        return True

    def _tell_refused(self, head: Notes, answers: bytes) -> None:
        """Tells which notes were not taken."""
        records = self._journal.read(head.place, head.size).split(b"\n")
        first = head.count - head.left
        for number, answer in enumerate(answers.split(END)[:-1], first):
            if answer.startswith((b"refused,", b"fault,")):
                place = head.place + sum(len(record) + 1 for record in records[:number])
                if answer.split(b",")[1] != STALE_REPORT:
                    self._on_refused(place, records[number], answer)

    def _take_answer(self, head: Ask) -> bool:
        """Takes the answer to a question, and tells whether it is there."""
        answer = b""
        if head.record:
            end = self._rest.find(END, self._seen)
            if end < 0:
                self._seen = max(len(self._rest) - 1, 0)
                return False
            answer = bytes(self._rest[:end])
            del self._rest[:end + 2]
            self._seen = 0
        self._expected.popleft()
        if head.recovery:
            self.answered = head.place
            self._take_recovery(head, answer)
            return True
        self._asks.remove(head)
        if not head.answer.done():
            head.answer.set_result(answer)
        return True

    def _take_recovery(self, head: Ask, answer: bytes) -> None:
        """Takes the plan of a recovery, or the history after it."""
        if head.record != b"history":
            self._plan = answer
        elif self._plan.startswith(b"recovered,"):
            self._on_recovery(head.recovery, self._plan, answer)
        else:
            self._on_recovery(head.recovery, self._plan, b"")


async def _ended(service: asyncio.subprocess.Process) -> int:
    """The status of a service whose output has ended; one that does not end is killed."""
    try:
        return await asyncio.wait_for(service.wait(), SECONDS)
    except asyncio.TimeoutError:
        service.kill()
        return await service.wait()
