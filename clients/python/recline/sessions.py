"""What a client and a service say to each other, without the pipes: records out, answers in."""

from __future__ import annotations

import collections
import itertools
import os
from collections.abc import Iterator
from typing import Any

from .errors import Fault, JournalError, NotDone, ServiceEnded
from .journals import Journal, Sync
from .records import (
    QUESTIONS, READERS, Answer, kept_of, read_nothing, read_saved, text_of,
)
from .renewals import (
    FIRST_OF_SAVED, LAST_OF_SAVED, OWN_FORGET, Last, Note, Renewal, read_note,
)

PIECE = 65_536  # bytes that are written or read at once
MOST_PROCESSES, _MOST_IN_FIRST_VERSION = 256, 64


class SavedRecord(Answer[None]):
    """A record of the saved text that a journal begins with. It is no step, and not counted."""

    __slots__ = ()

    def __init__(self, record: str, place: int) -> None:
        super().__init__(record, read_nothing, None, place, is_aside=True)


class NoAnswer(Exception):
    """The service wrote what is no answer: the text."""


def world_of(processes: int, links: str) -> str:
    """The first record."""
    version = 1 if processes <= _MOST_IN_FIRST_VERSION else 2
    return f"world,{version},{processes},{links}"


class Session:
    """The records that wait to be sent or answered, the journal, and what was counted."""

    def __init__(
        self, world: str, keeps_questions: bool, renewal: Renewal | None = None
    ) -> None:
        self.world, self._keeps_questions, self.renewal = world, keeps_questions, renewal
        self.replayed = self.torn = self.counted = 0
        self.last_replayed: Answer[Any] | None = None
        self.journal: Journal | None = None
        self.pending: collections.deque[Answer[Any]] = collections.deque()  # sent, not answered
        self._batch: list[Answer[Any]] = []  # what is not sent yet
        self._batch_bytes = 0
        # What is read and no whole answer yet. An empty line ends each answer; the first ones, to
        # `world` or to the records of a saved text, have nothing before it.
        self._rest = bytearray()
        self._is_first = True
        self.is_feeding = False
        self._last: Last | None = None  # the last record that was done

    def open_journal(self, path: str | os.PathLike[str], durable: bool | Sync) -> None:
        """Opens the journal. Its records wait to be sent, if there are any."""
        self.journal = Journal(path, self.world, durable)

    # Records.

    def put(self, answer: Answer[Any]) -> bool:
        """Takes a record that is sent with others, and answers whether these are enough."""
        self._batch.append(answer)
        self._batch_bytes += len(answer.record) + 1
        return self._batch_bytes >= PIECE

    @property
    def goes_on(self) -> bool:
        """Whether there is a journal that has records."""
        return self.journal is not None and not self.journal.is_new

    def records_to_feed(self) -> Iterator[Answer[Any]]:
        """The records of the journal that are fed again, one by one."""
        assert self.journal
        lines = ((place, line) for place, line in self.journal.lines() if line.rstrip("\r"))
        place, line = next(lines)
        if line.split(",", 1)[0] == FIRST_OF_SAVED:
            yield from self._saved_to_feed(place, line, lines)
            place, line = next(lines, (place, ""))
            note = read_note(line)
            self._take_note(note or Note(1, None))
            if note:
                place, line = next(lines, (place, ""))
        if line:
            yield from self._steps_to_feed(itertools.chain([(place, line)], lines))

    def _saved_to_feed(
        self, place: int, line: str, lines: Iterator[tuple[int, str]]
    ) -> Iterator[SavedRecord]:
        """The records of the saved text that the journal begins with."""
        while True:
            yield SavedRecord(line.removesuffix("\r"), place)
            if line.split(",", 1)[0] == LAST_OF_SAVED:
                return
            place, line = next(lines, (place, ""))
            if not line:
                assert self.journal
                told = f"{self.journal.path}: the saved text that it begins with has no end"
                raise JournalError(told)

    def _steps_to_feed(self, lines: Iterator[tuple[int, str]]) -> Iterator[Answer[str]]:
        """The other records, but for questions."""
        for place, line in lines:
            record = line.removesuffix("\r")
            if self.renewal:
                self.renewal.since += 1
            if record.split(",", 1)[0] not in QUESTIONS:
                yield Answer(record, str, None, place, is_aside=line == OWN_FORGET)

    def _take_note(self, note: Note) -> None:
        """Counts on from where the journal began anew."""
        self.counted, self._last = note.counted, note.last
        if note.last:
            self.last_replayed = Answer(note.last.record, str)
            self.last_replayed.settle(note.last.text)

    def taken(self) -> tuple[bytes, bool]:
        """The text of the records that wait, which stand in the journal now and are pending.

        And whether the journal is to be synced before the text is sent.
        """
        batch, is_due = self._batch, False
        if batch and not self.is_feeding and (self.journal or self.renewal):
            kept = kept_of(batch, self._keeps_questions)
            if self.journal:
                self.journal.append(kept)
                is_due = self.journal.is_due()
            if self.renewal:
                self.renewal.since += len(kept)
        self._batch, self._batch_bytes = [], 0
        self.pending.extend(batch)
        return text_of(batch), is_due

    # Answers.

    def take(self, piece: bytes) -> None:
        """Takes what the service wrote, and gives the answers that are whole to their records."""
        start = max(len(self._rest) - 1, 0)
        self._rest += piece
        if self._is_first and not self._is_answer_to_world():
            raise NoAnswer(self._rest.decode("latin-1").split("\n")[0])
        while self._rest.startswith(b"\n"):
            self._is_first, start = False, 0
            del self._rest[:1]
            self._answered("")
        end = self._rest.rfind(b"\n\n", start)
        if end >= 0:
            self._is_first = False
            texts = self._rest[:end].decode("latin-1").split("\n\n")
            del self._rest[:end + 2]
            for text in texts:
                self._answered(text)

    def _is_answer_to_world(self) -> bool:
        """Whether this may be the beginning of an answer to the first record: nothing, or a fault.

        What is no service is found out so before it has said what looks like an answer.
        """
        begun = bytes(self._rest[:6])
        return begun.startswith(b"\n") or b"fault,".startswith(begun) or begun == b"fault,"

    def _answered(self, text: str) -> None:
        """Gives the next record that waits its answer."""
        if not self.pending:
            raise NoAnswer(text)
        answer = self.pending.popleft()
        try:
            answer.settle(text)
        except (ValueError, TypeError, LookupError):
            self.pending.appendleft(answer)
            raise NoAnswer(text) from None
        if answer.error is not None and isinstance(answer.error, Fault):
            self._had_fault(answer, answer.error)
        elif not answer.is_aside and not answer.record.startswith(QUESTIONS):
            self.counted += 1
            if self.is_feeding:
                self.last_replayed = answer
            if self.renewal:
                self._last = Last(answer.record, text)
                if not self.is_feeding and text.startswith("forgot,"):
                    self.renewal.forgot()

    def _had_fault(self, answer: Answer[Any], fault: Fault) -> None:
        """Takes a record that was not done off the journal, before its caller hears of it."""
        if self.journal is None or answer.place < 0:
            return
        if self.is_feeding and not fault.code:
            raise fault
        if isinstance(answer, SavedRecord):
            raise JournalError(told_of_saved(self.journal, answer, fault), answer.record)
        if self.is_feeding:
            if not self.journal.is_rest(answer.place, answer.record):
                number = self.journal.number(answer.place)
                cause = f"record {number}: {fault.code} {fault.name}"
                raise JournalError(f"{self.journal.path}: {cause}", answer.record)
            self.torn += len(answer.record)
        self.journal.take_off(answer.place, answer.record)

    # Beginning anew.

    def is_renewal_due(self) -> bool:
        """Whether it is time to begin the journal anew, before what waits is sent."""
        if self.renewal is None or self.is_feeding:
            return False
        return self.renewal.is_due(self._batch[0].record if self._batch else "")

    def asked(self, answer: Answer[Any]) -> bytes:
        """The text of a record that stands in no journal, which is pending now."""
        self.pending.append(answer)
        return text_of([answer])

    def renewed(self) -> Iterator[Answer[str]]:
        """Begins the journal anew: what is yielded is to be asked, and answered, before it goes on.

        Nothing else is pending. What is refused, or has no memory, is tried again later. The old
        journal is a true one until the new one is in its place: nothing is answered in between.
        """
        assert self.renewal
        if not self.renewal.is_forgotten:
            forget = Answer("forget", str, is_aside=True)
            yield forget
            if not is_done(forget):
                self.renewal.put_off()
                return
        if self.journal:
            save = Answer("save", read_saved, is_aside=True)
            yield save
            if not is_done(save) or not self._puts_anew(self.journal, save.value):
                self._go_on_with_old(self.journal)
                return
        self.renewal.done()

    def _puts_anew(self, journal: Journal, saved: str) -> bool:
        """Puts a journal with this text in the place of the old one, and tells whether it could."""
        note = Note(self.counted, self._last).record()
        try:
            self.journal = journal.renewed(f"{saved}{note}\n", self.world)
        except OSError:
            return False
        return True

    def _go_on_with_old(self, journal: Journal) -> None:
        """Goes on with the old journal, which is told what was let go."""
        assert self.renewal
        if not self.renewal.is_forgotten:
            journal.append([Answer(OWN_FORGET, str)])
            journal.sync()
        self.renewal.put_off()

    # The beginning and the end.

    def fed(self) -> None:
        """All records of the journal are answered."""
        self.is_feeding, self.replayed = False, self.counted
        if self.last_replayed:
            kind = self.last_replayed.record.split(",", 1)[0]
            self.last_replayed.read_again(READERS[kind])

    def first(self) -> Answer[None]:
        """The record that begins the machine."""
        return Answer(self.world, read_nothing)

    def oldest(self) -> str:
        """The oldest record that was sent and not answered, "" where there is none."""
        return self.pending[0].record if self.pending else ""

    def fail(self, ended: ServiceEnded) -> None:
        """There are no answers any more."""
        pending, batch = list(self.pending), self._batch
        self.pending.clear()
        self._batch, self._batch_bytes = [], 0
        for answer in pending:
            answer.fail(ended)
        for answer in batch:
            answer.fail(RuntimeError("not sent: the service ended before"))

    def let_go(self) -> None:
        """Closes the journal."""
        if self.journal:
            self.journal.close()


def told_of_saved(journal: Journal, answer: SavedRecord, fault: Fault) -> str:
    """What is said of a record of a saved text that has a fault."""
    number = journal.number(answer.place)
    told = f"{journal.path}: record {number} of the saved text that it begins with"
    older = "; an older program reads no saved text" if number == 1 else ""
    return f"{told}: {fault.code} {fault.name}{older}"


def want_save(save: Answer[str]) -> None:
    """Raises what the program does not know `save` by, which journals begin anew with."""
    if isinstance(save.error, Fault) and save.error.code:
        told = "forget_every wants a program that knows `save`: the one that was started is older"
        raise RuntimeError(told)


def is_done(answer: Answer[Any]) -> bool:
    """Whether a record is done; it is not where it is refused, or memory is out."""
    if answer.error is not None and not isinstance(answer.error, NotDone):
        raise answer.error
    return answer.error is None


class Told:
    """What is known of a service by what it was told, for whoever talks to one."""

    _session: Session

    @property
    def replayed(self) -> int:
        """How many records of the journal were fed again, the first one among them."""
        return self._session.replayed

    @property
    def last_replayed(self) -> Answer[Any] | None:
        """The last record that was fed again, and its answer."""
        return self._session.last_replayed

    @property
    def torn(self) -> int:
        """How many bytes of a record that was half written were cut off."""
        return self._session.torn

    @property
    def counted(self) -> int:
        """How many records are done: `replayed` and those that were answered since."""
        return self._session.counted
