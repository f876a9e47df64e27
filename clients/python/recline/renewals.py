"""Journals that begin anew: when it is time for that, and what the first records say."""

from __future__ import annotations

from typing import NamedTuple

from .records import MOST_LINE, MOST_NUMBER

FIRST_OF_SAVED, LAST_OF_SAVED = "history", "saved"  # first fields of a saved text's records
# A `forget` that no caller asked for. Texts may have a carriage return at the end of a line.
OWN_FORGET = "forget\r"
# After a saved text: how many records were done before, and the last of them with its answer. It
# is not fed to a service, which would refuse it: there is no such process.
_NOTE = f"deliver,{MOST_NUMBER},{MOST_NUMBER}"
_LATER = 16  # what is refused is tried again after so small a part of the records


class Last(NamedTuple):
    """The last record that was done, and the text that it was answered."""

    record: str
    text: str


class Note(NamedTuple):
    """What was before a journal began anew: how many records, and the last one of them.

    None where its answer is too long for a record.
    """

    counted: int
    last: Last | None

    def record(self) -> str:
        """As it stands in the journal."""
        told = "\n".join(self.last).encode("latin-1").hex() if self.last else ""
        record = f"{_NOTE},{self.counted},{told}"
        return record if len(record) <= MOST_LINE else f"{_NOTE},{self.counted},"


def read_note(record: str) -> Note | None:
    """The note that a record is, if it is one."""
    if not record.startswith(f"{_NOTE},"):
        return None
    counted, told = record.removeprefix(f"{_NOTE},").split(",")
    of_record, _, text = bytes.fromhex(told).decode("latin-1").partition("\n")
    return Note(int(counted), Last(of_record, text) if told else None)


class Renewal:
    """When a journal begins anew: after a `forget`, and after so many records by one of its own."""

    def __init__(self, every: int) -> None:
        self.every = every
        self.since = 0  # records that the journal has, but for those it began with
        self._next_try = every
        self.is_forgotten = False  # whether a caller let something go since

    def is_due(self, record: str) -> bool:
        """Whether it is time, before this record is sent.

        Where a round was open it is tried again later, and before a `begin`: then none is open.
        """
        is_late = self.is_forgotten or self.since >= self.every
        return is_late and (self.since >= self._next_try or record.startswith("begin,"))

    def forgot(self) -> None:
        """A caller has let something go."""
        self.is_forgotten, self._next_try = True, self.since

    def put_off(self) -> None:
        """It is tried again later."""
        self._next_try = self.since + max(self.every // _LATER, 1)

    def done(self) -> None:
        """The journal has begun anew."""
        self.since, self._next_try, self.is_forgotten = 0, self.every, False


def renewal_of(every: int | None, links: str) -> Renewal | None:
    """What is asked for; nothing where no number is given."""
    if every is None:
        return None
    if every < 1:
        raise ValueError(f"forget_every is at least 1 record, or None, and not {every}")
    if links != "fifo":
        raise ValueError("forget_every is for links='fifo': others let nothing go")
    return Renewal(every)
