"""The checksums of a journal's records, in a file beside it.

Each line is `PLACE LENGTH SUM`: the place of a record in the journal, its length in bytes with its
line feed, and the CRC-32 of these bytes in hexadecimal. A later line of the same place counts in
the place of an earlier one. A length of 0 says that the journal was cut at that place.
"""

from __future__ import annotations

import bisect
import os
import re
import zlib
from collections.abc import Iterable, Iterator
from typing import NamedTuple

ENDING = ".sums"  # of the file's name, after that of the journal
_LINE = re.compile(rb"(\d{1,19}) (\d{1,9}) ([0-9a-f]{8})\n")


class Sum(NamedTuple):
    """The checksum of a record."""

    place: int
    length: int
    sum: int

    def line(self) -> bytes:
        """As it stands in the file."""
        return b"%d %d %08x\n" % self


class Change(NamedTuple):
    """A record that is not as it was written, or is gone: `found` has what stands there."""

    place: int
    length: int
    found: bytes


def sum_of(place: int, record: bytes) -> Sum:
    """The checksum of a record, its line feed among its bytes."""
    return Sum(place, len(record), zlib.crc32(record))


def path_of(journal: str) -> str:
    """The file of checksums of a journal."""
    return journal + ENDING


def read(text: bytes) -> tuple[list[Sum], int]:
    """The checksums that count, by place, and the length of the text that has them.

    What follows the first line that is none is left out: it may have been written half.
    """
    places: list[int] = []
    found: list[Sum] = []
    end = 0
    while line := _LINE.match(text, end):
        end = line.end()
        one = Sum(int(line[1]), int(line[2]), int(line[3], 16))
        at = len(places)
        if places and one.place <= places[-1]:
            at = bisect.bisect_left(places, one.place)
        if not one.length:
            del places[at:], found[at:]
        elif at < len(places) and places[at] == one.place:
            found[at] = one
        else:
            places.insert(at, one.place)
            found.insert(at, one)
    return found, end


def changes(sums: Iterable[Sum], journal: int) -> Iterator[Change]:
    """The records of an open journal that are not as they were written, by place."""
    for one in sums:
        found = os.pread(journal, one.length, one.place)
        if len(found) != one.length or zlib.crc32(found) != one.sum:
            yield Change(one.place, one.length, found)


class Sums:
    """The file of checksums of a journal that is written."""

    def __init__(self, journal: str) -> None:
        self.path = path_of(journal)
        opened = os.open(self.path, os.O_RDWR | os.O_CREAT, 0o666)
        self._file = open(opened, "r+b", buffering=0)
        self._waiting: list[bytes] = []
        with open(os.dup(opened), "rb") as file:
            file.seek(0)
            self.known, self._end = read(file.read())

    def known_to(self) -> int:
        """To where in the journal there are checksums."""
        return self.known[-1].place + self.known[-1].length if self.known else 0

    def add(self, one: Sum) -> None:
        """Takes a checksum, to be written."""
        self._waiting.append(one.line())

    def write(self) -> None:
        """Writes those that wait."""
        text, self._waiting = b"".join(self._waiting), []
        while text:
            written = os.pwrite(self._file.fileno(), text, self._end)
            text, self._end = text[written:], self._end + written

    def sync(self) -> None:
        """Has the device keep what is written."""
        os.fsync(self._file.fileno())

    def begin(self) -> None:
        """Cuts off what is no line, and forgets what was read."""
        self._file.truncate(self._end)
        self.known = []

    def close(self) -> None:
        """Lets the file go."""
        self._file.close()
