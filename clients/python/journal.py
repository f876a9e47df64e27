#!/usr/bin/env python3
"""Looks whether journals of the client are whole: journal.py check FILE..

For each file one line says how many records it has. Further lines, `FILE: byte PLACE: ..`, say
where it is torn, what is no record, and, where the file of checksums FILE.sums stands beside it,
which records were changed or lost since they were written. Nothing is written to the files.

The status is 0 where all are whole, 1 where one is not, 2 for a wrong command line, and 3 where a
file cannot be read.
"""

import argparse
import os
import pathlib
import sys
from collections.abc import Iterator, Sequence
from typing import NamedTuple

sys.dont_write_bytecode = True  # leaves nothing beside the scripts

from recline.records import COMMANDS
from recline.renewals import FIRST_OF_SAVED, LAST_OF_SAVED
from recline.sums import Sum, changes, path_of, read

NOT_WHOLE, FAILED, INTERRUPTED = 1, 3, 130
MOST_SHOWN = 60  # letters of a record
FIRST = ("world", FIRST_OF_SAVED)
OF_SAVED = (
    "floor", "tape", "send", "recv", "check", "mark", "damage", "bar", "round", LAST_OF_SAVED,
)


class Line(NamedTuple):
    """A line of a journal: its place, its number among the records, and its bytes."""

    place: int
    number: int
    text: bytes


def shown(text: bytes) -> str:
    """A record, as it stands in a line that is told."""
    letters = text.decode("latin-1")
    return repr(letters if len(letters) <= MOST_SHOWN else f"{letters[:MOST_SHOWN]}..")


def lines_of(text: bytes) -> Iterator[Line]:
    """The records; the last one may lack its line feed."""
    place = number = 0
    for text_of_line in text.splitlines(keepends=True):
        if text_of_line.strip(b"\r\n"):
            number += 1
            yield Line(place, number, text_of_line)
        place += len(text_of_line)


def faults_of_records(text: bytes) -> Iterator[str]:
    """What is no record, and a last one without its end."""
    last = None
    may_stand: Sequence[str] = FIRST
    for last in lines_of(text):
        kind = last.text.strip(b"\r\n").decode("latin-1").split(",")[0]
        where = f"byte {last.place}, record {last.number}"
        if not last.text.endswith(b"\n"):
            continue
        if kind not in may_stand:
            yield f"{where}: {shown(last.text.strip())} is no record of a journal here"
        if last.number == 1 and kind == FIRST_OF_SAVED:
            may_stand = OF_SAVED
        elif last.number == 1 or kind == LAST_OF_SAVED:
            may_stand = COMMANDS
    if may_stand is OF_SAVED:
        yield "the saved text that it begins with has no end"
    if last and not last.text.endswith(b"\n"):
        yield (
            f"byte {last.place}, record {last.number}: {shown(last.text)} has no end, "
            f"{len(last.text)} bytes: a client cuts them off, and recline run may read them as "
            "another record"
        )


def faults_of_sums(path: str, sums: list[Sum], size: int) -> Iterator[str]:
    """Which records are not as they were written, and which are lost."""
    file = os.open(path, os.O_RDONLY)
    try:
        for change in changes(sums, file):
            if change.place >= size:
                lost = sum(1 for one in sums if one.place >= change.place)
                end = sums[-1].place + sums[-1].length
                yield f"byte {change.place}: lost from here to byte {end}: records, {lost} of them"
                return
            found = shown(change.found.strip(b"\n"))
            yield f"byte {change.place}: not as it was written, {change.length} bytes: {found}"
    finally:
        os.close(file)


def check(path: str) -> bool:
    """Tells what there is to tell of a journal; answers whether it is whole."""
    text = pathlib.Path(path).read_bytes()
    found = list(faults_of_records(text))
    kept = pathlib.Path(path_of(path))
    sums: list[Sum] = []
    with_sums = f"no checksums in {kept}: a record that was changed is not found"
    if kept.exists():
        of_sums = kept.read_bytes()
        sums, end = read(of_sums)
        with_sums = f"{len(sums)} of them with checksums"
        if end < len(of_sums):
            found.append(f"{kept} has {len(of_sums) - end} bytes at its end that are no checksums")
        found += faults_of_sums(path, sums, len(text))
    records = sum(1 for _ in lines_of(text))
    print(f"{path}: {records} records, {len(text)} bytes; {with_sums}")
    for fault in found:
        print(f"{path}: {fault}")
    return not found


def main() -> int:
    """The status."""
    words = argparse.ArgumentParser(
        prog="journal.py", description=__doc__, usage="journal.py check FILE..",
        formatter_class=argparse.RawDescriptionHelpFormatter,
    )
    words.add_argument("what", choices=["check"])
    words.add_argument("files", metavar="FILE", nargs="+")
    asked = words.parse_args()
    try:
        return 0 if all([check(path) for path in asked.files]) else NOT_WHOLE
    except OSError as error:
        print(f"journal.py: {error.filename}: {error.strerror}", file=sys.stderr)
        return FAILED
    except KeyboardInterrupt:
        print("journal.py: interrupted", file=sys.stderr)
        return INTERRUPTED


if __name__ == "__main__":
    sys.exit(main())
