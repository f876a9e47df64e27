"""What texts are made of: records, fields, and the names of refusals and faults."""

import re
from collections.abc import Callable, Iterable, Sequence
from typing import Any, TypeVar

NAMES = {
    0: "OutOfMemory", 1: "NoSuchProcess", 2: "BodyTooLong", 3: "TapeFull", 4: "NoSuchCheck",
    5: "StateTooLong", 6: "BadCount", 7: "InitialDamage", 8: "AlreadyDamaged", 11: "NotTop",
    12: "NotReceived", 13: "NotOrphan", 14: "LineDiffers", 15: "NotConsistent", 16: "BadShape",
    17: "ToSelf", 18: "LinkEmpty", 19: "BadPick", 20: "RoundOpen", 21: "NothingToTurn",
    22: "WrongMode", 23: "NoMoreRounds", 24: "NoMoreIncarnations", 32: "BadRecord",
    33: "BadNumber", 34: "NoWorld", 35: "BadVersion", 38: "NamesDisagree", 40: "BarNotLower",
    41: "StateDiffers", 42: "IncarnationDiffers", 43: "NotInTransit", 44: "ReplayDiffers",
    45: "ReplayRepeated", 46: "ReplayMissing", 48: "NoSuchRound", 49: "RoundLost",
    50: "NoMoreNumbers",
}
NOW = 2**100  # the choice that is later than every check
MOST_PROCESSES, MOST_BODY, MOST_STATE, MOST_EVENTS = 256, 64, 4096, 1_000_000
MOST_IN_FIRST_VERSION = 64  # processes of a text of version 1, and choices of a line in it
LAST_VERSIONS = {"world": 2, "history": 4, "reports": 2}  # by the first field of the first record
OF_FORGET = 4  # the version of histories of which the beginning was let go
MOST_INCARNATION, MOST_ROUND = 65_535, 65_535
DIGITS, HEX_DIGITS = set("0123456789"), set("0123456789abcdefABCDEF")
# The values of a record's fields: words, numbers, bytes, and None for `-`.
Record = Sequence[Any]
Records = list[Record]
# What the program writes and says, and its status.
Answer = tuple[bytes, bytes, int]
Value = TypeVar("Value")
# Blanks to tildes but the double quote; a carriage return only before a line feed.
TEXT = re.compile(rb"([ !#-~\n]|\r\n)*")
LINE = re.compile(rb"[ !#-~]*")
# Bytes of a line that comes by itself, without its line feed; a carriage return is one of them.
MOST_LINE = 65_536


class Fault(Exception):
    """A fault of the text: its number, and its record once that is known."""

    def __init__(self, code: int, record: int | None = None) -> None:
        super().__init__(code, record)
        self.code, self.record = code, record


class Refusal(Exception):
    """A refused command: its number."""

    def __init__(self, code: int) -> None:
        super().__init__(code)
        self.code = code


def want(holds: object, code: int) -> None:
    """A fault unless something holds."""
    if not holds:
        raise Fault(code)


def refuse(code: int, cause: object) -> None:
    """A refusal where its cause holds."""
    if cause:
        raise Refusal(code)


def numbered(record: int, read: Callable[..., Value], *values: Any) -> Value:
    """What is read of a record; a fault of it has the record's number."""
    try:
        return read(*values)
    except Fault as fault:
        raise Fault(fault.code, record) from None


# Reading.

def records_of(text: bytes) -> list[list[str]]:
    """The fields of each record of a text."""
    if not TEXT.fullmatch(text):
        raise Fault(32, 0)
    lines = text.decode("ascii").replace("\r\n", "\n").split("\n")
    records = [line.split(",") for line in lines if line]
    if not records:
        raise Fault(34, 1)
    return records


def records_by_lines(text: bytes) -> list[list[str]]:
    """The fields of each line that has some; a line that is no record has an empty one alone."""
    *ended, last = text.split(b"\n")
    records = []
    for line, bare in [*((it, it.removesuffix(b"\r")) for it in ended), (last, last)]:
        is_record = len(line) <= MOST_LINE and LINE.fullmatch(bare)
        if bare:
            records.append(bare.decode("ascii").split(",") if is_record else [""])
    if not records:
        raise Fault(34, 1)
    return records


def number(field: str, most: int = 2**32 - 1, least: int = 0) -> int:
    """The number that a field spells, within these bounds."""
    want(field and DIGITS.issuperset(field), 33)
    # A field may have thousands of leading zeros.
    digits = field.lstrip("0") or "0"
    want(len(digits) <= 20 and least <= int(digits) <= most, 33)
    return int(digits)


def place(field: str) -> int:
    """A place on a link."""
    return number(field, 2**64 - 1)


def incarnation(field: str) -> int:
    """An incarnation."""
    return number(field, MOST_INCARNATION)


def round_number(field: str) -> int:
    """The number of a round."""
    return number(field, MOST_ROUND, 1)


def round_or_none(field: str) -> int | None:
    """The number of a round, or none."""
    return None if field == "-" else round_number(field)


def choice(field: str) -> int:
    """A choice."""
    return NOW if field == "now" else number(field)


def hexadecimal(field: str) -> bytes:
    """The bytes that a field spells."""
    want(len(field) % 2 == 0 and HEX_DIGITS.issuperset(field), 33)
    return bytes.fromhex(field)


def state_or_none(field: str) -> bytes | None:
    """The bytes of a state, or none."""
    return None if field == "-" else hexadecimal(field)


def fields_of(readers: Sequence[Callable[[str], Any]], fields: Sequence[str]) -> list[Any]:
    """The values of the fields of a record, one reader for each, from left to right."""
    want(len(readers) == len(fields), 32)
    return [reader(field) for reader, field in zip(readers, fields)]


def most_in(version: int) -> int:
    """How many processes a text of a version may have."""
    return MOST_IN_FIRST_VERSION if version == 1 else MOST_PROCESSES


def earliest_version(n: int) -> int:
    """The first version whose texts may have so many processes."""
    return 1 if n <= MOST_IN_FIRST_VERSION else 2


def first_record(fields: Sequence[str], kind: str, width: int) -> tuple[int, int]:
    """The version of a first record, and its number of processes."""
    want(fields[0] == kind, 34)
    want(len(fields) == width, 32)
    version, n = number(fields[1]), number(fields[2])
    want(1 <= version <= LAST_VERSIONS[kind], 35)
    want(1 <= n <= most_in(version), 6)
    return version, n


# Writing.

def shown(value: Any) -> str:
    """A field as it is written."""
    if value is None:
        return "-"
    if value == NOW:
        return "now"
    return value.hex() if isinstance(value, bytes) else str(value)


def written(records: Iterable[Record]) -> bytes:
    """The text of some records."""
    return "".join(",".join(map(shown, record)) + "\n" for record in records).encode()


def told(fault: Fault) -> Answer:
    """What the program writes, says and answers where a text has a fault."""
    said = f"recline: record {fault.record}: {fault.code} {NAMES[fault.code]}\n"
    return b"", said.encode(), 2
