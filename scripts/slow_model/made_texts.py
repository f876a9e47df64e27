"""Random texts of given records: in loose spellings, and with records, fields or bytes changed."""

from collections.abc import Callable, Iterable, Sequence
from random import Random
from typing import Any

from .texts import NOW, Record, shown

ODD_NUMBERS = [
    "0", "1", "2", "3", "4", "64", "65", "256", "257", "65535", "65536", "4294967295", "4294967296",
    "18446744073709551615", "18446744073709551616", "99999999999999999999999",
]
ODD_FIELDS = [
    ODD_NUMBERS,
    ["", "-", "now", "00", "007", "+1", "-1", " 1", "1 ", "1.", "0x61", "0" * 5000 + "1", "fifo",
     "unordered", "lifo"],
    ["6", "61", "6g", "AB", "61" * 64, "61" * 65, "61" * 4096, "61" * 4097],
    ["world", "history", "tape", "send", "recv", "deliver", "check", "mark", "begin", "turn",
     "damage", "bar", "recover", "rounds", "bundle", "plan", "live", "answer", "forget", "floor",
     "failed", "line", "pass", "start", "replay", "end", "Send"],
]
ODD_BYTES = b",\n\r\"0x-9 ~\x7f\xff\x00now"
ODD_TEXTS = [
    b"", b"\n", b"\r\n\n", b"\r", b",", b" ", b"world", b"history,1,1", b"world,1,1,fifo",
    b"\xef\xbb\xbfworld,1,1,fifo\n",
]


def one_in(chance: Random, times: int) -> bool:
    """Whether a thing is done that is done once in so many times."""
    return chance.random() < 1 / times


def loosely(chance: Random, field: Any) -> str:
    """A field in another spelling of the same value."""
    if isinstance(field, bytes):
        upper = chance.randint(0, 2 * len(field))
        return field.hex()[:upper].upper() + field.hex()[upper:]
    if isinstance(field, int) and field != NOW and one_in(chance, 8):
        return "0" * chance.randrange(12) + str(field)
    return shown(field)


def odd_first(chance: Random, kind: str, n: int, *mode: str) -> Record:
    """A first record that may have another version, number of processes or mode."""
    other_mode = [chance.choice([field, "lifo", ""]) for field in mode]
    version = chance.choice([1, 1, 2, 2, 0, 3, 3, 4, 5])
    many = chance.choice([n, n + 1, 0, 64, 65, 256, 257, 2**32])
    return kind, version, many, *other_mode


def text_of(chance: Random, values: Iterable[Record], is_changed: bool) -> bytes:
    """The text of some records, perhaps spelled loosely, perhaps changed to something else."""
    if one_in(chance, 200):
        return chance.choice(ODD_TEXTS)
    is_loose = one_in(chance, 3)
    spelling: Callable[[Random, Any], str] = loosely if is_loose else lambda _, field: shown(field)
    records = [[spelling(chance, field) for field in record] for record in values]
    changes_bytes = is_changed and one_in(chance, 3)
    if is_changed and not changes_bytes:
        for _ in range(chance.choice([1, 1, 2])):
            change_records(chance, records)
    end = chance.choice(["\n", "\n", "\n", "\r\n", "\n\n"])
    text = end.join(",".join(record) for record in records) + chance.choice([end, end, ""])
    return with_other_bytes(chance, text.encode()) if changes_bytes else text.encode()


def change_records(chance: Random, records: list[list[str]]) -> None:
    """Drops, doubles, exchanges or moves a record, or changes fields of one."""
    # Each kind alike, also one of which there are few.
    kind = chance.choice(sorted({record[0] for record in records}))
    i = chance.choice([i for i, record in enumerate(records) if record[0] == kind])
    j = chance.randrange(len(records))
    how = chance.choice(["drop", "double", "double", "exchange", "move", "field", "field", "fewer",
                         "more", "fields"])
    record = records[i]
    if how == "drop" and len(records) > 1:
        del records[i]
    elif how == "double":
        records.insert(chance.choice([i, j]), list(record))
    elif how == "exchange":
        records[i], records[j] = records[j], record
    elif how == "move":
        records.insert(j, records.pop(i))
    elif how == "fewer" and len(record) > 1:
        del record[chance.randrange(len(record))]
    elif how == "more":
        record.insert(chance.randint(0, len(record)), other_field(chance, "", records[j]))
    else:
        places = range(len(record))
        one = [chance.choice(places)] if how == "field" else None
        for at in one or [at for at in places if one_in(chance, 2)]:
            record[at] = other_field(chance, record[at], records[j])


def other_field(chance: Random, field: str, record: Sequence[str]) -> str:
    """Another field: for a number mostly a number, else any odd one or one of another record."""
    if field.isdigit() and one_in(chance, 2):
        return chance.choice(ODD_NUMBERS)
    return chance.choice(chance.choice(ODD_FIELDS) if one_in(chance, 2) else record)


def with_other_bytes(chance: Random, before: bytes) -> bytes:
    """A text with one or two bytes more, fewer or others."""
    text = bytearray(before)
    for _ in range(chance.choice([1, 1, 2])):
        at = chance.randrange(len(text) + 1)
        how = chance.choice(["add", "replace", "cut"])
        if how == "cut":
            del text[at:at + chance.choice([1, 2, 5, 30])]
        else:
            byte = chance.choice(ODD_BYTES) if one_in(chance, 2) else chance.randrange(32, 127)
            text[at:at + (how == "replace")] = bytes([byte])
    return bytes(text)
