"""Scripts: `recline run`."""

from collections.abc import Callable, Iterator, Sequence
from typing import Any

from .machine import World
from .saved import Saved, begin
from .texts import (
    NAMES, Answer, Fault, Records, Refusal, fields_of, first_record, hexadecimal, number, numbered,
    place, records_by_lines, records_of, round_number, told, want, written,
)

# A command by its name, and its values.
Command = tuple[str, list[Any]]
READERS: dict[str, list[Callable[[str], Any]]] = {
    "send": [number, number, hexadecimal],
    "deliver": [number, number, place, hexadecimal],
    "check": [number, hexadecimal],
    "begin": [number, hexadecimal],
    "turn": [number, hexadecimal],
    "damage": [number, number],
    "bar": [number, number],
    "rounds": [],
    "history": [],
    "save": [],
    "live": [],
}
OF_FAILED = ["recover", "bundle", "plan", "answer"]  # with any number of processes
OF_ROUND = "forget"  # with the number of a round, or without
METHODS = {"history": "history_text"}  # where the world's method has another name


def world_of(fields: Sequence[str]) -> tuple[int, str]:
    """The number of processes and the mode that a first record spells."""
    _version, n = first_record(fields, "world", 4)
    want(fields[3] in ("fifo", "unordered"), 32)
    return n, fields[3]


def command_of(fields: Sequence[str]) -> Command:
    """The name of a command and its values."""
    name, rest = fields[0], fields[1:]
    if name == OF_ROUND:
        return name, fields_of([round_number][:len(rest)], rest)
    want(name in READERS or name in OF_FAILED, 32)
    return name, fields_of([number] * len(rest) if name in OF_FAILED else READERS[name], rest)


def new_world(fields: Sequence[str]) -> World:
    """The machine that a first record begins."""
    return World(*world_of(fields))


def begun_by(fields: Sequence[str]) -> World | Saved:
    """What a first record begins: a machine, or the text of one that was saved."""
    return begin(fields) if fields[0] == "history" else new_world(fields)


def read_script(text: bytes) -> tuple[World, list[Command]]:
    """The machine that a script begins with, and its commands.

    A machine that was saved is opened once all is read.
    """
    records = list(enumerate(records_of(text), 1))
    begun: World | Saved = numbered(1, begun_by, records[0][1])
    rest = iter(records[1:])
    if isinstance(begun, World):
        return begun, commands_of(rest)
    last = read_saved(begun, rest, len(records))
    commands = commands_of(rest)
    return numbered(last, begun.opened), commands


def commands_of(records: Iterator[tuple[int, list[str]]]) -> list[Command]:
    """The commands that records spell."""
    return [numbered(i, command_of, fields) for i, fields in records]


def read_saved_text(text: bytes) -> World:
    """The machine that the lines of a saved text spell, which has nothing after it."""
    records = list(enumerate(records_by_lines(text), 1))
    saved = numbered(1, begin, records[0][1])
    rest = iter(records[1:])
    last = read_saved(saved, rest, len(records))
    for i, _ in rest:
        raise Fault(32, i)
    return numbered(last, saved.opened)


def read_saved(saved: Saved, records: Iterator[tuple[int, list[str]]], last: int) -> int:
    """Reads the next records to the last one of a saved machine, and answers its number."""
    for i, fields in records:
        numbered(i, saved.read, fields)
        if saved.is_whole:
            return i
    raise Fault(32, last + 1)


def answer(world: World, name: str, values: Sequence[Any]) -> tuple[Records, bool]:
    """The records of a reply or of a refusal, and whether it is a refusal."""
    try:
        return getattr(world, METHODS.get(name, name))(*values), False
    except Refusal as refusal:
        return [("refused", refusal.code, NAMES[refusal.code])], True


def run(text: bytes) -> Answer:
    """What the program has to write, say and answer."""
    try:
        world, commands = read_script(text)
    except Fault as fault:
        return told(fault)
    answers = [answer(world, name, values) for name, values in commands]
    output = b"".join(written(records) for records, _ in answers)
    return output, b"", int(any(is_refusal for _, is_refusal in answers))
