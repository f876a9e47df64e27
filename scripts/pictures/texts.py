"""Reading a script and the replies to it, both of which the program has found to be in order."""

from collections.abc import Iterator
from typing import NamedTuple

from slow_model.texts import NOW

Fields = list[str]
Reply = list[Fields]
Choice = float  # the index of a check, or NOW, which is later than each
ANSWERS = {
    "sent",
    "took",
    "marked",
    "stale",
    "repeated",
    "checked",
    "begun",
    "turned",
    "damaged",
    "barred",
    "recovered",
    "planned",
    "rounds",
    "forgot",
    "history",
    "refused",
}  # the first records of replies


class Command(NamedTuple):
    """A command of a script: the number of its record, its name, and its fields."""

    record: int
    name: str
    fields: Fields


class Script(NamedTuple):
    """How many processes there are, whether links keep their order, and the commands.

    Of links that nothing is known of, as in reports, it is none.
    """

    processes: int
    is_fifo: bool | None
    commands: list[Command]


def begins_saved(text: bytes) -> bool:
    """Whether a script begins with a machine that was saved."""
    return text.lstrip(b"\r\n").startswith(b"history,")


def read_script(text: bytes) -> Script:
    """Reads a script that the program has taken; empty lines are not counted."""
    lines = [line for line in text.decode("ascii").replace("\r\n", "\n").split("\n") if line]
    _, _, processes, mode = lines[0].split(",")
    commands = []
    for record, line in enumerate(lines[1:], 2):
        name, *fields = line.split(",")
        commands.append(Command(record, name, fields))
    return Script(int(processes), mode == "fifo", commands)


def read_choice(field: str) -> Choice:
    """A field that is a choice."""
    return NOW if field == "now" else int(field)


def read_replies(output: bytes) -> Iterator[Reply]:
    """The records of each reply, in the order of the commands.

    A bundle is a history with a claim after it, so that its records go on to its `end`.
    """
    reply: Reply = []
    for line in output.decode("ascii").splitlines():
        fields = line.split(",")
        if reply and fields[0] in ANSWERS:
            yield reply
            reply = []
        reply.append(fields)
    if reply:
        yield reply
