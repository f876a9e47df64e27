"""A script of what an MPI job has done, for ./draw, ./explain and `recline run`.

It is made of a history text as `recline collect` writes it. Each receipt stands after its
send,
and otherwise ranks take turns. What recoveries have cut is not there, and incarnations begin at 0
again; numbers of checkpoints stay, and those of messages too, but that a script has no message of a
rank to itself.
"""

from __future__ import annotations

from collections.abc import Sequence


class Tape:
    """The events of a rank, and how many of them the script has."""

    def __init__(self) -> None:
        self.events: list[tuple[str, ...]] = []
        self.done = self.sent = 0
        self.places: list[int] = []  # of each message that it sends, on the link to its receiver
        self.on_links: dict[int, int] = {}

    def add(self, word: str, fields: tuple[str, ...]) -> None:
        """The next event, as a record of the history text."""
        self.events.append((word, *fields))
        if word == "send":
            to = int(fields[0])
            self.places.append(self.on_links.get(to, 0))
            self.on_links[to] = self.places[-1] + 1


def tapes_in(history: Sequence[str]) -> list[Tape]:
    """The tapes of a history text."""
    tapes: list[Tape] = []
    for record in history[1:]:
        word, *fields = record.split(",")
        if word == "tape":
            tapes.append(Tape())
        else:
            tapes[-1].add(word, tuple(fields))
    return tapes


def next_of(tapes: Sequence[Tape], number: int) -> str | None:
    """The record of a rank's next event, empty where a script has none; None where it waits."""
    tape = tapes[number]
    if tape.done == len(tape.events):
        return None
    word, *fields = tape.events[tape.done]
    record = ""
    if word == "send":
        tape.sent += 1
        if int(fields[0]) != number:
            record = f"send,{number},{fields[0]},"
    elif word == "recv":
        sender, message = int(fields[0]), int(fields[2])
        if message >= tapes[sender].sent:
            return None
        if sender != number:
            record = f"deliver,{sender},{number},{tapes[sender].places[message]},"
    elif word == "check":
        record = f"check,{number},{fields[0]}"
    tape.done += 1
    return record


def script_of(history: Sequence[str]) -> list[str]:
    """The records of a script that ends with the recovery in which all ranks failed."""
    tapes = tapes_in(history)
    version = history[0].split(",")[1]
    script, is_further = [f"world,{version},{len(tapes)},unordered"], True
    while is_further:
        is_further = False
        for number in range(len(tapes)):
            record = next_of(tapes, number)
            if record is not None:
                is_further = True
                script += [record] if record else []
    return [*script, ",".join(["recover", *map(str, range(len(tapes)))])]
