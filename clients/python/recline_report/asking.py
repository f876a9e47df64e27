"""Asks a hub: what there is, what it would plan, and for a recovery."""

from __future__ import annotations

import os
from collections.abc import Iterable, Sequence
from typing import Any, NamedTuple

from recline import Floor, MessageName, Passed

from . import wire
from .wire import HubError

SECONDS = 30.0  # in which a hub answers, beside what a recovery takes
MOST_ANSWER = 1 << 30


class HubPlan(NamedTuple):
    """Where each process goes on; `line`, `states` and `incarnations` have one item a process."""
    line: tuple[int | None, ...]  # the check that it goes back to, 0 the initial state; None: stays
    states: tuple[bytes | None, ...]  # what that check stored, b"" for an initial state
    incarnations: tuple[int, ...]  # under which it goes on: how often it has gone back so far
    certificate: tuple[Passed, ...]  # why nothing later can be kept
    replays: tuple[MessageName, ...]  # in transit at the line: their senders send them again
    sweeps: int  # how often the planner went through the processes


def plan_of(text: str) -> HubPlan:
    """The plan that an answer of `recline collect` to `plan`, `live` or `recover` spells."""
    first, *others = text.removesuffix("\n").split("\n")
    kind, sweeps, entries, replays = first.split(",")
    if kind not in ("planned", "recovered"):
        raise HubError(first)
    records = [record.split(",") for record in others]
    count = len(records) - int(entries) - int(replays)
    lines, passed = records[:count], records[count:count + int(entries)]
    choices = [_choice(line[2]) for line in lines]
    return HubPlan(
        tuple(choices),
        tuple(None if at is None else bytes.fromhex(line[4]) for at, line in zip(choices, lines)),
        tuple(int(line[3]) for line in lines),
        tuple(Passed(int(it[1]), _choice(it[2]), _name(it[3:])) for it in passed),
        tuple(_name(it[1:]) for it in records[count + int(entries):]),
        int(sweeps),
    )


def floors_of(text: str) -> tuple[Floor, ...]:
    """What the answer of `recline collect` to `forget` says of each process."""
    first, *records = text.removesuffix("\n").split("\n")
    if first != "forgot,-":
        raise HubError(first)
    fields = [record.split(",") for record in records]
    return tuple(Floor(int(check), int(sends)) for _, _, check, sends in fields)


def _choice(field: str) -> int | None:
    """A choice, none where the process stands."""
    return None if field == "now" else int(field)


def _name(fields: Sequence[str]) -> MessageName:
    """A message's name."""
    return MessageName(*map(int, fields))


class Hub:
    """A hub that is asked, each time over a connection of its own.

    `address`: `unix:PATH` or `tcp:HOST:PORT`; `token`: the path of the file with its token. Raises
    `HubError` where the hub says no, `OSError` where there is none.
    """

    def __init__(self, address: str, token: str | os.PathLike[str] | None = None) -> None:
        self._address = wire.address_of(address)
        self._token = wire.read_token(token)

    def ask(self, *words: str, seconds: float = SECONDS) -> dict[str, Any]:
        """The hub's answer to these words, as an object of JSON."""
        with wire.connect(self._address, seconds) as made, made.makefile("rb") as file:
            talk = wire.Talk.of_greeting(self._token, _line(file.readline(wire.MOST_LINE)))
            fields = ["ask", talk.own, talk.proof(*words), *words]
            made.sendall(",".join(fields).encode() + b"\n")
            it = wire.read_json(file.readline(MOST_ANSWER))
        if it["is"] == "error":
            raise HubError(it["why"])
        talk.test(it["proof"])
        answer: dict[str, Any] = it["answer"]
        return answer

    def status(self) -> dict[str, Any]:
        """What there is: each process, how much is kept, and how far the service is."""
        return self.ask("status")

    def plan(self, failed: Iterable[int] = ()) -> HubPlan:
        """Where each process would go on if these failed, from what has come in."""
        return plan_of(self.ask("plan", *map(str, sorted(set(failed))))["text"])

    def live(self) -> HubPlan:
        """The plan where every process fails. What lies before its line may be let go."""
        return plan_of(self.ask("live")["text"])

    def forget(self) -> tuple[Floor, ...]:
        """The hub itself lets go what lies before the line of `live`, which no recovery needs.

        It answers of each process the check that it begins with, 0 for its initial state, and how
        many of its first messages are gone, both counted from the beginning. All names and numbers
        stay as they are.
        """
        return floors_of(self.ask("forget")["text"])

    def recover(self, failed: Iterable[int] = (), within: float = 10.0) -> HubPlan:
        """These processes have failed: all others are held, and each is told where it goes on.

        One that does not answer within so many seconds counts as failed too.
        """
        words = ["recover", str(round(1_000 * within)), *map(str, sorted(set(failed)))]
        return plan_of(self.ask(*words, seconds=within + SECONDS)["text"])


def _line(line: bytes) -> str:
    """A line that has come whole."""
    if not line.endswith(b"\n"):
        raise HubError("the hub has ended the connection")
    return line[:-1].decode("latin-1")
