"""The calls, each as the record that it is and the way in which its answer is read."""

from __future__ import annotations

from collections.abc import Callable
from typing import Any, TypeVar

from .errors import Fault, ReplaysMissing
from .histories import Claim, History
from .records import (
    MOST_LINE, MOST_PLACE, Answer, Failed, hexadecimal, number, numbers, read_barred, read_begun,
    read_checked, read_claim, read_damaged, read_delivered, read_forgot, read_history, read_plan,
    read_planned, read_rounds, read_saved, read_sent, read_turned, round_number, with_bodies,
)
from .values import Begun, Delivered, Floor, MessageName, Plan, Round, Turned

T = TypeVar("T")


class Calls:
    """Each call makes its record, with an `Answer` that is not there yet."""

    def __init__(self, put: Callable[[Answer[Any]], None] | None = None) -> None:
        self.not_done: list[Answer[Any]] = []
        self._put = put  # what takes each record as it is made, if anything does

    def _tell(self, read: Callable[[str], T], *fields: str) -> Answer[T]:
        """A record of these fields, whose answer is read so."""
        record = ",".join(fields)
        if len(record) > MOST_LINE:
            raise ValueError(f"a record of {len(record)} bytes: {MOST_LINE} at most")
        answer = Answer(record, read, self.not_done)
        if self._put is not None:
            self._put(answer)
        return answer

    def _tell_plan(self, read: Callable[[str], Plan], *fields: str) -> Answer[Plan]:
        """A record that is answered by a plan."""
        return self._tell(read, *fields)

    def send(self, sender: int, to: int, body: bytes = b"") -> Answer[MessageName]:
        """As `Service.send`."""
        return self._tell(read_sent, "send", number(sender), number(to), hexadecimal(body))

    def deliver(
        self, sender: int, to: int, pick: int = 0, state: bytes = b""
    ) -> Answer[Delivered]:
        """As `Service.deliver`."""
        of_item = number(sender), number(to), number(pick, MOST_PLACE)
        return self._tell(read_delivered, "deliver", *of_item, hexadecimal(state))

    def check(self, process: int, state: bytes = b"") -> Answer[int]:
        """As `Service.check`."""
        return self._tell(read_checked, "check", number(process), hexadecimal(state))

    def begin(self, process: int, state: bytes = b"") -> Answer[Begun]:
        """As `Service.begin`."""
        return self._tell(read_begun, "begin", number(process), hexadecimal(state))

    def turn(self, process: int, state: bytes = b"") -> Answer[Turned]:
        """As `Service.turn`."""
        return self._tell(read_turned, "turn", number(process), hexadecimal(state))

    def damage(self, process: int, check: int) -> Answer[None]:
        """As `Service.damage`."""
        return self._tell(read_damaged, "damage", number(process), number(check))

    def bar(self, process: int, check: int) -> Answer[None]:
        """As `Service.bar`."""
        return self._tell(read_barred, "bar", number(process), number(check))

    def recover(self, failed: Failed = ()) -> Answer[Plan]:
        """As `Service.recover`."""
        return self._tell_plan(read_plan, "recover", *numbers(failed))

    def forget(self, round: int | None = None) -> Answer[tuple[Floor, ...]]:
        """As `Service.forget`."""
        return self._tell(read_forgot, "forget", *([] if round is None else [round_number(round)]))

    def plan(self, failed: Failed = ()) -> Answer[Plan]:
        """As `Service.plan`."""
        return self._tell_plan(read_planned, "plan", *numbers(failed))

    def live(self) -> Answer[Plan]:
        """As `Service.live`."""
        return self._tell_plan(read_planned, "live")

    def rounds(self) -> Answer[tuple[Round, ...]]:
        """As `Service.rounds`."""
        return self._tell(read_rounds, "rounds")

    def history(self) -> Answer[History]:
        """As `Service.history`."""
        return self._tell(read_history, "history")

    def save(self) -> Answer[str]:
        """As `Service.save`."""
        return self._tell(read_saved, "save")

    def bundle(self, failed: Failed = ()) -> Answer[Claim]:
        """As `Service.bundle`."""
        return self._tell(read_claim, "bundle", *numbers(failed))

    def answer(self, failed: Failed = ()) -> Answer[Claim]:
        """As `Service.answer`."""
        return self._tell(read_claim, "answer", *numbers(failed))


class Ahead(Calls):
    """Records that are sent ahead. After each that is answered by a plan goes a look at the
    history, which has the bodies of its replays; that look stands in no journal.
    """

    def end(self) -> None:
        """The block is over: no more records are taken."""
        self._put = take_none

    def _tell_plan(self, read: Callable[[str], Plan], *fields: str) -> Answer[Plan]:
        """Sends the record, and a look at the history."""
        answer = self._tell(read, *fields)
        if self._put is not None:
            self._put(look_for(answer))
        return answer


def take_none(_answer: Answer[Any]) -> None:
    """What takes records once a block is over."""
    raise RuntimeError("the block of together() is over")


def look_for(plan: Answer[Plan]) -> Answer[History]:
    """A look at the history that gives an answered plan the bodies of its replays."""
    look = Answer("history", read_history, is_aside=True)

    def fill() -> None:
        """Puts them in, or what they could not be had for."""
        if plan.error is None and plan.value.replays:
            if look.error is None:
                plan.change(with_bodies(plan.value, look.value))
            else:
                plan.fail(missing(plan, look.error))

    look.told = fill
    return look


def missing(plan: Answer[Plan], error: Exception) -> Exception:
    """What is raised of a plan whose replays' bodies are not told."""
    return ReplaysMissing(plan.value, plan.record) if isinstance(error, Fault) else error


def obsolete(plan: Plan) -> tuple[range, ...]:
    """By the plan where every process fails: the checks of each process before its line."""
    return tuple(range(1, check or 1) for check in plan.line)
