"""A new world that goes on from the line of an old one."""

from __future__ import annotations

from collections.abc import Sequence

from .calls import Ahead
from .records import Answer
from .values import MessageName, Plan, Replay


def put_world(ahead: Ahead, plan: Plan) -> list[Answer[MessageName]]:
    """What a new world begins with: what was in transit is sent, and each takes its check 1."""
    sent = [ahead.send(it.message.sender, it.to, it.body) for it in plan.replays]
    for process, state in enumerate(plan.states):
        ahead.check(process, state or b"")
    return sent


def renamed(plan: Plan, sent: Sequence[Answer[MessageName]]) -> tuple[Replay, ...]:
    """The replays of a plan by the names that they have in a new world."""
    return tuple(it._replace(message=name.value) for it, name in zip(plan.replays, sent))
