"""A computation whose result is known: at each turn each rank sends a message and receives one."""

from __future__ import annotations

import hashlib
import struct
from typing import NamedTuple

STATE = struct.Struct(">I?16s")
BODY = struct.Struct(">I16s")


class State(NamedTuple):
    """Where a rank is: its turn, whether that turn's message has left, and its value."""
    turn: int
    has_sent: bool
    value: bytes


def first_state(rank: int) -> State:
    """Where a rank begins."""
    return State(0, False, bytes([rank]) * 16)


def read_state(rank: int, stored: bytes | None) -> State:
    """A state that was stored; nothing is stored for the initial one."""
    return State(*STATE.unpack(stored)) if stored else first_state(rank)


def receiver(rank: int, ranks: int, turn: int) -> int:
    """Whom a rank sends its message of a turn to."""
    return (rank + 1 + turn % (ranks - 1)) % ranks


def sender(rank: int, ranks: int, turn: int) -> int:
    """Whose message a rank receives in a turn."""
    return (rank - 1 - turn % (ranks - 1)) % ranks


def body_of(state: State) -> bytes:
    """The message of a rank in its turn."""
    return BODY.pack(state.turn, state.value)


def next_state(state: State, body: bytes) -> State:
    """Where a rank is once it has its message of a turn."""
    return State(state.turn + 1, False, hashlib.sha256(state.value + body).digest()[:16])


def results(ranks: int, turns: int) -> tuple[list[bytes], list[list[bytes]]]:
    """The value of each rank at the end, and the bodies of its messages, without any failure."""
    states = [first_state(rank) for rank in range(ranks)]
    bodies: list[list[bytes]] = [[] for _ in range(ranks)]
    for turn in range(turns):
        sent = [body_of(state) for state in states]
        for rank, body in enumerate(sent):
            bodies[rank].append(body)
        states = [
            next_state(state, sent[sender(rank, ranks, turn)]) for rank, state in enumerate(states)
        ]
    return [state.value for state in states], bodies
