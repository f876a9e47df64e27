"""Services that are refused memory just while they let go: what has to come of it."""

from collections.abc import Iterator, Sequence
from random import Random

import refused_service
from conversations import Difference
from slow_model.made_scripts import DOMINOES, ROUNDS, Player
from slow_model.scripts import OF_ROUND
from slow_model.service import Service
from slow_model.texts import Record, shown

MOST_PROCESSES = 4
STEPS = 60  # before each time that something is let go
TIMES = 3
SHOWING: list[Record] = [("rounds",), ("answer",), ("live",), ("history",)]


def some_player(chance: Random) -> Player:
    """A player of few processes, whose links keep their order, and which lets nothing go itself."""
    while True:
        player = Player(chance, [ROUNDS, ROUNDS, DOMINOES])
        if 1 < player.n <= MOST_PROCESSES and player.mode == "fifo":
            player.weights[OF_ROUND] = 0
            return player


def close_round(player: Player) -> None:
    """Has what is on the links delivered until no round is open."""
    pairs = [(p, q) for p in range(player.n) for q in range(player.n) if p != q]
    while player.world.open_round():
        for p, q in pairs:
            if player.link(p, q):
                player.add("deliver", p, q, 0, b"closed")


def some_round(chance: Random, player: Player) -> list[int]:
    """A listed round whose checks survive, or no round."""
    allows = player.world.marks.allow
    safe = [it.number for it in player.world.listed if all(map(allows, range(player.n), it.checks))]
    return [chance.choice(safe)] if safe and chance.random() < 0.7 else []


def lines(chance: Random) -> list[bytes]:
    """Records in which something is let go some times, and all is shown after each of them."""
    player = some_player(chance)
    for _ in range(TIMES):
        for _ in range(STEPS):
            player.add(*player.command())
        close_round(player)
        player.add(OF_ROUND, *some_round(chance, player))
        for record in SHOWING:
            player.add(*record)
    first: Record = ("world", 1, player.n, "fifo")
    return [",".join(map(shown, it)).encode() + b"\n" for it in [first, *player.commands]]


def requests_of(command: Sequence[str], library: str, records: Sequence[bytes]) -> Iterator[int]:
    """The requests for memory that are made to let something go, by number."""
    for at, record in enumerate(records):
        if record.startswith(OF_ROUND.encode()):
            before, after = [
                refused_service.run(command, library, b"".join(records[:end])).counts.growths
                for end in (at, at + 1)
            ]
            yield from range(before + 1, after + 1)


def refuse(
    command: Sequence[str], library: str, records: Sequence[bytes], model: type[Service], most: int
) -> list[str]:
    """Refuses so many of them at most, alone and with all later ones; answers what to count.

    Where a record has no memory nothing is let go, and all later answers are as if it had not been
    asked for.
    """
    text, found = b"".join(records), list[str]()
    requests = list(requests_of(command, library, records))
    for request in requests[::max(len(requests) // most, 1)]:
        try:
            for way in (refused_service.refuse_growth, refused_service.refuse_all):
                found.append(f"forget: {way(command, library, text, request, model)}")
        except Difference as it:
            raise Difference(f"request {request} for memory: {it}") from None
    return found
