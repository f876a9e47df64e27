"""A rank of the trial: it computes, reports to the hub, and goes back where the hub says so.

    rank.py RANK RANKS TURNS FOLDER HUB [TOKEN]
"""

from __future__ import annotations

import contextlib
import json
import os
import pathlib
import random
import select
import socket
import sys
import time

sys.dont_write_bytecode = True  # leaves nothing beside the tests
sys.path.insert(0, str(pathlib.Path(__file__).resolve().parent.parent))

import ring
from recline_report import Letter, MessageName, Recovery, Reporter, TakenAsFailed, WentBack


class Rank:
    """A rank, and the messages that came and that it has not taken."""

    def __init__(
        self, rank: int, ranks: int, turns: int, folder: str, hub: str, token: str | None = None
    ) -> None:
        self.rank, self.ranks, self.turns, self.folder = rank, ranks, turns, folder
        self.chance = random.Random(f"{rank} {os.getpid()}")
        self.inbox: dict[int, list[tuple[MessageName, bytes]]] = {}
        # What is sent again comes as soon as the hub knows of this life: so this is first.
        self.socket = socket.socket(socket.AF_UNIX, socket.SOCK_DGRAM)
        with contextlib.suppress(FileNotFoundError):
            os.unlink(self.path(rank))
        self.socket.bind(self.path(rank))
        self.reporter = Reporter(rank, ranks, hub, token=token, timeout=120)
        self.is_ending = False
        self.state = ring.first_state(rank)
        self.go_on(self.reporter.start)

    def path(self, rank: int) -> str:
        """Where a rank takes messages."""
        return f"{self.folder}/rank{rank}"

    def done_path(self) -> str:
        """The file that says that a rank is done."""
        return f"{self.folder}/done{self.rank}"

    def go_on(self, recovery: Recovery | None) -> None:
        """Goes on from a recovery."""
        if recovery is None:
            return
        if recovery.choice is not None:
            self.state = ring.read_state(self.rank, recovery.state)
        with contextlib.suppress(FileNotFoundError):
            os.unlink(self.done_path())
        for letter in recovery.resend:
            self.put(letter)

    def put(self, letter: Letter) -> None:
        """Sends a message; one to a rank that is not there is lost, but for the first time."""
        while self.reporter.recoveries == 0 and not os.path.exists(self.path(letter.to)):
            time.sleep(0.01)
        told = json.dumps([*letter.name, letter.body.hex()]).encode()
        with contextlib.suppress(ConnectionRefusedError, FileNotFoundError):
            self.socket.sendto(told, self.path(letter.to))

    def wait(self, seconds: float | None) -> None:
        """Waits for a message, a recovery, or the end."""
        ready, _, _ = select.select([self.socket, self.reporter, 0], [], [], seconds)
        if self.reporter in ready:
            self.go_on(self.reporter.take_recovery())
        if self.socket in ready:
            *name, body = json.loads(self.socket.recv(4_096))
            turn, _ = ring.BODY.unpack(bytes.fromhex(body))
            self.inbox.setdefault(turn, []).append((MessageName(*name), bytes.fromhex(body)))
        if 0 in ready:
            self.is_ending = True

    def step(self) -> None:
        """Does the next thing."""
        state, chance = self.state, self.chance
        if not state.has_sent:
            to, body = ring.receiver(self.rank, self.ranks, state.turn), ring.body_of(state)
            name = self.reporter.send(to, body)
            if chance.random() < 0.02:
                time.sleep(0.02)
            self.put(Letter(name, to, body))
            self.state = state._replace(has_sent=True)
        elif self.inbox.get(state.turn):
            name, body = self.inbox[state.turn].pop()
            if self.reporter.received(name):
                self.state = ring.next_state(state, body)
        else:
            self.wait(1)
            return
        if chance.random() < 0.15:
            self.reporter.check(ring.STATE.pack(*self.state))
        if chance.random() < 0.3:
            time.sleep(chance.random() * 0.01)

    def end(self) -> None:
        """Says that it is done, and waits for the end or a recovery."""
        self.reporter.flush()
        told = json.dumps([self.state.value.hex(), self.reporter.recoveries])
        pathlib.Path(f"{self.done_path()}.new").write_text(told)
        os.replace(f"{self.done_path()}.new", self.done_path())
        self.wait(None)

    def run(self) -> None:
        """Computes to the end."""
        while not self.is_ending:
            try:
                if self.state.turn < self.turns:
                    self.step()
                else:
                    self.end()
            except WentBack:
                self.go_on(self.reporter.take_recovery())
        self.reporter.close(60)


def main(words: list[str]) -> int:
    """Computes, and answers the status: 3 where this life counts as failed."""
    rank, ranks, turns, folder, hub, *token = words
    try:
        Rank(int(rank), int(ranks), int(turns), folder, hub, *token).run()
    except TakenAsFailed:
        return 3
    return 0


if __name__ == "__main__":
    sys.exit(main(sys.argv[1:]))
