#!/usr/bin/env python3
"""One worker of heat.py, which starts it: a stretch of the rod.

It writes its calls to standard output, a line each, and reads the answers on standard input. So a
worker can be written in any language:

    send TO BODY            done
    receive FROM STATE      message BODY
    checkpoint STATE        done
    turn T                  (no answer; for those who watch)

Bodies and states are hexadecimal; the STATE of a receive may be left out. The first line that it
reads is `state STATE`, where it has to go on from; an empty one is its beginning. It ends, with
status 0, after a last checkpoint.
"""

import sys
import time
import zlib

sys.dont_write_bytecode = True  # leaves nothing beside the scripts

import rod


class Calls:
    """The three calls of a worker. Each returns when the service was told and has answered."""

    def answer(self) -> str:
        """The next line of the supervisor. Where there is no supervisor, there is no worker."""
        line = sys.stdin.readline()
        if not line.endswith("\n"):
            sys.exit(1)
        return line[:-1].partition(" ")[2]

    def say(self, line: str) -> None:
        """Tells the supervisor a line."""
        try:
            sys.stdout.write(f"{line}\n")
            sys.stdout.flush()
        except BrokenPipeError:
            sys.stdout = sys.stderr  # nothing is left to flush at the end
            sys.exit(1)

    def send(self, to: int, body: bytes) -> None:
        """Sends a message of at most 64 bytes."""
        self.say(f"send {to} {body.hex()}")
        self.answer()

    def receive(self, sender: int, state: bytes) -> bytes:
        """Waits for the next message of a sender. The state is where the worker stands."""
        self.say(f"receive {sender} {state.hex()}")
        return bytes.fromhex(self.answer())

    def checkpoint(self, state: bytes) -> None:
        """Stores where the worker stands, in at most 4,096 bytes."""
        self.say(f"checkpoint {state.hex()}")
        self.answer()


class Work:
    """The turns of one stretch."""

    def __init__(self, calls: Calls, words: list[str]) -> None:
        self.calls = calls
        self.number, self.workers, self.cells, self.turns, self.every = map(int, words[:5])
        self.pause = float(words[5])  # seconds in each turn
        self.is_by_rounds = words[6:] == ["rounds"]

    def wants_checkpoint(self, now: rod.Stretch) -> bool:
        """Whether the worker likes to take a checkpoint before its next step.

        By rounds they take turns: one of them begins a round, and the others follow by its markers.
        Else each draws lots, so that it happens about once in so many turns, anywhere in a turn.
        """
        if self.is_by_rounds:
            rounds, rest = divmod(now.turn, self.every)
            return rest == 0 and now.step == 1 and rounds % self.workers == self.number
        drawn = zlib.crc32(f"{self.number} {now.turn} {now.step}".encode())
        return drawn % (rod.STEPS * self.every) == 0

    def has(self, neighbour: int) -> bool:
        """Whether there is such a worker: the rod has ends."""
        return 0 <= neighbour < self.workers

    def received(self, now: rod.Stretch, neighbour: int) -> float:
        """The border cell that a neighbour has sent."""
        state = now.stored() if self.is_by_rounds else b""
        border: float = rod.BORDER.unpack(self.calls.receive(neighbour, state))[0]
        return border

    def step(self, now: rod.Stretch) -> None:
        """One step of a turn."""
        left, right = self.number - 1, self.number + 1
        if now.step == 0 and self.has(left):
            self.calls.send(left, rod.BORDER.pack(now.cells[0]))
        elif now.step == 1 and self.has(right):
            self.calls.send(right, rod.BORDER.pack(now.cells[-1]))
        elif now.step == 2 and self.has(left):
            now.left = self.received(now, left)
        elif now.step == 3 and self.has(right):
            now.right = self.received(now, right)
        now.step += 1

    def beginning(self) -> rod.Stretch:
        """Where the supervisor has it begin."""
        state = bytes.fromhex(self.calls.answer())
        first = rod.first_stretch(self.number, self.workers, self.cells)
        found = rod.restored(state) if state else first
        if len(found.cells) != len(first.cells):
            sys.exit(f"worker {self.number}: its state has {len(found.cells)} cells: another rod's")
        return found

    def go_on(self) -> None:
        """All turns that are left."""
        now, is_stored = self.beginning(), True
        while now.turn < self.turns:
            self.calls.say(f"turn {now.turn}")
            time.sleep(self.pause)
            while now.step < rod.STEPS:
                if self.wants_checkpoint(now) and not is_stored:
                    self.calls.checkpoint(now.stored())
                self.step(now)
                is_stored = False
            now.end_turn()
        self.calls.say(f"turn {now.turn}")
        self.calls.checkpoint(now.stored())


if __name__ == "__main__":
    Work(Calls(), sys.argv[1:]).go_on()
