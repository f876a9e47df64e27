"""The heat of a rod, cell by cell and turn by turn; and what a worker knows of its stretch.

Each worker reads this when it starts, and it starts often: so it stands on `struct` alone.
"""

import struct

LEFT_END, RIGHT_END = 100.0, 0.0  # what the rod's ends are held at
RATE = 0.23  # the part of a difference that flows in one turn
STEPS = 4  # of a turn: send left, send right, receive from the left, receive from the right
# The turn, how many steps of it are done, and what was received of the neighbours' borders in it.
HEAD = struct.Struct("<IBdd")
BORDER = struct.Struct("<d")
MOST_STATE = 4096  # bytes
MOST_CELLS = (MOST_STATE - HEAD.size) // BORDER.size  # in a stretch


def first_cells(count: int) -> list[float]:
    """A rod that is warm in its middle third and cold beside it."""
    return [70.0 + 0.1 * i if count <= 3 * i < 2 * count else 10.0 for i in range(count)]


def next_cells(left: float, cells: list[float], right: float) -> list[float]:
    """The cells after one turn, between what is on their left and on their right."""
    before, after = [left, *cells[:-1]], [*cells[1:], right]
    return [b + RATE * (a - 2.0 * b + c) for a, b, c in zip(before, cells, after)]


def plain_loop(count: int, turns: int) -> list[float]:
    """The whole rod after these turns, without workers."""
    cells = first_cells(count)
    for _ in range(turns):
        cells = next_cells(LEFT_END, cells, RIGHT_END)
    return cells


def stretch_of(number: int, workers: int, count: int) -> slice:
    """Which cells a worker has."""
    return slice(count * number // workers, count * (number + 1) // workers)


class Stretch:
    """All that a worker has to know to go on from here, as if nothing had stopped it."""

    def __init__(
        self, turn: int, step: int, left: float, right: float, cells: list[float]
    ) -> None:
        self.turn = turn
        self.step = step  # how many steps of the turn are done
        self.left = left  # the border that came from the left in this turn, or the rod's end there
        self.right = right
        self.cells = cells

    def end_turn(self) -> None:
        """The cells change, and the next turn begins."""
        self.cells = next_cells(self.left, self.cells, self.right)
        self.turn, self.step = self.turn + 1, 0

    def stored(self) -> bytes:
        """The state that a checkpoint stores."""
        head = HEAD.pack(self.turn, self.step, self.left, self.right)
        return head + struct.pack(f"<{len(self.cells)}d", *self.cells)


def first_stretch(number: int, workers: int, count: int) -> Stretch:
    """Where a worker begins."""
    cells = first_cells(count)[stretch_of(number, workers, count)]
    return Stretch(0, 0, LEFT_END, RIGHT_END, cells)


def restored(state: bytes) -> Stretch:
    """What a checkpoint has stored."""
    turn, step, left, right = HEAD.unpack_from(state)
    count = (len(state) - HEAD.size) // BORDER.size
    cells = list(struct.unpack_from(f"<{count}d", state, HEAD.size))
    return Stretch(turn, step, left, right, cells)


def turn_of(state: bytes) -> int:
    """The turn of a state; of the initial one, which is empty, 0."""
    return restored(state).turn if state else 0
