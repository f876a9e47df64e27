"""Notes that go together, and what wakes the thread that sends them."""

from __future__ import annotations

import contextlib
import os


class Bell:
    """What a thread can be woken by while it waits for something else."""

    def __init__(self) -> None:
        self._reads, self._writes = os.pipe2(os.O_NONBLOCK | os.O_CLOEXEC)

    def fileno(self) -> int:
        """What can be read, as `select` says, while the bell rings."""
        return self._reads

    def ring(self) -> None:
        """Rings, until it is heard."""
        with contextlib.suppress(BlockingIOError):
            os.write(self._writes, b"\n")

    def hear(self) -> None:
        """Ends the ringing."""
        with contextlib.suppress(BlockingIOError):
            os.read(self._reads, 4_096)

    def close(self) -> None:
        """Closes it."""
        os.close(self._reads)
        os.close(self._writes)


class Batch:
    """Notes that go together: how many of this incarnation stand before them, and their lines."""

    __slots__ = ("first", "count", "text")

    def __init__(self, first: int, notes: list[str]) -> None:
        self.first, self.count = first, len(notes)
        self.text = "".join(notes).encode("ascii")
