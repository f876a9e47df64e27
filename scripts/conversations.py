"""Conversations with a program that answers as it reads; its answers are compared as they come."""

import os
import re
import select
import subprocess
import time
from collections.abc import Sequence
from types import TracebackType

# For so many seconds nothing comes and nothing is taken where something has to; then it is told.
patience = 30.0
PIECE = 1 << 20
# Statuses and lines of devices that fail; the number of the record is not asked for.
READ_FAULT = re.compile(rb"recline: (record \d+: )?36 ReadFault\n")
WRITE_FAULT = re.compile(rb"recline: (record \d+: )?37 WriteFault\n")


class Difference(Exception):
    """What a program did that it should not, or did not do."""


def shown(some: bytes) -> str:
    """Bytes for a message, the first of them where they are many."""
    return repr(some) if len(some) <= 120 else f"{some[:100]!r} and {len(some) - 100:,} bytes more"


def same(got: bytes, wanted: bytes, at: int = 0) -> None:
    """Asks that bytes of the output are those that are wanted, which stand there from `at` on."""
    if got != wanted:
        first = next((i for i, two in enumerate(zip(got, wanted)) if two[0] != two[1]), None)
        first = min(len(got), len(wanted)) if first is None else first
        begin = max(0, first - 40)
        raise Difference(
            f"byte {at + first:,} of the output: it has {shown(got[begin:begin + 200])},"
            f" and {shown(wanted[begin:begin + 200])} is wanted"
        )


class Conversation:
    """A program, its two pipes, and how much of its output was read."""

    def __init__(self, command: Sequence[str], stdin: int = subprocess.PIPE) -> None:
        self.said = os.memfd_create("said")
        self.child = subprocess.Popen(
            command, stdin=stdin, stdout=subprocess.PIPE, stderr=self.said, bufsize=0
        )
        self.output = self.child.stdout.fileno() if self.child.stdout else -1
        self.input = -1
        if self.child.stdin:
            self.input = self.child.stdin.fileno()
            os.set_blocking(self.input, False)
        self.read = 0

    def __enter__(self) -> "Conversation":
        return self

    def __exit__(
        self, kind: type[BaseException] | None, it: BaseException | None, at: TracebackType | None
    ) -> None:
        if self.child.poll() is None:
            self.child.kill()
        for pipe in (self.child.stdin, self.child.stdout):
            if pipe:
                pipe.close()
        self.child.wait()
        os.close(self.said)

    def exchange(self, piece: bytes, wanted: bytes) -> None:
        """Gives a piece, and reads all that is wanted before more is given."""
        left, awaited = memoryview(piece), memoryview(wanted)
        while left or awaited:
            readable, writable = self.ready(bool(awaited), bool(left), patience)
            if not readable and not writable:
                raise Difference(
                    f"nothing for {patience:g} seconds: {len(left):,} bytes were not taken, and"
                    f" after byte {self.read:,} of the output {shown(bytes(awaited))} is wanted"
                )
            if writable:
                left = left[self.given(left):]
            if readable:
                awaited = self.compared(awaited)

    def silent(self) -> None:
        """Asks that there is no output that nobody has asked for."""
        if self.ready(True, False, 0)[0]:
            self.compared(memoryview(b""))

    def ready(self, reads: bool, writes: bool, seconds: float) -> tuple[bool, bool]:
        """Whether the output has something, and whether the input takes something."""
        output, input_ = [self.output] * reads, [self.input] * writes
        readable, writable, _ = select.select(output, input_, [], seconds)
        return bool(readable), bool(writable)

    def given(self, left: memoryview) -> int:
        """How many bytes the input takes at once."""
        try:
            return os.write(self.input, left[:PIECE])
        except BlockingIOError:
            return 0
        except BrokenPipeError:
            raise Difference(f"it does not read any more; {self.ending()}") from None

    def compared(self, awaited: memoryview) -> memoryview:
        """Reads some output, and answers what is awaited after it."""
        some = os.read(self.output, PIECE)
        if not some:
            raise Difference(
                f"the output ends at byte {self.read:,}, where {shown(bytes(awaited))} is wanted;"
                f" {self.ending()}"
            )
        same(some, bytes(awaited[:len(some)]), self.read)
        self.read += len(some)
        return awaited[len(some):]

    def push(self, piece: bytes, seconds: float) -> int:
        """Gives as much of a piece as it takes while nobody reads; answers how many bytes."""
        left = memoryview(piece)
        while left and self.ready(False, True, seconds)[1]:
            left = left[self.given(left):]
        return len(piece) - len(left)

    def hang_up(self) -> None:
        """Nothing more is given."""
        if self.child.stdin:
            self.child.stdin.close()

    def stop_reading(self) -> None:
        """The output has no reader any more."""
        if self.child.stdout:
            self.child.stdout.close()

    def ending(self) -> str:
        """How it ends, in words."""
        said, status = self.ended()
        return f"its status is {status}, and it says {shown(said)}"

    def ended(self) -> tuple[bytes, int | None]:
        """What it says on standard error, and its status; None where it does not end."""
        try:
            status = self.child.wait(patience)
        except subprocess.TimeoutExpired:
            return b"", None
        return os.pread(self.said, PIECE, 0), status

    def end(self, wanted: bytes, status: int) -> None:
        """Ends the input, and asks for the rest of the output, for silence and for a status."""
        self.hang_up()
        self.exchange(b"", wanted)
        if not self.ready(True, False, patience)[0]:
            raise Difference(f"it does not end within {patience:g} seconds")
        same(os.read(self.output, PIECE), b"", self.read)
        self.end_as(re.compile(b""), status)

    def end_as(self, said: "re.Pattern[bytes]", status: int) -> None:
        """Asks for what it says and for its status."""
        got = self.ended()
        if not said.fullmatch(got[0]) or got[1] != status:
            raise Difference(
                f"its status is {got[1]}, and it says {shown(got[0])};"
                f" {status} and {said.pattern!r} are wanted"
            )

    def memory(self) -> int:
        """The most memory that it had so far, in bytes."""
        with open(f"/proc/{self.child.pid}/status", "rb") as status:
            found = re.search(rb"VmHWM:\s*(\d+) kB", status.read())
        if not found:
            raise Difference(f"it has ended; {self.ending()}")
        return int(found[1]) << 10

    def grown(self, base: int, most: int) -> None:
        """Asks that it has taken no more memory than so many bytes above a base."""
        # Whether it is done with its last answer is not known at once.
        time.sleep(0.01)
        more = self.memory() - base
        if more > most:
            raise Difference(f"it took {more:,} bytes of memory more, and {most:,} are allowed")
