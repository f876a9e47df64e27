"""A worker as the supervisor has it: its process, how far it is, and what it waits for."""

import subprocess
from collections.abc import Sequence
from dataclasses import dataclass
from typing import IO


@dataclass(eq=False)
class Worker:
    """A worker. Whoever goes back is a new one, with a new process."""

    number: int
    begins: bytes | None  # the state from which its process is still to be started
    turn: int  # the turn that it is in
    calls: int = 0  # how many it has made in this turn
    process: subprocess.Popen[bytes] | None = None
    said: bytes = b""  # the beginning of a line
    stored: bytes = b""  # its last checkpoint
    wants: int | None = None  # whose message it waits for
    stands: bytes | None = None  # its state, where it waits or has ended
    has_ended: bool = False
    is_struck: bool = False  # whether the supervisor has sent it a signal, and it may live yet

    def start(self, command: Sequence[str]) -> IO[bytes]:
        """Starts its process, and tells it where to begin; answers where it will speak."""
        state, self.begins = self.begins or b"", None
        self.process = subprocess.Popen(
            command,
            bufsize=0,
            stdin=subprocess.PIPE,
            stdout=subprocess.PIPE,
            start_new_session=True,  # Control-C is for the supervisor alone
        )
        self.tell(f"state {state.hex()}")
        return self.ear()

    def ear(self) -> IO[bytes]:
        """Where it is heard, while it has a process."""
        assert self.process and self.process.stdout
        return self.process.stdout

    def tell(self, line: str) -> None:
        """Writes it a line. It has one call open at a time: so its pipe is empty, and takes it."""
        assert self.process and self.process.stdin
        try:
            self.process.stdin.write(f"{line}\n".encode("ascii"))
        except BrokenPipeError:
            pass  # it is dead, which is found out where it is heard

    def is_alive(self) -> bool:
        """Whether its process runs."""
        return self.process is not None and self.process.poll() is None

    def strike(self) -> None:
        """Sends its process the signal that ends it, whatever it does."""
        assert self.process
        self.process.kill()
        self.is_struck = True

    def stop(self) -> int:
        """Sees to it that its process is no more, and answers its status."""
        assert self.process and self.process.stdin
        self.process.kill()
        self.process.stdin.close()
        self.ear().close()
        status, self.process, self.stands = self.process.wait(), None, None
        return status
