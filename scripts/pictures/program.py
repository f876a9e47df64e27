"""Running the program, and what ends a tool without a picture."""

import errno
import os
import pathlib
import signal
import stat
import subprocess
import sys
from collections.abc import Callable

PROGRAM = pathlib.Path(__file__).resolve().parent.parent.parent / "recline"
FAULT = (
    2  # the least status of a fault: below it all commands were answered, or the claim was judged
)
DEVICE_FAULT = 3
INTERRUPTED = 130


class Fault(Exception):
    """Nothing can be shown: the status, and what to say of it unless the program has."""

    def __init__(self, status: int, said: str = "") -> None:
        super().__init__(status, said)
        self.status, self.said = status, said


def answer(program: str, command: str, text: bytes, fault: int = FAULT) -> bytes:
    """What the program writes for a text. What it says goes to standard error as it comes.

    `fault` is the least status that ends the tool.
    """
    try:
        ran = subprocess.run([program, command], input=text, stdout=subprocess.PIPE, check=False)
    except OSError as why:
        raise Fault(DEVICE_FAULT, f"{program} cannot be run: {why.strerror}") from why
    if ran.returncode in (INTERRUPTED, -signal.SIGINT):
        raise KeyboardInterrupt
    if not 0 <= ran.returncode < fault:
        raise Fault(ran.returncode if ran.returncode > 0 else DEVICE_FAULT)
    return ran.stdout


def read_input() -> bytes:
    """All of standard input."""
    try:
        if sys.stdin is None:
            raise OSError(errno.EBADF, os.strerror(errno.EBADF))
        if stat.S_ISDIR(os.fstat(sys.stdin.fileno()).st_mode):
            raise IsADirectoryError(errno.EISDIR, os.strerror(errno.EISDIR))
        return sys.stdin.buffer.read()
    except OSError as fault:
        raise Fault(DEVICE_FAULT, f"standard input cannot be read: {fault.strerror}") from fault


def write_output(text: str) -> None:
    """Writes to standard output, all of it or not in order."""
    try:
        sys.stdout.buffer.write(text.encode())
        sys.stdout.buffer.flush()
    except OSError as fault:
        raise Fault(DEVICE_FAULT, f"standard output cannot be written: {fault.strerror}") from fault


def status_of(tool: str, work: Callable[[], None]) -> int:
    """Does the work of a tool, and answers its status; an interrupt is told in a line."""
    try:
        work()
    except Fault as fault:
        return tell(tool, fault)
    except KeyboardInterrupt:
        print(f"{tool}: interrupted", file=sys.stderr)
        return INTERRUPTED
    return 0


def tell(tool: str, fault: Fault) -> int:
    """Says what the fault is, where the program has not, and answers the status."""
    if fault.said:
        print(f"{tool}: {fault.said}", file=sys.stderr)
    return fault.status
