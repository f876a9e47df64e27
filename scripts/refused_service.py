"""Services that are refused memory, or whose reads and writes fail: what has to come of it.

They run under the library of `preloaded.c`, with a file as their standard input, so that one knows
how much of it they have read.
"""

import errno
import os
import re
import subprocess
from collections.abc import Callable, Iterator, Sequence
from typing import NamedTuple

import conversations
from conversations import READ_FAULT, WRITE_FAULT, Difference, same, shown
from preloaded import COUNTS, Counts
from slow_model.made_conversations import answers_to
from slow_model.service import Service

NO_MEMORY = b"fault,0,OutOfMemory\n\n"
NO_START = re.compile(rb"recline: (record 0: )?0 OutOfMemory\n")
# Records that come together are answered together: so many to a write at least.
RECORDS_A_WRITE = 20


class Ran(NamedTuple):
    """What a service wrote and said, its status, how much it read, and its calls of the system."""

    output: bytes
    said: bytes
    status: int
    taken: int
    counts: Counts


def run(command: Sequence[str], library: str, text: bytes, **settings: int) -> Ran:
    """Runs a service on a text, with these settings of the library."""
    kept, given = os.memfd_create("counts"), os.memfd_create("text")
    try:
        os.ftruncate(kept, COUNTS.size)
        os.pwrite(given, text, 0)
        environment = {"LD_PRELOAD": library, "COUNTS_FD": str(kept)}
        environment.update((name, str(value)) for name, value in settings.items())
        ran = subprocess.run(
            command, stdin=given, capture_output=True, check=False, timeout=conversations.patience,
            env=environment, pass_fds=[kept],
        )  # fmt: skip
        taken = os.lseek(given, 0, os.SEEK_CUR)
        counts = Counts(*COUNTS.unpack(os.pread(kept, COUNTS.size, 0)))
    except subprocess.TimeoutExpired:
        raise Difference(f"it does not end within {conversations.patience:g} seconds") from None
    finally:
        os.close(kept)
        os.close(given)
    return Ran(ran.stdout, ran.stderr, ran.returncode, taken, counts)


def answers_of(output: bytes) -> Iterator[bytes]:
    """The answers of an output, each with the empty line that ends it."""
    begun = b""
    for line in output.splitlines(keepends=True):
        begun += line
        if line == b"\n":
            yield begun
            begun = b""
    if begun:
        raise Difference(f"the output ends in an answer: {shown(begun[-100:])}")


def same_but_refused(text: bytes, ran: Ran, model: Callable[[], Service]) -> int:
    """Asks for the answers to a text, in which memory may have been refused; how often it was.

    The records that were refused it have changed nothing, but that what was read of a saved machine
    is dropped, and each other one has its whole answer.
    """
    if ran.status not in (0, 1, 2):
        raise Difference(f"its status is {ran.status}, and it says {shown(ran.said)}")
    service = model()
    answers = answers_of(ran.output)
    refused = at = 0
    *ended, rest = text.split(b"\n")
    for line in [*(it + b"\n" for it in ended), rest]:
        if line in (b"", b"\n", b"\r\n"):
            continue
        got = next(answers, b"")
        if got == NO_MEMORY:
            refused += 1
            service.miss()
        else:
            same(got, service.take(line) + (b"" if line.endswith(b"\n") else service.end()), at)
        at += len(got)
    same(next(answers, b""), b"", at)
    wanted_status = 2 if refused else service.status
    if (ran.said, ran.status) != (b"", wanted_status):
        said = f"it says {shown(ran.said)}"
        raise Difference(f"its status is {ran.status} and not {wanted_status}, and {said}")
    return refused


def refuse_growth(
    command: Sequence[str], library: str, text: bytes, growth: int, model: Callable[[], Service]
) -> str:
    """Refuses a service one request for memory, and answers what came of it."""
    ran = run(command, library, text, REFUSED_GROWTH=growth)
    if ran.status == 3 and not ran.taken:
        if ran.output or not NO_START.fullmatch(ran.said):
            raise Difference(f"it does not start: {shown(ran.output)}, {shown(ran.said)}")
        return "not started"
    refused = same_but_refused(text, ran, model)
    if refused > 1:
        raise Difference(f"one request was refused, and {refused} records have no memory")
    return "told" if refused else "answered"


def refuse_all(
    command: Sequence[str], library: str, text: bytes, growth: int, model: Callable[[], Service]
) -> str:
    """Refuses a service a request for memory and all that follow; answers what came of it."""
    ran = run(command, library, text, REFUSED_GROWTH=growth, REFUSED_TIMES=1 << 40)
    if ran.status == 3 and not ran.taken:
        return "not started"
    return "told" if same_but_refused(text, ran, model) else "answered"


def fail_read(
    command: Sequence[str], library: str, text: bytes, read: int, piece: int, model: type[Service]
) -> None:
    """Lets a read fail: all that was read before is answered."""
    ran = run(
        command, library, text, FAILING_READ=read, FAILING_TIMES=1000, MOST_BYTES=piece,
        FAILING_ERRNO=errno.EIO if read % 2 else errno.EAGAIN,
    )  # fmt: skip
    if ran.counts.reads < read:
        return
    same(ran.output, answers_to([text[:ran.taken]], model)[0][0])
    if ran.status != 3 or not READ_FAULT.fullmatch(ran.said):
        raise Difference(f"a read failed: status {ran.status}, and it says {shown(ran.said)}")


def fail_write(
    command: Sequence[str], library: str, text: bytes, write: int, piece: int, model: type[Service]
) -> None:
    """Lets a write fail: what went out is a prefix of the answers."""
    ran = run(command, library, text, FAILING_WRITE=write, FAILING_TIMES=1000, MOST_BYTES=piece)
    if ran.counts.writes < write:
        return
    whole = b"".join(answers_to([text], model)[0])
    same(ran.output, whole[:len(ran.output)])
    if ran.status != 3 or not WRITE_FAULT.fullmatch(ran.said):
        raise Difference(f"a write failed: status {ran.status}, and it says {shown(ran.said)}")


def interrupt(
    command: Sequence[str], library: str, text: bytes, call: int, piece: int, model: type[Service]
) -> None:
    """Lets a signal interrupt a read and a write, which are made again."""
    ran = run(
        command, library, text, FAILING_READ=call, FAILING_WRITE=call, FAILING_TIMES=3,
        FAILING_ERRNO=errno.EINTR, MOST_BYTES=piece,
    )  # fmt: skip
    if same_but_refused(text, ran, model):
        raise Difference("no memory, though none was refused")


def together(command: Sequence[str], library: str, records: int) -> None:
    """Asks that many records that come together are answered in few writes."""
    text = b"world,1,2,fifo\n" + b"send,0,1,61\n" * records
    ran = run(command, library, text)
    answers = [b"\n", *(b"sent,0,0,%d\n\n" % number for number in range(records))]
    same(ran.output, b"".join(answers))
    if ran.counts.writes * RECORDS_A_WRITE > records:
        raise Difference(f"{ran.counts.writes} writes for {records} records that come together")
