#!/usr/bin/env -S sh -c '[ -d /dev/stdin ] && exec 0<&-; exec python3 "$0" "$@"'
"""Makes a script for recline, or with --reports an input of `recline collect`, of logs.

Logs are JSON Lines, of one process each or of several, or standard input where none is named.
docs/LOGS.md says what their lines have. The lines of a process are in one log, in their order. The
script has each event once, and each receipt after its send; but for that it keeps the order in
which lines are read, one of each log in turn. Where a log is not sound, standard error has one
line, `FILE:LINE: CAUSE`, the status is 2, and there is no script. The status is 3 where a file
cannot be read or written, and 130 after an interrupt.
"""
# Python does not even start where standard input is a directory: so it is closed before, above.

import argparse
import collections
import contextlib
import errno
import os
import sys
import time
from collections.abc import Callable, Sequence
from typing import BinaryIO, TextIO

sys.dont_write_bytecode = True  # leaves nothing beside the scripts

from log_lines import Log, Unsound
from log_reports import Reporting
from log_scripts import MOST_PROCESSES, Making

MOST_OF_RUN = 67_108_864  # bytes of a script that `recline run` takes
WIPE = "\r\x1b[K"  # on a terminal, clears the line
INTERRUPTED = 130


def say(text: str) -> None:
    """Writes on standard error; where that is closed or full, nothing is said."""
    with contextlib.suppress(OSError):
        if sys.stderr is not None:
            sys.stderr.write(text)
            sys.stderr.flush()


def bytes_of(file: TextIO | None, name: str, what_not: str) -> BinaryIO:
    """The bytes of a standard file, or what it is where it has none."""
    if file is None:
        raise OSError(errno.EBADF, what_not, name)
    return file.buffer


class Progress:
    """What is said on a terminal's standard error: once a second, after the first two."""

    def __init__(self) -> None:
        self._says = sys.stderr is not None and sys.stderr.isatty()
        self._last, self._has_said = time.monotonic() + 1, False

    def tell(self, line: int, done: int, size: int) -> None:
        """Says which line comes next, and how many bytes of all are done."""
        if self._says and time.monotonic() >= self._last + 1:
            self._last, self._has_said = time.monotonic(), True
            say(f"{WIPE}from_logs: line {line}, {done * 100 // size} % of the logs")

    def wipe(self) -> None:
        """Wipes what was said last."""
        if self._has_said:
            say(WIPE)
            self._has_said = False


def read(logs: Sequence[Log], making: Making, progress: Progress) -> None:
    """Takes the lines of the logs, one of each in turn; for reports they are noted before."""
    if isinstance(making, Reporting):
        read_once(logs, making.note, progress)
        for log in logs:
            log.rewind()
    read_once(logs, making.take, progress)
    making.test_end()


def read_once(
    logs: Sequence[Log], take: Callable[[Log, int, bytes], None], progress: Progress
) -> None:
    """Reads the logs once, a line of each in turn."""
    turn, lines, size = collections.deque(logs), 0, sum(log.size for log in logs)
    while turn:
        log = turn.popleft()
        place, line = log.read, log.next()
        if line:
            take(log, place, line)
            turn.append(log)
        lines += 1
        if lines % 1_024 == 0:
            progress.tell(lines, sum(it.read for it in logs), size)


def words() -> argparse.Namespace:
    """The command line."""
    line = argparse.ArgumentParser(
        prog="from_logs.py",
        usage="from_logs.py [OPTIONS] [LOG ..] > SCRIPT",
        description=__doc__,
        formatter_class=argparse.RawDescriptionHelpFormatter,
    )
    line.add_argument("logs", metavar="LOG", nargs="*", help="a log in JSON Lines")
    line.add_argument("--links", choices=["fifo", "unordered"], default="fifo",
                      help="whether each link keeps the order of sending (fifo), or none does")
    line.add_argument("--processes", type=int, metavar="N",
                      help="how many there are, 1 to 256; else as many as the logs name")
    line.add_argument("--failed", action="append", default=[], metavar="PROCESS",
                      help="end the script with a recovery in which this one failed (repeatable)")
    line.add_argument("--lost-tail", action="append", default=[], metavar="PROCESS",
                      help="the last lines of this one are lost with its machine: it failed, and "
                      "what others received of it is kept (repeatable)")
    line.add_argument("--reports", action="store_true",
                      help="write an input of recline collect, in no order between logs")
    line.add_argument("--names", metavar="FILE",
                      help="write how recline calls the processes and messages to FILE")
    line.add_argument("--shorten", action="store_true",
                      help="put the SHA-256 digest for a state or a body that is too long")
    asked = line.parse_args()
    if asked.processes is not None and not 1 <= asked.processes <= MOST_PROCESSES:
        line.error(f"--processes is from 1 to {MOST_PROCESSES}")
    return asked


def made(asked: argparse.Namespace, files: contextlib.ExitStack) -> int:
    """Reads, and writes where all is sound."""
    output = bytes_of(sys.stdout, "standard output", "it is closed")
    logs = [Log(name, open(name, "rb")) for name in asked.logs]
    name = "standard input"
    logs = logs or [Log(name, bytes_of(sys.stdin, name, "it is closed, or a directory"))]
    for log in logs:
        files.callback(log.close)
    kind, progress = Reporting if asked.reports else Making, Progress()
    making = kind(asked.links, asked.processes, asked.shorten, asked.lost_tail)
    files.enter_context(making.script)
    try:
        read(logs, making, progress)
        failed = [making.failed(name) for name in (*asked.failed, *asked.lost_tail)]
    except Unsound as unsound:
        where = "from_logs"
        if unsound.log:
            where = f"{unsound.log.name}:{unsound.log.number_at(unsound.place)}"
        progress.wipe()
        say(f"{where}: {unsound.cause}\n")
        return 2
    finally:
        progress.wipe()
    if asked.names:
        with open(asked.names, "w", encoding="utf-8") as file:
            making.write_names(file)
    length = making.write(output, failed)
    if making.kept:
        what = "receipt is" if making.kept == 1 else "receipts are"
        lost = ", ".join(asked.lost_tail)
        say(f"from_logs: {making.kept} {what} kept of messages whose sends are lost, by {lost}\n")
    if length > MOST_OF_RUN and not asked.reports:
        say(f"from_logs: {length} bytes: too long for recline run, not for serve\n")
    return 0


def main() -> int:
    """The status."""
    try:
        asked = words()
        files = contextlib.ExitStack()
        try:
            return made(asked, files)
        finally:
            files.close()
    except OSError as error:
        file = f"{error.filename}: " if error.filename else ""
        say(f"from_logs: {file}{error.strerror}\n")
        return 3
    except KeyboardInterrupt:
        say("from_logs: interrupted\n")
        return INTERRUPTED


if __name__ == "__main__":
    sys.exit(main())
