"""Measures what a call of a reporter takes, and how many notes a hub keeps in a second.

    measure.py [--notes N] [--collect COMMAND]

The calls are timed one by one beside an empty one. Then four processes report to a hub at once, so
many notes each: nine sends and nine receipts to two checks. Without a command the service is a sink
that answers each note and does nothing else.
"""

from __future__ import annotations

import argparse
import multiprocessing
import os
import pathlib
import subprocess
import sys
import tempfile
import time
from collections.abc import Callable
from typing import Any

sys.dont_write_bytecode = True  # leaves nothing beside the tests
HERE = pathlib.Path(__file__).resolve().parent
sys.path.insert(0, str(HERE.parent))

from recline_report import Hub, HubError, MessageName, Reporter

RANKS, CALLS = 4, 100_000
SINK = """
import os
answered = 0
while piece := os.read(0, 1 << 18):
    answers = b"sent,0,0,0\\n\\n" * piece.count(b"\\n")
    if not answered:  # the first record is answered with nothing
        answers = answers[len(b"sent,0,0,0\\n"):]
    answered += 1
    while answers:
        answers = answers[os.write(1, answers):]
"""


def times(call: Callable[..., object], *values: object) -> str:
    """How long a call takes: in the middle, and of a hundred and a thousand the longest."""
    taken = []
    for _ in range(CALLS):
        start = time.perf_counter_ns()
        call(*values)
        taken.append(time.perf_counter_ns() - start)
    taken.sort()
    shares = (0.5, 0.99, 0.999)
    return "  ".join(f"{taken[int(CALLS * share)] / 1_000:8.2f}" for share in shares)


def nothing(*_values: object) -> None:
    """An empty call."""


def measure_calls(folder: str) -> None:
    """Prints how long each call takes."""
    print(f"{'microseconds':14}  {'median':>8}  {'99 %':>8}  {'99.9 %':>8}")
    with Reporter(0, RANKS, f"{folder}/notes", room=1 << 30) as reporter:
        name = MessageName(1, 0, 0)
        print(f"{'empty':14}  {times(nothing, 1, b'12345678')}")
        print(f"{'send':14}  {times(reporter.send, 1, b'12345678')}")
        print(f"{'received':14}  {times(reporter.received, name)}")
        print(f"{'check':14}  {times(reporter.check, bytes(32))}")


def report(process: int, address: str, notes: int, start: Any, took: Any) -> None:
    """Reports so many notes."""
    with Reporter(process, RANKS, address, room=1 << 30) as reporter:
        start.wait()
        before = time.time()
        to, sender = (process + 1) % RANKS, (process - 1) % RANKS
        for turn in range(notes // 20):
            for number in range(9 * turn, 9 * turn + 9):
                reporter.send(to, b"12345678")
                reporter.received(MessageName(sender, 0, number))
            reporter.check(bytes(16))
            reporter.check(bytes(16))
        reporter.flush()
        took.put((before, time.time()))


def measure_hub(folder: str, notes: int, collect: str) -> None:
    """Prints how many notes a hub keeps."""
    pathlib.Path(f"{folder}/sink.py").write_text(SINK)
    address = f"unix:{folder}/hub"
    command = [sys.executable, "-m", "recline_hub", "--listen", address, "--processes", str(RANKS),
               "--journal", f"{folder}/journal", "--collect",
               collect or f"{sys.executable} {folder}/sink.py"]
    environment = {**os.environ, "PYTHONPATH": str(HERE.parent)}
    with subprocess.Popen(command, env=environment, stderr=subprocess.DEVNULL) as program:
        hub = Hub(address)
        while True:
            try:
                if hub.status()["ready"]:
                    break
            except (HubError, OSError):
                time.sleep(0.05)
        start = multiprocessing.Barrier(RANKS)
        took: multiprocessing.SimpleQueue[Any] = multiprocessing.SimpleQueue()
        ranks = [multiprocessing.Process(target=report, args=(p, address, notes, start, took))
                 for p in range(RANKS)]
        for rank in ranks:
            rank.start()
        found = [took.get() for _ in ranks]
        for rank in ranks:
            rank.join()
        before = min(first for first, _ in found)
        seconds = max(last for _, last in found) - before
        while (status := hub.status())["service"]["answered"] < status["bytes"]:
            time.sleep(0.01)
        answered = time.time() - before
        fields = pathlib.Path(f"/proc/{program.pid}/stat").read_text().split()
        ticks = os.sysconf("SC_CLK_TCK")
        spent = (int(fields[13]) + int(fields[14])) / ticks
        program.terminate()
    total = RANKS * (notes // 20) * 20
    print(f"{total:,} notes of {RANKS} processes: {total / seconds:,.0f} kept in a second, "
          f"{total / answered:,.0f} answered by {collect or 'a sink'}; "
          f"the hub took {1e6 * spent / total:.2f} microseconds of its processor for each")


def main() -> int:
    """Measures."""
    words = argparse.ArgumentParser(
        description=__doc__, formatter_class=argparse.RawDescriptionHelpFormatter
    )
    words.add_argument("--notes", type=int, default=200_000)
    words.add_argument("--collect", default="")
    asked = words.parse_args()
    with tempfile.TemporaryDirectory() as folder:
        measure_calls(folder)
        measure_hub(folder, asked.notes, asked.collect)
    return 0


if __name__ == "__main__":
    sys.exit(main())
