"""`recline serve` compared with `recline run` and an echo, and over long histories.

    scripts/measure service [--program PATH] [--parts pipelined,trips,long] [--records N] [--runs K]
                            [--text FILE ..] [--trips N] [--long N] [--instructions]

pipelined: `recline serve < TEXT > /dev/null` beside `recline run`, by turns, K times (7), on the
texts of scripts/measure program of some N records (500,000), and on each FILE: the medians of the
processor's time, their ratio, and the greatest memory of a run; with --instructions those of the
whole program too, which other work on the machine does not change.

trips: one record at a time over pipes, by the same client: to the service, and to a program in C
that answers each line with itself and an empty line. They take turns, some hundred records each,
until each has answered N records (40,000): the medians of the time from a record to the end of its
answer, and the greatest of 99 in 100.

long: N records (10,000,000) among 16 processes, with a recovery after each 100,000: at each million
the time of the processor and the clock that it took, and the memory. The last line tells how the
time of the last three millions is to that of the first three, without the very first.

docs/PERFORMANCE.md has what it printed. Read ratios within one table only.
"""

import argparse
import os
import pathlib
import re
import statistics
import subprocess
import sys
import tempfile
import time
from collections.abc import Iterator, Sequence
from typing import NamedTuple

import instructions
import preloaded
from conversations import Conversation
from made_inputs import INPUTS

from . import runs
from .runs import MB, add_program, head, memory, program_of, row, some_of

PARTS = ["pipelined", "trips", "long"]
TEXTS = [name for name, (_, command) in INPUTS.items() if command == "run"]
# So many records of a program are timed before the other one's turn.
TURN = 200
PROCESSES = 16
# In a long history: records to a recovery, and turns of the ring to a check of each process.
BLOCK = 100_000
TURNS_A_CHECK = 8
TICKS = os.sysconf("SC_CLK_TCK")

ECHO = r"""
#include <string.h>
#include <unistd.h>

/* Answers each line with itself and an empty line; what came together goes out together. */
int main(void) {
    static char in[1 << 16], out[1 << 17];
    size_t kept = 0;
    ssize_t some;
    while ((some = read(0, in + kept, sizeof in - kept)) > 0) {
        size_t have = kept + (size_t)some, from = 0, to = 0;
        char *end;
        for (; (end = memchr(in + from, '\n', have - from)); from = (size_t)(end - in) + 1) {
            size_t line = (size_t)(end - in) + 1 - from;
            memcpy(out + to, in + from, line);
            to += line;
            out[to++] = '\n';
        }
        for (size_t gone = 0; gone < to;) {
            ssize_t put = write(1, out + gone, to - gone);
            if (put < 0) return 1;
            gone += (size_t)put;
        }
        memmove(in, in + from, kept = have - from);
    }
    return 0;
}
"""

# Records that are sent ahead.


def write_text(name: str, records: int, path: pathlib.Path) -> None:
    """Writes a made text; in a process of its own, so that this one stays small."""
    if os.fork() == 0:
        with open(path, "w", encoding="ascii") as text:
            text.writelines(record + "\n" for record in INPUTS[name][0](records))
        os._exit(0)
    if os.wait()[1]:
        sys.exit(f"{path} could not be made")


def seconds(program: str, command: str, path: pathlib.Path) -> float:
    """The processor's seconds of a run, which must not end by a fault."""
    took = runs.timed(program, command, path)
    if took.status not in (0, 1):
        sys.exit(f"{program} {command} ends with status {took.status}")
    return took.processor


def pipelined(program: str, name: str, path: pathlib.Path, runs: int, counts: bool) -> None:
    """Prints the row of a text."""
    both = ["serve", "run"]
    took: dict[str, list[float]] = {it: [] for it in both}
    for turn in range(runs):
        for command in both if turn % 2 == 0 else both[::-1]:
            took[command].append(1000 * seconds(program, command, path))
    times = [statistics.median(took[it]) for it in both]
    with open(path, "rb") as text:
        records = sum(1 for _ in text)
    cells = [name, f"{records:,}", *(f"{it:.0f}" for it in times), f"{times[0] / times[1]:.3f}"]
    cells += [f"{memory(program, it, path):.1f}" for it in both]
    if counts:
        cells += counted(program, path, records)
    row(cells)


def counted(program: str, path: pathlib.Path, records: int) -> list[str]:
    """The instructions for a record of both, and their ratio."""
    tool = instructions.tool_at_hand()
    if tool is None:
        return ["-", "-", "-"]
    serve, run = (instructions.counted(tool, [program, it], path) for it in ("serve", "run"))
    if not serve or not run:
        return ["-", "-", "-"]
    return [f"{serve / records:,.0f}", f"{run / records:,.0f}", f"{serve / run:.3f}"]


def table_of_texts(program: str, asked: argparse.Namespace, folder: pathlib.Path) -> None:
    """Prints the table of records that are sent ahead."""
    cells = ["records", "serve, ms", "run, ms", "ratio", "serve, MB", "run, MB"]
    if asked.instructions:
        cells += ["serve, instructions a record", "run", "ratio"]
    head("text", *cells)
    for name in asked.inputs:
        path = folder / name
        write_text(name, asked.records, path)
        pipelined(program, name, path, asked.runs, asked.instructions)
        path.unlink()
    for path in asked.text:
        pipelined(program, path.name, path, asked.runs, asked.instructions)
    print()


# One record at a time.


def compiled_echo(folder: pathlib.Path) -> str:
    """The echo, compiled."""
    source, program = folder / "echo.c", folder / "echo"
    source.write_text(ECHO, encoding="ascii")
    subprocess.run([preloaded.compiler(), "-O2", "-o", program, source], check=True)
    return str(program)


class Client:
    """A program, and how long each of its answers took, in microseconds."""

    def __init__(self, command: Sequence[str]) -> None:
        self.child = subprocess.Popen(
            command, stdin=subprocess.PIPE, stdout=subprocess.PIPE, bufsize=0
        )
        self.input = self.child.stdin.fileno() if self.child.stdin else -1
        self.output = self.child.stdout.fileno() if self.child.stdout else -1
        self.took: list[float] = []

    def ask(self, record: bytes) -> None:
        """Gives a record and reads its answer."""
        begin = time.perf_counter_ns()
        os.write(self.input, record)
        answer = os.read(self.output, 65_536)
        while not answer.endswith(b"\n\n") and answer != b"\n":
            more = os.read(self.output, 65_536)
            if not more:
                sys.exit(f"the program ended behind {answer!r}")
            answer += more
        self.took.append((time.perf_counter_ns() - begin) / 1000)

    def end(self) -> None:
        """Ends the input, and waits."""
        for pipe in (self.child.stdin, self.child.stdout):
            if pipe:
                pipe.close()
        self.child.wait()


def small_records(most: int) -> list[bytes]:
    """Records of a ring, each of which has a short answer."""
    made = INPUTS["ring"][0](most)
    return [f"{it}\n".encode() for it in made if not it.startswith("recover")]


def table_of_trips(program: str, trips: int, folder: pathlib.Path) -> None:
    """Prints the table of records that wait for their answers."""
    records = small_records(trips)
    clients = [Client([program, "serve"]), Client([compiled_echo(folder)])]
    for first in range(0, len(records), TURN):
        for client in clients if first // TURN % 2 else clients[::-1]:
            for record in records[first : first + TURN]:
                client.ask(record)
    head("one record at a time", "records", "median, µs", "99 in 100 within, µs")
    for name, client in zip(("serve", "an echo in C"), clients):
        client.end()
        took = sorted(client.took)
        within = took[len(took) * 99 // 100]
        row([name, f"{len(took):,}", f"{statistics.median(took):.1f}", f"{within:.1f}"])
    medians = [statistics.median(it.took) for it in clients]
    turns = [range(at, min(at + TURN, len(records))) for at in range(0, len(records), TURN)]
    ratios = [
        statistics.median(clients[0].took[it.start : it.stop])
        / statistics.median(clients[1].took[it.start : it.stop])
        for it in turns
    ]
    row(["ratio", "", f"{medians[0] / medians[1]:.3f}", ""])
    row(["ratio of each turn, median", "", f"{statistics.median(ratios):.3f}", ""])
    print()


# Long histories.


class At(NamedTuple):
    """What a service had used at some point."""

    processor: float
    clock: float
    memory: float


def used(talk: Conversation) -> At:
    """What a service has used so far: the seconds of both kinds, and the memory it has, in MB."""
    fields = pathlib.Path(f"/proc/{talk.child.pid}/stat").read_text().rpartition(")")[2].split()
    ticks, pages = int(fields[11]) + int(fields[12]), int(fields[21])
    return At(ticks / TICKS, time.monotonic(), pages * os.sysconf("SC_PAGESIZE") / MB)


class Ring:
    """The records of a long history: processes in a ring, and recoveries of one in turn."""

    def __init__(self) -> None:
        self.turn = 0

    def records(self) -> Iterator[str]:
        """Turns of the ring, without an end."""
        while True:
            for p in range(PROCESSES):
                yield f"send,{p},{(p + 1) % PROCESSES},{self.turn % 2**32:08x}"
            for p in range(PROCESSES):
                yield f"deliver,{p},{(p + 1) % PROCESSES},0,"
            self.turn += 1
            if self.turn % TURNS_A_CHECK == 0:
                yield from (f"check,{p},{self.turn % 2**32:064x}" for p in range(PROCESSES))

    def block(self, replays: list[int], number: int) -> list[str]:
        """The records up to the next recovery, of which the first deliver the replays."""
        block = [f"deliver,{p},{(p + 1) % PROCESSES},0," for p in replays]
        records = self.records()
        while len(block) < BLOCK - 1:
            block.append(next(records))
        return [*block, f"recover,{number % PROCESSES}"]


def senders_of_replays(answer: bytes) -> list[int]:
    """The senders of the messages that are to be delivered again, in their order."""
    return [int(it) for it in re.findall(rb"^replay,(\d+),", answer, re.MULTILINE)]


def last_answer(talk: Conversation, records: list[str]) -> bytes:
    """Gives records ahead, reads all their answers, and returns the last one."""
    left = memoryview("".join(f"{it}\n" for it in records).encode())
    output = bytearray()
    answers = 0
    while answers < len(records):
        readable, writable = talk.ready(True, bool(left), 600)
        if writable:
            left = left[talk.given(left) :]
        if readable:
            some = os.read(talk.output, 1 << 20)
            if not some:
                sys.exit(f"the service ends: {talk.ending()}")
            begin = max(len(output) - 1, 0)
            output += some
            answers += output.count(b"\n\n", begin)
            if b"fault," in some or b"refused," in some:
                sys.exit(f"a record is not done: {bytes(output[-300:])!r}")
    return bytes(output[output.rfind(b"\n\n", 0, -2) + 1 :])


def table_of_long(program: str, records: int) -> None:
    """Prints the table of a long history."""
    head("millions", "processor, s", "clock, s", "memory, MB", "greatest, MB")
    ring = Ring()
    replays: list[int] = []
    spent: list[float] = []
    with Conversation([program, "serve"]) as talk:
        talk.exchange(f"world,1,{PROCESSES},fifo\n".encode(), b"\n")
        before = used(talk)
        for number in range(1, records // BLOCK + 1):
            replays = senders_of_replays(last_answer(talk, ring.block(replays, number)))
            if number * BLOCK % 1_000_000 == 0:
                now = used(talk)
                spent.append(now.processor - before.processor)
                cells = [f"{spent[-1]:.2f}", f"{now.clock - before.clock:.2f}"]
                cells += [f"{now.memory:.1f}", f"{talk.memory() / MB:.1f}"]
                row([f"{number * BLOCK // 1_000_000}", *cells])
                before = now
        talk.end(b"", 0)
    if len(spent) >= 7:
        growth = sum(spent[-3:]) / sum(spent[1:4])
        print(f"\nthe last three millions took {growth:.2f} times what the second to fourth did")
    print()


def add_words(words: argparse.ArgumentParser) -> None:
    """Adds the words of this job to those that are read."""
    add = words.add_argument
    add_program(words)
    add("--parts", type=some_of(PARTS), default=PARTS, help="which tables (all)")
    add("--inputs", type=some_of(TEXTS), default=TEXTS, help="which texts (all)")
    add("--records", type=int, default=500_000, metavar="N", help="of a text (500000)")
    add("--runs", type=int, default=7, metavar="K", help="of a text (7)")
    add("--text", type=pathlib.Path, nargs="*", default=[], metavar="FILE", help="texts besides")
    add("--instructions", action="store_true", help="count instructions of texts too")
    add("--trips", type=int, default=40_000, metavar="N", help="records one at a time (40000)")
    add("--long", type=int, default=10_000_000, metavar="N", help="records of a long history")


def run(asked: argparse.Namespace) -> int:
    """Prints the tables that are asked for."""
    program = program_of(asked)
    with tempfile.TemporaryDirectory(prefix="recline-measures-") as made:
        folder = pathlib.Path(made)
        if "pipelined" in asked.parts:
            table_of_texts(program, asked, folder)
        if "trips" in asked.parts:
            table_of_trips(program, asked.trips, folder)
        if "long" in asked.parts:
            table_of_long(program, asked.long)
    return 0
