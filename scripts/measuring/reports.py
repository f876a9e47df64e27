"""`recline collect` compared with `recline serve` on the same events.

    scripts/measure reports [--program PATH] [--records N] [--processes P] [--runs K]
                            [--instructions] [--untimed]

P processes (16) send round a ring, on links in order, with checks, and at the end one fails: some N
records (1,000,000), for `serve` as a script. For `collect` the same events are reports, once in the
order of the script, and once process by process, so that most receipts come before their sends.
Both programs read a file and write to nowhere, by turns, K times (7): the medians of the
processor's time, the ratio to `serve`, and the greatest memory of a run. With --instructions those
for a record too, by valgrind or perf, which other work on the machine does not change; --untimed
leaves out times.

A program that ./try compiles has tests and an allocator of its own, so only one that is proved and
built tells what `recline collect` costs. Read ratios within one table only.
"""

import argparse
import pathlib
import statistics
import sys
import tempfile
from collections import Counter, defaultdict, deque
from collections.abc import Iterable, Iterator
from typing import NamedTuple

import instructions
from made_inputs import ring

from . import runs
from .runs import add_program, head, memory, program_of, row


class Text(NamedTuple):
    """A text by what it is, the subcommand that reads it, its file, and its records."""

    name: str
    command: str
    path: pathlib.Path
    records: int


def as_reports(script: Iterable[str]) -> Iterator[tuple[int, str]]:
    """What the processes of a script report, each record with its process; -1 for all of them.

    Links keep their order, and one recovery stands at the end.
    """
    sent: Counter[int] = Counter()
    on_links: defaultdict[tuple[int, int], deque[int]] = defaultdict(deque)
    for record in script:
        word, *fields = record.split(",")
        if word == "world":
            yield -1, f"reports,{fields[0]},{fields[1]}"
        elif word == "send":
            p, to = int(fields[0]), int(fields[1])
            on_links[p, to].append(sent[p])
            sent[p] += 1
            yield p, f"send,{p},0,{to},{fields[2]}"
        elif word == "deliver":
            source, p = int(fields[0]), int(fields[1])
            yield p, f"recv,{p},0,{source},0,{on_links[source, p].popleft()}"
        elif word == "check":
            yield int(fields[0]), f"check,{fields[0]},0,{fields[1]},-"
        else:
            yield -1, record


def by_process(reports: list[tuple[int, str]]) -> list[str]:
    """The same reports process by process, between the first record and the last one."""
    inner = sorted(reports[1:-1], key=lambda it: it[0])  # which keeps the order of each process
    return [it for _, it in (reports[0], *inner, reports[-1])]


def texts(folder: pathlib.Path, records: int, processes: int) -> Iterator[Text]:
    """The three texts."""
    script = list(ring(records, processes))
    reports = list(as_reports(script))
    made = [
        ("serve, a script", "serve", script),
        ("collect, in order", "collect", [it for _, it in reports]),
        ("collect, process by process", "collect", by_process(reports)),
    ]
    for number, (name, command, lines) in enumerate(made):
        path = folder / f"text-{number}"
        path.write_text("".join(f"{it}\n" for it in lines), encoding="ascii")
        yield Text(name, command, path, len(lines))


def milliseconds(program: str, text: Text) -> float:
    """The processor's milliseconds of a run, in which no record may be refused."""
    took = runs.timed(program, text.command, text.path)
    if took.status:
        sys.exit(f"{text.name}: the status is {took.status}")
    return took.processor * 1000


def counted(program: str, text: Text) -> float:
    """The instructions for a record of a text; 0 where nothing counts them."""
    tool = instructions.tool_at_hand()
    found = tool and instructions.counted(tool, [program, text.command], text.path)
    return found / text.records if found else 0.0


def table(program: str, made: list[Text], asked: argparse.Namespace) -> None:
    """Prints the table."""
    columns, cells = ["records"], [[f"{it.records:,}"] for it in made]
    measures: list[tuple[str, list[float], int]] = []
    if not asked.untimed:
        took: list[list[float]] = [[] for _ in made]
        for turn in range(asked.runs):
            for at in range(len(made)) if turn % 2 == 0 else reversed(range(len(made))):
                took[at].append(milliseconds(program, made[at]))
        measures.append(("ms", [statistics.median(it) for it in took], 0))
        measures.append(("MB", [memory(program, it.command, it.path) for it in made], 1))
    if asked.instructions:
        measures.append(("instructions a record", [counted(program, it) for it in made], 0))
    for name, found, decimals in measures:
        columns += [name, "ratio to serve"]
        for at, value in enumerate(found):
            ratio = f"{value / found[0]:.3f}" if found[0] else "-"
            cells[at] += [f"{value:,.{decimals}f}" if value else "-", ratio]
    head("text", *columns)
    for it, own in zip(made, cells):
        row([it.name, *own])


def add_words(words: argparse.ArgumentParser) -> None:
    """Adds the words of this job to those that are read."""
    add = words.add_argument
    add_program(words)
    add("--records", type=int, default=1_000_000, metavar="N", help="of a text (1000000)")
    add("--processes", type=int, default=16, metavar="P", help="in the ring (16)")
    add("--runs", type=int, default=7, metavar="K", help="of a text (7)")
    add("--instructions", action="store_true", help="count instructions too")
    add("--untimed", action="store_true", help="measure neither times nor memory")


def run(asked: argparse.Namespace) -> int:
    """Prints what is asked for."""
    program = program_of(asked)
    with tempfile.TemporaryDirectory(prefix="recline-measures-") as made:
        table(program, list(texts(pathlib.Path(made), asked.records, asked.processes)), asked)
    return 0
