"""Counts what the built program takes for a record, and compares with a table.

    scripts/trial instructions [--program PATH] [--write] [--keep DIR]

The texts are the same in every run, each in two sizes:

  ring                a script: 8 processes in a ring, links in order, checks, a failure at the end
  check-ring          the claim that `bundle` writes at the end of such a script
  colours             a script: 64 processes, links without order, rounds of colours and recoveries
  check-colours       the claim that `bundle` writes at the end of such a script
  rounds              a script: 64 processes, links in order, rounds of markers
  check-rounds        the claim that `bundle` writes at the end of such a script
  ring-returns        the first of these with a carriage return before each line feed
  check-ring-returns  the second with them

Counted are the instructions, and the data that a cache of the first level and one of the last level
miss, by the sizes that scripts/instructions.py gives them. What both sizes take, less what the
smaller one does, is divided by the records that the greater one has more, so that the start of the
program drops out. The table bench/instructions.txt has a row for each text and tool. Of
instructions more than 3 % above it is a failure, of misses more than 5 %, status 1. --write writes
the table anew. The tool is valgrind (cachegrind), or else perf, which counts instructions alone.
Where there is neither, or no row for it, that is said, and the status is 0: nothing was compared.
"""

import argparse
import os
import pathlib
import subprocess
import tempfile
from concurrent.futures import ThreadPoolExecutor
from typing import NamedTuple

import instructions
import made_inputs
import preloaded

TABLE = preloaded.TOP / "bench" / "instructions.txt"
SIZES = (10_000, 30_000)
# The processes of the rounds of markers.
MANY = 64


class Measure(NamedTuple):
    """What is counted: its name, the decimals that the table has, and how far above it may be."""

    name: str
    decimals: int
    most_above: float


MEASURES = [
    Measure("instructions", 0, 0.03),
    Measure("first-level misses", 3, 0.05),
    Measure("last-level misses", 3, 0.05),
]
FIRST_LINES = """\
# What the built program takes for a record, by tool and text: instructions, data that the first
# level of caches misses, and data that the last one does. scripts/trial instructions compares
# with these, and --write writes them.
"""
# By tool and text each measure, for a record.
Table = dict[tuple[str, str], list[float]]


class Text(NamedTuple):
    """A text by its name, with its subcommand, its records, and what ends each of them."""

    name: str
    command: str
    records: list[str]
    ending: str = "\n"

    def to_bytes(self) -> bytes:
        """The text as it is given to the program."""
        return "".join(record + self.ending for record in self.records).encode("ascii")


def answered(program: str, records: list[str]) -> list[str]:
    """What a script is answered."""
    text = "".join(f"{it}\n" for it in records)
    run = subprocess.run(
        [program, "run"], check=False, input=text, stdout=subprocess.PIPE, text=True
    )
    return run.stdout.splitlines()


def claim(program: str, records: list[str], failed: str) -> list[str]:
    """The claim that is written at the end of a script where these failed."""
    replies = answered(program, [*records, f"bundle,{failed}"])
    begun = next(k for k, it in enumerate(replies) if it.startswith("history,"))
    return replies[begun:]


def texts_of(program: str, size: int) -> list[Text]:
    """The texts of a size."""
    ring, colours = list(made_inputs.ring(size)), list(made_inputs.colours(size))
    rounds = list(made_inputs.rounds(size, MANY))
    on_ring = claim(program, ring[:-1], "3")
    return [
        Text("ring", "run", ring),
        Text("check-ring", "check", on_ring),
        Text("colours", "run", colours),
        Text("check-colours", "check", claim(program, colours[:-2], "0,32")),
        Text("rounds", "run", rounds),
        Text("check-rounds", "check", claim(program, rounds[:-3], "0")),
        Text("ring-returns", "run", ring, "\r\n"),
        Text("check-ring-returns", "check", on_ring, "\r\n"),
    ]


def counts_of(program: str, tool: instructions.Tool, text: Text, folder: pathlib.Path) -> list[int]:
    """What the program takes for a text."""
    path = folder / f"{text.name}.{len(text.records)}"
    path.write_bytes(text.to_bytes())
    counts = instructions.all_counted(tool, [program, text.command], path)
    if counts is None:
        raise SystemExit(f"{tool.name} counts nothing of {text.name}")
    return counts


def measured(program: str, tool: instructions.Tool, folder: pathlib.Path) -> Table:
    """Of each text what it takes for a record."""
    texts = [text for size in SIZES for text in texts_of(program, size)]
    with ThreadPoolExecutor(os.cpu_count()) as pool:
        counts = list(pool.map(lambda it: counts_of(program, tool, it, folder), texts))
    half = len(texts) // 2
    found: Table = {}
    for k, (less, more) in enumerate(zip(texts, texts[half:])):
        records = len(more.records) - len(less.records)
        found[tool.name, less.name] = [
            (now - before) / records for before, now in zip(counts[k], counts[half + k])
        ]
    return found


def read_table() -> Table:
    """The rows of the table; none where there is no table."""
    if not TABLE.exists():
        return {}
    lines = TABLE.read_text(encoding="utf-8").splitlines()
    rows = [it.split() for it in lines if it and not it.startswith("#")]
    return {(tool, name): [float(it) for it in counts] for tool, name, *counts in rows}


def write_table(table: Table) -> None:
    """Writes the table."""
    rows = []
    for (tool, name), counts in table.items():
        told = (f"{it:.{measure.decimals}f}" for measure, it in zip(MEASURES, counts))
        rows.append(f"{tool} {name} {' '.join(told)}\n")
    TABLE.write_text(FIRST_LINES + "".join(rows), encoding="utf-8")


def compare(now: Table, table: Table) -> int:
    """Prints what each text takes beside the table's; answers how many are too many."""
    failures = 0
    for (tool, name), counts in now.items():
        wanted = table.get((tool, name))
        if wanted is None:
            print(f"instructions: {name}: {counts[0]:,.0f} a record; {tool} has no row for it")
            continue
        told = []
        for measure, count, least in zip(MEASURES, counts, wanted):
            is_above = count > least * (1 + measure.most_above)
            failures += is_above
            change = count / least - 1 if least else 0.0
            said = f", more than {measure.most_above:.0%} above it" if is_above else ""
            told.append(f"{count:,.{measure.decimals}f} {measure.name} ({change:+.1%}{said})")
        print(f"instructions: {name}: {', '.join(told)}")
    return failures


def measured_in(folder: pathlib.Path | None, program: str, tool: instructions.Tool) -> Table:
    """What is measured, with the texts in this folder, or in one that goes."""
    if folder:
        folder.mkdir(parents=True, exist_ok=True)
        return measured(program, tool, folder)
    with tempfile.TemporaryDirectory(prefix="recline-instructions-") as made:
        return measured(program, tool, pathlib.Path(made))


def add_words(words: argparse.ArgumentParser) -> None:
    """Adds the words of this job to those that are read."""
    words.add_argument("--program", type=pathlib.Path, help="the program, as ./recline builds it")
    words.add_argument("--write", action="store_true", help="writes the table")
    words.add_argument("--keep", type=pathlib.Path, help="a folder to keep the texts in")


def run(asked: argparse.Namespace) -> int:
    """Measures, writes or compares, and answers the status."""
    tool = instructions.tool_at_hand()
    if tool is None:
        print("instructions: neither valgrind nor perf counts here, so nothing is compared")
        return 0
    program = str(asked.program.resolve()) if asked.program else preloaded.built_program()
    now = measured_in(asked.keep, program, instructions.with_misses(tool))
    table = read_table()
    failures = compare(now, table)
    if asked.write:
        write_table(now | {key: counts for key, counts in table.items() if key not in now})
        return 0
    return 1 if failures else 0
