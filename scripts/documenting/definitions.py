"""Lists the definitions of crates/*/specs: each with its file, its lines and its source.

    scripts/docs definitions            prints an index: every definition, and how many lines
    scripts/docs definitions --write    writes the total in docs/DEFINITIONS.md, and anew in the
                                        README.md of each crate what it quotes of the code, and what
                                        crates.txt says that it stands on
    scripts/docs definitions --check    ends with status 1 where that total is another, or where
                                        the README.md of a crate lacks a heading, names other edits
                                        than stand in its must-fail/ and its further-edits/, lists
                                        other crates that it stands on, or quotes a contract that
                                        the code has not
    scripts/docs definitions --reached  prints the lines of definitions that public calls reach
    scripts/docs definitions --counts   prints the size of each crate: lines and characters
    scripts/docs definitions --homonyms prints the names that stand for two things, with where these
                                        are, and ends with status 1 where there is one

The source is the one that the first line of the file names: CL, LY, EAWJ and M as
docs/DEFINITIONS.md abbreviates them, and nothing where a definition is this project's own.
"""

import argparse
import re
from collections.abc import Callable

import command_lines
import counts
import definitions
import homonyms
import readmes
from definitions import ROOT, Name

WORDS = ROOT / "docs" / "DEFINITIONS.md"
TOTAL = re.compile(r"reach \*\*[\d,]+ lines\*\* of [\d,]+")
SOURCES = [
    ("Chandy and Lamport", "CL"), ("Lai and Yang", "LY"), ("Elnozahy", "EAWJ"), ("Mattern", "M"),
]
HEAD = """# Every definition

`docs/DEFINITIONS.md` says what the definitions mean.

## How many lines there are

Lines of definitions, without comments and empty lines. *Reached* are those that the contracts of
public calls name, directly or through other definitions: whoever wants to know what recline
promises reads these. The others are words of proofs.

"""


def source(first: str) -> str:
    """The source that the first line of a file names."""
    return ", ".join(short for name, short in SOURCES if name in first)


def size(names: set[Name]) -> int:
    """How many lines these definitions have."""
    return sum(len(definitions.definitions()[name].lines) for name in names)


def sizes() -> dict[str, tuple[int, int]]:
    """Of each crate with definitions the lines of all, and of those that public calls reach."""
    every, found = set(definitions.definitions()), definitions.reached_by_calls()
    pairs = {
        crate: (size({it for it in every if it[0] == crate}),
                size({it for it in found if it[0] == crate}))
        for crate in definitions.crates()
    }
    return {crate: pair for crate, pair in pairs.items() if pair[0]}


def totals() -> tuple[int, int]:
    """The lines of all definitions, and of those that public calls reach."""
    pairs = sizes().values()
    return sum(every for every, _ in pairs), sum(found for _, found in pairs)


def table_of_sizes() -> str:
    """The lines of definitions by crate, as a table."""
    rows = ["| Crate | Lines | Reached |", "|---|--:|--:|"]
    rows += [f"| `{crate}` | {every:,} | {found:,} |" for crate, (every, found) in sizes().items()]
    every, found = totals()
    rows.append(f"| all | {every:,} | {found:,} |")
    return "\n".join(rows) + "\n"


def table() -> str:
    """Every definition with its file, its lines, its source, and whether it is reached."""
    found = definitions.reached_by_calls()
    rows = ["| Definition | File | Lines | Source | Reached |", "|---|---|--:|---|---|"]
    for name, it in definitions.definitions().items():
        is_reached = "yes" if name in found else ""
        rows.append(f"| `{name[2]}` | {name[0]}/{it.path.name} | {len(it.lines)} "
                    f"| {source(it.source)} | {is_reached} |")
    return "\n".join(rows) + "\n"


def index() -> str:
    """The index: how many lines there are, and where each definition stands."""
    return f"{HEAD}{table_of_sizes()}\n## Where each stands\n\n{table()}"


def words() -> str:
    """docs/DEFINITIONS.md with the total as it has to be."""
    every, found = totals()
    return TOTAL.sub(f"reach **{found:,} lines** of {every:,}", WORDS.read_text(encoding="utf-8"))


def faults() -> list[str]:
    """What is wrong in the documents."""
    anew = "scripts/docs definitions --write makes it anew"
    found = readmes.faults()
    if not TOTAL.search(words()) or WORDS.read_text(encoding="utf-8") != words():
        found.append(f"docs/DEFINITIONS.md: the total isn't that of the definitions; {anew}")
    return found


def add_words(words: argparse.ArgumentParser) -> None:
    """Adds the words of this job to those that are read."""
    command_lines.add_options(words, "write", "check", "reached", "counts", "homonyms")


def run(asked: argparse.Namespace) -> int:
    """Does what the words ask for, and answers the status."""
    prints: dict[str | None, Callable[[], str]] = {
        None: index, "reached": table_of_sizes, "counts": counts.table,
    }
    looks = {"check": faults, "homonyms": homonyms.homonyms}
    if asked.option in looks:
        return command_lines.report(looks[asked.option]())
    if asked.option == "write":
        WORDS.write_text(words(), encoding="utf-8")
        readmes.write()
    else:
        print(prints[asked.option]().rstrip("\n"))
    return 0
