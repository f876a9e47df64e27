"""Prints what documents say of the code: definitions, the library, crates, sizes.

    scripts/docs parts            prints each printed part, with its document
    scripts/docs parts --write    writes them into the documents
    scripts/docs parts --check    ends with status 1 where a document has another text there, or
                                  where a definition that public calls reach has no comment, a
                                  call of the library no docstring, or a crate no README.md that
                                  begins with what it is

A printed part stands between two lines of its document, `<!-- printed: NAME -->` and
`<!-- end of NAME -->`; what is around it is written by hand. `docs/DEFINITIONS.md` has each
definition that the contracts of public calls reach, with the comment that stands above it in
`specs/`; `docs/REFERENCE.md` what the crate `recline` shows, module by module, and the errors;
`docs/ARCHITECTURE.md` the crates in the order in which they are proved, from crates.txt
and the first paragraph of each README.md, and their sizes.
"""

import argparse
import re
import sys
from collections.abc import Callable
from itertools import groupby

import counts
import definitions
import references
import workspace
from definitions import ROOT, Definition, Name

DOCS = ROOT / "docs"


def said_of(definition: Definition) -> str:
    """The comment that stands above a definition, on one line; empty where there is none."""
    lines = definition.path.read_text(encoding="utf-8").split("\n")
    heads = [at for at, line in enumerate(lines)
             if (head := definitions.HEAD.match(line)) and head[1] == definition.name[2]]
    first = heads[0]
    while first > 0 and re.match(r"\s*(infix\w* .*)$", lines[first - 1]):
        first -= 1
    end = first
    while first > 0 and lines[first - 1].lstrip().startswith("--"):
        first -= 1
    return " ".join(line.lstrip()[2:].strip() for line in lines[first:end])


def title_of(definition: Definition) -> str:
    """What the first lines of a definition's file say is in it."""
    said = []
    for line in definition.path.read_text(encoding="utf-8").split("\n"):
        if not line.startswith("--"):
            break
        said.append(line[2:].strip())
    return " ".join(said)


def in_cell(text: str) -> str:
    """A text as a cell of a table has it."""
    return text.replace("|", "\\|")


def reached() -> list[Definition]:
    """The definitions that the contracts of public calls reach, by crate and file."""
    found = definitions.reached_by_calls()
    return [it for name, it in definitions.definitions().items() if name in found]


def page_of_definitions() -> str:
    """Each reached definition with what its comment says, by crate and file."""
    parts = []
    for crate, of_crate in groupby(reached(), key=lambda it: it.name[0]):
        parts.append(f"### {crate}")
        for module, of_file in groupby(of_crate, key=lambda it: it.name[1]):
            rows = list(of_file)
            parts.append(f"**`{module}`.** {title_of(rows[0])}")
            table = ["| Definition | Meaning |", "|---|---|"]
            table += [f"| `{in_cell(it.name[2])}` | {in_cell(said_of(it))} |" for it in rows]
            parts.append("\n".join(table))
    return "\n\n".join(parts)


def opening_of(crate: str) -> str:
    """The first paragraph of a crate's README.md after its title; empty where there is none."""
    path = ROOT / "crates" / crate / "README.md"
    parts = path.read_text(encoding="utf-8").split("\n\n") if path.exists() else []
    return parts[1].strip() if len(parts) > 1 and not parts[1].startswith("#") else ""


def table_of_crates() -> str:
    """The crates in the order in which they are proved, each with what it stands on."""
    listed = workspace.listed()
    order = workspace.needed(listed, workspace.stands_on())
    rows = ["| Crate | Stands on | What it is |", "|---|---|---|"]
    for crate in order:
        below = ", ".join(f"`{it}`" for it in listed[crate])
        rows.append(f"| `{crate}` | {below} | {in_cell(opening_of(crate))} |")
    return "\n".join(rows)


# Each printed part: the document, its name there, and what prints it.
PARTS: list[tuple[str, str, Callable[[], str]]] = [
    ("DEFINITIONS.md", "definitions", page_of_definitions),
    ("REFERENCE.md", "library", references.page),
    ("ARCHITECTURE.md", "crates", table_of_crates),
    ("ARCHITECTURE.md", "sizes", counts.table),
]


def with_part(text: str, name: str, printed: str) -> str:
    """A document with its part of that name printed anew; a document without the part ends all."""
    begin, end = f"<!-- printed: {name} -->", f"<!-- end of {name} -->"
    before, has_begin, rest = text.partition(begin)
    _, has_end, after = rest.partition(end)
    if not has_begin or not has_end:
        sys.exit(f"docs parts: there is no part {name} in its document")
    return f"{before}{begin}\n\n{printed}\n\n{end}{after}"


def lacking() -> list[str]:
    """What the printed parts lack: comments of definitions, docstrings, and openings of crates."""
    found = [f"{it.path.relative_to(ROOT)}: {it.name[2]} has no comment"
             for it in reached() if not said_of(it)]
    found += [f"crates/{crate}/README.md does not begin with what the crate is"
              for crate in definitions.crates() if not opening_of(crate)]
    return found + references.lacking()


def add_words(words: argparse.ArgumentParser) -> None:
    """Adds the words of this job to those that are read."""
    words.add_argument("--write", action="store_true")
    words.add_argument("--check", action="store_true")


def run(asked: argparse.Namespace) -> int:
    """Prints, writes or compares the parts, and answers the status."""
    differ = []
    for document, name, part in PARTS:
        path, printed = DOCS / document, part()
        have = path.read_text(encoding="utf-8")
        wanted = with_part(have, name, printed)
        if asked.write:
            path.write_text(wanted, encoding="utf-8")
        elif not asked.check:
            print(f"docs/{document}, {name}:\n\n{printed}\n")
        elif have != wanted:
            differ.append(f"docs/{document}: the part {name} is not what scripts/docs parts prints")
    faults = differ + lacking() if asked.check else []
    print("\n".join(faults), end="\n" if faults else "")
    return 1 if faults else 0
