"""Lists the refusals and faults: number, name, sentence, and where each can come.

    scripts/docs refusals            prints docs/REFUSALS.md as it has to be
    scripts/docs refusals --write    writes it
    scripts/docs refusals --check    ends with status 1 where it is another, or where a number, a
                                     name or an order of asking that is written elsewhere is not
                                     that of the code: in another crate, in definitions, in
                                     docs/FORMATS.md, in the client, in scripts and in examples
"""

import argparse
import ast
import pathlib
import re
from collections.abc import Iterator
from functools import cache

import command_lines
import definitions
from definitions import ROOT
from refusals import (
    BY_NAME, FORMATS, asked, in_texts, names, numbers, read, refusals, reported, rows_of,
)

PAGE = ROOT / "docs" / "REFUSALS.md"
CLIENT = ROOT / "clients" / "python" / "recline" / "services.py"
MACHINE = ROOT / "scripts" / "slow_model" / "machine.py"
# Errors whose names `name_of` of line_claims has, since texts show them.
SHOWN = ["StepError", "ForgetError", "Fault", "FaultCode", "ServeError", "BodyError"]
HEAD = """# Refusals and faults, by number

Printed by `scripts/docs refusals --write` from the code; `--check` compares it, and what is \
written elsewhere of these numbers. `docs/FORMATS.md` says what each means to whoever writes a text.

A number has one name, in all crates. What an error says to a person may differ with what was \
asked, so one number can have several sentences. A number that no text shows is of the library \
alone; `docs/REFERENCE.md` has the errors of the library, each with the calls that answer it.

"""


# The page.


def sentences(number: int) -> str:
    """What errors say of a number, each with the errors that say so."""
    by_sentence: dict[str, list[str]] = {}
    for it in refusals():
        if it.number == number:
            by_sentence.setdefault(it.sentence, []).append(it.error)
    own = {said: errors for said, errors in by_sentence.items() if set(errors) - BY_NAME}
    return "; ".join(f"{said} ({', '.join(f'`{it}`' for it in errors)})"
                     for said, errors in (own or by_sentence).items())


def page() -> str:
    """The page: each number, with the errors that have it."""
    rows = ["| Number | Name | What errors say | A text shows it |", "|--:|---|---|---|"]
    rows += [f"| {number} | {name} | {sentences(number)} | {in_texts(number)} |"
             for number, name in names().items()]
    rows += ["", f"The next number that is free is {max(names()) + 1}."]
    return HEAD + "\n".join(rows) + "\n"


# What is written elsewhere.


def pairs_in(path: pathlib.Path) -> Iterator[tuple[int, str]]:
    """The numbers beside names that a text has: `3 TapeFull`, `3,TapeFull`, `3: "TapeFull"`, .."""
    text, known = read(path), "|".join(sorted(set(names().values()), key=len, reverse=True))
    # A number of a record is none of a refusal.
    no_record = r"(?<!fault_at )(?<!fault_of_record )"
    beside = rf"(?<![\w.]){no_record}(\d+)(?: \| |,| |: |\s*=>\s*)\"?({known})\b"
    found = re.findall(beside, text)
    found += re.findall(r"(?:refused|fault),(\d+),(\w+)", text)
    if path.suffix == ".antt":
        found += re.findall(r"if code == (\d+) then codes \"(\w+)\"", text)
        equations = rf"^(?:refusal_code|code_of) \w+\.({known}) = (\d+)$"
        found += [(number, name) for name, number in re.findall(equations, text, re.M)]
    if path == FORMATS:
        found += re.findall(r"^\| (\d+) \| ([A-Z]\w+) \|", text, re.M)
    yield from ((int(number), name) for number, name in found)


def texts() -> Iterator[pathlib.Path]:
    """The files that may write a number beside a name."""
    for pattern in ["crates/*/src/**/*.rt", "crates/*/specs/*.antt", "crates/*/README.md", "*.md",
                    "docs/*.md", "docs/*.1", "clients/**/*", "scripts/**/*", "examples/**/*",
                    "bench/**/*"]:
        for path in sorted(ROOT.glob(pattern)):
            parts = path.relative_to(ROOT).parts
            if path.is_file() and path != PAGE and not {"out", "__pycache__"} & set(parts):
                yield path


def faults_of_pairs() -> Iterator[str]:
    """Each number that stands beside another name than its own."""
    for path in texts():
        try:
            pairs = set(pairs_in(path))
        except UnicodeDecodeError:
            continue
        for number, name in sorted(pairs):
            if names().get(number) != name:
                own = names().get(number, "no name")
                yield f"{path.relative_to(ROOT)}: {number} {name}, where {number} is {own}"


def faults_of_errors() -> Iterator[str]:
    """Each name of an error that is not its number's, and each that texts show and cannot name."""
    for it in refusals():
        if names()[it.number] != it.name:
            yield f"{it.error}: {it.number} is {it.name} here, and {names()[it.number]} elsewhere"
        if not it.sentence:
            yield f"{it.error}: {it.name} says nothing"
        if numbers()[names()[it.number]] != it.number:
            yield f"{it.error}: {it.name} has several numbers, {it.number} here"
    code = read(ROOT / "crates" / "line_claims" / "src" / "faults.rt")
    for it in refusals():
        if it.error in SHOWN and f'{it.number} => "{it.name}"' not in code:
            yield f"name_of of line_claims lacks {it.number} {it.name}, which {it.error} has"
    drills = read(ROOT / "crates" / "line_workers" / "src" / "refusals.rt")
    yield from (f"name of DrillWhy lacks {it.name}" for it in refusals()
                if it.error == "DrillWhy" and f'DrillWhy::{it.name} => "{it.name}"' not in drills)


@cache
def refused_by_client() -> dict[str, list[int]]:
    """The numbers that the docstrings of the client's methods say, by method."""
    found = {}
    for it in ast.walk(ast.parse(read(CLIENT))):
        said = (ast.get_docstring(it) or "") if isinstance(it, ast.FunctionDef) else ""
        told = re.findall(r"\b(\d+) [A-Z]\w+", said.partition("Refused: ")[2])
        if isinstance(it, ast.FunctionDef) and told:
            found[it.name] = [int(number) for number in told]
    return found


def faults_of_tables() -> Iterator[str]:
    """Each number that a table of docs/FORMATS.md lacks, or has and the code does not."""
    for heading, errors in [("Faults", {"Fault", "ServeError"}), ("Refusals", {"StepError"})]:
        want = {it.number for it in refusals() if it.error in errors}
        if heading == "Refusals":
            want = want - {0} | {numbers()[name] for it in asked().values() for name in it}
        if want != set(rows_of(heading)):
            other = sorted(want ^ set(rows_of(heading)))
            yield f"docs/FORMATS.md: {other} are of the table of {heading}, or of the code, alone"


def faults_of_reports() -> Iterator[str]:
    """Each number that the table of docs/REPORTS.md lacks, or has and the code does not."""
    # That there is no such process is the refusal of another error, and so is want of numbers.
    of_code = {it.number for it in refusals() if it.error == "CollectError"}
    want = of_code - {0} | {numbers()[name] for name in ("NoSuchProcess", "NoMoreNumbers")}
    if want != set(reported()):
        yield f"docs/REPORTS.md: {sorted(want ^ set(reported()))} are of it, or of the code, alone"


def is_told(command: str, where: str) -> bool:
    """Whether a cell tells of the command: by its name, or of all commands but some others."""
    named, _, others = where.partition(" but ")
    return bool(re.search(rf"\b({command}|all)\b", named)) and command not in others


def faults_of_orders() -> Iterator[str]:
    """Each command whose refusals are told elsewhere as others, or in another order."""
    model = read(MACHINE)
    for command, order in asked().items():
        want = [numbers()[name] for name in order]
        told = [number for number, where in rows_of("Refusals").items() if is_told(command, where)]
        if told != want:
            yield f"docs/FORMATS.md: {command} is refused by {want}, and not by {told}"
        told = refused_by_client().get(command, [])
        if told != want:
            yield f"{CLIENT.relative_to(ROOT)}: {command} is refused by {want}, and not by {told}"
        body = re.search(rf"\n    def {command}\(.*?(?=\n    def |\Z)", model, re.S)
        asks = re.findall(r"\brefuse\((\d+),", body[0]) if body else []
        told = [int(number) for number in asks]
        if [it for it in want if it in told] != told:
            yield f"scripts/slow_model/machine.py: {command} asks for {want}, and not for {told}"


def faults() -> list[str]:
    """What is wrong on the page and elsewhere."""
    if found := list(faults_of_errors()):
        return found
    found = [*faults_of_pairs(), *faults_of_tables(), *faults_of_reports(), *faults_of_orders()]
    if not PAGE.is_file() or read(PAGE) != page():
        found.append("docs/REFUSALS.md is another; scripts/docs refusals --write makes it anew")
    return found


def add_words(words: argparse.ArgumentParser) -> None:
    """Adds the words of this job to those that are read."""
    command_lines.add_options(words, "write", "check")


def run(given: argparse.Namespace) -> int:
    """Does what the words ask for, and answers the status."""
    if given.option == "check":
        return command_lines.report(faults())
    if given.option == "write":
        PAGE.write_text(page(), encoding="utf-8")
    else:
        print(page(), end="")
    return 0
