"""The README.md of each crate: its headings, the edits that it names, the contracts that it quotes.

Its promises stand in a table with the four columns of `COLUMNS`. The last two name the crate's
edits by their files, without `.edit`: those of must-fail/ and those of further-edits/.

What a crate stands on is listed under 'Uses', as crates.txt has it.

What a caller sees is quoted in blocks of three backticks and `text`: signatures and some of their
clauses as they stand in the code, but for `pub`, and with the type before the name of a method, as
`fn Tape::push(`. How lines are broken is not compared.
"""

import pathlib
import re
from collections.abc import Iterator
from functools import cache
from typing import NamedTuple

import definitions
import workspace
from definitions import ROOT

FOLDERS = ("must-fail", "further-edits")
COLUMNS = ["Promise", "Contract", "`must-fail/`", "`further-edits/`"]
HEADINGS = ["What a caller sees", "What is proved", "What is only tested", "Cost", "Uses"]
WIDTH = 100
# Where a long line of a quote is broken, the best places first.
BREAKS = [(" -> ", " × ", " → ", " ↔ ", " ⊎ "), (" ++ ", " ≡ "), (" (",), (" ",)]

BLOCK = re.compile(r"(?<=^```text\n).*?(?=^```$)", re.M | re.S)
OWNER = re.compile(r"(?:impl|pub trait)(?:<[^>]*>)? (?:\w+(?:<[^>]*>)? for )?(\w+)")
BEGIN = re.compile(r"( *)(?:pub(?:\(crate\))? )?(?:const )?fn (\w+)")
USES = re.compile(r"(?<=^It stands on )`\w+`(?:(?:, | and )`\w+`)*", re.M)
QUOTED = re.compile(r"fn ((?:\w+::)?\w+)")
CLAUSE = re.compile(r" +(requires|ensures)(?: (\w+))? \{")


class Function(NamedTuple):
    """A function with the lines of its signature, and those of its clauses by their names."""

    name: str
    signature: list[str]
    clauses: dict[str, list[str]]


def path_of(crate: str) -> pathlib.Path:
    """The README.md of a crate."""
    return ROOT / "crates" / crate / "README.md"


def rows(text: str) -> Iterator[list[str]]:
    """The rows of the tables of promises of a text, each with its cells."""
    inside = False
    for line in text.split("\n"):
        cells = [cell.strip() for cell in re.split(r"(?<!\\)\|", line)[1:-1]]
        inside = cells == COLUMNS or inside and len(cells) == len(COLUMNS)
        if inside and cells != COLUMNS and set(line) - set("|-"):
            yield cells


def edits_named(text: str) -> dict[str, set[str]]:
    """Of each folder of edits those that the tables of promises of a text name."""
    found: dict[str, set[str]] = {folder: set() for folder in FOLDERS}
    for cells in rows(text):
        for folder, cell in zip(FOLDERS, cells[2:]):
            found[folder] |= set(re.findall(r"`(\w+)`", cell))
    return found


def faults_of_edits(crate: str, text: str) -> list[str]:
    """Edits that a README names and the folder has not, or the other way; and rows without one.

    A row that names no edit of must-fail/ says there why not.
    """
    found, said = [], edits_named(text)
    have = {folder: {it.stem for it in (ROOT / "crates" / crate / folder).glob("*.edit")}
            for folder in FOLDERS}
    # `./test` lends further edits to the gate: these stand in both folders then.
    have["must-fail"] -= have["further-edits"]
    found += [f"no edit of must-fail/ nor why not: {it[0]}" for it in rows(text) if not it[2]]
    for folder in FOLDERS:
        found += [f"there is no {folder}/{it}.edit" for it in sorted(said[folder] - have[folder])]
        found += [f"{folder}/{it}.edit is not named" for it in sorted(have[folder] - said[folder])]
    return found


def parted(name: str, lines: list[str]) -> Function:
    """The function of these lines: its signature, and its clauses."""
    function = Function(name, [], {})
    last = function.signature
    for line in lines:
        clause = CLAUSE.match(line)
        if clause:
            last = function.clauses[" ".join(filter(None, clause.groups()))] = []
        last.append(line)
    return function


def lines_of(code: list[str], at: int, indent: int) -> list[str]:
    """The lines of the function that begins there, up to its body, without its indentation."""
    found = [code[at][indent:]]
    while not re.search(r"[;{]$|\{\}$", code[at]) and at + 1 < len(code):
        at += 1
        if code[at].strip() in ("{", "{}"):
            break
        if code[at].strip() and not code[at].strip().startswith("//"):
            found.append(code[at][indent:])
    found[-1] = re.sub(r"(?: \{|;| \{\})$", "", found[-1])
    return found


@cache
def functions(crate: str) -> dict[str, Function]:
    """The functions of a crate, by the names under which they are quoted."""
    found: dict[str, Function] = {}
    for path in sorted((ROOT / "crates" / crate / "src").rglob("*.rt")):
        owner, code = "", path.read_text(encoding="utf-8").split("\n")
        for at, line in enumerate(code):
            head, begun = OWNER.match(line), BEGIN.match(line)
            owner = head[1] if head else "" if line == "}" else owner
            if begun and "tests" not in path.parts:
                name = f"{owner}::{begun[2]}" if owner else begun[2]
                lines = lines_of(code, at, len(begun[1]))
                lines[0] = re.sub(r"^.*?\bfn \w+", f"fn {name}", lines[0])
                found.setdefault(name, parted(name, lines))
    return found


def quotes(block: str) -> Iterator[Function]:
    """The functions that a block quotes."""
    for call in re.split(r"^(?=fn )", block, flags=re.M):
        name = QUOTED.match(call)
        if name:
            yield parted(name[1], call.rstrip("\n").split("\n"))


def squeezed(lines: list[str]) -> str:
    """Lines without blanks, and without commas before a bracket closes."""
    return re.sub(r",(?=[)}\]>])", "", re.sub(r"\s+", "", "".join(lines)))


def faults_of_quotes(crate: str, text: str) -> list[str]:
    """Each function that a README quotes and the code has not so."""
    found = []
    for quote in (it for block in BLOCK.findall(text) for it in quotes(block)):
        real = functions(crate).get(quote.name)
        if real is None:
            found.append(f"the code has no function {quote.name}")
            continue
        if squeezed(quote.signature) != squeezed(real.signature):
            found.append(f"{quote.name} has another signature")
        found += [f"{quote.name} has no such clause {name}" for name, lines in quote.clauses.items()
                  if squeezed(lines) != squeezed(real.clauses.get(name, []))]
    return found


def broken(line: str) -> list[str]:
    """A line of a quote, broken where it is too long."""
    found, indent = [], len(line) - len(line.lstrip())
    while len(line) > WIDTH:
        places = (max(line.rfind(it, indent + 24, WIDTH + 1) for it in signs) for signs in BREAKS)
        at = next((it for it in places if 0 < it < len(line) - 4), 0)
        if not at:
            break
        found.append(line[:at])
        line = " " * max(8, indent) + line[at + 1:]
    return [*found, line]


def anew(crate: str, block: str) -> str:
    """A block of quotes as the code has them now; what the code has not stays as it is."""
    lines: list[str] = []
    for quote in quotes(block):
        real = functions(crate).get(quote.name, quote)
        lines += real.signature
        for name, own in quote.clauses.items():
            lines += real.clauses.get(name, own)
    return "".join(f"{part}\n" for line in lines for part in broken(line))


def uses_of(crate: str) -> str:
    """What a crate stands on, in words."""
    names = [f"`{it}`" for it in workspace.listed()[crate]]
    return " and ".join([", ".join(names[:-1]), names[-1]]) if len(names) > 1 else "".join(names)


def faults_of_uses(crate: str, text: str) -> list[str]:
    """Where a README does not list what crates.txt says that the crate stands on."""
    if USES.findall(text) == [uses_of(crate)]:
        return []
    return [f"it does not say: It stands on {uses_of(crate)}"]


def faults_of(crate: str) -> list[str]:
    """What is wrong in the README.md of a crate."""
    if not path_of(crate).is_file():
        return [f"crates/{crate} has no README.md"]
    text = path_of(crate).read_text(encoding="utf-8")
    found = faults_of_edits(crate, text) + faults_of_quotes(crate, text)
    found += faults_of_uses(crate, text)
    if re.findall(r"^## (.*)$", text, re.M) != HEADINGS:
        found.append(f"its headings are not {', '.join(HEADINGS)}")
    return [f"crates/{crate}/README.md: {it}" for it in found]


def faults() -> list[str]:
    """What is wrong in the README.md of the crates."""
    return [it for crate in definitions.crates() for it in faults_of(crate)]


def write() -> None:
    """Quotes anew, in the README.md of each crate, what it quotes, and lists what it stands on."""
    for crate in definitions.crates():
        path = path_of(crate)
        if path.is_file():
            parts = re.split(f"({BLOCK.pattern})", path.read_text(encoding="utf-8"),
                             flags=BLOCK.flags)
            parts[1::2] = [anew(crate, block) for block in parts[1::2]]
            path.write_text(USES.sub(uses_of(crate), "".join(parts)), encoding="utf-8")
