"""The refusals and faults of the crates: number, name, sentence, and where each can come.

The numbers are those of the functions `code` of the crates, the sentences those that their errors
show, and the orders of asking those of the definitions that contracts cite.
"""

import pathlib
import re
from collections.abc import Iterator
from functools import cache
from typing import NamedTuple

import definitions
from definitions import ROOT

FORMATS, REPORTS = ROOT / "docs" / "FORMATS.md", ROOT / "docs" / "REPORTS.md"
STEPS = ROOT / "crates" / "line_world" / "specs" / "Refusals.antt"
# Errors that are shown by their names; what their docstrings say stands for a sentence.
BY_NAME = {"Fault", "ServeError"}
# A struct that has the number of an error, and no value of it.
NUMBERED = {"TextFault": "Fault"}
# The definitions that read a record, by its first field: of scripts, and of check texts.
SCRIPT = {
    "world": "Scripts.world_of", "send": "Scripts.send_of", "deliver": "Scripts.deliver_of",
    **dict.fromkeys(["check", "begin", "turn"], "Scripts.with_state"),
    **dict.fromkeys(["damage", "bar"], "Scripts.with_check"),
    **dict.fromkeys(["recover", "bundle", "plan", "answer"], "Scripts.with_failed"),
    **dict.fromkeys(["rounds", "history", "live", "save"], "Shapes.alone"),
    "forget": "Scripts.forget_of",
}
# Views that tell what a recovery would be answered; of these, one that names no process.
VIEWS, OF_ALL_PROCESSES = dict.fromkeys(["plan", "live", "answer"], "recover"), {"live"}
CHECK_TEXT = {
    "history": "Histories.head_in", "floor": "Histories.one_floor_more",
    "tape": "Histories.tape_of",
    "send": "Events.send_event_of", "recv": "Events.recv_event_of",
    "check": "Events.check_event_of", "mark": "Events.mark_event_of",
    "damage": "Entries.damage_of", "bar": "Entries.bar_of", "failed": "Entries.failed_of",
    "line": "Entries.line_of", "pass": "Entries.passed_of", "start": "Entries.start_of",
    "replay": "Entries.replay_of", "end": "Entries.end_of",
}
# What puts a record of an event on its tape.
EVENTS, PUT = {"send", "recv", "check", "mark"}, ("line_claims", "Histories", "event_at")
# Faults that each record can have, and that of a text which begins otherwise.
OF_ALL = {"BadRecord", "BadNumber"}
ENUM = re.compile(r"pub enum (\w+) \{\n(.*?)\n\}", re.S)
VARIANT = re.compile(r"((?:^ *(?:///|#\[).*\n)+)^    ([A-Z]\w*)(?:\(.*\)| = (\d+))?,?$", re.M)
MESSAGE = re.compile(r'#\[error\("([^"]*)"\)\]')
CODE = re.compile(r"pub fn code\(self\) -> u32\n.*?\n    \{\n(.*?)\n    \}\n", re.S)
STEP = re.compile(r"^refusal_of machine \((\w+).*?\) =\n(.*?)(?=^\S)", re.S | re.M)
CONSTANT = re.compile(r"pub const (\w+): u\w+ = ([\d_]+|u\d+::MAX);")


class Refusal(NamedTuple):
    """One variant of an error: its number, its name, and what it says to a person."""

    error: str
    number: int
    name: str
    sentence: str


@cache
def read(path: pathlib.Path) -> str:
    """The text of a file."""
    return path.read_text(encoding="utf-8")


@cache
def constants() -> dict[str, str]:
    """The public constants of the crates that are numbers, as a message shows them."""
    found = {}
    for path in sorted(ROOT.glob("crates/*/src/**/*.rt")):
        for name, value in CONSTANT.findall(read(path)):
            bits = re.fullmatch(r"u(\d+)::MAX", value)
            found[name] = str(2 ** int(bits[1]) - 1 if bits else int(value))
    return found


def shown(message: str) -> str:
    """A message with the values of the constants that it names."""
    return re.sub(r"\{([A-Z_]+)\}", lambda it: constants()[it[1]], message)


def written_by_hand(error: str, text: str) -> dict[str, str]:
    """The messages of an error whose `Display` is written by hand, by variant."""
    body = re.search(rf"impl fmt::Display for {error} \{{\n(.*?)\n\}}\n", text, re.S)
    arm = re.compile(rf'{error}::(\w+)\s*=>[^"]*?"([^"]*)"')
    return dict(arm.findall(body[1])) if body else {}


def refusals_of(error: str, body: str, text: str) -> Iterator[Refusal]:
    """The refusals of an error that has numbers, in the order of its variants."""
    impl = re.search(rf"^impl {error} \{{\n(.*?)^\}}", text, re.S | re.M)
    code = CODE.search(impl[1]) if impl else None
    numbers = dict(re.findall(rf"{error}::(\w+) => (\d+),", code[1])) if code else {}
    by_hand = written_by_hand(error, text)
    for above, variant, number in VARIANT.findall(body):
        if number and code:
            numbers[variant] = number
        if variant in numbers:
            message = MESSAGE.search(above)
            said = shown(message[1] if message else by_hand.get(variant, ""))
            is_name = bool(re.fullmatch(r"[A-Z]\w+", said))
            doc = " ".join(re.findall(r"/// (.*)", above)).rstrip(".")
            doc = doc[:1].lower() + doc[1:]
            name = said if is_name else variant
            yield Refusal(error, int(numbers[variant]), name, doc if is_name else said)


@cache
def refusals() -> list[Refusal]:
    """All refusals, crate by crate, those that others stand on first."""
    found: list[Refusal] = []
    for crate in definitions.crates():
        for path in sorted((ROOT / "crates" / crate / "src").rglob("*.rt")):
            text = read(path)
            for error, body in ENUM.findall(text):
                found += refusals_of(error, body, text)
    return found


@cache
def names() -> dict[int, str]:
    """The name of each number; of several, which `faults` tells of, the first."""
    found: dict[int, str] = {}
    for it in sorted(refusals(), key=lambda it: it.number):
        found.setdefault(it.number, it.name)
    return found


def numbers() -> dict[str, int]:
    """The number of each name."""
    return {name: number for number, name in names().items()}


# Where they can come: commands and records.


@cache
def rows_of(heading: str) -> dict[int, str]:
    """The last cells of the rows of numbers below a heading of docs/FORMATS.md, by number."""
    part = read(FORMATS).partition(f"\n## {heading}\n")[2].partition("\n## ")[0]
    rows = re.findall(r"^\| (\d+) \| [A-Z].*\|([^|]*)\|$", part, re.M)
    return {int(number): last for number, last in rows}


@cache
def reported() -> dict[int, list[str]]:
    """The reports that each number refuses, as the table of docs/REPORTS.md has them."""
    found: dict[int, list[str]] = {}
    for record, order in re.findall(r"^\| `(\w+)[,`].*\|([^|]*)\|$", read(REPORTS), re.M):
        for number in re.findall(r"\d+", re.sub(r"\(.*?\)", "", order)):
            found.setdefault(int(number), []).append(record)
    return found


def asked_in_steps() -> dict[str, list[str]]:
    """The refusals of each step of the machine, in the order of asking."""
    text = re.sub(r"--.*", "", read(STEPS))
    links = re.search(r"^link_causes .*?(?=^abbrev)", text, re.S | re.M)
    found = {}
    for step, body in STEP.findall(text):
        causes = (links[0] if links else "") + body if "link_causes" in body else body
        found[step.lower()] = re.findall(r", (\w+)\)\s*(?=∷|\n)", causes)
    for step, late in re.findall(r"^IsLateCause machine \((\w+) \w+\) (\w+) =", text, re.M):
        found[step.lower()].append(late)
    return found


def lines_reached(reader: str) -> str:
    """The lines of a definition that reads a record, and of all that it names of texts."""
    every, of_texts = definitions.definitions(), ("line_fields", "line_claims", "line_scripts")
    roots = [key for key in every if key[0] in of_texts and ".".join(key[1:]) == reader]
    if len(roots) != 1:
        raise ValueError(f"there are {len(roots)} definitions {reader} of texts")
    kept = [key for key in definitions.reached(roots)
            if key[0] in of_texts and key[1] != "Faults"]
    return "\n".join(line for key in sorted(kept) for line in every[key].lines)


def asked() -> dict[str, list[str]]:
    """The refusals of each command, in the order of asking: those of its record come first."""
    found, steps = {}, asked_in_steps()
    # The causes stand in the order of asking.
    steps["forget"] = [it.name for it in refusals() if it.error == "ForgetError" and it.number]
    of_records = [it.name for it in refusals() if it.error == "Fault"]
    steps["save"] = [it for it in steps["forget"] if it in ("WrongMode", "RoundOpen")]
    for command, reader in SCRIPT.items():
        said = set(re.findall(r"refused(?:_command)? faults\.(\w+)", lines_reached(reader)))
        first = sorted(said, key=of_records.index)
        rest = [name for name in steps.get(VIEWS.get(command, command), []) if name not in first]
        if command in OF_ALL_PROCESSES:
            rest.remove("NoSuchProcess")
        if first or rest:
            found[command] = first + rest
    return found


@cache
def faulty(is_script: bool) -> dict[str, list[str]]:
    """The records of a kind of text that can have each fault."""
    found: dict[str, list[str]] = {}
    for record, reader in (SCRIPT if is_script else CHECK_TEXT).items():
        text = re.sub(r"refused(?:_command)? faults\.\w+", "", lines_reached(reader))
        if record in EVENTS and not is_script:
            text += "\n".join(definitions.definitions()[PUT].lines)
        for name in set(re.findall(r"\bfaults\.(\w+)", text)) - OF_ALL:
            found.setdefault(name, []).append(record)
    return found


def in_texts(number: int) -> str:
    """Where a text shows a number."""
    name, parts = names()[number], []
    errors = {it.error for it in refusals() if it.number == number}
    commands = [command for command, order in asked().items() if name in order]
    if commands:
        parts.append("`refused`: " + ", ".join(commands))
    if number in reported():
        parts.append("`refused` of reports: " + ", ".join(reported()[number]))
    if name in OF_ALL and "Fault" in errors:
        parts.append("`fault` of a record")
    for kind, found in [("script", faulty(True)), ("check text", faulty(False))]:
        if name in found:
            parts.append(f"`fault` of a {kind}: " + ", ".join(found[name]))
    if "FaultCode" in errors:
        parts.append("`invalid`")
    if "ServeError" in errors:
        parts.append("`fault` of no record" + ("" if number else ", or of a command"))
    if number in rows_of("Drills"):
        parts.append("a drill")
    return "; ".join(parts)


# Where they can come: calls.


def holders(error: str) -> set[str]:
    """The public types that hold an error, itself among them."""
    found = {error} | {it for it, of in NUMBERED.items() if of == error}
    for path in ROOT.glob("crates/*/src/**/*.rt"):
        for name, body in re.findall(r"pub (?:struct|enum) (\w+) \{\n(.*?)\n\}", read(path), re.S):
            if re.search(rf"\b{error}\b", re.sub(r"//.*", "", body)):
                found.add(name)
    return found


def calls(error: str) -> list[str]:
    """The public calls of the library that answer an error."""
    wanted, found = holders(error), []
    for name, home in definitions.source_of("recline").public.items():
        for call in definitions.source_of(home).calls:
            answer = call.signature.rpartition("->")[2]
            if definitions.is_of(call, name) and wanted & set(re.findall(r"\w+", answer)):
                said = f"`{call.owner}::{call.name}`" if call.owner else f"`{call.name}`"
                found += [said] if said not in found else []
    return found
