"""The definitions of crates/*/specs, and which of them the clauses of public calls reach.

A definition is reached where a clause of a public call names it, or another definition that is
reached does. What a clause or a definition names is looked up through the imports of its file. A
public type counts with the definition of the value that contracts see of it.

Public is what the library or the program of a crate shows. A law, which is a function that takes
nothing and answers nothing, counts where README.md names it: the others are steps of proofs. The
crates of `PARTS` are not for callers: the crates above them show what a caller needs of them.
"""

import pathlib
import re
from collections.abc import Iterable, Iterator
from functools import cache
from typing import NamedTuple

ROOT = pathlib.Path(__file__).resolve().parent.parent
# A definition by its crate, the module of specs/ that it stands in, and its name.
Name = tuple[str, str, str]
# What the names of one file stand for.
Scope = dict[str, Name]

# The lower halves of the machine and of the texts, and the words of the program.
PARTS = {
    "line_rounds", "line_moves", "line_fields", "line_claims", "line_scripts", "line_words",
}
# Crates of tests and of examples.
EXAMPLES = {
    "line_bench", "line_stress", "line_tests", "line_text_tests", "line_two_sums", "line_uses",
    "line_worker_tests",
}

HEAD = re.compile(
    r"(?:\s*(?:abbrev|unfoldable)(?: pub)?|\s*pub (?:record|data)|record|data) ([^\s:(]+)")
NO_LINE = re.compile(r"\s*(--.*)?$|(ghost )?use |pub mod |infix|module ")
IMPORT = re.compile(
    r"\buse\s+Rattle\.(\w+)\.specs\.(\w+)(?:\.\{([^}]*)\}|\s+as\s+(\w+))")
WORD = re.compile(r"(?<![\w.])[\w']+(?:\.[\w']+)?")
BOUND = re.compile(r"λ\s+([^.]*)\.|\(((?:[a-z_]\w*\s+)+):")
CLAUSE = re.compile(r"\b(?:requires|ensures)(?:\s+\w+)?\s*$")


class Definition(NamedTuple):
    """One definition: its own lines, without comments and empty lines, and its file."""

    name: Name
    lines: list[str]
    path: pathlib.Path
    source: str


class Call(NamedTuple):
    """A function of a crate: what it belongs to, its signature and its clauses."""

    owner: str
    name: str
    is_public: bool
    signature: str
    clauses: list[str]
    scope: Scope


def crates() -> list[str]:
    """The names of the crates, in the order in which they stand on each other."""
    lines = (ROOT / "crates.txt").read_text(encoding="utf-8").splitlines()
    return [line.split(":")[0] for line in lines if ":" in line]


def definitions_in(crate: str, path: pathlib.Path) -> Iterator[Definition]:
    """The definitions of one file of specs/."""
    text = path.read_text(encoding="utf-8")
    source, found = text.split("\n", 1)[0], None
    for line in text.split("\n"):
        head = HEAD.match(line)
        if head:
            if found:
                yield found
            found = Definition((crate, path.stem, head[1]), [], path, source)
        if found and not NO_LINE.match(line):
            found.lines.append(line)
    if found:
        yield found


@cache
def definitions() -> dict[Name, Definition]:
    """All definitions, crate by crate and file by file."""
    found = {}
    for crate in crates():
        for path in sorted((ROOT / "crates" / crate / "specs").glob("*.antt")):
            for definition in definitions_in(crate, path):
                found[definition.name] = definition
    return found


def imports(text: str) -> Scope:
    """What the imports of a text bring in: a name, or a module's whole names after its alias."""
    scope: Scope = {}
    for crate, module, names, alias in IMPORT.findall(text):
        for item in names.split(","):
            name, _, other = item.strip().partition(" as ")
            if (crate, module, name) in definitions():
                scope[other or name] = (crate, module, name)
        if alias:
            for key in definitions():
                if key[:2] == (crate, module):
                    scope[f"{alias}.{key[2]}"] = key
    return scope


@cache
def scope_of(path: pathlib.Path) -> Scope:
    """What names stand for in a file of specs/: its own definitions, and what it imports."""
    scope = imports(path.read_text(encoding="utf-8"))
    crate = path.parent.parent.name
    own = {key[2]: key for key in definitions() if key[:2] == (crate, path.stem)}
    return scope | own


def named(text: str, scope: Scope, bound: Iterable[str] = ()) -> set[Name]:
    """The definitions that a text names; a bound name stands for none."""
    hidden = set(bound)
    for lambdas, binders in BOUND.findall(text):
        hidden.update(re.findall(r"[a-z_]\w*", lambdas or binders))
    text = re.sub(r"(?<=[{;])\s*\w+\s*=(?!=)", " ", text)
    words = {word for found in WORD.findall(text) for word in (found, found.split(".")[0])}
    found = {scope[word] for word in words - hidden if word in scope}
    signs = {word: scope[word] for word in scope if "◌" in word}
    return found | {key for word, key in signs.items() if word.strip("◌") in text}


def names_in(definition: Definition) -> set[Name]:
    """The definitions that a definition names, itself apart."""
    bound: set[str] = set()
    body = []
    for line in definition.lines:
        if line.lstrip().startswith(definition.name[2] + " ") and " : " not in line.split("=")[0]:
            bound.update(re.findall(r"\b[a-z_]\w*", line.split(" = ")[0])[1:])
        body.append(re.sub(r"^\s+pub \w+ :", " :", line))
    scope = scope_of(definition.path)
    own = {name for name in bound if scope.get(name) != definition.name}
    return named("\n".join(body), scope, own) - {definition.name}


def without_words(text: str) -> str:
    """The code of a file without comments and the contents of its strings."""
    text = re.sub(r"//[^\n]*", "", text)
    return re.sub(r'"(?:[^"\\]|\\.)*"', '""', text)


def blocks(text: str) -> Iterator[tuple[str, str]]:
    """The outermost blocks in braces of a text, each with what stands before it."""
    depth, start, last, round_depth = 0, 0, 0, 0
    for at, char in enumerate(text):
        if char in "([":
            round_depth += 1
        elif char in ")]":
            round_depth -= 1
        elif char == "{":
            if depth == 0:
                start = at
            depth += 1
        elif char == "}":
            depth -= 1
            if depth == 0:
                yield text[last:start], text[start + 1:at]
                last = at + 1
        elif char == ";" and depth == 0 and round_depth == 0:
            yield text[last:at], ""
            last = at + 1


def calls_in(text: str, owner: str, scope: Scope, every: bool) -> Iterator[Call]:
    """The functions of a text, each with its clauses; those of a trait are all public."""
    call = None
    for before, inside in blocks(text):
        begun = re.search(r"(\bpub\s+)?(?:const\s+)?\bfn\s+(\w+)", before)
        if begun:
            if call:
                yield call
            call = Call(owner, begun[2], every or bool(begun[1]), before, [], scope)
        if call and CLAUSE.search(before):
            call.clauses.append(inside)
        elif begun is None and call:
            yield call
            call = None
    if call:
        yield call


class Source(NamedTuple):
    """What the files of a crate's src/ declare: functions, and the values of types."""

    calls: list[Call]
    values: dict[str, set[Name]]
    # What the crate shows, each name with the crate that it is of.
    public: dict[str, str]


@cache
def source_of(crate: str) -> Source:
    """What a crate's code declares; its tests are left out."""
    calls: list[Call] = []
    values: dict[str, set[Name]] = {}
    folder = ROOT / "crates" / crate / "src"
    for path in sorted(folder.rglob("*.rt")):
        if "tests" in path.relative_to(folder).parts or path.name == "tests.rt":
            continue
        text = without_words(path.read_text(encoding="utf-8"))
        scope = imports(text)
        calls += calls_in(text, "", scope, False)
        for before, inside in blocks(text):
            trait = re.search(r"\btrait\s+(\w+)", before)
            model = re.search(r"\bimpl(?:<[^>]*>)?\s+Model\s+for\s+(\w+)", before)
            kind = re.search(r"\bimpl(?:<[^>]*>)?\s+(\w+)(?:<[^>]*>)?\s*$", before)
            if model:
                value = re.search(r"ghost Value = \{([^}]*)\}", inside)
                values[model[1]] = named(value[1], scope | imports(inside)) if value else set()
            elif trait:
                calls += calls_in(inside, trait[1], scope, True)
            elif kind:
                calls += calls_in(inside, kind[1], scope, False)
    return Source(calls, values, public_of(folder))


def public_of(folder: pathlib.Path) -> dict[str, str]:
    """What a crate shows, each name with the crate that it is of; of a program what it calls."""
    library = folder / "lib.rt"
    path = library if library.exists() else folder / "main.rt"
    use = r"\bpub use" if library.exists() else r"\buse (?=crate::)"
    text = without_words(path.read_text(encoding="utf-8"))
    found = {}
    for home, names in re.findall(use + r"\s*(\w+)(?:::\w+)*::(\{[^}]*\}|\w+);", text):
        for name in re.findall(r"\w+", names):
            found[name] = home if home in crates() else folder.parent.name
    return found


@cache
def laws_told() -> set[str]:
    """The names that README.md has among its promises."""
    return set(re.findall(r"`(\w+)`", (ROOT / "README.md").read_text(encoding="utf-8")))


def is_law(call: Call) -> bool:
    """Whether a function takes nothing and answers nothing, so that its contract is a law."""
    return bool(re.search(r"fn \w+\(\s*\)\s*$", CLAUSE.sub("", call.signature).rstrip()))


def is_of(call: Call, name: str) -> bool:
    """Whether a function is the public one of that name, or a public one of that type or trait."""
    if not call.is_public or (is_law(call) and call.name not in laws_told()):
        return False
    return call.owner == name or (call.owner == "" and call.name == name)


def named_by_calls(crate: str) -> set[Name]:
    """The definitions that the clauses of a crate's public calls name, or their types' values."""
    found: set[Name] = set()
    for name, home in source_of(crate).public.items():
        source = source_of(home)
        found |= source.values.get(name, set())
        for call in source.calls:
            if is_of(call, name):
                bound = re.findall(r"\b([a-z_]\w*)\s*:", call.signature)
                for clause in call.clauses:
                    found |= named(clause, call.scope, bound)
    return found


def reached(roots: Iterable[Name]) -> set[Name]:
    """The roots, and all definitions that they name, directly or through others."""
    found: set[Name] = set()
    waiting = list(roots)
    while waiting:
        name = waiting.pop()
        if name not in found:
            found.add(name)
            waiting += names_in(definitions()[name])
    return found


def reached_by_calls() -> set[Name]:
    """The definitions that the clauses of the public calls of all crates for callers reach."""
    inner = PARTS | EXAMPLES
    return reached(name for it in crates() if it not in inner for name in named_by_calls(it))
