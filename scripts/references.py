"""The reference of the library: what the crate `recline` shows, printed from the code.

Each module of crates/recline/src/lib.rt is a chapter with its types, calls, laws and constants: the
signature of each without its contract, and the first paragraph of its docstring. Fields and
variants stand below their type. An error with numbers is a row of the table of errors instead.
"""

import re
from collections.abc import Iterator
from functools import cache
from typing import NamedTuple

import definitions
import readmes
import refusals
from definitions import ROOT

LIBRARY = ROOT / "crates" / "recline" / "src" / "lib.rt"
MODULE = re.compile(r"((?:^///[^\n]*\n)+)^pub mod (\w+) \{\n(.*?)^\}", re.M | re.S)
USE = re.compile(r"\bpub use (\w+)::(?:\{([^}]*)\}|(\w+));")
TYPE = re.compile(r"pub (struct|enum|trait) ((\w+)(?:<[^>]*>)?(?:: \w+)?)")
CONSTANT = re.compile(r"pub const (\w+)(: .*);$")
ALIAS = re.compile(r"pub type (\w+) = .*;$")
FREE = re.compile(r"pub (?:const )?fn (\w+)")
METHOD = re.compile(r"    pub (?:const )?fn \w+")
CALL = re.compile(r"( *)(?:pub )?(?:const )?fn (\w+)")
IMPL = re.compile(r"impl(?:<.*?>)? (?:(\w+)(?:<.*>)? for )?(\w+)")
# Traits of the library: a type that has one says so.
TRAITS = ("Source", "Sink", "Work", "Gate", "Answerer")


class Item(NamedTuple):
    """Something that a crate shows: its kind, its signature, what is said of it, its parts."""

    kind: str
    signature: str
    said: str
    parts: list["Item"]


class Module(NamedTuple):
    """A module of the library: its name, what is said of it, and its names with their crates."""

    name: str
    said: list[str]
    names: dict[str, str]


def paragraphs(docs: list[str]) -> list[str]:
    """The paragraphs of the lines of a docstring, each on one line."""
    text = "\n".join(re.sub(r"^\s*//[/!] ?", "", line) for line in docs)
    return [" ".join(it.split()) for it in text.split("\n\n") if it.strip()]


def first(docs: list[str]) -> str:
    """The first paragraph of a docstring."""
    found = paragraphs(docs)
    return found[0] if found else ""


def flat(lines: list[str]) -> str:
    """A signature on one line, without its contract."""
    text = " ".join(" ".join(line.split("//")[0] for line in lines).split())
    text = re.sub(r",? ([)\]>])", r"\1", re.sub(r"([(\[<]) ", r"\1", text)).replace(", }", " }")
    # That a parameter is changed inside is none of its caller's business.
    return re.sub(r"(?<=[(, ])mut (?=\w+:|self\b)", "", re.sub(r"^pub (?:const )?", "", text))


def docs_above(lines: list[str], at: int) -> tuple[list[str], str]:
    """The docstring above a line, and the attributes that stand there."""
    docs: list[str] = []
    attributes = ""
    while at > 0 and re.match(r"\s*(///|#\[|\s+[^/]*\)\]$)", lines[at - 1]):
        at -= 1
        if lines[at].lstrip().startswith("///"):
            docs.insert(0, lines[at])
        else:
            attributes = lines[at] + attributes
    return docs, attributes


def end_of(lines: list[str], at: int, indent: str) -> int:
    """The line after the block that begins there with that indentation."""
    if not lines[at].endswith("{"):
        return at + 1
    while at < len(lines) and lines[at] != f"{indent}}}" and lines[at] != f"{indent}}},":
        at += 1
    return at + 1


def call_at(lines: list[str], at: int) -> Item:
    """The function that begins there."""
    indent = len(lines[at]) - len(lines[at].lstrip())
    own = readmes.parted("", readmes.lines_of(lines, at, indent))
    signature = flat(own.signature)
    is_law = bool(re.fullmatch(r"fn \w+\(\)", signature))
    asks = any(name.startswith("requires") for name in own.clauses)
    said = first(docs_above(lines, at)[0]) + (" Has a `requires`." if asks else "")
    return Item("law" if is_law else "call", signature, said, [])


def parts_of(lines: list[str], kind: str) -> Iterator[Item]:
    """The public fields of a struct, the variants of an enum or the functions of a trait."""
    at = 0
    while at < len(lines):
        line = lines[at].strip()
        after = end_of(lines, at, "    ")
        docs = docs_above(lines, at)[0]
        if kind == "trait" and CALL.match(lines[at]):
            yield call_at(lines, at)
        elif kind == "struct" and line.startswith("pub "):
            yield Item("field", line[4:].rstrip(","), first(docs), [])
        elif kind == "enum" and re.match(r"    [A-Z]\w*", lines[at]):
            yield Item("variant", flat(list(without_docs(lines[at:after]))).rstrip(","),
                       first(docs), [])
        at = after


def without_docs(lines: list[str]) -> Iterator[str]:
    """Lines but for docstrings and attributes."""
    yield from (line for line in lines if not re.match(r"\s*(///|#\[)", line))


def item_at(lines: list[str], at: int) -> tuple[str, Item] | None:
    """The public type, constant or free function that begins there, with its name."""
    docs, attributes = docs_above(lines, at)
    if kind := TYPE.match(lines[at]):
        parts = list(parts_of(lines[at + 1:end_of(lines, at, "") - 1], kind[1]))
        said = first(docs) + (" It is `Copy`." if re.search(r"\bCopy\b", attributes) else "")
        return kind[3], Item(kind[1], f"{kind[1]} {kind[2]}", said, parts)
    if value := CONSTANT.match(lines[at]):
        return value[1], Item("constant", value[1] + value[2], first(docs), [])
    if alias := ALIAS.match(lines[at]):
        return alias[1], Item("alias", alias[0][4:-1], first(docs), [])
    if call := FREE.match(lines[at]):
        return call[1], call_at(lines, at)
    return None


def methods_at(lines: list[str], at: int) -> list[Item]:
    """The public methods of the block of a type that begins there, but for numbers of errors."""
    found = (call_at(lines, it) for it in range(at, end_of(lines, at, ""))
             if METHOD.match(lines[it]))
    return [it for it in found if it.signature != "fn code(self) -> u32"]


@cache
def items(crate: str) -> dict[str, Item]:
    """The items of a crate that are public, by name; methods are parts of their types."""
    found: dict[str, Item] = {}
    methods: list[tuple[str, list[Item]]] = []
    traits: list[tuple[str, str]] = []
    # A type's own file comes before those of its folder, which add methods.
    paths = (ROOT / "crates" / crate / "src").rglob("*.rt")
    for path in sorted(paths, key=lambda it: it.with_suffix("").parts):
        is_test = "tests" in path.relative_to(ROOT).parts
        lines = [] if is_test else path.read_text(encoding="utf-8").split("\n")
        for at, line in enumerate(lines):
            if item := item_at(lines, at):
                found.setdefault(*item)
            elif (block := IMPL.match(line)) and block[1] in TRAITS:
                traits.append((block[2], block[1]))
            elif block and not block[1]:
                methods.append((block[2], methods_at(lines, at)))
    for name, own in methods:
        if name in found:
            found[name].parts.extend(own)
    for name, trait in traits:
        if name in found:
            found[name] = found[name]._replace(said=f"{found[name].said} It is a `{trait}`.")
    return found


def home_of(crate: str, name: str) -> str:
    """The crate that has an item which another one shows."""
    home = definitions.source_of(crate).public[name]
    return home if home == crate else home_of(home, name)


def names_in(text: str) -> dict[str, str]:
    """The names that a module shows, each with its crate."""
    found = {}
    for crate, several, one in USE.findall(text):
        for name in re.findall(r"\w+", several or one):
            found[name] = home_of(crate, name)
    return found


@cache
def modules() -> list[Module]:
    """The modules of the library; the root first, whose name is empty."""
    text = LIBRARY.read_text(encoding="utf-8")
    root = Module("", [], names_in(MODULE.sub("", text)))
    return [root] + [Module(name, paragraphs(docs.splitlines()), names_in(body))
                     for docs, name, body in MODULE.findall(text)]


def numbered() -> set[str]:
    """The errors that have numbers, which the table of errors shows."""
    return {it.error for it in refusals.refusals()}


def row(item: Item) -> str:
    """An item as a line of a list."""
    return f"- `{item.signature}`" + (f": {item.said}" if item.said else "")


def block(item: Item) -> str:
    """A type with its parts, one to a line."""
    lines = [f"**`{item.signature}`** {item.said}".rstrip()]
    if item.parts:
        lines += ["", *map(row, item.parts)]
    return "\n".join(lines)


def chapter(module: Module) -> str:
    """A module: its types, its calls, its laws and its constants."""
    own = [items(crate)[name] for name, crate in module.names.items() if name not in numbered()]
    title = f"`recline::{module.name}`" if module.name else "`recline`"
    parts = [f"## {title}", *module.said]
    parts += [block(it) for it in own if it.kind in ("struct", "enum", "trait", "alias")]
    for kind, heading in [("call", "Calls"), ("law", "Laws"), ("constant", "Constants")]:
        rows = [row(it) for it in own if it.kind == kind]
        if rows:
            parts += [f"**{heading}**", "\n".join(rows)]
    return "\n\n".join(parts)


def errors() -> str:
    """The errors that have numbers: of what, with which refusals, and which calls answer them."""
    rows = ["| Error | In | What it tells | Refusals | Calls |", "|---|---|---|---|---|"]
    homes = {name: f"`{module.name}`" if module.name else "the root"
             for module in modules() for name in module.names}
    crates = {name: crate for module in modules() for name, crate in module.names.items()}
    for error in dict.fromkeys(it.error for it in refusals.refusals()):
        if error in homes:
            own = [f"{it.number} {it.name}" for it in refusals.refusals() if it.error == error]
            said = items(crates[error])[error].said.replace(" It is `Copy`.", "")
            calls = ", ".join(refusals.calls(error))
            rows.append(f"| `{error}` | {homes[error]} | {said} | {', '.join(own)} | {calls} |")
    return "\n".join(rows)


def page() -> str:
    """The whole reference."""
    return "\n\n".join([*map(chapter, modules()), "## Errors with numbers", errors()])


def lacking() -> list[str]:
    """What the library shows without a docstring, but for fields and variants."""
    found = []
    for module in modules():
        for name, crate in module.names.items():
            item = items(crate)[name]
            calls = [it for it in item.parts if it.kind in ("call", "law")]
            found += [f"{crate}: {name} {it.signature} has no docstring"
                      for it in [item, *calls] if not it.said]
    return found
