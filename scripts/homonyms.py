"""Homonyms: names that stand for two things.

Compared are, over all crates, the definitions of specs/, the types and traits of the code, and its
constants and free functions that more than one file can name (`pub`, `pub(crate)`). They are one
thing, and no homonym,

- where a definition and a type of one name are of one crate: the value that contracts see of it;
- where a function's clauses name the definition: it is what the call answers.

A method, a variant and a field have their type's name before them, and modules under `declared` are
made from the types. None of these is compared, and nothing of tests. Of the crates of tests and of
examples the definitions and the types are compared with those of the other crates, not among
themselves.
"""

import pathlib
import re
from collections import defaultdict
from collections.abc import Iterator
from typing import NamedTuple

import definitions
from definitions import EXAMPLES, ROOT, Name

TYPE = re.compile(r"^(?:pub(?:\([^)]*\))? )?(?:struct|enum|trait|type) (\w+)", re.M)
CONSTANT = re.compile(r"^pub(?:\([^)]*\))? const (\w+)\b(?! fn)", re.M)
SHOWN = re.compile(r"\bpub(?:\([^)]*\))?\s+(?:const\s+)?fn\b")


class Item(NamedTuple):
    """What has a name: its kind, crate and file, and the definitions that it is the same as."""

    kind: str
    crate: str
    path: pathlib.Path
    same: frozenset[Name]

    def told(self) -> str:
        """The kind and the file, as they are printed."""
        return f"{self.kind} of {self.path.relative_to(ROOT / 'crates')}"


# By its name what has it.
Items = dict[str, list[Item]]


def is_test(path: pathlib.Path) -> bool:
    """Whether a file of code is one of tests."""
    return "tests" in path.parts or path.name == "tests.rt"


def of_specs() -> Iterator[tuple[str, Item]]:
    """The definitions, each with its name."""
    for name, definition in definitions.definitions().items():
        yield name[2], Item("definition", name[0], definition.path, frozenset([name]))


def of_file(crate: str, path: pathlib.Path) -> Iterator[tuple[str, Item]]:
    """The types, constants and free functions of a file of code, each with its name."""
    text = definitions.without_words(path.read_text(encoding="utf-8"))
    for name in TYPE.findall(text):
        same = (it for it in definitions.definitions() if (it[0], it[2]) == (crate, name))
        yield name, Item("type", crate, path, frozenset(same))
    if crate in EXAMPLES:
        return
    for name in CONSTANT.findall(text):
        yield name, Item("constant", crate, path, frozenset())
    for call in definitions.calls_in(text, "", definitions.imports(text), False):
        if SHOWN.search(call.signature):
            bound = re.findall(r"\b([a-z_]\w*)\s*:", call.signature)
            cited = (definitions.named(clause, call.scope, bound) for clause in call.clauses)
            same = (it for found in cited for it in found if it[2] == call.name)
            yield call.name, Item("function", crate, path, frozenset(same))


def items() -> Items:
    """All that is compared, by its name."""
    found: Items = defaultdict(list)
    for name, item in of_specs():
        found[name].append(item)
    for crate in definitions.crates():
        for path in sorted((ROOT / "crates" / crate / "src").rglob("*.rt")):
            if not is_test(path):
                for name, item in of_file(crate, path):
                    found[name].append(item)
    return found


def things(named: list[Item]) -> list[list[Item]]:
    """What has one name, parted by the thing that it is."""
    parted: list[list[Item]] = []
    for item in named:
        same = [it for it in parted if any(item.same & other.same for other in it)]
        parted = [it for it in parted if it not in same]
        parted.append([other for it in same for other in it] + [item])
    return parted


def is_homonym(named: list[Item]) -> bool:
    """Whether a name stands for two things, one of them at least of what callers have."""
    parted = things(named)
    return len(parted) > 1 and any(it.crate not in EXAMPLES for part in parted for it in part)


def homonyms() -> list[str]:
    """Each homonym with what it stands for and where, as it is printed."""
    return [f"{name}: {'; '.join(it.told() for it in named)}"
            for name, named in sorted(items().items()) if is_homonym(named)]
