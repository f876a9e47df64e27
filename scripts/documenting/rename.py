"""Renames definitions of specs/ everywhere, each in its scope, by a table.

    scripts/docs rename ROOT TABLE [--dry] [--all-left]

A line of the table: CRATE MODULE OLD NEW (# begins a comment). A definition is renamed in its own
module and in each file of crates/ (specs, proofs, code in clauses and ghost members, edits) that
imports it, by name, by a module's alias, or through the crate `recline`; in the README.md of crates
and in docs/ where it stands in backticks and can only mean this one. A name that is bound there, a
field, and a label stay. A rename is refused where its new name is used already in a file concerned,
or names another definition. What is not done is told, a line each: REFUSED (nothing was done),
BOUND (an occurrence that stays, since a binder hides the definition there), LOOK (a place in a
document to read). --dry writes nothing; --all-left tells all BOUND places, else only their files.
"""

import argparse
import pathlib
import re

from renames import (
    DEFINED, USE, Change, Row, applied, has_name, in_antt, in_code, in_uses, is_parameter, said,
    tell,
)
from wraps import split_uses, with_wraps

KINDS = ("specs", "proofs", "src")


class Tree:
    """The files of a repository, in memory."""

    def __init__(self, root: pathlib.Path) -> None:
        self.root = root
        self.texts: dict[pathlib.Path, str] = {}
        for crate in sorted((root / "crates").iterdir()):
            for kind in KINDS:
                for path in sorted((crate / kind).rglob("*")):
                    if path.suffix in (".antt", ".rt"):
                        self.texts[path] = path.read_text(encoding="utf-8")
        for path in sorted((root / "crates").glob("*/*/*.edit")):
            self.texts[path] = path.read_text(encoding="utf-8")
        for path in sorted((root / "scripts").iterdir()):
            if path.suffix in (".py", "") and path.is_file():
                self.texts[path] = path.read_text(encoding="utf-8")
        for path in [*sorted((root / "crates").glob("*/README.md")),
                     *sorted((root / "docs").rglob("*.md")), root / "README.md"]:
            self.texts[path] = path.read_text(encoding="utf-8")
        self.before = dict(self.texts)
        # By how `recline` shows a module which one it is.
        self.homes: dict[tuple[str, str], tuple[str, str]] = {}
        lib = root / "crates" / "recline" / "specs" / "Lib.antt"
        if lib in self.texts:
            for use in USE.finditer(self.texts[lib]):
                shown = use["alias"] or use["module"]
                self.homes["recline", shown] = (use["crate"], use["module"])

    def name(self, path: pathlib.Path) -> str:
        """A path as it is told."""
        return str(path.relative_to(self.root))

    def defined(self) -> dict[str, list[str]]:
        """Of each name the files that define it."""
        found: dict[str, list[str]] = {}
        for path, text in self.texts.items():
            if path.suffix == ".antt" and "specs" in path.parts:
                for name in DEFINED.findall(text):
                    found.setdefault(name, []).append(self.name(path))
        return found

    def rust_names(self, crate: str, all_of_it: bool = True) -> set[str]:
        """The names of items of a crate's code, and of fields and clauses; its tests left out."""
        found: set[str] = set()
        for path, text in self.texts.items():
            if path.suffix == ".rt" and path.is_relative_to(self.root / "crates" / crate):
                bare = re.sub(r"//[^\n]*", "", text)
                if all_of_it:
                    found |= set(re.findall(r"\b(?:ensures|requires) (\w+) \{", bare))
                if "tests" not in path.parts:
                    found |= set(re.findall(r"\b(?:fn|struct|enum|trait|type) (\w+)", bare))
                    if all_of_it:
                        found |= set(re.findall(r"^ +(?:pub )?(\w+):", bare, re.M))
        return found

    def record_names(self) -> set[str]:
        """The names of the records of texts, and of the subcommands."""
        found: set[str] = set()
        for path, text in self.texts.items():
            if path.suffix == ".antt" and "specs" in path.parts:
                found |= set(re.findall(r'codes "(\w+)"', text))
        return found

    def rename(self, row: Row) -> None:
        """Does one line of the table, or says why not."""
        own = self.root / "crates" / row.crate / "specs" / f"{row.module}.antt"
        if own not in self.texts:
            return tell("REFUSED", row, f"there is no {self.name(own)}")
        if row.old not in DEFINED.findall(self.texts[own]):
            return tell("REFUSED", row, f"{self.name(own)} has no such definition")
        other = self.defined().get(row.new)
        if other:
            return tell("REFUSED", row, f"{row.new} is defined in {', '.join(other)}")
        changes: dict[pathlib.Path, list[Change]] = {}
        scopes: dict[pathlib.Path, set[str]] = {}
        for path, text in self.texts.items():
            if path.suffix not in (".antt", ".rt") or row.old not in text:
                continue
            found, aliases = in_uses(text, row, self.homes)
            if path == own:
                aliases = aliases | {""}
            if aliases or found:
                changes[path], scopes[path] = found, aliases
        for path in scopes:
            if has_name(self.texts[path], row.new, path.suffix == ".rt"):
                return tell("REFUSED", row, f"{self.name(path)} uses {row.new} already")
            if path.suffix == ".rt" and is_parameter(self.texts[path], row.new):
                return tell("REFUSED", row, f"{self.name(path)} has a parameter {row.new}")
        for path, aliases in scopes.items():
            text, where = self.texts[path], self.name(path)
            inner = in_code if path.suffix == ".rt" else in_antt
            changes[path] += inner(text, row, aliases, where)
        for path, found in changes.items():
            text = applied(self.texts[path], found)
            self.texts[path] = text
            self.look_at_comments(path, row)
        self.attributes(row)
        self.edits(row, scopes)
        self.documents(row)
        for path, text in self.texts.items():
            if path.parent == self.root / "scripts" and self.is_alone(row):
                self.texts[path] = text.replace(f'"{row.module}.{row.old}"',
                                                f'"{row.module}.{row.new}"')

    def attributes(self, row: Row) -> None:
        """What the attributes of a crate's functions unfold."""
        spelled = re.compile(rf"\bcrate::specs::{row.module}::{re.escape(row.old)}(?![\w'])")
        for path, text in self.texts.items():
            if path.suffix == ".rt" and path.is_relative_to(self.root / "crates" / row.crate):
                self.texts[path] = spelled.sub(f"crate::specs::{row.module}::{row.new}", text)

    def look_at_comments(self, path: pathlib.Path, row: Row) -> None:
        """Tells of comments that name it."""
        mark = "--" if path.suffix == ".antt" else "//"
        for number, line in enumerate(self.texts[path].split("\n"), 1):
            at = line.find(mark)
            if at >= 0 and re.search(rf"`{re.escape(row.old)}`", line[at:]):
                tell("LOOK", row, f"{self.name(path)}:{number}: {line.strip()}")

    def edits(self, row: Row, scopes: dict[pathlib.Path, set[str]]) -> None:
        """Edits whose lines have clauses."""
        for path, text in self.texts.items():
            if path.suffix != ".edit":
                continue
            target = re.search(r"^file: (.*)$", text, re.M)
            if not target:
                continue
            file = path.parent.parent / target[1].strip()
            if file not in scopes:
                continue
            is_ghost = re.search(r"\b(?:ensures|requires|ghost)\b", text) or file.suffix == ".antt"
            if is_ghost and re.search(rf"(?<![\w.'-]){re.escape(row.old)}(?![\w'-])", text):
                self.texts[path] = re.sub(
                    rf"(?<![\w.'-]){re.escape(row.old)}(?![\w'-])", row.new, text)
                tell("LOOK", row, f"{self.name(path)}: an edit with clauses was changed")

    def documents(self, row: Row) -> None:
        """Renames in documents."""
        for path, text in self.texts.items():
            if path.suffix == ".md" and re.search(rf"\b{re.escape(row.old)}\b", text):
                if path.name == "DEFINITIONS.md":
                    self.texts[path] = self.in_words(path, text, row)
                else:
                    self.texts[path] = self.in_document(path, text, row)

    def in_words(self, path: pathlib.Path, text: str, row: Row) -> str:
        """docs/DEFINITIONS.md: headings name crates, cells name modules."""
        crates: list[str] = []
        lines = []
        for number, line in enumerate(text.split("\n"), 1):
            if line.startswith("#"):
                crates = re.findall(r"\bline_\w+", line)
            cells = re.split(r"(?<!\\)(\|)", line)
            is_row = line.startswith("|") and len(cells) > 6
            if row.crate in crates and is_row:
                module = ""
                cell = cells[4]

                def put(it: re.Match[str]) -> str:
                    nonlocal module
                    module = it[1] or module
                    if it[2] != row.old or (module or row.module) != row.module:
                        return it[0]
                    return f"`{it[1] + '.' if it[1] else ''}{row.new}`"
                cells[4] = re.sub(r"`(?:(\w+)\.)?(\w+)`", put, cell)
            new = "".join(cells)
            if row.crate in crates or self.is_alone(row):
                spelled = rf"`{row.module}\.{re.escape(row.old)}`"
                new = re.sub(spelled, f"`{row.module}.{row.new}`", new)
            lines.append(new)
            loose = rf"`(?:{row.module}\.)?{re.escape(row.old)}`"
            if (not crates or row.crate in crates) and row.old not in self.records \
                    and re.search(loose, new if is_row is False else cells[4] + cells[6]):
                tell("LOOK", row, f"{self.name(path)}:{number}: {new[:160]}")
        return "\n".join(lines)

    def is_alone(self, row: Row) -> bool:
        """Whether no other crate has that name in a module of that name."""
        others = [it for it in self.defined_before.get(row.old, [])
                  if it.endswith(f"/{row.module}.antt")]
        return len(others) == 1

    def in_document(self, path: pathlib.Path, text: str, row: Row) -> str:
        """A README.md of a crate, or another document: what can only mean this definition."""
        spelled = re.compile(rf"`{re.escape(row.old)}`|`{row.module}\.{re.escape(row.old)}`")
        crate = path.parent.name if path.parent.parent.name == "crates" else ""
        others = [it for it in self.defined_before.get(row.old, [])
                  if it != f"crates/{row.crate}/specs/{row.module}.antt"]
        if crate:
            is_other = row.old in self.rust[crate] or row.old in self.records
            is_ours = not any(f"crates/{crate}/" in it for it in others)
            is_sure = not is_other and is_ours and (crate == row.crate or not others)
            if is_other or (crate != row.crate and any(f"crates/{crate}/" in it for it in others)):
                return self.qualified(text, row)
        else:
            is_other = row.old in self.records or row.old in self.items
            is_sure = not is_other and not others
            if is_other:
                return self.qualified(text, row)
        lines = []
        for number, line in enumerate(text.split("\n"), 1):
            if spelled.search(line):
                line = self.qualified(line, row)
                if is_sure:
                    line = re.sub(rf"`{re.escape(row.old)}`", f"`{row.new}`", line)
                if spelled.search(line):
                    found = spelled.search(line)
                    assert found
                    near = line[max(0, found.start() - 60):found.end() + 60]
                    tell("LOOK", row, f"{self.name(path)}:{number}: ..{near}..")
            lines.append(line)
        return "\n".join(lines)

    def qualified(self, text: str, row: Row) -> str:
        """The text with the name renamed where its module stands before it."""
        if not self.is_alone(row):
            return text
        return re.sub(rf"`{row.module}\.{re.escape(row.old)}`", f"`{row.module}.{row.new}`", text)

    def run(self, rows: list[Row]) -> None:
        """Does the table, line by line."""
        crates = [it.name for it in (self.root / "crates").iterdir()]
        self.rust = {crate: self.rust_names(crate) for crate in crates}
        self.defined_before = self.defined()
        self.records = self.record_names()
        self.items = {name for crate in crates for name in self.rust_names(crate, False)}
        for row in rows:
            self.rename(row)
        for path, text in self.texts.items():
            if text != self.before[path] and path.suffix in (".antt", ".rt"):
                if "proofs" not in path.parts:
                    text = split_uses(text)
                    self.texts[path] = with_wraps(text, self.before[path], path.suffix == ".rt")

    def write(self) -> int:
        """Writes the files that changed, and answers how many."""
        changed = [path for path, text in self.texts.items() if text != self.before[path]]
        for path in changed:
            path.write_text(self.texts[path], encoding="utf-8")
        return len(changed)


def rows_of(table: pathlib.Path) -> list[Row]:
    """The lines of the table, comments and empty lines left out."""
    lines = table.read_text(encoding="utf-8").splitlines()
    cells = [line.partition("#")[0].split() for line in lines]
    return [Row(*it) for it in cells if it]


def add_words(words: argparse.ArgumentParser) -> None:
    """Adds the words of this job to those that are read."""
    words.add_argument("root", type=pathlib.Path, metavar="ROOT", help="the repository")
    words.add_argument("table", type=pathlib.Path, metavar="TABLE", help="what is renamed")
    words.add_argument("--dry", action="store_true", help="writes nothing")
    words.add_argument("--all-left", action="store_true", help="tells all BOUND places")


def run(asked: argparse.Namespace) -> int:
    """Renames, and answers 1 where a rename was refused."""
    rows = rows_of(asked.table)
    tree = Tree(asked.root.resolve())
    tree.run(rows)
    bound = [it for it in said if it.startswith("BOUND")]
    for line in said:
        if not line.startswith("BOUND") or asked.all_left:
            print(line)
    if bound and not asked.all_left:
        print(f"BOUND: {len(bound)} occurrences stay, since a binder hides the definition")
    refused = {it.split(":")[0] for it in said if it.startswith("REFUSED")}
    count = 0 if asked.dry else tree.write()
    print(f"{len(rows) - len(refused)} of {len(rows)} renamed, {len(refused)} refused; "
          f"{count} files written")
    return 1 if refused else 0
