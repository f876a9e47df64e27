"""Puts callers of crates/line_uses into docs/LIBRARY.md, where they are shown.

    scripts/docs callers --write    writes them
    scripts/docs callers --check    ends with status 1 where docs/LIBRARY.md shows another text;
                                    so does the job without an option

A line `<!-- crates/line_uses/src/FILE.rt: NAME -->` stands before the function that it names, which
is shown as it stands there, indented by four blanks and without its comment.
"""

import argparse
import pathlib
import re

import command_lines
from workspace import ROOT

PAGE = ROOT / "docs" / "LIBRARY.md"
SHOWN = re.compile(r"^<!-- (crates/line_uses/src/\w+\.rt): (\w+) -->\n\n(?:(?:    .*)?\n)*", re.M)


def function(path: pathlib.Path, name: str) -> str:
    """The public function of that name, from its first line to its last, or ValueError."""
    text = path.read_text(encoding="utf-8")
    found = re.search(rf"^pub fn {name}\b.*?^\}}\n", text, re.M | re.S)
    if found is None:
        raise ValueError(f"{path.relative_to(ROOT)} has no public function {name}")
    return found[0]


def shown(found: re.Match[str]) -> str:
    """The line that names a function, and the function as the page shows it."""
    lines = function(ROOT / found[1], found[2]).splitlines()
    code = "\n".join(f"    {line}".rstrip() for line in lines)
    return f"<!-- {found[1]}: {found[2]} -->\n\n{code}\n\n"


def page() -> str:
    """The page as it has to be."""
    return SHOWN.sub(shown, PAGE.read_text(encoding="utf-8"))


def faults() -> list[str]:
    """What is wrong on the page."""
    if page() == PAGE.read_text(encoding="utf-8"):
        return []
    return ["docs/LIBRARY.md shows other callers than crates/line_uses has; "
            "scripts/docs callers --write shows them anew"]


def add_words(words: argparse.ArgumentParser) -> None:
    """Adds the words of this job to those that are read."""
    command_lines.add_options(words, "write", "check")


def run(asked: argparse.Namespace) -> int:
    """Does what the words ask for, and answers the status."""
    if asked.option == "write":
        PAGE.write_text(page(), encoding="utf-8")
        return 0
    return command_lines.report(faults())
