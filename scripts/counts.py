"""How large each crate is: lines, characters and edits."""

import pathlib

import definitions
from definitions import ROOT

EDITS = ("must-fail", "further-edits")


def texts_in(folder: pathlib.Path, pattern: str) -> list[str]:
    """The texts of the files below a folder, if there is one."""
    paths = folder.rglob(pattern) if folder.is_dir() else []
    return [path.read_text(encoding="utf-8") for path in paths]


def lines_in(folder: pathlib.Path, pattern: str) -> int:
    """How many lines with something on them the files below a folder have."""
    return sum(1 for text in texts_in(folder, pattern) for line in text.split("\n") if line.strip())


def characters_of(crate: pathlib.Path) -> int:
    """How many characters a crate's code, definitions and proofs have."""
    files = (("src", "*.rt"), ("specs", "*.antt"), ("proofs", "*.antt"))
    return sum(len(text) for part, pattern in files for text in texts_in(crate / part, pattern))


def row_of(name: str) -> list[int]:
    """A crate's lines of definitions, code, tests and proofs, its characters, and its edits."""
    crate = ROOT / "crates" / name
    every = lines_in(crate / "src", "*.rt")
    tests = lines_in(crate / "src" / "tests", "*.rt") + lines_in(crate / "src", "tests.rt")
    edits = [len(list((crate / part).glob("*.edit"))) for part in EDITS]
    return [lines_in(crate / "specs", "*.antt"), every - tests, tests,
            lines_in(crate / "proofs", "*.antt"), characters_of(crate), *edits]


def table() -> str:
    """The sizes of all crates, in the order of crates.txt, as a table."""
    rows = ["| Crate | Definitions | Code with contracts | Tests | Proofs | Characters "
            "| Edits of the gate | Further edits |", "|---|--:|--:|--:|--:|--:|--:|--:|"]
    sums = [0] * 7
    for name in definitions.crates():
        row = row_of(name)
        sums = [a + b for a, b in zip(sums, row)]
        rows.append(f"| `{name}` | " + " | ".join(f"{it:,}" for it in row) + " |")
    rows.append("| all | " + " | ".join(f"{it:,}" for it in sums) + " |")
    return "\n".join(rows)
