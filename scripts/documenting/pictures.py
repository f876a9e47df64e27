"""Draws and explains examples, for docs/pictures.

Usage: scripts/docs pictures [--check] [--program PATH]

Each picture docs/pictures/NAME.svg is of the script examples/run/NAME.in, or of the reports
examples/collect/NAME.in, drawn with `--bodies`, and each NAME.txt there is its explanation; of a
check text, examples/check/NAME.in, there is an explanation alone. With --check nothing is written:
what is stored has to be what would be, byte for byte, and there has to be nothing else. The last
line says how many are.
"""

import argparse

import workspace
from pictures import drawing, explaining, program, svg, views

TOP = workspace.ROOT
PICTURES, EXAMPLES = TOP / "docs" / "pictures", TOP / "examples"
DRAWN = [
    "barred_process",
    "crossed_messages",
    "damaged_round",
    "domino",
    "forced_turn",
    "later_check_damaged",
    "marker_round",
    "older_message_of_a_round",
    "one_process_back",
    "replayed_message",
    "round_is_not_passed",
    "stale_copy",
    "unfinished_round",
]
REPORTED = ["receipt_before_its_send", "stale_reports"]  # of these both
# Each with the number of the recovery that is explained, or none for the last.
EXPLAINED = {
    "barred_process": 1,
    "domino": None,
    "later_check_damaged": None,
    "replayed_message": None,
    "round_is_not_passed": None,
}
JUDGED = [
    "bar_left_out",
    "barred_bundle",
    "claim_bad_shape",
    "claim_not_consistent",
    "claim_not_orphan",
    "claim_not_received",
    "claim_not_top",
    "claim_of_another_count",
    "claim_other_line",
    "claim_valid",
]


def script(name: str) -> bytes:
    """The text of an example that is a script."""
    return (EXAMPLES / "run" / f"{name}.in").read_bytes()


def input_of(name: str) -> bytes:
    """The text of an example of reports."""
    return (EXAMPLES / "collect" / f"{name}.in").read_bytes()


def claim(name: str) -> bytes:
    """The text of an example that is a check text."""
    return (EXAMPLES / "check" / f"{name}.in").read_bytes()


def picture(path: str, text: bytes) -> str:
    """The picture of an example."""
    story = drawing.story_of(path, text)
    return svg.written(drawing.diagram_of(story, views.Wish(), with_bodies=True).svg)


def made(path: str) -> dict[str, str]:
    """Each file of docs/pictures, with what has to be in it."""
    found = {f"{name}.svg": picture(path, script(name)) for name in DRAWN}
    found |= {f"{name}.svg": picture(path, input_of(name)) for name in REPORTED}
    told = {name: explaining.of_script(path, script(name), it) for name, it in EXPLAINED.items()}
    told |= {name: explaining.of_script(path, input_of(name), None) for name in REPORTED}
    told |= {name: explaining.of_claim(path, claim(name)) for name in JUDGED}
    texts = {f"{name}.txt": "".join(f"{it}\n" for it in lines) for name, lines in told.items()}
    return found | texts


def is_stored(name: str, content: str) -> bool:
    """Whether a file has that content; says so where it has not."""
    file = PICTURES / name
    if file.is_file() and file.read_text(encoding="utf-8") == content:
        return True
    print(f"docs/pictures/{name}: not what would be drawn; `scripts/docs pictures` writes it anew")
    return False


def check(wanted: dict[str, str]) -> int:
    """Compares what is stored with what is wanted, and answers the status."""
    right = [is_stored(name, content) for name, content in wanted.items()]
    strange = sorted({file.name for file in PICTURES.iterdir()} - set(wanted))
    for name in strange:
        print(f"docs/pictures/{name}: of no example")
    print(f"pictures and explanations: {sum(right)} of {len(wanted)} as they must be")
    return 0 if all(right) and not strange else 1


def add_words(line: argparse.ArgumentParser) -> None:
    """Adds the words of this job to those that are read."""
    line.add_argument("--check", action="store_true", help="compare, and write nothing")
    line.add_argument("--program", default=str(program.PROGRAM), help="the program (./recline)")


def run(asked: argparse.Namespace) -> int:
    """Writes or compares all files, and answers the status."""
    try:
        wanted = made(asked.program)
    except program.Fault as fault:
        return program.tell("docs pictures", fault)
    if asked.check:
        return check(wanted)
    PICTURES.mkdir(parents=True, exist_ok=True)
    for name, content in wanted.items():
        (PICTURES / name).write_text(content, encoding="utf-8")
    print(f"{len(wanted)} files written to docs/pictures")
    return 0
