"""Compares the program with a small, slow model of it on random scripts and check texts.

Usage: scripts/trial scripts [--cases N] [--seed S] [--program PATH] [--keep-going] [--counts]

Each case is a script for `recline run`, a check text for `recline check`, or records for `recline
serve`, from a seeded generator: commands of all kinds in either mode, most of them sensible and
some refused; claims that are right, claims by chains in other orders, and wrong ones; scripts and
services that save their machine, or begin with one that was saved or with what is none; and some
texts with bytes, fields or records changed. Most have up to 5 processes, and one in forty up to
256. The program answers it, the model answers it, and output, standard error and status have to
agree. The model (scripts/slow_model) is written from docs/DEFINITIONS.md and docs/FORMATS.md alone.
A case that differs is printed and kept in a file whose name is told; the status is then 1.
"""

import argparse
import collections
import random
import subprocess
import tempfile

import command_lines
import workspace
from slow_model import claims, scripts
from slow_model.made_claims import some_check_text
from slow_model.made_conversations import answers_to
from slow_model.made_saves import some_saved_script
from slow_model.made_scripts import some_script
from slow_model.service import Service

TOP = workspace.ROOT
MOST_SECONDS = 60
SAVED = 0.15  # so many of the cases save their machine, or begin with one that was saved
# Standard output, standard error and the status; or, in place of the status, why there is none.
Answer = tuple[bytes, bytes, int | str]


def case_of(seed: int, case: int) -> tuple[str, bytes, Answer]:
    """The program's command, the text, and what has to come of it."""
    chance = random.Random(f"{seed} {case}")
    if random.Random(f"saves {seed} {case}").random() < SAVED:
        text = some_saved_script(chance)
        return ("run", text, scripts.run(text)) if case % 2 == 0 else ("serve", text, served(text))
    if chance.random() < 0.4:
        text = some_check_text(chance)
        return "check", text, claims.check(text)
    text = some_script(chance)
    return "run", text, scripts.run(text)


def served(text: bytes) -> Answer:
    """What a service answers to records that come at once."""
    (answers, last), status = answers_to([text], Service)
    return answers + last, b"", status


def answer_of(program: str, command: str, text: bytes) -> Answer:
    """What the program writes, says and answers."""
    try:
        ran = subprocess.run(
            [program, command], input=text, capture_output=True, check=False, timeout=MOST_SECONDS
        )
    except subprocess.TimeoutExpired:
        return b"", b"", f"none within {MOST_SECONDS} seconds"
    return ran.stdout, ran.stderr, ran.returncode


def kinds_of(command: str, answered: Answer) -> list[str]:
    """What to count of an answer: kinds of replies, names of refusals, faults and verdicts."""
    output, said, status = answered
    if said:
        return [f"{command}: fault {said.decode().split(' ', 3)[3].strip()}"]
    kinds = []
    for record in output.decode().splitlines():
        first, *rest = record.split(",")
        if first in ("refused", "invalid"):
            first += f" {rest[-2]} {rest[-1]}"
        elif first == "marked" or (first == "took" and rest[-1] != "-"):
            first += " " + ("forced" if rest[-1] != "closed" else "closed")
        kinds.append(f"{command}: {first}")
    return kinds


def tell_difference(
    seed: int, case: int, command: str, text: bytes, got: Answer, wanted: Answer
) -> None:
    """Keeps a case, and tells how the answers to it differ."""
    with tempfile.NamedTemporaryFile(prefix="recline-case-", suffix=".in", delete=False) as kept:
        kept.write(text)
    print(f"case {case} of seed {seed} differs; the input of `recline {command}` is in {kept.name}")
    for what, one, other in zip(("output", "standard error", "status"), got, wanted):
        if one != other:
            print(f"{what}: the program has\n{one!r}\nand the model\n{other!r}")


def add_words(line: argparse.ArgumentParser) -> None:
    """Adds the words of this job to those that are read."""
    line.add_argument("--cases", type=int, default=300, help="how many cases (300)")
    line.add_argument("--seed", type=int, default=1, help="where the generator starts (1)")
    line.add_argument(
        "--program", default=TOP / "recline", help="the program (./recline, which also builds it)"
    )
    line.add_argument("--keep-going", action="store_true", help="go on after a case that differs")
    line.add_argument(
        "--counts", action="store_true", help="print how often each kind of answer came"
    )


def run(asked: argparse.Namespace) -> int:
    """Tries the cases, and answers the status."""
    # The first call may have to build the program, which takes long and says so.
    if not command_lines.runs(asked.program):
        print(f"{asked.program} does not run")
        return 1
    different = 0
    counts: collections.Counter[str] = collections.Counter()
    for case in range(asked.cases):
        command, text, wanted = case_of(asked.seed, case)
        got = answer_of(asked.program, command, text)
        counts.update(kinds_of(command, wanted))
        if got != wanted:
            different += 1
            tell_difference(asked.seed, case, command, text, got, wanted)
            if not asked.keep_going:
                return 1
    if asked.counts:
        for kind, times in sorted(counts.items()):
            print(f"{times:8} {kind}")
    if different:
        print(f"{asked.cases} cases: {different} differ")
        return 1
    print(f"{asked.cases} cases: the program and the model agree")
    return 0
