"""Compares a machine that goes on with the one that begins with its saved text.

    scripts/trial saves [--cases N] [--seed S] [--program PATH] [--counts]

Each case is a random script of rounds, recoveries, damage, bars, `forget` and `save`. At some place
where no round is open `save` is put in. A service then begins with the saved text in place of a
`world`, and has the rest of the script: it answers each record of the text by an empty line, and
then, to the byte, what the script is answered that went on. What it saves at once is the text that
it began with. So answers a service that reads the text from a file, and so is a script answered
that begins with the text and has the rest.

The slow model answers (scripts/slow_model), or the program that is named. The last line says how
many cases there were; the status is 0 where none differs.
"""

import argparse
import collections
import pathlib
import random
import subprocess
import sys
import tempfile
from collections.abc import Sequence

import workspace
from slow_model import scripts, service
from slow_model.made_saves import Saving, lines_of, saving_player
from trying import drawn

MOST_SECONDS = 60
LENGTHS = [10, 40, 120, 240]
SLOW = workspace.ROOT / "scripts" / "slow_serve"
SAVE = "save\n"


class Different(Exception):
    """A reply is not as it has to be."""


class Tried:
    """What answers: the slow model, or a program."""

    def __init__(self, program: str | None, folder: str) -> None:
        self.program, self.folder = program, pathlib.Path(folder)

    def ran(self, text: str, command: str, *words: str) -> str:
        """What the program writes of a text."""
        program = [self.program] if self.program else [sys.executable, "-B", str(SLOW)]
        ran = subprocess.run(
            [*program, command, *words], input=text.encode(), capture_output=True, check=False,
            timeout=MOST_SECONDS,
        )
        if ran.stderr or ran.returncode not in (0, 1):
            raise Different(f"status {ran.returncode}: {ran.stderr!r}")
        return ran.stdout.decode()

    def run(self, text: str) -> str:
        """The replies to the commands of a script."""
        if self.program:
            return self.ran(text, "run")
        output, said, _ = scripts.run(text.encode())
        if said:
            raise Different(said.decode())
        return output.decode()

    def serve(self, text: str) -> str:
        """The answers of a service."""
        if self.program:
            return self.ran(text, "serve")
        model = service.Service()
        return (model.take(text.encode()) + model.end()).decode()

    def serve_from(self, saved: str, text: str) -> str:
        """The answers of a service that begins with a saved text."""
        path = self.folder / "saved"
        path.write_text(saved)
        return self.ran(text, "serve", "--from", str(path))


def same(what: str, got: str, wanted: str) -> None:
    """Asks that two texts are the same."""
    if got != wanted:
        raise Different(f"{what}: wanted\n{wanted}\nand got\n{got}")


def text_of(first: str, records: Sequence[str]) -> str:
    """A script."""
    return first + "".join(f"{it}\n" for it in records)


def places(player: Saving, length: int) -> list[tuple[int, str]]:
    """Plays so many commands: the places where the machine can be saved, with its text there."""
    found = []
    for _ in range(length):
        saved = lines_of(player.saved())
        if saved:
            found.append((len(player.commands), text_of("", saved)))
        player.add(*player.command())
    return found


def compare(tried: Tried, chance: random.Random, is_read: bool) -> list[str]:
    """Compares a case, also where the text is read from a file or not; answers what to count."""
    player = saving_player(chance)
    found = places(player, chance.choice(LENGTHS))
    if not found:
        return ["never saved"]
    place, saved = chance.choice(found[-len(found) // chance.choice([1, 2]):])
    world, records = f"world,1,{player.n},fifo\n", lines_of(player.commands)
    before, rest = records[:place], records[place:]
    begun = tried.run(text_of(world, before))
    same("the saved text", tried.run(text_of(world, before) + SAVE), begun + saved)
    whole = tried.run(text_of(world, records))
    later = whole.removeprefix(begun)
    empty = "\n" * saved.count("\n")
    same("saved at once again", tried.serve(saved + SAVE), f"{empty}{saved}\n")
    answers = tried.serve(text_of(saved, rest))
    same("a service", answers.removeprefix(empty).replace("\n\n", "\n"), later)
    same("a script", tried.run(text_of(saved, rest)), later)
    counted = ["saved", *(["saved with a floor"] if "\nfloor,0,0,0\n" not in saved else [])]
    if is_read:
        same("a service --from", empty + tried.serve_from(saved, text_of("", rest)), answers)
        counted.append("read from a file")
    for kind in ("damage", "bar", "round"):
        if f"\n{kind}," in saved:
            counted.append(f"saved with a {kind}")
    return counted


def add_words(line: argparse.ArgumentParser) -> None:
    """Adds the words of this job to those that are read."""
    drawn.add_case_words(line)


def run(asked: argparse.Namespace) -> int:
    """Tries the cases, and answers the status."""
    if not drawn.has_program(asked):
        return 1
    counts: collections.Counter[str] = collections.Counter()
    with tempfile.TemporaryDirectory(prefix="recline-saves-") as folder:
        tried = Tried(asked.program, folder)
        for case in range(asked.cases):
            chance = random.Random(f"saves {asked.seed} {case}")
            try:
                counts.update(compare(tried, chance, bool(asked.program) or case % 10 == 0))
            except Different as why:
                print(f"case {case} of seed {asked.seed} differs: {why}")
                return 1
    drawn.print_counts(asked, counts)
    print(f"{asked.cases} cases: a machine that was saved goes on as if it had not been")
    return 0
