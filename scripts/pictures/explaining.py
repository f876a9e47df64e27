"""`./explain`: a recovery, or a claim, in sentences."""

import argparse
from collections.abc import Iterable

from slow_model.claims import read_claim

from . import drawing, options, program, sentences, verdicts, views

ABOUT = """Says in sentences what the last recovery of a script came to: what cannot be kept and
why, where each process goes back to, and what is sent again. Of an input of `recline collect` it
tells of the last recovery or plan.

    ./explain < examples/run/domino.in
    ./explain < examples/collect/conversation.in
    ./explain --claim < examples/check/claim_not_orphan.in

With --claim the input is a check text: what each entry says, and where the claim is invalid what is
wrong with it. The status is 0 where something was explained, and else that of the program."""


def words(given: list[str]) -> argparse.Namespace:
    """What the words of the command line ask for."""
    line = options.parser("explain", ABOUT)
    line.add_argument("--claim", action="store_true", help="the input is a check text")
    found = line.parse_args(given)
    if found.claim and found.recovery:
        line.error("--recovery is of a script, and --claim of a check text")
    return found


def of_script(path: str, text: bytes, number: int | None) -> Iterable[str]:
    """The sentences on a recovery of a script, or of reports, or on their last plan."""
    story = drawing.story_of(path, text, with_plan=number is None)
    recovery = views.recovery_of(story, number)
    if recovery is None:
        or_plan = " and no plan" if story.is_fifo is None else ""
        return [f"No process goes back: the {story.called} has no recovery{or_plan}."]
    return sentences.explanation(story, recovery)


def of_claim(path: str, text: bytes) -> Iterable[str]:
    """The sentences on a check text."""
    verdict = program.answer(path, "check", text).decode("ascii")
    return verdicts.explanation(read_claim(text), verdict)


def main(given: list[str]) -> int:
    """Explains standard input, and answers the status."""
    asked = words(given)

    def work() -> None:
        """All of it."""
        options.use_names(asked.names)
        text = program.read_input()
        told = (
            of_claim(asked.program, text)
            if asked.claim
            else of_script(asked.program, text, asked.recovery)
        )
        program.write_output("".join(f"{line}\n" for line in told))

    return program.status_of("explain", work)
