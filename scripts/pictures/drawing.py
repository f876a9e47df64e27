"""`./draw`: the picture of a script, or of reports."""

import argparse

from . import diagrams, options, program, reports, stories, svg, texts, views

ABOUT = f"""Draws what a script does: a line for each process with its checks, messages, recoveries
with their lines and certificates, and listed rounds, as SVG on standard output.

    ./draw < examples/run/domino.in > domino.svg
    ./draw < examples/collect/stale_reports.in > stale_reports.svg

The input is a script, or one of `recline collect`: what processes report by themselves. Reports are
put in an order in which sends come before their receipts.

Without options an input of up to {views.MOST} records with an effect is drawn whole. Of a longer
one the last recovery is drawn, with the records that it speaks of and the processes concerned. What
is left out is said in the picture. The status is 0 where a picture was drawn, and else that of the
program."""


def words(given: list[str]) -> argparse.Namespace:
    """What the words of the command line ask for."""
    line = options.parser("draw", ABOUT)
    line.add_argument(
        "--last",
        type=options.number(1),
        metavar="K",
        help="the last K records, up to the recovery if one is named",
    )
    line.add_argument(
        "--processes",
        type=options.numbers,
        default=(),
        metavar="P,..",
        help="these processes (all)",
    )
    line.add_argument("--bodies", action="store_true", help="the bytes of messages too")
    return line.parse_args(given)


def story_of(path: str, text: bytes, with_plan: bool = False) -> stories.Story:
    """What a script does, or what is reported, by the replies of the program.

    With a plan that of reports ends at the last plan, if no recovery comes after it.
    """
    if reports.are_in(text):
        output = program.answer(path, "collect", text, program.DEVICE_FAULT)
        if not output:
            raise program.Fault(program.FAULT)
        return stories.told(*reports.read(text, output, with_plan))
    if texts.begins_saved(text):
        told = "a script that begins with a saved machine is not shown: its beginning is gone"
        raise program.Fault(program.FAULT, told)
    output = program.answer(path, "run", text)
    return stories.told(texts.read_script(text), texts.read_replies(output))


def diagram_of(story: stories.Story, wish: views.Wish, with_bodies: bool) -> diagrams.Diagram:
    """The picture of a story."""
    return diagrams.diagram(views.view_of(story, wish), with_bodies)


def main(given: list[str]) -> int:
    """Draws standard input, and answers the status."""
    asked = words(given)

    def work() -> None:
        """All of it."""
        options.use_names(asked.names)
        story = story_of(asked.program, program.read_input())
        wish = views.Wish(asked.last, asked.recovery, asked.processes)
        program.write_output(svg.written(diagram_of(story, wish, asked.bodies).svg))

    return program.status_of("draw", work)
