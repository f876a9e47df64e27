"""What tests of pictures share: stories of examples and scripts, and what pictures have to be."""

import itertools
import pathlib
import random
import unittest
from xml.etree import ElementTree

from pictures import drawing, labels, reports, stories, svg, texts, views
from slow_model import scripts
from slow_model.collecting import Collecting
from slow_model.texts import earliest_version

TOP = pathlib.Path(__file__).resolve().parent.parent
EXAMPLES = TOP / "examples"
SCRIPTS, REPORTS = EXAMPLES / "run", EXAMPLES / "collect"
SVG = "{http://www.w3.org/2000/svg}"


def story_by_model(text: bytes) -> stories.Story | None:
    """The story of a script that the slow model answers; none where it has a fault."""
    output, said, _ = scripts.run(text)
    if said:
        return None
    return stories.told(texts.read_script(text), texts.read_replies(output))


def story_of_reports(text: bytes, with_plan: bool = False) -> stories.Story:
    """The story of reports that the slow model answers; with their last plan if that is wanted."""
    service = Collecting()
    output = service.take(text)
    return stories.told(*reports.read(text, output + service.end(), with_plan))


def story_of(name: str) -> stories.Story:
    """The story of an example, by its stored output."""
    script = texts.read_script((SCRIPTS / f"{name}.in").read_bytes())
    return stories.told(script, texts.read_replies((SCRIPTS / f"{name}.out").read_bytes()))


def stories_of_examples() -> dict[str, stories.Story]:
    """Those of all examples that are scripts without a fault and begin with `world`."""
    runs = sorted(SCRIPTS.glob("*.in"))
    told = [it for it in runs if it.with_suffix(".out").stat().st_size]
    shown = [it.stem for it in told if not texts.begins_saved(it.read_bytes())]
    return {name: story_of(name) for name in shown}


def long_script(processes: int, records: int) -> bytes:
    """Messages among many processes, checks, and a failure at the end that takes many back."""
    chance = random.Random("pictures")
    lines, waiting = [f"world,{earliest_version(processes)},{processes},fifo"], []
    while len(lines) < records - 1:
        kind = chance.random()
        if kind < 0.46:
            pair = chance.sample(range(processes), 2)
            lines.append(f"send,{pair[0]},{pair[1]},{chance.randbytes(2).hex()}")
            waiting.append(pair)
        elif kind < 0.94 and waiting:
            source, to = waiting.pop(chance.randrange(len(waiting)))
            lines.append(f"deliver,{source},{to},0,")
        else:
            lines.append(f"check,{chance.randrange(processes)},")
    return "\n".join([*lines, "recover,5", ""]).encode()


class Case(unittest.TestCase):
    """What every picture has to be."""

    def assert_well_drawn(self, story: stories.Story, wish: views.Wish, with_bodies: bool) -> str:
        """It is well-formed and described; each label has room of its own on the sheet."""
        diagram = drawing.diagram_of(story, wish, with_bodies)
        written = svg.written(diagram.svg)
        root = ElementTree.fromstring(written)
        self.assertEqual(root.tag, f"{SVG}svg")
        self.assertEqual((root.get("role"), root.get("width")), ("img", "100%"))
        self.assertTrue(root.findtext(f"{SVG}title") and root.findtext(f"{SVG}desc"))
        left_out = [it.text for it in diagram.left_out if it.is_needed]
        self.assertEqual("found no room" in written, left_out != [])
        if not with_bodies:
            self.assertEqual(left_out, [])
        _, _, width, height = map(float, root.get("viewBox", "").split())
        for it in diagram.labels:
            is_in = it.box.is_in(labels.Box(0, 0, width, height))
            self.assertTrue(is_in, f"{it.label.text} at {it.box} of {width}, {height}")
        for one, other in itertools.combinations(diagram.labels, 2):
            self.assertFalse(one.box.meets(other.box), f"{one.label.text} and {other.label.text}")
        return written
