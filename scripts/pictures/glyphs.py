"""Lines of processes, checks, recoveries and rounds."""

from collections.abc import Iterator

from slow_model.texts import NOW

from . import words
from .frames import HALF, INDEX, Frame, half_width
from .labels import Box, Label, Point, width_of
from .stories import Bar, Check, Damage
from .svg import Element, text

SMALL = 11.0
POST = 7.0  # half of how high the sign of a bar is
Span = tuple[float, float]


def line(kind: str, start: Point, end: Point) -> Element:
    """A straight line."""
    return Element(
        "line", {"class": kind, "x1": start[0], "y1": start[1], "x2": end[0], "y2": end[1]}
    )


def polyline(kind: str, points: list[Point], title: str) -> Element:
    """A line through points."""
    told = Element("title", {}, (title,))
    spots = " ".join(f"{x:.1f},{y:.1f}" for x, y in points)
    return Element("g", {}, (told, Element("polyline", {"class": kind, "points": spots})))


# Lines of processes.


def lives(frame: Frame, process: int) -> tuple[list[Span], list[Span]]:
    """Where a process's line is kept, and where a recovery has taken it off."""
    at = [x for check, x in frame.earlier.items() if check.process == process]
    kept: list[Span] = []
    lost: list[Span] = []
    start = min(at) if at else frame.start
    for recovery in frame.view.recoveries:
        stop = frame.stop(recovery, process)
        moment = frame.columns[recovery.place]
        if recovery.line[process].choice == NOW or stop is None:
            continue
        whole = [*kept, (start, moment)]
        kept = [(left, min(right, stop)) for left, right in whole if left < stop]
        lost += [(max(left, stop), right) for left, right in whole if right > stop]
        start = frame.restarts[recovery.number]
    return [*kept, (start, frame.end)], lost


def without(span: Span, breaks: tuple[Span, ...]) -> Iterator[Span]:
    """The parts of a span that are outside the breaks."""
    left, right = span
    for start, end in breaks:
        if left < start < right:
            yield left, start
        if start < right and end > left:
            left = max(left, end)
    if left < right:
        yield left, right


def life(frame: Frame, process: int) -> Iterator[Element]:
    """The line of a process, dotted where records are left out."""
    y = frame.rows[process]
    kept, lost = lives(frame, process)
    at = [x for check, x in frame.earlier.items() if check.process == process]
    if not frame.view.is_from_start and not at:
        # Nothing is known to be there before the first column.
        kept[0] = (frame.start + HALF, kept[0][1])
    for kind, spans in (("lost", lost), ("life", kept)):
        for span in spans:
            yield from (
                line(kind, (left, y), (right, y)) for left, right in without(span, frame.breaks)
            )
            yield from (
                line("gap", (max(start, span[0]), y), (min(end, span[1]), y))
                for start, end in frame.breaks
                if start < span[1] and end > span[0]
            )


# Checks.


def kind_of(check: Check, frame: Frame) -> str:
    """What a check's square looks like: on a line, taken off, of a round, or none of these."""
    if any(recovery.line[check.process].check is check for recovery in frame.view.recoveries):
        return "kept"
    return "cut" if check.cut_by else "check"


def check_title(check: Check) -> str:
    """What is told of a check where it is pointed at."""
    if not check.index:
        return f"Initial state of {words.process(check.process)}"
    told = f"Checkpoint {check.index} of {words.process(check.process)}; record {check.record}"
    told += f", for round {check.round}" if check.round else ""
    told += ", taken before what came in" if check.is_forced else ""
    told += f", state {check.state}" if check.state else ", no bytes stored"
    return told + (", damaged" if check.damage else "")


def square(check: Check, middle: Point, kind: str) -> Element:
    """A check's square with its index: in a frame if it is of a round, crossed out if damaged."""
    (x, y), half = middle, half_width(check)
    box = {"x": x - half, "y": y - HALF, "width": 2 * half, "height": 2 * HALF}
    parts = [Element("title", {}, (check_title(check),)), Element("rect", {"class": kind, **box})]
    if check.round:
        outer = {
            "x": x - half - 4,
            "y": y - HALF - 4,
            "width": 2 * half + 8,
            "height": 2 * HALF + 8,
            "rx": 4,
        }
        parts.insert(1, Element("rect", {"class": "inround", **outer}))
    if check.damage:
        left, right, top, bottom = x - half - 4, x + half + 4, y - HALF - 4, y + HALF + 4
        parts += [
            line("scratch", (left, top), (right, bottom)),
            line("scratch", (left, bottom), (right, top)),
        ]
    word = "head" if check.damage else "faint" if kind == "cut" else "said"
    parts.append(text(str(check.index), word, x, y + 4, INDEX, "middle"))
    return Element("g", {}, tuple(parts))


def checks_of(frame: Frame) -> Iterator[tuple[Check, Point]]:
    """The checks that are drawn, and where."""
    shown = [it for it in frame.view.shown if isinstance(it, Check)]
    for check in [*frame.earlier, *shown]:
        x = frame.column(check)
        if x is not None:
            yield check, (x, frame.rows[check.process])


def box_of(check: Check, middle: Point) -> Box:
    """The room that a check's square takes, with the frame of its round."""
    half, more = half_width(check), 5 if check.round or check.damage else 1
    return Box(
        middle[0] - half - more,
        middle[1] - HALF - more,
        middle[0] + half + more,
        middle[1] + HALF + more,
    )


def around(middle: Point, wide: float) -> tuple[Point, ...]:
    """Places for a label of that width around a glyph: above and below it, then at its sides."""
    x, y = middle
    near = [(x, y - 22), (x, y + 22), (x, y - 38), (x, y + 38)]
    aside = [
        (x + side * (wide / 2 + 14), y + down) for down in (-22, 22, -38, 38) for side in (1, -1)
    ]
    return (*near, *aside, (x, y - 54), (x, y + 54))


def word(
    told: str, kind: str, middle: Point, is_below: bool = False, is_needed: bool = True
) -> Label:
    """A word at a glyph."""
    places = around(middle, width_of(told, SMALL))
    if is_below:
        places = (places[1], places[0], *places[2:])
    return Label(told, kind, SMALL, places, is_needed=is_needed)


def check_labels(frame: Frame) -> Iterator[Label]:
    """The rounds of checks, which a listed round's line says too; damages and bars."""
    listed = {check for it in frame.view.story.rounds.values() for check in it.checks}
    for check, middle in checks_of(frame):
        if check.round:
            yield word(
                f"round {check.round}",
                "roundword",
                middle,
                is_below=True,
                is_needed=check not in listed,
            )
    for it in frame.view.shown:
        if isinstance(it, Damage):
            place = frame.columns[it.place], frame.rows[it.process]
            yield word(f"checkpoint {it.check.index} damaged", "orphanword", place)
        elif isinstance(it, Bar):
            place = frame.columns[it.place], frame.rows[it.process]
            yield word(f"barred at {words.place_of(it.check.index)}", "orphanword", place)


def damages(frame: Frame) -> Iterator[Element]:
    """A small cross where a check is marked as damaged."""
    for it in frame.view.shown:
        if isinstance(it, Damage):
            x, y = frame.columns[it.place], frame.rows[it.process]
            title = f"Checkpoint {it.check.index} of {words.process(it.process)}"
            title += f" is marked as damaged; record {it.record}"
            yield Element(
                "g",
                {},
                (
                    Element("title", {}, (title,)),
                    line("scratch", (x - 4, y - 4), (x + 4, y + 4)),
                    line("scratch", (x - 4, y + 4), (x + 4, y - 4)),
                ),
            )


def bar_sign(middle: Point) -> tuple[Element, Element]:
    """Two short strokes across the line of a process."""
    x, y = middle
    return (
        line("scratch", (x - 2.5, y - POST), (x - 2.5, y + POST)),
        line("scratch", (x + 2.5, y - POST), (x + 2.5, y + POST)),
    )


def bars(frame: Frame) -> Iterator[Element]:
    """The sign of a bar where a process is barred."""
    for it in frame.view.shown:
        if isinstance(it, Bar):
            middle = frame.columns[it.place], frame.rows[it.process]
            title = f"{words.first_process(it.process)} is barred"
            title += f" at {words.place_of(it.check.index)}; record {it.record}"
            yield Element("g", {}, (Element("title", {}, (title,)), *bar_sign(middle)))


def channel_mark(middle: Point) -> Element:
    """The mark on a message that is in the channel of a listed round."""
    return Element("circle", {"class": "inround", "cx": middle[0], "cy": middle[1], "r": 5})
