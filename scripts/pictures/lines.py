"""Recoveries and rounds: their lines across the processes, and what is written at them."""

from collections.abc import Iterator

from slow_model.texts import NOW

from . import sentences, words
from .frames import HALF, INDEX, Frame
from .glyphs import around, line, polyline, word
from .labels import Box, Label, Point, Segment, width_of
from .stories import ListedRound, Recovery
from .svg import Element, text

HEADING = 12.0
SMALL = 11.0


def first_row(frame: Frame) -> float:
    """The height of the first row."""
    return frame.rows[frame.view.processes[0]]


def last_row(frame: Frame) -> float:
    """The height of the last row."""
    return frame.rows[frame.view.processes[-1]]


# Recoveries.


def stops(frame: Frame, recovery: Recovery) -> list[Point]:
    """Where the line of a recovery meets the processes that are shown."""
    found = [(frame.stop(recovery, process), y) for process, y in frame.rows.items()]
    return [(x, y) for x, y in found if x is not None]


def through(points: list[Point], above: float, below: float, aside: float = 0.0) -> list[Point]:
    """A line through points, straight on above the first and below the last."""
    shifted = [(x + aside, y) for x, y in points]
    return [
        (shifted[0][0], points[0][1] - above),
        *shifted,
        (shifted[-1][0], points[-1][1] + below),
    ]


def recovery_lines(frame: Frame) -> Iterator[tuple[Recovery, list[Point]]]:
    """The line of each recovery."""
    for recovery in frame.view.recoveries:
        yield recovery, through(stops(frame, recovery), 30, 24)


def recovery_line(recovery: Recovery, points: list[Point]) -> Element:
    """The line of a recovery, as one bold line."""
    stands = [f"{words.process(it.process)} {words.choice_of(it.choice)}" for it in recovery.line]
    return polyline("line", points, f"Recovery line {recovery.number}: {', '.join(stands)}")


def moment(frame: Frame, recovery: Recovery) -> Iterator[Element]:
    """When a recovery happens: a thin line down, and a cross at each process that failed."""
    x = frame.columns[recovery.place]
    causes = sentences.causes(recovery)
    title = f"Recovery {recovery.number}, record {recovery.record}: {causes}"
    told = Element("title", {}, (title,))
    ends = (x, first_row(frame) - 30), (x, last_row(frame) + 24)
    yield Element("g", {}, (told, line("moment", *ends)))
    for process in recovery.failed:
        if process in frame.rows:
            y = frame.rows[process]
            yield line("cross", (x - 7, y - 7), (x + 7, y + 7))
            yield line("cross", (x - 7, y + 7), (x + 7, y - 7))


def restarts(frame: Frame, recovery: Recovery) -> Iterator[Element]:
    """The checks from which processes go on, each in a dashed square after the recovery."""
    for process, y in frame.rows.items():
        restart = recovery.line[process]
        if restart.choice == NOW:
            continue
        x, index = frame.restarts[recovery.number], f"{restart.choice:.0f}"
        half = max(HALF, width_of(index, INDEX) / 2 + 3)
        state = f" with state {restart.state}" if restart.state else ""
        title = (
            f"{words.first_process(process)} goes on from "
            f"{words.choice_of(restart.choice)}{state}, under incarnation {restart.incarnation}"
        )
        yield Element(
            "g",
            {},
            (
                Element("title", {}, (title,)),
                Element(
                    "rect",
                    {
                        "class": "again",
                        "x": x - half,
                        "y": y - HALF,
                        "width": 2 * half,
                        "height": 2 * HALF,
                    },
                ),
                text(index, "said", x, y + 4, INDEX, "middle"),
            ),
        )


def recovery_boxes(frame: Frame, recovery: Recovery) -> Iterator[Box]:
    """The room of crosses and of dashed squares."""
    x = frame.columns[recovery.place]
    for process, y in frame.rows.items():
        if process in recovery.failed:
            yield Box(x - 9, y - 9, x + 9, y + 9)
        if recovery.line[process].choice != NOW:
            middle = frame.restarts[recovery.number]
            half = max(HALF, width_of(f"{recovery.line[process].choice:.0f}", INDEX) / 2 + 3)
            yield Box(middle - half - 1, y - HALF - 1, middle + half + 1, y + HALF + 1)


def heading(told: str, kind: str, x: float, y: float) -> Label:
    """A heading above the first row: as low as there is room."""
    wide = width_of(told, HEADING) / 2
    places = [(x + side * wide, y - up) for up in (0, 16, 32) for side in (0, 1, -1)]
    return Label(told, kind, HEADING, tuple(places), is_needed=True)


def recovery_labels(frame: Frame) -> Iterator[Label]:
    """Headings, who failed, incarnations, and entries at the choices that they pass over."""
    top = first_row(frame) - 40
    for recovery, points in recovery_lines(frame):
        x = frame.columns[recovery.place]
        yield from pass_labels(frame, recovery)
        if abs(points[0][0] - x) < 1:
            yield heading(f"recovery line {recovery.number}", "lineword", x, top)
        else:
            yield heading(f"recovery line {recovery.number}", "lineword", points[0][0], top)
            yield heading(f"recovery {recovery.number}", "said", x, top)
        for process, y in frame.rows.items():
            if process in recovery.failed:
                yield word("failed", "said", (x, y))
            if recovery.line[process].choice != NOW:
                place = frame.restarts[recovery.number], y
                yield word(
                    f"incarnation {recovery.line[process].incarnation}",
                    "faint",
                    place,
                    is_below=True,
                )


def pass_labels(frame: Frame, recovery: Recovery) -> Iterator[Label]:
    """The number of each entry, above the choice that it passes over."""
    for entry in recovery.passes:
        x = frame.columns[recovery.place] if entry.check is None else frame.column(entry.check)
        if x is not None and entry.process in frame.rows:
            places = around((x, frame.rows[entry.process]), 16)
            yield Label(str(entry.number), "pill", SMALL, places, is_pill=True, is_needed=True)


# Rounds.


def round_lines(frame: Frame) -> Iterator[tuple[ListedRound, list[Point]]]:
    """The line of each listed round whose checks are all shown, beside their middles."""
    for listed in frame.view.story.rounds.values():
        found = [(frame.column(listed.checks[process]), y) for process, y in frame.rows.items()]
        points = [(x, y) for x, y in found if x is not None]
        if len(points) == len(found):
            yield listed, through(points, 30, 24, -HALF - 4)


def round_line(listed: ListedRound, points: list[Point]) -> Element:
    """The line of a round, as a thin one."""
    checks = [
        f"{words.process(p)} its checkpoint {check.index}" for p, check in enumerate(listed.checks)
    ]
    return polyline("round", points, f"Round {listed.number}: {', '.join(checks)}")


def round_labels(frame: Frame) -> Iterator[Label]:
    """A heading for each round's line."""
    for listed, points in round_lines(frame):
        yield heading(f"round {listed.number}", "roundword", points[0][0], first_row(frame) - 40)


def segments(points: list[Point]) -> list[Segment]:
    """The segments of a line through points."""
    return list(zip(points, points[1:]))
