"""The legend: what the marks of a picture mean, and only those that it has."""

from collections.abc import Iterator
from typing import NamedTuple

from slow_model.texts import NOW

from . import glyphs
from .frames import HALF, INDEX, MARGIN, Frame
from .labels import width_of
from .stories import Bar, Message
from .svg import Element, text

SIZE, ROW, SAMPLE = 12.0, 24.0, 40.0


class Key(NamedTuple):
    """A mark, drawn from a point on, and what it means."""

    parts: tuple[Element, ...]
    meaning: str


def box(kind: str, middle: float = 16, more: float = 0) -> Element:
    """A square in the middle of a sample."""
    side = 2 * (HALF + more)
    return Element(
        "rect",
        {"class": kind, "x": middle - side / 2, "y": -side / 2, "width": side, "height": side},
    )


def cross(kind: str, middle: float, half: float) -> tuple[Element, Element]:
    """Two crossing lines."""
    left, right = middle - half, middle + half
    return glyphs.line(kind, (left, -half), (right, half)), glyphs.line(
        kind, (left, half), (right, -half)
    )


def arrow(kind: str, dot: str) -> tuple[Element, ...]:
    """An arrow from left to right."""
    return (
        glyphs.line(kind, (0, 0), (26, 0)),
        Element("polygon", {"class": dot, "points": "32,0 23,-4 23,4"}),
    )


def pill(number: str, middle: float) -> tuple[Element, ...]:
    """A number as entries have it."""
    ground = {"x": middle - 8, "y": -8, "width": 16, "height": 16, "rx": 8}
    return Element("rect", {"class": "pill", **ground}), text(
        number, "onpill", middle, 4, 11, "middle"
    )


def keys(frame: Frame, kinds: set[str], channels: set[Message]) -> Iterator[Key]:
    """The marks that the picture has."""
    view = frame.view
    checks = [check for check, _ in glyphs.checks_of(frame)]
    squares = {glyphs.kind_of(check, frame) for check in checks}
    if view.is_from_start:
        yield Key((box("check"), text("0", "said", 16, 4, INDEX, "middle")), "initial state")
    if any(check.index for check in checks):
        yield Key(
            (box("check"), text("2", "said", 16, 4, INDEX, "middle")), "checkpoint, with its index"
        )
    if any(check.round for check in checks):
        yield Key((box("inround", 16, 2), box("check", 16, -2)), "checkpoint of a round")
    if any(check.damage for check in checks):
        yield Key((box("check"), *cross("scratch", 16, HALF + 3)), "damaged checkpoint")
    if any(isinstance(it, Bar) for it in view.shown):
        yield Key(
            (glyphs.line("life", (0, 0), (32, 0)), *glyphs.bar_sign((16, 0))),
            "process barred: nothing later than that checkpoint can be kept",
        )
    yield from arrow_keys(kinds, channels)
    if view.recoveries:
        yield from recovery_keys(frame, squares)
    if any(check.round for check in checks) and view.story.rounds:
        yield Key((glyphs.line("round", (0, 0), (32, 0)),), "listed round")
    if frame.breaks or not view.is_from_start:
        yield Key((glyphs.line("gap", (0, 0), (32, 0)),), "records left out")


def arrow_keys(kinds: set[str], channels: set[Message]) -> Iterator[Key]:
    """The arrows."""
    if "message" in kinds:
        yield Key(arrow("message", "dot"), "message; m1 is message 1 of its sender")
    if "gone" in kinds:
        yield Key(arrow("gone", "lostdot"), "message undone")
    if "marker" in kinds:
        yield Key(arrow("marker", "lostdot"), "marker of a round")
    if "orphan" in kinds:
        yield Key(
            (*arrow("orphan", "orphandot"), *pill("1", 13)),
            "orphan message, received and not sent: entry 1 names it",
        )
    if "replay" in kinds:
        yield Key(arrow("replay", "replaydot"), "message in transit at the line, sent again")
    if channels:
        yield Key(
            (glyphs.line("message", (0, 0), (32, 0)), glyphs.channel_mark((16, 0))),
            "in the channel of a listed round",
        )


def recovery_keys(frame: Frame, squares: set[str]) -> Iterator[Key]:
    """Recoveries and what they leave."""
    view = frame.view
    yield Key(
        (glyphs.line("line", (16, -9), (16, 9)),), "recovery line: where each process goes on from"
    )
    if any(recovery.passes for recovery in view.recoveries):
        yield Key(pill("1", 16), "choice that entry 1 passes over")
    if any(process in frame.rows for recovery in view.recoveries for process in recovery.failed):
        yield Key(cross("cross", 16, 7), "process failed")
    if any(restart.choice != NOW for recovery in view.recoveries for restart in recovery.line):
        lost = box("cut"), text("2", "faint", 16, 4, INDEX, "middle")
        yield Key((glyphs.line("lost", (0, 0), (32, 0)), *lost), "undone: after the line")
        yield Key(
            (box("again"), text("1", "said", 16, 4, INDEX, "middle")),
            "goes on again from this checkpoint",
        )


def legend(
    frame: Frame, kinds: set[str], channels: set[Message], y: float, width: float
) -> tuple[list[Element], float]:
    """The legend from a height on, in rows of that width; and how far down it goes."""
    found, x, row = [], MARGIN, y + ROW / 2
    for key in keys(frame, kinds, channels):
        wide = SAMPLE + width_of(key.meaning, SIZE) + 18
        if x > MARGIN and x + wide > MARGIN + width:
            x, row = MARGIN, row + ROW
        meaning = text(key.meaning, "said", SAMPLE, 4, SIZE)
        place = f"translate({x:.1f} {row:.1f})"
        found.append(Element("g", {"transform": place}, (*key.parts, meaning)))
        x += wide
    return found, row + ROW / 2
