"""Labels: how much room a text takes, and where it goes so that no two are on top of each other."""

from collections.abc import Iterable, Sequence
from typing import NamedTuple

Point = tuple[float, float]
Segment = tuple[Point, Point]
NARROW, WIDE = set(" .,:;'|!()[]fijlrtI-"), set("mwMWOQ@%")
CELL = 128.0


class Box(NamedTuple):
    """A box on the picture."""

    left: float
    top: float
    right: float
    bottom: float

    def meets(self, other: "Box") -> bool:
        """Whether the two have room in common."""
        return (
            self.left < other.right
            and other.left < self.right
            and self.top < other.bottom
            and other.top < self.bottom
        )

    def is_in(self, other: "Box") -> bool:
        """Whether nothing of it is outside the other."""
        return (
            other.left <= self.left
            and self.right <= other.right
            and other.top <= self.top
            and self.bottom <= other.bottom
        )


def width_of(text: str, size: float) -> float:
    """How wide a text is at most in the usual fonts without serifs."""
    return size * sum(0.42 if it in NARROW else 0.98 if it in WIDE else 0.66 for it in text)


def wrapped(text: str, size: float, width: float) -> list[str]:
    """A text in lines that are no wider than that, as far as its words allow."""
    lines: list[str] = []
    for word in text.split():
        if lines and width_of(f"{lines[-1]} {word}", size) <= width:
            lines[-1] += f" {word}"
        else:
            lines.append(word)
    return lines


class Label(NamedTuple):
    """A text, its kind and size, and the places of its middle that will do, the best first.

    A pill has a ground of its own, and may lie on the line `own`. What is needed is placed before
    the rest.
    """

    text: str
    kind: str
    size: float
    places: tuple[Point, ...]
    is_pill: bool = False
    is_needed: bool = False
    own: Segment | None = None

    def box(self, middle: Point) -> Box:
        """The room that it takes around a place."""
        across = (
            max(width_of(self.text, self.size) + 8, 16)
            if self.is_pill
            else width_of(self.text, self.size) + 2
        )
        up = 16 if self.is_pill else self.size * 1.25
        return Box(
            middle[0] - across / 2, middle[1] - up / 2, middle[0] + across / 2, middle[1] + up / 2
        )


class Placed(NamedTuple):
    """A label where it is put."""

    label: Label
    middle: Point
    box: Box


class Room:
    """The boxes that are taken, in cells so that few are asked."""

    def __init__(self, boxes: Iterable[Box] = ()) -> None:
        self.cells: dict[tuple[int, int], list[Box]] = {}
        for box in boxes:
            self.take(box)

    def spots(self, box: Box) -> Iterable[tuple[int, int]]:
        """The cells that a box lies in."""
        for across in range(int(box.left // CELL), int(box.right // CELL) + 1):
            for down in range(int(box.top // CELL), int(box.bottom // CELL) + 1):
                yield across, down

    def take(self, box: Box) -> None:
        """Takes a box."""
        for spot in self.spots(box):
            self.cells.setdefault(spot, []).append(box)

    def is_free(self, box: Box) -> bool:
        """Whether the box meets none that is taken."""
        return not any(
            box.meets(other) for spot in self.spots(box) for other in self.cells.get(spot, ())
        )


def crosses(box: Box, segment: Segment) -> bool:
    """Whether a segment goes through a box: what is left of it between the sides is not empty."""
    (x, y), (to_x, to_y) = segment
    first, last = 0.0, 1.0
    for start, step, low, high in (
        (x, to_x - x, box.left, box.right),
        (y, to_y - y, box.top, box.bottom),
    ):
        if step == 0:
            if not low < start < high:
                return False
            continue
        one, other = (low - start) / step, (high - start) / step
        first, last = max(first, min(one, other)), min(last, max(one, other))
    return first < last


class Lines:
    """Segments, in strips from top to bottom so that few are asked."""

    def __init__(self, segments: Sequence[Segment]) -> None:
        self.segments = segments
        self.strips: dict[int, list[int]] = {}
        for number, ((x, _), (to_x, _)) in enumerate(segments):
            for strip in range(int(min(x, to_x) // CELL), int(max(x, to_x) // CELL) + 1):
                self.strips.setdefault(strip, []).append(number)

    def through(self, box: Box) -> list[Segment]:
        """The segments that go through a box."""
        near: set[int] = set()
        for strip in range(int(box.left // CELL), int(box.right // CELL) + 1):
            near.update(self.strips.get(strip, ()))
        return [self.segments[at] for at in near if crosses(box, self.segments[at])]


def around(boxes: Sequence[Box]) -> Box:
    """The least box around some."""
    lefts, tops, rights, bottoms = zip(*boxes)
    return Box(min(lefts), min(tops), max(rights), max(bottoms))


def placed(
    labels: Sequence[Label], sheet: Box, taken: Iterable[Box], lines: Sequence[Segment]
) -> tuple[list[Placed], list[Label]]:
    """Puts each label on the sheet where it meets no other and crosses the fewest lines.

    Needed labels come first, each at the best of its free places. Those without room are told.
    """
    room, ways = Room(taken), Lines(lines)
    found: list[Placed] = []
    left_out: list[Label] = []
    for label in sorted(labels, key=lambda it: not it.is_needed):
        boxes = [(place, label.box(place)) for place in label.places]
        free = [place for place, box in boxes if box.is_in(sheet) and room.is_free(box)]
        if not free:
            left_out.append(label)
            continue
        reach = around([label.box(place) for place in free])
        close = [line for line in ways.through(reach) if line != label.own]
        costs = [sum(crosses(label.box(place), line) for line in close) for place in free]
        middle = free[costs.index(min(costs))]
        box = label.box(middle)
        room.take(box)
        found.append(Placed(label, middle, box))
    return found, left_out
