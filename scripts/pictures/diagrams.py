"""The whole picture: heading, diagram, axis and legend, one below the other."""

from collections.abc import Iterator
from dataclasses import dataclass

from . import arrows, glyphs, lines, sentences, words
from .frames import MARGIN, NAME, TICK, Frame, frame_of
from .labels import Box, Label, Placed, Point, Segment, placed, wrapped
from .legends import legend
from .stories import Bar, Event, ListedRound, Message, Recovery
from .svg import Element, style, text
from .views import View

LEAST_WIDTH, READ_WIDTH = 560.0, 860.0
TITLE, TEXT, NOTE = 17.0, 13.0, 12.0
AGAIN = 900.0  # so far apart the names of processes are written again
FONT = "'DejaVu Sans', Verdana, Arial, sans-serif"


@dataclass(frozen=True)
class Diagram:
    """A picture, and what was placed on it."""

    svg: Element
    labels: tuple[Placed, ...]
    left_out: tuple[Label, ...]


def heading(view: View, width: float) -> tuple[list[Element], float]:
    """The title, what each recovery came to, and what is left out; and how far down that goes."""
    wide, found, y = min(width, READ_WIDTH) - 2 * MARGIN, [], MARGIN
    parts = [(TITLE, "head", sentences.title(view))]
    parts += [(TEXT, "said", sentences.summary(recovery)) for recovery in view.recoveries[-3:]]
    parts += [(NOTE, "faint", " ".join(view.notes))] if view.notes else []
    for size, kind, content in parts:
        for row in wrapped(content, size, wide):
            y += size * 1.35
            found.append(text(row, kind, MARGIN, y, size))
        y += 4
    return found, y


def ticks(frame: Frame) -> list[Placed]:
    """The numbers of the records below the columns."""
    found: dict[int, float] = {}
    for it in frame.view.shown:
        found.setdefault(it.record, frame.columns[it.place])
    y = frame.bottom + 2
    labels = [(Label(str(record), "faint", TICK, ()), (x, y)) for record, x in found.items()]
    return [Placed(label, middle, label.box(middle)) for label, middle in labels]


def names(frame: Frame) -> Iterator[Element]:
    """The name of each process at the left end of its line."""
    for process, y in frame.rows.items():
        yield text(f"{words.process(process)}", "said", MARGIN, y + 4, NAME)


def names_again(frame: Frame) -> Iterator[Label]:
    """The names of processes once more on the way, where the picture is long."""
    for process, y in frame.rows.items():
        for count in range(1, int((frame.end - frame.start - 200) // AGAIN) + 1):
            x = frame.start + count * AGAIN
            places = tuple(
                (x + aside, y + down) for aside in (0, 40, -40, 80, -80) for down in (-12, 12)
            )
            yield Label(f"{words.process(process)}", "faint", TICK, places)


def taken(frame: Frame) -> list[Box]:
    """The room that squares, crosses, ends of arrows and names take."""
    found = [glyphs.box_of(check, middle) for check, middle in glyphs.checks_of(frame)]
    for it in frame.view.shown:
        x = frame.columns[it.place]
        if isinstance(it, Recovery):
            found += lines.recovery_boxes(frame, it)
        elif isinstance(it, Event):
            y = frame.rows[it.process]
            high = glyphs.POST + 1 if isinstance(it, Bar) else 4
            found.append(Box(x - 4, y - high, x + 4, y + high))
    found += [Box(MARGIN, y - 8, frame.start, y + 8) for y in frame.rows.values()]
    return found


def label(it: Placed) -> list[Element]:
    """A label where it was placed, on its ground if it has one."""
    x, y = it.middle
    size = it.label.size
    if not it.label.is_pill:
        return [text(it.label.text, it.label.kind, x, y + size * 0.35, size, "middle")]
    box = {
        "x": it.box.left,
        "y": it.box.top,
        "width": it.box.right - it.box.left,
        "height": 16,
        "rx": 8,
    }
    return [
        Element("rect", {"class": "pill", **box}),
        text(it.label.text, "onpill", x, y + 4, size, "middle"),
    ]


@dataclass(frozen=True)
class Marks:
    """The arrows and lines of a picture."""

    ways: list[arrows.Arrow]
    recoveries: list[tuple[Recovery, list[Point]]]
    rounds: list[tuple[ListedRound, list[Point]]]

    @property
    def channels(self) -> set[Message]:
        """The messages in the channels of the rounds whose lines are drawn."""
        return {message for listed, _ in self.rounds for message in listed.channels}


def labels_of(frame: Frame, marks: Marks, with_bodies: bool) -> list[Label]:
    """All that is to be written at marks."""
    return [
        *lines.recovery_labels(frame),
        *lines.round_labels(frame),
        *glyphs.check_labels(frame),
        *(it for way in marks.ways for it in arrows.labels_of(way, with_bodies)),
        *names_again(frame),
    ]


def crossed(frame: Frame, marks: Marks) -> list[Segment]:
    """What labels keep off where they can: all lines but the thin dotted ones."""
    across = [points for _, points in [*marks.recoveries, *marks.rounds]]
    return [
        *(((frame.start, y), (frame.end, y)) for y in frame.rows.values()),
        *(way.segment for way in marks.ways if way.kind != "marker"),
        *(segment for points in across for segment in lines.segments(points)),
    ]


def drawn(frame: Frame, marks: Marks) -> list[Element]:
    """The marks, what lies on top last."""
    recoveries = frame.view.recoveries
    channels = [way for way in marks.ways if way.message in marks.channels]
    squares = [
        glyphs.square(check, middle, glyphs.kind_of(check, frame))
        for check, middle in glyphs.checks_of(frame)
    ]
    return [
        *(part for process in frame.rows for part in glyphs.life(frame, process)),
        *(part for recovery in recoveries for part in lines.moment(frame, recovery)),
        *(lines.recovery_line(*line) for line in marks.recoveries),
        *(lines.round_line(*line) for line in marks.rounds),
        *(arrows.drawn(way) for way in marks.ways),
        *(glyphs.channel_mark(way.along(0.5)) for way in channels),
        *(part for recovery in recoveries for part in lines.restarts(frame, recovery)),
        *squares,
        *glyphs.damages(frame),
        *glyphs.bars(frame),
        *names(frame),
    ]


def footing(
    frame: Frame, marks: Marks, without_room: int, width: float
) -> tuple[list[Element], float]:
    """The legend, and what could not be written; and how far down that goes."""
    kinds = {way.kind for way in marks.ways}
    found, y = legend(frame, kinds, marks.channels, frame.bottom + 20, width)
    if without_room:
        y += NOTE * 1.35
        many = words.counted(without_room, "label")
        note = f"{words.capital(many)} found no room: point at a mark to see what it is."
        found.append(text(note, "faint", MARGIN, y, NOTE))
    return found, y


def diagram(view: View, with_bodies: bool) -> Diagram:
    """Lays out and draws a view."""
    # The height of the heading depends on the width, and that does not depend on the height.
    width = max(LEAST_WIDTH, frame_of(view, 0).end + MARGIN)
    head, top = heading(view, width)
    frame = frame_of(view, top)
    marks = Marks(
        list(arrows.arrows_of(frame)),
        list(lines.recovery_lines(frame)),
        list(lines.round_lines(frame)),
    )
    axis = ticks(frame)
    boxes = taken(frame) + [tick.box for tick in axis]
    sheet = Box(2, top, width - 2, frame.bottom + 8)
    wanted = labels_of(frame, marks, with_bodies)
    found, left_out = placed(wanted, sheet, boxes, crossed(frame, marks))
    without_room = len([it for it in left_out if it.is_needed])
    foot, bottom = footing(frame, marks, without_room, min(width, READ_WIDTH) - 2 * MARGIN)
    parts = [
        *head,
        *drawn(frame, marks),
        text("record", "faint", MARGIN, frame.bottom + 5.5, TICK),
        *(part for it in [*axis, *found] for part in label(it)),
        *foot,
    ]
    svg = whole(view, parts, width, bottom + MARGIN)
    return Diagram(svg, (*axis, *found), tuple(left_out))


def whole(view: View, parts: list[Element], width: float, height: float) -> Element:
    """The picture with its title, its description, and its styles."""
    size = f"width:100%;height:auto;min-width:{width * 0.9:.0f}px;max-width:{width * 1.25:.0f}px"
    return Element(
        "svg",
        {
            "xmlns": "http://www.w3.org/2000/svg",
            "viewBox": f"0 0 {width:.0f} {height:.0f}",
            "width": "100%",
            "style": size,
            "font-family": FONT,
            "role": "img",
            "aria-labelledby": "title desc",
        },
        (
            Element("title", {"id": "title"}, (sentences.title(view),)),
            Element("desc", {"id": "desc"}, (sentences.description(view),)),
            Element("style", {}, (style(),)),
            Element("rect", {"class": "paper", "width": "100%", "height": "100%"}),
            *parts,
        ),
    )
