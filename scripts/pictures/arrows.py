"""Messages and markers: what each arrow looks like, where it goes, and what it is called."""

import math
from collections.abc import Iterator
from typing import NamedTuple

from . import words
from .frames import Frame
from .labels import Label, Point, Segment, width_of
from .stories import Event, MarkerReceipt, Message, Receipt, Recovery
from .svg import Element

STUB = 26.0  # how far an arrow goes whose other end is not shown
SMALL, TINY = 11.0, 11.0
MOST_BODY = 16  # so many digits of a body are shown
DOTS = {
    "message": "dot",
    "gone": "lostdot",
    "orphan": "orphandot",
    "replay": "replaydot",
    "marker": "lostdot",
}
WORDS = {"orphan": "orphanword", "replay": "replayword", "gone": "faint"}


class Arrow(NamedTuple):
    """An arrow: its kind, its ends, what it is, and the entries that name its message."""

    kind: str
    start: Point
    end: Point
    title: str
    message: Message | None
    passes: tuple[int, ...] = ()
    has_start: bool = True
    has_end: bool = True

    @property
    def segment(self) -> Segment:
        """From end to end."""
        return self.start, self.end

    def along(self, part: float, aside: float = 0.0) -> Point:
        """A point on the arrow, or beside it, on the left of one who goes along it."""
        (x, y), (to_x, to_y) = self.start, self.end
        long = math.hypot(to_x - x, to_y - y) or 1.0
        return (
            x + (to_x - x) * part + (to_y - y) / long * aside,
            y + (to_y - y) * part - (to_x - x) / long * aside,
        )


class Part(NamedTuple):
    """What the recoveries that are shown say of messages."""

    passes: dict[Receipt, tuple[int, ...]]
    replays: dict[Message, list[Recovery]]


def part_of(frame: Frame) -> Part:
    """The receipts of orphans with their entries, and the messages that are sent again."""
    passes: dict[Receipt, tuple[int, ...]] = {}
    replays: dict[Message, list[Recovery]] = {}
    for recovery in frame.view.recoveries:
        for entry in recovery.passes:
            passes[entry.receipt] = (*passes.get(entry.receipt, ()), entry.number)
        for message in recovery.replays:
            replays.setdefault(message, []).append(recovery)
    return Part(passes, replays)


def title_of(message: Message, receipt: Receipt | None) -> str:
    """What is told of a message where it is pointed at."""
    body = f"body {message.body}" if message.body else "no bytes"
    told = f"{words.message(message.name)} to {words.process(message.to)}"
    told += f", {body}; record {message.record}" if message.is_reported else "; no send is reported"
    if receipt is None:
        return words.capital(told)
    again = " again" if isinstance(receipt.source, Recovery) else ""
    return f"{words.capital(told)}, received{again} by record {receipt.record}"


def message_kind(message: Message, receipt: Receipt | None, part: Part) -> str:
    """What a message looks like on one of its ways."""
    if receipt in part.passes:
        return "orphan"
    sent_again = part.replays.get(message, [])
    if receipt is None:
        return "replay" if sent_again else "gone" if message.cut_by else "message"
    if receipt.cut_by in sent_again or (
        isinstance(receipt.source, Recovery) and not receipt.cut_by
    ):
        return "replay"
    return "gone" if message.cut_by or receipt.cut_by else "message"


def stub(start: Point, towards: float, forward: float = 1.0) -> Point:
    """The other end of an arrow of which only the one at `start` is shown."""
    down = math.copysign(STUB, towards - start[1])
    return start[0] + forward * STUB * 0.7, start[1] + down


def received(frame: Frame, receipt: Receipt, part: Part) -> Arrow:
    """The arrow of a receipt that is shown."""
    message = receipt.message
    end = frame.columns[receipt.place], frame.rows[receipt.process]
    kind, passes = message_kind(message, receipt, part), part.passes.get(receipt, ())
    title, row = title_of(message, receipt), frame.rows.get(message.process)
    if row is None:
        above = -math.inf if message.process < receipt.process else math.inf
        return Arrow(kind, stub(end, above, -1), end, title, message, passes, has_start=False)
    x = None
    if receipt.source:
        x = frame.source(receipt.source)
        x = frame.column(message) if x is None else x
    if x is None:
        return Arrow(kind, stub(end, row, -1), end, title, message, passes, has_start=False)
    return Arrow(kind, (x, row), end, title, message, passes)


def sent(frame: Frame, message: Message, part: Part) -> Arrow:
    """The arrow of a message that is sent and not received in what is shown."""
    start = frame.columns[message.place], frame.rows[message.process]
    row = frame.rows.get(message.to, math.inf if message.to > message.process else -math.inf)
    hidden = [it for it in message.receipts if it.process not in frame.rows and it in part.passes]
    kind = message_kind(message, hidden[0] if hidden else None, part)
    passes = part.passes[hidden[0]] if hidden else ()
    return Arrow(
        kind, start, stub(start, row), title_of(message, None), message, passes, has_end=False
    )


def of_marker(frame: Frame, marker: MarkerReceipt) -> Arrow | None:
    """The arrow of a marker, if both its ends are shown; its head where no check is known."""
    end = frame.columns[marker.place], frame.rows[marker.process]
    title = f"Marker of round {marker.round} from {words.process(marker.sender)}"
    title += f" to {words.process(marker.process)}; record {marker.record}"
    row = frame.rows.get(marker.sender)
    if row is None:
        return None
    if marker.source is None:
        return Arrow("marker", stub(end, row, -1), end, title, None, has_start=False)
    x = frame.column(marker.source)
    return None if x is None else Arrow("marker", (x, row), end, title, None)


def arrows_of(frame: Frame) -> Iterator[Arrow]:
    """All arrows: those that matter most come last, and so on top."""
    part = part_of(frame)
    found: list[Arrow] = []
    shown = [it for it in frame.view.shown if isinstance(it, Event)]
    ways = {
        it.message
        for it in shown
        if isinstance(it, Receipt) and isinstance(it.source, Message)
    }
    for it in shown:
        if isinstance(it, Receipt):
            found.append(received(frame, it, part))
        elif isinstance(it, Message) and it not in ways:
            found.append(sent(frame, it, part))
        elif isinstance(it, MarkerReceipt) and (arrow := of_marker(frame, it)):
            found.append(arrow)
    order = ["marker", "gone", "message", "replay", "orphan"]
    yield from sorted(found, key=lambda arrow: order.index(arrow.kind))


def tip(arrow: Arrow) -> Element:
    """The head of an arrow: three points."""
    (x, y), (to_x, to_y) = arrow.start, arrow.end
    long = math.hypot(to_x - x, to_y - y) or 1.0
    across, down = (to_x - x) / long, (to_y - y) / long
    size = 6.0 if arrow.kind == "marker" else 9.0
    base = to_x - across * size, to_y - down * size
    wide = size * 0.42
    points = [
        arrow.end,
        (base[0] - down * wide, base[1] + across * wide),
        (base[0] + down * wide, base[1] - across * wide),
    ]
    return Element(
        "polygon",
        {
            "class": DOTS[arrow.kind],
            "points": " ".join(f"{px:.1f},{py:.1f}" for px, py in points),
        },
    )


def drawn(arrow: Arrow) -> Element:
    """An arrow with its head, and a dot where it starts."""
    (x, y), (to_x, to_y) = arrow.start, arrow.end
    # A thick line would stick out beside the point of the head.
    end = arrow.along(1 - 5 / max(math.hypot(to_x - x, to_y - y), 6))
    parts = [
        Element("title", {}, (arrow.title,)),
        Element("line", {"class": arrow.kind, "x1": x, "y1": y, "x2": end[0], "y2": end[1]}),
    ]
    if arrow.kind != "marker" and arrow.has_start:
        parts.append(Element("circle", {"class": DOTS[arrow.kind], "cx": x, "cy": y, "r": 3}))
    return Element("g", {}, (*parts, tip(arrow)))


def labels_of(arrow: Arrow, with_body: bool) -> Iterator[Label]:
    """The entries that name an arrow's message, and its own number, with its body if asked for."""
    if arrow.message is None:
        return
    if arrow.passes:
        parts = [0.5, 0.42, 0.58, 0.34, 0.66, 0.26, 0.74, 0.2, 0.8, 0.14, 0.86]
        if not arrow.has_start or not arrow.has_end:
            # A pill would hide the whole of it: it goes beyond the end that is open.
            parts = [1.3, 1.6, 2.0, 2.4] if arrow.has_start else [-0.3, -0.6, -1.0, -1.4]
        spots = tuple(arrow.along(it) for it in parts)
        beside = tuple(
            arrow.along(it, aside) for aside in (18.0, -18.0, 32.0, -32.0) for it in parts
        )
        text = ", ".join(span.replace(" to ", "–") for span in words.ranges(arrow.passes))
        yield Label(
            text, "pill", SMALL, spots + beside, is_pill=True, is_needed=True, own=arrow.segment
        )
    text = f"m{arrow.message.name.number}"
    if with_body and arrow.message.is_reported:
        body = arrow.message.body
        text += f": {body[:MOST_BODY] or 'empty'}{'…' if len(body) > MOST_BODY else ''}"
    if not arrow.has_start:
        text += f" of {arrow.message.process}"
    if not arrow.has_end:
        text += f" to {arrow.message.to}"
    wide = width_of(text, TINY) / 2 + 4
    middles = [arrow.along(part) for part in (0.3, 0.4, 0.5, 0.6, 0.7, 0.22, 0.8)]
    sides = [(wide * side, down) for down in (0.0, -8.0, 8.0) for side in (1, -1)]
    sides += [(wide * side, down) for down in (-11.0, 11.0) for side in (0, 0.5, -0.5)]
    if not arrow.has_start or not arrow.has_end:
        sides += [(wide * side, down) for down in (-24.0, 24.0, -38.0, 38.0) for side in (0, 1, -1)]
    places = tuple((x + right, y + down) for right, down in sides for x, y in middles)
    yield Label(text, WORDS.get(arrow.kind, "said"), TINY, places, is_needed=with_body)
