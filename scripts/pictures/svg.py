"""Writing pictures: elements of SVG, their text, and the colours of both backgrounds."""

from typing import NamedTuple, Union
from xml.sax.saxutils import escape, quoteattr

Attribute = Union[str, float]


class Element(NamedTuple):
    """An element, its attributes in their order, and what is inside: elements, or text."""

    tag: str
    attributes: dict[str, Attribute]
    inside: tuple[Union["Element", str], ...] = ()


class Ink(NamedTuple):
    """What a kind of mark looks like: its colours on light and dark ground, and its style."""

    light: str
    dark: str
    style: str = ""


# Any two of these are far apart for those who see all colours and for each kind of colour
# blindness, and text in them is easy to read on its ground. No kind is told by its colour alone:
# each has a form of its own.
INK, PALE, PAPER = ("#1f2328", "#e6edf3"), ("#656d76", "#8d96a0"), ("#ffffff", "#0d1117")
GREY = ("#a0a8b1", "#5d6671")  # of lines, which need less contrast than text
LINE, ORPHAN = ("#0024d6", "#0a95ff"), ("#c04a00", "#ff9a4d")
REPLAY, ROUND = ("#00856a", "#1fffa5"), ("#862786", "#ca91ca")
STROKES = {
    "life": Ink(*INK, "stroke-width:2"),
    "lost": Ink(*GREY, "stroke-width:1.4"),
    "gap": Ink(*GREY, "stroke-width:2;stroke-dasharray:1.5 4"),
    "message": Ink(*INK, "stroke-width:1.6"),
    "gone": Ink(*GREY, "stroke-width:1.2"),
    "marker": Ink(*GREY, "stroke-width:.8;stroke-dasharray:2 2"),
    "orphan": Ink(*ORPHAN, "stroke-width:2.4"),
    "replay": Ink(*REPLAY, "stroke-width:2;stroke-dasharray:7 4"),
    "line": Ink(*LINE, "stroke-width:5;stroke-linejoin:round;stroke-linecap:round"),
    "round": Ink(*ROUND, "stroke-width:1.4;stroke-dasharray:9 3 2 3"),
    "moment": Ink(*GREY, "stroke-width:1;stroke-dasharray:3 3"),
    "cross": Ink(*INK, "stroke-width:3;stroke-linecap:round"),
    "scratch": Ink(*ORPHAN, "stroke-width:1.6;stroke-linecap:round"),
}
BOXES = {
    "check": Ink(*INK, "stroke-width:1.8"),
    "cut": Ink(*GREY, "stroke-width:1.2"),
    "kept": Ink(*LINE, "stroke-width:3"),
    "again": Ink(*LINE, "stroke-width:1.6;stroke-dasharray:3 2"),
    "inround": Ink(*ROUND, "stroke-width:1.6"),
}
SPOTS = {
    "dot": Ink(*INK),
    "lostdot": Ink(*GREY),
    "orphandot": Ink(*ORPHAN),
    "replaydot": Ink(*REPLAY),
    "pill": Ink(*ORPHAN),
    "rounddot": Ink(*ROUND),
}
WORDS = {
    "said": Ink(*INK),
    "faint": Ink(*PALE),
    "head": Ink(*INK, "font-weight:bold"),
    "lineword": Ink(*LINE, "font-weight:bold"),
    "orphanword": Ink(*ORPHAN),
    "replayword": Ink(*REPLAY),
    "roundword": Ink(*ROUND),
}


def text(
    content: str, kind: str, x: float, y: float, size: float, anchor: str = "start"
) -> Element:
    """A line of text, on a foot at that height."""
    return Element(
        "text",
        {"class": kind, "x": x, "y": y, "font-size": size, "text-anchor": anchor},
        (content,),
    )


def number(value: Attribute) -> str:
    """A number with one digit after the point at most; text as it is."""
    return value if isinstance(value, str) else f"{round(value, 1) + 0.0:.10g}"


def rules(is_dark: bool) -> str:
    """The style of every kind on one of the two grounds; on the dark one the colours alone."""

    def of(colour: Ink) -> str:
        return colour.dark if is_dark else colour.light

    def rest(style: str) -> str:
        return "" if is_dark or not style else f";{style}"

    paper = PAPER[is_dark]
    # Opened by itself the picture has the whole window's ground.
    lines = [f"svg:root{{background:{paper}}}", f".paper{{fill:{paper}}}"]
    lines += [
        f".{kind}{{stroke:{of(ink)}{'' if is_dark else ';fill:none'}{rest(ink.style)}}}"
        for kind, ink in STROKES.items()
    ]
    lines += [
        f".{kind}{{stroke:{of(ink)};fill:{paper}{rest(ink.style)}}}" for kind, ink in BOXES.items()
    ]
    lines += [f".{kind}{{fill:{of(ink)}}}" for kind, ink in SPOTS.items()]
    lines += [
        f".{kind}{{fill:{of(ink)};stroke:{paper}{rest(ink.style)}}}" for kind, ink in WORDS.items()
    ]
    lines.append(f".onpill{{fill:{paper}}}")
    return "".join(f"{line}\n" for line in lines)


def style() -> str:
    """The style sheet of every picture."""
    words = ",".join(f".{kind}" for kind in WORDS)
    halo = f"{words}{{stroke-width:3;stroke-linejoin:round;paint-order:stroke}}\n"
    bold = ".onpill{font-weight:bold}\n"
    dark = f"@media (prefers-color-scheme:dark){{\n{rules(is_dark=True)}}}\n"
    return rules(is_dark=False) + halo + bold + dark


def written(element: Element, indent: int = 0) -> str:
    """The text of an element: one line for each that has text or nothing inside."""
    space = " " * indent
    attributes = "".join(
        f" {name}={quoteattr(number(value))}" for name, value in element.attributes.items()
    )
    if not element.inside:
        return f"{space}<{element.tag}{attributes}/>\n"
    if all(isinstance(part, str) for part in element.inside):
        inside = "".join(escape(str(part)) for part in element.inside)
        return f"{space}<{element.tag}{attributes}>{inside}</{element.tag}>\n"
    lines = "".join(
        written(part, indent + 1) if isinstance(part, Element) else f"{escape(part)}\n"
        for part in element.inside
    )
    return f"{space}<{element.tag}{attributes}>\n{lines}{space}</{element.tag}>\n"
