"""Shapes and texts of an SVG picture, as elements of Python's xml.etree, for picture.py.

It is not run by itself, and needs Python's standard library only.
"""
import re
import unicodedata
from xml.etree.ElementTree import Element, tostring

NAMESPACE = "http://www.w3.org/2000/svg"
NO_XML = re.compile("[^\t\n\r -\ud7ff\ue000-\ufffd\U00010000-\U0010ffff]")  # the characters that XML has no place for
NARROWEST = 34  # of the widths of characters, where the size is 100
BOLD = 1.15  # about the width of a bold text, where that of the plain one is 1
PILL_SIZE = 9.5  # of the letters
PILL_HEIGHT = 14

Attribute = str | float | None


def number(x: float) -> str:
    return f"{x:.1f}".rstrip("0").rstrip(".")


def tag(name: str, *children: Element, **attributes: Attribute) -> Element:
    """An element; an underscore stands for a hyphen, an attribute of None is left out."""
    shown = {key.replace("_", "-"): value if isinstance(value, str) else number(value)
             for key, value in attributes.items() if value is not None}
    element = Element(name, shown)
    element.extend(children)
    return element


def tip(words: str) -> list[Element]:
    """What a browser shows where the pointer rests, if there is anything to show."""
    title = tag("title")
    title.text = words
    return [title] if words else []


def text(x: float, y: float, words: str, size: float = 11, fill: str = "#23292f", about: str = "", **attributes: Attribute) -> Element:
    """Words whose middle height is at y."""
    element = tag("text", *tip(about), x=x, y=y + 0.36 * size, font_size=size, fill=fill, **attributes)
    if about:
        element[0].tail = words
    else:
        element.text = words
    return element


def rect(x: float, y: float, width: float, height: float, fill: str, about: str = "", **attributes: Attribute) -> Element:
    return tag("rect", *tip(about), x=x, y=y, width=max(width, 0.5), height=max(height, 0.5), fill=fill, **attributes)


def line(x1: float, y1: float, x2: float, y2: float, stroke: str, about: str = "", **attributes: Attribute) -> Element:
    return tag("line", *tip(about), x1=x1, y1=y1, x2=x2, y2=y2, stroke=stroke, **attributes)


def circle(x: float, y: float, r: float, fill: str) -> Element:
    return tag("circle", cx=x, cy=y, r=r, fill=fill)


def path(d: str, **attributes: Attribute) -> Element:
    return tag("path", d=d, fill="none", **attributes)


def curve(x: float, y: float, x2: float, y2: float) -> str:
    """A path that leaves and arrives level."""
    bend = min(max(24, 0.4 * abs(x2 - x)), 110) * (1 if x < x2 else -1)
    return f"M{number(x)} {number(y)}C{number(x + bend)} {number(y)} {number(x2 - bend)} {number(y2)} {number(x2)} {number(y2)}"


def triangle(x: float, y: float, direction: int, fill: str) -> Element:
    """The head of a level arrow; direction 1 is to the right, -1 to the left."""
    return tag("path", d=f"M{number(x + direction)} {number(y)}l{-7 * direction} -3.6v7.2z", fill=fill)


def cross(x: float, y: float, r: float, stroke: str, width: float) -> Element:
    d = f"M{number(x - r)} {number(y - r)}l{2 * r} {2 * r}m0 {-2 * r}l{-2 * r} {2 * r}"
    return path(d, stroke=stroke, stroke_width=width, stroke_linecap="round")


def width_of(words: str, size: float) -> float:
    """About the width of a text in a wide font, so that it fits in a narrower one too."""
    return size * sum(map(character_width, words)) / 100


def character_width(c: str) -> int:
    """Whole, since versions of Python add up floats in different ways."""
    if c in " .,:'|ijl/":
        return NARROWEST
    if c in "frt()-":
        return 46
    if c.isupper() or c in "mw\u2192\u2713\u00d7":
        return 76
    return 100 if unicodedata.east_asian_width(c) in "WF" else 63


def cut(words: str, size: float, width: float) -> str:
    """The text, or as much of it as fits."""
    if width_of(words, size) <= width:
        return words
    words = words[:int(100 * width / (NARROWEST * size))]  # no more can fit
    while words and width_of(words + "\u2026", size) > width:
        words = words[:-1]
    return words + "\u2026"


def pill_width(words: str) -> float:
    return width_of(words, PILL_SIZE) + 9


class Pill:
    """A label with a round edge: of a message that comes to a machine, or of what its event was."""

    def __init__(self, words: str, colour: str, filled: bool = True, dashed: bool = False, about: str = "") -> None:
        self.words, self.colour, self.filled, self.dashed, self.about = words, colour, filled, dashed, about
        self.y: float = 0  # the middle, set where it is placed

    def drawn(self, right: float, paper: str) -> Element:
        """As it ends at right."""
        width = pill_width(self.words)
        body = rect(right - width, self.y - PILL_HEIGHT / 2, width, PILL_HEIGHT, self.colour if self.filled else paper, rx=4,
                    stroke=self.colour, stroke_dasharray="3 2" if self.dashed else None)
        label = text(right - width / 2, self.y, self.words, PILL_SIZE, "#ffffff" if self.filled else self.colour, text_anchor="middle")
        return tag("g", *tip(self.about), body, label)


def picture(width: float, height: float, font: str, title: str, parts: list[Element]) -> Element:
    """The whole picture, a part on each line."""
    w, h = f"{width:.0f}", f"{height:.0f}"
    root = tag("svg", *tip(title), *parts, xmlns=NAMESPACE, width=w, height=h, viewBox=f"0 0 {w} {h}", font_family=font)
    root.text = "\n"
    for part in root:
        part.tail = "\n"
    return root


def document(root: Element) -> str:
    return tostring(root, encoding="unicode") + "\n"
