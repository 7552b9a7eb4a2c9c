"""SVG by hand: numbers that are finite and short, text that is escaped and never wider than its room."""
import html
import itertools
import math
import unicodedata
from typing import List

_NOT_IN_XML = {code: "\N{REPLACEMENT CHARACTER}" for code in (*range(9), 11, 12, *range(14, 32), 0xFFFE, 0xFFFF)}


def number(value: float) -> str:
    """A tenth of a pixel is enough, and the point is a point in every locale."""
    if not math.isfinite(value):
        raise ValueError("a picture has finite numbers alone")
    return f"{value:.1f}".rstrip("0").rstrip(".") if value % 1 else str(int(value))


def clean(words: str) -> str:
    """Words for a text or an attribute."""
    return html.escape(words.translate(_NOT_IN_XML))


def width(words: str, size: float) -> float:
    """What the words take at most, in the common sans-serif fonts."""
    return size * sum(map(_em, words))


def _em(character: str) -> float:
    if unicodedata.combining(character):
        return 0
    if unicodedata.east_asian_width(character) in "WF":
        return 1.05
    if character in "mwMW@%—…":
        return 1.0
    return 0.42 if character in " .,:;'|()-ijlrftI" else 0.78 if character.isupper() else 0.64


def fitted(words: str, size: float, room: float) -> str:
    """The words, cut to the room with an ellipsis where they are too long."""
    if width(words, size) <= room:
        return words
    taken = itertools.accumulate(width(character, size) for character in words)
    kept = words[: sum(each <= room - width("…", size) for each in taken)]
    return kept.rstrip() + "…" if kept else ""


class Drawing:
    """Elements in order, and the sheet around them."""

    def __init__(self) -> None:
        self.elements: List[str] = []

    def element(self, name: str, title: str = "", words: str = "", **attributes) -> None:
        written = "".join(f' {key.replace("_", "-")}="{_value(value)}"' for key, value in attributes.items())
        inside = clean(words) + (f"<title>{clean(title)}</title>" if title else "")
        self.elements.append(f"<{name}{written}>{inside}</{name}>" if inside else f"<{name}{written}/>")

    def line(self, x1: float, y1: float, x2: float, y2: float, stroke: str, stroke_width: float = 1, **more) -> None:
        self.element("line", x1=x1, y1=y1, x2=x2, y2=y2, stroke=stroke, stroke_width=stroke_width, **more)

    def text(self, x, y, words: str, size: float, fill: str, room: float, anchor: str = "start", bold: bool = False) -> None:
        """Text that takes no more than its room; what was cut off is in its title."""
        short = fitted(words, size, room)
        if short:
            more = {"text_anchor": anchor, "fill": fill, **({"font_weight": "bold"} if bold else {})}
            self.element("text", words if short != words else "", short, x=x, y=y, font_size=size, **more)

    def finish(self, wide: float, high: float, title: str, description: str) -> str:
        head = (
            f'<svg xmlns="http://www.w3.org/2000/svg" width="{number(wide)}" height="{number(high)}" '
            f'viewBox="0 0 {number(wide)} {number(high)}" font-family="sans-serif" role="img">'
        )
        about = f"<title>{clean(title)}</title>\n<desc>{clean(description)}</desc>"
        ground = f'<rect width="{number(wide)}" height="{number(high)}" fill="#ffffff"/>'
        return "\n".join([head, about, ground, *self.elements, "</svg>", ""])


def _value(value) -> str:
    return value if isinstance(value, str) else number(value)
