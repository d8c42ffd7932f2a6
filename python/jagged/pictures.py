"""Pictures of histograms as SVG, by the standard library alone."""

from __future__ import annotations

from collections.abc import Sequence
from html import escape

WIDTH, HEIGHT = 640, 400
LEFT, RIGHT, TOP, BOTTOM = 76, 604, 48, 340

BARS, LINES, TEXT = "#3b6ea5", "#d9d9d9", "#333333"


def histogram_svg(
    edges: Sequence[int], counts: Sequence[int], title: str, label: str, note: str
) -> str:
    """A picture of the counts from each edge to the next. `title` stands above, `note` beneath it,
    and `label` below the axis of the edges.
    """
    highest = max(*counts, 1)
    parts = [
        f'<svg xmlns="http://www.w3.org/2000/svg" viewBox="0 0 {WIDTH} {HEIGHT}" width="{WIDTH}"'
        f' height="{HEIGHT}" font-family="sans-serif" font-size="12" fill="{TEXT}" role="img">',
        f"<title>{escape(title or label or 'histogram')}</title>",
        f'<rect width="{WIDTH}" height="{HEIGHT}" fill="#ffffff"/>',
    ]
    for tick in ticks(0, highest, 6):
        y = _between(tick, 0, highest, BOTTOM, TOP)
        parts.append(_line(LEFT, y, RIGHT, y, LINES))
        parts.append(_words(LEFT - 8, y + 4, f"{tick:,}", "end"))
    parts.append(_outline(edges, counts, highest))
    parts.append(_line(LEFT, BOTTOM, RIGHT, BOTTOM, TEXT))
    for tick in ticks(edges[0], edges[-1], 8 if edges[-1] < 10**9 else 4):
        x = _between(tick, edges[0], edges[-1], LEFT, RIGHT)
        parts.append(_line(x, BOTTOM, x, BOTTOM + 5, TEXT))
        parts.append(_words(x, BOTTOM + 20, f"{tick:,}", "middle"))
    middle = (LEFT + RIGHT) / 2
    parts.append(_words(middle, 22, title, "middle", 15))
    parts.append(_words(RIGHT, TOP - 8, note, "end", 11))
    parts.append(_words(middle, BOTTOM + 44, label, "middle", 13))
    return "\n".join(it for it in [*parts, "</svg>"] if it) + "\n"


def ticks(low: int, high: int, about: int) -> range:
    """Whole numbers from low to high, at even steps that are 1, 2 or 5 times a power of ten, no
    more than `about` and one.
    """
    power = 1
    while True:
        for step in (power, 2 * power, 5 * power):
            if (high - low) // step <= about:
                return range(-(-low // step) * step, high + 1, step)
        power *= 10


def _outline(edges: Sequence[int], counts: Sequence[int], highest: int) -> str:
    """The bars as one filled path, from edge to edge."""
    path = f"M{LEFT} {BOTTOM}"
    for edge, count in zip(edges[1:], counts):
        y = _between(count, 0, highest, BOTTOM, TOP)
        x = _between(edge, edges[0], edges[-1], LEFT, RIGHT)
        path += f"V{_text(y)}H{_text(x)}"
    return f'<path d="{path}V{BOTTOM}Z" fill="{BARS}" fill-opacity="0.75" stroke="{BARS}"/>'


def _between(value: int, low: int, high: int, start: float, end: float) -> float:
    """Where a value lies between start and end, as it does between low and high."""
    return start + (end - start) * ((value - low) / (high - low))


def _line(x: float, y: float, to_x: float, to_y: float, color: str) -> str:
    places = f'x1="{_text(x)}" y1="{_text(y)}" x2="{_text(to_x)}" y2="{_text(to_y)}"'
    return f'<line {places} stroke="{color}"/>'


def _words(x: float, y: float, words: str, anchor: str, size: int = 12) -> str:
    if not words:
        return ""
    place = f'x="{_text(x)}" y="{_text(y)}" text-anchor="{anchor}" font-size="{size}"'
    return f"<text {place}>{escape(words)}</text>"


def _text(number: float) -> str:
    """A number with one digit behind the point, where that is not 0."""
    return f"{number:.1f}".removesuffix(".0")
