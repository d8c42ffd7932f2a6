"""Histograms: what the engine counted, which adds up and shows itself as a picture."""

from __future__ import annotations

import os
from collections.abc import Iterable, Mapping
from dataclasses import dataclass
from pathlib import Path
from typing import Any

from .pictures import histogram_svg

# A row of eighths of a character, from an empty one to a full one.
_EIGHTHS = " ▏▎▍▌▋▊▉█"


@dataclass(frozen=True)
class Histogram:
    """How many numbers lie from each edge to before the next.

    `under` lie below the first edge, `over` at the last or above, and `nulls` are missing. Two of
    the same edges add up, so `sum` joins the histograms of many files. In a notebook it shows
    itself as a picture.
    """

    edges: tuple[int, ...]
    counts: tuple[int, ...]
    under: int = 0
    over: int = 0
    nulls: int = 0

    def __post_init__(self) -> None:
        rises = all(low < high for low, high in zip(self.edges, self.edges[1:]))
        if not self.counts or len(self.edges) != len(self.counts) + 1 or not rises:
            raise ValueError("a histogram has a count from each edge to the next, which is greater")

    @classmethod
    def of(cls, edges: Iterable[int], shown: Mapping[str, Any]) -> Histogram:
        """The histogram whose counts the engine has shown, as `hist` gives them."""
        rest = (int(shown[it]) for it in ("under", "over", "nulls"))
        return cls(tuple(edges), tuple(shown["counts"]), *rest)

    @property
    def total(self) -> int:
        """How many numbers were counted, inside the edges and outside."""
        return self.under + sum(self.counts) + self.over

    def __add__(self, other: Histogram) -> Histogram:
        if not isinstance(other, Histogram):
            return NotImplemented
        if self.edges != other.edges:
            raise ValueError("histograms of other edges do not add up")
        return Histogram(
            self.edges,
            tuple(x + y for x, y in zip(self.counts, other.counts)),
            self.under + other.under,
            self.over + other.over,
            self.nulls + other.nulls,
        )

    def __radd__(self, other: int) -> Histogram:
        # (`sum` begins with 0.)
        if other != 0:
            return NotImplemented
        return self

    def __str__(self) -> str:
        return self.bars()

    def bars(self, width: int = 50) -> str:
        """A row of text for each bin, with its count and a bar, and for what lies in none."""
        below, above, missing = self._outside()
        full = max(*self.counts, 1)
        bins = [
            (f"[{low}, {high})", count, _bar(count, full, width))
            for low, high, count in zip(self.edges, self.edges[1:], self.counts)
        ]
        rows = [(*below, ""), *bins, (*above, ""), (*missing, "")]
        left = max(len(label) for label, _, _ in rows)
        right = max(len(str(count)) for _, count, _ in rows)
        lines = (f"{label:>{left}} {count:>{right}} {bar}" for label, count, bar in rows)
        return "\n".join(it.rstrip() for it in lines)

    def svg(self, title: str = "", label: str = "") -> str:
        """A picture of the bins, as an SVG text; `label` stands below the edges."""
        outside = ", ".join(f"{where}: {count:,}" for where, count in self._outside() if count)
        return histogram_svg(self.edges, self.counts, title, label, outside)

    def save(self, path: str | os.PathLike[str], title: str = "", label: str = "") -> None:
        """Writes the picture to a file."""
        Path(path).write_text(self.svg(title, label), encoding="utf-8")

    def _repr_svg_(self) -> str:
        return self.svg()

    def _outside(self) -> list[tuple[str, int]]:
        below, above = f"below {self.edges[0]}", f"{self.edges[-1]} or more"
        return [(below, self.under), (above, self.over), ("missing", self.nulls)]


def _bar(count: int, full: int, width: int) -> str:
    """A bar of this width where the count is the full one."""
    eighths = count * width * 8 // full
    return _EIGHTHS[8] * (eighths // 8) + _EIGHTHS[eighths % 8].strip()
