"""Histograms: that they add up, their rows of text, and their pictures."""

from __future__ import annotations

import pickle
import tempfile
import unittest
from pathlib import Path
from xml.etree import ElementTree

from jagged import Histogram, pictures

SOME = Histogram((0, 10, 20, 40), (3, 0, 8), under=1, over=12, nulls=2)

ROWS = """\
   below 0  1
   [0, 10)  3 ███
  [10, 20)  0
  [20, 40)  8 ████████
40 or more 12
   missing  2"""

SVG = "{http://www.w3.org/2000/svg}"


def words_of(picture: str) -> list[str]:
    """The texts in a picture, in their order."""
    return [it.text or "" for it in ElementTree.fromstring(picture).iter(f"{SVG}text")]


class Histograms(unittest.TestCase):
    def test_of_what_is_shown(self) -> None:
        shown = {"counts": [3, 0, 8], "under": 1, "over": 12, "nulls": 2}
        self.assertEqual(Histogram.of([0, 10, 20, 40], shown), SOME)
        self.assertEqual(SOME.total, 24)
        self.assertEqual(pickle.loads(pickle.dumps(SOME)), SOME)
        self.assertEqual(len({SOME, Histogram.of(SOME.edges, shown)}), 1)

    def test_no_histogram(self) -> None:
        wrong: list[tuple[tuple[int, ...], tuple[int, ...]]] = [
            ((0,), ()),
            ((), ()),
            ((0, 1), (1, 2)),
            ((0, 0), (1,)),
            ((1, 0), (1,)),
        ]
        for edges, counts in wrong:
            with self.assertRaises(ValueError):
                Histogram(edges, counts)

    def test_sums(self) -> None:
        other = Histogram(SOME.edges, (1, 1, 1), 1, 1, 1)
        both = Histogram(SOME.edges, (4, 1, 9), 2, 13, 3)
        self.assertEqual(SOME + other, both)
        self.assertEqual(sum([SOME, other]), both)
        with self.assertRaises(ValueError):
            SOME + Histogram((0, 10, 20, 41), SOME.counts)
        with self.assertRaises(TypeError):
            SOME + 1  # type: ignore[operator]
        with self.assertRaises(TypeError):
            1 + SOME

    def test_rows_of_text(self) -> None:
        self.assertEqual(SOME.bars(8), ROWS)
        self.assertIn("█" * 50, str(SOME))
        self.assertEqual(Histogram((0, 1), (0,)).bars(8).splitlines()[1], "   [0, 1) 0")
        thirds = Histogram((0, 1, 2), (1, 3)).bars(1).splitlines()
        self.assertEqual(thirds[1:3], ["   [0, 1) 1 ▎", "   [1, 2) 3 █"])

    def test_picture(self) -> None:
        picture = SOME.svg("a < b & c", "GeV")
        words = words_of(picture)
        self.assertEqual(words[-3:], ["a < b & c", "below 0: 1, 40 or more: 12, missing: 2", "GeV"])
        self.assertLess({"0", "2", "4", "6", "8"}, {*words})
        self.assertLess({"0", "5", "10", "40"}, {*words})
        self.assertEqual(words_of(SOME._repr_svg_()), words[:-3] + words[-2:-1])
        with tempfile.TemporaryDirectory() as folder:
            path = Path(folder, "some.svg")
            SOME.save(path, "a < b & c", label="GeV")
            self.assertEqual(path.read_text(encoding="utf-8"), picture)

    def test_pictures_of_any_edges(self) -> None:
        for edges, counts in [
            ((-(2**63), 2**64 - 1), (10**12,)),
            ((0, 1), (0,)),
            (tuple(range(1001)), (1,) * 1000),
            ((2**63, 2**63 + 1), (2**63 - 1,)),
        ]:
            self.assertTrue(words_of(Histogram(edges, counts).svg()))

    def test_ticks(self) -> None:
        self.assertEqual([*pictures.ticks(0, 1, 6)], [0, 1])
        self.assertEqual([*pictures.ticks(0, 8, 6)], [0, 2, 4, 6, 8])
        self.assertEqual([*pictures.ticks(-7, 43, 5)], [0, 10, 20, 30, 40])
        self.assertEqual([*pictures.ticks(3, 6_000, 6)], [1000, 2000, 3000, 4000, 5000, 6000])
