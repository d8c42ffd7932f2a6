#!/usr/bin/env python3
"""Pairs of muons of opposite charge in 100,000 made events, by their summed transverse momentum.

    python3 examples/dimuon.py [PICTURE]       asks one session, prints the histogram and, where a
                                               file is named, writes its picture there
    python3 examples/dimuon.py write FOLDER    writes the same events as eight sessions in files
    python3 examples/dimuon.py add FILE..      adds the histograms that answers to these end with

The program is the built one, or the one that JAGGED_PROGRAM names.
"""

from __future__ import annotations

import json
import random
import sys
from array import array
from pathlib import Path

sys.path.insert(0, str(Path(__file__).resolve().parents[1] / "python"))

from jagged import Expression, Histogram, Session, e, load_line

PARTS, EVENTS = 8, 12_500

# In MeV.
EDGES = range(0, 200_001, 5_000)

TITLE = "Pairs of muons of opposite charge in 100,000 made events"

PT = {"class": "NumpyArray", "primitive": "int64", "form_key": "pt"}
CHARGE = {"class": "NumpyArray", "primitive": "int8", "form_key": "charge"}
MUON = {"class": "RecordArray", "fields": ["pt", "charge"], "contents": [PT, CHARGE]}
FORM = {"class": "ListOffsetArray", "offsets": "i64", "content": MUON, "form_key": "muons"}

# What the session binds, one after the other, and what it shows at last.
PAIRS = e.combinations(2, False, 1, e.muons)
OPPOSITE = e.pairs[e.pairs["0"]["charge"] != e.pairs["1"]["charge"]]
SUMMED = e.opposite["0"]["pt"] + e.opposite["1"]["pt"]


def made_events(parts: range) -> tuple[int, dict[str, array[int]]]:
    """The events of some of the parts: how many, and their buffers."""
    offsets, pt, charge = array("q", [0]), array("q"), array("b")
    for part in parts:
        chance = random.Random(part)
        for _ in range(EVENTS):
            for _ in range(chance.choice([0, 1, 1, 2, 2, 2, 3, 4])):
                pt.append(3_000 + int(chance.expovariate(1 / 25_000)))
                charge.append(chance.choice([-1, 1]))
            offsets.append(len(pt))
    return len(offsets) - 1, {"muons-offsets": offsets, "pt-data": pt, "charge-data": charge}


def one_session() -> Histogram:
    with Session() as session:
        session.load("muons", FORM, *made_events(range(PARTS)))
        session.let("pairs", PAIRS)
        session.let("opposite", OPPOSITE)
        return session.hist(SUMMED, EDGES)


def write_sessions(folder: Path) -> None:
    asked: list[dict[str, Expression | str]] = [
        {"let": "pairs", "be": PAIRS},
        {"let": "opposite", "be": OPPOSITE},
        {"show": e.hist(SUMMED, EDGES)},
    ]
    for part in range(PARTS):
        with open(folder / f"{part}.session", "wb") as file:
            file.write(b'{"session":2}\n')
            file.writelines(load_line("muons", FORM, *made_events(range(part, part + 1))))
            for line in asked:
                file.write(json.dumps(line, default=lambda it: it.json).encode() + b"\n")


def added(answers: list[str]) -> Histogram:
    """The sum of the histograms that the files of answers end with."""
    last = (Path(it).read_text().splitlines()[-1] for it in answers)
    first, *others = (Histogram.of(EDGES, json.loads(it)["value"]) for it in last)
    return sum(others, first)


def main(words: list[str]) -> None:
    if words[:1] == ["write"]:
        write_sessions(Path(words[1]))
        return
    found = added(words[1:]) if words[:1] == ["add"] else one_session()
    print(found)
    if len(words) == 1:
        found.save(words[0], TITLE, "summed transverse momentum / MeV")


if __name__ == "__main__":
    main(sys.argv[1:])
