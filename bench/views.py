#!/usr/bin/env python3
"""Times the built program on many small views of one large container.

    python3 bench/views.py [PROGRAM [OTHER]]

PROGRAM is crates/awk_cli/out/awk_cli where none is given. A session loads one container of 10^6
records, each of two numbers and a list, and then has 20,000 lines over views of it: ranges of a few
records and choices of their fields, shown, bound or asked for their type. It is run beside half as
many lines, beside the load alone, and over a container of a tenth of the records: what a view takes
is to be the same over both containers. Where OTHER is given, it runs each session too, in turn
with PROGRAM, its answers are compared, and the ratio of the medians is printed. All figures are of
this run, which is made by hand and is no part of the gate.
"""

import base64
import json
import random
import statistics
import subprocess
import sys
import tempfile
from pathlib import Path

from load import little_endian, timed

RUNS = 3
RECORDS = 10**6
VIEWS = 20_000

FORM = {
    "class": "RecordArray",
    "fields": ["pt", "charge", "hits"],
    "contents": [
        {"class": "NumpyArray", "primitive": "int64", "form_key": "pt"},
        {"class": "NumpyArray", "primitive": "int8", "form_key": "charge"},
        {
            "class": "ListOffsetArray",
            "offsets": "i64",
            "content": {"class": "NumpyArray", "primitive": "int64", "form_key": "hit"},
            "form_key": "hits",
        },
    ],
    "form_key": "mu",
}


def load_line(records):
    """The line that loads so many records, with two hits each."""
    draw = random.Random(1)
    buffers = {
        "pt-data": little_endian(draw.randrange(10**6) for _ in range(records)),
        "charge-data": base64.b64encode(draw.randbytes(records)).decode(),
        "hits-offsets": little_endian(range(0, 2 * records + 1, 2)),
        "hit-data": little_endian(draw.randrange(10**6) for _ in range(2 * records)),
    }
    return {"load": "mu", "form": FORM, "length": records, "buffers": buffers}


def view_line(draw, records, k):
    """The k-th line over a view of a few records."""
    first = draw.randrange(records - 4)
    few = ["range", "mu", first, first + draw.randrange(1, 4)]
    if k % 4 == 0:
        return {"let": f"v{k % 100}", "be": few}
    if k % 4 == 1:
        return {"show": ["field", few, "hits"]}
    if k % 4 == 2:
        return {"show": ["fields", ["range", "mu", first, first + 2], ["pt", "charge"]]}
    return {"type": ["without_field", few, "charge"]}


def make(folder, records, views):
    """Writes a session, in a process of its own, which frees the memory of the buffers."""
    draw = random.Random(2)
    with open(folder / "session.jsonl", "w", encoding="ascii") as session:
        print(json.dumps(load_line(records), separators=(",", ":")), file=session)
        for k in range(views):
            line = view_line(draw, records, k)
            print(json.dumps(line, separators=(",", ":")), file=session)


def measure(programs, folder, records, views):
    """The median seconds of each program over one session, or None where one failed or differs."""
    words = [sys.executable, __file__, "--make", str(folder), str(records), str(views)]
    subprocess.run(words, check=True)
    seconds = [[] for _ in programs]
    answers = [folder / f"answers{i}.jsonl" for i in range(len(programs))]
    for _ in range(RUNS):
        for i, program in enumerate(programs):
            taken, status, _ = timed([str(program), "run"], folder / "session.jsonl", answers[i])
            if status != 0:
                print(f"  {program} ended with status {status}")
                return None
            seconds[i].append(taken)
    if any(path.read_bytes() != answers[0].read_bytes() for path in answers):
        print("  the answers differ")
        return None
    medians = [statistics.median(each) for each in seconds]
    ratio = f"  ratio {medians[0] / medians[1]:.2f}" if len(medians) > 1 else ""
    figures = "".join(f"{median:8.3f} s" for median in medians)
    print(f"{views:6,} views of {records:9,} records  {figures}{ratio}")
    return medians


def main():
    if sys.argv[1:2] == ["--make"]:
        folder, records, views = sys.argv[2:]
        make(Path(folder), int(records), int(views))
        return
    here = Path(__file__).resolve().parent
    given = [Path(word) for word in sys.argv[1:3]]
    programs = given or [here.parent / "crates/awk_cli/out/awk_cli"]
    for program in programs:
        if not program.exists():
            sys.exit(f"{program} is not built: ./run.sh < /dev/null builds the program")
    sizes = [(r, v) for r in (RECORDS // 10, RECORDS) for v in (0, VIEWS // 2, VIEWS)]
    with tempfile.TemporaryDirectory() as name:
        taken = {size: measure(programs, Path(name), *size) for size in sizes}
    if any(medians is None for medians in taken.values()):
        sys.exit(1)
    for i, program in enumerate(programs):
        print(program)
        for records in (RECORDS // 10, RECORDS):
            for views in (VIEWS // 2, VIEWS):
                more = taken[records, views][i] - taken[records, 0][i]
                each = more / views * 1e6
                print(f"  a view of {records:9,} records, of {views:6,}: {each:8.2f} µs")


if __name__ == "__main__":
    main()
