#!/usr/bin/env python3
"""Times the built program's sort of one list of 10^7 int64 numbers, and std's of the same numbers.

    python3 bench/sort.py [PROGRAM]

PROGRAM is crates/awk_cli/out/awk_cli where none is given. Each is run five times with the sort and
five times without it, in turn, and the difference of the medians of their processor seconds is what
the sort takes: of the program a line that binds the sorted list (`sort`) or its places (`argsort`),
of `bench/sort.rs` (built by `rustc`, for the same processor) std's `sort_unstable`. The least
numbers of both are compared. It is run by hand and is no part of the gate.
"""

import base64
import json
import os
import random
import statistics
import subprocess
import sys
import tempfile
from array import array
from pathlib import Path

from load import FORM, little_endian

HERE = Path(__file__).resolve().parent
COUNT = 10**7
RUNS = 5


def make(folder):
    """Writes the numbers, and sessions that load them as one list, with a sort and without one."""
    text = little_endian(array("q", random.Random(3).randbytes(8 * COUNT)))
    (folder / "numbers").write_bytes(base64.b64decode(text))
    buffers = {"node0-offsets": little_endian([0, COUNT]), "node1-data": text}
    load = json.dumps({"load": "x", "form": FORM, "length": 1, "buffers": buffers})
    for name in ("load", "sort", "argsort"):
        lines = [load]
        if name != "load":
            lines.append(json.dumps({"let": "y", "be": [name, "x", True]}))
            lines.append('{"show":["min",["firsts","y",1]]}')
        (folder / f"{name}.jsonl").write_text("\n".join(lines) + "\n")


def spent(words, source):
    """The processor seconds of a command over a file, and its last line."""
    before = os.times()
    with open(source, "rb") as given:
        done = subprocess.run(words, stdin=given, check=True, capture_output=True, text=True)
    after = os.times()
    seconds = sum(after[2:4]) - sum(before[2:4])
    return seconds, done.stdout.splitlines()[-1]


def main():
    if sys.argv[1:2] == ["--make"]:
        make(Path(sys.argv[2]))
        return
    program = Path(sys.argv[1]) if len(sys.argv) > 1 else HERE.parent / "crates/awk_cli/out/awk_cli"
    if not program.exists():
        sys.exit(f"{program} is not built: ./run.sh < /dev/null builds it")
    with tempfile.TemporaryDirectory() as name:
        folder = Path(name)
        subprocess.run([sys.executable, __file__, "--make", name], check=True)
        std = folder / "std"
        flags = ["-O", "-C", "target-cpu=x86-64", "-o", std]
        subprocess.run(["rustc", *flags, HERE / "sort.rs"], check=True)
        runs = {
            "load": ([program, "run"], folder / "load.jsonl"),
            "sort": ([program, "run"], folder / "sort.jsonl"),
            "argsort": ([program, "run"], folder / "argsort.jsonl"),
            "std read": ([std, folder / "numbers"], os.devnull),
            "std sort": ([std, folder / "numbers", "sort"], os.devnull),
        }
        times = {key: [] for key in runs}
        told = {}
        for _ in range(RUNS):
            for key, run in runs.items():
                seconds, told[key] = spent(*run)
                times[key].append(seconds)
    median = {key: statistics.median(took) for key, took in times.items()}
    plain = median["std sort"] - median["std read"]
    print(f"std's sort   {plain:6.2f} s")
    for key in ("sort", "argsort"):
        took = median[key] - median["load"]
        print(f"{key:12} {took:6.2f} s  {took / plain:5.2f} of std's")
    least = told["std sort"].split()[0]
    if json.loads(told["sort"])["value"] != int(least):
        sys.exit(f"the least is {told['sort']} here and {least} there")


if __name__ == "__main__":
    main()
