#!/usr/bin/env python3
"""Times each kernel by vectors, by plain loops, and as a plain Rust loop, in one run.

    python3 bench/kernels.py

Each is timed over 65,536 numbers, and the quickest of 200 rounds counts. It builds
`awk_kernel_speed` (`rt run`) and `bench/kernels.rs` (`rustc`, for the same processor), runs them
twice in turn, and prints picoseconds an item and the ratios of the vectors to the other two. It is
run by hand and is no part of the gate.
"""

import subprocess
import sys
import tempfile
from pathlib import Path

TOP = Path(__file__).resolve().parent.parent
PROGRAM = TOP / "crates/awk_kernel_speed"


def quickest(times, command, folder):
    lines = subprocess.run(command, cwd=folder, check=True, capture_output=True, text=True).stdout
    for line in lines.splitlines():
        words = line.split()
        if len(words) == 3 and words[0] in ("plain", "wide", "rust"):
            key, took = (words[1], words[0]), int(words[2])
            times[key] = min(times.get(key, took), took)


def main():
    times = {}
    with tempfile.TemporaryDirectory() as folder:
        rust = Path(folder) / "kernels"
        source = TOP / "bench/kernels.rs"
        flags = ["-O", "-C", "target-cpu=x86-64-v2", "-o", rust]
        subprocess.run(["rustc", *flags, source], check=True)
        for _ in range(2):
            quickest(times, ["rt", "run", "--", "time"], PROGRAM)
            quickest(times, [rust], folder)
    print(f"{'ps an item':20}{'wide':>8}{'plain':>8}{'rust':>8}{'wide/plain':>12}{'wide/rust':>12}")
    for method in dict.fromkeys(method for method, _ in times):
        wide, plain, rust = (times.get((method, who), 0) for who in ("wide", "plain", "rust"))
        if not (wide and plain and rust):
            sys.exit(f"{method} was not timed by all three")
        print(f"{method:20}{wide:8}{plain:8}{rust:8}{wide / plain:12.2f}{wide / rust:12.2f}")


if __name__ == "__main__":
    main()
