#!/usr/bin/env python3
"""Times the built program on a large load line and on a large show line.

    python3 bench/load.py [PROGRAM]

PROGRAM is crates/awk_cli/out/awk_cli where none is given. Two sessions are made: one loads 10^6
lists that hold 10^7 int64 numbers, the other loads 10^5 lists of 10^6 numbers and shows them. Of
each it prints the bytes per second of the program, of `base64 -d` over the texts of the session's
buffers, and of `cat` over the session, all in this run, and the program's peak memory beside the
bytes of the load line. It is run by hand and is no part of the gate.
"""

import base64
import json
import os
import random
import subprocess
import sys
import tempfile
import time
from array import array
from pathlib import Path

FORM = {
    "class": "ListOffsetArray",
    "offsets": "i64",
    "content": {"class": "NumpyArray", "primitive": "int64", "form_key": "node1"},
    "form_key": "node0",
}


def little_endian(numbers):
    """The base64 text of int64 numbers."""
    items = array("q", numbers)
    if sys.byteorder == "big":
        items.byteswap()
    return base64.b64encode(items.tobytes()).decode()


def jagged(lists, numbers):
    """Offsets of so many lists over so many numbers, and the numbers."""
    draw = random.Random(1)
    inner = sorted(draw.randrange(numbers + 1) for _ in range(lists - 1))
    content = [draw.randrange(-(10**6), 10**6) for _ in range(numbers)]
    return [0, *inner, numbers], content


def make(folder, lists, numbers, show):
    """Writes a session that loads, and shows where `show` says so, and its buffers' texts behind one another.

    Prints the bytes of the load line. It runs in a process of its own, since a program's peak memory counts what
    its parent holds when it is started.
    """
    offsets, content = jagged(lists, numbers)
    buffers = {"node0-offsets": little_endian(offsets), "node1-data": little_endian(content)}
    line = {"load": "x", "form": FORM, "length": lists, "buffers": buffers}
    lines = [json.dumps(line, separators=(",", ":"))]
    if show:
        lines.append('{"show":"x"}')
    (folder / "session.jsonl").write_text("\n".join(lines) + "\n")
    # The texts decode as one where each but the last is cut to whole groups.
    bare = [text.rstrip("=") for text in buffers.values()]
    (folder / "buffers.txt").write_text("".join(text[: len(text) // 4 * 4] for text in bare))
    print(len(lines[0]))


def timed(words, source, sink):
    """The seconds, the status and the peak memory in bytes of a command over files."""
    start = time.perf_counter()
    with open(source, "rb") as given, open(sink, "wb") as taken:
        child = os.posix_spawnp(
            words[0],
            words,
            os.environ,
            file_actions=[
                (os.POSIX_SPAWN_DUP2, given.fileno(), 0),
                (os.POSIX_SPAWN_DUP2, taken.fileno(), 1),
            ],
        )
        _, status, usage = os.wait4(child, 0)
    seconds = time.perf_counter() - start
    return seconds, os.waitstatus_to_exitcode(status), usage.ru_maxrss * 1024


def rate(size, seconds):
    return f"{size / seconds / 1e6:10.1f} MB/s"


def measure(title, program, folder, lists, numbers, show):
    """Prints the rates of one session."""
    words = [sys.executable, __file__, "--make", str(folder), str(lists), str(numbers), str(int(show))]
    line = int(subprocess.run(words, check=True, capture_output=True, text=True).stdout)
    given, encoded, answers = (folder / n for n in ("session.jsonl", "buffers.txt", "answers.jsonl"))
    size = given.stat().st_size

    seconds, status, peak = timed([str(program), "run"], given, answers)
    answered = answers.stat().st_size
    print(title)
    print(f"  session      {size:12,} bytes, answers {answered:,} bytes")
    if status != 0:
        print(f"  the program ended with status {status}")
        return False
    print(f"  program      {rate(size + answered, seconds)}  {seconds:6.2f} s")
    seconds, _, _ = timed(["base64", "-d"], encoded, answers)
    print(f"  base64 -d    {rate(encoded.stat().st_size, seconds)}  {seconds:6.2f} s")
    seconds, _, _ = timed(["cat"], given, answers)
    print(f"  cat          {rate(size, seconds)}  {seconds:6.2f} s")
    print(f"  peak memory  {peak:12,} bytes, load line {line:,} bytes, {peak / line:.1f} to one")
    return True


def main():
    if sys.argv[1:2] == ["--make"]:
        folder, lists, numbers, show = sys.argv[2:]
        make(Path(folder), int(lists), int(numbers), show == "1")
        return
    here = Path(__file__).resolve().parent
    program = Path(sys.argv[1]) if len(sys.argv) > 1 else here.parent / "crates/awk_cli/out/awk_cli"
    if not program.exists():
        sys.exit(f"{program} is not built: ./run.sh < /dev/null builds it")
    with tempfile.TemporaryDirectory() as name:
        folder = Path(name)
        runs = [
            ("load 10^6 lists of 10^7 numbers", 10**6, 10**7, False),
            ("load and show 10^5 lists of 10^6 numbers", 10**5, 10**6, True),
        ]
        done = [measure(title, program, folder, *made) for title, *made in runs]
    sys.exit(0 if all(done) else 1)


if __name__ == "__main__":
    main()
