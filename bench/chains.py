#!/usr/bin/env python3
"""Runs chains of lines that make options on the built program, in a stack of 1 MB.

    python3 bench/chains.py [PROGRAM [LINES]]

PROGRAM is crates/awk_cli/out/awk_cli where none is given, and LINES 20,000. Each chain binds a name
again and again to an operation over itself, as `{"let":"x","be":["pad_none","x",1,0,false]}`, over
numbers, lists, records and a union. No such line deepens the type, so none may make the layout
higher: each chain is to end with status 0, and twice as many lines are to take about twice as long.
The figures are of this run, which is made by hand; `python/test_chains.py`, which the gate runs,
looks at the status and the last answer of each chain.
"""

import json
import resource
import subprocess
import sys
import time
from base64 import b64encode
from struct import pack

STACK = 2**20


def lane(code: str, *numbers: int) -> str:
    return b64encode(pack(f"<{len(numbers)}{code}", *numbers)).decode()


def node(kind: str, key: str, **more: object) -> dict[str, object]:
    return {"class": kind, "form_key": key, **more}


def load(name: str, form: dict[str, object], length: int, **buffers: str) -> str:
    texts = {key.replace("_", "-"): text for key, text in buffers.items()}
    return json.dumps({"load": name, "form": form, "length": length, "buffers": texts})


def lists(key: str, content: dict[str, object]) -> dict[str, object]:
    return node("ListOffsetArray", key, offsets="i64", content=content)


NUMBERS = node("NumpyArray", "n", primitive="int64")
TRUTHS = node("NumpyArray", "t", primitive="bool")
OFFSETS = lane("q", 0, 2, 3)
DATA = lane("q", 1, 2, 3)
BITS = lane("b", 1, 0, 1)
RECORDS = node("RecordArray", "r", fields=["a", "b"], contents=[NUMBERS, lists("o", NUMBERS)])
UNION = node("UnionArray", "u", tags="i8", index="i64", contents=[NUMBERS, lists("o", NUMBERS)])
STARTS = {
    "numbers": load("x", NUMBERS, 3, n_data=DATA),
    "lists": load("x", lists("o", NUMBERS), 2, o_offsets=OFFSETS, n_data=DATA),
    "records": load("x", RECORDS, 2, o_offsets=OFFSETS, n_data=DATA),
    "union": load("x", UNION, 3, u_tags=lane("b", 0, 1, 0), u_index=lane("q", 0, 0, 1),
                  o_offsets=OFFSETS, n_data=DATA),
}
NULLS = node("IndexedOptionArray", "i", index="i64", content=TRUTHS)
MASKS = {
    "truths": load("m", TRUTHS, 3, t_data=BITS),
    "nulls": load("m", NULLS, 3, i_index=lane("q", 0, -1, 2), t_data=BITS),
    "lists": load("m", lists("o", NULLS), 2, o_offsets=OFFSETS, i_index=lane("q", 0, -1, 2),
                  t_data=BITS),
}
PAD, CUT = ["pad_none", "x", 3, 0, False], ["pad_none", "x", 3, 0, True]
INNER, INNER_CUT = ["pad_none", "x", 2, 1, False], ["pad_none", "x", 2, 1, True]
MASK = ["put_mask", "x", "m", True]
CHAINS = [
    ("numbers", None, [PAD]), ("numbers", None, [CUT]), ("union", None, [PAD]),
    ("lists", None, [INNER]), ("lists", None, [INNER_CUT]), ("lists", None, [INNER, PAD]),
    ("numbers", None, [PAD, ["fill_none", "x", 7, 0]]),
    ("numbers", None, [PAD, ["drop_none", "x", 0]]),
    ("numbers", None, [["singletons", "x", 0], ["firsts", "x", 1]]),
    ("numbers", "truths", [MASK]), ("numbers", "nulls", [MASK]), ("union", "nulls", [MASK]),
    ("lists", "lists", [MASK]), ("lists", "lists", [MASK, ["pad_none", "x", 1, 1, False]]),
    ("numbers", None, [PAD, ["concatenate", 0, [["range", "x", 0, 0], "x"]]]),
    ("records", None, [["pad_none", "x", 2, 0, True]]),
]


def stack() -> None:
    resource.setrlimit(resource.RLIMIT_STACK, (STACK, STACK))


def session(start: str, mask: str | None, steps: list[object], lines: int) -> str:
    """A chain of so many lines, with what it starts from, and what is bound in the end."""
    heads = [STARTS[start]] + ([MASKS[mask]] if mask else [])
    each = [json.dumps({"let": "x", "be": step}) for step in steps]
    return "\n".join(heads + [each[k % len(each)] for k in range(lines)] + ['{"show":"x"}', ""])


def run(program: str, text: str) -> tuple[int, float, list[bytes]]:
    """The status with which a session ends, its seconds, and its answers."""
    began = time.perf_counter()
    done = subprocess.run([program, "run"], input=text.encode(), stdout=subprocess.PIPE,
                          preexec_fn=stack, check=False)
    return done.returncode, time.perf_counter() - began, done.stdout.splitlines()


def main() -> None:
    program = sys.argv[1] if len(sys.argv) > 1 else "crates/awk_cli/out/awk_cli"
    lines = int(sys.argv[2]) if len(sys.argv) > 2 else 20_000
    for start, mask, steps in CHAINS:
        _, half, _ = run(program, session(start, mask, steps, lines // 2))
        status, whole, _ = run(program, session(start, mask, steps, lines))
        what = " ".join(json.dumps(step) for step in steps)
        print(f"status {status}  {half:6.2f} s  {whole:6.2f} s  {start:8} {mask or '':7} {what}")


if __name__ == "__main__":
    main()
