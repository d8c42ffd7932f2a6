#!/usr/bin/env python3
"""Runs sessions that name far more than they hold, in 2 GB of address space.

    python3 bench/attacks.py [--only WORD] [--seconds N] [PROGRAM ..]

PROGRAM is crates/awk_cli/out/awk_cli where none is given; several are run one after another. Each
row is a session, and its last answer is printed with the exit status, the processor seconds and the
peak of its memory, of which up to 80 MB may be this script's own. Those that end in x1 and x10 are
the same at a size and at ten times that, and their ratios are printed at the end; `late` is a
session that took longer than N seconds by the clock, 60 where none are given. No row should end
with status 5 where a value or a fault is defined. All figures are of this run, which is made by
hand and is no part of the gate.
"""

import argparse
import json
import os
import resource
import subprocess
import tempfile
import threading
from base64 import b64encode
from struct import pack

SPACE = 2_000_000_000
LIMIT = 2**30
EMPTY = {"class": "RecordArray", "fields": [], "contents": []}


def lane(code: str, *numbers: int) -> str:
    return b64encode(pack(f"<{len(numbers)}{code}", *numbers)).decode()


def node(kind: str, key: str, **more: object) -> dict[str, object]:
    return {"class": kind, "form_key": key, **more}


def regular(size: int, content: dict[str, object]) -> dict[str, object]:
    return {"class": "RegularArray", "size": size, "content": content}


def load(name: str, form: dict[str, object], length: int, **buffers: str) -> str:
    texts = {key.replace("_", "-"): text for key, text in buffers.items()}
    return json.dumps({"load": name, "form": form, "length": length, "buffers": texts})


def show(what: object) -> str:
    return json.dumps({"show": what})


def typed(what: object) -> str:
    return json.dumps({"type": what})


def optional(content: dict[str, object]) -> dict[str, object]:
    return node("IndexedOptionArray", "i", index="i64", content=content)


ONE = load("g", regular(LIMIT - 1, EMPTY), 1)
MANY = load("g", EMPTY, LIMIT)
WIDE = regular(LIMIT, EMPTY)
TWO = load("g", optional(WIDE), 2, i_index=lane("q", 0, 0))
FIELD = {"class": "RecordArray", "fields": ["a"], "contents": [EMPTY]}
NAMED = load("g", optional(regular(LIMIT, FIELD)), 2, i_index=lane("q", 0, 0))
NULLS = load("g", optional(regular(LIMIT, {"class": "UnmaskedArray", "content": EMPTY})), 2,
             i_index=lane("q", 0, 0))
DEEP = load("g", optional(regular(2**20, regular(2**10, EMPTY))), 2, i_index=lane("q", 0, 0))


def nested(m: int) -> str:
    form = node("NumpyArray", "d", primitive="int64")
    buffers = {"d_data": lane("q", *range(m))}
    for level in range(4):
        form = node("ListArray", f"l{level}", starts="i64", stops="i64", content=form)
        buffers[f"l{level}_starts"] = lane("q", *([0] * m))
        buffers[f"l{level}_stops"] = lane("q", *([m] * m))
    return load("x", form, m, **buffers)


def let(name: str, what: object) -> str:
    return json.dumps({"let": name, "be": what})


def overlapping(lists: int, places: int) -> str:
    """So many lists that all lie over the same places."""
    form = node("ListArray", "l", starts="i64", stops="i64",
                content=node("NumpyArray", "d", primitive="int64"))
    return load("o", form, lists, l_starts=lane("q", *([0] * lists)),
                l_stops=lane("q", *([places] * lists)), d_data=lane("q", *range(places)))


# What is asked of lists o that lie over one another, each with 1,000 items. Those of the second
# list have a size that is refused.
OVER = {
    "sum": ["sum", "o"], "prod": ["prod", "o"], "min": ["min", "o"], "argmax": ["argmax", "o"],
    "all": ["all", "o"], "count": ["count", "o"], "count_nonzero": ["count_nonzero", "o"],
    "run_lengths": ["run_lengths", "o"], "neg": ["neg", "o"], "add": ["add", "o", "o"],
    "eq": ["eq", "o", 7], "where": ["where", ["lt", "o", 7], "o", 0], "cast": ["cast", "o", "int16"],
    "sort": ["sort", "o", True], "argsort": ["argsort", "o", False],
    "hist": ["hist", "o", [0, 500, 1000]], "hist_each": ["hist_each", "o", [0, 500, 1000]],
    "num": ["num", "o", 1], "local_index": ["local_index", "o", 1], "flatten": ["flatten", "o", 1],
    "unflatten": ["unflatten", ["flatten", "o", 1], ["num", "o", 1]],
    "is_none": ["is_none", "o", 1], "fill_none": ["fill_none", ["pad_none", "o", 1001, 1, True], 7],
    "drop_none": ["drop_none", "o", 1], "singletons": ["singletons", "o", 1],
    "firsts": ["firsts", "o", 1], "pad_none": ["pad_none", "o", 1001, 1, False],
    "put_mask": ["put_mask", "o", ["lt", "o", 7], True], "at_each": ["at_each", "o", -1],
    "range": ["range", "o", None, None, -1], "pick lists": ["pick", "o", ["lt", "o", 7]],
    "pick places": ["pick", "o", ["local_index", "o", 0]], "zip": ["zip", 2, [["a", "o"]]],
    "with_field": ["with_field", ["zip", 2, [["a", "o"]]], "b", "o"],
    "concatenate 0": ["concatenate", 0, ["o", "o"]],
    "concatenate 1": ["concatenate", 1, ["o", "o"]],
}
OVER["fill_none"].append(1)
REFUSED = {
    "combinations": ["combinations", 3, False, 1, "o"],
    "cartesian": ["cartesian", 1, ["o", "o", "o"]],
}


def record(names: list[str], content: dict[str, object]) -> dict[str, object]:
    return {"class": "RecordArray", "fields": names, "contents": [content] * len(names)}


def wide(name: str, names: list[str]) -> str:
    """A record of so many fields."""
    return load(name, record(names, EMPTY), 1)


def fields(scale: int) -> list[tuple[str, list[str]]]:
    """What is asked of records of many fields."""
    names = [f"f{it}" for it in range(5_000 * scale)]
    back = names[::-1]
    w, v = wide("w", names), wide("v", back)
    values = [{name: 1 for name in names}, {name: 2 for name in back}]
    return [
        ("fields field", [w, typed(["field", "w", back[0]])]),
        ("fields fields of two", [w, typed(["num", ["fields", "w", [back[0], "f0"]], 0])]),
        ("fields fields of all", [w, typed(["num", ["fields", "w", back], 0])]),
        ("fields without_field", [w, let("v", ["without_field", "w", back[0]])]),
        ("fields with_field", [w, let("v", ["with_field", "w", "new", ["field", "w", "f0"]])]),
        ("fields concatenate", [w, let("v", ["concatenate", 0, ["w", "w"]])]),
        ("fields concatenate turned", [w, v, let("u", ["concatenate", 0, ["w", "v"]])]),
        ("fields eq", [w, v, show(["eq", "w", "v"])]),
        ("fields pick", [w, typed(["num", ["pick", "w", ["local_index", "w", 0]], 0])]),
        ("fields show", [w, show("w")]),
        ("fields pack", [w, json.dumps({"pack": "w"})]),
        ("fields values turned", [json.dumps({"values": "x", "from": values})]),
    ]


def unions(name: str, alternatives: int) -> str:
    """A union of so many alternatives, each of which has lists of such a union."""
    buffers = {"d_data": ""}

    def union(key: str, content: dict[str, object] | None) -> dict[str, object]:
        contents = []
        for it in range(alternatives):
            inner = content or union(f"{key}{it}_", node("NumpyArray", "d", primitive="int64"))
            contents.append(regular(it + 1, inner))
        buffers.update({f"{key}_tags": "", f"{key}_index": ""})
        return node("UnionArray", key.replace("_", "-"), tags="i8", index="i64", contents=contents)

    return load(name, union("u", None), 0, **buffers)


def tagged(rows: int) -> str:
    """A union of 127 alternatives, with so many rows, one of each in turn."""
    contents = [regular(it + 1, EMPTY) for it in range(127)]
    form = node("UnionArray", "u", tags="i8", index="i64", contents=contents)
    tags = lane("b", *(it % 127 for it in range(rows)))
    return load("u", form, rows, u_tags=tags, u_index=lane("q", *(it // 127 for it in range(rows))))


def big_types(scale: int) -> list[tuple[str, list[str]]]:
    """Unions within unions of up to 127 alternatives, and types of up to 65,536 nodes."""
    most = 40 if scale == 1 else 127
    u, v = unions("u", most), unions("v", most)
    # 1 + 32 * (1 + 63 * (1 + 32 or 3))
    leaves = [f"f{it}" for it in range(31 if scale == 10 else 2)]
    tree = record([f"f{it}" for it in range(32)],
                  record([f"f{it}" for it in range(63)], record(leaves, EMPTY)))
    t = load("t", tree, 1)
    zeros = ["local_index", "t", 0]
    tags = tagged(2_000 * scale)
    return [
        ("tags concatenate", [tags, let("c", ["concatenate", 0, ["u", "u"]])]),
        ("tags pack", [tags, json.dumps({"pack": "u"})]),
        ("unions load", [u, typed("u")]),
        ("unions concatenate", [u, v, let("c", ["concatenate", 0, ["u", "v"]])]),
        ("unions num", [u, typed(["num", "u", 1])]),
        ("unions is_none 2", [u, typed(["is_none", "u", 2])]),
        ("unions pick", [u, typed(["pick", "u", ["local_index", "u", 0]])]),
        ("unions pad_none", [u, typed(["pad_none", "u", 2, 0, False])]),
        ("unions pack", [u, json.dumps({"pack": "u"})]),
        ("nodes load", [t, typed("t")]),
        ("nodes field", [t, typed(["field", "t", "f31"])]),
        ("nodes with_field", [t, let("c", ["with_field", "t", "f0", 1])]),
        ("nodes concatenate", [t, let("c", ["concatenate", 0, ["t", "t"]])]),
        ("nodes cartesian", [t, let("c", ["cartesian", 0, ["t"]])]),
        ("nodes pick", [t, let("c", ["pick", "t", zeros])]),
        ("nodes pack", [t, json.dumps({"pack": "t"})]),
    ]


def many(scale: int) -> list[tuple[str, list[str]]]:
    """Many variables, views, operands and places."""
    one = load("n", node("NumpyArray", "d", primitive="int64"), 1, d_data=lane("q", 7))
    row = wide("r", [f"f{it}" for it in range(100)])
    count = 10_000 * scale
    views = [let("n", ["range", "n", 0, None]) for _ in range(count)]
    return [
        ("variables", [one, *[let(f"v{it}", 1) for it in range(count)], show(f"v{count - 1}")]),
        ("views", [one, *views, show("n")]),
        ("concatenate of many", [one, show(["num", ["concatenate", 0, ["n"] * (100 * scale)], 0])]),
        ("concatenate of many rows", [row, let("c", ["concatenate", 0, ["r"] * (100 * scale)])]),
        ("places of a tuple", [one, typed(["combinations", 6_553 * scale, True, 0, "n"])]),
        ("pad_none to 2^63", [one, show(["num", ["pad_none", "n", 2**63, 0, False], 0])]),
    ]


def sizes(scale: int) -> list[tuple[str, list[str]]]:
    """Sessions of a size, and of ten times that where the scale is 10."""
    o = overlapping(1_000 * scale, 1_000)
    lists = overlapping(100_000 * scale, 1_000)
    found = [(f"overlap {name}", [o, let("x", what)]) for name, what in OVER.items()]
    found += [(f"overlap {name}", [o, show(what)]) for name, what in REFUSED.items()]
    found += [
        ("overlap pack", [o, let("s", ["sum", "o"]), show(["count", "s"])]),
        ("lists num", [lists, typed(["num", "o", 1])]),
        ("lists at_each", [lists, typed(["at_each", "o", -1])]),
        ("lists pick", [lists, typed(["num", ["pick", "o", ["local_index", "o", 0]], 0])]),
    ]
    found += fields(scale) + big_types(scale) + many(scale)
    return [(f"{name} x{scale}", lines) for name, lines in found]


def rows() -> list[tuple[str, list[str]]]:
    found = sizes(1) + sizes(10)
    for name, start in [("two", TWO), ("named", NAMED), ("nulls", NULLS), ("deep", DEEP)]:
        found += [
            (f"{name} concatenate 0", [start, typed(["concatenate", 0, ["g", "g"]])]),
            (f"{name} concatenate 0 num",
             [start, show(["num", ["concatenate", 0, ["g", "g"]], 1])]),
            (f"{name} fill_none 0", [start, typed(["fill_none", "g", 7, 0])]),
            (f"{name} drop_none 0", [start, show(["num", ["drop_none", "g", 0], 1])]),
            (f"{name} pick", [start, typed(["pick", "g", ["local_index", "g", 0]])]),
        ]
    g = "g"
    found += [
        ("one flatten num", [ONE, show(["num", ["flatten", g, 1], 0])]),
        ("one concatenate 0", [ONE, show(["num", ["concatenate", 0, [g, g]], 1])]),
        ("one concatenate 1", [ONE, show(["num", ["concatenate", 1, [g, g]], 1])]),
        ("one concatenate 1 empty",
         [ONE, show(["num", ["concatenate", 1, [g, ["pad_none", g, 0, 1, True]]], 1])]),
        ("one drop_none 1", [ONE, show(["num", ["drop_none", g, 1], 1])]),
        ("one drop_none 0", [ONE, show(["num", ["drop_none", g, 0], 1])]),
        ("one is_none 1", [ONE, show(["num", ["is_none", g, 1], 1])]),
        ("one fill_none 1", [ONE, show(["num", ["fill_none", g, 7, 1], 1])]),
        ("one fill_none 0", [ONE, show(["num", ["fill_none", g, 7, 0], 1])]),
        ("one pack", [ONE, json.dumps({"pack": g})]),
        ("one local_index 1", [ONE, show(["num", ["local_index", g, 1], 1])]),
        ("one pad_none 1 clip", [ONE, show(["num", ["pad_none", g, 1, 1, True], 1])]),
        ("one pad_none 1 clip same", [ONE, show(["num", ["pad_none", g, LIMIT - 1, 1, True], 1])]),
        ("one pad_none 1 more", [ONE, show(["num", ["pad_none", g, LIMIT, 1, False], 1])]),
        ("one pad_none 1 past", [ONE, show(["num", ["pad_none", g, LIMIT + 1, 1, True], 1])]),
        ("one pad_none 0 past", [ONE, show(["num", ["pad_none", g, LIMIT + 1, 0, True], 0])]),
        ("one singletons 1", [ONE, show(["num", ["singletons", g, 1], 1])]),
        ("one firsts 1", [ONE, show(["firsts", g, 1])]),
        ("one at_each", [ONE, show(["at_each", g, -1])]),
        ("many pack", [MANY, json.dumps({"pack": g})]),
        ("many concatenate 0", [MANY, show(["num", ["concatenate", 0, [g, g]], 0])]),
        ("many drop_none 0", [MANY, show(["num", ["drop_none", g, 0], 0])]),
        ("many fill_none 0", [MANY, show(["num", ["fill_none", g, 7, 0], 0])]),
        ("many is_none 0", [MANY, show(["num", ["is_none", g, 0], 0])]),
        ("many pad_none 0 clip", [MANY, show(["num", ["pad_none", g, 1, 0, True], 0])]),
    ]
    for m in [200, 500]:
        found += levels(m)
    return found


def levels(m: int) -> list[tuple[str, list[str]]]:
    """What is asked of four levels of m lists, which all lie over the same m."""
    x = nested(m)
    asked: list[tuple[str, object]] = []
    for axis in [2, 3, 4]:
        for name in ["num", "flatten", "is_none", "local_index", "drop_none", "singletons", "firsts"]:
            asked.append((f"{name} {axis}", [name, "x", axis]))
        asked.append((f"fill_none {axis}", ["fill_none", "x", 7, axis]))
        asked.append((f"pad_none {axis}", ["pad_none", "x", 1, axis, True]))
    asked += [("sum", ["sum", "x"]), ("sort", ["sort", "x", True]),
              ("concatenate 0", ["concatenate", 0, ["x", "x"]])]
    found = [(f"nested {m} {name}", [x, typed(what)]) for name, what in asked]
    return found + [(f"nested {m} pack", [x, json.dumps({"pack": "x"})])]


def space() -> None:
    resource.setrlimit(resource.RLIMIT_AS, (SPACE, SPACE))


class Run:
    """A session that was run: its status, processor seconds, peak in MB and last answer."""

    def __init__(self, program: str, lines: list[str], seconds: float) -> None:
        with tempfile.TemporaryFile() as session, tempfile.TemporaryFile() as answers:
            session.write("\n".join(lines + [""]).encode())
            session.seek(0)
            child = subprocess.Popen([program, "run"], stdin=session, stdout=answers,
                                     stderr=subprocess.DEVNULL, preexec_fn=space)
            late = threading.Timer(seconds, child.kill)
            late.start()
            _, status, used = os.wait4(child.pid, 0)
            late.cancel()
            child.returncode = os.waitstatus_to_exitcode(status)
            answers.seek(max(0, answers.seek(0, os.SEEK_END) - 200))
            told = answers.read().decode().splitlines()
        self.status = "late" if child.returncode == -9 else str(child.returncode)
        self.seconds = used.ru_utime + used.ru_stime
        self.peak = used.ru_maxrss / 1024
        self.answer = (told or [""])[-1]

    def __str__(self) -> str:
        figures = f"status {self.status:4} {self.seconds:7.2f} s {self.peak:7.0f} MB"
        return f"{figures}  {self.answer[:60]}"


def ratios(program: str, runs: dict[str, Run]) -> None:
    """Prints each session of two sizes with the figures of both."""
    for name, great in runs.items():
        small = runs.get(name.removesuffix("0"))
        if name.endswith(" x10") and small:
            ratio = great.seconds / max(small.seconds, 0.01)
            print(f"| {name[:-4]} | {great.seconds:.2f} | {small.seconds:.2f} | {ratio:.0f} |"
                  f" {great.peak:.0f} | {small.peak:.0f} | {great.status} |")


def main() -> None:
    reader = argparse.ArgumentParser()
    reader.add_argument("programs", nargs="*", default=["crates/awk_cli/out/awk_cli"])
    reader.add_argument("--only", default="")
    reader.add_argument("--seconds", type=float, default=60)
    told = reader.parse_args()
    for program in told.programs:
        runs: dict[str, Run] = {}
        for name, lines in rows():
            if told.only in name:
                runs[name] = Run(program, lines, told.seconds)
                print(f"{name:30} {os.path.basename(program):8} {runs[name]}", flush=True)
        ratios(program, runs)


if __name__ == "__main__":
    main()
