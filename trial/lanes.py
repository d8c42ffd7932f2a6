"""Runs tasks side by side, first those with the longest chain of others behind them."""

from __future__ import annotations

import os
import re
from collections.abc import Callable
from concurrent.futures import FIRST_COMPLETED, Future, ThreadPoolExecutor, wait
from dataclasses import dataclass

# What a check is given, in KiB: few take more.
MEMORY = 3 * 2**20


@dataclass(frozen=True)
class Task:
    """What has to be done before it, its work in lines, and a call that gets whether all that
    it waits for went well, and gives whether it does."""

    waits: list[str]
    work: int
    do: Callable[[bool], bool]


def lanes() -> int:
    """How many checks run side by side."""
    named = os.environ.get("EDITS_LANES", "")
    if named.isdigit():
        return max(int(named), 1)
    with open("/proc/meminfo", encoding="utf-8") as file:
        free = re.search(r"MemAvailable:\s+(\d+)", file.read())
    fit = int(free[1]) // MEMORY if free else 1
    return max(min(len(os.sched_getaffinity(0)), fit), 1)


def run_all(tasks: dict[str, Task], count: int) -> dict[str, bool]:
    """Runs all tasks, in `count` lanes, and tells which went well."""
    order = _order(tasks)
    running: dict[Future[bool], str] = {}
    given: dict[str, bool] = {}
    with ThreadPoolExecutor(count) as pool:
        while order or running:
            ready = [it for it in order if all(below in given for below in tasks[it].waits)]
            for name in ready[: count - len(running)]:
                order.remove(name)
                well = all(given[it] for it in tasks[name].waits)
                running[pool.submit(tasks[name].do, well)] = name
            for it in wait(running, return_when=FIRST_COMPLETED).done:
                given[running.pop(it)] = it.result()
    return given


def _order(tasks: dict[str, Task]) -> list[str]:
    """The tasks by the work of the longest chain that begins with each, the longest first."""
    above: dict[str, list[str]] = {it: [] for it in tasks}
    for name, task in tasks.items():
        for it in task.waits:
            above[it].append(name)
    chain: dict[str, int] = {}

    def measure(name: str) -> int:
        if name not in chain:
            longest = max((measure(it) for it in above[name]), default=0)
            chain[name] = tasks[name].work + longest
        return chain[name]

    return sorted(tasks, key=measure, reverse=True)
