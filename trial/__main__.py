"""Tries edits, wrong bodies that the contracts of a crate must refuse. `./edits.sh` runs it.

    python3 trial CRATE..
    python3 trial --gate     tries the edits of all crates that have a line '# gate'

Each library below the crates is proved and built once, by `rattle build --statements`, as the gate
does it. What a gate has left in crates/NAME/out/rlib is taken, unless a source is newer.

An edit is then applied to a copy of its crate, and the functions in whose bodies its changed texts
stand are checked by `rattle check --only`, with those that they call. The proof of a function
speaks of its own body and of the contracts of others, so what such a check refuses, a check of the
crate refuses too. Edits of different functions are tried by one check, and each is judged by its
own functions. Where these are still proved, or a text stands in no body, the crate is checked.

An edit may have the lines
    # only: MODULE::FUNCTION    a function to check in place of those that are found
    # compiler: TEXT            the compiler refuses this edit, with an error of this text

The checks of a crate take over what those before them proved, in a folder that goes at the end.
Last the functions that were named have to be proved over it without an edit. Where they are not,
each edit of the crate is tried again over a folder of its own, and its functions after it.

    EDITS_ROOM=FOLDER    keeps what is built and tried there: of the same texts nothing is done
                         twice, so that a run can be stopped and taken up again. The processor
                         minutes that are told are those of all runs in the room
    EDITS_LANES=N        so many checks side by side; else one a processor, with 3 GB for each

The status is 0 where each edit is refused, and 1 where one is not, or was not tried.
"""

from __future__ import annotations

import os
import shutil
import signal
import sys
import tempfile
import threading
import time
from functools import partial
from pathlib import Path

from crates import TOP, Crate, Rattle, read_crates
from lanes import Task, lanes, run_all
from room import Room
from sources import Edit, read_edit
from trial import Trial, try_apart
from verdicts import Verdict, not_tried

# The work of an edit, in lines of a crate that take as long to prove.
WORK = 300


class Run:
    """A run over crates: its room, and what it has found."""

    def __init__(self, folder: Path) -> None:
        self.room, self.rattle = Room(folder), Rattle()
        self.lock = threading.Lock()
        self.found: dict[Edit, Verdict] = {}

    def tell(self, text: str) -> None:
        print(f"edits.sh: {text}", flush=True)

    def build(self, crate: Crate, is_ready: bool) -> bool:
        """Has the library of a crate in the room."""
        if not is_ready:
            return False
        if self.room.is_built(crate) or self.room.take(crate):
            return True
        seconds, why = self.room.build(crate, self.rattle)
        with self.lock:
            self.room.spend("proofs", seconds)
            self.tell(f"{crate.name} {f'NOT PROVED: {why}' if why else f'proved, {seconds:.0f} s'}")
        return not why

    def try_crate(self, crate: Crate, edits: list[Edit], is_ready: bool) -> bool:
        """Tries the edits of a crate that the room has no verdict on, and tells of all."""
        known = {it: self.room.verdict(crate, it) for it in edits}
        found = {it: verdict for it, verdict in known.items() if verdict}
        left = [it for it in edits if it not in found]
        seconds = 0.0
        if left and is_ready:
            tried, seconds = self._try(crate, left)
            found.update(tried)
        with self.lock:
            self.room.spend("edits", seconds)
            for it in edits:
                self.found[it] = found.get(it) or not_tried("a library below is not proved")
                self.tell(f"{it.crate}/{it.name}: {self.found[it].said}")
            self.tell(f"{crate.name}: {len(edits)} edits, {seconds:.0f} s")
        return all(self.found[it].is_refused for it in edits)

    def tell_all(self, seconds: float) -> None:
        """Tells what came of all edits, and what it took."""
        refused = [it for it in self.found.values() if it.is_refused]
        named = sum(it.by_name for it in refused)
        for it, verdict in self.found.items():
            if not verdict.is_refused:
                self.tell(f"{it.crate}/{it.name} is not refused")
        spent = self.room.spend("edits", 0.0)
        proofs, edits = (f"{spent[it] / 60:.0f}" for it in ("proofs", "edits"))
        self.tell(f"{proofs} processor minutes of proofs and {edits} of edits in this room;"
                  f" this run took {seconds / 60:.0f} minutes")
        self.tell(f"{len(self.found)} edits, of which {len(refused)} are refused, {named} of them"
                  " only for a name that a proof file lacks then")

    def _try(self, crate: Crate, edits: list[Edit]) -> tuple[dict[Edit, Verdict], float]:
        trial = Trial(crate, self.room.libraries, self.room.kept(crate), self.rattle)
        found = trial.try_all(edits)
        if trial.complaint():
            found = try_apart(trial, edits)
        trial.forget()
        for it, verdict in found.items():
            if verdict.was_tried:
                self.room.keep(crate, it, verdict)
        return found, trial.seconds


def edits_of(crate: str) -> list[Edit]:
    return [read_edit(file) for file in sorted((TOP / "edits" / crate).glob("*.edit"))]


def edits_of_all(names: list[str]) -> dict[str, list[Edit]]:
    """The edits of these crates, or for --gate all those that the gate tries, by their crates."""
    if names != ["--gate"]:
        return {it: edits_of(it) for it in names}
    all_edits = {it.name: edits_of(it.name) for it in sorted((TOP / "edits").iterdir())}
    of_gate = {it: [edit for edit in all_edits[it] if edit.of_gate] for it in all_edits}
    return {it: edits for it, edits in of_gate.items() if edits}


def tasks_of(run: Run, edits: dict[Crate, list[Edit]]) -> dict[str, Task]:
    """The edits of each crate, and each library once that lies below those that are to be tried.
    Edits that the room has a verdict on wait for nothing."""
    left = {it: [edit for edit in own if not run.room.verdict(it, edit)]
            for it, own in edits.items()}
    tasks: dict[str, Task] = {}
    for it in {it.name: it for crate in edits if left[crate] for it in crate.below()}.values():
        build = partial(run.build, it)
        tasks[it.name] = Task([dep.name for dep in it.deps], it.lines, build)
    for it, own in edits.items():
        waits = [dep.name for dep in it.deps] if left[it] else []
        work = it.lines // 4 + WORK * len(left[it])
        tasks[f"edits of {it.name}"] = Task(waits, work, partial(run.try_crate, it, own))
    return tasks


def try_crates(names: list[str], folder: Path) -> bool:
    run, start = Run(folder), time.monotonic()

    def stop(*_: object) -> None:
        run.rattle.stop()
        raise SystemExit(1)

    for it in (signal.SIGINT, signal.SIGTERM, signal.SIGHUP):
        signal.signal(it, stop)
    listed = read_crates()
    edits = {listed[it]: own for it, own in edits_of_all(names).items()}
    run_all(tasks_of(run, edits), lanes())
    run.tell_all(time.monotonic() - start)
    return all(it.is_refused for it in run.found.values())


def main(names: list[str]) -> int:
    if not shutil.which("rt"):
        print("edits.sh: the command rt of the kit is not on the path", file=sys.stderr)
        return 1
    named = os.environ.get("EDITS_ROOM")
    if named:
        return 0 if try_crates(names, Path(named).absolute()) else 1
    with tempfile.TemporaryDirectory(prefix="edits-") as folder:
        return 0 if try_crates(names, Path(folder)) else 1


if __name__ == "__main__":
    sys.exit(main(sys.argv[1:]))
