"""The folder in which libraries are built and edits are tried, and what is found there."""

from __future__ import annotations

import hashlib
import json
import os
import shutil
from dataclasses import asdict
from pathlib import Path

from crates import Crate, Rattle, words_of
from sources import Edit
from verdicts import Verdict


class Room:
    def __init__(self, folder: Path) -> None:
        self.libraries = folder / "libraries"
        self.tried = folder / "tried"
        self.folder = folder
        for it in (self.libraries, self.tried):
            it.mkdir(parents=True, exist_ok=True)

    def kept(self, crate: Crate) -> Path:
        """Where the checks of a crate with edits keep what they proved."""
        return self.folder / "kept" / crate.stamp

    def is_built(self, crate: Crate) -> bool:
        return (self.libraries / crate.stamp).is_dir()

    def take(self, crate: Crate) -> bool:
        """Takes over the library that a gate has left, where no source is newer; none that
        another command of rt has left, which has a stamp beside it."""
        left = crate.folder / "out" / "rlib"
        library = left / f"{crate.name}.rlib"
        made = library / "format"
        if (left / "stamp").exists() or not made.is_file():
            return False
        if made.stat().st_mtime <= crate.newest():
            return False
        part = self._part(crate)
        shutil.copytree(library, part / library.name, copy_function=_link)
        part.rename(self.libraries / crate.stamp)
        return True

    def build(self, crate: Crate, rattle: Rattle) -> tuple[float, str]:
        """Proves and builds a library, and gives the processor seconds, and what was said where
        it is not proved."""
        part = self._part(crate)
        part.mkdir()
        library = part / f"{crate.name}.rlib"
        words = ["build", *words_of(crate, self.libraries), "--statements", "-o", str(library)]
        ran = rattle.run(words, crate.folder)
        if ran.status:
            shutil.rmtree(part)
            return ran.seconds, " | ".join(ran.text.rstrip().split("\n")[-2:])[-300:]
        part.rename(self.libraries / crate.stamp)
        return ran.seconds, ""

    def spend(self, on: str, seconds: float) -> dict[str, float]:
        """Notes processor seconds, and gives all that were spent in this room."""
        file = self.folder / "seconds.json"
        spent = {"proofs": 0.0, "edits": 0.0}
        if file.is_file():
            spent = json.loads(file.read_text(encoding="utf-8"))
        spent[on] += seconds
        file.write_text(json.dumps(spent), encoding="utf-8")
        return spent

    def verdict(self, crate: Crate, edit: Edit) -> Verdict | None:
        """What was found out of an edit, over the same texts."""
        file = self._file(crate, edit)
        return Verdict(**json.loads(file.read_text(encoding="utf-8"))) if file.is_file() else None

    def keep(self, crate: Crate, edit: Edit, verdict: Verdict) -> None:
        self._file(crate, edit).write_text(json.dumps(asdict(verdict)), encoding="utf-8")

    def _part(self, crate: Crate) -> Path:
        part = self.libraries / f"{crate.stamp}.part"
        shutil.rmtree(part, ignore_errors=True)
        return part

    def _file(self, crate: Crate, edit: Edit) -> Path:
        own = hashlib.sha256(edit.text.encode()).hexdigest()[:24]
        return self.tried / f"{crate.stamp}-{own}.json"


def _link(source: str, to: str) -> None:
    try:
        os.link(source, to)
    except OSError:
        shutil.copy2(source, to)
