"""The crates of the repository, and how rattle is asked to check and to build them."""

from __future__ import annotations

import hashlib
import os
import shutil
import signal
import subprocess
import sys
import tempfile
import threading
from dataclasses import dataclass
from pathlib import Path

TOP = Path(__file__).resolve().parent.parent
KIT = Path(shutil.which("rt") or "").resolve().parent.parent
PARTS = ("src", "specs", "proofs")
# Starts a command as a process group of its own, with so many processor seconds, or -1: no limit.
START = """import os, resource, sys
os.setpgid(0, 0)
resource.setrlimit(resource.RLIMIT_CPU, (int(sys.argv[1]), int(sys.argv[1])))
os.execvp(sys.argv[2], sys.argv[2:])"""


class Crate:
    """A crate, the libraries that it names, and a sum of all the texts that it is made of."""

    def __init__(self, name: str, row: str, of_kit: list[str], deps: list[Crate]) -> None:
        self.name, self.of_kit, self.deps = name, of_kit, deps
        self.folder = TOP / "crates" / name
        files = [it for part in PARTS for it in sorted((self.folder / part).rglob("*"))]
        self.files = [it for it in files if it.is_file()]
        self.lines = sum(it.read_bytes().count(b"\n") for it in self.files)
        texts = [(str(it.relative_to(self.folder)), it.read_bytes()) for it in self.files]
        kit = (KIT / "KIT-ID").read_bytes()
        said = repr((kit, row, texts, [it.stamp for it in deps]))
        self.stamp = hashlib.sha256(said.encode()).hexdigest()[:24]

    def below(self) -> list[Crate]:
        """The libraries of the repository below it, each after those that it names."""
        found: list[Crate] = []
        for dep in self.deps:
            found += [it for it in [*dep.below(), dep] if it not in found]
        return found

    def newest(self) -> float:
        """When a source of it or of a library below it was last changed."""
        files = [file for it in [self, *self.below()] for file in it.files]
        return max(it.stat().st_mtime for it in [TOP / "crates.txt", *files])


def read_crates() -> dict[str, Crate]:
    """The crates of crates.txt by their names."""
    rows: dict[str, str] = {}
    for line in (TOP / "crates.txt").read_text(encoding="utf-8").split("\n"):
        row = line.partition("#")[0].strip()
        if row:
            rows[row.replace(":", " ").split()[0]] = row
    found: dict[str, Crate] = {}

    def read(name: str) -> Crate:
        if name not in found:
            uses = rows[name].partition(":")[2].split()
            deps = [read(it) for it in uses if it in rows]
            of_kit = [it for it in uses if it not in rows]
            found[name] = Crate(name, rows[name], of_kit, deps)
        return found[name]

    for name in rows:
        read(name)
    return found


def words_of(crate: Crate, libraries: Path) -> list[str]:
    """What rattle is told of a crate whose libraries lie in this folder, each under its stamp."""
    words = ["--crate-name", crate.name, "src/lib.rt"]
    for name in ["std", *crate.of_kit]:
        words += ["--extern", f"{name}={KIT}/rlibs/{name}.rlib"]
    words += ["-L", f"dependency={KIT}/rlibs"]
    for it in crate.deps:
        words += ["--extern", f"{it.name}={libraries}/{it.stamp}/{it.name}.rlib"]
    for it in crate.below():
        words += ["-L", f"dependency={libraries}/{it.stamp}"]
    words += ["--antt-project", f"{KIT}/rattle/logic/antt-project.json"]
    words += ["--logic-built", f"{KIT}/logic_built", "--links", f"{crate.name}=", "--jobs", "1"]
    return words


@dataclass(frozen=True)
class Ran:
    """How a run of rattle ended, what it wrote, and its processor seconds."""

    status: int
    text: str
    seconds: float


class Rattle:
    """Runs rattle, and ends what runs when it is told to stop."""

    def __init__(self) -> None:
        self.lock = threading.Lock()
        self.running: set[int] = set()
        self.is_stopped = False

    def run(self, words: list[str], folder: Path, limit: int = -1) -> Ran:
        start = [sys.executable, "-ISc", START, str(limit), str(KIT / "bin" / "rattle")]
        with tempfile.TemporaryFile() as out:
            with self.lock:
                if self.is_stopped:
                    raise SystemExit(1)
                started = subprocess.Popen(
                    [*start, *words], cwd=folder, stdin=subprocess.DEVNULL, stdout=out,
                    stderr=subprocess.STDOUT,
                )
                self.running.add(started.pid)
            _, status, used = os.wait4(started.pid, 0)
            with self.lock:
                self.running.discard(started.pid)
                if self.is_stopped:
                    raise SystemExit(1)
            started.returncode = os.waitstatus_to_exitcode(status)
            out.seek(0)
            text = out.read().decode(errors="replace")
        return Ran(started.returncode, text, used.ru_utime + used.ru_stime)

    def stop(self) -> None:
        with self.lock:
            self.is_stopped = True
            for pid in self.running:
                os.killpg(pid, signal.SIGKILL)
