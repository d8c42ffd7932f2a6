"""Tries the edits of one crate."""

from __future__ import annotations

import shutil
import tempfile
from collections.abc import Iterable
from dataclasses import dataclass
from pathlib import Path

from crates import PARTS, Crate, Ran, Rattle, words_of
from sources import BadEdit, Edit, Function, Texts, applied, functions_of, read_sources
from verdicts import Verdict, bad_edit, is_proved, not_tried, of_check, of_compiler
from verdicts import of_function, reason

# How many processor seconds a check of one edited function gets, and one of a whole crate.
LIMIT = 1800
WHOLE_LIMIT = 7200


@dataclass(eq=False)
class Target:
    """An edit of code, with what it changes. It is tried alone where that is more than bodies of
    functions, or where it names what is to be checked."""

    edit: Edit
    texts: Texts
    functions: list[Function]
    is_alone: bool
    was_tried: bool = False

    def names(self) -> list[str]:
        return list(self.edit.only) or sorted({it.name for it in self.functions})


class Trial:
    """Checks of a crate with edits, over what they keep in a folder."""

    def __init__(self, crate: Crate, libraries: Path, kept: Path, rattle: Rattle) -> None:
        self.crate, self.kept, self.rattle = crate, kept, rattle
        self.words = words_of(crate, libraries)
        self.texts = read_sources(crate.folder)
        self.seconds = 0.0
        # the functions that were asked for with an edit in place; none: the whole crate was
        self.asked: set[str] | None = set()

    def try_all(self, edits: Iterable[Edit]) -> dict[Edit, Verdict]:
        """What the checks say of each edit. It is to be believed where `complaint` is empty."""
        found: dict[Edit, Verdict] = {}
        left: list[Target] = []
        for edit in edits:
            try:
                target = self._target(edit)
            except BadEdit as why:
                found[edit] = bad_edit(str(why))
                continue
            if edit.compiler:
                found[edit] = of_compiler(self._check(target.texts, {""}), edit.compiler)
            else:
                left.append(target)
        while left:
            batch = _batch(left, self.texts)
            settled = self._try_together(batch) if len(batch) > 1 else {}
            for it in batch:
                if it in settled:
                    found[it.edit] = settled[it]
                elif settled and not it.was_tried:
                    # it may call one that is settled now
                    it.was_tried = True
                    continue
                else:
                    found[it.edit] = self._try_alone(it)
                left.remove(it)
        return found

    def complaint(self) -> str:
        """Why the crate is not proved without an edit, over what its checks kept."""
        if self.asked is not None and not self.asked:
            return ""
        ran = self._check({}, self.asked, WHOLE_LIMIT)
        return reason(ran) if ran.status else ""

    def forget(self) -> None:
        shutil.rmtree(self.kept, ignore_errors=True)

    def _target(self, edit: Edit) -> Target:
        made, places = applied(edit, self.texts)
        texts = {path: text for path, text in made.items() if text != self.texts[path]}
        functions = [it for it in places if it]
        return Target(edit, texts, functions, None in places or bool(edit.only))

    def _try_together(self, batch: list[Target]) -> dict[Target, Verdict]:
        """The verdicts on those edits of several that one check of their functions tells."""
        made = self.texts
        for it in batch:
            made, _ = applied(it.edit, made)
        texts = {path: text for path, text in made.items() if text != self.texts[path]}
        names = {name for it in batch for name in it.names()}
        ran = self._check(texts, names, len(batch) * LIMIT)
        said = of_check(ran, texts)
        if said and not said.is_refused:
            return {}
        here = {it.name: it for path in texts for it in functions_of(path, made)}
        found: dict[Target, Verdict] = {}
        for it in batch:
            own = [here[function.name] for function in it.functions if function.name in here]
            verdicts = [of_function(ran, function) for function in own]
            refused = [verdict for verdict in verdicts if verdict]
            if refused:
                found[it] = min(refused, key=lambda verdict: verdict.by_name)
            elif all(is_proved(ran, function) for function in own):
                found[it] = self._try_whole(it)
        return found

    def _try_alone(self, target: Target) -> Verdict:
        names = set(target.names())
        if not names:
            return self._try_whole(target)
        ran = self._check(target.texts, names)
        is_named = not (ran.status == 2 and "has no function" in ran.text)
        verdict = of_check(ran, target.texts) if is_named else None
        return verdict or self._try_whole(target)

    def _try_whole(self, target: Target) -> Verdict:
        ran = self._check(target.texts, None, WHOLE_LIMIT)
        verdict = of_check(ran, target.texts)
        return verdict or Verdict(False, "NOT REFUSED: the crate is still proved with this edit")

    def _check(self, texts: Texts, only: set[str] | None, limit: int = LIMIT) -> Ran:
        """Checks a copy of the crate with these texts: the functions of these names, or all."""
        words = ["check", *self.words, "--incremental", str(self.kept)]
        for name in sorted(only or ()):
            words += ["--only", name]
        if texts:
            self.asked = None if only is None or self.asked is None else self.asked | only - {""}
        with tempfile.TemporaryDirectory(prefix="edits-") as room:
            for part in PARTS:
                if (self.crate.folder / part).is_dir():
                    shutil.copytree(self.crate.folder / part, Path(room, part))
            for path, text in texts.items():
                Path(room, path).write_text(text, encoding="utf-8")
            ran = self.rattle.run(words, Path(room), limit)
        self.seconds += ran.seconds
        return ran


def _batch(left: list[Target], texts: Texts) -> list[Target]:
    """Edits of different functions, or one that is tried alone."""
    first, *others = left
    batch = [first]
    if first.is_alone or not first.functions:
        return batch
    taken = {it.proof for it in first.functions}
    made, _ = applied(first.edit, texts)
    for it in others:
        own = {function.proof for function in it.functions}
        if it.is_alone or not own or own & taken:
            continue
        try:
            made, _ = applied(it.edit, made)
        except BadEdit:
            continue
        batch.append(it)
        taken |= own
    return batch


def try_apart(trial: Trial, edits: Iterable[Edit]) -> dict[Edit, Verdict]:
    """Tries each edit over a folder of its own, and what it asked for after it."""
    found: dict[Edit, Verdict] = {}
    for edit in edits:
        trial.forget()
        trial.asked = set()
        found.update(trial.try_all([edit]))
        why = trial.complaint()
        if why:
            found[edit] = not_tried(f"not proved without it: {why}")
    return found
