"""What a check of an edited crate says of the edit."""

from __future__ import annotations

import re
from collections.abc import Iterable
from dataclasses import dataclass

from crates import Ran
from sources import Function

PLACED = re.compile(r"(?:note: )?(?:\./)?(\S+?):(\d+):\d+: (.*)")
# What a proof file says that names what an edit took away, and what cites that file.
LOST = re.compile(r"has no field|is not in scope|has no `|was not admitted")
UNREAD = re.compile(
    r"is not in scope|has no field|is no name|operand is missing|expected the end|cannot continue"
)
STALE = re.compile(r"module .Rattle-(\w+)-.*Run the lower steps again")


@dataclass(frozen=True)
class Verdict:
    """Whether an edit is refused, and what is said of it; `by_name`: only for a lost name."""

    is_refused: bool
    said: str
    by_name: bool = False
    was_tried: bool = True


def not_tried(why: str) -> Verdict:
    return Verdict(False, f"NOT TRIED: {why}", was_tried=False)


def bad_edit(why: str) -> Verdict:
    return Verdict(False, f"BAD EDIT: {why}")


def of_compiler(ran: Ran, error: str) -> Verdict:
    """The verdict on an edit that the compiler is to refuse."""
    found = [it for it in ran.text.split("\n") if error in it]
    if ran.status == 1 and found and "only=" not in ran.text:
        return Verdict(True, f"refused, as it must be, by the compiler: {found[0][:160]}")
    return Verdict(False, f"NOT REFUSED by the compiler: {error}")


def of_check(ran: Ran, paths: Iterable[str]) -> Verdict | None:
    """The verdict of a check of these functions or of the whole crate, with edits of these files;
    none where all that was asked is proved."""
    lines = ran.text.rstrip("\n").split("\n")
    unread = next((it for it in lines if _is_unread(it, set(paths))), "")
    if unread:
        return bad_edit(f"the prover cannot read the edited text: {unread[:200]}")
    if STALE.search(ran.text):
        return not_tried("a library could not be used")
    if ran.status == 0:
        return None
    if ran.status == 1 and lines[-1].startswith(("logic=not-proved", "only=")):
        return _refused(_complaints(lines))
    if ran.status == 3 or ran.status < 0:
        return not_tried(f"no verdict after {ran.seconds:.0f} s of a processor ({ran.status})")
    return bad_edit(f"it did not reach the prover: {' | '.join(lines[:2])[:300]}")


def of_function(ran: Ran, function: Function) -> Verdict | None:
    """The verdict on one function of several that a check was asked for; none where the check
    does not tell, as where the function calls one that is not proved."""
    lines = ran.text.split("\n")
    told = [it for it in lines if re.match(rf"fn \w+::{re.escape(function.name)}: ", it)]
    found = [it for it in _complaints(lines) if _is_of(it, function)]
    is_open = any(re.search(r": (not proved|no proof: expected)", it) for it in told)
    return _refused(found or told) if is_open else None


def reason(ran: Ran) -> str:
    """The first that a check says is not proved, or how it ended."""
    first = [*_complaints(ran.text.split("\n")), f"status {ran.status}"][0]
    return first[:160]


def is_proved(ran: Ran, function: Function) -> bool:
    return re.search(rf"(?m)^fn \w+::{re.escape(function.name)}: proved$", ran.text) is not None


def _refused(complaints: list[str]) -> Verdict:
    first = next((it for it in complaints if not _is_lost_name(it)), "")
    if complaints and not first:
        why = "only because a proof file names what the edit takes away, which says little"
        return Verdict(True, f"refused, but {why}: {complaints[0][:160]}", by_name=True)
    return Verdict(True, f"refused, as it must be{': ' + first[:160] if first else ''}")


def _complaints(lines: list[str]) -> list[str]:
    """The lines that say at which place something is not proved, or else which function is not."""
    placed = [it for it in lines if PLACED.match(it)]
    found = [it for it in placed if ": error" in it or "not proved" in it] or placed
    return found or [it for it in lines if re.match(r"fn \S+: (not proved|no proof)", it)]


def _is_lost_name(line: str) -> bool:
    return re.match(r"(\./)?proofs/", line) is not None and LOST.search(line) is not None


def _is_unread(line: str, paths: set[str]) -> bool:
    """Whether antt could not read a text of src/, specs/ or an edited file, where an edit that
    only makes a statement false reads well."""
    at = re.match(r"(?:\./)?(\S+?):\d+:\d+: error: (?:(`[^`]*`): )?(.*)", line)
    if not at or (at[1] not in paths and not at[1].startswith(("src/", "specs/"))):
        return False
    return not at[2] or UNREAD.search(re.sub(r"`[^`]*`", "", at[3])) is not None


def _is_of(line: str, function: Function) -> bool:
    """Whether a line names a place of a function or of the files of its proof."""
    at = PLACED.match(line)
    if not at:
        return False
    within = function.first < int(at[2]) <= function.last + 1
    return function.proof in f"/{at[1]}" or (at[1] == function.path and within)
