"""What the lines of a check say of an edited function.

A check of a whole crate names each function that is not proved. So if functions of a crate are edited
together, the check shows which of them it refuses for goals of their own, and which only because they
call another one that is refused.

A goal that is not proved is reported in one of three ways: by a note at a place in the code, by a search
that found no proof of it, or by an error where the function's own file Answers.antt answers it. An error
anywhere else in what is written of a proof, as in a lemma, shows that this proof no longer holds, and not
that a goal is refused; with another proof it might be proved.
"""
from __future__ import annotations

import enum
import re
from collections.abc import Collection, Iterable, Iterator, Mapping
from dataclasses import dataclass, field

from edit_files import Function

# A goal that is not proved, at a place in the code.
OPEN_GOAL = re.compile(r"^note: (?P<file>src/\S+?\.rt):(?P<line>\d+):\d+: it is not proved that", re.M)
# An error in what is written of a proof.
PROOF_ERROR = re.compile(
    r"^(?:\./)?(?P<file>proofs/\S+?\.antt):(?P<line>\d+):\d+: error: (?P<what>.*)", re.M
)
# The file in which the goals of a function are answered, and the head of an answer: the name of the goal is
# that of the answer, in the module of the function's goals.
ANSWERS = "Answers.antt"
ANSWER = re.compile(r"^pub (?P<name>\S+) :\s+goal\.(?P=name)(?!\S)", re.M)
# The first line of a declaration, or of one of its equations: it begins at the left edge.
DECLARATION = re.compile(r"^(?:pub )?(?P<name>[^\s(]\S*) ")
# A proof that breaks because it cites what is gone or refused. That is no goal that is refused.
CITES = re.compile(r"is not in scope|has no field|has no `|which was rejected|was not admitted")
SEARCHED = "`search` did not prove"
CALLS = re.compile(r"it calls `|a call of `")
# A text that the prover did not judge, in code or in a clause.
UNREAD = re.compile(
    r"^(?:\./)?(?P<file>(?:src|specs)/\S+?):(?P<line>\d+):\d+: error(?:\[[\w-]+\])?: .*", re.M
)
REACHED_PROVER = re.compile(r"^logic=(?P<proved>proved|not-proved)\b", re.M)


class Said(enum.Enum):
    """What a check says of a function."""

    REFUSED = "refused for goals of its own"
    UNPROVED = "refused only by an error in a proof that was written by hand, and by no goal"
    BLOCKED = "not judged, since it calls another that is not proved"
    SILENT = "proved, or not proved for another reason"
    UNNAMED = "named in no line of the check, or in several"


@dataclass(frozen=True)
class Report:
    """A check that has ended: its exit status, what it printed, what it cost, and the proofs that it read."""

    status: int
    text: str
    processor_seconds: float
    proofs: Mapping[str, str] = field(default_factory=dict)  # the texts of the files in which errors are

    @property
    def proved(self) -> bool:
        """Whether the crate is proved."""
        return self.status == 0 and self._verdict() == "proved"

    @property
    def judged(self) -> bool:
        """Whether the prover came to a verdict; else the check was killed, or could not read a text."""
        return self.proved or (self.status == 1 and self._verdict() == "not-proved")

    @property
    def unread(self) -> list[str]:
        """The lines of errors in the code and the definitions, which are not for the prover to judge."""
        return [found[0] for found in UNREAD.finditer(self.text)]

    def cannot_read(self, functions: Iterable[Function]) -> bool:
        """Whether an error in the code is in one of these functions."""
        errors = [(it["file"], int(it["line"])) for it in UNREAD.finditer(self.text)]
        return any(it.has(file, line) for it in functions for file, line in errors)

    def proves(self, function: Function) -> bool:
        """Whether the check says that a function is proved."""
        name = rf"(?:\w+::)*{re.escape(function.name)}"
        return re.search(rf"^fn {name}: proved\b", self.text, re.M) is not None

    def says(self, function: Function) -> Said:
        """What the check says of a function."""
        lines = re.findall(rf"^fn ((?:\w+::)*{re.escape(function.name)}): (.*)", self.text, re.M)
        if len(lines) != 1:
            return Said.UNNAMED
        name, what = lines[0]
        if what.startswith("proved"):
            return Said.SILENT
        proof = "/".join(["proofs", *name.split("::")[1:], ""])
        errors = [(file, line) for file, line in self._proof_errors() if file.startswith(proof)]
        is_inside = any(function.has(file, line) for file, line in self._open_goals())
        if SEARCHED in what or is_inside or any(self._is_answer(*it) for it in errors):
            return Said.REFUSED
        if errors:
            return Said.UNPROVED
        return Said.BLOCKED if CALLS.search(what) else Said.SILENT

    def says_alone(self, functions: Collection[Function | None]) -> Said:
        """What the check says of these functions, if nothing else was edited.

        Where the edit changed something outside of functions, or a function that the check does not name
        or lists with its trait, any goal of the crate counts.
        """
        known = {self.says(it) for it in functions if it}
        for said in (Said.REFUSED, Said.UNPROVED):
            if said in known:
                return said
        is_certain = Said.UNNAMED not in known and all(it and not it.is_of_trait for it in functions)
        if is_certain or not self.judged:
            return Said.SILENT
        errors = self._proof_errors()
        if self._open_goals() or SEARCHED in self.text or any(self._is_answer(*it) for it in errors):
            return Said.REFUSED
        return Said.UNPROVED if errors else Said.SILENT

    def why(self) -> str:
        """The first lines that say why the check failed, for a person."""
        unproved = re.findall(r"^fn .*: (?:not proved|no proof|could not tell).*", self.text, re.M)
        lines = [*self.unread, *unproved] or self.text.splitlines()
        return "; ".join(line[:200] for line in lines[:3])

    def _verdict(self) -> str | None:
        """The last verdict of the prover, if it came to one."""
        # (the last line is about the crate, those before it are about crates that it uses)
        found = REACHED_PROVER.findall(self.text)
        return found[-1] if found else None

    def _open_goals(self) -> list[tuple[str, int]]:
        """The places in the code of goals that are not proved."""
        return [(it["file"], int(it["line"])) for it in OPEN_GOAL.finditer(self.text)]

    def _proof_errors(self) -> list[tuple[str, int]]:
        """Where proofs have an error that is not about what they cite."""
        found = PROOF_ERROR.finditer(self.text)
        return [(it["file"], int(it["line"])) for it in found if not CITES.search(it["what"])]

    def _is_answer(self, file: str, line: int) -> bool:
        """Whether a line of a proof is in the answer to a goal."""
        if file.rpartition("/")[2] != ANSWERS or file not in self.proofs:
            return False
        return is_in_answer(self.proofs[file], line)


def is_in_answer(text: str, line: int) -> bool:
    """Whether a line of a file of answers, counted from 1, is in the answer to a goal; else it is in a lemma."""
    answers = {it["name"] for it in ANSWER.finditer(text)}
    begun = filter(None, map(DECLARATION.match, reversed(text.splitlines()[:line])))
    first = next((it["name"] for it in begun if it["name"] not in ("--", "use")), None)
    return first in answers


def files_with_errors(text: str) -> Iterator[str]:
    """The files of proofs in which a check found errors, by what it printed."""
    yield from dict.fromkeys(it["file"] for it in PROOF_ERROR.finditer(text))
